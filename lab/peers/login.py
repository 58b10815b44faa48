"""What a scripted subscriber does to log in: LCP, PAP or CHAP, and IPCP."""

import socket

from peers import pppoe, radius_packets
from peers.pppoe import CHAP, IPCP, PAP, Packet, options_octets, packet_octets
from peers.radius_packets import ACCESS_ACCEPT, FRAMED
from peers.radius_server import hear_request, send_reply
from peers.subscriber import MAGIC, Subscriber, begin, cookie_of

USER, PASSWORD = b"nemo", b"arctangent"
BY_PAP = (pppoe.AUTHENTICATION, bytes.fromhex("c023"))

# Options of IPCP (RFC 1332 section 3.3, RFC 1877 section 1.1).
ADDRESS, DNS = 3, 129


def open_link(line, mac, by_pap=False):
    """A subscriber whose LCP is Opened; where it wants PAP it says so by a Configure-Nak (RFC 1661 section 5.3)."""
    host = Subscriber(line, mac)
    host.discover(pppoe.PADI, (pppoe.SERVICE_NAME, b""), to=pppoe.BROADCAST)
    _, asked = begin(host, cookie_of(host.hear()))
    if by_pap:
        host.say_lcp(pppoe.CONFIGURE_NAK, asked.identifier, options_octets([BY_PAP]))
        asked = host.hear_lcp()
    host.say_lcp(pppoe.CONFIGURE_ACK, asked.identifier, asked.data)
    host.say_lcp(pppoe.CONFIGURE_REQUEST, 1, options_octets([MAGIC]))
    acked = host.hear_lcp()
    if acked.code != pppoe.CONFIGURE_ACK:
        raise RuntimeError(f"the host {mac} got no Configure-Ack, but code {acked.code}")
    return host


def say_password(host, identifier=1, user=USER, shared=PASSWORD):
    data = bytes([len(user)]) + user + bytes([len(shared)]) + shared
    host.say(packet_octets(Packet(PAP, pppoe.AUTHENTICATE_REQUEST, identifier, data)))


def say_response(host, challenge, user=USER, shared=PASSWORD):
    value = radius_packets.chap_value(challenge.identifier, shared, challenge.data[1:17])
    host.say(packet_octets(Packet(CHAP, pppoe.RESPONSE, challenge.identifier, b"\x10" + value + user)))


def pap(code, identifier, text=b""):
    """A reply of PAP (RFC 1334 sections 2.2.2 and 2.2.3)."""
    return Packet(PAP, code, identifier, bytes([len(text)]) + text)


def say_ipcp(host, code, identifier, *options):
    host.say(packet_octets(Packet(IPCP, code, identifier, options_octets(options))))


def log_in(lab, line, mac, *attributes):
    """A subscriber that asks with its password, and an Access-Accept with these attributes."""
    host = open_link(line, mac, by_pap=True)
    say_password(host)
    request, _ = hear_request(lab)
    send_reply(lab, radius_packets.answer(request, ACCESS_ACCEPT, FRAMED, *attributes))
    return host


def open_ipcp(checks, host, address, dns=()):
    """It asks for any address, is told its own and the servers of names, and takes them (RFC 1332 section 3.3)."""
    asked = host.hear_asked()
    servers = [(DNS, socket.inet_aton(server)) for server in dns]
    say_ipcp(host, pppoe.CONFIGURE_REQUEST, 1, (ADDRESS, bytes(4)), *[(kind, bytes(4)) for kind, _ in servers])
    told = [(ADDRESS, socket.inet_aton(address)), *servers]
    checks.same(f"{address} is told by a Configure-Nak", host.hear_packet(), Packet(IPCP, pppoe.CONFIGURE_NAK, 1, options_octets(told)))
    say_ipcp(host, pppoe.CONFIGURE_REQUEST, 2, *told)
    checks.same(f"{address} is acknowledged", host.hear_packet(), Packet(IPCP, pppoe.CONFIGURE_ACK, 2, options_octets(told)))
    host.say(packet_octets(asked._replace(code=pppoe.CONFIGURE_ACK)))
