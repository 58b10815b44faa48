"""Scripted subscribers that log in, get an address and pass packets, and what the RADIUS server is told of them.

What is wanted is what RFC 1332 and RFC 1877 (IPCP), RFC 2865 and RFC 2866 (RADIUS) ask, and what docs/ says where they leave
a choice."""

import socket

from machine.gateway import Lab, totals
from peers import pppoe, radius_packets
from peers.ipv4 import packet
from peers.login import USER, log_in, open_ipcp, pap
from peers.pppoe import frame
from peers.radius_packets import FRAMED, number, value
from peers.radius_server import NAS_REQUEST, START, STOP, next_record
from peers.subscriber import Line, padt

USER_REQUEST = 1


def wanted(host, address, serial, status, record, *sums):
    """The attributes of a record of a subscriber's term, which has this number in its shard, by rising type."""
    station = ":".join(f"{octet:02x}" for octet in host.mac).encode()
    identity = dict(record.attributes)[radius_packets.ACCT_SESSION_ID]
    return sorted([
        (radius_packets.USER_NAME, USER), (radius_packets.NAS_IP_ADDRESS, bytes([192, 168, 1, 16])), (radius_packets.NAS_PORT, number(host.session)),
        FRAMED, (radius_packets.FRAMED_PROTOCOL, number(1)), (radius_packets.FRAMED_IP_ADDRESS, socket.inet_aton(address)),
        (radius_packets.CLASS, b"gold"), (radius_packets.CALLING_STATION_ID, station), (radius_packets.NAS_IDENTIFIER, b"bng1"),
        (radius_packets.ACCT_STATUS_TYPE, number(status)), (radius_packets.ACCT_SESSION_ID, identity[:8] + b"%04x%012x" % (host.session, serial)),
        (radius_packets.EVENT_TIMESTAMP, number(value(record, radius_packets.EVENT_TIMESTAMP))), (radius_packets.NAS_PORT_TYPE, number(5)),
        (radius_packets.NAS_PORT_ID, f"p1/{host.mac.hex()}/{host.session}".encode()), *sums,
    ])


def sums(record, octets, cause):
    """What a Stop says of a term of which one packet of so many octets went each way."""
    return [
        (radius_packets.ACCT_INPUT_OCTETS, number(octets)), (radius_packets.ACCT_OUTPUT_OCTETS, number(octets)),
        (radius_packets.ACCT_SESSION_TIME, number(value(record, radius_packets.ACCT_SESSION_TIME))),
        (radius_packets.ACCT_INPUT_PACKETS, number(1)), (radius_packets.ACCT_OUTPUT_PACKETS, number(1)),
        (radius_packets.ACCT_TERMINATE_CAUSE, number(cause)),
        (radius_packets.ACCT_INPUT_GIGAWORDS, number(0)), (radius_packets.ACCT_OUTPUT_GIGAWORDS, number(0)),
    ]


def passes(checks, lab, host, address):
    """A packet from the address and one to it go through, and one from another address does not."""
    said = packet(address)
    lowered = packet(address, ttl=63)
    session = {"subscriber": host.mac.hex(), "session": host.session}
    lab.send(frame(packet("10.0.0.2"), **session))
    lab.send(frame(said, **session))
    checks.same(f"a packet from {address} goes to the core", lab.receive(lab.core)[0], lowered)
    lab.send(packet("192.0.2.1", address), lab.core, "core")
    back = frame(packet("192.0.2.1", address, ttl=63), port=host.mac.hex(), subscriber="0200000000fe", session=host.session)
    checks.same(f"a packet to {address} goes to its subscriber", pppoe.frame_octets(host.hear()), back)


def begins_and_ends(checks, lab, line):
    """A login from its first frame to its Stop."""
    host = log_in(lab, line, "020000000002", (radius_packets.CLASS, b"gold"))
    checks.same("an Accept becomes an Ack", host.hear_packet(), pap(pppoe.AUTHENTICATE_ACK, 1))
    start = next_record(lab)
    checks.same("a term has a Start", start.attributes, wanted(host, "10.0.0.3", 1, START, start))
    open_ipcp(checks, host, "10.0.0.3", ["192.0.2.53"])
    passes(checks, lab, host, "10.0.0.3")
    host.say_lcp(pppoe.TERMINATE_REQUEST, 9)
    stop = next_record(lab)
    checks.same("at its end it has a Stop", stop.attributes, wanted(host, "10.0.0.3", 1, STOP, stop, *sums(stop, 84, USER_REQUEST)))
    got = host.hear_packet()
    checks.same("the end is acknowledged", (got.protocol, got.code, got.identifier), (pppoe.LCP, pppoe.TERMINATE_ACK, 9))


def refuses(checks, lab, line, mac, text, *attributes):
    """An Accept whose address is not to be had becomes a Nak with this text."""
    host = log_in(lab, line, mac, *attributes)
    checks.same(f"an Accept becomes a Nak: {text.decode()}", host.hear_packet(), pap(pppoe.AUTHENTICATE_NAK, 1, text))


def leases_addresses(checks, command, patience):
    """A subscriber gets an address, passes packets and leaves; addresses that are named, held and of no pool. The second
    subscriber is in the shard of the circuit, whose term is the first one there."""
    with Lab(keys='dns = ["192.0.2.53"]\n', acknowledges=False) as lab:
        lab.start(command(lab.configuration), patience)
        next_record(lab)
        line = Line(lab)
        begins_and_ends(checks, lab, line)
        named = (radius_packets.FRAMED_IP_ADDRESS, bytes([10, 0, 0, 50]))
        host = log_in(lab, line, "020000000003", named, (radius_packets.CLASS, b"gold"))
        checks.same("an Accept that names an address is taken", host.hear_packet(), pap(pppoe.AUTHENTICATE_ACK, 1))
        open_ipcp(checks, host, "10.0.0.50")
        start = next_record(lab)
        checks.same("its Start says the address", start.attributes, wanted(host, "10.0.0.50", 2, START, start))
        passes(checks, lab, host, "10.0.0.50")
        refuses(checks, lab, line, "020000000004", b"no address", named)
        refuses(checks, lab, line, "020000000005", b"no address", (radius_packets.FRAMED_IP_ADDRESS, bytes([10, 9, 0, 1])))
        refuses(checks, lab, line, "020000000006", b"no pool", (radius_packets.FRAMED_POOL, b"gold"))
        checks.same("stop is answered with a term live", lab.stop(), b"stopping\n")
        stops = {value(record, radius_packets.NAS_PORT): record for record in (next_record(lab), next_record(lab))}
        stop = stops[host.session]
        checks.same("its Stop says that the gateway stopped", stop.attributes, wanted(host, "10.0.0.50", 2, STOP, stop, *sums(stop, 84, NAS_REQUEST)))
        checks.same("the circuit has its Stop too", sorted(stops), [1025, host.session])
        checks.same("a subscriber with a term gets a PADT at the stop", host.hear(), padt(host))
        status, out, _ = lab.end()
        checks.same("the total is that of all subscribers", (status, out.splitlines()[:6]), (0, [*totals(168, 168), "static 10.0.0.2 in=0 out=0"]))
