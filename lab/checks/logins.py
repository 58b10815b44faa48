"""Scripted subscribers that authenticate themselves at a scripted RADIUS server, and what the gateway should ask and answer.

What is wanted is what RFC 1334 (PAP), RFC 1994 (CHAP), RFC 2865 and RFC 2869 (RADIUS) ask, and what docs/ says where they
leave a choice."""

import hashlib
import time

from checks.sessions import is_three_seconds
from machine.gateway import Lab, totals
from peers import pppoe, radius_packets
from peers.login import PASSWORD, USER, open_link, pap, say_password, say_response
from peers.pppoe import CHAP, LCP, Packet
from peers.radius_packets import ACCESS_ACCEPT, ACCESS_CHALLENGE, ACCESS_REJECT, FRAMED, LOGIN, REPLY_MESSAGE
from peers.radius_server import hear_request, send_reply
from peers.subscriber import MAGIC, Line, padt


def wanted(host, *proof):
    """The attributes of an Access-Request but for the proof and the Message-Authenticator, by rising type."""
    station = ":".join(f"{octet:02x}" for octet in host.mac).encode()
    port_id = f"p1/{host.mac.hex()}/{host.session}".encode()
    return sorted([
        (radius_packets.USER_NAME, USER), (radius_packets.NAS_IP_ADDRESS, bytes([192, 168, 1, 16])),
        (radius_packets.NAS_PORT, host.session.to_bytes(4, "big")), FRAMED, (radius_packets.FRAMED_PROTOCOL, (1).to_bytes(4, "big")),
        (radius_packets.CALLING_STATION_ID, station), (radius_packets.NAS_IDENTIFIER, b"bng1"),
        (radius_packets.NAS_PORT_TYPE, (5).to_bytes(4, "big")), (radius_packets.NAS_PORT_ID, port_id), *proof,
    ])


def says(request, *kinds):
    """Its attributes without these."""
    return [(kind, value) for kind, value in request.attributes if kind not in kinds]


def accepts_by_pap(checks, lab, line):
    host = open_link(line, "020000000002", by_pap=True)
    say_password(host)
    request, octets = hear_request(lab)
    say_password(host, 2, shared=b"another")
    hidden = (radius_packets.USER_PASSWORD, radius_packets.MESSAGE_AUTHENTICATOR)
    checks.same("a password becomes an Access-Request", (request.code, says(request, *hidden)), (1, wanted(host)))
    checks.same("its attributes stand by rising type", [k for k, _ in request.attributes], sorted(k for k, _ in request.attributes))
    checks.same("it hides the password", (radius_packets.password(request), PASSWORD in octets), (PASSWORD, False))
    checks.same("it has a right Message-Authenticator", radius_packets.is_signed(request), True)
    right = radius_packets.answer(request, ACCESS_ACCEPT, FRAMED, (REPLY_MESSAGE, b"welcome"))
    other = request._replace(identifier=request.identifier ^ 1)
    unsigned = radius_packets.Radius(ACCESS_ACCEPT, 0, bytes(16), [(radius_packets.MESSAGE_AUTHENTICATOR, bytes(16))])
    forged = radius_packets.sign(unsigned._replace(attributes=[FRAMED]), request)
    bad = {
        "of another sender": (right, lab.stranger),
        "with another identifier": (radius_packets.answer(other, ACCESS_ACCEPT, FRAMED), None),
        "with one octet changed": (right[:25] + bytes([right[25] ^ 1]) + right[26:], None),
        "with another secret": (radius_packets.answer(request, ACCESS_ACCEPT, FRAMED, secret=b"other"), None),
        "with a Length below 20": (right[:2] + b"\x00\x13" + right[4:], None),
        "cut short": (right[:19], None),
        "of one octet": (b"\x02", None),
        "with a wrong Message-Authenticator": (wrongly_authenticated(request), None),
    }
    for octets, end in bad.values():
        send_reply(lab, octets, end)
    time.sleep(0.3)
    checks.same("bad replies, and a second password meanwhile, change nothing", line.is_quiet(), True)
    send_reply(lab, right)
    checks.same("an Accept becomes an Ack with its text", host.hear_packet(), pap(pppoe.AUTHENTICATE_ACK, 1, b"welcome"))
    send_reply(lab, right)
    send_reply(lab, forged)
    say_password(host, 3)
    checks.same("the password again gets the same reply", host.hear_packet(), pap(pppoe.AUTHENTICATE_ACK, 3, b"welcome"))
    asked = host.hear_asked()
    checks.same("the gateway tells its own address by IPCP", pppoe.read_options(asked.data), [(3, bytes([10, 0, 0, 1]))])
    host.say_lcp(pppoe.ECHO_REQUEST, 7, MAGIC[1])
    got = host.hear_packet()
    checks.same("an echo gets its reply", (got.protocol, got.code, got.identifier), (LCP, pppoe.ECHO_REPLY, 7))
    return host


def wrongly_authenticated(request):
    """An Accept whose Response Authenticator is right and whose Message-Authenticator is not."""
    reply = radius_packets.Radius(ACCESS_ACCEPT, request.identifier, request.authenticator, [FRAMED, (radius_packets.MESSAGE_AUTHENTICATOR, bytes(16))])
    return radius_packets.spell(reply._replace(authenticator=hashlib.md5(radius_packets.spell(reply) + radius_packets.SECRET).digest()))


def answers_by_chap(checks, lab, line):
    line.challenges.pop(bytes.fromhex("020000000003"), None)
    host = open_link(line, "020000000003")
    challenge = host.hear_challenge()
    got = (challenge.protocol, challenge.code, challenge.data[:1], len(challenge.data[1:17]), challenge.data[17:])
    checks.same("LCP Opened brings a Challenge of 16 octets with the name", got, (CHAP, pppoe.CHALLENGE, b"\x10", 16, b"bng1"))
    say_response(host, challenge)
    request, _ = hear_request(lab)
    value = bytes([challenge.identifier]) + radius_packets.chap_value(challenge.identifier, PASSWORD, challenge.data[1:17])
    proof = ((radius_packets.CHAP_PASSWORD, value), (radius_packets.CHAP_CHALLENGE, challenge.data[1:17]))
    checks.same("a Response becomes an Access-Request", says(request, radius_packets.MESSAGE_AUTHENTICATOR), wanted(host, *proof))
    checks.same("the server finds the password right", radius_packets.proves(request, PASSWORD), True)
    return host, challenge, request


def refuses(checks, lab, line, what, reply, text):
    """A peer that a reply refuses gets a Failure with its text, and then a Terminate-Request."""
    host, challenge, request = answers_by_chap(checks, lab, line)
    send_reply(lab, reply(request))
    checks.same(f"{what} becomes a Failure", host.hear_packet(), Packet(CHAP, pppoe.FAILURE, challenge.identifier, text))
    got = host.hear_packet()
    checks.same(f"{what} closes the link", (got.protocol, got.code), (LCP, pppoe.TERMINATE_REQUEST))
    host.say_lcp(pppoe.TERMINATE_ACK, got.identifier)
    checks.same(f"the session is over after {what}", host.hear(), padt(host))


def authenticates(checks, command, patience):
    """Subscribers by PAP and by CHAP, good and bad replies, and a server that is silent."""
    with Lab() as lab:
        lab.start(command(lab.configuration), patience)
        line = Line(lab)
        accepted = accepts_by_pap(checks, lab, line)
        message = (REPLY_MESSAGE, b"go away")
        refuses(checks, lab, line, "a Reject", lambda r: radius_packets.answer(r, ACCESS_REJECT, message, (REPLY_MESSAGE, b"2")), b"go away")
        refuses(checks, lab, line, "a Challenge", lambda r: radius_packets.answer(r, ACCESS_CHALLENGE, message), b"go away")
        refuses(checks, lab, line, "an Accept for a Login", lambda r: radius_packets.answer(r, ACCESS_ACCEPT, LOGIN), b"")
        host, challenge, request = answers_by_chap(checks, lab, line)
        send_reply(lab, radius_packets.answer(request, ACCESS_ACCEPT))
        checks.same("an Accept becomes a Success", host.hear_packet(), Packet(CHAP, pppoe.SUCCESS, challenge.identifier, b""))
        checks.same("stop is answered with peers accepted", lab.stop(), b"stopping\n")
        checks.same("each gets a PADT at the stop", (accepted.hear(), host.hear()), (padt(accepted), padt(host)))
        status, out, _ = lab.end()
        checks.same("logins are no packets", (status, out.splitlines()[:5]), (0, totals()))
        checks.same("nothing more was sent to any subscriber", line.is_quiet(), True)


def gives_up_on_a_silent_server(checks, command, patience):
    with Lab(radius_keys="tries = 2\n") as lab:
        lab.start(command(lab.configuration), patience)
        line = Line(lab)
        host = open_link(line, "020000000002", by_pap=True)
        say_password(host)
        _, first = hear_request(lab)
        since = time.monotonic()
        _, second = hear_request(lab)
        between = time.monotonic()
        checks.same("a request that is not answered comes again, octet by octet", second, first)
        checks.same("it comes again after 3 s", is_three_seconds(since, between), True)
        lab.radius.settimeout(0.1)
        checks.same("a server that stays silent is a no", host.hear_packet(), pap(pppoe.AUTHENTICATE_NAK, 1, b"timeout"))
        checks.same("the no comes 3 s after the last request", is_three_seconds(between, host.heard_at), True)
        checks.same("there is no third request", hear_request(lab), (None, None))
        lab.stop()
        checks.same("the status is 0 after a silent server", lab.end()[0], 0)
