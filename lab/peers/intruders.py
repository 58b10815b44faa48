"""Parties that are not honest: hosts and callers that log in as others do, but that send mangled copies of what they say, and a store of messages
of each role, of which mangled copies go out as from nowhere."""

import collections
import hashlib
import socket

from peers import coa, l2tp, radius_packets
from peers.concentrators import Caller
from peers.dialler import Dialler
from peers.ipv4 import Ipv4, packet, spell
from peers.l2tp import avp, short
from peers.mangling import mangled
from peers.pppoe import AC_COOKIE, AUTHENTICATION, BROADCAST, CONFIGURE_NAK, CONFIGURE_REQUEST, DATA, DISCOVERY, HOST_UNIQ, LCP, MAGIC, PADI, PADO
from peers.pppoe import PADR, PADS, PADT, PAP, SERVICE_NAME, SESSION, Frame, Packet, frame_octets, options_octets, packet_octets, tags_octets
from peers.segment import Host

# Messages of each role that are kept.
KEPT = 600

PORT = bytes.fromhex("0200000000fe")
ANYBODY = bytes.fromhex("02aabbccddee")


def ppp_payloads():
    """PPP frames of all kinds that a subscriber may send (RFC 1661, RFC 1334, RFC 1994, RFC 1332), and some that it may not."""
    magic = (MAGIC, bytes.fromhex("11223344"))
    lcp_options = ([magic], [(1, short(1492)), magic], [(1, short(100))], [(7, b""), (8, b""), magic], [(AUTHENTICATION, b"\xc0\x23")], [(2, bytes(4))])
    ipcp_options = ([(3, bytes(4))], [(3, bytes(4)), (129, bytes(4)), (131, bytes(4))], [(3, bytes([10, 0, 0, 77]))], [(2, b"\0\x2d\x0f\1")], [(130, bytes(4))])
    packets = [Packet(LCP, code, 1, options_octets(options)) for options in lcp_options for code in (1, 1, 2, 3, 4)]
    packets += [Packet(0x8021, code, 1, options_octets(options)) for options in ipcp_options for code in (1, 1, 2, 3, 4)]
    packets += [Packet(protocol, code, 2, b"\x11\x22\x33\x44rest") for protocol in (LCP, 0x8021) for code in (5, 6, 7, 8, 9, 10, 11, 12, 0, 255)]
    packets += [Packet(LCP, 8, 3, short(protocol) + b"\1\1\0\4") for protocol in (0x8021, 0xC223, 0xC021, 0x0021)]
    packets += [Packet(PAP, code, 1, b"\4nemo\x0aarctangent") for code in (1, 2, 3, 4)]
    packets += [Packet(0xC223, code, 1, b"\x10" + bytes(range(16)) + b"nemo") for code in (1, 2, 3, 4, 5)]
    packets += [Packet(protocol, 1, 1, b"\1\x0a" + bytes(8)) for protocol in (0x8057, 0x80FD, 0xC025, 0x0057, 0x4021)]
    data = [packet("10.0.0.77", ttl=ttl, length=length) for ttl in (0, 1, 2, 64, 255) for length in (20, 84, 1492, 1500)]
    return [packet_octets(it) for it in packets] + [b"\0\x21" + it for it in data] + [b"", b"\xc0", b"\x21", b"\x21" + data[0]]


def frames():
    """PPPoE frames of all kinds (RFC 2516), of a host and a session that are to be put in."""
    any_service, uniq = (SERVICE_NAME, b""), (HOST_UNIQ, bytes.fromhex("a1b2c3d4"))
    cookie, relay = (AC_COOKIE, bytes(16)), (0x0110, b"relay-session")
    tags = (
        [any_service], [any_service, uniq], [any_service, uniq, cookie], [(SERVICE_NAME, b"inet"), uniq, relay, cookie], [uniq], [any_service, any_service],
        [(SERVICE_NAME, b"none"), cookie], [any_service, (HOST_UNIQ, bytes(64)), cookie], [any_service, (HOST_UNIQ, bytes(65))], [any_service] + [(0x0105, b"")] * 63,
        [any_service] + [(0x0105, b"")] * 64, [any_service, (0, b""), uniq], [any_service, (0x0110, bytes(1400))],
    )
    found = [Frame(to, ANYBODY, DISCOVERY, code, 0, tags_octets(it)) for it in tags for to, code in ((BROADCAST, PADI), (PORT, PADR))]
    found += [Frame(PORT, ANYBODY, DISCOVERY, code, 1, b"") for code in (PADT, PADO, PADS, 0, 255)]
    found += [Frame(PORT, ANYBODY, SESSION, DATA, 1, payload) for payload in ppp_payloads()]
    return [frame_octets(it) for it in found]


def messages():
    """L2TP control and data messages of all kinds (RFC 2661), of a tunnel and a call that are to be put in."""
    host = [(l2tp.PROTOCOL_VERSION, b"\1\0"), (l2tp.FRAMING, bytes([0, 0, 0, 3])), (l2tp.HOST_NAME, b"lac1"), (l2tp.ASSIGNED_TUNNEL, short(77))]
    session, serial = (l2tp.ASSIGNED_SESSION, short(78)), (l2tp.SERIAL_NUMBER, bytes(4))
    bodies = {
        l2tp.SCCRQ: [host, host[1:], [(2, b"\2\0"), *host[1:]], [*host, (l2tp.CHALLENGE, bytes(16))], [*host, (l2tp.WINDOW, short(1))], host + [(60, b"?")]],
        l2tp.SCCCN: [[], [(l2tp.RESPONSE, bytes(16))]],
        l2tp.STOP_CCN: [[(l2tp.RESULT_CODE, short(1)), host[3]], [(l2tp.RESULT_CODE, b"\0\2\0\3why"), host[3]], []],
        l2tp.HELLO: [[]],
        l2tp.ICRQ: [[session, serial], [session], [(l2tp.ASSIGNED_SESSION, short(0)), serial], [session, serial] + [(21, b"5551234")] * 9],
        l2tp.ICCN: [[(l2tp.CONNECT_SPEED, bytes(4)), (l2tp.FRAMING_TYPE, bytes([0, 0, 0, 1]))], [(39, b""), (l2tp.CONNECT_SPEED, bytes(4)), (l2tp.FRAMING_TYPE, bytes(4))]],
        l2tp.CDN: [[(l2tp.RESULT_CODE, short(1)), session], [(l2tp.RESULT_CODE, short(1))]],
        15: [[(34, bytes(26))]], 16: [[(35, bytes(10))]], 7: [[session]], 3000: [[]], l2tp.SCCRP: [host], l2tp.ICRP: [[session]],
    }
    found = [l2tp.text(1, 1, 0, 0, [(l2tp.MESSAGE_TYPE, short(kind)), *body]) for kind, them in bodies.items() for body in them]
    found += [l2tp.text(1, 0, 0, 0, []), l2tp.text(0, 0, 0, 0, []), l2tp.text(1, 0, 0, 0, [(l2tp.HOST_NAME, b"no type")])]
    hidden = avp(l2tp.MESSAGE_TYPE, short(l2tp.SCCRQ)) + avp(36, bytes(8)) + b"\xc0\x18" + bytes(2) + short(9) + bytes(18)
    found += [b"\xc8\x02" + short(12 + len(hidden)) + bytes(8) + hidden]
    for payload in ppp_payloads():
        found += [b"\0\2" + short(1) + short(1) + b"\xff\3" + payload]
    for front in (b"\x40\2\0\x20", b"\x48\2\0\x20", b"\x0a\2", b"\x02\2", b"\x01\2", b"\x4a\2\0\x30", b"\0\3", b"\0\1"):
        found += [front + short(1) + short(1) + bytes(4) + b"\xff\3" + payload for payload in ppp_payloads()[::9]]
    return found


def core_packets():
    found = [packet("192.0.2.1", "10.0.0.77", ttl=ttl, length=length) for ttl in (0, 1, 2, 64) for length in (20, 84, 1491, 1492, 1500, 4096)]
    with_options = bytearray(packet("192.0.2.1", "10.0.0.77"))
    with_options[0] = 0x4F
    return found + [bytes(with_options), bytes(20), b"\x60" + bytes(39), b"E"]


def replies(request):
    """Replies of a RADIUS server to this request, each signed."""
    codes = (radius_packets.ACCESS_ACCEPT, radius_packets.ACCESS_REJECT, radius_packets.ACCESS_CHALLENGE, radius_packets.ACCOUNTING_RESPONSE)
    attributes = [(radius_packets.REPLY_MESSAGE, b"text"), radius_packets.FRAMED, (radius_packets.CLASS, bytes(40)), (radius_packets.FILTER_ID, b"default")]
    return [radius_packets.answer(request, code, *attributes) for code in codes]


def signed_change(code, identifier, body):
    """A request for a change with these octets as its attributes, signed whatever they are (RFC 5176 section 2.3)."""
    front = bytes([code, identifier]) + (20 + len(body)).to_bytes(2, "big")
    return front + hashlib.md5(front + bytes(16) + body + coa.SECRET).digest() + body


def is_signed_change(octets):
    """Whether these are a request whose authenticator is right, with or without padding."""
    length = int.from_bytes(octets[2:4], "big")
    return 20 <= length <= len(octets) and hashlib.md5(octets[:4] + bytes(16) + octets[20:length] + coa.SECRET).digest() == octets[4:20]


def words():
    return [b"stats", b"stats\n", b"status", b"", b"\n", b"\0", b"stop\0", b"STOP", b"stop\r\n", b"stopstop", b"stop \n", b"stats" * 800, b"help"]


class Store:
    """What was sent to each role, the newest `KEPT` of each, and samples of all kinds."""

    def __init__(self):
        nobody = radius_packets.Radius(1, 7, bytes(range(16)), [])
        server = replies(nobody)
        asked = [radius_packets.ask(code, 9, *it, secret=coa.SECRET) for code in (43, 40, 44, 1) for it in ([], [(44, b"0" * 24), (11, b"default")], [(8, bytes(4)), (27, bytes(4))])]
        self.samples = {"access": frames(), "tunnel": messages(), "core": core_packets(), "auth": server, "acct": server, "coa": asked, "control": words()}
        self.kept = {role: collections.deque(maxlen=KEPT) for role in self.samples}

    def keep(self, role, octets):
        self.kept[role].append(octets)

    def any(self, chance, role):
        """A message of this role, of those that were sent as often as of the samples."""
        kept = self.kept[role]
        return chance.choice(kept if kept and chance.random() < 0.5 else self.samples[role])


class Intruder(Dialler):
    """What is not honest in a subscriber beside its door: it gives up soon, sends what it likes once it has an address, and begins anew soon.
    `leased` counts how often it got one, and `age` its steps since it began."""

    leased = age = 0
    by_pap = False

    def begin(self, now):
        self.age = 0
        super().begin(now)

    def lose(self, now):
        self.leave(now)

    def tick(self, now, chance):
        self.age += 1
        if self.address is None and self.age > chance.randint(15, 80):
            if chance.random() < 0.7:
                self.hang_up()
            self.want(now)
        elif self.address is not None:
            if self.up_at:
                self.leased, self.up_at = self.leased + 1, 0.0
            if chance.random() < 0.4:
                self.say(self.packet[:2] + spell(self.any_packet(chance), 7))
            if self.age > chance.randint(20, 200):
                self.address = None
                self.leave(now)

    def any_packet(self, chance):
        own, other = socket.inet_aton(self.address), socket.inet_aton(chance.choice(("10.0.0.2", "10.9.0.2", "10.9.0.3", "10.0.0.1", "0.0.0.0")))
        return Ipv4(own if chance.random() < 0.8 else other, other, 17, bytes(chance.choice((0, 8, 200, 1400))))

    def hear_lcp(self, heard, now):
        is_asked = heard.code == CONFIGURE_REQUEST and self.by_pap
        if is_asked and b"\xc2\x23\5" in heard.data:
            self.say_packet(Packet(LCP, CONFIGURE_NAK, heard.identifier, options_octets([(AUTHENTICATION, b"\xc0\x23")])))
            return
        super().hear_lcp(heard, now)
        if is_asked:
            name = self.name.encode()
            self.say_packet(Packet(PAP, 1, 1, bytes([len(name)]) + name + b"\3pap"))


class IntruderHost(Intruder, Host):
    def tick(self, now, chance):
        if self.choice_at is not None:
            self.choose()
        super().tick(now, chance)

    def as_its_own(self, octets, chance):
        """A frame of anybody as this host's, mostly in its session and with its cookie."""
        if len(octets) >= 20 and chance.random() < 0.85:
            session = short(self.session) if octets[12:14] == b"\x88\x64" or octets[15] == PADT else octets[16:18]
            octets = octets[:6] + self.mac + octets[12:16] + session + octets[18:]
            cookie = next(iter(self.offers.values()), b"")
            at = octets.find(b"\1\4\0\x10")
            if octets[12:14] == b"\x88\x63" and at > 0 and cookie and chance.random() < 0.5:
                octets = octets[:at + 4] + cookie + octets[at + 20:]
        return octets


class IntruderCaller(Intruder, Caller):
    pass


def as_of(tunnel, call, octets, chance, places=(0, 0, 0, 1, 2)):
    """An L2TP message of anybody as one of this tunnel's, mostly, and of this call. Its Ns is that of the next one, less one of these places."""
    if len(octets) < 12 or chance.random() > 0.85:
        return octets
    session = short(call.session) if call else bytes(2)
    if octets[0] & 0x80:
        ns = (tunnel.ns - chance.choice(places)) % 65536
        session = octets[6:8] if octets[6:8] == bytes(2) else session
        return octets[:4] + short(tunnel.number) + session + short(ns) + short(tunnel.nr) + octets[12:]
    at = 4 if octets[0] & 0x40 else 2
    return octets[:at] + short(tunnel.number) + session + octets[at + 4:]


class Door:
    """The way of honest parties to the gateway. What they send is kept. `down` has the IPv4 octets that came to hosts and callers behind it."""

    down = 0

    def __init__(self, world, suffix=""):
        self.world, self.suffix = world, suffix

    def send(self, end, octets, to):
        self.world.store.keep(to, octets)
        self.world.put(end, octets, to + self.suffix)


class Trapdoor(Door):
    """The way of others: what they send may come changed, twice, late, or not at all."""

    def send(self, end, octets, to):
        world, chance, role = self.world, self.world.chance, to + self.suffix
        world.store.keep(to, octets)
        luck = chance.random()
        name, changed = mangled(chance, to, octets, world.store.any(chance, to)) if luck < 0.14 else (None, b"")
        if luck < 0.05:
            world.hurl(role, "right", end, changed, name)
        if luck < 0.94:
            world.put(end, octets, role)
        elif luck < 0.97:
            world.hurl(role, "right", end, octets, "late", late=True)
        if 0.05 < luck < 0.14:
            world.hurl(role, "right", end, changed, name)
        elif 0.14 < luck < 0.19:
            world.hurl(role, "right", end, octets, "again")
