"""Measures how many subscribers log in a second at the real gateway, from the PADI to their first packet in the core, with
a RADIUS server that accepts them all, beside a bare loop in Python that answers the same packets without keeping or checking
anything. The subscribers, the core and the server are the same script for both, which takes most of the time: the ratio and
the gateway's own processor time a login say more than the rate."""

import hashlib
import select
import socket
import subprocess
import sys
import threading
import time

from checks import usage
from machine.gateway import BNG, BUILDING, Lab
from machine.traffic import Spent
from peers import radius_packets
from peers.crowd import AT_ONCE, Crowd, mac_of, open_sessions
from peers.ipv4 import packet as ipv4_packet
from peers.loopback import LOOPBACK
from peers.pppoe import AC_COOKIE, AC_NAME, CHALLENGE, CHAP, CONFIGURE_ACK, CONFIGURE_NAK, CONFIGURE_REQUEST, DATA, DISCOVERY, IPCP, IPV4
from peers.pppoe import LCP, PADI, PADO, PADR, PADS, RESPONSE, SESSION, SUCCESS, Frame, Packet, frame_octets, number_at, options_octets
from peers.pppoe import packet_octets, read_frame, read_options, read_packet, tags_octets, two
from peers.subscriber import PORT

LOGINS = 1000
BEFORE = (10, 10000)
ASKED = bytes.fromhex("010405d4 0305c22305 0506a1b2c3d4")
ADDRESS = 3


class Sending(Crowd):
    """Hosts each of which sends a packet to the core once it has its address."""

    def __init__(self, lab):
        super().__init__(lab)
        self.passed = set()

    def has_address(self, mac):
        self.send(Frame(PORT, mac, SESSION, DATA, self.sessions[mac], two(IPV4) + ipv4_packet(self.addresses[mac])))

    def are_done(self, macs):
        return all(self.addresses.get(mac) in self.passed for mac in macs)

    def take(self, patience):
        ready, _, _ = select.select([self.lab.access, self.lab.radius, self.lab.core], [], [], patience)
        if self.lab.core in ready:
            self.passed.add(socket.inet_ntoa(self.lab.core.recv(65535)[12:16]))
        return super().take(0) or bool(ready)


class Bare(threading.Thread):
    """Answers what the gateway answers, and keeps of a session what the next answer needs."""

    def __init__(self, lab):
        super().__init__(daemon=True)
        self.lab, self.asked, self.count = lab, {}, 0
        self.access, self.auth, self.core = (self.end(lab.ports[name]) for name in ("access", "auth", "core"))

    @staticmethod
    def end(port):
        end = socket.socket(socket.AF_INET, socket.SOCK_DGRAM)
        end.bind((LOOPBACK, port))
        return end

    def send(self, frame):
        self.access.sendto(frame_octets(frame), self.lab.access.getsockname())

    def say(self, mac, session, packet):
        self.send(Frame(mac, PORT, SESSION, DATA, session, packet_octets(packet)))

    def hear(self, frame):
        mac = frame.source
        if frame.code == PADI:
            self.send(Frame(mac, PORT, DISCOVERY, PADO, 0, tags_octets([(AC_NAME, b"bng1"), (AC_COOKIE, bytes(16))])))
        elif frame.code == PADR:
            self.count += 1
            self.send(Frame(mac, PORT, DISCOVERY, PADS, self.count, b""))
            self.say(mac, self.count, Packet(LCP, CONFIGURE_REQUEST, 1, ASKED))
        elif number_at(frame.payload, 0) == IPV4:
            self.core.sendto(frame.payload[2:], self.lab.core.getsockname())
        elif frame.code == DATA:
            self.hear_packet(mac, frame.session, read_packet(frame.payload))

    def hear_packet(self, mac, session, packet):
        if (packet.protocol, packet.code) == (LCP, CONFIGURE_REQUEST):
            self.say(mac, session, packet._replace(code=CONFIGURE_ACK))
        elif (packet.protocol, packet.code) == (LCP, CONFIGURE_ACK):
            self.say(mac, session, Packet(CHAP, CHALLENGE, 1, b"\x10" + bytes(16) + b"bng1"))
        elif (packet.protocol, packet.code) == (CHAP, RESPONSE):
            number = session % 256
            self.asked[number] = (mac, session)
            fields = [(radius_packets.USER_NAME, packet.data[17:]), (radius_packets.CHAP_PASSWORD, b"\x01" + packet.data[1:17])]
            octets = radius_packets.spell(radius_packets.Radius(radius_packets.ACCESS_REQUEST, number, hashlib.md5(packet.data).digest(), fields))
            self.auth.sendto(octets, self.lab.radius.getsockname())
        elif (packet.protocol, packet.code) == (IPCP, CONFIGURE_REQUEST):
            own = b"\x0a\x00" + two(session)
            is_own = dict(read_options(packet.data))[ADDRESS] == own
            self.say(mac, session, Packet(IPCP, CONFIGURE_ACK if is_own else CONFIGURE_NAK, packet.identifier, options_octets([(ADDRESS, own)])))

    def run(self):
        while True:
            ready, _, _ = select.select([self.access, self.auth], [], [])
            if self.access in ready:
                self.hear(read_frame(self.access.recv(65535)))
            if self.auth in ready:
                mac, session = self.asked[self.auth.recv(65535)[1]]
                self.say(mac, session, Packet(CHAP, SUCCESS, 1, b""))
                self.say(mac, session, Packet(IPCP, CONFIGURE_REQUEST, 1, options_octets([(ADDRESS, bytes([10, 0, 255, 1]))])))


def logins(lab, first):
    """Lets a thousand hosts log in and send a packet, and gives the seconds that they took."""
    crowd = Sending(lab)
    macs = [mac_of(number) for number in range(first, first + LOGINS)]
    begun = time.monotonic()
    for at in range(0, LOGINS, AT_ONCE):
        crowd.open(macs[at:at + AT_ONCE])
    return time.monotonic() - begun


def bare():
    with Lab() as lab:
        Bare(lab).start()
        return logins(lab, 0)


def ours(before):
    """The seconds of a thousand logins, and the gateway's processor microseconds a login, with so many sessions there."""
    with Lab("shards = 16\necho = 0\nterms = 32768\n", session=1, last="10.0.255.254") as lab:
        lab.start([BNG, "serve", lab.configuration], patience=BUILDING, stderr=None)
        open_sessions(lab, before)
        used = Spent(lab.pid).seconds
        took = logins(lab, before)
        used = Spent(lab.pid).seconds - used
        lab.send(b"stop", lab.control, "control")
        lab.end(60)
        return took, used * 1e6 / LOGINS


def main():
    plain = bare()
    print(f"bare loop                {LOGINS / plain:8,.0f} logins/s")
    for before in BEFORE:
        took, used = ours(before)
        print(f"bng, {before:6,} sessions    {LOGINS / took:8,.0f} logins/s  ratio {plain / took:5.2f}  {used:7.1f} us of processor a login")
    return 0


if __name__ == "__main__":
    usage.heed("login-rate", __doc__)
    try:
        sys.exit(main())
    except (RuntimeError, OSError, subprocess.SubprocessError) as error:
        print(f"login-rate: {error}", file=sys.stderr)
        sys.exit(1)
