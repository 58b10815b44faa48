"""Many PPPoE subscribers at once, each of which logs in by CHAP at a RADIUS server that accepts them all and takes the address that
it is told, for measuring."""

import select
import socket

from peers import radius_packets
from peers.loopback import LOOPBACK
from peers.pppoe import AC_COOKIE, BROADCAST, CHALLENGE, CHAP, CONFIGURE_ACK, CONFIGURE_NAK, CONFIGURE_REQUEST, DATA, DISCOVERY, IPCP, LCP
from peers.pppoe import MAGIC, PADI, PADO, PADR, PADS, RESPONSE, SERVICE_NAME, SESSION, SUCCESS, Frame, Packet, frame_octets, options_octets
from peers.pppoe import packet_octets, read_frame, read_options, read_packet, read_tags, tags_octets
from peers.subscriber import PORT

# So many hosts ask at once: what they are sent fits a socket's buffer.
AT_ONCE = 32

PASSWORD = b"arctangent"


def mac_of(number):
    return bytes.fromhex("020000") + (0x10000 + number).to_bytes(3, "big")


# A Configure-Request of IPCP that asks for any address (RFC 1332 section 3.3).
ANY_ADDRESS = Packet(IPCP, CONFIGURE_REQUEST, 1, options_octets([(3, bytes(4))]))


def request(mac):
    """A Configure-Request of a host (RFC 1661 section 5.1): its Magic-Number alone."""
    return Packet(LCP, CONFIGURE_REQUEST, 1, options_octets([(MAGIC, b"\x5a" + mac[3:])]))


class Crowd:
    """The hosts, and which of them were let in, each with its SESSION_ID and its address."""

    def __init__(self, lab):
        self.lab = lab
        self.accepted = set()
        self.sessions, self.addresses = {}, {}

    def send(self, frame):
        self.lab.access.sendto(frame_octets(frame), (LOOPBACK, self.lab.ports["access"]))

    def begin(self, mac):
        self.send(Frame(BROADCAST, mac, DISCOVERY, PADI, 0, tags_octets([(SERVICE_NAME, b"")])))

    def say(self, mac, session, packet):
        self.send(Frame(PORT, mac, SESSION, DATA, session, packet_octets(packet)))

    def hear(self, frame):
        """Answers one frame of the gateway as its host does."""
        mac = frame.destination
        if frame.code == PADO:
            cookie = dict(read_tags(frame.payload))[AC_COOKIE]
            self.send(Frame(PORT, mac, DISCOVERY, PADR, 0, tags_octets([(SERVICE_NAME, b""), (AC_COOKIE, cookie)])))
        elif frame.code == PADS:
            if frame.session == 0:
                raise RuntimeError(f"the host {mac.hex()} was refused")
            self.sessions[mac] = frame.session
            self.say(mac, frame.session, request(mac))
        elif frame.code == DATA:
            self.hear_packet(mac, frame.session, read_packet(frame.payload))

    def hear_packet(self, mac, session, packet):
        if packet is None:
            return
        if (packet.protocol, packet.code) == (LCP, CONFIGURE_REQUEST):
            self.say(mac, session, packet._replace(code=CONFIGURE_ACK))
        elif (packet.protocol, packet.code) == (CHAP, CHALLENGE):
            value = radius_packets.chap_value(packet.identifier, PASSWORD, packet.data[1:17])
            self.say(mac, session, Packet(CHAP, RESPONSE, packet.identifier, b"\x10" + value + mac.hex().encode()))
        elif (packet.protocol, packet.code) == (CHAP, SUCCESS):
            self.accepted.add(mac)
        elif (packet.protocol, packet.code) == (IPCP, CONFIGURE_REQUEST):
            self.say(mac, session, packet._replace(code=CONFIGURE_ACK))
            self.say(mac, session, ANY_ADDRESS)
        elif (packet.protocol, packet.code) == (IPCP, CONFIGURE_ACK):
            self.addresses[mac] = socket.inet_ntoa(dict(read_options(packet.data))[3])
            self.has_address(mac)
        elif (packet.protocol, packet.code) == (IPCP, CONFIGURE_NAK):
            self.say(mac, session, packet._replace(code=CONFIGURE_REQUEST, identifier=packet.identifier + 1))

    def has_address(self, mac):
        """What a host does once it has its address: nothing."""

    def are_done(self, macs):
        """Whether these hosts came as far as is waited for: they were let in."""
        return self.accepted.issuperset(macs)

    def accept(self, octets):
        """Accepts the user of an Access-Request."""
        reply = radius_packets.answer(radius_packets.read(octets), radius_packets.ACCESS_ACCEPT, radius_packets.FRAMED)
        self.lab.radius.sendto(reply, (LOOPBACK, self.lab.ports["auth"]))

    def take(self, patience):
        """Takes what came for a host or for the RADIUS server, and says whether something came in so many seconds."""
        ready, _, _ = select.select([self.lab.access, self.lab.radius], [], [], patience)
        if self.lab.radius in ready:
            self.accept(self.lab.radius.recv(65535))
        if self.lab.access in ready:
            frame = read_frame(self.lab.access.recv(65535))
            if frame is not None:
                self.hear(frame)
        return bool(ready)

    def open(self, macs):
        """Lets these hosts log in."""
        for mac in macs:
            self.begin(mac)
        while not self.are_done(macs):
            if not self.take(5):
                raise RuntimeError(f"the {len(macs)} hosts heard nothing for five seconds, {len(set(macs) - self.accepted)} of them before a Success")


def open_sessions(lab, count, first=0):
    """Lets so many hosts on the lab's access port log in, from this number on, and gives them."""
    crowd = Crowd(lab)
    macs = [mac_of(number) for number in range(first, first + count)]
    for at in range(0, count, AT_ONCE):
        crowd.open(macs[at:at + AT_ONCE])
    while crowd.take(0.2):
        pass
    return crowd
