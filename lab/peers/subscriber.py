"""PPPoE subscribers behind the gateway's access port, as a script plays them."""

import collections
import select
import time

from peers import pppoe
from peers.pppoe import CHALLENGE, CHAP, CONFIGURE_REQUEST, DATA, DISCOVERY, IPCP, LCP, SESSION, Frame, Packet, frame_octets, frame_words
from peers.pppoe import packet_octets, read_frame, read_packet, read_tags, tags_octets

PORT = bytes.fromhex("0200000000fe")

# What a host says of itself: tags of discovery, and an option of LCP.
ANY_SERVICE = (pppoe.SERVICE_NAME, b"")
HOST_UNIQ = (pppoe.HOST_UNIQ, bytes.fromhex("a1b2c3d4"))
MAGIC = (pppoe.MAGIC, bytes.fromhex("11223344"))


def packet_in(frame, *kind):
    """The control packet of a frame, if it is of this protocol and code, or None."""
    packet = read_packet(frame.payload) if frame.ethertype == SESSION else None
    return packet if packet and (packet.protocol, packet.code) == kind else None


class Line:
    """Our end of the access port, which brings each frame of the gateway to its subscriber. Challenges of CHAP (RFC 1994
    section 4.1) and Configure-Requests of IPCP, which come again every 3 s, are kept apart, the last one of each subscriber."""

    def __init__(self, lab):
        self.lab = lab
        self.waiting = collections.defaultdict(collections.deque)
        self.challenges = {}
        self.asked = {}

    def take(self, patience):
        """Takes one frame of the gateway, and says whether one came in so many seconds."""
        ready, _, _ = select.select([self.lab.access], [], [], patience)
        if ready:
            octets = self.lab.receive(self.lab.access)[0]
            frame = read_frame(octets)
            if frame is None or frame_octets(frame) != octets:
                raise RuntimeError(f"the gateway sent what is no PPPoE frame, or one with padding: {octets.hex()}")
            challenge = packet_in(frame, CHAP, CHALLENGE)
            asked = packet_in(frame, IPCP, CONFIGURE_REQUEST)
            if challenge:
                self.challenges[frame.destination] = challenge
            elif asked:
                self.asked[frame.destination] = asked
            else:
                self.waiting[frame.destination].append((frame, time.monotonic()))
        return bool(ready)

    def last(self, kept, mac):
        """The last of those kept apart to this MAC, or None where none comes in five seconds."""
        end = time.monotonic() + 5
        while mac not in kept and self.take(max(0, end - time.monotonic())):
            pass
        return kept.get(mac)

    def receive(self, mac):
        """The next frame to this MAC and the moment at which it came, or None where none comes in five seconds."""
        end = time.monotonic() + 5
        while not self.waiting[mac]:
            if not self.take(max(0, end - time.monotonic())):
                return None
        return self.waiting[mac].popleft()

    def is_quiet(self):
        """Whether no frame is left for any host."""
        while self.take(0):
            pass
        return not any(self.waiting.values())


class Subscriber:
    """One host, with the SESSION_ID of its session, 0 before it has one, and the moment at which its last frame came."""

    session = 0
    heard_at = 0.0

    def __init__(self, line, mac):
        self.line, self.mac = line, bytes.fromhex(mac)

    def send(self, frame):
        self.line.lab.send(frame_octets(frame))

    def discover(self, code, *tags, session=0, to=PORT):
        """Sends a frame of the discovery stage, a PADI to all with `to=BROADCAST`."""
        self.send(Frame(to, self.mac, DISCOVERY, code, session, tags_octets(tags)))

    def say(self, payload):
        """Sends a PPP frame in the session."""
        self.send(Frame(PORT, self.mac, SESSION, DATA, self.session, payload))

    def say_lcp(self, code, identifier, data=b""):
        self.say(packet_octets(Packet(LCP, code, identifier, data)))

    def hear(self):
        """The next frame from the gateway."""
        came = self.line.receive(self.mac)
        if came is None:
            raise RuntimeError(f"the host {self.mac.hex()} heard nothing for five seconds")
        frame, self.heard_at = came
        return frame

    def hear_packet(self):
        """The next frame from the gateway, a control packet of the session."""
        frame = self.hear()
        packet = read_packet(frame.payload)
        if frame[1:5] != (PORT, SESSION, DATA, self.session) or packet is None:
            raise RuntimeError(f"the host {self.mac.hex()} heard no packet of its session, but {frame_words(frame)}")
        return packet

    def hear_challenge(self):
        """The gateway's Challenge."""
        challenge = self.line.last(self.line.challenges, self.mac)
        if challenge is None:
            raise RuntimeError(f"the host {self.mac.hex()} heard no Challenge for five seconds")
        return challenge

    def hear_asked(self):
        """The gateway's Configure-Request of IPCP."""
        asked = self.line.last(self.line.asked, self.mac)
        if asked is None:
            raise RuntimeError(f"the host {self.mac.hex()} heard no Configure-Request of IPCP for five seconds")
        return asked

    def hear_lcp(self):
        """The next frame from the gateway, an LCP packet of the session."""
        packet = self.hear_packet()
        if packet.protocol != LCP:
            raise RuntimeError(f"the host {self.mac.hex()} heard no LCP packet, but protocol {packet.protocol:04x}")
        return packet


def cookie_of(pado):
    """The AC-Cookie tag of a PADO, empty where it has none."""
    return (pppoe.AC_COOKIE, dict(read_tags(pado.payload)).get(pppoe.AC_COOKIE, b""))


def begin(host, cookie):
    """Asks for a session, and gives the PADS and the gateway's first Configure-Request."""
    host.discover(pppoe.PADR, ANY_SERVICE, HOST_UNIQ, cookie)
    pads = host.hear()
    host.session = pads.session
    return pads, host.hear_lcp()


def padt(host):
    """The PADT of the host's session."""
    return Frame(host.mac, PORT, pppoe.DISCOVERY, pppoe.PADT, host.session, b"")
