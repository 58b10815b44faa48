"""An Ethernet segment that hosts and several gateways share, as a script plays it: each gateway's access port is a UDP socket, of which each
datagram is a frame. A broadcast goes to all of them, and any other frame to the one whose MAC it is for."""

from peers.dialler import Dialler
from peers.loopback import udp, widen
from peers.pppoe import AC_COOKIE, BROADCAST, DATA, DISCOVERY, PADI, PADO, PADR, PADS, PADT, SERVICE_NAME, SESSION
from peers.pppoe import Frame, frame_octets, read_frame, read_tags, tags_octets

# Seconds in which a host gathers the PADOs of all gateways, of which it takes one.
GATHERING = 0.5

ANY_SERVICE = (SERVICE_NAME, b"")


class Segment:
    """The segment's end of UDP, of which all access ports are peers, and its hosts by their MACs."""

    def __init__(self):
        self.end, self.boxes, self.hosts = udp(), {}, {}
        widen(self.end)

    def send(self, frame):
        """Carries a host's frame."""
        octets = frame_octets(frame)
        boxes = self.boxes.values() if frame.destination == BROADCAST else filter(None, [self.boxes.get(frame.destination)])
        for box in boxes:
            box.send(self.end, octets, "access")

    def hear(self, now):
        """Hands what came from the gateways to the hosts."""
        while True:
            try:
                octets = self.end.recv(65535)
            except OSError:
                return
            frame = read_frame(octets)
            host = self.hosts.get(frame.destination) if frame else None
            if host:
                host.hear_frame(frame, now)


class Host(Dialler):
    """A subscriber over PPPoE (RFC 2516)."""

    def __init__(self, number, segment):
        super().__init__(number)
        self.segment, self.session = segment, 0
        self.offers, self.choice_at, self.access = {}, None, None
        self.mac = bytes.fromhex("020000") + (0x10000 + number).to_bytes(3, "big")
        segment.hosts[self.mac] = self

    def send(self, code, *tags, to=None, session=0):
        self.segment.send(Frame(to or self.access, self.mac, DISCOVERY, code, session, tags_octets(tags)))

    def dial(self, now):
        self.session, self.access, self.offers, self.choice_at = 0, None, {}, None
        self.send(PADI, ANY_SERVICE, to=BROADCAST)

    def say(self, payload):
        self.segment.send(Frame(self.access, self.mac, SESSION, DATA, self.session, payload))

    def hang_up(self):
        if self.session:
            self.send(PADT, session=self.session)
        self.session, self.access = 0, None

    def choose(self):
        """Takes one of the gateways that offered themselves, so that all hosts together take each of them alike."""
        self.access = sorted(self.offers)[self.number % len(self.offers)]
        self.choice_at = None
        self.send(PADR, ANY_SERVICE, (AC_COOKIE, self.offers[self.access]))

    def hear_frame(self, frame, now):
        if frame.code == PADO and self.access is None:
            self.offers[frame.source] = dict(read_tags(frame.payload))[AC_COOKIE]
            if self.choice_at is None:
                self.choice_at = now + GATHERING
        elif frame.source != self.access:
            return
        elif frame.code == PADS and frame.session and not self.session:
            self.session, self.box = frame.session, self.segment.boxes[self.access]
        elif frame.code == PADT and frame.session == self.session != 0:
            self.session = 0
            self.want(now)
        elif frame.code == DATA and frame.session == self.session != 0:
            self.hear(frame.payload, now)

    def tick(self, now):
        if self.choice_at is not None and now >= self.choice_at:
            self.choose()
            return True
        return super().tick(now)
