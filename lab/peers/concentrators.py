"""Access concentrators that share several gateways, as a script plays them (RFC 2661): each has a tunnel to each gateway, and sets a call up
over one that answers."""

import collections

from peers.dialler import Dialler
from peers.l2tp import ASSIGNED_SESSION, ASSIGNED_TUNNEL, CDN, CONNECT_SPEED, FRAMING, FRAMING_TYPE, HELLO, HOST_NAME, ICCN, ICRP, ICRQ
from peers.l2tp import MESSAGE_TYPE, PROTOCOL_VERSION, RESULT_CODE, SCCCN, SCCRP, SCCRQ, SERIAL_NUMBER, STOP_CCN, read, short, text
from peers.loopback import udp, widen

# Seconds after which a message is sent again, seconds of its silence after which a tunnel is given up, and seconds between two HELLOs.
AGAIN, SILENCE, HELLOS = 1.0, 15.0, 3.0

# Messages that may be on their way at once: the gateway takes eight.
WINDOW = 4


class Tunnel:
    """A concentrator's tunnel to one gateway. `own` is its number at the concentrator, and `number` that at the gateway, 0 until the gateway
    has told it."""

    def __init__(self, concentrator, box, own):
        self.concentrator, self.box, self.own = concentrator, box, own
        self.close(0.0)

    def close(self, now):
        """Forgets all, and asks anew in a while."""
        self.number = self.ns = self.nr = 0
        self.is_open = False
        self.waiting, self.sent = collections.deque(), collections.deque()
        self.sent_at, self.heard_at, self.asks_at = now, now, now + AGAIN

    def ask(self, now):
        self.close(now)
        self.asks_at = None
        host = [(PROTOCOL_VERSION, b"\1\0"), (FRAMING, bytes([0, 0, 0, 3])), (HOST_NAME, b"lac"), (ASSIGNED_TUNNEL, short(self.own))]
        self.say(now, SCCRQ, *host)

    def send(self, octets):
        self.box.send(self.concentrator.end, octets, "tunnel")

    def say(self, now, kind, *avps, session=0):
        """Sends a message, in its turn."""
        self.waiting.append((session, [(MESSAGE_TYPE, short(kind)), *avps]))
        self.pump(now)

    def pump(self, now):
        """Sends what the window has room for."""
        while self.waiting and len(self.sent) < WINDOW:
            session, avps = self.waiting.popleft()
            self.sent.append((self.ns, session, avps))
            self.ns = (self.ns + 1) % 65536
            self.repeat(self.sent[-1], now)

    def repeat(self, message, now):
        ns, session, avps = message
        self.sent_at = now
        self.send(text(self.number, session, ns, self.nr, avps))

    def hear(self, octets, now):
        """Takes a control message."""
        message = read(octets, known=False)
        self.heard_at = now
        while self.sent and (message.nr - self.sent[0][0] - 1) % 65536 < 32768:
            self.sent.popleft()
        if message.avps:
            if message.ns == self.nr:
                self.nr = (self.nr + 1) % 65536
                self.act(message, dict(message.avps), now)
            self.send(text(self.number, 0, self.ns, self.nr, []))
        self.pump(now)

    def act(self, message, avps, now):
        kind = int.from_bytes(avps[MESSAGE_TYPE], "big")
        call = self.concentrator.calls.get(message.session)
        if kind == SCCRP:
            self.number = int.from_bytes(avps[ASSIGNED_TUNNEL], "big")
            self.say(now, SCCCN)
            self.is_open = True
        elif kind == STOP_CCN:
            self.give_up(now)
        elif kind == ICRP and call:
            call.is_answered(int.from_bytes(avps[ASSIGNED_SESSION], "big"), now)
        elif kind == CDN and call:
            call.is_ended(now)

    def give_up(self, now):
        """Leaves a tunnel whose gateway went away, or that its gateway ended, and its calls with it."""
        self.close(now)
        for call in [call for call in self.concentrator.calls.values() if call.tunnel is self]:
            call.is_ended(now)

    def tick(self, now):
        if self.asks_at is not None:
            if now >= self.asks_at:
                self.ask(now)
        elif now - self.heard_at > SILENCE:
            # Its calls go on until their own echoes fail: what is silent may be the tunnel alone.
            self.close(now)
        elif self.sent and now - self.sent_at > AGAIN:
            self.repeat(self.sent[0], now)
        elif self.is_open and not self.sent and now - self.sent_at > HELLOS:
            self.say(now, HELLO)


class Concentrator:
    """A concentrator at an address of the loopback, with its tunnels and its calls by their numbers."""

    def __init__(self, address, boxes):
        self.address, self.end = address, udp(address)
        widen(self.end)
        self.calls, self.last = {}, 0
        self.tunnels = {own: Tunnel(self, box, own) for own, box in enumerate(boxes, 1)}

    def open_tunnels(self):
        return [tunnel for tunnel in self.tunnels.values() if tunnel.is_open]

    def hear(self, now):
        while True:
            try:
                octets = self.end.recv(65535)
            except OSError:
                return
            is_control = octets[0] & 0x80
            at = 4 if is_control else 2
            tunnel = self.tunnels.get(int.from_bytes(octets[at:at + 2], "big"))
            if tunnel and is_control:
                tunnel.hear(octets, now)
            elif tunnel:
                call = self.calls.get(int.from_bytes(octets[4:6], "big"))
                if call and call.tunnel is tunnel and octets[6:8] == b"\xff\3":
                    call.hear(octets[8:], now)

    def tick(self, now):
        for tunnel in self.tunnels.values():
            tunnel.tick(now)


class Caller(Dialler):
    """A subscriber whose concentrator sets a call up for it. `own` is the call's number at the concentrator, and `session` the gateway's."""

    def __init__(self, number, concentrator):
        super().__init__(number)
        self.concentrator, self.tunnel, self.own, self.session = concentrator, None, 0, 0

    def dial(self, now):
        self.drop()
        choice = self.concentrator.open_tunnels()
        if not choice:
            return
        self.tunnel = choice[self.number % len(choice)]
        self.concentrator.last = self.own = self.concentrator.last % 60000 + 1
        self.concentrator.calls[self.own] = self
        self.tunnel.say(now, ICRQ, (ASSIGNED_SESSION, short(self.own)), (SERIAL_NUMBER, self.own.to_bytes(4, "big")))

    def drop(self):
        self.concentrator.calls.pop(self.own, None)
        self.tunnel, self.own, self.session = None, 0, 0

    def is_answered(self, session, now):
        self.session, self.box = session, self.tunnel.box
        self.tunnel.say(now, ICCN, (CONNECT_SPEED, bytes([0, 0x98, 0x96, 0x80])), (FRAMING_TYPE, bytes([0, 0, 0, 1])), session=session)

    def is_ended(self, now):
        self.drop()
        self.want(now)

    def say(self, payload):
        if self.tunnel and self.session:
            self.tunnel.send(b"\0\2" + short(self.tunnel.number) + short(self.session) + b"\xff\3" + payload)

    def hang_up(self):
        if self.tunnel and self.session and self.tunnel.is_open:
            self.tunnel.say(self.begun_at, CDN, (RESULT_CODE, short(1)), (ASSIGNED_SESSION, short(self.own)), session=self.session)
        self.drop()
