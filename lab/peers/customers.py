"""Honest subscribers, over PPPoE and over calls, that log in, send and get packets, hang up, and begin anew, as a script plays them beside others
that are not honest. Each login has a name of its own, and each packet octets of its own, so that nothing of one is taken for another's."""

import socket

from peers import radius_packets
from peers.concentrators import Caller
from peers.dialler import Dialler
from peers.ipv4 import UDP, Ipv4, spell
from peers.mangling import with_ipv4_sum
from peers.pppoe import CONFIGURE_REQUEST, IPCP, LCP, PADT, SUCCESS, TERMINATE_ACK, TERMINATE_REQUEST, Packet
from peers.segment import Host

FRONT = b"honest-"
PASSWORD = b"arctangent"
HOST = socket.inet_aton("192.0.2.1")

# Packets each way in a session, how many may be on their way at once, and the seconds and the ticks after which what has not come is lost: where
# little processor time is left a tick takes seconds.
PACKETS, AT_ONCE, PATIENCE, TICKS = 12, 4, 30.0, 100

LOST_CARRIER, USER_REQUEST = 2, 1


def lowered(octets):
    """A packet as it is forwarded: its TTL is lowered by one."""
    return with_ipv4_sum(octets[:8] + bytes([octets[8] - 1]) + octets[9:], 0)


class Customer(Dialler):
    """What is honest in a subscriber, beside how it dials. `world` has `chance`, takes `to_core` from the hosts behind the core, and is told what
    is wrong by `found`."""

    def prepare(self, world):
        self.world, self.logins, self.ended, self.is_last = world, 0, 0, False
        self.password = PASSWORD
        self.phase, self.since, self.quiet = "waiting", 0.0, 0
        self.renew()

    def renew(self):
        """The next login has another name."""
        self.logins += 1
        self.name = f"{FRONT.decode()}{self.number}-{self.logins}"
        self.is_accepted = False
        self.sent, self.got, self.up_octets, self.down_octets = 0, 0, 0, 0
        self.on_way, self.coming, self.answered = set(), set(), set()
        self.way_out, self.stop = None, None

    def wrong(self, what):
        self.world.found(f"{self.name}, {self.phase}: {what}")

    def enter(self, phase, now):
        self.phase = phase
        self.note(now)

    def note(self, now):
        """Something came, or is to come from now on."""
        self.since, self.quiet = now, 0

    def is_lost(self, now):
        return self.quiet > TICKS and now - self.since > PATIENCE

    def lose(self, now):
        self.wrong("its session was lost: no echo was answered")
        self.restart(now)

    def leave(self, now):
        if self.phase != "leaving":
            self.wrong("the gateway ended its session")
            self.restart(now)

    def restart(self, now):
        """Goes on after a fault: hangs up, and begins anew."""
        self.hang_up()
        self.renew()
        self.address = None
        self.enter("waiting", now)

    def hear(self, payload, now):
        self.note(now)
        if payload[:2] == b"\0\x21":
            self.take(payload[2:], now)
            return
        if payload[:2] == b"\xc2\x23" and payload[2:3] == bytes([SUCCESS]) and not self.is_accepted:
            self.wrong("it was let in before the server said so")
        if payload[:2] == b"\xc2\x23" and payload[2:3] == b"\4":
            self.wrong(f"it was refused: {payload.hex()}")
        if self.phase == "leaving" and payload[:2] == b"\xc0\x21":
            self.hear_end(payload)
        elif payload[2:3] != bytes([CONFIGURE_REQUEST]) or payload not in self.answered:
            # Nothing is lost here: what comes again had to wait, and a second Configure-Ack would begin LCP anew (RFC 1661 section 4.1).
            self.answered.add(payload)
            super().hear(payload, now)

    def begin(self, now):
        self.has_asked = {LCP: False, IPCP: False}
        super().begin(now)

    def say_packet(self, packet_said):
        """Sends a control packet, but for a first Configure-Request that was sent already: that would begin LCP or IPCP anew as well."""
        is_first = (packet_said.code, packet_said.identifier) == (CONFIGURE_REQUEST, 1) and packet_said.protocol in self.has_asked
        if not is_first or not self.has_asked[packet_said.protocol]:
            super().say_packet(packet_said)
        if is_first:
            self.has_asked[packet_said.protocol] = True

    def hear_end(self, payload):
        """LCP while it hangs up: what the gateway asks it does not answer any more."""
        if payload[2] == TERMINATE_ACK and self.way_out != "asks":
            self.wrong("a Terminate-Ack came that was not asked for")

    def take(self, octets, now):
        """A packet that came for it."""
        if octets not in self.coming:
            self.wrong(f"it got a packet that was not for it: {octets.hex()}")
            return
        self.coming.remove(octets)
        self.got += 1
        self.down_octets += len(octets)

    def came_out(self, octets, now):
        """A packet of its address came out at the core."""
        if octets not in self.on_way:
            self.wrong(f"a packet of its address came out that it never sent: {octets.hex()}")
            return
        self.on_way.remove(octets)
        self.up_octets += len(octets)
        self.note(now)

    def new_packet(self, source, destination):
        chance = self.world.chance
        payload = f"{self.name} {self.sent} ".encode() + chance.randbytes(chance.choice((0, 1, 40, 300, 1300)))
        return spell(Ipv4(source, destination, UDP, payload), self.sent % 65536)

    def tick(self, now):
        """Does what is due."""
        self.quiet += 1
        if self.phase == "waiting" and self.is_last:
            self.enter("done", now)
        elif self.phase == "waiting":
            self.want(now)
            self.enter("logging in", now)
        elif self.phase == "logging in" and self.address is not None:
            self.world.leased(self)
            self.enter("sending", now)
        elif self.phase == "sending":
            self.exchange(now)
        elif self.phase == "leaving" and self.stop is not None:
            self.compare()
            self.drop_session()
            self.renew()
            self.enter("waiting", now)
        elif self.phase != "done" and self.is_lost(now):
            self.wrong(f"nothing came for {now - self.since:.0f} s")
            self.restart(now)

    def exchange(self, now):
        """Sends and asks for packets, or hangs up where all have come."""
        if self.sent < PACKETS and len(self.on_way) < AT_ONCE and len(self.coming) < AT_ONCE:
            own = socket.inet_aton(self.address)
            up, down = self.new_packet(own, HOST), self.new_packet(HOST, own)
            self.sent += 1
            self.on_way.add(lowered(up))
            self.coming.add(lowered(down))
            self.say(b"\0\x21" + up)
            self.world.to_core(down)
        elif self.sent == PACKETS and not self.on_way and not self.coming:
            self.go(now)
        elif self.is_lost(now):
            self.wrong(f"{len(self.on_way)} packets to the core and {len(self.coming)} from it were lost")
            self.restart(now)

    def go(self, now):
        """Ends its session: by LCP, or as its lower layer does."""
        self.world.freed(self)
        self.enter("leaving", now)
        self.way_out = self.world.chance.choice(("asks", "goes"))
        if self.way_out == "asks":
            self.say_packet(Packet(LCP, TERMINATE_REQUEST, 9, b""))
        else:
            self.hang_up()

    def drop_session(self):
        """Leaves what is left of a session whose term has ended."""
        if self.way_out == "asks":
            self.hang_up()
        self.address = None

    def compare(self):
        """Compares its Stop with what went."""
        said = dict(self.stop.attributes)
        numbers = [int.from_bytes(said.get(kind, b"\xff"), "big") for kind in SUMS]
        cause = USER_REQUEST if self.way_out == "asks" or isinstance(self, Host) else LOST_CARRIER
        want = [self.up_octets, self.down_octets, PACKETS, PACKETS, 0, 0, cause]
        if numbers != want:
            self.wrong(f"its Stop says {numbers}, and it is to say {want}")
        self.ended += 1


SUMS = (
    radius_packets.ACCT_INPUT_OCTETS,
    radius_packets.ACCT_OUTPUT_OCTETS,
    radius_packets.ACCT_INPUT_PACKETS,
    radius_packets.ACCT_OUTPUT_PACKETS,
    radius_packets.ACCT_INPUT_GIGAWORDS,
    radius_packets.ACCT_OUTPUT_GIGAWORDS,
    radius_packets.ACCT_TERMINATE_CAUSE,
)


class PppoeCustomer(Customer, Host):
    """An honest subscriber over PPPoE."""

    def tick(self, now):
        if self.choice_at is not None:
            self.choose()
        super().tick(now)

    def hear_frame(self, frame, now):
        if frame.code != PADT:
            super().hear_frame(frame, now)
        elif frame.session == self.session != 0:
            self.session = 0
            self.leave(now)


class CallCustomer(Customer, Caller):
    """An honest subscriber over a call."""

    def is_ended(self, now):
        self.drop()
        self.leave(now)


class Circuit:
    """The provisioned circuit of the configuration, which sends and gets a packet now and then."""

    def __init__(self, world, port, mac, session, address):
        self.world, self.address = world, address
        self.front = port + mac + b"\x88\x64\x11\0" + session.to_bytes(2, "big")
        self.sent, self.on_way, self.coming = 0, set(), set()
        self.name, self.phase = "the circuit", "sending"

    came_out, take, wrong, new_packet, note = Customer.came_out, Customer.take, Customer.wrong, Customer.new_packet, Customer.note
    up_octets = down_octets = got = 0

    def tick(self, now):
        if len(self.on_way) < AT_ONCE and len(self.coming) < AT_ONCE:
            own = socket.inet_aton(self.address)
            up, down = self.new_packet(own, HOST), self.new_packet(HOST, own)
            self.sent += 1
            self.on_way.add(lowered(up))
            self.coming.add(lowered(down))
            self.world.from_circuit(self.front + (len(up) + 2).to_bytes(2, "big") + b"\0\x21" + up)
            self.world.to_core(down)
