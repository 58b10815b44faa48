"""All parties around one gateway in a storm: honest subscribers, others that log in too, and who sends mangled copies of all that is said to any
end of the gateway, from the right ends and from strangers. Nobody hears what is another's without saying so."""

import collections
import os
import random
import select
import socket
import tempfile
import time

from peers import radius_packets
from peers.concentrators import Concentrator
from peers.customers import FRONT, CallCustomer, Circuit, PppoeCustomer
from peers.intruders import Door, IntruderCaller, IntruderHost, Store, Trapdoor, as_of, is_signed_change, signed_change
from peers.l2tp import MESSAGE_TYPE, RESULT_CODE, STOP_CCN, read, short
from peers.loopback import LOOPBACK, udp, widen
from peers.mangling import mangled, with_ipv4_sum
from peers.pppoe import HOST_UNIQ, PADO, frame_octets, read_frame, read_tags
from peers.segment import Segment
from peers.storm_server import HONEST_NET, StormServer

# Sessions of honest subscribers are in the lower half of the shards, those of others in the upper half: a shard has 1,022 sessions, and who may
# open sessions may fill one (docs/OPERATING.md, 'What to know beforehand').
SHARDS = 8
HONEST_SHARDS = range(SHARDS // 2)

HONEST_LAC, STRANGER = "127.0.0.7", "127.0.0.9"
CIRCUIT, CIRCUIT_MAC = socket.inet_aton("10.0.0.2"), bytes.fromhex("020000000001")
PORT = bytes.fromhex("0200000000fe")

# The MAC of a host that asks for offers alone, by which the storm knows what the gateway has taken.
ASKING = bytes.fromhex("02000000000a")

# How many of each role go out in a step: twice as many are not more than the gateway takes of each in one turn, and fit the system's buffers.
PORTIONS = {"access": 64, "access2": 60, "tunnel": 72, "core": 32, "auth": 24, "acct": 20, "coa": 14, "control": 4}

# What a request for a change may ask, and, at the end, what may stand in any.
CHANGES = ((11, b"slow"), (11, b"default"), (27, bytes(3) + b"\2"), (28, bytes(4)), (85, bytes(4)), (1, b"nobody"), (33, b"relay"), (33, b""))

KEPT_BEFORE_A_FAULT = 2500
FAULTS = 8


class Storm(StormServer):
    """All parties around one gateway. `counts` has the datagrams by role, by who sent them and by the way in which they were mangled."""

    def __init__(self, lab, seed, access2):
        self.lab, self.seed, self.chance = lab, seed, random.Random(seed)
        self.store, self.counts = Store(), collections.Counter()
        self.hurled = self.steps = self.plain = 0
        self.faults, self.before = [], collections.deque(maxlen=KEPT_BEFORE_A_FAULT)
        self.late, self.replies, self.unheard = collections.deque(), [], {}
        self.by_address = {}
        self.starts, self.stops, self.live = {}, {}, {}
        self.sums, self.asked_again = collections.defaultdict(lambda: [0, 0]), 0
        self.resident, self.memory, self.last_stats, self.report = [], None, b"", []
        self.came = self.owed = self.asked = self.offered = self.told = 0
        self.made_at, self.pace = {}, 0.0
        self.withheld, self.acknowledged = {}, set()
        self.stranger, self.control, self.unknown_lac = udp(STRANGER), udp(), udp(STRANGER)
        self.auth_stranger, self.probe_end = udp(), udp(STRANGER)
        self.coa = {name: udp(address) for name, address in (("signed", LOOPBACK), ("unsigned", LOOPBACK), ("wrong", STRANGER))}
        self.access = Segment()
        self.access.end.close()
        self.access.end = lab.access
        self.access2 = access2
        self.trap = Segment()
        self.trap.end.close()
        self.trap.end, self.trap.hosts = lab.access, self.access.hosts
        door, trapdoor = Door(self), Trapdoor(self)
        self.access.boxes[PORT] = door
        self.trap.boxes[PORT] = trapdoor
        self.access2.boxes[PORT] = Trapdoor(self, "2")
        self.make_parties(door, trapdoor)
        for end in self.ends():
            widen(end)
        self.silent = {self.stranger: "a stranger", self.auth_stranger: "a stranger", self.coa["unsigned"]: "a client that did not sign", self.coa["wrong"]: "a client that may not ask"}
        self.hearers = {
            lab.access: self.hear_access, self.access2.end: self.hear_access2, lab.core: self.hear_core, lab.radius: self.hear_request,
            self.coa["signed"]: self.hear_change, self.control: self.hear_control, self.probe_end: self.hear_probe,
        }
        self.hearers |= {it.end: lambda octets, it=it: self.hear_tunnel(it, octets) for it in self.concentrators}
        self.hearers |= {it: self.hear_of_no_call for it in (self.flood, self.sly)} | {self.unknown_lac: self.hear_refusal}
        self.hearers |= {it: lambda octets, who=who: self.found(f"{who} was answered: {octets.hex()}") for it, who in self.silent.items()}

    def make_parties(self, door, trapdoor):
        number = 0
        self.customers, self.intruders = [], []
        while len(self.customers) < 6:
            number += 1
            host = PppoeCustomer(number, self.access)
            if sum(host.mac) % SHARDS in HONEST_SHARDS:
                self.customers.append(host)
            else:
                del self.access.hosts[host.mac]
        self.honest_macs = {host.mac for host in self.customers}
        self.circuit = Circuit(self, PORT, CIRCUIT_MAC, 1025, socket.inet_ntoa(CIRCUIT))
        number = 500
        for segment in (self.trap, self.access2):
            for _ in range(16):
                number += 1
                host = IntruderHost(number, segment)
                while sum(host.mac) % SHARDS in HONEST_SHARDS:
                    del segment.hosts[host.mac]
                    number += 1
                    host = IntruderHost(number, segment)
                self.intruders.append(host)
        self.trapped = {"access": self.intruders[:16], "access2": self.intruders[16:]}
        self.hostile_macs = {host.mac for host in self.trapped["access"]}
        self.honest_lac = self.at_shards(HONEST_LAC, HONEST_SHARDS, lambda it: Concentrator(it, [door]))
        self.lacs = [self.at_shards(LOOPBACK, [shard], lambda it: Concentrator(it, [trapdoor])) for shard in (5, 6, 7)]
        self.concentrators = [self.honest_lac, *self.lacs]
        self.flood, self.sly = (self.at_shards(address, [4], udp) for address in (LOOPBACK, HONEST_LAC))
        self.callers = [CallCustomer(100 + at, self.honest_lac) for at in range(4)]
        self.bad_callers = [IntruderCaller(200 + 10 * at + it, lac) for at, lac in enumerate(self.lacs) for it in range(4)]
        for at, it in enumerate([*self.intruders, *self.bad_callers]):
            it.by_pap = at % 3 == 0
        for it in (*self.customers, *self.callers):
            it.prepare(self)

    @staticmethod
    def at_shards(address, shards, make):
        """What has an end at this address whose port leads to one of these shards."""
        others = []
        while True:
            made = make(address)
            end = getattr(made, "end", made)
            if (sum(socket.inet_aton(address)) + end.getsockname()[1]) % SHARDS in shards:
                break
            others.append(end)
        for it in others:
            it.close()
        return made

    def ends(self):
        lab = self.lab
        own = [lab.access, self.access2.end, lab.core, lab.radius, lab.accounting, self.stranger, self.control, self.auth_stranger, self.probe_end]
        return [*own, self.unknown_lac, *self.coa.values(), *(it.end for it in self.concentrators), self.flood, self.sly]

    # What is told of others.

    def found(self, what):
        """Keeps a fault, and what was sent before it."""
        self.faults.append(what)
        print(f"FAILED after {self.hurled} datagrams: {what}", flush=True)
        if len(self.faults) <= FAULTS:
            name = os.path.join(tempfile.gettempdir(), f"hostile-{self.seed}-{len(self.faults)}.txt")
            with open(name, "w", encoding="ascii") as file:
                file.write(f"{what}\n")
                file.writelines(f"{role} {who} {way} {octets.hex() or '-'}\n" for role, who, way, octets in self.before)
            print(f"       the datagrams before it are in {name}", flush=True)

    def leased(self, customer):
        self.by_address[customer.address] = customer

    def freed(self, customer):
        self.by_address.pop(customer.address, None)

    def to_core(self, octets):
        self.store.keep("core", octets)
        self.put(self.lab.core, octets, "core")

    def from_circuit(self, octets):
        self.store.keep("access", octets)
        self.put(self.lab.access, octets, "access")

    # Sending.

    def put(self, end, octets, role):
        self.plain += 1
        self.before.append((role, "plain", "plain", octets))
        self.throw(end, octets, role)

    def throw(self, end, octets, role):
        while True:
            try:
                end.sendto(octets, (LOOPBACK, self.lab.ports[role]))
                return
            except BlockingIOError:
                time.sleep(0.001)

    def hurl(self, role, who, end, octets, way, late=False):
        """Sends a datagram that is not honest, unless it is what an honest party or an operator might say as well."""
        octets = self.guarded(role, who, octets)
        if octets is None:
            return
        if late:
            self.late.append((role, who, end, octets, way))
            return
        self.hurled += 1
        self.owed += role == "control"
        self.counts[role, who, way] += 1
        self.before.append((role, who, way, octets))
        self.throw(end, octets, role)

    def guarded(self, role, who, octets):
        """The octets, changed or None where they would be right from whom they come: at the first port the honest subscribers' MACs are theirs,
        the core may send packets to them, and who may stop the gateway stops it."""
        if role == "access" and who == "right" and len(octets) >= 7 and octets[6:12] not in self.hostile_macs:
            return (octets[:6] + self.chance.choice(self.trapped["access"]).mac + octets[12:])[:len(octets)]
        if role == "core" and who == "right" and (octets[16:18] == HONEST_NET or octets[16:20] == CIRCUIT):
            return octets[:16] + bytes([10, 0]) + self.chance.randbytes(1) + b"\x77" + octets[20:]
        if role == "control" and octets in (b"stop", b"stop\n"):
            return None
        return octets

    # What a step sends.

    def storm(self):
        """Sends mangled copies at all roles."""
        for _ in range(min(len(self.late), 8)):
            role, who, end, octets, way = self.late.popleft()
            self.hurl(role, who, end, octets, way)
        for role, portion in PORTIONS.items():
            for _ in range(portion):
                self.hurl_one(role)

    def mostly_first(self, them):
        """One of them, mostly of the first ones, so that the last ones come further."""
        return them[int(len(them) * self.chance.random() ** 4)]

    def hurl_one(self, role):
        chance, kind = self.chance, role.rstrip("2")
        octets = self.store.any(chance, kind)
        if kind == "access":
            octets = self.mostly_first(self.trapped[role]).as_its_own(octets, chance)
        lac = self.mostly_first(self.lacs) if kind == "tunnel" else None
        if lac:
            # A message with the next number stands before that of the concentrator itself: one of them is spared that.
            places = (1, 2, 3, -1) if lac is self.lacs[-1] else (0, 0, 0, 1, 2)
            octets = as_of(next(iter(lac.tunnels.values())), self.mostly_first(list(lac.calls.values()) or [None]), octets, chance, places)
        if kind == "core" and chance.random() < 0.6:
            octets = self.to_intruder(octets)
        if chance.random() < 0.06:
            way, changed = "again", octets
        else:
            other = self.store.any(chance, kind if chance.random() < 0.9 else chance.choice(list(self.store.samples)))
            way, changed = mangled(chance, kind, octets, other)
        if kind == "coa":
            self.hurl_change(octets, way, changed)
            return
        who, end = self.sender(role, lac)
        self.hurl(role, who, end, changed, way)

    def to_intruder(self, octets):
        """A packet of the core to the address of an intruder, where one has any."""
        them = [it.address for it in (*self.intruders, *self.bad_callers) if it.address]
        if len(octets) < 20 or not them:
            return octets
        return with_ipv4_sum(octets[:16] + socket.inet_aton(self.chance.choice(them)) + octets[20:], 0)

    def sender(self, role, lac):
        """Who sends: one in eight is a stranger."""
        chance, lab = self.chance, self.lab
        if role == "control":
            return "right", self.control
        if chance.random() < 0.125:
            return "wrong", self.unknown_lac if role == "tunnel" else self.stranger
        if role == "tunnel":
            luck = chance.random()
            if luck < 0.12:
                return "other end", self.flood if luck < 0.06 else self.sly
            return "right", lac.end
        rights = {"access": lab.access, "access2": self.access2.end, "core": lab.core, "auth": lab.radius, "acct": lab.accounting}
        return "right", rights[role]

    def hurl_change(self, octets, way, changed):
        """A request for a change: mangled behind its signature, or before it, or of a client that may not ask."""
        chance, luck = self.chance, self.chance.random()
        if luck < 0.45:
            if not is_signed_change(changed):
                self.hurl("coa", "unsigned", self.coa["unsigned"], changed, way)
        elif luck < 0.55:
            self.hurl("coa", "wrong", self.coa["wrong"], octets, "as it is")
        else:
            kind = chance.choice((40, 43, 43))
            attributes = [(44, chance.choice(self.ids))] if self.ids and chance.random() < 0.7 else [(8, bytes([10, 0, 0, chance.randrange(3, 90)]))]
            attributes += chance.choices(CHANGES if kind == 43 or chance.random() < 0.2 else CHANGES[-2:], k=2)
            body = radius_packets.ask(kind, chance.randrange(256), *attributes)[20:]
            if chance.random() < 0.6:
                way, body = mangled(chance, "attributes", body, octets[20:])
            signed = signed_change(kind, chance.randrange(256), body[:4000])
            if self.may_ask(signed):
                self.store.keep("coa", signed)
                self.hurl("coa", "right", self.coa["signed"], signed, way + ", signed")

    def may_ask(self, octets):
        """Whether a request names no honest party's session."""
        at = 20
        while at + 2 <= len(octets) and octets[at + 1] >= 2:
            kind, value = octets[at], octets[at + 2:at + octets[at + 1]]
            if kind == 8 and (value[:2] == HONEST_NET or value == CIRCUIT):
                return False
            if kind == 44:
                try:
                    if int(value[8:12], 16) // 1024 in HONEST_SHARDS:
                        return False
                except ValueError:
                    pass
            at += octets[at + 1]
        return True

    @property
    def ids(self):
        """The sessions of intruders that go on."""
        return [sid for sid, name in self.live.items() if not name.startswith(FRONT) and name != b"fixed1"]

    # Hearing.

    def hear_access(self, octets):
        frame = read_frame(octets)
        if frame is None or frame_octets(frame) != octets:
            self.found(f"a port sent what is no PPPoE frame, or one with padding: {octets.hex()}")
            return
        if frame.destination == ASKING and frame.code == PADO:
            self.offered = int.from_bytes(dict(read_tags(frame.payload)).get(HOST_UNIQ, b""), "big")
            return
        host = self.access.hosts.get(frame.destination)
        if frame.ethertype == 0x8864 and frame.payload[:2] == b"\0\x21":
            self.sums[frame.payload[18:22]][1] += len(frame.payload) - 2
            if frame.destination == CIRCUIT_MAC:
                self.circuit.take(frame.payload[2:], self.now)
            elif frame.payload[18:20] == HONEST_NET and (frame.destination not in self.honest_macs or host.session != frame.session):
                self.found(f"another one got a packet of an honest subscriber: {octets.hex()}")
        if host:
            host.hear_frame(frame, self.now)

    def hear_access2(self, octets):
        frame = read_frame(octets)
        if frame is None or frame_octets(frame) != octets:
            self.found(f"port 2 sent what is no PPPoE frame, or one with padding: {octets.hex()}")
            return
        if frame.ethertype == 0x8864 and frame.payload[:2] == b"\0\x21":
            self.sums[frame.payload[18:22]][1] += len(frame.payload) - 2
            if frame.payload[18:20] == HONEST_NET:
                self.found(f"another port got a packet of an honest subscriber: {octets.hex()}")
        if frame.destination in self.unheard:
            self.unheard[frame.destination].append(octets)
        host = self.access2.hosts.get(frame.destination)
        if host:
            host.hear_frame(frame, self.now)

    def hear_tunnel(self, concentrator, octets):
        if not octets[0] & 0x80 and octets[6:10] == b"\xff\3\0\x21":
            self.sums[octets[26:30]][1] += len(octets) - 10
            if octets[26:28] == HONEST_NET and concentrator is not self.honest_lac:
                self.found(f"another concentrator got a packet of an honest subscriber: {octets.hex()}")
        is_control = octets[0] & 0x80
        at = 4 if is_control else 2
        tunnel = concentrator.tunnels.get(int.from_bytes(octets[at:at + 2], "big"))
        if tunnel is None:
            return
        if is_control:
            tunnel.hear(octets, self.now)
            return
        call = concentrator.calls.get(int.from_bytes(octets[4:6], "big"))
        if call and call.tunnel is tunnel:
            call.hear(octets[8:], self.now)

    def hear_refusal(self, octets):
        """A concentrator that is not configured hears StopCCNs alone (RFC 2661 section 4.4.2, Result Code 4)."""
        message = read(octets)
        if message.avps[0] != (MESSAGE_TYPE, short(STOP_CCN)) or dict(message.avps).get(RESULT_CODE) != short(4):
            self.found(f"a concentrator that is not configured got {octets.hex()}")

    def hear_of_no_call(self, octets):
        if octets[0] & 0x80 == 0:
            self.found(f"data came over a tunnel that has no call: {octets.hex()}")

    def hear_core(self, octets):
        source = octets[12:16]
        self.sums[source][0] += len(octets)
        if source == CIRCUIT:
            self.circuit.came_out(octets, self.now)
        elif source[:2] == HONEST_NET:
            customer = self.by_address.get(socket.inet_ntoa(source))
            if customer is None:
                self.found(f"a packet of an address that nobody holds came out: {octets.hex()}")
            else:
                customer.came_out(octets, self.now)

    def hear_change(self, octets):
        self.counts["coa", "answers", f"code {octets[0]}"] += 1
        if octets[0] not in (41, 42, 44, 45) or len(octets) != int.from_bytes(octets[2:4], "big"):
            self.found(f"Coa answered by what is no reply: {octets.hex()}")

    def hear_control(self, octets):
        if octets.startswith(b"stopped in="):
            self.last_stats = octets
        elif octets != b"unknown\n":
            self.found(f"Control answered {octets!r}")
        self.came += 1

    def hear_probe(self, octets):
        self.unheard.setdefault("probe", []).append(octets)

    # A step.

    def poll(self, patience):
        """Hears what came. A record counts once all that was sent before it was heard."""
        ready, _, _ = select.select([*self.hearers, self.lab.accounting], [], [], patience)
        self.now = time.monotonic()
        records = self.drain(self.lab.accounting) if self.lab.accounting in ready else []
        for end in list(self.hearers) if records else ready:
            hear = self.hearers.get(end)
            for octets in self.drain(end) if hear else ():
                try:
                    hear(octets)
                except (RuntimeError, IndexError, KeyError) as error:
                    self.found(f"the gateway sent what cannot be read: {octets.hex()} ({error!r})")
        for octets in records:
            self.hear_record(octets)

    @staticmethod
    def drain(end):
        came = []
        while True:
            try:
                came.append(end.recv(65535))
            except OSError:
                return came
