"""Hostile datagrams at every end of the gateway, COUNT of them (200000) by the seed SEED (one of the clock) and for SECONDS (360) at most, while
honest subscribers log in, send and get packets and hang up over PPPoE and L2TP.

Mutated, cut, repeated, late and spliced copies of all that subscribers, access concentrators, a RADIUS server, a client for changes, an
operator and the core send come from those ends and from strangers. It fails where an honest subscriber is not let in, loses a packet or gets
another's, where a Stop is not what went, where an answer is another one than to the same octets alone, where the gateway's memory grows, or
where it ends or is silent. What it finds is kept in a file with the datagrams before it."""

import collections
import os
import random
import signal
import socket
import sys
import time

from checks import usage
from machine.gateway import PROGRAM, Lab
from peers.concentrators import Tunnel
from peers.loopback import udp
from peers.mangling import mangled
from peers.pppoe import BROADCAST, DISCOVERY, HOST_UNIQ, PADI, SERVICE_NAME, Frame, frame_octets, tags_octets
from peers.segment import Segment
from peers.storm import ASKING, FAULTS, SHARDS, Storm

# Datagrams, and seconds for them: the sessions that are there then take a while to end, so that it is all within ten minutes.
COUNT, SECONDS = 200_000, 360

TABLES = """\
[[access]]
local = "127.0.0.1:{access2}"
peer = "127.0.0.1:{access2_peer}"
mac = "02:00:00:00:00:fe"
[[pool]]
name = "honest"
first = "10.9.0.2"
last = "10.9.0.250"
[[lac]]
ip = "127.0.0.7"
[[profile]]
name = "default"
[[profile]]
name = "slow"
up_cir = 1000
up_cbs = 3000
up_ebs = 0
down_cir = 1000
down_cbs = 3000
down_ebs = 0
"""

# After the first so many parts of the datagrams the memory may grow by so many KiB.
WARM, GROWTH = 0.3, 8192

# Steps between two looks at the sums and the memory, and between two octet strings that are asked again; seconds for an answer; and after how
# many datagrams it says how far it is.
LOOK, PROBE, ANSWERING, TELLING = 40, 8, 60.0, 10_000


class World(Storm):
    """The storm in steps, each of which ends once the gateway has taken nearly all that was sent. An interrupt ends all storms."""

    is_interrupted = False

    def hear_until(self, what, is_there):
        """Hears all until something has come, and says whether it came."""
        until = time.monotonic() + ANSWERING
        while not is_there():
            self.poll(max(0, until - time.monotonic()))
            if self.lab.program.poll() is not None:
                self.found(f"the gateway ended with status {self.lab.program.returncode}")
                return False
            if time.monotonic() > until:
                self.found(f"{what} got no answer in {ANSWERING:.0f} s")
                return False
        return True

    def is_offered(self):
        """Waits for the PADO to a PADI: by then the gateway has taken all that was sent to port 1, and most of the rest."""
        self.asked += 1
        tags = tags_octets([(SERVICE_NAME, b""), (HOST_UNIQ, self.asked.to_bytes(8, "big"))])
        self.throw(self.lab.access, frame_octets(Frame(BROADCAST, ASKING, DISCOVERY, PADI, 0, tags)), "access")
        return self.hear_until("a PADI", lambda: self.offered == self.asked)

    def settle(self):
        """Waits for three PADOs, one after the other. The first is of a turn that may have looked for datagrams before some of ours came. The turn
        of the second takes all, and has sent all that is to be said to them once the third comes."""
        return all(self.is_offered() for _ in range(3))

    def say(self, word):
        """Says a word to Control, and says whether its answer came, after those to all that was said to it before."""
        self.owed += 1
        self.throw(self.control, word, "control")
        return self.hear_until(f"{word!r} to Control", lambda: self.came >= self.owed)

    def tick(self):
        self.now = time.monotonic()
        self.circuit.tick(self.now)
        for it in self.lacs:
            self.renew(it)
        for it in self.concentrators:
            it.tick(self.now)
        if self.honest_lac.open_tunnels():
            for it in self.callers:
                it.tick(self.now)
        for it in self.customers:
            it.tick(self.now)
        for it in (*self.intruders, *self.bad_callers):
            it.tick(self.now, self.chance)
        self.send_replies()

    def renew(self, lac):
        """A concentrator of intruders whose tunnel is not up begins another one under another number: the old one's may be there still."""
        own, tunnel = next(iter(lac.tunnels.items()))
        if not tunnel.is_open and self.now - self.made_at.setdefault(tunnel, self.now) > 6:
            tunnel.give_up(self.now)
            lac.tunnels = {own % 60000 + 1: Tunnel(lac, tunnel.box, own % 60000 + 1)}

    def step(self, with_storm=True):
        """One step of all parties, and whether the gateway is there still."""
        self.steps += 1
        began = time.monotonic()
        self.tick()
        if with_storm:
            self.storm()
            self.probe_one()
        if not self.is_offered():
            return False
        self.pace = time.monotonic() - began
        return self.steps % LOOK != 0 or self.look()

    def look(self):
        """Looks at the gateway's sums and its memory, and at what waits too long."""
        if not self.say(b"stats"):
            return False
        if self.hurled // TELLING > self.told:
            self.told = self.hurled // TELLING
            print(f"{self.hurled} so far, {sum(it.ended for it in (*self.customers, *self.callers))} honest sessions", flush=True)
        numbers = [[int(word.partition(b"=")[2]) for word in line.split()[1:]] for line in self.last_stats.splitlines()[:3]]
        if [a + b for a, b in zip(*numbers[:2])] != numbers[2]:
            self.found(f"stats does not add up: {self.last_stats!r}")
        self.resident.append((self.hurled, resident(self.lab.pid)))
        for octets, since in list(self.withheld.items()):
            if time.monotonic() - since > 60:
                del self.withheld[octets]
                self.found(f"a record that was not acknowledged did not come again in a minute: {octets.hex()}")
        return True

    # The same octets alone and in the storm.

    def make_probes(self, count):
        """Octets whose answers are none of any session's: each is sent alone here, and in the storm from then on."""
        self.probes = []
        for at in range(count):
            mac = b"\x06\0\0" + (at * SHARDS + 4).to_bytes(3, "big")
            seed = frame_octets(Frame(BROADCAST, mac, DISCOVERY, PADI, 0, tags_octets([(SERVICE_NAME, b""), (0x0103, b"probe%d" % at)])))
            octets = seed if at % 4 == 0 else mangled(self.chance, "access", seed, self.store.any(self.chance, "access"))[1]
            if len(octets) >= 12:
                self.probes.append(("access2", mac, (octets[:6] + mac + octets[12:])))
        for at in range(count // 4):
            seed = self.chance.choice(self.store.samples["tunnel"])
            self.probes.append(("tunnel", "probe", mangled(self.chance, "tunnel", seed, seed)[1]))
        self.alone = [self.probe(*it) for it in self.probes]
        self.probed = 0

    def probe(self, role, inbox, octets):
        self.unheard[inbox] = []
        self.throw(self.access2.end if role == "access2" else self.probe_end, octets, role)
        self.settle()
        return self.unheard.pop(inbox)

    def probe_one(self):
        if self.steps % PROBE == 0:
            at = self.chance.randrange(len(self.probes))
            if (answers := self.probe(*self.probes[at])) != self.alone[at]:
                self.found(f"{self.probes[at][2].hex()} at {self.probes[at][0]} gets {[it.hex() for it in answers]}, and alone {[it.hex() for it in self.alone[at]]}")
            self.probed += 1


def resident(pid):
    """The memory of a process in KiB."""
    with open(f"/proc/{pid}/status", encoding="ascii") as file:
        return next(int(line.split()[1]) for line in file if line.startswith("VmRSS"))


def lost_in_sockets(ports):
    """Datagrams that the system dropped at these ports, since a socket was full."""
    with open("/proc/net/udp", encoding="ascii") as table:
        rows = [line.split() for line in table.readlines()[1:]]
    return sum(int(row[12]) for row in rows if int(row[1].split(":")[1], 16) in ports)


def play(count, seed, program=PROGRAM, seconds=SECONDS):
    """Runs the gateway in the storm, for so many seconds at most, and gives the world that is left."""
    access2 = Segment()
    held = udp()
    port2 = held.getsockname()[1]
    held.close()
    tables = TABLES.format(access2=port2, access2_peer=access2.end.getsockname()[1])
    with Lab(f"shards = {SHARDS}\necho = 20\n", radius_keys="tries = 10\n", acknowledges=False, tables=tables, tunnels=True, changes=True) as lab:
        lab.ports["access2"] = port2
        lab.start([program, "serve", lab.configuration], stderr=None)
        world = World(lab, seed, access2)
        began = time.monotonic()
        world.make_probes(40)
        while world.hurled < count and time.monotonic() - began < seconds and not World.is_interrupted and world.step() and len(world.faults) < FAULTS:
            pass
        world.seconds = time.monotonic() - began
        calm(world)
        end(world)
        weigh(world)
        for it in world.ends():
            it.close()
        return world


def calm(world):
    """Lets the honest subscribers end their sessions, with no storm."""
    ours = {end.getsockname()[1] for end in world.ends()}
    world.lost = lost_in_sockets(ours | set(world.lab.ports.values()))
    if world.faults:
        return
    until = time.monotonic() + 120
    everybody = [*world.customers, *world.callers]
    for it in everybody:
        it.is_last = True
    world.circuit.tick = lambda now: None
    while time.monotonic() < until and world.step(with_storm=False):
        if all(it.phase == "done" for it in everybody) and not world.withheld:
            if world.circuit.on_way or world.circuit.coming:
                world.found("packets of the circuit were lost")
            break
    else:
        world.found("the honest subscribers did not end their sessions in two minutes: " + ", ".join(f"{it.name} {it.phase}" for it in everybody))


def end(world):
    """Stops the gateway, and compares its report with the Stops."""
    lab = world.lab
    if lab.program.poll() is not None:
        return
    for it in (*world.customers, *world.callers):
        it.enter("leaving", world.now)
    world.throw(world.control, b"stop", "control")
    world.chance = random.Random(0)
    world.hearers[world.control] = lambda octets: None
    world.hearers[lab.radius] = lambda octets: None
    until = time.monotonic() + 100
    while lab.program.poll() is None and time.monotonic() < until:
        world.poll(0.1)
    world.poll(0)
    if lab.program.poll() is None:
        world.found("the gateway did not end in 100 s after the stop")
        return
    status, out, _ = lab.end()
    whole = " ".join(f"{way}={sum(stop[at] for stop in world.stops.values())}" for at, way in enumerate(("in", "out")))
    lines = out.splitlines()
    if status or lines[:3] != [f"stopped {whole}", "live in=0 out=0", f"total {whole}"]:
        world.found(f"the status is {status} and the report begins {lines[:3]}, and the Stops say {whole}")
    left = {socket.inet_ntoa(address): sums for address, sums in world.sums.items() if sums != [0, 0]}
    if left:
        world.found(f"packets went that no Stop counts: {left}")
    world.report = lines


def weigh(world):
    """Compares the gateway's memory at the end with the most of the first part."""
    if world.resident:
        last, kib = world.resident[-1]
        world.memory = max((was for hurled, was in world.resident if hurled <= last * WARM), default=kib), kib
        if kib - world.memory[0] > GROWTH:
            world.found(f"the memory grew from {world.memory[0]} KiB to {kib}")


def tell(world):
    """Prints counts by role and by the way of mangling."""
    roles, ways, senders = collections.Counter(), collections.Counter(), collections.Counter()
    for (role, who, way), number in world.counts.items():
        if who != "answers":
            roles[role] += number
            ways[way.partition(",")[0].partition("+")[0]] += number
            senders[who] += number
            ways["(of these mended or signed)"] += number * ("+" in way or "," in way)
    for what, counts in (("role", roles), ("way", ways), ("sender", senders)):
        print(f"by {what}: " + ", ".join(f"{name} {number}" for name, number in counts.most_common()))
    print("answers of Coa: " + (", ".join(f"{way} {number}" for (_, who, way), number in sorted(world.counts.items()) if who == "answers") or "none"))
    everybody = [*world.customers, *world.callers]
    hosts, calls = (sum(it.leased for it in them) for them in (world.intruders, world.bad_callers))
    print(f"honest: {sum(it.ended for it in everybody)} sessions of {len(everybody)} subscribers, each with its Stop; {world.circuit.sent} packets each way on the circuit")
    print(f"others: {hosts} logins of hosts and {calls} over calls; {world.plain} datagrams of all parties as they are to be; {world.probed} octet strings asked again; {world.asked_again} records that came again")
    if world.memory:
        print(f"memory: {world.memory[0]} KiB at most in the first part, {world.memory[1]} KiB at the end")
    print("dropped: " + ", ".join(line.partition(" ")[2] for line in world.report if line.startswith("drop ")))
    print(f"lost in full sockets of the gateway or the lab: {world.lost}")
    print(f"{world.hurled} hostile datagrams in {world.seconds:.0f} s by the seed {world.seed}: {len(world.faults)} faults")


def main():
    words = usage.heed("hostile", __doc__, "COUNT", "SEED", "SECONDS")
    count = int(words[0]) if words else COUNT
    seed = int(words[1]) if len(words) > 1 else int(time.time())
    seconds = int(words[2]) if len(words) > 2 else SECONDS
    program = os.environ.get("BNG_PROGRAM", PROGRAM)
    if not os.access(program, os.X_OK):
        print("hostile: skipped, since the program is not built: ./bng does it")
        return 0
    print(f"hostile: runs {program}, {count} datagrams by the seed {seed}, for {seconds} s at most", flush=True)
    signal.signal(signal.SIGINT, lambda *_: setattr(World, "is_interrupted", True))
    world = play(count, seed, program, seconds)
    tell(world)
    return 1 if world.faults else 0


if __name__ == "__main__":
    sys.exit(main())
