"""Measures what the real program forwards between a subscriber and the core, beside a plain loop in C, both over sockets of
the loopback, in turns on the same machine. The numbers are of this machine and this moment; the ratios say more.

Saturated: as many packets as come back, of a provisioned circuit, of one beside it that is metered, of a session that logged in and of
one over an L2TP call, with 4 and with 64 shards; and what a metered packet costs to one that is not. The loop in C takes 22 octets off and
puts them on in all of them. Beside the call one of a real l2tpns, where there is one.
Paced: 2,500 packets a second, with 1 and with 64 shards, and with many sessions beside the one circuit, in processor time a
packet. Memory: what the program holds with many terms live."""

import contextlib
import os
import subprocess
import sys

from checks import usage
from machine import l2tpns
from machine.gateway import Lab, serve
from machine.traffic import Party, at_port, built_tool, circuit, logged_in, measure, median, over_call, spent
from peers.crowd import open_sessions
from peers.lac import Concentrator

SIZES = (64, 576, 1400)
SHARDS = (4, 64)
PACE = 2500
SESSIONS = 16000
TERMS = (0, 1000, 10000)
# Shards and sessions, which send no echoes.
PACED = ((1, 0), (64, 0), (64, SESSIONS))
PAGE = os.sysconf("SC_PAGE_SIZE")

# A second circuit, whose packets are metered and always green.
METERED = """\
[[profile]]
name = "unmetered"
[[profile]]
name = "metered"
up_cir = 1000000000000
up_cbs = 4294967295
up_ebs = 4294967295
down_cir = 1000000000000
down_cbs = 4294967295
down_ebs = 4294967295
[[static]]
port = 1
mac = "02:00:00:00:00:03"
session = 1026
address = "10.0.0.3"
user = "fixed2"
profile = "metered"
"""


def metered_circuit(lab):
    """The one that is metered."""
    return at_port(lab, "020000000003", 1026, "10.0.0.3")


@contextlib.contextmanager
def beside():
    """A running l2tpns with the subscriber of a call, or None where there is none; it says why."""
    why = l2tpns.lacking()
    with contextlib.ExitStack() as stack:
        found = None
        if why is None:
            try:
                lns = stack.enter_context(l2tpns.running())
                put = l2tpns.has_a_subscriber(lns)
                found = lns, Party(l2tpns.ADDRESS, lns.caller.end, "tunnel", put, lns.caller.keep, l2tpns.drawn)
            except (RuntimeError, OSError) as error:
                why = error
                stack.close()
        if found is None:
            print(f"\nNo rows of l2tpns: {why}")
        yield found


def table(results):
    """The medians of each size."""
    print("                       packets/s                    us/packet                    page faults/packet")
    print("of      way  octets      plain C        bng  ratio    plain C     bng  ratio      plain C     bng   lost")
    for (kind, way, size), runs in results.items():
        plain, ours = map(median, runs)
        pace = f"{plain.pace:11,.0f} {ours.pace:10,.0f} {ours.pace / max(plain.pace, 1):6.2f}"
        used = f"{plain.used:10.2f} {ours.used:7.2f} {plain.used / max(ours.used, 0.01):6.2f}"
        print(f"{kind:7} {way:4} {size:6} {pace} {used} {plain.faults:12.4f} {ours.faults:7.4f} {sum(run.lost for run in runs[1]):6}")
    print("A ratio is ours to plain C's: in packets for the same wall time, and for the same processor time.")


def weigh(results):
    """What a metered packet costs to one of the circuit that is not metered, in processor time."""
    print("Metered, in processor time a packet to unmetered:")
    for way in ("up", "down"):
        for size in SIZES:
            plain, metered = (spent(results[kind, way, size][1]) for kind in ("circuit", "metered"))
            print(f"        {way:4} {size:6} {metered / max(plain, 0.01):6.2f}")
    plain, metered = (spent([run for key, runs in results.items() if key[0] == kind for run in runs[1]]) for kind in ("circuit", "metered"))
    print(f"        all         {metered / max(plain, 0.01):6.2f}")


def weigh_calls(results):
    """What a call of the gateway passes to what one of l2tpns does, where that was measured."""
    if ("l2tpns", "up", SIZES[0]) not in results:
        return
    print("In the rows of l2tpns that stands in the place of bng. A call of bng to one of l2tpns, in packets for the same wall time, and for")
    print("the same processor time:")
    for way in ("up", "down"):
        for size in SIZES:
            ours, other = (results[kind, way, size][1] for kind in ("call", "l2tpns"))
            pace, used = median(ours).pace / max(median(other).pace, 1), spent(other) / max(spent(ours), 0.01)
            print(f"        {way:4} {size:6} {pace:6.2f} {used:6.2f}")


def compare(tool, shards, rounds, seconds):
    """The gateway with so many shards beside the plain loop, in turns."""
    options = {"tunnels": True, "tables": METERED}
    with Lab() as plain, Lab(f"shards = {shards}\necho = 0\n", **options) as ours, Concentrator(ours, 5) as tunnel, contextlib.ExitStack() as stack:
        serve(ours)
        subscribers = {
            "circuit": circuit(ours), "metered": metered_circuit(ours), "session": logged_in(ours), "call": over_call(ours, tunnel)
        }
        labs = dict.fromkeys(subscribers, ours)
        other = stack.enter_context(beside())
        if other is not None:
            labs["l2tpns"], subscribers["l2tpns"] = other
        keeps = [who.keep for who in subscribers.values()]
        peers = [plain.core.getsockname()[1], plain.access.getsockname()[1]]
        ports = [plain.ports["access"], plain.ports["core"], *peers, plain.ports["control"]]
        plain.start([tool, "loop", *map(str, ports)], roles=["access", "core", "control"])
        results = {(kind, way, size): ([], []) for kind in subscribers for way in ("up", "down") for size in SIZES}
        octets = {"up": 0, "down": 0}
        lost = 0
        print(f"\n{shards} shards, saturated: {rounds} runs of {seconds} s at each size, in turns")
        # Row by row in each turn, so that a slow minute of the machine falls on all rows alike.
        for turn in range(rounds + 1):
            for kind, way, size in results:
                for lab, runs in zip((plain, labs[kind]), results[kind, way, size]):
                    # The first turn warms up.
                    who = circuit(plain) if lab is plain else subscribers[kind]
                    for keep in keeps:
                        keep()
                    run = measure(tool, lab, who, way, size, seconds if turn else 0.2)
                    if turn:
                        runs.append(run)
                    if lab is ours:
                        octets[way] += size * run.came
                        lost += run.lost
        for lab in (plain, ours):
            lab.send(b"stop", lab.control, "control")
        plain.end()
        status, out, _ = ours.end()
        table(results)
        weigh(results)
        weigh_calls(results)
        said = next(line for line in out.splitlines() if line.startswith("total "))
        print(f"The report says {said}, and in={octets['up']} out={octets['down']} came, {lost} packets lost on the way.")
        return status


def pace(tool, shards, sessions, rounds, seconds):
    """Processor microseconds a packet at an even pace, to the core: the median."""
    with Lab(f"shards = {shards}\necho = 0\nterms = 32768\n", session=1, last="10.0.255.254") as lab:
        serve(lab)
        if sessions:
            open_sessions(lab, sessions)
        runs = [measure(tool, lab, circuit(lab), "up", 576, seconds, PACE) for _ in range(rounds)]
        middle = median(runs)
        print(f"{shards:6} {sessions:9} {middle.pace:12,.0f} {middle.used:10.2f} {middle.faults:19.4f} {sum(run.lost for run in runs):6}")
        lab.send(b"stop", lab.control, "control")
        return lab.end(60)[0]


def remember(terms):
    """The MB that the program holds with so many terms live."""
    with Lab("shards = 16\necho = 0\nterms = 32768\n", session=1, last="10.0.255.254") as lab:
        serve(lab)
        if terms:
            open_sessions(lab, terms)
        with open(f"/proc/{lab.pid}/statm", encoding="ascii") as file:
            held = int(file.read().split()[1]) * PAGE
        print(f"{terms:6} {held / 1e6:10.1f}")
        lab.send(b"stop", lab.control, "control")
        return lab.end(60)[0]


def main(rounds=11, seconds=0.3):
    with built_tool() as tool:
        print(f"{os.cpu_count()} processors, load {os.getloadavg()[0]:.1f}")
        failed = any([compare(tool, shards, rounds, seconds) for shards in SHARDS])
        print(f"\nPaced, {PACE} packets a second of 576 octets to the core, {rounds} runs of {seconds} s")
        print("shards  sessions    packets/s  us/packet  page faults/packet   lost")
        failed = any([pace(tool, *kind, rounds, seconds) for kind in PACED]) or failed
        print("\nMemory with 16 shards\n terms         MB")
        return int(any([remember(terms) for terms in TERMS]) or failed)


if __name__ == "__main__":
    came = usage.heed("bench", __doc__, "RUNS", "SECONDS")
    try:
        sys.exit(main(*(kind(word) for kind, word in zip((int, float), came))))
    except (RuntimeError, OSError, subprocess.SubprocessError) as error:
        print(f"bench: {error}", file=sys.stderr)
        sys.exit(1)
