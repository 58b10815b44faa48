"""Refuses each allocation of the program in turn, for SECONDS (600) at most: of `exercise 4`, and of a gateway that serves one packet of its
circuit. Each run is to end with status 0 or 4, and with status 0 its report and the Stops are to say what went.

It prints how many allocations there are, how many of them were refused, each in a run of its own, and what came out of that. Where time is short
it takes those of the start and of the end, and of the others as many as it can, spread evenly. `lab/starve SECONDS N` refuses number N alone."""

import collections
import concurrent.futures
import os
import re
import select
import subprocess
import sys
import threading
import time

from checks import usage
from machine.gateway import PROGRAM, Lab, report
from machine.starving import heaps, ran
from peers import radius_packets
from peers.ipv4 import packet
from peers.pppoe import frame
from peers.radius_packets import value
from peers.radius_server import STOP

SECONDS = 600

# Seconds in which each step of a run comes, also where little processor time is left.
PATIENCE = 120

# Of each script these at its start and its end are refused in any case.
START, END = 700, 60

FOUR = "exercise subscribers=4 terms=4 in_packets=10 in_octets=1020 out_packets=6 out_octets=1214 stops=4 dropped="
WANTS = (4, "", "bng: out of memory\n")


def exercised(program, heap, number):
    """What comes of `exercise 4`: in words, and whether it may."""
    status, out, err = ran([program, "exercise", "4"], heap, number)
    if (status, out, err) == WANTS:
        return "status 4, out of memory", True
    dropped = re.fullmatch(re.escape(FOUR) + r"(\d+)\n", out)
    right = (status, err) == (0, "") and dropped is not None
    return f"status {status}, {out.strip() or 'no report'}{', ' + err.strip() if err else ''}", right


def answer(lab, word):
    """What Control answers to a word, or None where the gateway ends before that."""
    lab.send(word, lab.control, "control")
    until = time.monotonic() + PATIENCE
    is_over = False
    while time.monotonic() < until and not is_over:
        is_over = lab.program.poll() is not None
        if select.select([lab.control], [], [], 0.05)[0]:
            return lab.receive(lab.control)[0]
    return None


def came_out(lab):
    """The packet that came out at the core, or None where `stats` says that memory was wanted for its round."""
    until = time.monotonic() + PATIENCE
    while time.monotonic() < until:
        ready, _, _ = select.select([lab.core], [], [], 0.05)
        if ready:
            return lab.receive(lab.core)[0]
        if lab.program.poll() is not None:
            return None
        if b"drop WantOfMemory 1\n" in (answer(lab, b"stats") or b""):
            return None
    return None


def served(program, heap, number):
    """The same of a gateway, up to four times where it has status 3: another lab may have taken a port that was free."""
    for _ in range(4):
        words, may_be = served_once(program, heap, number)
        if not words.startswith("status 3"):
            break
    return words, may_be


def served_once(program, heap, number):
    """What comes of a gateway that is sent a packet of its circuit and then `stop`: in words, and whether it may."""
    octets = packet()
    with Lab() as lab:
        try:
            lab.start([program, "serve", lab.configuration], PATIENCE, env=heap.environment(number))
        except RuntimeError:
            return f"status {lab.program.returncode} before it serves", (lab.program.returncode, lab.program.stdout.read().decode()) == WANTS[:2]
        lab.send(frame(octets))
        forwarded = came_out(lab)
        is_answered = answer(lab, b"stop") == b"stopping\n"
        try:
            status, out, err = lab.end(PATIENCE)
        except subprocess.TimeoutExpired:
            return f"{'forwarded' if forwarded else 'dropped'}, {'answered' if is_answered else 'NOT answered'}, and it does not end", False
    stops = [it for it in lab.records if value(it, radius_packets.ACCT_STATUS_TYPE) == STOP]
    sums = {(value(it, radius_packets.ACCT_INPUT_OCTETS), value(it, radius_packets.ACCT_OUTPUT_OCTETS)) for it in stops}
    went = 84 if forwarded else 0
    words = f"status {status}, {'forwarded' if forwarded else 'dropped'}, {'answered' if is_answered else 'NOT answered'}, Stops {sorted(sums)}"
    if (status, out, err) == WANTS and not (forwarded or is_answered or lab.records):
        return "status 4 before it serves", True
    if (status, out, err) == WANTS:
        return f"{words}, no report for want of memory", is_answered and sums == {(went, 0)}
    want = report(84) if forwarded else report(0, WantOfMemory=1)
    return f"{words}, the report {'is right' if out == want else out!r}", (status, out, err, is_answered, sums) == (0, want, "", True, {(went, 0)})


def in_turn(count):
    """The numbers of all allocations: those of the start, those of the end, and the others by halving what lies between those before."""
    first = list(range(1, min(START, count) + 1))
    last = list(range(max(len(first) + 1, count - END + 1), count + 1))
    between = range(len(first) + 1, last[0] if last else count + 1)
    bits = max(1, len(between).bit_length())
    spread = (int(f"{at:0{bits}b}"[::-1], 2) for at in range(1 << bits))
    return first + last + [between[at] for at in spread if at < len(between)]


class Try:
    """A script of which each allocation is refused. `outcomes` has the numbers by what came of them."""

    def __init__(self, name, script, program, make_heap):
        self.name, self.script, self.program, self.make_heap = name, script, program, make_heap
        self.outcomes, self.faults, self.own = collections.defaultdict(list), [], threading.local()

    def one(self, number):
        """Runs it with this allocation refused."""
        if not hasattr(self.own, "heap"):
            self.own.heap = self.make_heap(f"{self.script.__name__}-{threading.get_ident()}")
        words, may_be = self.script(self.program, self.own.heap, number)
        self.outcomes[words].append(number)
        if not may_be:
            self.faults.append(number)
            print(f"FAILED {self.name} with allocation {number} refused: {words}", flush=True)
        return self.own.heap.count()

    def all(self, until, lanes):
        """Refuses each in turn until that moment."""
        count = self.one(0)
        numbers = in_turn(count)

        def lane(at):
            for number in numbers[at::lanes]:
                if time.monotonic() > until:
                    return
                self.one(number)

        with concurrent.futures.ThreadPoolExecutor(lanes) as together:
            for done in [together.submit(lane, at) for at in range(lanes)]:
                done.result()
        tried = sorted(number for them in self.outcomes.values() for number in them if number)
        whole = next((at for at in range(1, count + 1) if at > len(tried) or tried[at - 1] != at), count + 1) - 1
        print(f"{self.name}: {count} allocations, of which {len(tried)} were refused (1 to {whole} each), {len(self.faults)} with a fault")
        for words, them in sorted(self.outcomes.items(), key=lambda it: -len(it[1])):
            some = sorted(it for it in them if it)
            shown = ", ".join(map(str, some[:6])) + (f" .. {some[-1]}" if len(some) > 6 else "")
            print(f"  {len(some):6} {words}: {shown or 'none refused'}")


def main():
    words = usage.heed("starve", __doc__, "SECONDS", "N")
    seconds = int(words[0]) if words else SECONDS
    program = os.environ.get("BNG_PROGRAM", PROGRAM)
    if not os.access(program, os.X_OK):
        print("starve: skipped, since the program is not built: ./bng does it")
        return 0
    print(f"starve: runs {program}", flush=True)
    lanes = max(1, len(os.sched_getaffinity(0)) // 2)
    with heaps() as make_heap:
        tries = [Try("serve", served, program, make_heap), Try("exercise 4", exercised, program, make_heap)]
        began = time.monotonic()
        for at, it in enumerate(tries, 1):
            if len(words) > 1:
                it.one(int(words[1]))
                print(f"{it.name}: {dict(it.outcomes)}")
            else:
                it.all(began + seconds * at / len(tries), lanes)
    return 1 if any(it.faults for it in tries) else 0


if __name__ == "__main__":
    try:
        sys.exit(main())
    except (RuntimeError, OSError) as error:
        print(f"starve: {error}", file=sys.stderr)
        sys.exit(1)
