"""Sends and counts packets by a program in C, and reads what they cost the gateway."""

import collections
import contextlib
import os
import select
import shutil
import statistics
import subprocess
import tempfile

from peers.crowd import mac_of, open_sessions
from peers.ipv4 import packet
from peers.l2tp import HELLO, IPV4, short
from peers.lac import Call, logs_in_over
from peers.pppoe import frame


def ran(pid):
    """The processor seconds of a process's threads so far, which the system counts in nanoseconds."""
    total = 0
    for thread in os.listdir(f"/proc/{pid}/task"):
        with open(f"/proc/{pid}/task/{thread}/schedstat", encoding="ascii") as file:
            total += int(file.read().split()[0])
    return total / 1e9


class Spent:
    """What a process has used so far: processor seconds and page faults."""

    def __init__(self, pid):
        with open(f"/proc/{pid}/stat", encoding="ascii") as file:
            fields = file.read().rsplit(")", 1)[1].split()
        self.faults = int(fields[7]) + int(fields[9])
        self.seconds = ran(pid)


# One run at one size: packets a second, processor microseconds and page faults a packet, packets that came and that
# did not.
Run = collections.namedtuple("Run", "pace used faults came lost")

# Whose packets they are: the address, our socket for them and the gateway's end, how a packet is put, what keeps the way open, and what
# the core sends for a packet to it.
Party = collections.namedtuple("Party", "address end to put keep drawn", defaults=[lambda octets: octets])


def at_port(lab, mac, session, address):
    """A host of the access port."""
    return Party(address, lab.access, "access", lambda octets: frame(octets, subscriber=mac, session=session), lambda: None)


def circuit(lab):
    """The provisioned circuit."""
    return at_port(lab, "020000000001", lab.session, "10.0.0.2")


def logged_in(lab):
    """A host that logged in."""
    crowd, mac = open_sessions(lab, 1), mac_of(0)
    return at_port(lab, mac.hex(), crowd.sessions[mac], crowd.addresses[mac])


class Sure:
    """What is wanted of the gateway, or else there is nothing to measure."""

    def same(self, what, got, want):
        if got != want:
            raise RuntimeError(f"not so: {what}")


def over_call(lab, tunnel):
    """A subscriber that logged in over a call of this concentrator. Before each run this says HELLO, so that the gateway does not."""
    tunnel.set_up(Sure(), "the bench")
    call = Call(tunnel, 7)
    call.ask(Sure(), "the bench", 1)
    call.connect(Sure(), "the bench", 2)
    logs_in_over(Sure(), lab, call)
    front = b"\0\2" + short(tunnel.tunnel) + short(call.session) + b"\xff\3" + IPV4

    def keep():
        # Packets that came too late for the run before stand before the answer.
        while select.select([tunnel.end], [], [], 0)[0]:
            tunnel.end.recv(65535)
        tunnel.say(HELLO)
        Sure().same("a ZLB answers a HELLO", tunnel.hear(), tunnel.zlb(2))

    return Party("10.0.0.50", tunnel.end, "tunnel", lambda octets: front + octets, keep)


def measure(tool, lab, who, way, size, seconds, rate=None):
    before = Spent(lab.pid)
    if way == "up":
        ends, to = (who.end.fileno(), lab.core.fileno()), who.to
        octets = who.put(packet(who.address, length=size))
    else:
        ends, to = (lab.core.fileno(), who.end.fileno()), "core"
        octets = who.drawn(packet("192.0.2.1", who.address, length=size))
    command = [tool, "pace" if rate else "load", *map(str, ends), str(lab.ports[to]), str(seconds)]
    if rate:
        command.append(str(rate))
    done = subprocess.run(
        command, input=octets, stdout=subprocess.PIPE, pass_fds=ends, timeout=seconds + 20, check=True
    )
    came, lost, took = done.stdout.split()
    after = Spent(lab.pid)
    count = max(int(came), 1)
    used = (after.seconds - before.seconds) * 1e6 / count
    faults = (after.faults - before.faults) / count
    return Run(int(came) / float(took), used, faults, int(came), int(lost))


def median(runs):
    return Run(*map(statistics.median, zip(*runs)))


def spent(runs):
    """The processor time a packet over all turns."""
    return sum(run.used * run.came for run in runs) / max(sum(run.came for run in runs), 1)


@contextlib.contextmanager
def built_tool():
    """The built traffic.c, as long as it is wanted."""
    compiler = shutil.which("cc") or shutil.which("gcc") or shutil.which("clang")
    if compiler is None:
        raise RuntimeError("it sends by a loop in C, and there is no C compiler here")
    with tempfile.TemporaryDirectory(prefix="bng-bench-") as folder:
        tool = os.path.join(folder, "traffic")
        source = os.path.join(os.path.dirname(os.path.abspath(__file__)), "traffic.c")
        subprocess.run([compiler, "-O2", "-Wall", "-o", tool, source], check=True)
        yield tool
