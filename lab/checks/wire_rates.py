"""Measures what an interface costs a packet: a plain loop in C in the gateway's place, once with its ends on sockets of the loopback and
once behind lab/wire or lab/tun, and behind socat where that is installed, all in turns on the same machine. The ratios say more than
the rates. All networks are the command's own."""

import os
import shutil
import socket
import statistics
import subprocess
import tempfile
import time
from typing import NamedTuple

from machine import namespaces
from machine.gateway import HOME
from machine.traffic import built_tool, ran
from peers.ipv4 import UDP, Ipv4, spell
from peers.loopback import LOOPBACK, udp
from peers.pppoe import frame

SIZES = (64, 1400)
TURNS = 7
HOST, PORT = "192.0.2.1", 7000
SESSION_FRAMES, ALL = 0x8864, "-"
CONFIGURATION = """\
[core]
local = "127.0.0.1:{core}"
peer = "127.0.0.1:{core_peer}"
[[access]]
local = "127.0.0.1:{access}"
peer = "127.0.0.1:{access_peer}"
mac = "02:00:00:00:00:fe"
[[pool]]
name = "main"
first = "{address}"
last = "{address}"
"""


class Way(NamedTuple):
    """Where packets are sent and where they come out, the end that they are sent to, and how one is put."""

    out: socket.socket
    into: socket.socket
    end: str
    put: object


class Arrangement(NamedTuple):
    """A loop and what stands around it: its name, the way to the core and that to the subscriber, the loop's process, and that of the
    relay or None."""

    name: str
    ways: dict
    loop: subprocess.Popen
    relay: subprocess.Popen


class Run(NamedTuple):
    """One run: packets a second, processor microseconds a packet of the relay and of the loop, and packets that did not come."""

    rate: float
    relay: float
    loop: float
    lost: int


class Bench:
    """A place for arrangements, each with a loop, ports and a circuit's address of its own."""

    def __init__(self, tool, folder):
        self.tool, self.folder, self.count = tool, folder, 0
        self.started = []
        namespaces.run("ip", "address", "add", f"{HOST}/32", "dev", "lo")

    def start(self, *words):
        self.started.append(subprocess.Popen(words, stderr=subprocess.DEVNULL))
        return self.started[-1]

    def close(self):
        for process in self.started:
            process.terminate()
        for process in self.started:
            process.wait()

    def loop(self):
        """Starts a loop: its process, its ports, its circuit's address, and the file of a configuration that has them."""
        self.count += 1
        names = ("access", "core", "core_peer", "access_peer", "control")
        ports = {name: 20000 + 10 * self.count + at for at, name in enumerate(names)}
        address = f"10.0.{self.count}.2"
        process = self.start(self.tool, "loop", *map(str, ports.values()))
        path = os.path.join(self.folder, f"{self.count}.toml")
        with open(path, "w", encoding="ascii") as file:
            file.write(CONFIGURATION.format(address=address, **ports))
        return process, ports, address, path

    def bare(self):
        loop, ports, address, _ = self.loop()
        access, core = udp(port=ports["access_peer"]), udp(port=ports["core_peer"])
        up = Way(access, core, str(ports["access"]), lambda size: frame(to_host(address, size)))
        down = Way(core, access, str(ports["core"]), lambda size: to_host(address, size))
        return Arrangement("sockets alone", {"up": up, "down": down}, loop, None)

    def wired(self, name, helper):
        """With an Ethernet interface in the place of the access port's other end."""
        loop, ports, address, path = self.loop()
        near, far, away = f"w{self.count}", f"s{self.count}", namespaces.Network()
        namespaces.cable(near, far, away)
        with away.entered():
            wire = socket.socket(socket.AF_PACKET, socket.SOCK_RAW, 0)
            wire.bind((far, SESSION_FRAMES))
        core = udp(port=ports["core_peer"])
        relay = self.start(*helper(near, path, ports))
        up = Way(wire, core, ALL, lambda size: frame(to_host(address, size)))
        down = Way(core, wire, str(ports["core"]), lambda size: to_host(address, size))
        return Arrangement(name, {"up": up, "down": down}, loop, relay)

    def tunnelled(self, name, helper, routes):
        """With a TUN interface in the place of the core's end, and a socket of the kernel behind it. lab/tun makes its route itself; for
        a helper that `routes` nothing that is done here."""
        loop, ports, address, path = self.loop()
        tun, port = f"t{self.count}", PORT + self.count
        access, host = udp(port=ports["access_peer"]), udp(HOST, port)
        relay = self.start(*helper(tun, path, ports))
        wait_for(tun, "link", "show", "up")
        if not routes:
            namespaces.run("ip", "route", "add", f"{address}/32", "dev", tun)
        wait_for(tun, "route")
        host.connect((address, PORT))
        up = Way(access, host, str(ports["access"]), lambda size: frame(to_host(address, size, port)))
        return Arrangement(name, {"up": up, "down": Way(host, access, ALL, lambda size: bytes(size - 28))}, loop, relay)


def wait_for(interface, *words):
    """Waits until what `ip` prints at these words names an interface."""
    end = time.monotonic() + 10
    while interface not in namespaces.run("ip", *words).replace(":", " ").split():
        if time.monotonic() > end:
            raise RuntimeError(f"ip {' '.join(words)} does not show {interface}")
        time.sleep(0.05)


def to_host(address, size, port=PORT):
    """A UDP datagram without a sum in a packet of this many octets, from the circuit's address to the host."""
    datagram = PORT.to_bytes(2, "big") + port.to_bytes(2, "big") + (size - 20).to_bytes(2, "big") + bytes(size - 26)
    return spell(Ipv4(socket.inet_aton(address), socket.inet_aton(HOST), UDP, datagram), 1)


def lab_wire(interface, configuration, _):
    return os.path.join(HOME, "lab", "wire"), interface, configuration, "1"


def lab_tun(interface, configuration, _):
    return os.path.join(HOME, "lab", "tun"), configuration, interface


def socat(address, local, peer):
    """socat between an address of its own and an end of the gateway's."""
    return lambda interface, _, ports: (
        "socat", "-b", "65536", address.format(interface), f"UDP4:{LOOPBACK}:{ports[local]},bind={LOOPBACK}:{ports[peer]}",
    )


def used(process):
    """The processor seconds of a process so far, with those of the one that it started; none where there is no process."""
    if process is None:
        return 0.0
    with open(f"/proc/{process.pid}/task/{process.pid}/children", encoding="ascii") as file:
        return sum(ran(pid) for pid in (process.pid, *file.read().split()))


def measure(tool, arrangement, way, size, seconds):
    """One run of packets of a size on a way."""
    out, into, end, put = arrangement.ways[way]
    before = used(arrangement.relay), used(arrangement.loop)
    done = subprocess.run(
        [tool, "load", str(out.fileno()), str(into.fileno()), end, str(seconds)],
        input=put(size), stdout=subprocess.PIPE, pass_fds=(out.fileno(), into.fileno()), timeout=seconds + 20, check=True,
    )
    came, lost, took = done.stdout.split()
    after = used(arrangement.relay), used(arrangement.loop)
    spent = [(now - then) * 1e6 / max(int(came), 1) for now, then in zip(after, before)]
    return Run(int(came) / float(took), *spent, int(lost))


def arrangements(bench):
    found = [bench.bare(), bench.wired("lab/wire", lab_wire)]
    if shutil.which("socat"):
        found.append(bench.wired("socat INTERFACE", socat("INTERFACE:{}", "access", "access_peer")))
    found.append(bench.tunnelled("lab/tun", lab_tun, routes=True))
    if shutil.which("socat"):
        by_socat = socat("TUN,tun-name={},tun-type=tun,iff-up,iff-no-pi", "core", "core_peer")
        found.append(bench.tunnelled("socat TUN", by_socat, routes=False))
    time.sleep(1)
    return found


def show(runs, bare):
    """A row: of each direction the medians of the rate, of its ratio to that of the sockets alone, and of the relay's and the loop's time
    a packet; and all packets that did not come."""
    cells = []
    for way in ("up", "down"):
        rate, relay, loop = (statistics.median(numbers) for numbers in list(zip(*runs[way]))[:3])
        ratio = statistics.median(run.rate / other.rate for run, other in zip(runs[way], bare[way]))
        cells.append(f"{rate:10,.0f}{ratio:7.2f}{relay:7.1f}{loop:7.1f}{sum(run.lost for run in runs[way]):6}")
    return "".join(cells)


def compare(seconds):
    """Prints a row for each arrangement and size. This process has left the machine's network before."""
    with built_tool() as tool, tempfile.TemporaryDirectory(prefix="bng-wire-") as folder:
        bench = Bench(tool, folder)
        try:
            found = arrangements(bench)
            print(f"{os.cpu_count()} processors, load {os.getloadavg()[0]:.1f}; {TURNS} turns of {seconds} s")
            print(f"{'':25}{'to the core':>37}{'to the subscriber':>37}")
            print(f"{'':16}{'octets':>8} " + f"{'packets/s':>10}{'ratio':>7}{'relay':>7}{'loop':>7}{'lost':>6}" * 2)
            for size in SIZES:
                runs = {each.name: {"up": [], "down": []} for each in found}
                for _ in range(TURNS):
                    for each in found:
                        for way, rows in runs[each.name].items():
                            rows.append(measure(tool, each, way, size, seconds))
                for name, rows in runs.items():
                    print(f"{name:16}{size:8,} {show(rows, runs['sockets alone'])}", flush=True)
        finally:
            bench.close()
