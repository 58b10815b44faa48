"""Starts the program on the loopback with one provisioned circuit and the sockets of all parties, and has the lines of its report."""

import itertools
import os
import shutil
import signal
import socket
import subprocess
import tempfile
import threading
import time

from peers import radius_packets
from peers.loopback import LOOPBACK, bound_ports, udp

HOME = os.path.dirname(os.path.dirname(os.path.dirname(os.path.abspath(__file__))))
CRATE = os.path.join(HOME, "crates", "bng")
PROGRAM = os.path.join(CRATE, "out", "bng")
BNG = os.path.join(HOME, "bng")

# So many seconds the program may take to be proved and built.
BUILDING = 4 * 3600

CONFIGURATION = """\
[gateway]
name = "bng1"
address = "10.0.0.1"
nas_ip = "192.168.1.16"
services = ["inet"]
[core]
local = "127.0.0.1:{core}"
peer = "127.0.0.1:{core_peer}"
[control]
local = "127.0.0.1:{control}"
[radius]
auth_local = "127.0.0.1:{auth}"
auth_server = "127.0.0.1:{auth_server}"
acct_local = "127.0.0.1:{acct}"
acct_server = "127.0.0.1:{acct_server}"
secret = "xyzzy5461"
[[access]]
local = "127.0.0.1:{access}"
peer = "127.0.0.1:{access_peer}"
mac = "02:00:00:00:00:fe"
[[pool]]
name = "main"
first = "10.0.0.2"
last = "10.0.0.101"
[[static]]
port = 1
mac = "02:00:00:00:00:01"
session = 1025
address = "10.0.0.2"
user = "fixed1"
"""

# An end for tunnels, and two access concentrators, of which one shares a secret.
TUNNELS = """\
[tunnel]
local = "127.0.0.1:{tunnel}"
[[lac]]
ip = "127.0.0.1"
[[lac]]
ip = "127.0.0.5"
secret = "xyzzy"
"""

# An end for CoA-Requests, and who may send them.
CHANGES = """\
[coa]
local = "127.0.0.1:{coa}"
peers = ["127.0.0.1"]
secret = "change-secret"
"""

USAGE = "usage: bng serve CONFIG [--trace FILE] [--rounds N] | check CONFIG | exercise N [--workers W] | audit FILE"

CAUSES = "Malformed NoSession NotOpen Expired Spoofed TooBig Exceeded LinkFailed WantOfMemory".split()


def totals(total=0, out=0, is_over=True):
    """The first lines of the report after serving, where each term has its Stop, or before any has one. There is one worker
    and one profile."""
    whole, none = f"in={total} out={out}", "in=0 out=0"
    stopped, live = (whole, none) if is_over else (none, whole)
    return [f"stopped {stopped}", f"live {live}", f"total {whole}", f"worker 0 {whole}", f"profile default {whole}"]


def with_drops(lines, drops):
    """These lines, and those of what was dropped by cause."""
    return "".join(line + "\n" for line in [*lines, *(f"drop {cause} {drops.get(cause, 0)}" for cause in CAUSES)])


def report(total=0, out=0, **drops):
    """The report after serving: octets from the one subscriber and to it, and the packets dropped by cause."""
    return with_drops([*totals(total, out), f"static 10.0.0.2 in={total} out={out}"], drops)


def stats(total=0, out=0, **drops):
    """What the word `stats` is answered while the one subscriber's term is live."""
    return with_drops(totals(total, out, is_over=False), drops)


def newest(*places):
    """When the newest file or folder below these was changed."""
    times = [0.0]
    for place in places:
        for folder, _, names in os.walk(place):
            times += [os.path.getmtime(os.path.join(folder, name)) for name in names + ["."]]
    return max(times)


def is_built():
    """Whether the built program is there and not older than its sources."""
    if not os.access(PROGRAM, os.X_OK):
        return False
    crates = os.path.join(HOME, "crates")
    made_of = [crate for crate in os.listdir(crates) if not crate.endswith("_tests")]
    sources = [os.path.join(crates, crate, part) for crate in made_of for part in ("src", "specs")]
    listed = os.path.getmtime(os.path.join(HOME, "crates.txt"))
    return max(newest(*sources), listed) <= os.path.getmtime(PROGRAM)


def is_of_try(program=PROGRAM):
    """Whether this is a program that `rt try` built, with checks of memory (AddressSanitizer)."""
    with open(program, "rb") as file:
        return b"__asan_init" in file.read()


def tried(configuration, seconds=30):
    """The words that run the program unproved, from the folder of its crate, for so many seconds at most."""
    return ["rt", "try", "--seconds", str(seconds), "--data", f"lab.toml={configuration}", "--", "serve", "lab.toml"]


class Lab:
    """A folder and the sockets of all parties. `access`, `core`, `control`, `radius`, `accounting` and `stranger` are
    ours; `ports` has the gateway's ends. Leaving it ends what it started. `keys` are lines more of the configuration's
    table `gateway`, `radius_keys` of its table `radius`, and `session` is the SESSION_ID of the circuit. Where `server`
    is a port of the loopback, it is that of another RADIUS server than ours, for authentication, and `keeper` is that of
    another one for accounting. Each record of accounting that comes to ours is acknowledged at once and kept in `records`,
    unless `acknowledges` says that nobody reads `accounting`. `last` is the last address of the pool, and `tables` stands
    behind all that. With `tunnels` the gateway has an end for them, and with `changes` one for CoA-Requests."""

    def __init__(
        self,
        keys="",
        session=1025,
        radius_keys="",
        server=None,
        acknowledges=True,
        last="10.0.0.101",
        keeper=None,
        tables="",
        tunnels=False,
        changes=False,
    ):
        self.keys, self.session, self.acknowledges, self.last, self.tables = keys, session, acknowledges, last, tables
        self.radius_keys, self.server, self.keeper = radius_keys, server, keeper
        self.tunnels, self.changes = tunnels, changes
        self.records = []

    def __enter__(self):
        self.folder = tempfile.mkdtemp(prefix="bng-lab-")
        self.access, self.core, self.control, self.radius, self.accounting, self.stranger = (udp() for _ in range(6))
        roles = ["access", "core", "control", "auth", "acct"] + ["tunnel"] * self.tunnels + ["coa"] * self.changes
        held = {name: udp() for name in roles}
        self.ports = {name: end.getsockname()[1] for name, end in held.items()}
        for end in held.values():
            end.close()
        self.program = None
        self.is_over = threading.Event()
        self.clerk = threading.Thread(target=self.acknowledge_all, daemon=True)
        if self.acknowledges:
            self.accounting.settimeout(0.1)
            self.clerk.start()
        self.configuration = self.write(
            "lab.toml",
            (CONFIGURATION + TUNNELS * self.tunnels + CHANGES * self.changes).format(
                **self.ports,
                core_peer=self.core.getsockname()[1],
                access_peer=self.access.getsockname()[1],
                auth_server=self.server or self.radius.getsockname()[1],
                acct_server=self.keeper or self.accounting.getsockname()[1],
            )
            .replace("[core]", self.keys + "[core]")
            .replace("[[access]]", self.radius_keys + "[[access]]")
            .replace("session = 1025", f"session = {self.session}")
            .replace("10.0.0.101", self.last)
            + self.tables,
        )
        return self

    def __exit__(self, *_):
        self.end_early()
        self.is_over.set()
        if self.acknowledges:
            self.clerk.join()
        for end in (self.access, self.core, self.control, self.radius, self.accounting, self.stranger):
            end.close()
        shutil.rmtree(self.folder, ignore_errors=True)

    def acknowledge_all(self):
        """Acknowledges each record that comes, until the lab is left."""
        while not self.is_over.is_set():
            octets, sender = self.receive(self.accounting)
            if octets is not None:
                self.records.append(radius_packets.read(octets))
                self.accounting.sendto(radius_packets.acknowledgement(self.records[-1]), (LOOPBACK, sender))

    def end_early(self):
        """Ends a program that runs still: by the word, by an interrupt, at which `rt try` ends what it runs, or by a kill."""
        if self.program is None or self.program.poll() is not None:
            return
        self.send(b"stop", self.control, "control")
        for number in (signal.SIGINT, signal.SIGKILL):
            try:
                self.program.wait(3)
                return
            except subprocess.TimeoutExpired:
                os.killpg(self.program.pid, number)
        self.program.wait()

    def write(self, name, text):
        path = os.path.join(self.folder, name)
        with open(path, "w", encoding="utf-8") as file:
            file.write(text)
        return path

    def start(self, command, patience=10, roles=None, **streams):
        """Starts `command`, and waits until it has its sockets: those of all roles, or of these."""
        pipes = {"stdin": subprocess.DEVNULL, "stdout": subprocess.PIPE, "stderr": subprocess.PIPE, **streams}
        self.program = subprocess.Popen(command, start_new_session=True, **pipes)
        end = time.monotonic() + patience
        wanted = [self.ports[role] for role in roles or self.ports]
        while not bound_ports().issuperset(wanted):
            if self.program.poll() is not None:
                text = self.program.stderr.read().decode(errors="replace") if self.program.stderr else ""
                raise RuntimeError(f"the gateway ended with status {self.program.returncode}: {text}")
            if time.monotonic() > end:
                raise RuntimeError(f"the gateway had no sockets after {patience} seconds")
            time.sleep(0.02)

    @property
    def pid(self):
        """The process of the gateway: the one that `bng serve` started and waits for, or else the one that was started here."""
        own = self.program.pid
        with open(f"/proc/{own}/task/{own}/children", encoding="ascii") as file:
            children = file.read().split()
        return int(children[0]) if children else own

    def send(self, octets, end=None, to="access"):
        """Sends from one of our sockets, by default the subscriber's side, to an end of the gateway."""
        (end or self.access).sendto(octets, (LOOPBACK, self.ports[to]))

    def receive(self, end):
        """The next datagram and the port that it came from, or None after the socket's patience."""
        try:
            octets, sender = end.recvfrom(65535)
            return octets, sender[1]
        except socket.timeout:
            return None, None

    def receive_all(self, end, count):
        """So many datagrams, or those before the first that does not come."""
        came = (self.receive(end)[0] for _ in range(count))
        return list(itertools.takewhile(lambda octets: octets is not None, came))

    def say(self, word):
        """Says a word to Control, and returns the answer."""
        self.send(word, self.control, "control")
        return self.receive(self.control)[0]

    def stop(self):
        """Says `stop`, and returns the answer."""
        return self.say(b"stop")

    def end(self, patience=20):
        """Waits for the program's end: its status, standard output and standard error."""
        out, err = self.program.communicate(timeout=patience)
        return self.program.returncode, (out or b"").decode(), (err or b"").decode(errors="replace")


def run(command, patience=20, **streams):
    """Runs a program that ends by itself: its status, standard output and standard error."""
    pipes = {"stdin": subprocess.DEVNULL, "stdout": subprocess.PIPE, "stderr": subprocess.PIPE, **streams}
    done = subprocess.run(command, timeout=patience, check=False, **pipes)
    return done.returncode, (done.stdout or b"").decode(), (done.stderr or b"").decode(errors="replace")


def serve(lab):
    """Starts the program by `./bng`, which builds it where need be."""
    lab.start([BNG, "serve", lab.configuration], patience=BUILDING, stderr=None)
