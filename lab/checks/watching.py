"""What lab/smoke asks of the commands that watch a gateway: lab/exporter's text and lab/top's rates are what went through."""

import os
import re
import subprocess
import urllib.error
import urllib.request

from machine.gateway import CAUSES, HOME, PROGRAM, Lab, run
from peers.ipv4 import packet
from peers.loopback import udp
from peers.pppoe import delivery, frame

EXPORTER, TOP = (os.path.join(HOME, "lab", name) for name in ("exporter", "top"))

# What the exporter gives after two packets of 84 octets from the circuit, one of 40 to it, and three datagrams that are no frames.
SAMPLES = """\
bng_up 1
bng_octets_total{direction="in"} 168
bng_octets_total{direction="out"} 40
bng_stopped_octets_total{direction="in"} 0
bng_stopped_octets_total{direction="out"} 0
bng_live_octets{direction="in"} 168
bng_live_octets{direction="out"} 40
bng_worker_octets_total{worker="0",direction="in"} 168
bng_worker_octets_total{worker="0",direction="out"} 40
bng_profile_octets_total{profile="default",direction="in"} 168
bng_profile_octets_total{profile="default",direction="out"} 40
"""
SAMPLES += "".join(f'bng_dropped_packets_total{{cause="{cause}"}} {3 if cause == "Malformed" else 0}\n' for cause in CAUSES)
SAMPLES += """\
bng_unacknowledged_stops 0
bng_unacknowledged_octets{direction="in"} 0
bng_unacknowledged_octets{direction="out"} 0
"""

# What a run with status 6 leaves on standard error, beside another line.
LEFT = """\
bng: output failed
stop 6553f1000401000000000001 p1/020000000001/1025 10.0.0.2 in=84 out=40
stop 6553f1000402000000000002 p1/020000000002/1026 10.0.0.3 in=16 out=2
"""

LEFT_SAMPLES = [
    "bng_unacknowledged_stops 2",
    'bng_unacknowledged_octets{direction="in"} 100',
    'bng_unacknowledged_octets{direction="out"} 42',
]

# Two answers to `stats` that a second lies between.
ANSWERS = (
    "stopped in=0 out=0\nlive in=1000 out=500\ntotal in=1000 out=500\ndrop Spoofed 7\n",
    "stopped in=0 out=0\nlive in=3001000 out=500\ntotal in=3001000 out=500\ndrop Spoofed 2007\n",
)


class Exporter:
    """A running lab/exporter at a port that the system picks."""

    def __init__(self, *words):
        self.process = subprocess.Popen([EXPORTER, *words, "--port", "0"], stderr=subprocess.PIPE, text=True)
        self.address = self.process.stderr.readline().split()[-1]

    def __enter__(self):
        return self

    def __exit__(self, *_):
        self.process.terminate()
        self.process.communicate()

    def read(self):
        """The text at its address."""
        with urllib.request.urlopen(self.address, timeout=10) as answer:
            return answer.read().decode()

    def samples(self):
        """The text's lines without the comments."""
        return "".join(line for line in self.read().splitlines(True) if not line.startswith("#"))


def passes_some(checks, lab):
    """Three datagrams that are no frames, two packets of the circuit and one to it. The first ones are counted once a packet that was
    sent after them comes out."""
    for _ in range(3):
        lab.send(b"no frame")
    for number in (1, 2):
        lab.send(frame(packet(number=number)))
        lab.receive(lab.core)
    lab.send(packet("192.0.2.1", "10.0.0.2", length=40), lab.core, "core")
    lowered = packet("192.0.2.1", "10.0.0.2", length=40, ttl=63)
    checks.same("a packet comes to the circuit", lab.receive(lab.access)[0], delivery(lowered))


def exports_the_sums(checks):
    with Lab() as lab, Exporter(lab.configuration, "--stops", os.path.join(lab.folder, "stops")) as exporter:
        silent = exporter.samples().splitlines()
        checks.same("the exporter says where no gateway answers", silent[:2], ["bng_up 0", "bng_unacknowledged_stops 0"])
        lab.start([PROGRAM, "serve", lab.configuration])
        passes_some(checks, lab)
        checks.same("the exporter gives what went through and what did not", exporter.samples(), SAMPLES)
        kinds = [line.split()[2:] for line in exporter.read().splitlines() if line.startswith("# TYPE")]
        grow = [name for name, kind in kinds if kind == "counter"]
        checks.same("the counters are called so", grow, [name for name, _ in kinds if name.endswith("_total")])
        lab.write("stops", LEFT)
        checks.same("it counts the Stops that nobody acknowledged", exporter.samples().splitlines()[-3:], LEFT_SAMPLES)
        try:
            urllib.request.urlopen(exporter.address.replace("metrics", "other"), timeout=10)
        except urllib.error.HTTPError as error:
            checks.same("nothing else is there", error.code, 404)
        status, out, _ = run([TOP, lab.configuration, "--once"])
        checks.same("top shows the sums", (status, rows_of(out)["total"], rows_of(out)["Malformed"]), (0, [0, 0, 168, 40], [0, 3]))


def rows_of(text):
    """The numbers in the lines of lab/top's table, by the line's name."""
    lines = [re.split(r"  +", line) for line in text.splitlines() if not line.startswith(("octets", "dropped"))]
    return {name: [int(word.replace(",", "")) for word in words] for name, *words in lines}


def shows_rates(checks):
    """The script is Control here, so that it is known what a second lies between."""
    with Lab() as lab, udp(port=lab.ports["control"]) as control:
        child = subprocess.Popen([TOP, "--once", lab.configuration], stdout=subprocess.PIPE, text=True)
        for answer in ANSWERS:
            word, sender = control.recvfrom(512)
            control.sendto(answer.encode(), sender)
        rows = rows_of(child.communicate(timeout=20)[0])
        # The second is longer than one by what it takes to ask, which is more where the machine is busy.
        inwards, drops = rows["total"][0], rows["Spoofed"][0]
        checks.same("top shows octets a second", (1_000_000 < inwards <= 3_000_000, rows["total"][1:]), (True, [0, 3_001_000, 500]))
        checks.same("and dropped packets a second", (600 < drops <= 2000, rows["Spoofed"][1:]), (True, [2007]))
        checks.same("it asks by the word stats", word, b"stats")


def says_that_nobody_answers(checks):
    with Lab() as lab:
        said = f"top: no gateway answers at 127.0.0.1:{lab.ports['control']}\n"
        checks.same("top says that no gateway answers", run([TOP, "--once", lab.configuration]), (1, "", said))


def watches(checks):
    exports_the_sums(checks)
    shows_rates(checks)
    says_that_nobody_answers(checks)
