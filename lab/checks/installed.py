"""The program as `lab/install` puts it below a folder, as lab/smoke asks of it: it works from there, and nothing is left once it is removed."""

import os
import shutil
import signal
import subprocess
import tempfile

from machine.gateway import HOME, Lab, is_of_try, report
from peers.ipv4 import packet
from peers.pppoe import frame

INSTALL = os.path.join(HOME, "lab", "install")

# The other name of a program that `rt try` built, and what is said at each start of one.
NAMES = {True: "libexec/bng/bng", False: "libexec/bng/bng-unproved"}
UNPROVED = "this program is not proved: nothing is promised of it\n"

# Of a user's surroundings the folders of the system alone: no toolchain is there.
BARE = {"PATH": "/usr/sbin:/usr/bin:/sbin:/bin"}


def told(*words):
    """What a program says: its status, standard output and standard error."""
    done = subprocess.run(words, cwd="/", env=BARE, stdin=subprocess.DEVNULL, capture_output=True, timeout=20, text=True, check=False)
    return done.returncode, done.stdout, done.stderr


def is_put(checks, prefix, proved):
    names = ["bin/bng", NAMES[proved], "lib/systemd/system/bng.service", "share/doc/bng/example.toml", "share/man/man8/bng.8"]
    if not proved:
        status, _, err = told(INSTALL, prefix)
        said = "is not proved from these sources: ./bng builds one, and --unproved installs this one\n"
        checks.same("an unproved program is not installed", (status, err.endswith(said), os.listdir(prefix)), (2, True, []))
    status, out, err = told(INSTALL, *[] if proved else ["--unproved"], prefix)
    want = (0, sorted(f"{prefix}/{name}" for name in names), "" if proved else f"install: {UNPROVED}")
    checks.same("a program is installed", (status, sorted(out.split()), err), want)


def is_served(checks, prefix, proved):
    """The installed script, with nothing of this checkout's but the configuration."""
    script, said = f"{prefix}/bin/bng", "" if proved else f"bng: {UNPROVED}"
    checks.same("it checks the example beside it", told(script, "check", f"{prefix}/share/doc/bng/example.toml"), (0, "ok\n", said))
    with Lab() as lab:
        lab.start([script, "serve", lab.configuration], cwd="/", env=BARE)
        lab.send(frame(packet()))
        checks.same("it passes a packet", lab.receive(lab.core)[0], packet(ttl=63))
        os.kill(lab.program.pid, signal.SIGTERM)
        status, out, err = lab.end()
        checks.same("and ends at a SIGTERM with its report", (status, out, err.startswith(said)), (0, report(84), True))


def reads_well(checks, prefix):
    """The manual page and the unit, as far as what reads them is there."""
    if shutil.which("man"):
        status, _, err = told("man", "--warnings", "-l", f"{prefix}/share/man/man8/bng.8")
        checks.same("the manual page is read without a warning", (status, err), (0, ""))
    else:
        print("skipped the manual page: there is no man")
    if shutil.which("systemd-analyze"):
        status, _, err = told("systemd-analyze", "verify", f"{prefix}/lib/systemd/system/bng.service")
        ours = [line for line in err.splitlines() if "bng" in line]
        checks.same("systemd finds no fault in the unit", (status, ours), (0, []))
    else:
        print("skipped the unit: there is no systemd-analyze")


def installs(checks):
    proved = not is_of_try()
    with tempfile.TemporaryDirectory(prefix="bng-lab-") as prefix:
        is_put(checks, prefix, proved)
        is_served(checks, prefix, proved)
        reads_well(checks, prefix)
        checks.same("it is removed", told(INSTALL, "--remove", prefix), (0, f"install: removed from {prefix}\n", ""))
        checks.same("and nothing is left", os.listdir(prefix), [])
