"""A real xl2tpd on this machine, as an access concentrator at an address of the loopback."""

import os
import select
import shutil
import signal
import subprocess
import time

from peers.lac import SECRET
from peers.login import PASSWORD, USER
from peers.loopback import LOOPBACK, udp

PATIENCE = 30

CONFIGURATION = """\
[global]
listen-addr = {address}
port = {port}
auth file = {folder}/secrets
[lac gateway]
lns = {gateway}
challenge = {challenge}
autodial = yes
redial = no
length bit = yes
pppoptfile = {folder}/options
"""

OPTIONS = """\
user {user}
password {password}
noauth
noccp
noipdefault
nodefaultroute
ipcp-accept-local
ipcp-accept-remote
linkname bng-lab
"""


def may_open_ppp():
    """Whether a pppd would come to an interface here."""
    return shutil.which("pppd") is not None and os.geteuid() == 0 and os.access("/dev/ppp", os.R_OK | os.W_OK)


class Xl2tpd:
    """A running xl2tpd at this address of the loopback, with the lines that it says."""

    def __init__(self, lab, address, challenge):
        with udp(address) as end:
            port = end.getsockname()[1]
        gateway = f"{LOOPBACK}:{lab.ports['tunnel']}"
        words = {"address": address, "port": port, "folder": lab.folder, "gateway": gateway, "challenge": challenge}
        configuration = lab.write("xl2tpd.conf", CONFIGURATION.format(**words))
        lab.write("secrets", f"* * {SECRET.decode()}\n")
        lab.write("options", OPTIONS.format(user=USER.decode(), password=PASSWORD.decode()))
        control, pid = (os.path.join(lab.folder, name) for name in ("xl2tpd.control", "xl2tpd.pid"))
        command = ["xl2tpd", "-D", "-c", configuration, "-C", control, "-p", pid]
        self.program = subprocess.Popen(command, stdout=subprocess.PIPE, stderr=subprocess.STDOUT, start_new_session=True)
        self.said = b""

    def __enter__(self):
        return self

    def __exit__(self, *_):
        if self.program.poll() is None:
            os.killpg(self.program.pid, signal.SIGTERM)
            try:
                self.program.wait(5)
            except subprocess.TimeoutExpired:
                os.killpg(self.program.pid, signal.SIGKILL)
                self.program.wait()

    def says(self, words):
        """Whether it says this in time."""
        end = time.monotonic() + PATIENCE
        while words not in self.said and time.monotonic() < end:
            ready, _, _ = select.select([self.program.stdout], [], [], 0.2)
            octets = os.read(self.program.stdout.fileno(), 4096) if ready else b""
            self.said += octets
            if ready and not octets:
                break
        return words in self.said

    def hang_up(self):
        """Ends its calls and tunnels, as at a SIGTERM."""
        os.killpg(self.program.pid, signal.SIGTERM)
