"""One gateway of several, each at an address of the loopback of its own, with the hosts behind its core."""

import os
import re
import signal
import subprocess
import time

from machine.gateway import PROGRAM
from peers.loopback import LOOPBACK, bound_ports, udp, widen

ROLES = ("core", "control", "auth", "acct", "access", "tunnel")

CONFIGURATION = """\
[gateway]
name = "{name}"
address = "10.0.0.1"
nas_ip = "{address}"
shards = 4
[core]
local = "{address}:{core}"
peer = "{loopback}:{core_peer}"
[control]
local = "{address}:{control}"
[radius]
auth_local = "{address}:{auth}"
auth_server = "{loopback}:{auth_server}"
acct_local = "{address}:{acct}"
acct_server = "{loopback}:{acct_server}"
secret = "{secret}"
[[access]]
local = "{address}:{access}"
peer = "{loopback}:{access_peer}"
mac = "{mac}"
[tunnel]
local = "{address}:{tunnel}"
[[pool]]
name = "{pool}"
first = "{first}"
last = "{last}"
"""


class Box:
    """A gateway that is served from `start` to `stop` or `kill`. `up` has the IPv4 octets that came out at its core since it was started,
    and `down` those that its subscribers got."""

    def __init__(self, folder, number, pool):
        self.folder, self.number, self.pool = folder, number, pool
        self.name, self.address, self.secret = f"box{number + 1}", f"127.0.0.{11 + number}", f"secret of box {number + 1}"
        self.mac = bytes.fromhex(f"0200000000{0xf1 + number:02x}")
        self.core, self.control, self.program = udp(), udp(), None
        widen(self.core)
        self.control.settimeout(5)
        held = {role: udp(self.address) for role in ROLES}
        self.ports = {role: end.getsockname()[1] for role, end in held.items()}
        for end in held.values():
            end.close()
        self.up = self.down = 0

    def start(self, radius, segment, concentrators):
        """Serves, and waits until it has its sockets."""
        self.up = self.down = 0
        text = CONFIGURATION.format(
            name=self.name,
            address=self.address,
            loopback=LOOPBACK,
            secret=self.secret,
            mac=":".join(f"{octet:02x}" for octet in self.mac),
            core_peer=self.core.getsockname()[1],
            access_peer=segment.end.getsockname()[1],
            auth_server=radius.auth,
            acct_server=radius.acct,
            pool=self.pool[0],
            first=self.pool[1],
            last=self.pool[2],
            **self.ports,
        )
        text += "".join(f'[[lac]]\nip = "{concentrator.address}"\n' for concentrator in concentrators)
        self.configuration = os.path.join(self.folder, f"{self.name}.toml")
        with open(self.configuration, "w", encoding="utf-8") as file:
            file.write(text)
        pipes = {"stdin": subprocess.DEVNULL, "stdout": subprocess.PIPE, "stderr": subprocess.PIPE, "text": True}
        self.program = subprocess.Popen([PROGRAM, "serve", self.configuration], start_new_session=True, **pipes)
        end = time.monotonic() + 20
        while not bound_ports().issuperset(self.ports.values()):
            if self.program.poll() is not None or time.monotonic() > end:
                raise RuntimeError(f"{self.name} did not start: {self.program.stderr.read() if self.program.poll() is not None else 'no sockets'}")
            time.sleep(0.02)

    def send(self, end, octets, role):
        """Sends from a socket to one of its ends."""
        try:
            end.sendto(octets, (self.address, self.ports[role]))
        except OSError:
            pass  # nobody listens there any more

    def hear_core(self):
        """Answers each packet that came out at its core by one of the same length."""
        while True:
            try:
                octets = self.core.recv(65535)
            except OSError:
                return
            self.up += len(octets)
            # With its source and its destination in each other's place its header sum stays right (RFC 1071).
            self.send(self.core, octets[:12] + octets[16:20] + octets[12:16] + octets[20:], "core")

    def say_stop(self):
        self.send(self.control, b"stop", "control")

    def end(self, patience):
        """Waits for its end: its status and the octets in and out of its report, or None without one."""
        out, err = self.program.communicate(timeout=patience)
        total = re.search(r"^total in=(\d+) out=(\d+)$", out, re.MULTILINE)
        return self.program.returncode, total and tuple(map(int, total.groups())), err

    def kill(self):
        """Kills it, without a word to anybody."""
        self.program.send_signal(signal.SIGKILL)
        self.program.communicate(timeout=20)

    def close(self):
        if self.program and self.program.poll() is None:
            self.kill()
        self.core.close()
        self.control.close()
