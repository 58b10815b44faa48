"""The gateway between interfaces, in networks of their own: lab/wire and lab/tun in the place of the lab's sockets.

    subscribers            the gateway's machine             the core
    s0 ===== cable ===== w0, lab/wire, bng, lab/tun, bng0, c0 ===== cable ===== h0 192.0.2.1"""

import os
import socket
import subprocess

from machine import namespaces, tun
from machine.cable import Cable
from machine.emulated import HOST
from machine.gateway import HOME

ROUTER = "192.0.2.254"
WIRE, TUN = (os.path.join(HOME, "lab", name) for name in ("wire", "tun"))
ALL_ETHERTYPES = 3


class Interfaces:
    """The networks, the cables, and lab/wire and lab/tun beside a lab's gateway. The lab's `access` becomes a raw socket at the
    subscribers' end of the cable, and its `core` is closed. The process has left the machine's network before."""

    def __init__(self, lab):
        self.lab, self.helpers = lab, []
        self.home, self.core = namespaces.Network(), namespaces.Network()
        namespaces.cable("w0", "s0", self.home)
        namespaces.cable("c0", "h0", self.core)
        namespaces.run("ip", "address", "add", f"{ROUTER}/24", "dev", "c0")
        self.core.run("ip", "address", "add", f"{HOST}/24", "dev", "h0")
        self.core.run("ip", "route", "add", "default", "via", ROUTER)
        with open("/proc/sys/net/ipv4/ip_forward", "w", encoding="ascii") as file:
            file.write("1")
        lab.access.close()
        lab.core.close()
        with self.home.entered():
            lab.access = socket.socket(socket.AF_PACKET, socket.SOCK_RAW, 0)
            lab.access.bind(("s0", ALL_ETHERTYPES))

    def join(self, *words):
        """Starts lab/wire or lab/tun, and gives its first line."""
        self.helpers.append(subprocess.Popen(words, stderr=subprocess.PIPE, text=True))
        return self.helpers[-1].stderr.readline().rstrip("\n")

    def join_wire(self):
        return self.join(WIRE, "w0", self.lab.configuration, "1")

    def join_tun(self):
        return self.join(TUN, self.lab.configuration)

    def part(self):
        """Ends them, and gives what else each said, by lines."""
        for helper in self.helpers:
            helper.terminate()
        said = [helper.communicate(timeout=10)[1].splitlines() for helper in self.helpers]
        self.helpers = []
        return said


class WiredCable(Cable):
    """The cable of an emulated machine that is plugged into the subscribers' interface. The hosts behind the core are at a TUN interface
    of their own, to which the gateway's machine routes what comes out of lab/tun's."""

    place = "on the subscribers' interface"

    def __init__(self, lab, far, read):
        super().__init__(lab, far, read)
        self.interfaces = Interfaces(lab)
        self.interfaces.join_wire()
        self.interfaces.join_tun()
        self.beyond = tun.open_tun("hosts0")
        namespaces.run("ip", "link", "set", "hosts0", "up")
        for address in (HOST, "192.0.2.53"):
            namespaces.run("ip", "route", "add", f"{address}/32", "dev", "hosts0")

    def close(self):
        self.interfaces.part()
        os.close(self.beyond)

    def ends(self):
        ends = super().ends()
        del ends[self.lab.core]
        return {**ends, self.beyond: self.reply}

    def show(self, who, text):
        """Says nothing of each frame."""

    def send_up(self, octets):
        self.lab.access.send(octets)

    def reply(self):
        octets = os.read(self.beyond, 65535)
        answer = self.hosts.answer(octets) if octets[0] >> 4 == 4 else None
        if answer is not None:
            os.write(self.beyond, answer)
