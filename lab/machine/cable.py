"""The cable between an emulated machine and the gateway: it carries frames, shows them, and counts what goes by. It plays the
hosts behind the core, and the RADIUS server where there is no FreeRADIUS."""

import os
import random
import re
import select
import time

from machine import emulated, freeradius
from machine.gateway import Lab
from peers import core, pppoe, provider, radius_packets
from peers.loopback import LOOPBACK, udp

FILE = r"the file has the MD5 sum ([0-9a-f]{32})"
PINGED = r"(\d+) packets transmitted, (\d+) packets received"
COUNTED = r"ppp0 sent (\d+) octets in (\d+) packets, and took (\d+) octets in (\d+) packets"
PPPD = r"Sent (\d+) bytes, received (\d+) bytes"
TOTAL = r"^total in=(\d+) out=(\d+)"


def found(lines, pattern):
    """What stands in the first line that has the pattern, or None."""
    return next((match.groups() for match in map(re.compile(pattern).search, lines) if match), None)


class Sums:
    """What goes one way through Linux's PPP interface, in packets and in octets after the PPP protocol: `octets` are those of
    IPv4 packets, and `others` those of the protocols 8000 to bfff, as IPCP, which the interface counts too. LCP and CHAP go
    past the interface."""

    def __init__(self):
        self.packets = self.octets = self.other_packets = self.others = 0

    def add(self, payload):
        """Counts the payload of a frame. Whether it is the first IPv4 packet, or none."""
        protocol, length = pppoe.number_at(payload, 0), len(payload) - 2
        if protocol == pppoe.IPV4:
            self.packets, self.octets = self.packets + 1, self.octets + length
            return self.packets == 1
        if 0x8000 <= protocol < 0xC000:
            self.other_packets, self.others = self.other_packets + 1, self.others + length
        return True


MAC = "02:00:00:00:00:02"
NAMES = "192.0.2.53"
PATIENCE = 240

# What the machine's pppd is told to log in with, and what the RADIUS server gives the session.
USER, PASSWORD, GROUP = b"subscriber", b"secret", b"gold"

# The file that the host behind the core gives out.
GOODS = random.Random(1).randbytes(1_000_000)

# What the gateway has to say until the session ends, as it ends, and then.
STEPS = {
    "PADO": (pppoe.DISCOVERY, pppoe.PADO),
    "PADS": (pppoe.DISCOVERY, pppoe.PADS),
    "Configure-Ack of LCP": (pppoe.LCP, pppoe.CONFIGURE_ACK),
    "Challenge": (pppoe.CHAP, pppoe.CHALLENGE),
    "Success": (pppoe.CHAP, pppoe.SUCCESS),
    "Configure-Ack of IPCP": (pppoe.IPCP, pppoe.CONFIGURE_ACK),
    "Echo-Reply": (pppoe.LCP, pppoe.ECHO_REPLY),
}
HUNG_UP = {"Terminate-Ack": (pppoe.LCP, pppoe.TERMINATE_ACK)}
DISCONNECTED = {"Terminate-Request": (pppoe.LCP, pppoe.TERMINATE_REQUEST)}
OVER = {"PADT": (pppoe.DISCOVERY, pppoe.PADT)}


class Cable:
    """Carries frames between the machine and the gateway, as an access multiplexer does, prints them, and plays the hosts
    behind the core and, where `lab` asks us, the RADIUS server. Of the IPv4 packets the first of each direction is printed.
    `read` reads the records of accounting that there are."""

    # How the machine dials, and where; what the lab has beside what all have; whether the subscriber hangs up by itself, and the
    # cause that its Stop has then.
    dialer = emulated.PPPOE
    place, options = "on the access port", {}
    hangs_up, cause = True, "User-Request"

    def __init__(self, lab, far, read):
        self.lab, self.far, self.read = lab, far, read
        with udp() as near:
            self.near = near.getsockname()[1]
        self.began = time.monotonic()
        self.moments = {}
        self.sums = {True: Sums(), False: Sums()}
        self.hosts = core.Hosts(GOODS)
        self.console = []

    def close(self):
        """Closes the sockets that this kind of cable has for itself."""

    def ends(self):
        """Our sockets, and what is done where something comes to one."""
        return {
            self.far: lambda: self.carry(self.far.recv(65535), True),
            self.lab.access: lambda: self.carry(self.lab.access.recv(65535), False),
            self.lab.radius: self.let_in,
            self.lab.core: self.reply,
        }

    def show(self, who, text):
        print(f"{time.monotonic() - self.began:6.1f} s  {who:10}  {text}", flush=True)

    def carry(self, octets, is_up):
        """Carries a frame on, where it is one of PPPoE. The machine's other frames end here."""
        frame = pppoe.read_frame(octets)
        if frame is None:
            return
        if self.keep(frame, is_up):
            self.show("subscriber" if is_up else "gateway", pppoe.frame_words(frame))
        if is_up:
            self.send_up(octets)
        else:
            self.far.sendto(octets, (LOOPBACK, self.near))

    def send_up(self, octets):
        """Sends a frame of the machine to the gateway."""
        self.lab.send(octets)

    def keep(self, frame, is_up):
        """Keeps when discovery frames and control packets were first seen, and counts what goes through a PPP interface. Whether
        the frame is to be printed."""
        if frame.ethertype == pppoe.DISCOVERY:
            self.moments.setdefault((is_up, pppoe.DISCOVERY, frame.code), time.monotonic())
            return True
        return self.keep_payload(frame.payload, is_up)

    def keep_payload(self, payload, is_up):
        """The same of what a session carries."""
        is_first = self.sums[is_up].add(payload)
        packet = pppoe.read_packet(payload)
        if packet is not None and packet.protocol != pppoe.IPV4:
            self.moments.setdefault((is_up, packet.protocol, packet.code), time.monotonic())
        return is_first

    def let_in(self):
        """Answers an Access-Request as a RADIUS server with this one user."""
        request = radius_packets.read(self.lab.radius.recv(65535))
        is_right = dict(request.attributes)[radius_packets.USER_NAME] == USER and radius_packets.proves(request, PASSWORD)
        code = radius_packets.ACCESS_ACCEPT if is_right else radius_packets.ACCESS_REJECT
        given = [radius_packets.FRAMED, (radius_packets.CLASS, GROUP)] if is_right else []
        self.show("server", "lets the subscriber in" if is_right else "refuses the subscriber")
        octets = radius_packets.answer(request, code, *given, (radius_packets.REPLY_MESSAGE, b"welcome"))
        self.lab.radius.sendto(octets, (LOOPBACK, self.lab.ports["auth"]))

    def reply(self):
        """Answers a packet that came out at the core."""
        octets = self.hosts.answer(self.lab.core.recv(65535))
        if octets is not None:
            self.lab.send(octets, self.lab.core, "core")

    def print_console(self, lines):
        for line in filter(bytes.strip, lines):
            self.console.append(line.decode(errors="replace").strip())
            self.show("console", self.console[-1])

    def finish(self, computer):
        """Has the session end, once the machine has all that it wanted."""
        self.show("lab", "the machine has its file and an echo was answered: it is told to hang up")
        tell(computer, emulated.HANG_UP)

    def steps(self):
        """What the gateway has to say."""
        return {**STEPS, **(HUNG_UP if self.hangs_up else DISCONNECTED), **OVER}

    def end_of_time(self):
        """What ends the Acct-Session-Time, and whether the subscriber sends it, of which kind it is, and its code."""
        return "Terminate-Request", (self.hangs_up, pppoe.LCP, pppoe.TERMINATE_REQUEST)

    def records(self, records, status):
        """Those of the machine with this Acct-Status-Type."""
        return provider.records_of(records, "Calling-Station-Id", MAC, status)

    def compare(self, checks, report, records):
        """Compares what is known of nothing but this kind of session, with its Start and its Stop."""

    def came(self, is_up, kind, code):
        """Whether the subscriber (`is_up`) or the gateway sent this."""
        return (is_up, kind, code) in self.moments

    def is_opened(self, protocol):
        """Whether each side took the other's Configure-Request (RFC 1661 section 4.1)."""
        return all(self.came(is_up, protocol, pppoe.CONFIGURE_ACK) for is_up in (True, False))

    def is_through(self):
        """Whether an echo was answered and the machine has all that it wanted."""
        return self.came(False, *STEPS["Echo-Reply"]) and found(self.console, FILE) is not None


def tell(computer, word):
    """Says a word at the machine's console."""
    computer.stdin.write(word.encode() + b"\n")
    computer.stdin.flush()


def converse(cable, computer):
    """Carries frames until the machine ends. Once it has had all that it wanted, its session is ended."""
    end = cable.began + PATIENCE
    console, told = b"", False
    ends = cable.ends()
    while (left := end - time.monotonic()) > 0:
        ready, _, _ = select.select([*ends, computer.stdout], [], [], left)
        for socket in filter(ends.get, ready):
            ends[socket]()
        if computer.stdout in ready:
            octets = os.read(computer.stdout.fileno(), 65536)
            if not octets:
                return
            *lines, console = (console + octets).replace(b"\r", b"\n").split(b"\n")
            cable.print_console(lines)
        if not told and cable.is_through():
            cable.finish(computer)
            told = True
    cable.show("lab", f"{PATIENCE} seconds are over")


def serve_radius(parties):
    """A FreeRADIUS that lets the subscriber in, or None where there is none: then the script answers for it."""
    if freeradius.server_program() is None:
        return None
    return parties.enter_context(freeradius.Server(parties.enter_context(Lab()).folder))
