"""Joins the real program to interfaces by lab/wire and lab/tun, in networks of their own, and checks what goes through.

    subscribers            the gateway's machine             the core
    s0 ===== cable ===== w0, lab/wire, bng, lab/tun, bng0, c0 ===== cable ===== h0 192.0.2.1

Nothing of this machine's own network is used or changed, and all that is made is gone with the command. With SECONDS it measures too
what an interface costs a packet, in runs of so many seconds, as 0.2; that takes a C compiler."""

import os
import shutil
import signal
import socket
import subprocess
import sys
import time

from checks import qemu_subscriber, usage, wire_rates
from checks.smoke import Checks
from machine import emulated, namespaces
from machine.emulated import HOST
from machine.gateway import BNG, BUILDING, Lab, is_built
from machine.interfaces import Interfaces, WiredCable
from peers import core, ipv4, pppoe
from peers.crowd import Crowd, mac_of
from peers.pppoe import BROADCAST, DATA, DISCOVERY, IPV4, PADI, PADO, SESSION, Frame, frame_octets, tags_octets
from peers.radius_packets import ACCT_INPUT_OCTETS, ACCT_OUTPUT_OCTETS, ACCT_STATUS_TYPE, value
from peers.subscriber import PORT

CIRCUIT, CIRCUIT_ADDRESS = bytes.fromhex("020000000001"), "10.0.0.2"
HOSTS = 40
STOP = 2

# So many seconds something may take to come.
PATIENCE = 10

# A host that asks and goes no further.
ASKER = mac_of(HOSTS)
PADI_TO_ALL = frame_octets(Frame(BROADCAST, ASKER, DISCOVERY, PADI, 0, tags_octets([(pppoe.SERVICE_NAME, b"")])))
TO_OTHER = bytes.fromhex("0200000000fd") + PADI_TO_ALL[6:]

# Frames that are not for the gateway, by what they are.
STRAY = {
    "ARP": PADI_TO_ALL[:12] + bytes.fromhex("0806") + bytes(46),
    "IPv4": PADI_TO_ALL[:12] + bytes.fromhex("0800") + ipv4.packet(),
    "a PADI with the VLAN tag 100": PADI_TO_ALL[:12] + bytes.fromhex("81000064") + PADI_TO_ALL[12:],
    "a PADI to another MAC": TO_OTHER,
}


def lacking():
    """Why nothing can be tried here, or None."""
    if os.geteuid() != 0:
        return "it wants root for network namespaces"
    packages = {"ip": "iproute2", "ping": "iputils-ping"}
    missing = [package for program, package in packages.items() if shutil.which(program) is None]
    if missing:
        return "it wants Debian's " + " and ".join(missing)
    if not os.path.exists("/dev/net/tun"):
        return "there is no /dev/net/tun"
    try:
        namespaces.leave()
    except OSError as error:
        return f"this machine gives no network namespace ({error})"
    return None


class Far(Crowd):
    """The subscribers at the far end of the cable, over a raw socket: they log in, and answer pings. `octets` has what passed of
    IPv4, from them and to them, and `packets` each packet that came to one."""

    def __init__(self, lab):
        super().__init__(lab)
        self.people = core.Hosts(b"")
        self.sessions[CIRCUIT] = lab.session
        self.offers, self.packets = [], []
        self.octets = {"in": 0, "out": 0}

    def send(self, frame):
        self.lab.access.send(frame_octets(frame))

    def send_packet(self, mac, packet):
        self.octets["in"] += len(packet)
        self.send(Frame(PORT, mac, SESSION, DATA, self.sessions[mac], pppoe.two(IPV4) + packet))

    def begin(self, mac):
        self.sessions[mac] = 0
        super().begin(mac)

    def are_done(self, macs):
        return self.addresses.keys() >= set(macs)

    def hear(self, frame):
        mac = frame.destination
        if mac == ASKER and frame.code == PADO:
            self.offers.append(frame)
        if mac not in self.sessions:
            return
        if frame.ethertype != SESSION or pppoe.number_at(frame.payload, 0) != IPV4:
            super().hear(frame)
            return
        packet = frame.payload[2:]
        self.packets.append((mac, packet))
        self.octets["out"] += len(packet)
        if packet[9] == ipv4.ICMP and packet[20] == core.ECHO_REQUEST:
            self.send_packet(mac, self.people.answer(packet))

    def until(self, program, patience=3 * PATIENCE):
        """Takes what comes until a program of another network has ended, and gives what that printed."""
        end = time.monotonic() + patience
        while program.poll() is None and time.monotonic() < end:
            self.take(0.05)
        if program.poll() is None:
            program.kill()
        return program.communicate()[0]


def says_the_mtu(checks, place):
    """Where the interface's MTU is above what PPPoE has a use for, lab/wire says so."""
    namespaces.run("ip", "link", "set", "w0", "mtu", "9000")
    said = place.join_wire()
    place.part()
    checks.same("an MTU of 9,000 is told", "MTU 9,000, above 1,508" in said, True)
    namespaces.run("ip", "link", "set", "w0", "mtu", "1500")


def joins_both(checks, place):
    said = place.join_wire()
    checks.same("lab/wire has the interface", said, "wire: w0 (MTU 1,500) is access port 1, MAC 02:00:00:00:00:fe")
    for _ in range(3):
        # Nobody takes these yet, and lab/wire goes on.
        place.lab.access.send(PADI_TO_ALL)
        time.sleep(0.1)
    said = place.join_tun()
    checks.same("lab/tun has its interface", said, "tun: bng0 (MTU 1,492) is the core, with 8 routes to the pools")


def carries_what_is_for_it(checks, place, far):
    """Of all that comes on the interface PPPoE's frames alone go to the gateway. They keep their order, so a PADO to an earlier frame would
    come first. What the gateway counts as dropped is looked at in the end."""
    for octets in STRAY.values():
        place.lab.access.send(octets)
    with socket.socket(socket.AF_PACKET, socket.SOCK_RAW, 0) as own:
        own.bind(("w0", 0))
        own.send(PADI_TO_ALL)
    place.lab.access.send(PADI_TO_ALL)
    while not far.offers and far.take(PATIENCE):
        pass
    while far.take(0.5):
        pass
    names = [dict(pppoe.read_tags(offer.payload))[pppoe.AC_NAME] for offer in far.offers]
    checks.same(f"a PADI of a raw socket gets a PADO, and {', '.join(STRAY)} and one of this machine get none", names, [b"bng1"])


def offers_to_a_real_client(checks, place):
    """rp-pppoe's own client for discovery."""
    if shutil.which("pppoe-discovery") is None:
        print("skipped a real PPPoE client's discovery, which wants Debian's pppoe")
        return
    said = place.home.run("pppoe-discovery", "-I", "s0", "-t", "3")
    wanted = ["Access-Concentrator: bng1", "AC-Ethernet-Address: 02:00:00:00:00:fe"]
    checks.same("rp-pppoe's pppoe-discovery finds the gateway", [line in said for line in wanted], [True, True])


def logs_in(checks, far):
    macs = [mac_of(number) for number in range(HOSTS)]
    for at in range(0, HOSTS, 20):
        far.open(macs[at:at + 20])
    checks.same(f"{HOSTS} subscribers log in by CHAP over the cable and get addresses", len(set(far.addresses.values())), HOSTS)


def pings(checks, place, far):
    """From a host behind the core, with the system's ping."""
    for what, address in (("a subscriber", far.addresses[mac_of(7)]), ("the circuit", CIRCUIT_ADDRESS)):
        said = far.until(place.core.start("ping", "-c", "20", "-i", "0.05", address, stdout=subprocess.PIPE, text=True))
        checks.same(f"20 pings from behind the core reach {what} and come back", "20 packets transmitted, 20 received" in said, True)
    address = far.addresses[mac_of(7)]
    ping = ("ping", "-c", "3", "-i", "0.2", "-M", "do", "-s")
    said = far.until(place.core.start(*ping, "1464", address, stdout=subprocess.PIPE, text=True))
    checks.same("so do packets of 1,492 octets", "3 packets transmitted, 3 received" in said, True)
    said = far.until(place.core.start(*ping, "1465", address, stdout=subprocess.PIPE, stderr=subprocess.STDOUT, text=True))
    checks.same("the sender of a longer one is told the MTU", "Frag needed and DF set (mtu = 1492)" in said, True)
    to_it = [packet for mac, packet in far.packets if mac == mac_of(7) and len(packet) > 1492]
    checks.same("and nothing longer came", to_it, [])


def pings_the_core(checks, far):
    """A subscriber pings the host behind the core, whose kernel answers."""
    far.packets.clear()
    echo = ipv4.with_sum(bytes([core.ECHO_REQUEST, 0, 0, 0]) + b"\0\7\0\1" + bytes(range(56)), 2)
    source = socket.inet_aton(far.addresses[mac_of(3)])
    far.send_packet(mac_of(3), ipv4.spell(ipv4.Ipv4(source, socket.inet_aton(HOST), ipv4.ICMP, echo), 1))
    while not far.packets and far.take(PATIENCE):
        pass
    payloads = [ipv4.read(packet).payload[4:] for _, packet in far.packets]
    checks.same("a subscriber's ping comes back from the host behind the core", payloads, [echo[4:]])


def is_counted(checks, place, far):
    """The report, the records and what lab/wire carried are what passed at the far end."""
    lab = place.lab
    checks.same("stop is answered", lab.stop(), b"stopping\n")
    status, out, _ = lab.end(60)
    lines = out.splitlines()
    checks.same("the report has what passed on the cable", lines[2], f"total in={far.octets['in']} out={far.octets['out']}")
    drops = [line for line in lines if line.startswith("drop ") and not line.endswith(" 0")]
    checks.same("nothing was dropped, and nothing came that is not PPPoE or IPv4", (status, drops), (0, []))
    stops = [record for record in lab.records if value(record, ACCT_STATUS_TYPE) == STOP]
    sums = [sum(value(record, kind) for record in stops) for kind in (ACCT_INPUT_OCTETS, ACCT_OUTPUT_OCTETS)]
    checks.same("and so have the Stops", (len(stops), sums), (HOSTS + 1, [far.octets["in"], far.octets["out"]]))


def leaves_nothing(checks, place):
    (inwards, outwards), (down, up) = (sorted(lines) for lines in place.part())
    shown = [inwards.split(":")[1].strip(), outwards.split(":")[1].strip(), down.split(":")[1].strip(), up.split(":")[1].strip()]
    checks.same("lab/wire and lab/tun say what they carried", shown, ["from w0", "to w0", "from bng0", "to bng0"])
    for line in (inwards, outwards, down, up):
        print(f"       {line}")
    links = namespaces.run("ip", "-o", "link")
    checks.same("the TUN interface and its routes are gone", ("bng0" in links, "bng0" in namespaces.run("ip", "route")), (False, False))


def try_all(checks):
    with Lab() as lab:
        place = Interfaces(lab)
        try:
            says_the_mtu(checks, place)
            joins_both(checks, place)
            lab.start([BNG, "serve", lab.configuration], patience=60 if is_built() else BUILDING)
            far = Far(lab)
            carries_what_is_for_it(checks, place, far)
            offers_to_a_real_client(checks, place)
            logs_in(checks, far)
            pings(checks, place, far)
            pings_the_core(checks, far)
            is_counted(checks, place, far)
            leaves_nothing(checks, place)
        finally:
            place.part()


def has_a_session_of_a_real_pppd(checks):
    """In the emulated machine of lab/qemu-subscriber, whose card is plugged into the subscribers' interface here, and with all that is
    compared there."""
    missing = emulated.lacking(emulated.PPPOE)
    if missing:
        print(f"skipped a real pppd's session, which wants Debian's {', '.join(missing)}")
        return
    namespaces.leave()
    qemu_subscriber.attempt(lambda configuration: [BNG, "serve", configuration], checks, WiredCable)


def main(seconds):
    reason = lacking()
    if reason:
        print(f"real-network: skipped, since {reason}")
        return 0
    checks = Checks()
    try:
        try_all(checks)
        has_a_session_of_a_real_pppd(checks)
    except (RuntimeError, OSError, subprocess.TimeoutExpired) as error:
        checks.same("the run came to its end", str(error), "no error")
    if seconds is not None:
        namespaces.leave()
        wire_rates.compare(seconds)
    print(f"{checks.passed} passed, {checks.failed} failed")
    return 1 if checks.failed else 0


if __name__ == "__main__":
    came = usage.heed("real-network", __doc__, "SECONDS")
    signal.signal(signal.SIGTERM, lambda *_: sys.exit(143))
    sys.exit(main(float(came[0]) if came else None))
