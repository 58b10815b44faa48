"""The cable of an emulated machine whose xl2tpd calls the gateway: L2TP is taken out of the card's frames, and shown."""

import time
from typing import NamedTuple

from machine import cable, emulated
from machine.xl2tpd import CONFIGURATION
from peers import ipv4, pppoe, provider
from peers.l2tp import ASSIGNED_SESSION, ASSIGNED_TUNNEL, CDN, CHALLENGE, HELLO, ICCN, ICRP, ICRQ, MESSAGE_TYPE, RESPONSE, SCCCN, SCCRP
from peers.l2tp import SCCRQ, STOP_CCN
from peers.lac import SECRET, SHARING, answer_to
from peers.loopback import LOOPBACK, udp
from peers.pppoe import number_at, two

XL2TPD = "/usr/sbin/xl2tpd"

# The network of the machine's card, on which the script is the gateway's end, and the port of L2TP (RFC 2661 section 8.1).
MACHINE, GATEWAY, PORT = "198.51.100.2", "198.51.100.1", 1701
OURS = "02:00:00:00:00:fd"

OPTIONS = """\
user subscriber
password secret
debug
logfile /dev/console
noauth
noipdefault
usepeerdns
defaultroute
lcp-echo-interval 2
lcp-echo-failure 5
"""

# xl2tpd talks to its pppd over a pseudo terminal, since the kernel has no module for L2TP here. It dials by itself, and stays when
# its tunnel is over.
DIAL = """\
mkdir /dev/pts
mount -t devpts devpts /dev/pts
hostname lac1
ip link set lo up
ip addr add {machine}/24 dev eth0
arp -s {gateway} {ours}
xl2tpd -D -c /etc/xl2tpd/xl2tpd.conf -C /run/xl2tpd.control -p /run/xl2tpd.pid &
dialed=$!
hang_up() {{
    {hang_up}
    while pidof pppd >/dev/null; do sleep 1; done
    {end}
    sleep 2
    kill -TERM $dialed
}}
"""

# By the subscriber, after whom the concentrator ends its tunnel, or by the concentrator alone.
END_TUNNEL = "echo 'd gateway' >/run/xl2tpd.control"
BY_PPPD, BY_XL2TPD = ("kill -TERM $(pidof pppd)", END_TUNNEL), (END_TUNNEL, ":")

# The kind of what is no PPP packet, beside the PPP protocols, and the names of its codes.
CONTROL = "L2TP"
NAMES = {
    SCCRQ: "SCCRQ",
    SCCRP: "SCCRP",
    SCCCN: "SCCCN",
    STOP_CCN: "StopCCN",
    HELLO: "HELLO",
    ICRQ: "ICRQ",
    ICRP: "ICRP",
    ICCN: "ICCN",
    CDN: "CDN",
}

# What the gateway has to say beside what it says to a host, of which discovery is no part here.
STEPS = {"SCCRP": (CONTROL, SCCRP), "ICRP": (CONTROL, ICRP)}
STEPS |= {name: step for name, step in cable.STEPS.items() if step[0] != pppoe.DISCOVERY}


class ControlMessage(NamedTuple):
    """A control message (RFC 2661 section 3.1), whose type is None where it has no AVPs, a ZLB."""

    kind: int
    number: int
    avps: dict


def dialing(challenge, hang_up):
    """How the machine dials, and what it does to hang up and once pppd has ended."""
    folder = "/etc/xl2tpd"
    words = {"address": MACHINE, "port": PORT, "folder": folder, "gateway": GATEWAY, "challenge": challenge}
    texts = {
        f"{folder}/xl2tpd.conf": CONFIGURATION.format(**words),
        f"{folder}/secrets": f"* * {SECRET.decode()}\n",
        f"{folder}/options": OPTIONS,
    }
    first, then = hang_up
    dial = DIAL.format(machine=MACHINE, gateway=GATEWAY, ours=OURS, hang_up=first, end=then)
    return emulated.Dialer(["e1000", "ppp_async"], {"xl2tpd": XL2TPD}, texts, dial)


def octets_of(mac):
    return bytes.fromhex(mac.replace(":", ""))


def read_message(octets):
    """The control message in these octets."""
    avps, at = {}, 12
    while at < len(octets):
        avps[number_at(octets, at + 4)] = octets[at + 6:at + (number_at(octets, at) & 0x3FF)]
        at += max(6, number_at(octets, at) & 0x3FF)
    kind = avps.get(MESSAGE_TYPE)
    return ControlMessage(kind and number_at(kind, 0), number_at(octets, 8), avps)


def payload_of(octets):
    """The PPP frame in a data message (section 3.1), from its protocol on."""
    flags, at = number_at(octets, 0), 6
    at += 2 * bool(flags & 0x4000) + 4 * bool(flags & 0x0800)
    if flags & 0x0200:
        at += 2 + number_at(octets, at)
    return octets[at + 2:] if octets[at:at + 2] == b"\xff\3" else octets[at:]


class CallCable(cable.Cable):
    """Carries the datagrams of the machine's xl2tpd to the gateway and back, from a port of the configured concentrator's address."""

    dialer, place = dialing("no", BY_PPPD), "and an xl2tpd without a secret"
    options = {"tunnels": True}
    address, has_secret = LOOPBACK, False

    # What xl2tpd says of control, each message once, the ZLBs left out, and what the script says before the end.
    said = ["SCCRQ", "SCCCN", "ICRQ", "ICCN", "CDN", "StopCCN"]
    ending = "its pppd is told to hang up"

    def __init__(self, *parties):
        super().__init__(*parties)
        self.end = udp(self.address)
        self.port = self.end.getsockname()[1]
        self.messages = {True: {}, False: {}}
        self.sent = 0

    def close(self):
        self.end.close()

    def ends(self):
        return {
            self.far: lambda: self.carry_up(self.far.recv(65535)),
            self.end: lambda: self.carry_down(self.end.recv(65535)),
            self.lab.radius: self.let_in,
            self.lab.core: self.reply,
        }

    def carry_up(self, frame):
        """Carries what a frame of the machine has for the gateway's port of L2TP. Its other frames end here."""
        packet = ipv4.read(frame[14:14 + number_at(frame, 16)]) if number_at(frame, 12) == 0x0800 else None
        if packet is None or packet.protocol != ipv4.UDP or number_at(packet.payload, 2) != PORT:
            return
        if number_at(frame, 20) & 0x3FFF:
            raise RuntimeError("the machine sent a fragment")
        octets = packet.payload[8:number_at(packet.payload, 4)]
        self.keep(octets, True)
        self.lab.send(octets, self.end, "tunnel")

    def carry_down(self, octets):
        """Carries a datagram of the gateway, without a sum of UDP (RFC 768)."""
        self.keep(octets, False)
        self.sent += 1
        datagram = two(PORT) * 2 + two(len(octets) + 8) + bytes(2) + octets
        ends = [bytes(map(int, address.split("."))) for address in (GATEWAY, MACHINE)]
        packet = ipv4.spell(ipv4.Ipv4(*ends, ipv4.UDP, datagram), self.sent % 65536)
        frame = octets_of(cable.MAC) + octets_of(OURS) + two(0x0800) + packet
        self.far.sendto(frame, (LOOPBACK, self.near))

    def keep(self, octets, is_up):
        """Keeps when messages and control packets were first seen, counts what goes through a PPP interface, and shows it."""
        if number_at(octets, 0) & 0x8000:
            words = self.keep_message(read_message(octets), is_up)
        else:
            payload = payload_of(octets)
            words = self.keep_payload(payload, is_up) and pppoe.packet_words(payload)
        if words:
            self.show("subscriber" if is_up else "gateway", words)

    def keep_message(self, message, is_up):
        """Keeps a control message, and says it in words where it is none that came before, and no ZLB."""
        if message.kind is None or message.number in self.messages[is_up]:
            return None
        self.messages[is_up][message.number] = message
        self.moments.setdefault((is_up, CONTROL, message.kind), time.monotonic())
        avps = f"{len(message.avps) - 1} AVPs" + ", a Challenge" * (CHALLENGE in message.avps) + ", a Response" * (RESPONSE in message.avps)
        return f"{CONTROL} {self.name(message)} {message.number}: {avps}"

    @staticmethod
    def name(message):
        return NAMES.get(message.kind, str(message.kind))

    def avp(self, is_up, kind, avp):
        """The value that an AVP has in the message of this type, or no octets."""
        found = [message.avps.get(avp, b"") for message in self.messages[is_up].values() if message.kind == kind]
        return found[0] if found else b""

    def finish(self, computer):
        self.show("lab", f"the machine has its file and an echo was answered: {self.ending}")
        cable.tell(computer, emulated.HANG_UP)

    def steps(self):
        return {**STEPS, **(cable.HUNG_UP if self.hangs_up else {})}

    def records(self, records, status):
        """Those of the one who is no circuit, since a call has no MAC."""
        return provider.records_of(records, "User-Name", cable.USER.decode(), status)

    def compare(self, checks, report, records):
        # Each side may ask the other with a HELLO, in a session that takes a minute.
        names = [[self.name(message) for message in self.messages[is_up].values() if message.kind != HELLO] for is_up in (True, False)]
        checks.same("control messages of xl2tpd beside HELLO", names[0], self.said)
        checks.same("control messages of the gateway beside HELLO", names[1], ["SCCRP", "ICRP"])
        numbers = [self.avp(False, *one) for one in ((SCCRP, ASSIGNED_TUNNEL), (ICRP, ASSIGNED_SESSION))]
        tunnel, session = (int.from_bytes(number, "big") for number in numbers)
        port = f"t{self.address}:{self.port}/{tunnel}/{session}"
        checks.same("NAS-Port-Id of the Start and of the Stop", [record.says("NAS-Port-Id") for record in records], [port, port])
        checks.same("Calling-Station-Id, of which a call has none", [record.says("Calling-Station-Id") for record in records], [None, None])
        self.compare_challenges(checks)

    def compare_challenges(self, checks):
        """Each side has the other prove that it knows the secret, where they share one (section 4.4.3)."""
        asked = [self.avp(True, SCCRQ, CHALLENGE), self.avp(False, SCCRP, CHALLENGE)]
        answers = [self.avp(False, SCCRP, RESPONSE), self.avp(True, SCCCN, RESPONSE)]
        if self.has_secret:
            right = [answer_to(kind, challenge) for kind, challenge in zip((SCCRP, SCCCN), asked)]
            checks.same("both sides had a Challenge", [len(challenge) > 0 for challenge in asked], [True, True])
            checks.same("their Responses", [answer.hex() for answer in answers], [answer.hex() for answer in right])
        else:
            checks.same("Challenges and Responses", asked + answers, [b""] * 4)


class SecretCallCable(CallCable):
    """The same with Challenges both ways, and the concentrator hangs up in place of its subscriber."""

    dialer, place = dialing("yes", BY_XL2TPD), "and an xl2tpd with a secret"
    address, has_secret = SHARING, True
    hangs_up, cause = False, "Lost-Carrier"
    said = ["SCCRQ", "SCCCN", "ICRQ", "ICCN", "StopCCN"]
    ending = "its xl2tpd is told to end the tunnel"

    def end_of_time(self):
        return "StopCCN", (True, CONTROL, STOP_CCN)
