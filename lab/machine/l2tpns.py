"""A real l2tpns, which lab/bench measures beside the gateway, with one call of a scripted access concentrator. It runs in a network of its
own, where the ports that it insists on are free and its routes are nobody else's. Its core is the kernel: what it writes to its TUN device comes
to the socket of a host there, and what that host sends it reads from the device."""

import concurrent.futures
import contextlib
import ctypes
import os
import shutil
import socket
import subprocess
import tempfile
import time

from peers import ipv4, radius_packets
from peers.ipv4 import packet
from peers.l2tp import ASSIGNED_SESSION, CONNECT_SPEED, FRAMING_TYPE, HELLO, ICCN, ICRP, ICRQ, IPV4, IP_ADDRESS, MESSAGE_TYPE, SCCCN, SCCRP
from peers.l2tp import SERIAL_NUMBER, Message, number_in, read, short
from peers.lac import Call, Concentrator
from peers.login import PASSWORD, say_response
from peers.loopback import LOOPBACK, bound_ports, udp
from peers.pppoe import CHALLENGE, CHAP, CONFIGURE_ACK, CONFIGURE_REQUEST, IPCP, LCP, SUCCESS, options_octets, read_packet
from peers.radius_packets import ACCESS_ACCEPT, FRAMED
from peers.subscriber import MAGIC

PATIENCE = 30
TUN = "/dev/net/tun"
CLONE_NEWNET = 0x40000000
SO_NO_CHECK = 11

# The subscriber, and the host behind the core, with their ports of UDP.
ADDRESS, NEAR = "10.0.0.50", 4000
HOST, FAR = "192.0.2.1", 4001

# Its own ports.
TUNNEL, AUTHENTICATION = 1701, 1812

# No throttling, no accounting, and one process as it is. Only a master of a cluster forwards, which it is once it has heard no other one.
CONFIGURATION = f"""\
set debug 1
set hostname "lns1"
set bind_address 127.0.0.1
set iftun_address 10.0.0.1
set cli_bind_address 127.0.0.1
set send_garp no
set primary_radius 127.0.0.1
set primary_radius_port {AUTHENTICATION}
set radius_secret "{radius_packets.SECRET.decode()}"
set radius_authtypes "chap"
set cluster_interface "lo"
set cluster_hb_timeout 31
set echo_timeout 7200
set idle_echo_timeout 14400
"""

# It reads its pool and its operators from /etc/l2tpns, whatever its configuration says, so it gets another folder there.
START = f"""\
mount --bind "$1" /etc/l2tpns && ip link set lo up && ip address add {HOST}/32 dev lo && exec l2tpns -c "$1/startup-config"
"""


def lacking():
    """Why there is none to measure, or None."""
    if shutil.which("l2tpns") is None:
        return "there is no l2tpns (apt-get install --no-install-recommends l2tpns)"
    if os.geteuid() != 0 or not os.access(TUN, os.R_OK | os.W_OK):
        return f"it takes root and {TUN}"
    missing = [tool for tool in ("ip", "unshare", "mount") if shutil.which(tool) is None]
    return f"there is no {missing[0]} to give it a network of its own" if missing else None


def datagram(octets):
    """The packet of this length, from and to these addresses, that is a datagram for the host, and does not tell its sum (RFC 768)."""
    whole = ipv4.read(octets)
    front = short(NEAR) + short(FAR) + short(len(whole.payload)) + bytes(2)
    return ipv4.spell(whole._replace(protocol=ipv4.UDP, payload=front + whole.payload[8:]), 1)


class Caller(Concentrator):
    """A concentrator with one tunnel, and one call over it."""

    def heard(self):
        """Its next control message, which is counted, or the octets of its next data; None where nothing comes."""
        octets, _ = self.lab.receive(self.end)
        if octets is None or octets[0] & 0x80 == 0:
            return octets
        message = read(octets, known=False)
        if message.avps:
            self.nr = message.ns + 1
        return message

    def message(self):
        """Its next control message; data before that is left."""
        while (heard := self.heard()) is not None:
            if isinstance(heard, Message):
                return heard
        return None

    def hear_of(self, kind):
        """Its next message of this type."""
        while message := self.message():
            if message.avps[:1] == [(MESSAGE_TYPE, short(kind))]:
                return message
        return None

    def is_heard(self):
        """Waits until all that was said is acknowledged."""
        while message := self.message():
            if message.nr == self.ns:
                return
        raise RuntimeError("l2tpns acknowledges nothing")

    def has_a_call(self):
        """Brings the tunnel up, and the call."""
        self.end.settimeout(0.5)
        end = time.monotonic() + PATIENCE
        while self.tunnel == 0:
            if time.monotonic() > end:
                raise RuntimeError("l2tpns answers no SCCRQ")
            self.ns = 0
            self.ask()
            self.tunnel = number_in(self.hear_of(SCCRP))
        self.end.settimeout(5)
        self.say(SCCCN)
        self.is_heard()
        call = Call(self, 7)
        self.say(ICRQ, (ASSIGNED_SESSION, short(call.own)), (SERIAL_NUMBER, bytes([0, 0, 0, 1])))
        answer = self.hear_of(ICRP)
        if answer is None:
            raise RuntimeError("l2tpns answers no ICRQ")
        call.session = int.from_bytes(dict(answer.avps)[ASSIGNED_SESSION], "big")
        self.say(ICCN, (CONNECT_SPEED, bytes([0, 0x98, 0x96, 0x80])), (FRAMING_TYPE, bytes([0, 0, 0, 1])), session=call.session)
        return call

    def packet(self):
        """The next control packet of PPP; what else comes before that is left."""
        while (heard := self.heard()) is not None:
            if not isinstance(heard, Message) and heard[6:8] == b"\xff\3" and (said := read_packet(heard[8:])):
                return said
        raise RuntimeError("l2tpns leaves the subscriber without an answer")

    def logs_in(self, call):
        """The subscriber of the call authenticates itself by CHAP, and gets its address by IPCP. All that is asked of it is acknowledged."""
        call.say_packet(LCP, CONFIGURE_REQUEST, 1, options_octets([MAGIC]))
        opened = set()
        while opened != {CONFIGURE_REQUEST, CONFIGURE_ACK}:
            heard = self.packet()
            if heard.code == CONFIGURE_REQUEST and heard.protocol in (LCP, IPCP):
                call.say_packet(heard.protocol, CONFIGURE_ACK, heard.identifier, heard.data)
            elif (heard.protocol, heard.code) == (CHAP, CHALLENGE):
                say_response(call, heard)
                self.lab.lets_in()
            elif (heard.protocol, heard.code) == (CHAP, SUCCESS):
                call.say_packet(IPCP, CONFIGURE_REQUEST, 1, options_octets([(IP_ADDRESS, socket.inet_aton(ADDRESS))]))
            if heard.protocol == IPCP:
                opened.add(heard.code)

    def keep(self):
        """Says HELLO, so that l2tpns does not, and leaves nothing of before in the socket."""
        self.say(HELLO)
        self.is_heard()


class Lns:
    """A running l2tpns, with what lab/bench reads of a lab: `core` is the socket of the host, and `ports` has where to send to."""

    def __init__(self, program, folder):
        self.program, self.folder, self.pid = program, folder, program.pid
        self.ports = {"tunnel": TUNNEL, "core": f"{ADDRESS}:{NEAR}"}
        self.wait()
        self.core, self.radius, self.caller = self.inside(lambda: (udp(HOST, FAR), udp(LOOPBACK, AUTHENTICATION), Caller(self, 5)))
        # As on the loopback, where no sum is computed.
        self.core.setsockopt(socket.SOL_SOCKET, SO_NO_CHECK, 1)

    def wait(self):
        """Waits until it has its socket for tunnels, in its own network."""
        end = time.monotonic() + PATIENCE
        while True:
            if self.program.poll() is not None or time.monotonic() > end:
                with open(os.path.join(self.folder, "said"), encoding="utf-8", errors="replace") as file:
                    raise RuntimeError(f"l2tpns does not run: {' / '.join(file.read().splitlines()[-2:])}")
            networks = {os.readlink(f"/proc/{process}/ns/net") for process in ("self", self.pid)}
            if len(networks) == 2 and TUNNEL in bound_ports(self.pid):
                return
            time.sleep(0.02)

    def inside(self, make):
        """What is made in its network. Each thread of Linux has a network, so one of its own goes there."""

        def there():
            with open(f"/proc/{self.pid}/ns/net", "rb") as network:
                if ctypes.CDLL(None, use_errno=True).setns(network.fileno(), CLONE_NEWNET) != 0:
                    raise OSError(ctypes.get_errno(), "setns")
            return make()

        with concurrent.futures.ThreadPoolExecutor(1) as pool:
            return pool.submit(there).result()

    def send(self, octets, end, to):
        end.sendto(octets, (LOOPBACK, self.ports[to]))

    def receive(self, end):
        """The next datagram and the port that it came from, or None after the socket's patience."""
        try:
            octets, sender = end.recvfrom(65535)
            return octets, sender[1]
        except socket.timeout:
            return None, None

    def lets_in(self):
        """Answers its Access-Request by an Accept, where the subscriber knows the password."""
        octets, sender = self.radius.recvfrom(65535)
        request = radius_packets.read(octets)
        if not radius_packets.proves(request, PASSWORD):
            raise RuntimeError("l2tpns asks for a subscriber that does not know its password")
        address = (radius_packets.FRAMED_IP_ADDRESS, socket.inet_aton(ADDRESS))
        self.radius.sendto(radius_packets.answer(request, ACCESS_ACCEPT, FRAMED, address), sender)

    def close(self):
        for end in (self.core, self.radius, self.caller.end):
            end.close()


@contextlib.contextmanager
def running():
    """A running l2tpns, which is ended and leaves nothing, as its network does not."""
    with tempfile.TemporaryDirectory(prefix="bng-l2tpns-") as folder:
        for name, text in (("startup-config", CONFIGURATION), ("ip_pool", "10.0.1.0/24\n"), ("users", "")):
            with open(os.path.join(folder, name), "w", encoding="utf-8") as file:
                file.write(text)
        with open(os.path.join(folder, "said"), "wb") as said:
            command = ["unshare", "--net", "--mount", "sh", "-c", START, "sh", folder]
            program = subprocess.Popen(command, stdin=subprocess.DEVNULL, stdout=said, stderr=said, start_new_session=True)
        try:
            with contextlib.closing(Lns(program, folder)) as lns:
                yield lns
        finally:
            program.terminate()
            try:
                program.wait(5)
            except subprocess.TimeoutExpired:
                program.kill()
                program.wait()


def put(tunnel, call):
    """How a packet is put over this call."""
    front = b"\0\2" + short(tunnel.tunnel) + short(call.session) + b"\xff\3" + IPV4
    return lambda octets: front + datagram(octets)


def drawn(octets):
    """What the host sends by UDP, so that a packet of this length goes to the subscriber."""
    return octets[28:]


def has_a_subscriber(lns):
    """Lets a subscriber log in over a call, and sends one packet each way. How its packets are put."""
    call = lns.caller.has_a_call()
    lns.caller.logs_in(call)
    lns.caller.keep()
    puts, there, back = put(lns.caller, call), packet(ADDRESS, HOST), packet(HOST, ADDRESS)
    lns.send(puts(there), lns.caller.end, "tunnel")
    came = lns.receive(lns.core)[0]
    lns.core.sendto(drawn(back), (ADDRESS, NEAR))
    went = lns.receive(lns.caller.end)[0] or b""
    if came != drawn(there) or (len(went), went[-len(drawn(back)):]) != (len(back) + 10, drawn(back)):
        raise RuntimeError("l2tpns passes no packets")
    return puts
