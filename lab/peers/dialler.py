"""A PPP subscriber that dials again by itself, as a script plays many at once. Each logs in by CHAP, takes the address that it is told, sends
packets, and asks by LCP Echo-Requests whether its gateway is there still (RFC 1661, RFC 1994, RFC 1332). One without an answer begins anew."""

import socket

from peers.ipv4 import packet
from peers.pppoe import CHALLENGE, CHAP, CONFIGURE_ACK, CONFIGURE_NAK, CONFIGURE_REQUEST, ECHO_REPLY, ECHO_REQUEST, FAILURE, IPCP, LCP, MAGIC
from peers.pppoe import RESPONSE, TERMINATE_ACK, TERMINATE_REQUEST, Packet, options_octets, read_options, read_packet
from peers.radius_packets import chap_value

# Seconds between two Echo-Requests, and how many in a row stay unanswered until the session is given up.
ECHO, MISSED = 5.0, 3
ECHO_TIME = ECHO * (MISSED + 1)

# Seconds after which a subscriber begins anew that has no session yet, and one that has no address yet.
ANSWERING, LOGGING_IN = 10.0, 30.0

# Seconds at most that one waits before it dials again after a loss, each for another time, as pppd does by its option `holdoff`.
HOLDOFF = 8.0

# Seconds between two packets of a subscriber.
PACKETS = 4.0

# What a frame of PPP carries that is an IPv4 packet, and the option of IPCP for an address.
IPV4, ADDRESS = b"\0\x21", 3
HOST = "192.0.2.1"


def next_after(due, period, now):
    """When something is due again that was due then, so that many who do it each in their turn do not come to do it all at once."""
    return now + period - (now - due) % period


class Dialler:
    """One subscriber. `box` serves it, once that is settled, and `address` is there once it may send packets. `wanted_at` is when it began
    to ask, and `up_at` when it had its address. `losses` has, of each session that it gave up, the moment."""

    def __init__(self, number):
        self.number = number
        self.name = f"subscriber{number:03}"
        self.password = f"password{number:03}".encode()
        self.magic = b"\x5a" + number.to_bytes(3, "big")
        self.box = self.address = self.packet = None
        self.begun_at = self.wanted_at = self.up_at = self.echo_at = self.packet_at = 0.0
        self.unanswered = self.identifier = self.refusals = 0
        self.pours = False
        self.losses = []

    def dial(self, now):
        """Asks for a session."""
        raise NotImplementedError

    def say(self, payload):
        """Sends a PPP frame in the session."""
        raise NotImplementedError

    def hang_up(self):
        """Leaves a session without LCP, as far as its gateway is there to be told."""
        raise NotImplementedError

    def say_packet(self, packet_said):
        front = packet_said.protocol.to_bytes(2, "big") + bytes([packet_said.code, packet_said.identifier])
        self.say(front + (len(packet_said.data) + 4).to_bytes(2, "big") + packet_said.data)

    def want(self, now):
        """Begins to ask for a session, which it did not before."""
        self.wanted_at = now
        self.begin(now)

    def begin(self, now):
        self.box = self.address = None
        self.begun_at = now
        self.dial(now)

    def lose(self, now):
        """Gives a session up, and asks for another one in a while."""
        self.losses.append(now)
        self.hang_up()
        self.box = self.address = None
        self.wanted_at = now
        self.begun_at = now + HOLDOFF * (self.number % 20) / 20 - ANSWERING

    def leave(self, now):
        """Ends its session, and asks for another one."""
        self.hang_up()
        self.want(now)

    def hear(self, payload, now):
        """Answers a PPP frame of the gateway."""
        if payload[:2] == IPV4:
            self.box.down += len(payload) - 2
            return
        heard = read_packet(payload)
        if heard is None:
            return
        answers = {LCP: self.hear_lcp, CHAP: self.hear_chap, IPCP: self.hear_ipcp}
        answers.get(heard.protocol, lambda *_: None)(heard, now)

    def hear_lcp(self, heard, now):
        if heard.code == CONFIGURE_REQUEST:
            self.say_packet(heard._replace(code=CONFIGURE_ACK))
            self.say_packet(Packet(LCP, CONFIGURE_REQUEST, 1, options_octets([(MAGIC, self.magic)])))
        elif heard.code == ECHO_REQUEST:
            self.say_packet(heard._replace(code=ECHO_REPLY, data=self.magic + heard.data[4:]))
        elif heard.code == ECHO_REPLY:
            self.unanswered = 0
        elif heard.code == TERMINATE_REQUEST:
            self.say_packet(Packet(LCP, TERMINATE_ACK, heard.identifier, b""))
            self.leave(now)

    def hear_chap(self, heard, _):
        if heard.code == CHALLENGE:
            value = chap_value(heard.identifier, self.password, heard.data[1:17])
            self.say_packet(Packet(CHAP, RESPONSE, heard.identifier, b"\x10" + value + self.name.encode()))
        elif heard.code == FAILURE:
            self.refusals += 1

    def hear_ipcp(self, heard, now):
        if heard.code == CONFIGURE_REQUEST:
            self.say_packet(heard._replace(code=CONFIGURE_ACK))
            if self.address is None:
                self.say_packet(Packet(IPCP, CONFIGURE_REQUEST, 1, options_octets([(ADDRESS, bytes(4))])))
        elif heard.code == CONFIGURE_NAK:
            self.say_packet(heard._replace(code=CONFIGURE_REQUEST, identifier=(heard.identifier + 1) % 256))
        elif heard.code == CONFIGURE_ACK and self.address is None:
            self.address = socket.inet_ntoa(dict(read_options(heard.data))[ADDRESS])
            self.packet = IPV4 + packet(self.address, HOST, length=100 + self.number % 50)
            self.up_at, self.unanswered = now, 0
            # They do not ask all at once.
            self.echo_at = now + ECHO * (self.number % 10 + 1) / 10
            self.packet_at = now + PACKETS * (self.number % 20) / 20

    def tick(self, now):
        """Does what is due, and says whether something was."""
        if self.address is None:
            if now - self.begun_at <= (LOGGING_IN if self.box else ANSWERING):
                return False
            self.hang_up()
            self.begin(now)
        elif now >= self.echo_at:
            self.ask_echo(now)
        elif self.pours and now >= self.packet_at:
            self.say(self.packet)
            self.packet_at = next_after(self.packet_at, PACKETS, now)
        else:
            return False
        return True

    def ask_echo(self, now):
        """Sends the next Echo-Request, or gives the session up where too many had no answer."""
        if self.unanswered >= MISSED:
            self.lose(now)
            return
        self.identifier = self.identifier % 255 + 1
        self.say_packet(Packet(LCP, ECHO_REQUEST, self.identifier, self.magic))
        self.unanswered += 1
        self.echo_at = next_after(self.echo_at, ECHO, now)
