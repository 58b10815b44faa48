"""A scripted L2TP access concentrator (RFC 2661), with its tunnels, its calls and the subscriber of one."""

import hashlib

from peers import pppoe, radius_packets
from peers.l2tp import ASSIGNED_SESSION, ASSIGNED_TUNNEL, CONNECT_SPEED, FRAMING, FRAMING_TYPE, HOST_NAME, ICCN, ICRP, ICRQ, IP_ADDRESS
from peers.l2tp import MESSAGE_TYPE, PROTOCOL_VERSION, RESULT_CODE, SCCCN, SCCRP, SCCRQ, SERIAL_NUMBER, STOP_CCN, WINDOW, Message, number_in
from peers.l2tp import read, short, text
from peers.login import say_response
from peers.loopback import LOOPBACK, udp
from peers.pppoe import CHAP, IPCP, LCP, Packet, options_octets, packet_octets, read_packet
from peers.radius_packets import ACCESS_ACCEPT, FRAMED
from peers.radius_server import hear_request, send_reply
from peers.subscriber import MAGIC

# Another address of the loopback, whose secret the configuration of the lab has.
SHARING, SECRET = "127.0.0.5", b"xyzzy"


def answer_to(kind, challenge, secret=SECRET):
    """The answer to a Challenge in a message of this type (section 4.4.3)."""
    return hashlib.md5(bytes([kind]) + secret + challenge).digest()


class Concentrator:
    """One tunnel of a concentrator at this address, which counts its messages and the gateway's. `own` is its tunnel's number, and `tunnel`
    the gateway's, 0 until the gateway has told it."""

    def __init__(self, lab, own, address=LOOPBACK):
        self.lab, self.own, self.end = lab, own, udp(address)
        self.tunnel = self.ns = self.nr = 0

    def __enter__(self):
        return self

    def __exit__(self, *_):
        self.end.close()

    def say(self, kind, *avps, session=0):
        """Sends the next message."""
        self.lab.send(text(self.tunnel, session, self.ns, self.nr, [(MESSAGE_TYPE, short(kind)), *avps]), self.end, "tunnel")
        self.ns += 1

    def acknowledge(self):
        """Sends a message without AVPs, a ZLB."""
        self.lab.send(text(self.tunnel, 0, self.ns, self.nr, []), self.end, "tunnel")

    def hear(self):
        """The gateway's next message, or None where none comes. One with AVPs is counted."""
        octets, sender = self.lab.receive(self.end)
        if octets is None:
            return None
        if sender != self.lab.ports["tunnel"]:
            raise RuntimeError("a message came from another socket than that of Tunnel")
        message = read(octets)
        if message.avps:
            self.nr = message.ns + 1
        return message

    def ask(self, *avps):
        """Sends an SCCRQ."""
        host = [(PROTOCOL_VERSION, b"\1\0"), (FRAMING, bytes([0, 0, 0, 3])), (HOST_NAME, b"lac1"), (ASSIGNED_TUNNEL, short(self.own))]
        self.say(SCCRQ, *host, *avps)

    def zlb(self, ns):
        """What acknowledges all that was said so far, where the gateway's next message has this number."""
        return Message(self.own, 0, ns, self.ns, [])

    def told(self, kind, ns, *avps, session=0):
        """A message of the gateway that acknowledges all that was said so far."""
        return Message(self.own, session, ns, self.ns, [(MESSAGE_TYPE, short(kind)), *avps])

    def set_up(self, checks, what):
        """Brings the tunnel up without a secret."""
        self.ask()
        got = self.hear()
        self.tunnel = number_in(got)
        avps = [(PROTOCOL_VERSION, b"\1\0"), (FRAMING, bytes([0, 0, 0, 3])), (HOST_NAME, b"bng1"), (ASSIGNED_TUNNEL, short(self.tunnel)), (WINDOW, short(8))]
        checks.same(f"an SCCRP answers the SCCRQ of {what}", got, self.told(SCCRP, 0, *avps))
        checks.same(f"the number for {what} is one of a shard's sixteen", 1 <= self.tunnel % 1024 <= 16, True)
        self.say(SCCCN)
        checks.same(f"a ZLB answers the SCCCN of {what}", self.hear(), self.zlb(1))

    def is_told_of_the_stop(self, checks, what, ns=1):
        got = self.hear()
        want = self.told(STOP_CCN, ns, (ASSIGNED_TUNNEL, short(self.tunnel)), (RESULT_CODE, short(6)))
        checks.same(f"at the stop {what} is told that the gateway shuts down", got, want)


class Call:
    """A call of a tunnel that is set up. `own` is the number of its session at the concentrator, and `session` that of the gateway, 0 until
    the gateway has told it."""

    def __init__(self, tunnel, own):
        self.tunnel, self.own, self.session = tunnel, own, 0

    def ask(self, checks, what, ns):
        """Sends an ICRQ, and takes the ICRP for it, which is the gateway's message with this number."""
        self.tunnel.say(ICRQ, (ASSIGNED_SESSION, short(self.own)), (SERIAL_NUMBER, bytes([0, 0, 0, 1])))
        got = self.tunnel.hear()
        self.session = int.from_bytes(dict(got.avps if got else []).get(ASSIGNED_SESSION, b""), "big")
        want = self.tunnel.told(ICRP, ns, (ASSIGNED_SESSION, short(self.session)), session=self.own)
        checks.same(f"an ICRP answers the ICRQ of {what}", got, want)
        checks.same(f"the session of {what} is of its tunnel's shard", self.session // 1024, self.tunnel.tunnel // 1024)

    def connect(self, checks, what, ns):
        """Sends an ICCN, which is acknowledged by a ZLB."""
        self.tunnel.say(ICCN, (CONNECT_SPEED, bytes([0, 0x98, 0x96, 0x80])), (FRAMING_TYPE, bytes([0, 0, 0, 1])), session=self.session)
        checks.same(f"a ZLB answers the ICCN of {what}", self.tunnel.hear(), self.tunnel.zlb(ns))

    def say(self, payload, flags=0, fields=b""):
        """Sends a PPP frame in a data message (section 3.1), with these flags and what stands after the numbers for them."""
        front = short(0x0002 | flags) + short(self.tunnel.tunnel) + short(self.session) + fields
        self.tunnel.lab.send(front + b"\xff\3" + payload, self.tunnel.end, "tunnel")

    def say_packet(self, protocol, code, identifier, data=b""):
        self.say(packet_octets(Packet(protocol, code, identifier, data)))

    def hear(self):
        """The PPP frame of the gateway's next datagram, a data message to this call."""
        octets, _ = self.tunnel.lab.receive(self.tunnel.end)
        front = b"\0\2" + short(self.tunnel.own) + short(self.own) + b"\xff\3"
        if octets is None or not octets.startswith(front):
            raise RuntimeError(f"the call heard no data of its own, but {octets.hex() if octets else 'nothing'}")
        return octets[len(front):]

    def hear_packet(self):
        """The same, a control packet."""
        payload = self.hear()
        heard = read_packet(payload)
        if heard is None:
            raise RuntimeError(f"the call heard no control packet, but {payload.hex()}")
        return heard


def logs_in_over(checks, lab, call):
    """The subscriber of a call brings LCP to Opened, authenticates itself by CHAP, and asks for 10.0.0.50 by IPCP."""
    asked = call.hear_packet()
    checks.same("LCP asks over a call for an MRU of 1,500", (asked.protocol, asked.code, asked.data[:4]), (LCP, pppoe.CONFIGURE_REQUEST, bytes.fromhex("010405dc")))
    call.say_packet(LCP, pppoe.CONFIGURE_ACK, asked.identifier, asked.data)
    call.say_packet(LCP, pppoe.CONFIGURE_REQUEST, 1, options_octets([MAGIC]))
    checks.same("and acknowledges the subscriber's request", call.hear_packet(), Packet(LCP, pppoe.CONFIGURE_ACK, 1, options_octets([MAGIC])))
    say_response(call, call.hear_packet())
    request, _ = hear_request(lab)
    attributes = dict(request.attributes)
    port_id = f"t127.0.0.1:{call.tunnel.end.getsockname()[1]}/{call.tunnel.tunnel}/{call.session}".encode()
    checks.same("the Access-Request names the call", attributes.get(radius_packets.NAS_PORT_ID), port_id)
    checks.same("and no station that calls", attributes.get(radius_packets.CALLING_STATION_ID), None)
    address = bytes([10, 0, 0, 50])
    send_reply(lab, radius_packets.answer(request, ACCESS_ACCEPT, FRAMED, (radius_packets.FRAMED_IP_ADDRESS, address)))
    success = call.hear_packet()
    checks.same("an Accept becomes a Success over a call", (success.protocol, success.code), (CHAP, pppoe.SUCCESS))
    own = call.hear_packet()
    call.say_packet(IPCP, pppoe.CONFIGURE_ACK, own.identifier, own.data)
    wanted = options_octets([(IP_ADDRESS, address)])
    call.say_packet(IPCP, pppoe.CONFIGURE_REQUEST, 1, wanted)
    checks.same("and the address is acknowledged", call.hear_packet(), Packet(IPCP, pppoe.CONFIGURE_ACK, 1, wanted))
    return port_id
