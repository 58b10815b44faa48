"""L2TP tunnels of scripted access concentrators that are set up, kept and ended, and a call over one.

What is wanted is what RFC 2661 asks, and what docs/ says where it leaves a choice."""

import os
import time

from machine.gateway import Lab, report
from peers import radius_packets
from peers.ipv4 import packet
from peers.l2tp import ASSIGNED_SESSION, ASSIGNED_TUNNEL, CDN, CHALLENGE, HELLO, IPV4, MESSAGE_TYPE, RESPONSE, RESULT_CODE, SCCCN, SCCRP
from peers.l2tp import STOP_CCN, Message, number_in, short, text
from peers.lac import SHARING, Call, Concentrator, answer_to, logs_in_over


def challenges(checks, sharing):
    """A concentrator that shares a secret asks for an answer, and is asked."""
    asked = os.urandom(16)
    sharing.ask((CHALLENGE, asked))
    got = sharing.hear()
    sharing.tunnel = number_in(got)
    avps = dict(got.avps) if got else {}
    checks.same("the gateway answers a Challenge", avps.get(RESPONSE), answer_to(SCCRP, asked))
    checks.same("and has one of its own", len(avps.get(CHALLENGE, b"")), 16)
    sharing.say(SCCCN, (RESPONSE, answer_to(SCCCN, avps.get(CHALLENGE, b""))))
    checks.same("a right answer sets the tunnel up", sharing.hear(), sharing.zlb(1))


def is_refused(checks, lab):
    """A concentrator that answers with another secret, and one that is not configured."""
    with Concentrator(lab, 9, SHARING) as false:
        false.ask()
        avps = dict(false.hear().avps)
        false.tunnel = int.from_bytes(avps[ASSIGNED_TUNNEL], "big")
        false.say(SCCCN, (RESPONSE, answer_to(SCCCN, avps[CHALLENGE], b"other")))
        want = false.told(STOP_CCN, 1, (ASSIGNED_TUNNEL, short(false.tunnel)), (RESULT_CODE, short(4)))
        checks.same("a wrong answer ends the tunnel", false.hear(), want)
    with Concentrator(lab, 9, "127.0.0.6") as nobody:
        nobody.ask()
        want = Message(9, 0, 0, 1, [(MESSAGE_TYPE, short(STOP_CCN)), (ASSIGNED_TUNNEL, short(0)), (RESULT_CODE, short(4))])
        checks.same("an address that is not configured gets no tunnel", nobody.hear(), want)


def serves_tunnels(checks, command, patience):
    """Two concentrators set tunnels up, one of them without a secret. A message comes again, a call is asked for, and each is told of the stop."""
    with Lab(tunnels=True) as lab, Concentrator(lab, 5) as plain, Concentrator(lab, 5, SHARING) as sharing:
        lab.start(command(lab.configuration), patience)
        plain.set_up(checks, "a concentrator without a secret")
        challenges(checks, sharing)
        checks.same("both have tunnels of their own", plain.tunnel != sharing.tunnel or plain.tunnel == 0, True)
        is_refused(checks, lab)
        plain.say(HELLO)
        checks.same("a ZLB answers a HELLO", plain.hear(), plain.zlb(1))
        lab.send(text(plain.tunnel, 0, plain.ns - 1, plain.nr, [(MESSAGE_TYPE, short(HELLO))]), plain.end, "tunnel")
        checks.same("and answers it again", plain.hear(), plain.zlb(1))
        Call(plain, 7).ask(checks, "a call", 1)
        plain.acknowledge()
        # The number is that of another's tunnel, and the second datagram is no message.
        lab.send(text(plain.tunnel, 0, 9, 0, [(MESSAGE_TYPE, short(HELLO))]), sharing.end, "tunnel")
        lab.send(b"\xc8\x02", sharing.end, "tunnel")
        checks.same("stop is answered beside tunnels", lab.stop(), b"stopping\n")
        plain.is_told_of_the_stop(checks, "the one without a secret", 2)
        sharing.is_told_of_the_stop(checks, "the one with a secret")
        status, out, _ = lab.end()
        checks.same("what led to no tunnel is counted", (status, out), (0, report(Malformed=1, NoSession=1)))


def serves_a_call(checks, command, patience):
    """A subscriber logs in over a call, packets go both ways, data of another end leads nowhere, and a CDN ends it all."""
    with Lab(tunnels=True) as lab, Concentrator(lab, 5) as plain, Concentrator(lab, 5, SHARING) as other:
        lab.start(command(lab.configuration), patience)
        plain.set_up(checks, "a concentrator with a call")
        call = Call(plain, 7)
        call.ask(checks, "a subscriber", 1)
        call.connect(checks, "a subscriber", 2)
        port_id = logs_in_over(checks, lab, call)
        said, lowered = packet("10.0.0.50"), packet("10.0.0.50", ttl=63)
        # Plain; with Ns and Nr; with two octets of padding; with priority (section 3.1).
        for flags, fields in ((0, b""), (0x0800, short(1) + short(0)), (0x0200, short(2) + b"\xee\xee"), (0x0100, b"")):
            call.say(IPV4 + said, flags, fields)
            checks.same(f"a packet goes to the core from data with the flags {flags:04x}", lab.receive(lab.core)[0], lowered)
        lab.send(packet("192.0.2.1", "10.0.0.50"), lab.core, "core")
        checks.same("a packet of the core goes over the call", call.hear(), IPV4 + packet("192.0.2.1", "10.0.0.50", ttl=63))
        lab.send(b"\0\2" + short(plain.tunnel) + short(call.session) + b"\xff\3" + IPV4 + said, other.end, "tunnel")
        plain.say(CDN, (RESULT_CODE, short(1)), (ASSIGNED_SESSION, short(7)), session=call.session)
        checks.same("a ZLB answers a CDN, and no CDN", plain.hear(), plain.zlb(2))
        checks.same("stop is answered after a call", lab.stop(), b"stopping\n")
        plain.is_told_of_the_stop(checks, "the one whose call ended", 2)
        status, out, _ = lab.end()
        checks.same("a run with a call ends well", (status, "drop NoSession 1\n" in out), (0, True))
        stops = [dict(record.attributes) for record in lab.records]
        causes = [stop.get(radius_packets.ACCT_TERMINATE_CAUSE) for stop in stops if stop.get(radius_packets.NAS_PORT_ID) == port_id]
        checks.same("the call has a Start, and a Stop with the cause Lost Carrier", causes, [None, bytes([0, 0, 0, 2])])


def keeps_a_silent_tunnel(checks, command, patience):
    """After a minute without a message the gateway says HELLO, and once it was acknowledged it says it no more."""
    with Lab(tunnels=True) as lab, Concentrator(lab, 5) as plain:
        lab.start(command(lab.configuration), patience)
        plain.set_up(checks, "a concentrator that falls silent")
        since = time.monotonic()
        plain.end.settimeout(63)
        checks.same("a HELLO comes in a silence", plain.hear(), plain.told(HELLO, 1))
        checks.same("after a minute of it", 59 < time.monotonic() - since < 62, True)
        plain.acknowledge()
        plain.end.settimeout(5)
        checks.same("and not again once it was acknowledged", plain.hear(), None)
        lab.stop()
        plain.is_told_of_the_stop(checks, "the silent one", 2)
        checks.same("a run with a silent tunnel ends well", lab.end()[0], 0)
