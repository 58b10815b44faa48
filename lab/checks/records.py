"""The records of accounting of a provisioned circuit, at a scripted server.

What is wanted is what RFC 2866 and RFC 2869 ask, and what docs/ says where they leave a choice."""

import time

from checks.sessions import is_three_seconds
from machine.gateway import Lab, report
from peers import radius_packets
from peers.ipv4 import packet
from peers.pppoe import frame
from peers.radius_packets import ACCOUNTING_REQUEST, FRAMED, is_digest, number, value
from peers.radius_server import NAS_REQUEST, START, STOP, acknowledge, hear_record


def wanted(status, opened, second, *sums):
    """The attributes of a record of the lab's circuit, by rising type."""
    return sorted([
        (radius_packets.USER_NAME, b"fixed1"), (radius_packets.NAS_IP_ADDRESS, bytes([192, 168, 1, 16])), (radius_packets.NAS_PORT, number(1025)),
        FRAMED, (radius_packets.FRAMED_PROTOCOL, number(1)), (radius_packets.FRAMED_IP_ADDRESS, bytes([10, 0, 0, 2])),
        (radius_packets.CALLING_STATION_ID, b"02:00:00:00:00:01"), (radius_packets.NAS_IDENTIFIER, b"bng1"),
        (radius_packets.ACCT_STATUS_TYPE, number(status)), (radius_packets.ACCT_SESSION_ID, b"%08x0401000000000001" % opened),
        (radius_packets.EVENT_TIMESTAMP, number(second)), (radius_packets.NAS_PORT_TYPE, number(5)),
        (radius_packets.NAS_PORT_ID, b"p1/020000000001/1025"), *sums,
    ])


def sums(seconds, octets, packets):
    """What a Stop says of a term of which so much went to the core and nothing to the subscriber."""
    return [
        (radius_packets.ACCT_INPUT_OCTETS, number(octets)), (radius_packets.ACCT_OUTPUT_OCTETS, number(0)),
        (radius_packets.ACCT_SESSION_TIME, number(seconds)),
        (radius_packets.ACCT_INPUT_PACKETS, number(packets)), (radius_packets.ACCT_OUTPUT_PACKETS, number(0)),
        (radius_packets.ACCT_TERMINATE_CAUSE, number(NAS_REQUEST)),
        (radius_packets.ACCT_INPUT_GIGAWORDS, number(0)), (radius_packets.ACCT_OUTPUT_GIGAWORDS, number(0)),
    ]


def starts(checks, lab, began):
    """The Start of the circuit, sent again until the server acknowledges it. When it was opened, by its records."""
    start, octets = hear_record(lab)
    first = time.monotonic()
    opened = value(start, radius_packets.EVENT_TIMESTAMP)
    checks.same("a circuit has a Start", (start.code, start.attributes), (ACCOUNTING_REQUEST, wanted(START, opened, opened)))
    checks.same("its second is that of the opening", began <= opened <= time.time(), True)
    checks.same("a record has a right authenticator", is_digest(octets), True)
    again = hear_record(lab)[1]
    second = time.monotonic()
    checks.same("a record that is not acknowledged comes again, octet by octet", again, octets)
    checks.same("a record comes again after 3 s", is_three_seconds(first, second), True)
    acknowledge(lab, start, end=lab.stranger)
    acknowledge(lab, start, secret=b"other")
    acknowledge(lab, start, other=1)
    checks.same("bad acknowledgements do not count", hear_record(lab)[1], octets)
    acknowledge(lab, start)
    lab.accounting.settimeout(3.5)
    checks.same("an acknowledged record comes no more", hear_record(lab), (None, None))
    return opened


def records_a_circuit(checks, command, patience):
    """A provisioned circuit has a Start at the opening and a Stop at the end, with what was sent for it."""
    with Lab(acknowledges=False) as lab:
        began = int(time.time())
        lab.start(command(lab.configuration), patience)
        opened = starts(checks, lab, began)
        lab.send(frame(packet()))
        lab.send(frame(packet("10.0.0.3")))
        lab.receive(lab.core)
        lab.stop()
        stop, octets = hear_record(lab)
        said = value(stop, radius_packets.ACCT_SESSION_TIME)
        ended = value(stop, radius_packets.EVENT_TIMESTAMP)
        want = wanted(STOP, opened, ended, *sums(said, 84, 1))
        checks.same("at the end it has a Stop with what was sent", (stop.code, stop.attributes), (ACCOUNTING_REQUEST, want))
        checks.same("its time is that since the Start", abs(ended - opened - said) <= 1, True)
        checks.same("a Stop has a right authenticator", is_digest(octets), True)
        checks.same("a Stop that is not acknowledged comes again", hear_record(lab)[1], octets)
        acknowledge(lab, stop)
        checks.same("the status is 0 once the Stop is acknowledged", lab.end()[0], 0)


def tells_a_stop_that_nobody_acknowledges(checks, command, patience):
    """At the stop a Stop is sent again for 30 s, and then the program ends with status 6 and its line."""
    with Lab(acknowledges=False) as lab:
        lab.start(command(lab.configuration), patience)
        start, _ = hear_record(lab)
        acknowledge(lab, start)
        lab.send(frame(packet()))
        lab.receive(lab.core)
        since = time.monotonic()
        lab.stop()
        status, out, err = lab.end(patience=40)
        took = time.monotonic() - since
        line = f"stop {value(start, radius_packets.EVENT_TIMESTAMP):08x}0401000000000001 p1/020000000001/1025 10.0.0.2 in=84 out=0\n"
        checks.same("a Stop that nobody acknowledges is told", (status, out, err), (6, report(84), line))
        checks.same("the program waits 30 s for it", 29 < took < 33, True)
