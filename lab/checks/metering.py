"""Metered subscribers: a provisioned circuit, and hosts whose Access-Accept names a profile by its Filter-Id.

What is wanted is what RFC 2697 and RFC 2865 ask, and what docs/ says where they leave a choice."""

import time

from checks.leases import refuses
from machine.gateway import Lab
from peers import radius_packets
from peers.ipv4 import packet
from peers.login import log_in, open_ipcp, pap
from peers.pppoe import AUTHENTICATE_ACK, frame
from peers.radius_server import next_record
from peers.subscriber import Line

# Each burst takes one packet of 84 octets, for which it fills four seconds; what the first cannot take goes into the second.
PROFILES = """\
[[profile]]
name = "plain"
[[profile]]
name = "slow"
up_cir = 21
up_cbs = 84
up_ebs = 84
[[static]]
port = 1
mac = "02:00:00:00:00:03"
session = 1026
address = "10.0.0.3"
user = "fixed2"
profile = "slow"
"""


def sends(lab, count, address, **session):
    """A subscriber sends so many packets of 84 octets at once: how many the core gets."""
    for _ in range(count):
        lab.send(frame(packet(address), **session))
    lab.core.settimeout(0.5)
    came = 0
    while lab.receive(lab.core)[0] is not None:
        came += 1
    lab.core.settimeout(5)
    return came


def meters_profiles(checks, command, patience):
    with Lab(acknowledges=False, tables=PROFILES) as lab:
        lab.start(command(lab.configuration), patience)
        for _ in range(2):
            next_record(lab)
        slow = {"subscriber": "020000000003", "session": 1026}
        checks.same("of four packets a full meter lets a green and a yellow one pass", sends(lab, 4, "10.0.0.3", **slow), 2)
        checks.same("the circuit beside it is not metered", sends(lab, 4, "10.0.0.2"), 4)
        time.sleep(3.5)
        checks.same("four seconds later one more passes", sends(lab, 2, "10.0.0.3", **slow), 1)
        line = Line(lab)
        refuses(checks, lab, line, "020000000004", b"no profile", (radius_packets.FILTER_ID, b"slo"))
        host = log_in(lab, line, "020000000005", (radius_packets.FILTER_ID, b"slow"))
        checks.same("an Accept that names a profile is taken", host.hear_packet(), pap(AUTHENTICATE_ACK, 1))
        next_record(lab)
        open_ipcp(checks, host, "10.0.0.4")
        session = {"subscriber": host.mac.hex(), "session": host.session}
        checks.same("its meter is its own, and full", sends(lab, 3, "10.0.0.4", **session), 2)
        checks.same("stop is answered with metered terms", lab.stop(), b"stopping\n")
        for _ in range(3):
            next_record(lab)
        status, out, _ = lab.end()
        said = [words for words in out.splitlines() if words.startswith(("profile ", "drop Exceeded "))]
        checks.same("the books are by profile", (status, said), (0, ["profile plain in=336 out=0", "profile slow in=420 out=0", "drop Exceeded 4"]))
