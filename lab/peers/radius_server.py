"""A scripted RADIUS server, for authentication and for accounting: what it hears of the gateway, and what it answers."""

from peers import radius_packets
from peers.loopback import LOOPBACK
from peers.radius_packets import SECRET

START, STOP, INTERIM, NAS_REQUEST = 1, 2, 3, 10


def hear_record(lab):
    """The next Accounting-Request, with its octets, or None where none comes."""
    octets, sender = lab.receive(lab.accounting)
    if octets is None:
        return None, None
    if sender != lab.ports["acct"]:
        raise RuntimeError("a record came from another socket than that of Acct")
    return radius_packets.read(octets), octets


def acknowledge(lab, request, end=None, secret=SECRET, other=0):
    """Answers a record, or another identifier where `other` says so (RFC 2866 section 4.2)."""
    octets = radius_packets.acknowledgement(request._replace(identifier=request.identifier ^ other), secret)
    (end or lab.accounting).sendto(octets, (LOOPBACK, lab.ports["acct"]))


def next_record(lab):
    """The next record, which is acknowledged."""
    record, _ = hear_record(lab)
    acknowledge(lab, record)
    return record


def hear_request(lab):
    """The next Access-Request, with its octets, or None where none comes."""
    octets, sender = lab.receive(lab.radius)
    if octets is None:
        return None, None
    if sender != lab.ports["auth"]:
        raise RuntimeError("a request came from another socket than that of Auth")
    return radius_packets.read(octets), octets


def send_reply(lab, octets, end=None):
    (end or lab.radius).sendto(octets, (LOOPBACK, lab.ports["auth"]))
