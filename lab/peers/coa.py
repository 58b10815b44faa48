"""A scripted client that asks for changes of sessions by CoA- and Disconnect-Requests (RFC 5176)."""

import socket

from peers import radius_packets
from peers.loopback import LOOPBACK, udp
from peers.radius_packets import Radius

SECRET = b"change-secret"

SIGNED = (radius_packets.MESSAGE_AUTHENTICATOR, bytes(16))


class Client:
    """A client on the loopback that asks for changes, each time with the next identifier. `asked` has the octets of the last request."""

    def __init__(self, lab, address=LOOPBACK):
        self.lab, self.end, self.identifier, self.asked = lab, udp(address), 0, b""

    def __enter__(self):
        return self

    def __exit__(self, *_):
        self.end.close()

    def ask(self, code, *attributes, secret=SECRET):
        self.identifier += 1
        self.asked = radius_packets.ask(code, self.identifier, *attributes, secret=secret)
        self.repeat()

    def repeat(self):
        """Sends the last request, octet by octet the same."""
        self.lab.send(self.asked, self.end, "coa")

    def hears(self, checks, what, code, *attributes):
        """Compares the next reply with the one of this code to the last request."""
        octets, sender = self.lab.receive(self.end)
        if octets is not None and sender != self.lab.ports["coa"]:
            raise RuntimeError("a reply came from another socket than that of Coa")
        want = radius_packets.sign(Radius(code, 0, b"", list(attributes)), radius_packets.read(self.asked), SECRET)
        checks.same(what, octets and radius_packets.read(octets), radius_packets.read(want))


def identity(record):
    """The attribute by which a record names its term."""
    return radius_packets.ACCT_SESSION_ID, dict(record.attributes)[radius_packets.ACCT_SESSION_ID]


def framed(address):
    return radius_packets.FRAMED_IP_ADDRESS, socket.inet_aton(address)
