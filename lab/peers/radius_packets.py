"""RADIUS packets (RFC 2865, RFC 2866, RFC 2869, RFC 5176) as octets, and what a server computes of them."""

import hashlib
import hmac
from typing import NamedTuple

SECRET = b"xyzzy5461"

ACCESS_REQUEST, ACCESS_ACCEPT, ACCESS_REJECT, ACCESS_CHALLENGE = 1, 2, 3, 11
ACCOUNTING_REQUEST, ACCOUNTING_RESPONSE = 4, 5
DISCONNECT_REQUEST, DISCONNECT_ACK, DISCONNECT_NAK, COA_REQUEST, COA_ACK, COA_NAK = range(40, 46)

USER_NAME, USER_PASSWORD, CHAP_PASSWORD, NAS_IP_ADDRESS, NAS_PORT, SERVICE_TYPE, FRAMED_PROTOCOL, FRAMED_IP_ADDRESS = range(1, 9)
FILTER_ID, REPLY_MESSAGE, FRAMED_ROUTE, CLASS, SESSION_TIMEOUT, IDLE_TIMEOUT = 11, 18, 22, 25, 27, 28
CALLING_STATION_ID, NAS_IDENTIFIER, PROXY_STATE, ERROR_CAUSE = 31, 32, 33, 101
ACCT_STATUS_TYPE, ACCT_INPUT_OCTETS, ACCT_OUTPUT_OCTETS, ACCT_SESSION_ID = 40, 42, 43, 44
ACCT_SESSION_TIME, ACCT_INPUT_PACKETS, ACCT_OUTPUT_PACKETS, ACCT_TERMINATE_CAUSE = 46, 47, 48, 49
ACCT_INPUT_GIGAWORDS, ACCT_OUTPUT_GIGAWORDS, EVENT_TIMESTAMP, ACCT_INTERIM_INTERVAL = 52, 53, 55, 85
CHAP_CHALLENGE, NAS_PORT_TYPE, MESSAGE_AUTHENTICATOR, NAS_PORT_ID, FRAMED_POOL = 60, 61, 80, 87, 88

FRAMED = (SERVICE_TYPE, (2).to_bytes(4, "big"))
LOGIN = (SERVICE_TYPE, (1).to_bytes(4, "big"))


class Radius(NamedTuple):
    """A packet by RFC 2865 section 3."""

    code: int
    identifier: int
    authenticator: bytes
    attributes: list


def spell(packet):
    """The octets of a packet."""
    text = b"".join(bytes([kind, len(value) + 2]) + value for kind, value in packet.attributes)
    front = bytes([packet.code, packet.identifier]) + (20 + len(text)).to_bytes(2, "big")
    return front + packet.authenticator + text


def read(octets):
    """The packet that stands in these octets."""
    attributes, at = [], 20
    while at < int.from_bytes(octets[2:4], "big"):
        attributes.append((octets[at], octets[at + 2:at + octets[at + 1]]))
        at += octets[at + 1]
    return Radius(octets[0], octets[1], octets[4:20], attributes)


def with_value(packet, kind, value):
    """The packet with this value of an attribute that it has."""
    return packet._replace(attributes=[(k, value if k == kind else v) for k, v in packet.attributes])


def message_authenticator(packet, secret=SECRET):
    """What the Message-Authenticator of a packet with the request's authenticator is to be (RFC 2869 section 5.14)."""
    return hmac.new(secret, spell(with_value(packet, MESSAGE_AUTHENTICATOR, bytes(16))), hashlib.md5).digest()


def is_signed(request, secret=SECRET):
    """Whether a request has one Message-Authenticator, and it is right."""
    found = [value for kind, value in request.attributes if kind == MESSAGE_AUTHENTICATOR]
    return found == [message_authenticator(request, secret)]


def sign(reply, request, secret=SECRET):
    """The octets of a reply to a request, with its Response Authenticator (RFC 2865 section 3)."""
    reply = reply._replace(identifier=request.identifier, authenticator=request.authenticator)
    if any(kind == MESSAGE_AUTHENTICATOR for kind, _ in reply.attributes):
        reply = with_value(reply, MESSAGE_AUTHENTICATOR, message_authenticator(reply, secret))
    return spell(reply._replace(authenticator=hashlib.md5(spell(reply) + secret).digest()))


def answer(request, code, *attributes, secret=SECRET):
    """The octets of a reply of this code, with these attributes and a Message-Authenticator."""
    return sign(Radius(code, 0, bytes(16), [*attributes, (MESSAGE_AUTHENTICATOR, bytes(16))]), request, secret)


def ask(code, identifier, *attributes, secret=SECRET):
    """The octets of a request for a change, whose authenticator is made over zeros (RFC 5176 section 2.3)."""
    asked = Radius(code, identifier, bytes(16), list(attributes))
    return sign(asked, asked, secret)


def acknowledgement(request, secret=SECRET):
    """The octets of the Accounting-Response to a request (RFC 2866 section 4.2)."""
    return sign(Radius(ACCOUNTING_RESPONSE, 0, bytes(16), []), request, secret)


def password(request, secret=SECRET):
    """The User-Password that a request hides, without what pads it (RFC 2865 section 5.2)."""
    hidden, shown, block = dict(request.attributes)[USER_PASSWORD], b"", request.authenticator
    for at in range(0, len(hidden), 16):
        mask = hashlib.md5(secret + block).digest()
        block = hidden[at:at + 16]
        shown += bytes(a ^ b for a, b in zip(block, mask))
    return shown.rstrip(b"\0")


def chap_value(identifier, shared, challenge):
    """The value of a Response (RFC 1994 section 4.1)."""
    return hashlib.md5(bytes([identifier]) + shared + challenge).digest()


def proves(request, shared):
    """Whether a request shows that its user has this password, by PAP or by CHAP."""
    attributes = dict(request.attributes)
    if USER_PASSWORD in attributes:
        return password(request) == shared
    response = attributes[CHAP_PASSWORD]
    return response[1:] == chap_value(response[0], shared, attributes[CHAP_CHALLENGE])


def number(value):
    """A value of four octets (RFC 2865 section 5)."""
    return value.to_bytes(4, "big")


def is_digest(octets, secret=SECRET):
    """Whether the Request Authenticator of an Accounting-Request is right (RFC 2866 section 3)."""
    return octets[4:20] == hashlib.md5(octets[:4] + bytes(16) + octets[20:] + secret).digest()


def value(request, kind):
    """The number that an attribute says."""
    return int.from_bytes(dict(request.attributes)[kind], "big")
