"""L2TP messages and their AVPs as octets (RFC 2661)."""

import collections

SCCRQ, SCCRP, SCCCN, STOP_CCN, HELLO, ICRQ, ICRP, ICCN, CDN = 1, 2, 3, 4, 6, 10, 11, 12, 14
MESSAGE_TYPE, RESULT_CODE, PROTOCOL_VERSION, FRAMING, HOST_NAME, ASSIGNED_TUNNEL = 0, 1, 2, 3, 7, 9
WINDOW, CHALLENGE, RESPONSE, ASSIGNED_SESSION, SERIAL_NUMBER = 10, 11, 13, 14, 15
FRAMING_TYPE, CONNECT_SPEED = 19, 24

# What a frame of PPP carries that is an IPv4 packet, and the option of IPCP for an address (RFC 1332 section 3.3).
IPV4, IP_ADDRESS = b"\0\x21", 3

Message = collections.namedtuple("Message", "tunnel session ns nr avps")


def short(number):
    """A value of two octets."""
    return number.to_bytes(2, "big")


def avp(kind, value):
    """An AVP of the IETF that must be known (section 4.1)."""
    return short(0x8000 | 6 + len(value)) + short(0) + short(kind) + value


def text(tunnel, session, ns, nr, avps):
    """A control message (section 3.1)."""
    body = b"".join(avp(kind, value) for kind, value in avps)
    return b"\xc8\x02" + b"".join(map(short, (12 + len(body), tunnel, session, ns, nr))) + body


def read(octets, known=True):
    """A control message of the gateway, whose header is the one that RFC 2661 asks for. Where `known` is not asked for, the AVPs may be such
    as need not be known."""
    if octets[:2] != b"\xc8\x02" or int.from_bytes(octets[2:4], "big") != len(octets):
        raise RuntimeError(f"no control message: {octets.hex()}")
    tunnel, session, ns, nr = (int.from_bytes(octets[at:at + 2], "big") for at in (4, 6, 8, 10))
    avps, at = [], 12
    while at < len(octets):
        front = int.from_bytes(octets[at:at + 2], "big")
        length = front & 0x3FF
        is_known = front & 0xFC00 == 0x8000 and octets[at + 2:at + 4] == b"\0\0"
        if known and not is_known or length < 6:
            raise RuntimeError(f"no AVP that must be known: {octets[at:].hex()}")
        avps.append((int.from_bytes(octets[at + 4:at + 6], "big"), octets[at + 6:at + length]))
        at += length
    return Message(tunnel, session, ns, nr, avps)


def number_in(message):
    """The Assigned Tunnel ID of a message, or 0 where there is none."""
    value = dict(message.avps).get(ASSIGNED_TUNNEL, b"") if message else b""
    return int.from_bytes(value, "big")
