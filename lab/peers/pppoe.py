"""PPPoE frames (RFC 2516), PPP's control packets (RFC 1661) and their options as octets, and in words."""

from typing import NamedTuple

DISCOVERY, SESSION = 0x8863, 0x8864
BROADCAST = bytes.fromhex("ffffffffffff")

DATA, PADO, PADI, PADR, PADS, PADT = 0x00, 0x07, 0x09, 0x19, 0x65, 0xA7
FRAMES = {PADO: "PADO", PADI: "PADI", PADR: "PADR", PADS: "PADS", PADT: "PADT"}

SERVICE_NAME, AC_NAME, HOST_UNIQ, AC_COOKIE, SERVICE_NAME_ERROR = 0x0101, 0x0102, 0x0103, 0x0104, 0x0201
TAGS = {
    0x0000: "End-Of-List",
    SERVICE_NAME: "Service-Name",
    AC_NAME: "AC-Name",
    HOST_UNIQ: "Host-Uniq",
    AC_COOKIE: "AC-Cookie",
    0x0105: "Vendor-Specific",
    0x0110: "Relay-Session-Id",
    SERVICE_NAME_ERROR: "Service-Name-Error",
    0x0202: "AC-System-Error",
    0x0203: "Generic-Error",
}
TEXTS = {SERVICE_NAME, AC_NAME}

IPV4, LCP, IPV6CP, PAP, CHAP, IPCP = 0x0021, 0xC021, 0x8057, 0xC023, 0xC223, 0x8021
PROTOCOLS = {IPV4: "IPv4", LCP: "LCP", PAP: "PAP", CHAP: "CHAP", IPCP: "IPCP", IPV6CP: "IPV6CP", 0x80FD: "CCP"}

CONFIGURE_REQUEST, CONFIGURE_ACK, CONFIGURE_NAK, CONFIGURE_REJECT = 1, 2, 3, 4
TERMINATE_REQUEST, TERMINATE_ACK, CODE_REJECT, PROTOCOL_REJECT, ECHO_REQUEST, ECHO_REPLY = 5, 6, 7, 8, 9, 10
CODES = {
    CONFIGURE_REQUEST: "Configure-Request",
    CONFIGURE_ACK: "Configure-Ack",
    CONFIGURE_NAK: "Configure-Nak",
    CONFIGURE_REJECT: "Configure-Reject",
    TERMINATE_REQUEST: "Terminate-Request",
    TERMINATE_ACK: "Terminate-Ack",
    CODE_REJECT: "Code-Reject",
    PROTOCOL_REJECT: "Protocol-Reject",
    ECHO_REQUEST: "Echo-Request",
    ECHO_REPLY: "Echo-Reply",
    11: "Discard-Request",
}

# PAP (RFC 1334 section 2.2) and CHAP (RFC 1994 section 4).
AUTHENTICATE_REQUEST, AUTHENTICATE_ACK, AUTHENTICATE_NAK = 1, 2, 3
CHALLENGE, RESPONSE, SUCCESS, FAILURE = 1, 2, 3, 4
CHAP_CODES = {CHALLENGE: "Challenge", RESPONSE: "Response", SUCCESS: "Success", FAILURE: "Failure"}

MRU, AUTHENTICATION, MAGIC, PROTOCOL_COMPRESSION, ADDRESS_COMPRESSION = 1, 3, 5, 7, 8
OPTIONS = {
    MRU: "MRU",
    2: "ACCM",
    AUTHENTICATION: "Authentication-Protocol",
    MAGIC: "Magic-Number",
    PROTOCOL_COMPRESSION: "Protocol-Field-Compression",
    ADDRESS_COMPRESSION: "Address-and-Control-Field-Compression",
}

# Of IPCP (RFC 1332 section 3, RFC 1877 section 1).
IPCP_OPTIONS = {2: "IP-Compression-Protocol", 3: "IP-Address", 129: "Primary-DNS", 131: "Secondary-DNS"}


class Frame(NamedTuple):
    """A PPPoE frame without its padding."""

    destination: bytes
    source: bytes
    ethertype: int
    code: int
    session: int
    payload: bytes


class Packet(NamedTuple):
    """A control packet of a PPP protocol without its padding."""

    protocol: int
    code: int
    identifier: int
    data: bytes


def two(number):
    return number.to_bytes(2, "big")


def number_at(octets, at):
    return int.from_bytes(octets[at:at + 2], "big")


def frame_octets(frame):
    ends = frame.destination + frame.source + two(frame.ethertype)
    return ends + bytes([0x11, frame.code]) + two(frame.session) + two(len(frame.payload)) + frame.payload


def read_frame(octets):
    """The PPPoE frame that stands in these octets, or None."""
    length = number_at(octets, 18)
    if len(octets) < 20 + length or number_at(octets, 12) not in (DISCOVERY, SESSION) or octets[14] != 0x11:
        return None
    return Frame(octets[:6], octets[6:12], number_at(octets, 12), octets[15], number_at(octets, 16), octets[20:20 + length])


def tags_octets(tags):
    return b"".join(two(kind) + two(len(value)) + value for kind, value in tags)


def read_tags(payload):
    """The tags of a discovery frame, each with its value."""
    tags, at = [], 0
    while at < len(payload):
        end = at + 4 + number_at(payload, at + 2)
        tags.append((number_at(payload, at), payload[at + 4:end]))
        at = end
    return tags


def packet_octets(packet):
    front = two(packet.protocol) + bytes([packet.code, packet.identifier])
    return front + two(len(packet.data) + 4) + packet.data


def read_packet(payload):
    """The control packet in a session's payload, or None."""
    length = number_at(payload, 4)
    if length < 4 or len(payload) < 2 + length:
        return None
    return Packet(number_at(payload, 0), payload[2], payload[3], payload[6:2 + length])


def options_octets(options):
    return b"".join(bytes([kind, len(value) + 2]) + value for kind, value in options)


def read_options(data):
    """The options of a Configure packet, each with its value, as far as they can be read."""
    options, at = [], 0
    while at + 1 < len(data) and data[at + 1] >= 2:
        options.append((data[at], data[at + 2:at + data[at + 1]]))
        at += data[at + 1]
    return options


def tag_words(kind, value):
    shown = repr(value.decode("ascii", "replace")) if kind in TEXTS else value.hex()
    return f"{TAGS.get(kind, f'tag {kind:04x}')} {shown}".rstrip()


def option_words(protocol, kind, value):
    name = (IPCP_OPTIONS if protocol == IPCP else OPTIONS).get(kind, f"option {kind}")
    if protocol == IPCP and len(value) == 4:
        return f"{name} {'.'.join(map(str, value))}"
    shown = str(number_at(value, 0)) if (protocol, kind) == (LCP, MRU) else value.hex()
    return f"{name} {shown}".rstrip()


def packet_words(payload):
    """A session's payload: the protocol, and of a control packet what it says."""
    name = PROTOCOLS.get(number_at(payload, 0), f"PPP protocol {payload[:2].hex()}")
    packet = read_packet(payload)
    if packet is None or packet.protocol not in (LCP, CHAP, IPCP):
        return f"{name}, {len(payload) - 2} octets"
    codes = CHAP_CODES if packet.protocol == CHAP else CODES
    front = f"{name} {codes.get(packet.code, f'code {packet.code}')} {packet.identifier}"
    if packet.protocol == CHAP:
        return front
    if CONFIGURE_REQUEST <= packet.code <= CONFIGURE_REJECT:
        said = [option_words(packet.protocol, *option) for option in read_options(packet.data)]
    else:
        said = [packet.data.hex()] if packet.data else []
    return front + (": " + ", ".join(said) if said else "")


def frame_words(frame):
    """A frame in one line."""
    if frame.ethertype == SESSION:
        return f"session {frame.session}: {packet_words(frame.payload)}"
    front = FRAMES.get(frame.code, f"discovery code {frame.code:02x}")
    session = f" session {frame.session}" if frame.session else ""
    said = ", ".join(tag_words(*tag) for tag in read_tags(frame.payload))
    return front + session + (": " + said if said else "")


def frame(payload, port="0200000000fe", subscriber="020000000001", session=1025, length=None):
    """An Ethernet frame of a PPPoE session with an IPv4 packet (RFC 2516, RFC 1661)."""
    length = len(payload) + 2 if length is None else length
    front = bytes.fromhex(port + subscriber + "88641100")
    return front + session.to_bytes(2, "big") + length.to_bytes(2, "big") + b"\x00\x21" + payload


def delivery(payload):
    """The frame in which the gateway hands an IPv4 packet to the subscriber."""
    return frame(payload, port="020000000001", subscriber="0200000000fe")
