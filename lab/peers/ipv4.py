"""IPv4 packets as octets (RFC 791), and the sums of what they carry (RFC 1071)."""

import socket
from typing import NamedTuple

ICMP, UDP = 1, 17


def header_sum(header):
    """The checksum of an IPv4 header whose own field is 0 (RFC 791, RFC 1071)."""
    total = sum(int.from_bytes(header[at:at + 2], "big") for at in range(0, len(header), 2))
    while total > 0xFFFF:
        total = (total & 0xFFFF) + (total >> 16)
    return total ^ 0xFFFF


def packet(source="10.0.0.2", destination="192.0.2.1", length=84, ttl=64, number=1):
    """An IPv4 packet with a right header sum (RFC 791), by default the one of the examples."""
    header = bytearray.fromhex("45000000 00000000 00010000")
    header[2:4] = length.to_bytes(2, "big")
    header[4:6] = number.to_bytes(2, "big")
    header[8] = ttl
    header += socket.inet_aton(source) + socket.inet_aton(destination)
    header[10:12] = header_sum(header).to_bytes(2, "big")
    return bytes(header) + bytes(at % 256 for at in range(length - 20))


class Ipv4(NamedTuple):
    """A packet by RFC 791, without its options."""

    source: bytes
    destination: bytes
    protocol: int
    payload: bytes


def checksum(octets):
    """The sum of ICMP and UDP, over octets whose own field is 0, and 0 over octets whose field is right (RFC 1071)."""
    return header_sum(octets + bytes(len(octets) % 2))


def read(octets):
    """The packet that fills these octets and whose header is right, or None."""
    if len(octets) < 20 or octets[0] >> 4 != 4 or int.from_bytes(octets[2:4], "big") != len(octets):
        return None
    front = (octets[0] & 15) * 4
    if front < 20 or checksum(octets[:front]):
        return None
    return Ipv4(octets[12:16], octets[16:20], octets[9], octets[front:])


def spell(packet, number):
    """The octets of a packet with this identification, which is not to be cut."""
    front = bytearray.fromhex("45000000 00004000 40000000") + packet.source + packet.destination
    front[2:4] = (len(packet.payload) + 20).to_bytes(2, "big")
    front[4:6] = number.to_bytes(2, "big")
    front[9] = packet.protocol
    front[10:12] = checksum(front).to_bytes(2, "big")
    return bytes(front) + packet.payload


def with_sum(octets, at, before=b""):
    """The octets with their sum, which stands there and is taken with those before them."""
    return octets[:at] + checksum(before + octets).to_bytes(2, "big") + octets[at + 2:]


def pseudo_header(source, destination, length):
    """What the sum of UDP is taken over beside the datagram (RFC 768)."""
    return source + destination + bytes([0, UDP]) + length.to_bytes(2, "big")
