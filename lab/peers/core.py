"""The hosts behind the core, as a script plays them over the core's socket, of which each datagram is one IPv4 packet.

They answer Echo Requests (RFC 792) and give out one file by TFTP (RFC 1350), in blocks of the size that the subscriber asks
for (RFC 2347, RFC 2348)."""

import socket

from peers.ipv4 import ICMP, UDP, Ipv4, checksum, pseudo_header, read, spell, with_sum

ECHO_REPLY, ECHO_REQUEST = 0, 8
READ, DATA, ACKNOWLEDGED, OPTIONS = 1, 3, 4, 6
TFTP, TRANSFER = 69, 6969


class Hosts:
    """All hosts behind the core. `goods` is the file that they give out, `sources` has the addresses that asked something, and
    `faults` counts what came and was no right packet."""

    def __init__(self, goods):
        self.goods = goods
        self.reader, self.block, self.sent = None, 512, 0
        self.sources = set()
        self.faults = self.echoes = self.said = 0

    def answer(self, octets):
        """The octets of the packet that answers this one, or None."""
        packet = read(octets)
        answers = {ICMP: self.echo, UDP: self.hand_out}
        if packet is None or packet.protocol not in answers:
            self.faults += 1
            return None
        self.sources.add(socket.inet_ntoa(packet.source))
        payload = answers[packet.protocol](packet)
        if payload is None:
            return None
        self.said += 1
        return spell(Ipv4(packet.destination, packet.source, packet.protocol, payload), self.said % 65536)

    def echo(self, packet):
        """The Echo Reply to an Echo Request."""
        if checksum(packet.payload) or packet.payload[:2] != bytes([ECHO_REQUEST, 0]):
            self.faults += 1
            return None
        self.echoes += 1
        return with_sum(bytes([ECHO_REPLY, 0, 0, 0]) + packet.payload[4:], 2)

    def hand_out(self, packet):
        """The datagram of TFTP that answers one, from the port TRANSFER."""
        ports, length = packet.payload[:4], len(packet.payload)
        if checksum(pseudo_header(packet.source, packet.destination, length) + packet.payload):
            self.faults += 1
            return None
        said = self.next_block((packet.source, ports[:2]), int.from_bytes(ports[2:], "big"), packet.payload[8:])
        if said is None:
            return None
        front = TRANSFER.to_bytes(2, "big") + ports[:2] + (len(said) + 8).to_bytes(2, "big") + bytes(2)
        return with_sum(front + said, 6, pseudo_header(packet.destination, packet.source, len(said) + 8))

    def next_block(self, reader, port, asked):
        """What follows on a request to read, or on the acknowledgement of the block that was sent last, if something does. What
        the reader says again, since it had to wait, gets nothing (RFC 1123 section 4.2.3.1): nothing is lost here."""
        code, number = int.from_bytes(asked[:2], "big"), int.from_bytes(asked[2:4], "big")
        if (port, code) == (TFTP, READ):
            if reader == self.reader:
                return None
            words = asked[2:].split(b"\0")
            options = dict(zip(words[2::2], words[3::2]))
            self.reader, self.block, self.sent = reader, int(options.get(b"blksize", 512)), 0
            if b"blksize" in options:
                return OPTIONS.to_bytes(2, "big") + b"blksize\0%d\0" % self.block
            number = 0
        elif (port, code) != (TRANSFER, ACKNOWLEDGED):
            self.faults += 1
            return None
        at = number * self.block
        if number != self.sent or at > len(self.goods):
            return None
        self.sent += 1
        return DATA.to_bytes(2, "big") + self.sent.to_bytes(2, "big") + self.goods[at:at + self.block]
