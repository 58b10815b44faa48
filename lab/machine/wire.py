"""Joins an Ethernet interface to an access port: PPPoE frames of the interface go to the port's UDP end, and the port's to the wire.

Of the frames that come in it carries those of PPPoE's two EtherTypes, without a VLAN tag, to the port's MAC or to all. A filter in
the kernel says which these are, so that the others cost nothing. socat's INTERFACE over UDP does not do: it hands on all that comes
on the interface, what the machine itself sends there too, and a tagged frame without its tag, as if it had none."""

import argparse
import ctypes
import fcntl
import functools
import socket
import struct
import sys

from machine import ends, relay

# PPPoE's EtherTypes (RFC 2516 section 4), as a frame has them behind two MACs.
DISCOVERY, SESSION = 0x8863, 0x8864
PPPOE = {kind.to_bytes(2, "big") for kind in (DISCOVERY, SESSION)}

# An MTU of 1,500 carries an MRU of 1,492 (RFC 2516 section 7), and one of 1,508 an MRU of 1,500 (RFC 4638).
LEAST_MTU, MOST_MTU = 1500, 1508

# Of linux/filter.h: load a word or a half, compare, answer; and where a filter finds what stands beside the octets.
LOAD_WORD, LOAD_HALF, EQUAL, ANSWER = 0x20, 0x28, 0x15, 0x06
PACKET_TYPE, TAG_PRESENT = 0xFFFFF000 + 4, 0xFFFFF000 + 48
WHOLE, OUTGOING = 0xFFFF, 4

# Of linux/if_ether.h, linux/socket.h, linux/if_packet.h and linux/sockios.h.
ALL_ETHERTYPES, ATTACH_FILTER, PACKET_LEVEL = 3, 26, 263
ADD_MEMBERSHIP, STATISTICS, PROMISCUOUS, GET_MTU = 1, 6, 1, 0x8921


def filter_of(mac):
    """The classic BPF program that keeps a frame that came from the wire, has no VLAN tag and one of PPPoE's EtherTypes, and is for
    this MAC or for all. A row is an instruction, how many rows a comparison skips where it holds and where not, and its operand."""
    high, low = int.from_bytes(mac[:4], "big"), int.from_bytes(mac[4:], "big")
    rows = [
        (LOAD_WORD, 0, 0, TAG_PRESENT), (EQUAL, 0, 13, 0),
        (LOAD_WORD, 0, 0, PACKET_TYPE), (EQUAL, 11, 0, OUTGOING),
        (LOAD_HALF, 0, 0, 12), (EQUAL, 1, 0, DISCOVERY), (EQUAL, 0, 8, SESSION),
        (LOAD_WORD, 0, 0, 0), (EQUAL, 3, 0, 0xFFFFFFFF), (EQUAL, 0, 5, high),
        (LOAD_HALF, 0, 0, 4), (EQUAL, 2, 3, low),
        (LOAD_HALF, 0, 0, 4), (EQUAL, 0, 1, 0xFFFF),
        (ANSWER, 0, 0, WHOLE),
        (ANSWER, 0, 0, 0),
    ]
    return b"".join(struct.pack("=HBBI", *row) for row in rows), len(rows)


def ethernet_end(interface, mac):
    """A raw socket that takes PPPoE's frames to this MAC from the interface, which may have another MAC itself."""
    end = socket.socket(socket.AF_PACKET, socket.SOCK_RAW, 0)
    end.setsockopt(socket.SOL_SOCKET, relay.RECEIVE_FORCED, relay.ROOM)
    octets, count = filter_of(mac)
    program = ctypes.create_string_buffer(octets, len(octets))
    end.setsockopt(socket.SOL_SOCKET, ATTACH_FILTER, struct.pack("HP", count, ctypes.addressof(program)))
    try:
        end.bind((interface, ALL_ETHERTYPES))
        member = struct.pack("IHH8x", socket.if_nametoindex(interface), PROMISCUOUS, 0)
    except OSError as error:
        raise ends.Unusable(f"cannot use the interface {interface}: {error.strerror}") from None
    end.setsockopt(PACKET_LEVEL, ADD_MEMBERSHIP, member)
    return end


def mtu_of(interface):
    with socket.socket(socket.AF_INET, socket.SOCK_DGRAM) as end:
        return struct.unpack("16xI20x", fcntl.ioctl(end, GET_MTU, struct.pack("16s24x", interface.encode())))[0]


def mtu_words(mtu):
    """What an operator is told of the interface's MTU."""
    if mtu < LEAST_MTU:
        return f"MTU {mtu:,}, below {LEAST_MTU:,}: a whole packet of {LEAST_MTU - 8:,} octets does not pass"
    if mtu > MOST_MTU:
        return f"MTU {mtu:,}, above {MOST_MTU:,}: PPPoE has no use for it, and the gateway drops what is longer"
    return f"MTU {mtu:,}"


def main():
    parser = argparse.ArgumentParser(prog="lab/wire", description="Joins an Ethernet interface to an access port, until it is interrupted.")
    parser.add_argument("interface")
    parser.add_argument("config")
    parser.add_argument("port", type=int, help="the number of the access port; the first is 1")
    asked = parser.parse_args()
    interface, table = asked.interface, ends.access(ends.read(asked.config), asked.port)
    far = relay.udp_end(ends.pair(table))
    wire = ethernet_end(interface, bytes.fromhex(table["mac"].replace(":", "")))
    words = f"wire: {interface} ({mtu_words(mtu_of(interface))}) is access port {asked.port}, MAC {table['mac']}"
    print(words, file=sys.stderr, flush=True)
    is_pppoe = lambda frame: frame[12:14] in PPPOE
    status = relay.carry_both(
        (f"wire: from {interface}", functools.partial(relay.take_from, interface, wire.recv), far.send, is_pppoe),
        (f"wire: to {interface}", functools.partial(far.recv, relay.LONGEST + 1), wire.send, is_pppoe),
    )
    missed = struct.unpack("II", wire.getsockopt(PACKET_LEVEL, STATISTICS, 8))[1]
    if missed:
        print(f"wire: {missed} frames came faster than they were carried", file=sys.stderr)
    return status


if __name__ == "__main__":
    sys.exit(ends.run("wire", main))
