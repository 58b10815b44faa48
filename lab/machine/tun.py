"""Joins a TUN interface to the gateway's core: the kernel routes the pools' addresses to the interface, and what subscribers send
comes out of it. The interface and its routes are gone when the command ends.

Its MTU is the longest MRU that a PPPoE subscriber has, so that the kernel cuts a longer packet or tells its sender (RFC 1191): the
gateway drops it without a word. Of what the kernel sends there IPv4 alone is carried; socat's TUN hands on IPv6 too."""

import argparse
import fcntl
import functools
import os
import shutil
import struct
import subprocess
import sys

from machine import ends, relay

NAME = "bng0"
MTU = 1492

# Of linux/if_tun.h: an interface of packets without anything before them.
SET_INTERFACE, TUN, NO_INFORMATION = 0x400454CA, 1, 0x1000


def open_tun(name):
    """A new interface of this name, and the file whose reads and writes are its packets."""
    try:
        file = os.open("/dev/net/tun", os.O_RDWR)
    except FileNotFoundError:
        raise ends.Unusable("there is no /dev/net/tun") from None
    try:
        fcntl.ioctl(file, SET_INTERFACE, struct.pack("16sH22x", name.encode(), TUN | NO_INFORMATION))
    except PermissionError:
        raise
    except OSError as error:
        raise ends.Unusable(f"cannot make the interface {name}: {error.strerror}") from None
    return file


def ip(*words):
    """Runs iproute2's `ip`."""
    done = subprocess.run(["ip", *words], capture_output=True, text=True, check=False)
    if done.returncode != 0:
        raise ends.Unusable(f"ip {' '.join(words)}: {done.stderr.strip()}")


def main():
    parser = argparse.ArgumentParser(prog="lab/tun", description="Joins a TUN interface to the core, until it is interrupted.")
    parser.add_argument("config")
    parser.add_argument("name", nargs="?", default=NAME, help=f"the interface's name (default {NAME})")
    asked = parser.parse_args()
    name, tables = asked.name, ends.read(asked.config)
    if shutil.which("ip") is None:
        raise ends.Unusable("wants Debian's iproute2")
    far = relay.udp_end(ends.pair(tables.get("core", {})))
    file = open_tun(name)
    ip("link", "set", name, "mtu", str(MTU), "up")
    networks = ends.pools(tables)
    for network in networks:
        ip("route", "add", str(network), "dev", name)
    print(f"tun: {name} (MTU {MTU:,}) is the core, with {len(networks)} routes to the pools", file=sys.stderr, flush=True)
    is_ipv4 = lambda packet: packet[:1] and packet[0] >> 4 == 4
    return relay.carry_both(
        (f"tun: from {name}", functools.partial(relay.take_from, name, functools.partial(os.read, file)), far.send, is_ipv4),
        (f"tun: to {name}", functools.partial(far.recv, relay.LONGEST + 1), functools.partial(os.write, file), is_ipv4),
    )


if __name__ == "__main__":
    sys.exit(ends.run("tun", main))
