"""Carries datagrams between an interface of the machine and a UDP end of the gateway, until the command is told to end."""

import ctypes
import errno
import os
import signal
import socket
import sys

from machine import ends

# The longest datagram that the gateway takes; one that is longer is read cut, and not carried.
LONGEST = 4096

# What a send or a receive says where the gateway does not run, the interface is down, its queue is full, or a packet is
# longer than its MTU. The datagram is lost, as on a wire.
LOSSES = (errno.ECONNREFUSED, errno.ENETDOWN, errno.ENOBUFS, errno.EMSGSIZE, errno.EIO)

# A socket's room for what comes while the other way has its turn, and the option by which root gets it (linux/socket.h).
ROOM, RECEIVE_FORCED = 1 << 22, 33

# Of linux/prctl.h.
DEATH_OF_PARENT = 1


class Over(Exception):
    """The command is told to end."""


def udp_end(pair):
    """A socket at the other end of a pair that talks to the gateway's end alone."""
    local, peer = pair
    end = socket.socket(socket.AF_INET, socket.SOCK_DGRAM)
    end.setsockopt(socket.SOL_SOCKET, RECEIVE_FORCED, ROOM)
    try:
        end.bind(peer)
    except OSError as error:
        raise ends.Unusable(f"cannot have {peer[0]}:{peer[1]}, the other end of the gateway's: {error.strerror}") from None
    end.connect(local)
    return end


def take_from(interface, take):
    """What `take` takes from an interface. One that is down has nothing; one that is gone ends the command."""
    try:
        return take(LONGEST + 1)
    except OSError:
        if interface not in (name for _, name in socket.if_nameindex()):
            raise OSError(errno.ENODEV, os.strerror(errno.ENODEV)) from None
        raise


def carry(words, take, give, wanted):
    """Gives each datagram that is taken and wanted, until the command is told to end or the interface is gone; then says how
    many it carried. The status."""
    carried = lost = status = 0
    try:
        while True:
            try:
                octets = take()
                if len(octets) <= LONGEST and wanted(octets):
                    give(octets)
                    carried += 1
                else:
                    lost += 1
            except OSError as error:
                if error.errno not in LOSSES:
                    raise
                lost += 1
    except Over:
        pass
    except OSError as error:
        print(f"{words}: {error.strerror}", file=sys.stderr)
        status = 1
    print(f"{words}: {carried} carried, {lost} not", file=sys.stderr, flush=True)
    return status


def end_it(*_):
    raise Over


def carry_both(inwards, outwards):
    """Carries both ways, each by a process of its own; each way is the arguments of `carry`. Where one ends, so does the other. The
    status."""
    parent = os.getpid()
    for number in (signal.SIGTERM, signal.SIGINT, signal.SIGHUP):
        signal.signal(number, end_it)
    child = os.fork()
    if child == 0:
        ctypes.CDLL(None).prctl(DEATH_OF_PARENT, signal.SIGTERM)
        os._exit(carry(*outwards) if os.getppid() == parent else 1)
    signal.signal(signal.SIGCHLD, end_it)
    status = carry(*inwards)
    signal.signal(signal.SIGCHLD, signal.SIG_DFL)
    os.kill(child, signal.SIGTERM)
    return max(status, os.waitstatus_to_exitcode(os.waitpid(child, 0)[1]))
