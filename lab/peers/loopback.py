"""The loopback of this machine: sockets on it, and which ports of it are taken."""

import socket

LOOPBACK = "127.0.0.1"


def udp(address=LOOPBACK, port=0):
    """A socket of the loopback on this port, or on one that the system picks, which waits five seconds at most."""
    end = socket.socket(socket.AF_INET, socket.SOCK_DGRAM)
    end.bind((address, port))
    end.settimeout(5)
    return end


def widen(end):
    """Has a socket wait for nothing, and hold much that comes at once, as far as the system lets it."""
    try:
        end.setsockopt(socket.SOL_SOCKET, 33, 1 << 23)  # SO_RCVBUFFORCE, which Linux grants to root
    except OSError:
        end.setsockopt(socket.SOL_SOCKET, socket.SO_RCVBUF, 1 << 23)
    end.setblocking(False)


def bound_ports(process="self"):
    """The local UDP ports that are bound in the network of a process, by default here, by the system's own list."""
    with open(f"/proc/{process}/net/udp", encoding="ascii") as table:
        return {int(line.split()[1].split(":")[1], 16) for line in table.readlines()[1:]}
