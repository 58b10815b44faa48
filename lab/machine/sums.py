"""Asks a gateway for its sums by the word `stats`, and reads the answer."""

import socket
from typing import NamedTuple

PATIENCE = 2

# Each line has a count of octets for each direction: from the subscribers to the core, and towards them.
DIRECTIONS = ("in", "out")


class Sums(NamedTuple):
    """The answer's lines: octets by what they are of (`stopped`, `live`, `total`, `worker 0`, `profile basic`), of each direction; and
    the datagrams that were dropped, by cause."""

    octets: dict
    drops: dict


def read(text):
    """The sums in an answer. A line of another kind is passed over, and so is a field."""
    octets, drops = {}, {}
    for line in text.splitlines():
        words = line.split()
        if len(words) == 3 and words[0] == "drop":
            drops[words[1]] = int(words[2])
            continue
        fields = dict(word.split("=", 1) for word in words if "=" in word)
        if set(DIRECTIONS) <= set(fields):
            name = " ".join(word for word in words if "=" not in word)
            octets[name] = {direction: int(fields[direction]) for direction in DIRECTIONS}
    if "total" not in octets:
        raise ValueError("an answer without a total")
    return Sums(octets, drops)


def ask(control):
    """The sums of the gateway whose Control is there, or None where it gives none in two seconds. One that ends its sessions answers
    nothing."""
    with socket.socket(socket.AF_INET, socket.SOCK_DGRAM) as end:
        end.settimeout(PATIENCE)
        end.connect(control)
        try:
            end.send(b"stats")
            return read(end.recv(65535).decode("ascii"))
        except (OSError, ValueError):
            return None
