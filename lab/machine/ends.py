"""What a configuration says of the gateway's ends, as commands beside the gateway need it. `./bng check` says whether it is right."""

import ipaddress
import sys
import tomllib


class Unusable(Exception):
    """A configuration, an interface or an end that a command cannot work with, in a line for the operator."""


def read(path):
    """The tables of a configuration."""
    try:
        with open(path, "rb") as file:
            return tomllib.load(file)
    except (OSError, tomllib.TOMLDecodeError, UnicodeDecodeError) as error:
        raise Unusable(f"cannot read the configuration: {error}") from None


def end(text):
    """An end of the configuration, `ADDRESS:PORT`, as the socket calls take it."""
    address, _, port = text.rpartition(":")
    return address, int(port)


def pair(table):
    """The gateway's end of a table, and the other one."""
    try:
        return end(table["local"]), end(table["peer"])
    except (KeyError, TypeError, ValueError):
        raise Unusable("the configuration has no `local` and `peer` where they are needed; ./bng check says more") from None


def access(tables, number):
    """The table of the access port with this number; the first is port 1."""
    ports = tables.get("access", [])
    if not 1 <= number <= len(ports):
        raise Unusable(f"there is no access port {number}: the configuration has {len(ports)}")
    return ports[number - 1]


def control(tables):
    """Where Control takes a word of this machine: it heeds 127.0.0.0/8 alone."""
    text = tables.get("control", {}).get("local")
    if text is None:
        raise Unusable("the configuration does not say where Control listens: it has no control.local")
    address, port = end(text)
    if address == "0.0.0.0":
        return "127.0.0.1", port
    if not ipaddress.ip_address(address).is_loopback:
        raise Unusable(f"Control listens at {text}, where it takes no word from this machine")
    return address, port


def pools(tables):
    """The addresses of all pools as networks, the fewest that hold them and nothing else."""
    ranges = [(ipaddress.ip_address(pool["first"]), ipaddress.ip_address(pool["last"])) for pool in tables.get("pool", [])]
    return [network for first, last in ranges for network in ipaddress.summarize_address_range(first, last)]


def run(command, main):
    """Runs the `main` of a command and gives its status; what it cannot work with is told in a line."""
    try:
        return main()
    except Unusable as error:
        print(f"{command}: {error}", file=sys.stderr)
    except PermissionError as error:
        print(f"{command}: wants root (CAP_NET_ADMIN and CAP_NET_RAW): {error.strerror}", file=sys.stderr)
    return 1
