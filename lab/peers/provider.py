"""The records of accounting as a provider reads them: from the file of a FreeRADIUS, or from what the script took, written in
the same way."""

import socket
import time
from typing import NamedTuple

from peers import radius_packets

TEXTS = {
    radius_packets.USER_NAME: "User-Name",
    radius_packets.CALLING_STATION_ID: "Calling-Station-Id",
    radius_packets.NAS_IDENTIFIER: "NAS-Identifier",
    radius_packets.ACCT_SESSION_ID: "Acct-Session-Id",
    radius_packets.NAS_PORT_ID: "NAS-Port-Id",
}
ADDRESSES = {radius_packets.NAS_IP_ADDRESS: "NAS-IP-Address", radius_packets.FRAMED_IP_ADDRESS: "Framed-IP-Address"}
NUMBERS = {
    radius_packets.NAS_PORT: "NAS-Port",
    radius_packets.SERVICE_TYPE: "Service-Type",
    radius_packets.FRAMED_PROTOCOL: "Framed-Protocol",
    radius_packets.ACCT_STATUS_TYPE: "Acct-Status-Type",
    radius_packets.ACCT_INPUT_OCTETS: "Acct-Input-Octets",
    radius_packets.ACCT_OUTPUT_OCTETS: "Acct-Output-Octets",
    radius_packets.ACCT_SESSION_TIME: "Acct-Session-Time",
    radius_packets.ACCT_INPUT_PACKETS: "Acct-Input-Packets",
    radius_packets.ACCT_OUTPUT_PACKETS: "Acct-Output-Packets",
    radius_packets.ACCT_TERMINATE_CAUSE: "Acct-Terminate-Cause",
    radius_packets.ACCT_INPUT_GIGAWORDS: "Acct-Input-Gigawords",
    radius_packets.ACCT_OUTPUT_GIGAWORDS: "Acct-Output-Gigawords",
    radius_packets.EVENT_TIMESTAMP: "Event-Timestamp",
    radius_packets.NAS_PORT_TYPE: "NAS-Port-Type",
}

# The numbers that FreeRADIUS's dictionary has names for, of those that the gateway sends.
NAMED = {
    (radius_packets.SERVICE_TYPE, 2): "Framed-User",
    (radius_packets.FRAMED_PROTOCOL, 1): "PPP",
    (radius_packets.ACCT_STATUS_TYPE, 1): "Start",
    (radius_packets.ACCT_STATUS_TYPE, 2): "Stop",
    (radius_packets.ACCT_TERMINATE_CAUSE, 1): "User-Request",
    (radius_packets.ACCT_TERMINATE_CAUSE, 2): "Lost-Carrier",
    (radius_packets.ACCT_TERMINATE_CAUSE, 4): "Idle-Timeout",
    (radius_packets.ACCT_TERMINATE_CAUSE, 5): "Session-Timeout",
    (radius_packets.ACCT_TERMINATE_CAUSE, 6): "Admin-Reset",
    (radius_packets.ACCT_TERMINATE_CAUSE, 10): "NAS-Request",
    (radius_packets.NAS_PORT_TYPE, 5): "Virtual",
}


class Record(NamedTuple):
    """A record as it is written, and its attributes by their names."""

    lines: list
    values: dict

    def says(self, name):
        """The value of an attribute as it is written, without its quotes, or None."""
        return self.values.get(name)

    def number(self, name):
        """The number that an attribute says, or None."""
        written = self.values.get(name, "")
        return int(written) if written.isdecimal() else None


def read_record(text):
    """The record in a piece of the file: a line with the second, and one for each attribute."""
    lines = [line for line in text.splitlines() if line.strip()]
    pairs = (line.strip().partition(" = ") for line in lines[1:])
    return Record(lines, {name: value.strip('"') for name, _, value in pairs})


def read_file(text):
    """The records in a file of FreeRADIUS's module `detail`."""
    return [read_record(part) for part in text.split("\n\n") if part.strip()]


def attribute_line(kind, value):
    """An attribute in the words of that file."""
    if kind in TEXTS:
        return f'{TEXTS[kind]} = "{value.decode(errors="replace")}"'
    if kind in ADDRESSES:
        return f"{ADDRESSES[kind]} = {socket.inet_ntoa(value)}"
    if kind in NUMBERS:
        number = int.from_bytes(value, "big")
        if kind == radius_packets.EVENT_TIMESTAMP:
            return time.strftime('Event-Timestamp = "%b %e %Y %H:%M:%S UTC"', time.gmtime(number))
        return f"{NUMBERS[kind]} = {NAMED.get((kind, number), number)}"
    name = "Class" if kind == radius_packets.CLASS else f"Attr-{kind}"
    return f"{name} = 0x{value.hex()}"


def write_record(request):
    """An Accounting-Request as a record in the same form."""
    return read_record("\n\t".join(["A record", *(attribute_line(*attribute) for attribute in request.attributes)]))


def records_of(records, name, value, status):
    """Those that have this value of an attribute, with this Acct-Status-Type; one that was sent again, and so was written twice, counts once."""
    found = {
        record.says("Acct-Session-Id"): record
        for record in records
        if (record.says(name), record.says("Acct-Status-Type")) == (value, status)
    }
    return list(found.values())


def sessions(records):
    """A line for each session that the records tell of, the first in front: who it is, its address and port, and whether it goes on, or
    how long it went on, what it carried and why it ended."""
    known = {}
    for record in records:
        known.setdefault(record.says("Acct-Session-Id"), {})[record.says("Acct-Status-Type")] = record
    return [session(*(told.get(status) for status in ("Start", "Stop"))) for told in known.values()]


def session(start, stop):
    record = stop or start
    names = ("User-Name", "Framed-IP-Address", "NAS-Port-Id", "Acct-Session-Id")
    front = "  ".join(str(record.says(name)) for name in names)
    if stop is None:
        return f"{front}  online"
    octets = " ".join(f"{way}={stop.number(f'Acct-{name}-Octets')}" for way, name in (("in", "Input"), ("out", "Output")))
    return f"{front}  ended after {stop.number('Acct-Session-Time')} s, {octets}, {stop.says('Acct-Terminate-Cause')}"


def show(record):
    """Prints a record as it is written."""
    for line in record.lines:
        print("   ", line.expandtabs(4))
