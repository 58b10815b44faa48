"""Writes the pictures of docs/, and in the map of docs/ARCHITECTURE.md what each crate stands on: the floors and the way of a packet by
crates.txt, the rows of lab/bench by the tables of docs/OPERATING.md, and the lab's network. With --check it writes nothing, and says
what is not as it would write it, or where the map is not what crates.txt says."""

import os
import sys

from checks import floors, parties, ratios, usage
from machine.gateway import HOME

PICTURES = {"floors.svg": floors.draw, "bench.svg": ratios.draw, "lab.svg": parties.draw}


def contents(path):
    """The text of a file, none where there is no file."""
    if not os.path.exists(path):
        return ""
    with open(path, encoding="utf-8") as file:
        return file.read()


def wanted():
    """The paths of what is written here, each with its text."""
    return {floors.MAP: floors.mended(contents(floors.MAP))} | {os.path.join(HOME, "docs", name): draw() for name, draw in PICTURES.items()}


def check():
    """Says what is wrong. The status."""
    said = floors.faults()
    said += [f"docs/{os.path.basename(path)} is not what lab/picture writes" for path, text in wanted().items() if contents(path) != text]
    for line in said:
        print(f"picture: {line}", file=sys.stderr)
    return 1 if said else 0


def write():
    """Writes all, and says what is wrong beside that. The status."""
    for path, text in wanted().items():
        with open(path, "w", encoding="utf-8") as file:
            file.write(text)
    return check()


if __name__ == "__main__":
    came = usage.heed("picture", __doc__, "--check")
    if came and came != ["--check"]:
        sys.exit("usage: lab/picture [--check]")
    try:
        sys.exit(check() if came else write())
    except RuntimeError as error:
        sys.exit(f"picture: {error}")
