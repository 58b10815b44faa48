"""The crates by crates.txt and by the map in docs/ARCHITECTURE.md: what is not the same in both, and the picture of the floors."""

import os
import re
from typing import NamedTuple

from checks.drawing import BLUE, LIGHT_BLUE, LINE, ORANGE, PALE, PAPER, Drawing, width_of
from machine.gateway import HOME

CRATES = os.path.join(HOME, "crates.txt")
MAP = os.path.join(HOME, "docs", "ARCHITECTURE.md")
NONE = "none of ours"


class Step(NamedTuple):
    """A step of a packet from a subscriber to the core: the floor, the crate, the function that begins it, and words for it."""

    floor: str
    crate: str
    function: str
    words: list


# On the way in, from the door down, and on the way out.
DOWN = [
    Step("Door", "bng_real", "recv", ["takes a datagram of an", "access port: one frame"]),
    Step("Desk", "bng_desk", "gather", ["makes an item of it"]),
    Step("State", "bng_shard", "step", ["finds the session,", "notes the item in the", "shard's journal"]),
    Step("Machines", "bng_forward", "up", ["cuts the frame to its", "packet, compares its", "source, takes tokens"]),
    Step("Wire", "bng_ipv4", "lower_ttl", ["TTL and checksum"]),
]
UP = [
    Step("State", "bng_shard", "drain", ["hands out what is to be", "sent; what was sent is", "charged to its term"]),
    Step("Desk", "bng_desk", "send_all", ["sends each packet of", "the round once; at the", "end the term has a Stop"]),
    Step("Door", "bng_real", "send", ["sends the packet from", "the socket of the core"]),
]

# What these stand on for it, and the Stop in which a packet is told.
ALSO = ["bng", "bng_gate", "bng_plant", "bng_slots", "bng_profile", "bng_meter", "bng_pppoe_wire", "bng_ppp_wire", "bng_billing", "bng_acct", "bng_base"]


def read_crates():
    """Our crates in the order of crates.txt, each with those of ours that are listed for it."""
    with open(CRATES, encoding="utf-8") as file:
        rows = [line.split(":") for line in file if ":" in line and not line.startswith("#")]
    names = {row[0].split()[0] for row in rows}
    return {row[0].split()[0]: [word for word in row[1].split() if word in names] for row in rows}


def below(crates):
    """For each crate all that stand below it."""
    found = {}

    def under(name):
        if name not in found:
            found[name] = set(crates[name]).union(*(under(other) for other in crates[name]))
        return found[name]

    for name in crates:
        under(name)
    return found


def nearest(crates, order):
    """For each crate those that it stands on and that stand below no other of these, in the order of the map."""
    under = below(crates)
    place = {name: at for at, name in enumerate(order)}
    return {
        name: sorted(
            (one for one in listed if not any(one in under[other] for other in listed)), key=lambda one: place.get(one, len(place))
        )
        for name, listed in crates.items()
    }


def read_map(text):
    """The floors of the map, lowest first: each with its name, words for it, and its crates with what the map says they stand on."""
    body = text.split("## The crates, lowest floor first", 1)[1].split("\n## ", 1)[0]
    floors = []
    for part in re.split(r"^### ", body, flags=re.MULTILINE)[1:]:
        name, _, words = part.split("\n", 1)[0].partition(":")
        floors.append((name, words.strip(), re.findall(r"^\| `(bng\w*)` \| ([^|]*) \|", part, re.MULTILINE)))
    return floors


def mended(text):
    """The map's text, in which each crate of a floor stands on what crates.txt says."""
    crates = read_crates()
    floors = read_map(text)
    on = nearest(crates, [name for _, _, rows in floors for name, _ in rows])
    for name, said in [row for floor, _, rows in floors if floor != "Tests" for row in rows if row[0] in crates]:
        words = ", ".join(on[name]) or NONE
        text = text.replace(f"| `{name}` | {said} |", f"| `{name}` | {words} |")
    return text


def is_defined(crate, function):
    """Whether the sources of a crate have a function of this name."""
    folder = os.path.join(HOME, "crates", crate, "src")
    paths = [os.path.join(place, name) for place, _, names in os.walk(folder) for name in names]
    for path in paths:
        with open(path, encoding="utf-8") as file:
            if re.search(rf"\bfn {function}\b", file.read()):
                return True
    return False


def faults():
    """What the map and the way of a packet say that crates.txt and the sources do not, a line each."""
    with open(MAP, encoding="utf-8") as file:
        text = file.read()
    crates, floors = read_crates(), read_map(text)
    order = [name for _, _, rows in floors for name, _ in rows]
    said = [f"the map has no row of {name}, which crates.txt has" for name in crates if name not in order]
    said += [f"the map has a row of {name}, which crates.txt has not" for name in order if name not in crates]
    said += [f"the map has {name} {order.count(name)} times" for name in dict.fromkeys(order) if order.count(name) > 1]
    place = {name: at for at, name in enumerate(order)}
    said += [
        f"the map has {name} before {other}, which it stands on"
        for name in order for other in crates.get(name, []) if place.get(other, -1) > place[name]
    ]
    if not said and mended(text) != text:
        said.append("the map's column 'Stands on' is not what crates.txt says")
    said += [f"the way of a packet names {name}, which crates.txt has not" for name in ALSO if name not in crates]
    for step in DOWN + UP:
        if not is_defined(step.crate, step.function):
            said.append(f"the way of a packet names {step.function} of {step.crate}, which is not there")
    return said


def draw():
    """The picture: the floors with their crates, the door on top, and beside them the way of a packet."""
    with open(MAP, encoding="utf-8") as file:
        floors = [floor for floor in read_map(file.read()) if floor[0] != "Tests"]
    passed = {step.crate for step in DOWN + UP} | set(ALSO)
    picture = Drawing(900)
    picture.text(10, 22, "The floors, and the crates on them (without bng_)", 15, weight="bold")
    picture.text(536, 22, "A packet from a subscriber to the core", 15, weight="bold")
    told, places, top = {step.floor for step in DOWN + UP}, {}, 36
    for name, words, rows in reversed(floors):
        height = max(band(picture, top, name, words, [row[0] for row in rows], passed), 92 if name in told else 0)
        picture.parts.insert(0, f'<rect x="6" y="{top}" width="888" height="{height}" rx="4" fill="{PAPER}"/>')
        places[name] = (top, height)
        top += height + 6
    way(picture, places)
    picture.rectangle(10, top + 4, 14, 14, LIGHT_BLUE, BLUE)
    picture.text(30, top + 15, "a packet's octets, its session, its sums or its Stop pass through this crate", 12, PALE)
    return picture.svg(top + 28, "The floors of the gateway, and the way of a packet through them")


def band(picture, top, name, words, crates, passed):
    """A floor with its crates in rows. Its height."""
    picture.text(16, top + 18, name, 13, weight="bold")
    picture.text(16 + width_of(name, 13) + 14, top + 18, words, 12, PALE)
    x, y = 16, top + 28
    for crate in crates:
        short = crate.removeprefix("bng_")
        width = round(width_of(short, 12)) + 14
        if x + width > 516:
            x, y = 16, y + 27
        fill, stroke = (LIGHT_BLUE, BLUE) if crate in passed else ("white", LINE)
        picture.rectangle(x, y, width, 22, fill, stroke)
        picture.text(x + width / 2, y + 15, short, 12, anchor="middle")
        x += width + 7
    return y + 22 + 10 - top


def way(picture, places):
    """The steps of a packet: down on the left, up on the right."""
    sides = ((DOWN, 545, BLUE, 1), (UP, 727, ORANGE, len(DOWN) + 1))
    down, up = ([(x, places[step.floor][0] + 18) for step in steps] for steps, x, _, _ in sides)
    picture.line(*down, stroke=BLUE, width=2)
    turn = places[DOWN[-1].floor][0] + 76
    picture.line(down[-1], (down[-1][0], turn), (up[0][0], turn), (up[0][0], up[0][1] + 11), stroke=ORANGE, width=2, arrow=ORANGE)
    picture.line(*up, stroke=ORANGE, width=2)
    for steps, x, colour, first in sides:
        for number, step in enumerate(steps, first):
            y = places[step.floor][0]
            picture.number(x, y + 18, number, colour)
            picture.text(x + 15, y + 22, f"{step.crate.removeprefix('bng_')}: {step.function}", 12, colour, weight="bold")
            for row, line in enumerate(step.words):
                picture.text(x + 15, y + 38 + 15 * row, line, 12)
