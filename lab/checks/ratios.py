"""The tables of docs/OPERATING.md that lab/bench measured, and their picture: what the gateway passes to what another one does."""

import os

from checks.drawing import BLUE, INK, ORANGE, PALE, PAPER, Drawing
from machine.gateway import HOME

# So many pixels each row takes.
ROW = 28

OPERATING = os.path.join(HOME, "docs", "OPERATING.md")
SATURATED = "| Packets of | Octets | 4 shards, to the core | to the subscriber | 64 shards, to the core | to the subscriber |"
CALLS = "| A call's packets of | to the core | to the subscriber |"


def rows(text, head):
    """The cells of the rows below this head of a table."""
    if text.count(head) != 1:
        raise RuntimeError(f"docs/OPERATING.md has not one table with the head {head}")
    lines = text.split(head, 1)[1].split("\n\n", 1)[0].splitlines()[2:]
    return [[cell.strip() for cell in line.strip("|").split("|")] for line in lines]


def saturated(text):
    """For each kind of packets and each size the four ratios to the plain loop."""
    kind, found = "", []
    for name, octets, *ratios in rows(text, SATURATED):
        kind = name or kind
        found.append((kind, octets, [float(ratio) for ratio in ratios]))
    return found


def calls(text):
    """For each size the two ratios to l2tpns."""
    return [(octets.removesuffix(" octets"), [float(ratio) for ratio in ratios]) for octets, *ratios in rows(text, CALLS)]


def bar(picture, x, y, scale, ratio, fill):
    """A bar, with its number behind the line at 1.00."""
    picture.rectangle(x, y, ratio * scale, 10, fill, fill, 0)
    picture.text(x + max(ratio, 1) * scale + 6, y + 9, f"{ratio:.2f}", 11)


def panel(picture, x, top, scale, title, lines, said):
    """Two bars for each of these lines, and a line at 1.00, which `said` says."""
    bottom = top + ROW * len(lines)
    picture.text(x, top - 10, title, 13, weight="bold")
    for at, pair in enumerate(lines):
        for place, (ratio, fill) in enumerate(zip(pair, (BLUE, "#8ab4dc"))):
            bar(picture, x, top + ROW * at + 11 * place, scale, ratio, fill)
    picture.line((x, top - 4), (x, bottom), stroke=INK)
    picture.line((x + scale, top - 4), (x + scale, bottom), stroke=ORANGE, width=1.5)
    picture.text(x + scale + 32, bottom + 14, said, 11, ORANGE, "end")


def key(picture, x, y, *words):
    for place, (text, fill) in enumerate(zip(words, (BLUE, "#8ab4dc"))):
        picture.rectangle(x + 110 * place, y - 9, 10, 10, fill, fill, 0)
        picture.text(x + 110 * place + 16, y, text, 12)


def draw():
    with open(OPERATING, encoding="utf-8") as file:
        text = file.read()
    picture, ours, other = Drawing(900), saturated(text), calls(text)
    picture.text(10, 24, "Packets a second, saturated: the gateway's to a plain C loop's on the same machine", 15, weight="bold")
    picture.text(10, 43, "Each ratio is one of the table in OPERATING.md. The bars begin at 0.", 12, PALE)
    key(picture, 640, 43, "4 shards", "64 shards")
    top = 90
    for at, (kind, octets, _) in enumerate(ours):
        y = top + ROW * at
        if at == 0 or kind != ours[at - 1][0]:
            size = sum(one == kind for one, _, _ in ours)
            picture.parts.insert(0, f'<rect x="6" y="{y - 3}" width="888" height="{ROW * size - 4}" rx="3" fill="{PAPER}"/>')
            picture.text(12, y + 15, kind, 12, weight="bold")
        picture.text(232, y + 15, octets, 12, anchor="end")
    picture.text(232, top - 10, "octets", 12, PALE, "end")
    panel(picture, 250, top, 270, "to the core", [(four[0], four[2]) for _, _, four in ours], "1.00: the plain loop")
    panel(picture, 575, top, 270, "to the subscriber", [(four[1], four[3]) for _, _, four in ours], "1.00: the plain loop")
    top += ROW * len(ours) + 64
    picture.text(10, top - 20, "An L2TP call's packets: the gateway's to those of Debian's l2tpns, on a slower host", 15, weight="bold")
    key(picture, 250, top, "to the core", "to the subscriber")
    top += 20
    for at, (octets, _) in enumerate(other):
        picture.text(232, top + ROW * at + 15, octets + " octets", 12, anchor="end")
    panel(picture, 250, top, 270, "", [pair for _, pair in other], "1.00: l2tpns")
    return picture.svg(top + ROW * len(other) + ROW, "Ratios of lab/bench")
