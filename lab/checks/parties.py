"""The picture of the lab's network: the gateway, its sockets, and who is at the other end of each."""

from checks.drawing import BLUE, LIGHT_BLUE, ORANGE, PALE, Drawing

GATEWAY = (350, 150, 200, 250)


class Party:
    """Who is at the end of a socket: a box with a title and words, and the line from it to the gateway."""

    def __init__(self, x, y, width, title, *words):
        self.x, self.y, self.width, self.title, self.words = x, y, width, title, words
        self.height = 30 + 16 * len(words)

    def draw(self, picture):
        picture.rectangle(self.x, self.y, self.width, self.height, "white")
        picture.text(self.x + 10, self.y + 20, self.title, 13, weight="bold")
        for row, words in enumerate(self.words):
            picture.text(self.x + 10, self.y + 38 + 16 * row, words, 12)


PARTIES = [
    Party(10, 150, 215, "Subscribers", "scripted hosts, or a real pppd", "in an emulated machine"),
    Party(10, 330, 215, "Access concentrators", "scripted, a real xl2tpd here, or", "one in the emulated machine"),
    Party(675, 240, 215, "Hosts behind the core", "a script's socket: it takes", "packets, answers pings, gives", "out a file by TFTP"),
    Party(250, 10, 195, "RADIUS server", "scripted, or FreeRADIUS"),
    Party(475, 10, 215, "Client of changes", "scripted, or radclient"),
    Party(350, 470, 200, "Operator", "./bng stop, ./bng stats"),
]


def link(picture, start, end, config, *words, colour=BLUE, at=None, anchor="middle"):
    """A line between two ends, with the key of the gateway's end and words for what a datagram is."""
    picture.line(start, end, stroke=colour, width=2)
    x, y = at
    picture.text(x, y, config, 12, colour, anchor, "bold")
    for row, line in enumerate(words):
        picture.text(x, y + 15 + 15 * row, line, 11, PALE, anchor)


def draw():
    picture = Drawing(900)
    x, y, width, height = GATEWAY
    picture.rectangle(x, y, width, height, LIGHT_BLUE, BLUE, 6)
    picture.text(x + width / 2, y + 105, "The gateway", 16, anchor="middle", weight="bold")
    for row, words in enumerate(["crates/bng/out/bng", "one process, UDP sockets", "of 127.0.0.0/8 alone"]):
        picture.text(x + width / 2, y + 127 + 17 * row, words, 12, anchor="middle")
    for party in PARTIES:
        party.draw(picture)
    link(picture, (225, 181), (350, 181), "access", "a datagram is", "an Ethernet frame", at=(288, 172 + 25))
    link(picture, (225, 361), (350, 361), "tunnel", "L2TP, as on", "any network", at=(288, 352 + 25))
    link(picture, (550, 281), (675, 281), "core", "a datagram is", "an IPv4 packet", at=(612, 272 + 25), colour=ORANGE)
    link(picture, (400, 56), (400, 150), "auth, acct", "RADIUS, by two sockets", at=(392, 100), anchor="end")
    link(picture, (510, 56), (510, 150), "coa", "RADIUS, RFC 5176", at=(518, 100), anchor="start")
    link(picture, (450, 400), (450, 470), "control", "a word is a datagram", at=(458, 430), anchor="start", colour="#555555")
    return picture.svg(528, "The lab's network")
