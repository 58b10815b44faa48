"""What a hostile sender makes of the octets of a message: each way changes, cuts, lengthens or joins them by a source of chance, so that the same
source makes the same octets again."""

from peers.ipv4 import checksum

# Where the roles have lengths and numbers of two octets that a reader heeds first.
FIELDS = {"access": (12, 14, 16, 18, 20, 24), "core": (0, 2, 6, 8), "tunnel": (0, 2, 4, 6, 8, 10, 12, 16), "control": (0,)}
RADIUS_FIELDS = (0, 2, 20, 22)

EXTREMES = (0, 1, 2, 3, 4, 5, 6, 7, 0x7F, 0x80, 0xFE, 0xFF)
WIDE = (0, 1, 4, 5, 19, 20, 0x7FFF, 0x8000, 0xFFFE, 0xFFFF)

# What is taken has 4,096 octets at most.
SIZES = (1480, 1492, 1493, 1500, 4095, 4096, 4097, 5000, 9000)


def place(chance, octets):
    return chance.randrange(len(octets) + 1)


def bits(chance, octets, _):
    """One to four bits are turned."""
    changed = bytearray(octets)
    for _ in range(chance.randint(1, 4) if changed else 0):
        changed[chance.randrange(len(changed))] ^= 1 << chance.randrange(8)
    return bytes(changed)


def octet(chance, octets, _):
    """One to three octets become others, of those at which readers go wrong as often as not."""
    changed = bytearray(octets)
    for _ in range(chance.randint(1, 3) if changed else 0):
        changed[chance.randrange(len(changed))] = chance.choice((*EXTREMES, chance.randrange(256)))
    return bytes(changed)


def cut(chance, octets, _):
    """Only the front is left, maybe none of it."""
    return octets[:chance.randrange(max(1, len(octets)))]


def drop(chance, octets, _):
    """A piece in the middle is gone."""
    at = place(chance, octets)
    return octets[:at] + octets[at + chance.randint(1, 8):]


def double(chance, octets, _):
    """A piece stands twice, or as often as fits a small datagram."""
    at = place(chance, octets)
    piece = octets[at:at + chance.randint(1, 24)]
    return octets[:at] + piece * chance.choice((2, 2, 3, 17, 70)) + octets[at + len(piece):]


def insert(chance, octets, _):
    """There are more octets in the middle."""
    at = place(chance, octets)
    return octets[:at] + chance.randbytes(chance.randint(1, 12)) + octets[at:]


def longer(chance, octets, _):
    """There are more octets behind it."""
    return octets + (chance.randbytes if chance.random() < 0.5 else bytes)(chance.randint(1, 64))


def huge(chance, octets, _):
    """It is as long as a datagram may be that is taken whole, or longer."""
    size = chance.choice(SIZES)
    return octets.ljust(size, b"\0") if chance.random() < 0.5 else (octets + chance.randbytes(size))[:size]


def splice(chance, octets, other):
    """Its front stands before the end of another one."""
    return octets[:place(chance, octets)] + other[place(chance, other):]


def noise(chance, octets, _):
    """Nothing of it is left but the length."""
    return chance.randbytes(len(octets))


WAYS = (bits, octet, cut, drop, double, insert, longer, huge, splice, noise)
WEIGHTS = (20, 16, 14, 9, 8, 8, 7, 1, 12, 2)


def field(chance, octets, role):
    """A length or a number that the role's messages have becomes another one."""
    at = chance.choice(FIELDS.get(role, RADIUS_FIELDS))
    if len(octets) < at + 2:
        return octets
    was = int.from_bytes(octets[at:at + 2], "big")
    value = chance.choice((*WIDE, was + 1, was - 1, was ^ 0x0800, len(octets), len(octets) + 1, chance.randrange(65536))) % 65536
    return octets[:at] + value.to_bytes(2, "big") + octets[at + 2:]


def with_ipv4_sum(octets, at):
    """The octets with a right header sum of the IPv4 packet that begins there, and its total length as it is."""
    front = (octets[at] & 15) * 4 if len(octets) > at else 0
    if front < 20 or len(octets) < at + front:
        return octets
    header = octets[at:at + 10] + b"\0\0" + octets[at + 12:at + front]
    return octets[:at + 10] + checksum(header).to_bytes(2, "big") + octets[at + 12:]


def with_length(octets, at, length):
    if len(octets) < at + 2 or not 0 <= length < 65536:
        return octets
    return octets[:at] + length.to_bytes(2, "big") + octets[at + 2:]


def mended(octets, role):
    """The octets with the lengths and sums that they are to have, so that what is wrong behind them is read."""
    if role == "access":
        octets = with_length(octets, 18, len(octets) - 20)
        is_ipv4 = octets[12:16] == b"\x88\x64\x11\0" and octets[20:22] == b"\0\x21"
        return with_ipv4_sum(octets, 22) if is_ipv4 else octets
    if role == "core":
        return with_ipv4_sum(with_length(octets, 2, len(octets)), 0)
    if role == "tunnel":
        has_length = len(octets) > 4 and octets[0] & 0x40
        return with_length(octets, 2, len(octets)) if has_length else with_ipv4_sum(octets, 10)
    return octets if role in ("control", "attributes") else with_length(octets, 2, len(octets))


def mangled(chance, role, octets, other):
    """The name of a way, and what it makes of the octets, or of those and another message's. One in three is mended, one in eight is
    changed once more."""
    if chance.random() < 0.12:
        name, changed = "field", field(chance, octets, role)
    else:
        way = chance.choices(WAYS, WEIGHTS)[0]
        name, changed = way.__name__, way(chance, octets, other)
    if chance.random() < 0.12:
        changed = chance.choice((bits, octet, cut, drop, longer))(chance, changed, other)
    if chance.random() < 0.35:
        name, changed = name + "+mended", mended(changed, role)
    return name, changed
