"""Hostile recordings, pcap and pcapng: mostly sound, but fields now and then at a bound or beside
it, records and blocks exchanged, repeated and put in one another, and octets turned, cut off, put
in and taken out."""
from frames import any_link, frame

# How much of a packet is kept, by a file of pcap and by an interface of pcapng.
SNAPS = (0, 96, 65535, 262144)
INTERFACE_SNAPS = (0, 0, 65535, 65535, 262144, 40)
# How many sections a file of pcapng has, each number as often as it stands here, and how many
# interfaces one begins with.
SECTIONS = (1, 1, 1, 1, 1, 2, 2, 3)
INTERFACES = (1,) * 9 + (2, 2, 2, 2, 3, 3, 0)
# The types of blocks behind a section's first interfaces; 0 is one that isn't read, as those
# behind.
KINDS = (6, 6, 6, 6, 6, 3, 3, 2, 2, 1, 0, 0)
OTHERS = (4, 5, 7, 10, 11, 0x0BAD, 0x40000BAD, 0x80000001)
# Units of time: powers of ten, and with the highest bit set of two.
UNITS = (6,) * 8 + (9,) * 12 + (0, 0, 3, 3, 19, 19, 20, 0x80, 0x80, 0x94, 0x94, 0xBF, 0xBF, 0xC0)
# The high 32 bits of times and of their offsets, the low ones being any.
TIMES = (0, 0, 0, 1, 0x0005F000, 0x0005F000, 0x0005F000, 0x17000000)
OFFSETS = (0, 0, 0, 2**32 - 1)
NAMES = (b"eth0", b"eth1", b"eth0\0", b"eth1\0eth0", b"", b"eth 0", b"a" * 64, b"a" * 65)
# Lengths and numbers at bounds, and octets that a field is turned into.
EXTREMES = (
    0, 1, 4, 8, 12, 24, 28, 0x100000, 0x100001, 0x10000C, 0x100010, 0x01000000, 0x01000004,
    0x7FFFFFFF, 0x80000000, 0xFFFFFFFC, 0xFFFFFFFF, 0x0A0D0D0A, 0x1A2B3C4D,
)
OCTETS = (0, 1, 127, 128, 255)
# What noise begins with.
FRONTS = (
    b"", b"\x1f\x8b", b"\xa1\xb2\xc3\xd4\0\2\0\4", b"\x4d\x3c\xb2\xa1\2\0\4\0",
    b"\x0a\x0d\x0d\x0a\0\0\0\x1c\x1a\x2b\x3c\x4d\0\1\0\0",
    b"\x0a\x0d\x0d\x0a\x1c\0\0\0\x4d\x3c\x2b\x1a\1\0\0\0",
)


def put(number, octets, order):
    return (number % 256**octets).to_bytes(octets, order)


def kept_frame(draws, link):
    """A packet, of which the recorder now and then kept a first part alone, and how many octets
    there were."""
    octets = frame(draws, link)
    return (octets[:draws.below(len(octets))] if draws.one_in(12) else octets), len(octets)


def pcap_pieces(draws):
    """The head of a file of up to five packets, and each packet."""
    order, link = draws.pick(("big", "little")), any_link(draws)
    head = put(draws.rarely(draws.pick((0xA1B2C3D4, 0xA1B23C4D)), 2**32 - 1), 4, order)
    head += put(draws.rarely(2, 65535), 2, order) + put(draws.rarely(4, 65535), 2, order)
    head += draws.octets(8)
    head += put(draws.pick(SNAPS), 4, order) + put(draws.one_of(8, 65536, 0) << 16 | link, 4, order)
    if draws.one_in(96):
        head = b"\x1f\x8b\x08\0" + head[4:]
    return [head] + [pcap_record(draws, link, order) for _ in range(draws.below(6))]


def pcap_record(draws, link, order):
    octets, original = kept_frame(draws, link)
    numbers = draws.below(1800000000), draws.below(1000000), len(octets), original
    fields = [draws.rarely(number, 2**32 - 1) for number in numbers]
    fields[2] = draws.at_bound(fields[2], EXTREMES, 48)
    return b"".join(put(field, 4, order) for field in fields) + octets


class Section:
    """A section of a file of pcapng, whose blocks are made one after the other."""

    def __init__(self, draws):
        self.draws, self.order, self.links = draws, draws.pick(("big", "little")), []

    def put(self, number, octets):
        return put(number, octets, self.order)

    def near(self, sound, octets):
        return self.put(self.draws.rarely(sound, 256**octets - 1), octets)

    def block(self, kind, body):
        body += bytes(-len(body) % 4)
        total = len(body) + 12
        told = self.draws.at_bound(total, EXTREMES, 192)
        return self.put(kind, 4) + self.near(told, 4) + body + self.near(total, 4)

    def option(self, code, octets):
        return self.near(code, 2) + self.near(len(octets), 2) + octets + bytes(-len(octets) % 4)

    def head(self):
        """The block that begins a section."""
        minor = self.draws.pick((0, 0, 0, 2))
        body = self.near(0x1A2B3C4D, 4) + self.near(1, 2) + self.near(minor, 2)
        body += self.put(self.draws.one_of(4, 2**32 - 1, 2**32 - 1), 4) * 2
        if self.draws.one_in(3):
            body += self.option(4, self.draws.octets(9)) + self.option(0, b"")
        return self.block(0x0A0D0D0A, body)

    def value(self, sound):
        """The value of an option, now and then of another length."""
        return self.draws.octets(self.draws.below(12)) if self.draws.one_in(32) else sound

    def options(self):
        """Options of an interface: a name, the unit of time, the offset, and their end."""
        draws, octets = self.draws, b""
        if draws.one_in(2):
            name = draws.pick(NAMES[:4] if draws.one_in(2) else NAMES)
            octets += self.option(2, draws.octets(draws.below(10)) if draws.one_in(8) else name)
        if draws.one_in(2):
            unit = draws.one_of(24, 256, draws.pick(UNITS))
            octets += self.option(9, self.value(self.put(unit, 1)))
        if draws.one_in(4):
            offset = draws.rarely(draws.pick(OFFSETS), 2**32 - 1) << 32 | draws.below(2**32)
            octets += self.option(14, self.value(self.put(offset, 8)))
        return octets + self.option(0, b"") if draws.one_in(2) else octets

    def interface(self, has_options=True):
        self.links.append(any_link(self.draws))
        body = self.put(self.links[-1], 2) + self.draws.octets(2)
        body += self.put(self.draws.pick(INTERFACE_SNAPS), 4)
        return self.block(1, body + self.options() if has_options else body)

    def stamped(self, kind):
        """A packet with its time, in an enhanced or an obsolete block."""
        draws = self.draws
        number = draws.below(len(self.links))
        octets, original = kept_frame(draws, self.links[number] if self.links else 1)
        body = self.near(number, 4) if kind == 6 else self.near(number, 2) + draws.octets(2)
        body += self.near(draws.pick(TIMES), 4) + self.put(draws.below(2**32), 4)
        body += self.near(len(octets), 4) + self.near(original, 4) + octets
        if draws.one_in(4):
            body += bytes(-len(body) % 4) + self.option(2, draws.octets(4))
        return self.block(kind, body)

    def simple(self):
        """A packet of the first interface, without a time."""
        octets, _ = kept_frame(self.draws, self.links[0] if self.links else 1)
        return self.block(3, self.near(len(octets), 4) + octets)

    def other(self):
        """A block of another type, now and then with a section's first block in it."""
        is_head, noise = self.draws.one_in(4), self.draws.octets(self.draws.below(30))
        body = Section(self.draws).head() if is_head else noise
        return self.block(self.draws.pick(OTHERS), body)

    def any_block(self):
        kind = self.draws.pick(KINDS)
        makers = {1: self.interface, 3: self.simple, 0: self.other}
        return makers[kind]() if kind in makers else self.stamped(kind)

    def pieces(self):
        blocks = [self.head()] + [self.interface() for _ in range(self.draws.pick(INTERFACES))]
        if self.draws.one_in(48):
            blocks += [self.interface(False) for _ in range(64)]
        return blocks + [self.any_block() for _ in range(self.draws.below(7))]


def pcapng_pieces(draws):
    return [piece for _ in range(draws.pick(SECTIONS)) for piece in Section(draws).pieces()]


def rearrange(draws, pieces):
    """Exchanges two records or blocks that are neighbours, or repeats one at another place."""
    place = draws.below(len(pieces))
    if draws.one_in(2):
        pieces[place:place + 2] = pieces[place:place + 2][::-1]
    else:
        pieces.insert(draws.below(len(pieces)), pieces[place])


def spoil(draws, octets):
    """Spoils octets as any, or a field of them: its octets, or a number at a bound, or octets that
    are repeated."""
    place, kind = draws.below(len(octets)), draws.below(10)
    if kind < 6:
        return draws.spoil(octets)
    if kind == 6:
        return octets[:place] + put(draws.pick(OCTETS), 1, "big") + octets[place + 1:]
    if kind == 7:
        return octets[:place + draws.below(24)] + octets[place:]
    place = place // 4 * 4
    number = put(draws.pick(EXTREMES), 4, draws.pick(("big", "little")))
    return octets[:place] + number + octets[place + 4:]


def make_recording(draws, pieces_of):
    if draws.one_in(32):
        octets = draws.pick(FRONTS) + draws.octets(draws.below(120))
    else:
        pieces = pieces_of(draws)
        if draws.one_in(8):
            rearrange(draws, pieces)
        octets = b"".join(pieces)
    for _ in range(draws.pick((0, 0, 0, 0, 1, 1, 2, 3))):
        octets = spoil(draws, octets)
    return octets
