"""Formats and their pgroups (RFC 4175, 4.3; SMPTE ST 2110-20, pixel groups; docs/FORMATS.md,
"Formats")."""
import collections
import math

SAMPLINGS = ("YCbCr-4:2:2", "YCbCr-4:4:4", "RGB")
DEPTHS = (8, 10, 12, 16)

# Octets, pixels and samples of a pgroup by sampling and depth.
PGROUPS = {
    ("YCbCr-4:2:2", 8): (4, 2, 4), ("YCbCr-4:2:2", 10): (5, 2, 4),
    ("YCbCr-4:2:2", 12): (6, 2, 4), ("YCbCr-4:2:2", 16): (8, 2, 4),
}
for _sampling in SAMPLINGS[1:]:
    PGROUPS[_sampling, 8] = (3, 1, 3)
    PGROUPS[_sampling, 10] = (15, 4, 12)
    PGROUPS[_sampling, 12] = (9, 2, 6)
    PGROUPS[_sampling, 16] = (6, 1, 3)

# Which component each sample of a pixel pair is, as they are sent: (column, component).
ORDER = {
    "YCbCr-4:2:2": ((0, 1), (0, 0), (0, 2), (1, 0)),
    "YCbCr-4:4:4": ((0, 1), (0, 0), (0, 2), (1, 1), (1, 0), (1, 2)),
    "RGB": ((0, 0), (0, 1), (0, 2), (1, 0), (1, 1), (1, 2)),
}

# Timestamps that lines and datagrams name; a window has the first ones.
TIMESTAMPS = (900, 0, 2**32 - 1, 2**31, 1800, 2700)


class Format(collections.namedtuple("Format", "sampling depth width height rate")):
    """What a picture is made of; the rate is a pair of numbers as it was said."""

    @property
    def pgroup(self):
        return PGROUPS[self.sampling, self.depth]

    @property
    def pgroups(self):
        """How many pgroups a frame has."""
        return self.width // self.pgroup[1] * self.height

    @property
    def samples(self):
        """How many samples a frame has."""
        return self.pgroups * self.pgroup[2]

    def words(self):
        """As `S B W H N/D`."""
        return "%s %d %d %d %d/%d" % (self[:4] + self.rate)

    def positions(self):
        """Each sample's row, column and component, in the order in which they are sent."""
        for row in range(self.height):
            for column in range(0, self.width, 2):
                for right, component in ORDER[self.sampling]:
                    yield row, column + right, component


def fault_of(format):
    """The fault of numbers that are no format, in the order of FormatFault; None where they are
    one."""
    n, d = format.rate
    is_whole = format.width % 2 == 0 and format.width % format.pgroup[1] == 0
    if not (2 <= format.width <= 8192 and is_whole):
        return "1 BadWidth"
    if not 1 <= format.height <= 8192:
        return "2 BadHeight"
    if not (1 <= n <= 1000000 and 1 <= d <= 1000000 and d <= n <= 300 * d):
        return "3 BadRate"
    return None


def is_lowest(n, d):
    return math.gcd(n, d) == 1


def any_format(draws):
    """A small format of any sampling and depth."""
    width, height = 4 * draws.below(5) + 4, draws.below(5) + 1
    return Format(draws.pick(SAMPLINGS), draws.pick(DEPTHS), width, height, (60, 1))
