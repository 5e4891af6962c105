"""Lines of a script of `trace`, some of whose numbers are at bounds."""
import receivers
from datagrams import make_datagram
from draws import big
from formats import TIMESTAMPS, any_format

# Rates: sound ones, and others.
RATES = (
    "60/1", "60000/1001", "300/1", "1000000/1000000", "120/2", "301/1", "60/0", "1/2",
    "1000001/4000", "60/1000001",
)
SOUND_RATES = RATES[:5]
# What stands in place of a window: no timestamp, one twice, 16, and 17.
WINDOWS = (
    "-", "7,8,7", "1,2,3,4,5,6,7,8,9,10,11,12,13,14,15,16",
    "1,2,3,4,5,6,7,8,9,10,11,12,13,14,15,16,1",
)


def format_line(draws, format):
    """A line `format S B W H N/D`, some of whose numbers are others."""
    width, height, rate = format.width, format.height, draws.pick(SOUND_RATES)
    if draws.one_in(16):
        width = draws.at_bound(width, (0, 2, 8190, 8192, 8194), 2)
        height = draws.at_bound(height, (0, 8192, 8193), 4)
        rate = draws.pick(RATES)
    return "format %s %d %d %d %s" % (format.sampling, format.depth, width, height, rate)


def window_text(draws, window):
    """The text of a window; now and then another one."""
    return draws.pick(WINDOWS) if draws.one_in(16) else ",".join(map(str, window))


class Scene:
    """What the lines of a script are made for, and the last datagram."""

    def __init__(self, draws):
        ssrc = draws.below(3) if draws.one_in(2) else None
        self.opening = receivers.Opening(any_format(draws), draws.below(128), ssrc)
        self.timestamps = draws.below(4) + 1
        self.octets = b""

    def opening_line(self, draws):
        source = "any" if self.opening.ssrc is None else self.opening.ssrc
        window = window_text(draws, TIMESTAMPS[:self.timestamps])
        payload_type = draws.at_bound(self.opening.payload_type, (127, 128), 24)
        return "open %d %s %s" % (payload_type, source, window)

    def next_datagram(self, draws):
        """Another datagram, of up to four the first that isn't refused; or the last one with
        another last octet."""
        if self.octets and draws.one_in(3):
            if draws.one_in(2):
                self.octets = self.octets[:-1] + big(draws.below(256), 1)
            return
        for _ in range(draws.below(4) + 1):
            self.octets = make_datagram(draws, self.opening, TIMESTAMPS[:self.timestamps + 1])
            if receivers.is_good(self.octets, self.opening):
                break
        if len(self.octets) > 3 and draws.one_in(2):
            self.octets = self.octets[:3] + big(draws.below(16), 1) + self.octets[4:]

    def datagram_line(self, draws):
        """A datagram; now and then none, or one of as many octets as it may have, or of one
        more."""
        digits = "-" if draws.one_in(64) else self.octets.hex()
        if draws.one_in(4):
            digits = digits.upper()
        if draws.one_in(2048):
            digits = self.octets.hex() + "55" * (65535 + draws.below(2) - len(self.octets))
        return "%s %s" % (draws.pick("AB"), digits)

    def cell_line(self, draws):
        """A question for a cell, mostly for one of which the last datagram brought a value."""
        format, places = self.opening.format, receivers.places_in(self.octets, self.opening)
        if places and not draws.one_in(4):
            return "cell %d %d %d" % draws.pick(places) + " %d" % draws.below(3)
        timestamp = draws.pick(TIMESTAMPS[:self.timestamps])
        row = draws.near(draws.below(format.height), 9)
        column = draws.near(draws.below(format.width), 24)
        return "cell %d %d %d %d" % (timestamp, row, column, draws.near(draws.below(3), 256))

    def line(self, draws):
        """A line behind the first two."""
        kind = draws.below(16)
        if kind < 9:
            self.next_datagram(draws)
            return self.datagram_line(draws)
        if kind < 11:
            return "slide %d" % draws.near(draws.pick(TIMESTAMPS), 2**32 - 1)
        if kind < 15:
            return self.cell_line(draws)
        first = draws.pick((65540, 65540, 2**32 - 4))
        return "numbers %d %d" % (draws.number(first, 2**32 - 1), draws.number(8, 1048577))


def lines_of(draws):
    scene = Scene(draws)
    lines = [format_line(draws, scene.opening.format), scene.opening_line(draws)]
    return lines + [scene.line(draws) for _ in range(draws.below(32))]
