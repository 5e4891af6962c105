"""Lines of a script of `rehearse`, some of whose numbers are at bounds."""
from formats import any_format
from trace_lines import format_line, window_text

# Timestamps of pictures and windows at 60 pictures a second, of which a window has the first ones.
TIMESTAMPS = (900, 2400, 3900, 5400, 6900)


class Scene:
    """What the events of a script are made for: receivers, and how many datagrams there are to send
    and were sent."""

    def __init__(self, receivers, count):
        self.receivers, self.count, self.sent = receivers, count, 0
        self.has_slid = False

    def event(self, draws):
        """A line of any event, whose numbers are mostly sound."""
        at, kind = draws.below(self.receivers), draws.below(16)
        if kind == 0:
            self.has_slid = True
            stamp = 5400 if draws.one_in(4) else 6900
            return "slide %d %d" % (draws.near(at, 256), draws.near(stamp, 2**32 - 1))
        if kind < 3 and self.receivers > 1 and (not self.has_slid or draws.one_in(8)):
            other = at if draws.one_in(24) else (at + 1) % self.receivers
            return "merge %d %d" % (draws.near(at, 256), draws.near(other, 256))
        return self.sending(draws, at) if kind < 9 else self.arrival(draws, at)

    def sending(self, draws, at):
        """A send; mostly an arrival where all is sent."""
        if 0 < self.sent >= self.count and not draws.one_in(32):
            return self.arrival(draws, at)
        self.sent += 1
        return "send"

    def arrival(self, draws, at):
        """A datagram of those sent, at a receiver; a send where none was."""
        if self.sent == 0:
            self.sent = 1
            return "send"
        number = draws.at_bound(draws.below(self.sent), (self.sent, 2**32 - 1), 96)
        return "arrive %d %s %d" % (draws.near(at, 256), draws.pick("AB"), number)


def front(draws, format, receivers, most):
    """The first five lines, of so many receivers and packets of a size."""
    size = format.pgroup[0]
    payload_type, first = draws.at_bound(96, (127, 128), 48), draws.number(0, 2**32 - 1)
    return [
        format_line(draws, format),
        "stamp %d %d %d 1" % (payload_type, first, draws.near(900, 2**32 - 1)),
        "max %d" % draws.at_bound(most, (0, size + 19, size + 20, 9000, 9001), 12),
        "window " + window_text(draws, TIMESTAMPS[:draws.below(3) + 1]),
        "receivers %d" % draws.at_bound(receivers, (0, 8, 9, 255, 256), 12),
    ]


def picture_line(draws, format):
    """A picture, which now and then lacks a digit."""
    count = 2 * format.pgroups * format.pgroup[0] - draws.one_in(64)
    return "picture " + "".join(draws.pick("0123456789") for _ in range(count))


def lines_of(draws):
    format, receivers = any_format(draws), draws.below(3) + 1
    size = format.pgroup[0]
    most = 20 + (draws.below(12) + 1) * size + draws.below(16)
    lines, pictures = front(draws, format, receivers, most), draws.below(4)
    if draws.one_in(512):
        lines[0], lines[2] = "format YCbCr-4:2:2 8 2 1 60/1", "max 40"
        pictures = 10000 + draws.below(2)
        lines += ["picture 80108011"] * pictures
    else:
        lines += [picture_line(draws, format) for _ in range(pictures)]
    by_packet = (most - 20) // size
    scene = Scene(receivers, pictures * -(-format.pgroups // by_packet))
    return lines + [scene.event(draws) for _ in range(draws.below(40))]
