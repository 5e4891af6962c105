"""A second reading of scripts of `rehearse` (docs/FORMATS.md; docs/FAULTS.md, PlayFault). All
datagrams are of one sender, so that a frame is the set of the pgroups that came."""
import collections

import script_reading
from script_reading import Stop

# The octets of a datagram before its segments' headers, and of such a header (RFC 3550, 5.1; RFC
# 4175, 4).
FRONT = 14
HEAD = 6
# The most segments of a datagram (SMPTE ST 2110-20, general packing).
SEGMENTS = 3

Front = collections.namedtuple("Front", "format base max window receivers")


def read_number(lines, word, most):
    """The number of a line that has just a word and it."""
    line = lines.next(word)
    number = line.numeral(most)
    line.end()
    return number


def read_front(lines):
    """What the first five lines say."""
    format = script_reading.read_format(lines)
    stamp = lines.next(b"stamp")
    _, _, base, _ = stamp.numeral(127), stamp.numeral(), stamp.numeral(), stamp.numeral()
    stamp.end()
    most = read_number(lines, b"max", 2**32 - 1)
    line = lines.next(b"window")
    window = line.window()
    line.end()
    return Front(format, base, most, window, read_number(lines, b"receivers", 255))


def read_pictures(lines, format):
    """How many pictures there are, each of just its octets."""
    count, size = 0, format.pgroups * format.pgroup[0]
    while lines.are_begun(b"picture"):
        line = lines.next(b"picture")
        line.test(len(line.octets(size)) == size)
        line.end()
        count += 1
    return count


def read_event(line):
    """The word of an event and its numbers."""
    word = line.field()
    line.test(word in (b"send", b"arrive", b"slide", b"merge"))
    numbers = []
    if word != b"send":
        numbers.append(line.numeral(255))
    if word == b"arrive":
        line.test(line.field() in (b"A", b"B"))
    if word != b"send":
        numbers.append(line.numeral(255 if word == b"merge" else 2**32 - 1))
    line.end()
    return [word] + numbers


def packet_end(at, most, format):
    """The pgroup behind the last one of the packet that begins with a pgroup: up to three runs,
    each within a row."""
    size, pixels, _ = format.pgroup
    by_row, room = format.width // pixels, most - FRONT
    for segment in range(SEGMENTS):
        groups = max(room - HEAD, 0) // size
        if at == format.pgroups or groups == 0 or segment and at % by_row:
            break
        taken = min(groups, by_row - at % by_row)
        at, room = at + taken, room - HEAD - taken * size
    return at


def packets_of(most, format):
    """The pgroups of each packet of a picture."""
    packets, at = [], 0
    while at < format.pgroups:
        end = packet_end(at, most, format)
        packets.append(range(at, end))
        at = end
    return packets


class Stage:
    """A sender and its receivers: for each of these its window, with the pgroups that came for each
    timestamp."""

    def __init__(self, front, count, output):
        n, d = front.format.rate
        self.format, self.output = front.format, output
        stamps = [(front.base + 90000 * d * k // n) % 2**32 for k in range(count)]
        packets = packets_of(front.max, front.format)
        self.to_send = [(stamp, groups) for stamp in stamps for groups in packets]
        self.sent = 0
        self.receivers = [self.opened(front.window) for _ in range(front.receivers)]

    @staticmethod
    def opened(window):
        return collections.OrderedDict((stamp, set()) for stamp in window)

    def follow(self, word, *numbers):
        """Whether an event is admitted, which then is followed."""
        if numbers and numbers[0] >= len(self.receivers):
            return False
        return getattr(self, word.decode())(*numbers)

    def send(self):
        is_left = self.sent < len(self.to_send)
        self.sent += is_left
        return is_left

    def arrive(self, at, number):
        if number >= self.sent:
            return False
        stamp, groups = self.to_send[number]
        self.receivers[at].get(stamp, set()).update(groups)
        return True

    def slide(self, at, stamp):
        window = self.receivers[at]
        if stamp in window:
            return False
        self.output.append(self.line("out %d" % at, *window.popitem(last=False)))
        window[stamp] = set()
        return True

    def merge(self, into, other):
        if other >= len(self.receivers) or into == other:
            return False
        window, joined = self.receivers[into], self.receivers[other]
        if list(window) != list(joined):
            return False
        for stamp, groups in window.items():
            groups |= joined[stamp]
        return True

    def line(self, word, stamp, groups):
        present = len(groups) * self.format.pgroup[2]
        counts = word, stamp, present, self.format.samples - present
        return "%s %d present %d missing %d contested 0" % counts

    def finish(self):
        for number, window in enumerate(self.receivers):
            self.output.append("receiver %d" % number)
            self.output += [self.line("frame", stamp, groups) for stamp, groups in window.items()]


def play(stage, events):
    for place, event in enumerate(events):
        if not stage.follow(*event):
            raise Stop("play 2 BadEvent %d" % place)
    stage.finish()


def follow_rehearsal(text, output):
    """Puts the lines behind that a script prints: none where it is refused."""
    lines, printed = script_reading.Lines(text), []
    front = read_front(lines)
    count = read_pictures(lines, front.format)
    events = [read_event(line) for line in lines.left]
    if not 20 + front.format.pgroup[0] <= front.max <= 9000:
        raise Stop("plan 2 BadPacketSize")
    script_reading.test_size(front.format, front.window)
    script_reading.test_window(front.window, "play", 3)
    if count > 10000:
        raise Stop("play 5 BadPictures")
    if not 1 <= front.receivers <= 8:
        raise Stop("play 6 BadReceivers")
    play(Stage(front, count, printed), events)
    output += printed
