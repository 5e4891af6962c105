"""Second readings of scripts, written apart from the libraries: what a script of `trace` prints,
and why it ends (docs/FORMATS.md, "Scripts of `trace`"; docs/FAULTS.md). The lines are those of
`rehearse` too."""
import formats
import receivers

# The most pixels of a window's frames here: a script of more isn't run.
PIXELS = 65536


class Stop(Exception):
    """A script ends before its end: why."""


class Large(Exception):
    """A script's frames are too large to be run here."""


class Lines:
    """The lines of a script that aren't empty, each with its number; those that are empty count."""

    def __init__(self, text):
        pieces = text.split(b"\n")
        last = pieces.pop()
        lines = [piece[:-1] if piece.endswith(b"\r") else piece for piece in pieces]
        lines += [last] if last else []
        self.left = [Line(number, line) for number, line in enumerate(lines, 1) if line]
        self.behind = len(lines) + 1

    def next(self, word):
        """The next line, which is to begin with a word; behind the last one there is none that
        does."""
        line = self.left.pop(0) if self.left else Line(self.behind, b"")
        line.test(line.field() == word)
        return line

    def are_begun(self, word):
        return bool(self.left) and self.left[0].fields[0] == word


class Line:
    """A line of a script, of which field after field is read; what isn't of its form stops the
    script."""

    def __init__(self, number, text):
        self.number, self.fields = number, text.split(b" ")

    def stop(self):
        return Stop("script %d" % self.number)

    def test(self, is_so):
        if not is_so:
            raise self.stop()

    def field(self):
        self.test(self.fields)
        return self.fields.pop(0)

    def end(self):
        self.test(not self.fields)

    def numeral(self, most=2**32 - 1):
        """A number up to a greatest one."""
        return self.value(self.field(), most)

    def value(self, text, most=2**32 - 1):
        self.test(1 <= len(text) <= 10 and all(48 <= octet <= 57 for octet in text))
        self.test(int(text) <= most)
        return int(text)

    def octets(self, most):
        """The octets of pairs of hexadecimal digits; none of `-`."""
        digits = self.field()
        if digits == b"-":
            return b""
        self.test(len(digits) % 2 == 0 and 2 <= len(digits) <= 2 * most)
        self.test(all(digit in b"0123456789abcdefABCDEF" for digit in digits))
        return bytes.fromhex(digits.decode())

    def window(self):
        """Timestamps with commas between; none of `-`."""
        field = self.field()
        return [] if field == b"-" else [self.value(part) for part in field.split(b",")]


def test_window(window, subject, number):
    """Refuses a window of none, or of more than 16, and then one of which a timestamp stands
    twice."""
    if not 1 <= len(window) <= 16:
        raise Stop("%s %d BadWindow" % (subject, number))
    if len(set(window)) < len(window):
        raise Stop("%s %d DoubleTimestamp" % (subject, number + 1))


def read_format(lines):
    """The format of a line `format S B W H N/D`."""
    line = lines.next(b"format")
    sampling, depth = line.field(), line.numeral()
    width, height = line.numeral(), line.numeral()
    rate = line.field().split(b"/")
    line.end()
    line.test(len(rate) == 2)
    rate = tuple(line.value(part) for part in rate)
    line.test(sampling in [name.encode() for name in formats.SAMPLINGS] and depth in formats.DEPTHS)
    format = formats.Format(sampling.decode(), depth, width, height, rate)
    fault = formats.fault_of(format)
    if fault:
        raise Stop("format " + fault)
    return format


def test_size(format, window):
    if format.width * format.height * max(len(window), 1) > PIXELS:
        raise Large


def read_opening(lines, format):
    """The receiver of a line `open PT SSRC WINDOW`, with nothing taken."""
    line = lines.next(b"open")
    payload_type = line.numeral(127)
    source = line.field()
    ssrc = None if source == b"any" else line.value(source)
    window = line.window()
    line.end()
    test_window(window, "open", 2)
    test_size(format, window)
    return receivers.Receiver(receivers.Opening(format, payload_type, ssrc), window)


class Session:
    """A receiver that follows the lines behind the first two, and the packet numbers that are
    noted."""

    def __init__(self, receiver, output):
        self.receiver, self.output = receiver, output
        self.first, self.count, self.came = 0, 0, set()
        self.words = {
            b"A": self.take, b"B": self.take, b"slide": self.slide, b"cell": self.cell,
            b"numbers": self.note,
        }

    def follow(self, line):
        word = line.field()
        line.test(word in self.words)
        self.words[word](line)

    def take(self, line):
        octets = line.octets(65535)
        line.end()
        answer = self.receiver.take(octets)
        if answer.startswith("kept "):
            self.came.add((int(answer[5:]) - self.first) % 2**32)
        self.output.append(answer)

    def slide(self, line):
        timestamp = line.numeral()
        line.end()
        self.output.append(self.receiver.slide(timestamp))

    def cell(self, line):
        place = [line.numeral() for _ in range(4)]
        line.end()
        self.output.append(self.receiver.cell(*place))

    def note(self, line):
        """From here on numbers are noted, which a script begins once."""
        first, count = line.numeral(), line.numeral()
        line.end()
        line.test(self.count == 0)
        if not 1 <= count <= 1048576:
            raise Stop("numbers 2 BadCount")
        self.first, self.count, self.came = first, count, set()

    def absent(self):
        """The maximal runs of numbers that did not come."""
        came = sorted(place for place in self.came if place < self.count)
        for begin, end in zip([-1] + came, came + [self.count]):
            if self.count and begin + 1 < end:
                yield "absent %d %d" % ((self.first + begin + 1) % 2**32, end - begin - 1)


def follow_trace(text, output):
    """Puts the lines behind that a script prints."""
    lines = Lines(text)
    session = Session(read_opening(lines, read_format(lines)), output)
    while lines.left:
        session.follow(lines.left.pop(0))
    output += session.receiver.frame_lines()
    output += session.absent()
