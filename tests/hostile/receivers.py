"""A second reading of datagrams and receivers, written apart from the libraries: what a receiver
answers (RFC 3550, 5.1; RFC 4175, 4; docs/FAULTS.md, Refusal), and each cell that it holds."""
import collections
import struct

from formats import SAMPLINGS

REFUSALS = (
    "", "ShortHeader", "BadVersion", "ShortExtension", "BadPadding", "WrongPayloadType",
    "WrongSource", "ShortPayloadHeader", "TooManySegments", "SecondField", "BadLength", "BadOffset",
    "RowOutside", "ColumnsOutside", "ShortData",
)

MISSING = "missing"
CONTESTED = "contested"

# What a receiver is opened with, but the window. Any source is None.
Opening = collections.namedtuple("Opening", "format payload_type ssrc")
Segment = collections.namedtuple("Segment", "length field row goes_on offset")


class Refused(Exception):
    """A datagram is refused, by this number."""

    def __init__(self, number):
        super().__init__(number)
        self.number = number


def rtp_payload(octets):
    """What is behind the header of RTP and before its padding."""
    if len(octets) < 12:
        raise Refused(1)
    flags = octets[0]
    if flags >> 6 != 2:
        raise Refused(2)
    at = 12 + 4 * (flags & 15)
    if flags & 0x10:
        if len(octets) < at + 4:
            raise Refused(3)
        at += 4 + 4 * int.from_bytes(octets[at + 2:at + 4], "big")
    if at > len(octets):
        raise Refused(3)
    payload = octets[at:]
    if flags & 0x20:
        padding = payload[-1] if payload else 0
        if not 1 <= padding <= len(payload):
            raise Refused(4)
        payload = payload[:-padding]
    return payload


def read_segments(payload):
    """The sample row data headers of a payload."""
    segments = []
    for at in (2, 8, 14):
        head = payload[at:at + 6]
        if len(head) < 6:
            raise Refused(7)
        length, row, offset = struct.unpack(">HHH", head)
        segments.append(Segment(length, row >> 15, row & 0x7FFF, offset >> 15, offset & 0x7FFF))
        if not segments[-1].goes_on:
            return segments
    raise Refused(8)


def test_segment(segment, format):
    """Refuses a segment that is none of the format; one without octets carries nothing, and
    passes."""
    size, pixels, _ = format.pgroup
    if segment.length == 0:
        return
    if segment.field:
        raise Refused(9)
    if segment.length % size:
        raise Refused(10)
    if segment.offset % pixels:
        raise Refused(11)
    if segment.row >= format.height:
        raise Refused(12)
    if segment.offset + segment.length // size * pixels > format.width:
        raise Refused(13)


def read_datagram(octets, opening):
    """The timestamp, the packet number and the segments of a datagram, each with its octets."""
    payload = rtp_payload(octets)
    _, kind, sequence, timestamp, source = struct.unpack(">BBHII", octets[:12])
    if kind & 127 != opening.payload_type:
        raise Refused(5)
    if opening.ssrc not in (None, source):
        raise Refused(6)
    segments = read_segments(payload)
    for segment in segments:
        test_segment(segment, opening.format)
    data = payload[2 + 6 * len(segments):]
    if len(data) < sum(segment.length for segment in segments):
        raise Refused(14)
    carried = []
    for segment in segments:
        carried.append((segment, data[:segment.length]))
        data = data[segment.length:]
    return timestamp, int.from_bytes(payload[:2], "big") << 16 | sequence, carried


def is_good(octets, opening):
    try:
        read_datagram(octets, opening)
    except Refused:
        return False
    return True


def places_in(octets, opening):
    """Timestamp, row and column where the segments of a datagram begin; none where it is
    refused."""
    if not is_good(octets, opening):
        return []
    timestamp, _, carried = read_datagram(octets, opening)
    return [(timestamp, segment.row, segment.offset) for segment, data in carried if data]


def values_in(octets, depth):
    """The numbers of so many bits that octets spell, the most significant bit first (RFC 4175,
    4.3)."""
    count = 8 * len(octets) // depth
    bits = int.from_bytes(octets, "big") >> 8 * len(octets) - count * depth
    return [bits >> (count - 1 - i) * depth & (1 << depth) - 1 for i in range(count)]


def octets_of(values, depth):
    """The octets that spell values, whose bits are whole octets."""
    bits = 0
    for value in values:
        bits = bits << depth | value
    return bits.to_bytes(len(values) * depth // 8, "big")


class Receiver:
    """The cells of each timestamp, as a list in the order in which samples are sent: no packed
    rows."""

    def __init__(self, opening, window):
        self.opening = opening
        self.frames = collections.OrderedDict((timestamp, self.blank()) for timestamp in window)
        self.places = {place: number for number, place in enumerate(opening.format.positions())}
        self.came = collections.Counter()

    def blank(self):
        return [MISSING] * self.opening.format.samples

    def take(self, octets):
        """What is answered to a datagram; the values of one that is kept are offered to the
        cells."""
        try:
            timestamp, number, carried = read_datagram(octets, self.opening)
        except Refused as refused:
            answer = "refused %d %s" % (refused.number, REFUSALS[refused.number])
            self.came[answer] += 1
            return answer
        if timestamp not in self.frames:
            self.came["outside"] += 1
            return "outside"
        for segment, data in carried:
            self.offer(self.frames[timestamp], segment, data)
        self.came["kept"] += 1
        return "kept %d" % number

    def offer(self, cells, segment, data):
        format = self.opening.format
        by_pixel = 2 if format.sampling == "YCbCr-4:2:2" else 3
        first = by_pixel * (segment.row * format.width + segment.offset)
        for place, value in enumerate(values_in(data, format.depth), first):
            if cells[place] == MISSING:
                cells[place] = value
            elif cells[place] != value:
                cells[place] = CONTESTED

    def slide(self, timestamp):
        """The line of the frame that leaves, or why none does."""
        if timestamp in self.frames:
            return "refused slide 1 InWindow"
        left, cells = self.frames.popitem(last=False)
        self.frames[timestamp] = self.blank()
        return counts_line("out", left, cells)

    def cell(self, timestamp, row, column, component):
        """What is said of a cell."""
        place = self.places.get((row, column, component))
        if timestamp not in self.frames or place is None:
            return "none"
        cell = self.frames[timestamp][place]
        return cell if cell in (MISSING, CONTESTED) else "value %d" % cell

    def frame_lines(self):
        return [counts_line("frame", timestamp, cells) for timestamp, cells in self.frames.items()]


def pgroup_state(cells, depth):
    """A pgroup in a receiver's file (docs/FORMATS.md): contested samples are in the mask, and 0."""
    if cells[0] == MISSING:
        return b"\0"
    mask = sum(1 << place for place, cell in enumerate(cells) if cell == CONTESTED)
    octets = octets_of([0 if cell == CONTESTED else cell for cell in cells], depth)
    return (b"\2" + mask.to_bytes(2, "big") if mask else b"\1") + octets


def state_front(opening, count):
    """The front of a receiver's file of so many timestamps."""
    format, payload_type, ssrc = opening
    block = SAMPLINGS.index(format.sampling), format.depth, format.width, format.height
    octets = b"S20RCV01" + struct.pack(">BBHHII", *block, *format.rate)
    return octets + struct.pack(">BBIB", payload_type, ssrc is not None, ssrc or 0, count)


def state_of(receiver):
    """The file of a receiver (docs/FORMATS.md, "A receiver's file")."""
    format = receiver.opening.format
    octets = state_front(receiver.opening, len(receiver.frames))
    size = format.pgroup[2]
    for timestamp, cells in receiver.frames.items():
        octets += struct.pack(">I", timestamp)
        for place in range(0, len(cells), size):
            octets += pgroup_state(cells[place:place + size], format.depth)
    return octets


def counts_line(word, timestamp, cells):
    """The line of a frame: how many samples are present, missing and contested."""
    missing, contested = cells.count(MISSING), cells.count(CONTESTED)
    present = len(cells) - missing - contested
    counts = word, timestamp, present, missing, contested
    return "%s %d present %d missing %d contested %d" % counts
