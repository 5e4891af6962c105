"""A second reading of files, written apart from the libraries: what a capture says, and the first
fault in the order of the octets (docs/FORMATS.md, "Captures", "Picture files", "A receiver's file";
docs/FAULTS.md, FileFault)."""
import collections

import formats
import receivers
from draws import big, longs, words

Record = collections.namedtuple("Record", "path moment octets")


class Faulty(Exception):
    """A file is refused: the fault's number and name."""


class Octets:
    """Octets that are read from the front on."""

    def __init__(self, octets):
        self.left = octets

    def next(self, count):
        if count > len(self.left):
            raise Faulty("5 Truncated")
        front, self.left = self.left[:count], self.left[count:]
        return front

    def number(self, octets):
        return int.from_bytes(self.next(octets), "big")

    def version(self, name, versions):
        """The version of a file, two digits behind its name; the two are refused once both are
        there."""
        front = self.next(8)
        refuse(front[:6] != name, "3 BadName")
        refuse(front[6:] not in versions, "4 BadVersion")
        return front[6:]

    def end(self):
        refuse(self.left != b"", "7 TrailingBytes")


def refuse(is_wrong, fault):
    if is_wrong:
        raise Faulty(fault)


def read_block(octets):
    """The format of a block of fourteen octets."""
    block = Octets(octets.next(14))
    sampling, depth = block.number(1), block.number(1)
    width, height = block.number(2), block.number(2)
    refuse(sampling > 2 or depth not in formats.DEPTHS, "6 BadField")
    rate = block.number(4), block.number(4)
    format = formats.Format(formats.SAMPLINGS[sampling], depth, width, height, rate)
    refuse(formats.fault_of(format) or not formats.is_lowest(*rate), "6 BadField")
    return format


def block_octets(format):
    """The block of a format."""
    octets = bytes((formats.SAMPLINGS.index(format.sampling), format.depth))
    return octets + words(format.width, format.height) + longs(*format.rate)


def read_front(octets, versions):
    """The text of a capture, which version 01 has none of."""
    version = octets.version(b"S20CAP", versions)
    return octets.next(octets.number(2)) if version == b"02" else b""


def read_record(octets):
    """The next record: its head is whole before its path is looked at."""
    head = Octets(octets.next(11))
    path, moment, length = head.number(1), head.number(8), head.number(2)
    refuse(path > 1, "6 BadField")
    return Record(path, moment, octets.next(length))


def read_capture(octets, versions=(b"01", b"02")):
    """The text of a capture, or None, its records, and its fault, or None: what stands before a
    fault is sound."""
    octets, text, records = Octets(octets), None, []
    try:
        text = read_front(octets, versions)
        while octets.left:
            records.append(read_record(octets))
    except Faulty as fault:
        return text, records, str(fault)
    return text, records, None


def capture_octets(text, records):
    """A capture of version 02."""
    octets = b"S20CAP02" + words(len(text)) + text
    for path, moment, carried in records:
        octets += big(path, 1) + big(moment, 8) + words(len(carried)) + carried
    return octets


def read_picture(octets):
    """Refuses octets that are no picture's file; the format of a picture."""
    octets = Octets(octets)
    octets.version(b"S20PIC", (b"01",))
    format = read_block(octets)
    octets.next(format.pgroups * format.pgroup[0])
    octets.end()
    return format


def read_state(octets):
    """The receiver that a file has: each cell of each frame."""
    octets = Octets(octets)
    octets.version(b"S20RCV", (b"01",))
    format = read_block(octets)
    payload_type = octets.number(1)
    refuse(payload_type > 127, "6 BadField")
    flag = octets.number(1)
    refuse(flag > 1, "6 BadField")
    ssrc = octets.number(4)
    refuse(ssrc > 0 and flag == 0, "6 BadField")
    count = octets.number(1)
    refuse(not 1 <= count <= 16, "6 BadField")
    opening = receivers.Opening(format, payload_type, ssrc if flag else None)
    receiver = receivers.Receiver(opening, ())
    for _ in range(count):
        timestamp = octets.number(4)
        refuse(timestamp in receiver.frames, "6 BadField")
        pgroups = [read_pgroup(octets, format) for _ in range(format.pgroups)]
        receiver.frames[timestamp] = sum(pgroups, [])
    octets.end()
    return receiver


def read_pgroup(octets, format):
    """The cells of a pgroup: its state, and what follows by that."""
    size, _, samples = format.pgroup
    state = octets.number(1)
    refuse(state > 2, "6 BadField")
    if state == 0:
        return [receivers.MISSING] * samples
    mask = octets.number(2) if state == 2 else 0
    cells = receivers.values_in(octets.next(size), format.depth)
    refuse(state == 2 and not 0 < mask < 1 << samples, "8 MixedGroup")
    for place in range(samples):
        if mask >> place & 1:
            refuse(cells[place] != 0, "8 MixedGroup")
            cells[place] = receivers.CONTESTED
    return cells
