"""A second reading of recordings, written apart from the library: the packets up to the end or the
first fault, and that (the drafts of pcap and pcapng; docs/FORMATS.md, "Recordings"; docs/FAULTS.md,
RecordingFault)."""
import collections

from packet_reading import number

# The octets that a packet's buffer has, and that a block has at most (own).
ROOM = 1048576
MOST = 1 << 24
SECTION = b"\x0a\x0d\x0d\x0a"
ORDER_MAGIC = b"\x1a\x2b\x3c\x4d"
# By the first four octets: the order of numbers, and the nanoseconds in a unit of a fraction of a
# second.
MAGICS = {b"\xa1\xb2\xc3\xd4": ("big", 1000), b"\xa1\xb2\x3c\x4d": ("big", 1),
          b"\xd4\xc3\xb2\xa1": ("little", 1000), b"\x4d\x3c\xb2\xa1": ("little", 1)}

# A packet: nanoseconds since 1970, where they are said, and its interface's name, where it has one.
Packet = collections.namedtuple("Packet", "time link octets name")
Interface = collections.namedtuple("Interface", "link snap per_second offset name")


class Faulty(Exception):
    """A recording is refused: the fault's number and name."""


def part(octets, at, count, fault):
    if at + count > len(octets):
        raise Faulty(fault)
    return octets[at:at + count]


def refuse(is_wrong, fault):
    if is_wrong:
        raise Faulty(fault)


class Reading:
    """The packets of a recording, how many of its octets are sound, and the fault behind these, or
    None."""

    def __init__(self, octets):
        self.octets, self.packets, self.sound, self.fault = octets, [], 0, None
        try:
            self.read()
        except Faulty as fault:
            self.fault = str(fault)

    def read(self):
        front = part(self.octets, 0, 4, "2 Truncated")
        if front == SECTION:
            self.read_blocks()
        elif front in MAGICS:
            self.read_pcap(*MAGICS[front])
        else:
            raise Faulty("10 Packed" if front[:2] == b"\x1f\x8b" else "3 BadMagic")

    def read_pcap(self, order, unit):
        head = part(self.octets, 0, 24, "2 Truncated")
        refuse((number(head, 4, 2, order), number(head, 6, 2, order)) != (2, 4), "4 BadVersion")
        link, at = number(head, 20, 4, order) % 65536, 24
        self.sound = at
        while at < len(self.octets):
            head = part(self.octets, at, 16, "2 Truncated")
            seconds, fraction, kept = (number(head, place, 4, order) for place in (0, 4, 8))
            refuse(kept > ROOM, "9 PacketTooLong")
            octets = part(self.octets, at + 16, kept, "2 Truncated")
            self.packets.append(Packet(seconds * 10**9 + fraction * unit, link, octets, None))
            at += 16 + kept
            self.sound = at

    def read_blocks(self):
        at, section = 0, None
        while at < len(self.octets):
            part(self.octets, at, 8, "2 Truncated")
            if self.octets[at:at + 4] == SECTION:
                section = Section(self.octets, at)
                at = section.end
            else:
                at = self.read_block(at, section)
            self.sound = at

    def read_block(self, at, section):
        """Reads a block of no section's beginning. Those of interfaces and of packets need room."""
        kind = section.number(self.octets, at, 4)
        total = block_length(self.octets, at, 12, section.order)
        refuse(kind in (1, 2, 3, 6) and total > ROOM + 12, "9 PacketTooLong")
        body = whole_block(self.octets, at, total, section.order)[8:-4]
        if kind == 1:
            section.describe(body)
        elif kind in (2, 6):
            self.packets.append(section.stamped(body, 4 if kind == 6 else 2))
        elif kind == 3:
            self.packets.append(section.simple(body))
        return at + total


def block_length(octets, at, least, order):
    total = number(octets, at + 4, 4, order)
    refuse(total < least or total % 4 or total > MOST, "5 BadBlock")
    return total


def whole_block(octets, at, total, order):
    """A block, whose length stands at its end once more."""
    whole = part(octets, at, total, "2 Truncated")
    refuse(number(whole, total - 4, 4, order) != total, "5 BadBlock")
    return whole


class Section:
    """A section of a file of pcapng: the order of its numbers, and its interfaces."""

    def __init__(self, octets, at):
        magic = part(octets, at + 8, 4, "2 Truncated")
        refuse(magic not in (ORDER_MAGIC, ORDER_MAGIC[::-1]), "3 BadMagic")
        self.order, self.interfaces = "big" if magic == ORDER_MAGIC else "little", []
        total = block_length(octets, at, 28, self.order)
        fixed = part(octets, at + 12, 12, "2 Truncated")
        version = self.number(fixed, 0, 2), self.number(fixed, 2, 2)
        refuse(version not in ((1, 0), (1, 2)), "4 BadVersion")
        whole_block(octets, at, total, self.order)
        self.end = at + total

    def number(self, octets, at, count):
        return number(octets, at, count, self.order)

    def option(self, options, code):
        """The value of the first option of a code; None where the list ends without one."""
        at = 0
        while at < len(options):
            head = part(options, at, 4, "5 BadBlock")
            found, count = self.number(head, 0, 2), self.number(head, 2, 2)
            if found == 0:
                break
            filled = part(options, at + 4, (count + 3) // 4 * 4, "5 BadBlock")
            if found == code:
                return filled[:count]
            at += 4 + len(filled)
        return None

    def describe(self, body):
        """Notes the interface of a description's body."""
        refuse(len(body) < 8, "5 BadBlock")
        options = body[8:]
        per_second = units(self.option(options, 9))
        offset = self.option(options, 14)
        refuse(offset is not None and len(offset) != 8, "6 BadInterface")
        seconds = int.from_bytes(offset or b"", self.order, signed=True)
        name = self.option(options, 2)
        refuse(len(self.interfaces) == 64, "7 TooManyInterfaces")
        name = None if name is None else name.partition(b"\0")[0]
        link, snap = self.number(body, 0, 2), self.number(body, 4, 4)
        self.interfaces.append(Interface(link, snap, per_second, seconds, name))

    def interface(self, place):
        refuse(place >= len(self.interfaces), "6 BadInterface")
        return self.interfaces[place]

    def stamped(self, body, octets_of_number):
        """The packet of an enhanced or an obsolete block."""
        part(body, 0, 20, "5 BadBlock")
        octets = part(body, 20, self.number(body, 12, 4), "5 BadBlock")
        interface = self.interface(self.number(body, 0, octets_of_number))
        counted = self.number(body, 4, 4) << 32 | self.number(body, 8, 4)
        time = counted * 10**9 // interface.per_second + interface.offset * 10**9
        refuse(not 0 <= time < 2**64, "8 BadTime")
        return Packet(time, interface.link, octets, interface.name)

    def simple(self, body):
        """The packet of a simple block: of the first interface, and without a time."""
        part(body, 0, 4, "5 BadBlock")
        kept, interface = self.number(body, 0, 4), self.interface(0)
        if interface.snap:
            kept = min(kept, interface.snap)
        return Packet(None, interface.link, part(body, 4, kept, "5 BadBlock"), interface.name)


def units(value):
    """The units of time in a second: a power of ten, or with the highest bit set of two; they have
    to fit 64 bits."""
    if value is None:
        return 10**6
    refuse(len(value) != 1, "6 BadInterface")
    per_second = 10**value[0] if value[0] < 128 else 2**(value[0] - 128)
    refuse(per_second >= 2**64, "6 BadInterface")
    return per_second
