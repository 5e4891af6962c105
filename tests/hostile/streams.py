"""Hostile streams: pictures by one to three files, captures and recordings, whose rows are lost,
come again, differ, come too late or too early, and are sent anew far off; and among them what is of
no stream. `follow` tells each frame as it leaves, by each size of a window, early and not."""
import collections

import file_reading
import forms
import sdp_reading
import stream_reading
from draws import longs, words
from formats import DEPTHS, SAMPLINGS, Format
from programs import Trial
from receivers import Opening
from stream_reading import File, Sent

# How many ticks lie between pictures, and how many datagrams a file was to have.
TICKS = 1500
SENT = 60
# The times of the first pictures: a hundred pictures before timestamps go round, where they do,
# before half of the round, and any.
BASES = (2**32 - 150000, 2**32, 2**31 - 3000, 12345678)
# What a stray is off by, and how far off a sender begins anew: exactly ten seconds, and one tick
# more.
STRAYS = (1800000, 900000, 900001, -150000, -1800000)
JUMPS = (2000000, -2000000, 900001, -900001)
# A sender's report (RFC 3550, 6.4.1) up to its RTP timestamp: as a header of RTP it has the payload
# type 72, and where a timestamp stands its source.
REPORT = bytes.fromhex("80c80006 7fffffff 00000001 00000002 00000003")
# A file of pcap in microseconds and of raw IP; and a packet of TCP.
PCAP = bytes.fromhex("a1b2c3d4 0002 0004 00000000 00000000 00040000 00000065")
TCP = bytes.fromhex("45000014 00004000 40060000 c0000201 c0000202")
# How the lines begin that are compared of standard error.
TOLD = (b"st2110: ", b"frame ", b"frames ", b"anew ", b"late wants ")


class Sender:
    """What sends the pictures of a stream: how many are drawn from at a time, whether there are
    strays, and where it begins anew, if it does."""

    def __init__(self, draws):
        sampling, depth = draws.pick(SAMPLINGS), draws.pick(DEPTHS)
        format = Format(sampling, depth, 4 * draws.below(2) + 4, draws.below(3) + 1, (60, 1))
        kind = draws.pick((96, 112, 127, 0, 1))
        self.opening = Opening(format, kind, draws.pick((None, 0, 7)))
        self.base, self.spread = draws.pick(BASES), draws.below(20) + 1
        self.has_strays = draws.one_in(2)
        self.jump = draws.pick(JUMPS) if draws.one_in(4) else 0

    def time(self, draws, head, is_anew):
        """The time of a datagram that is sent at a picture."""
        time = self.base + TICKS * (head - draws.below(self.spread))
        if self.has_strays and draws.one_in(30):
            time += draws.pick(STRAYS)
        return time + self.jump * is_anew

    def header(self, time, number):
        source = longs(self.opening.ssrc or 0)
        kind = words(0x8000 | self.opening.payload_type, number)
        return kind + longs(time % 2**32) + source + words(number >> 16)

    def row(self, draws, time, number):
        """A row of the picture of a time, mostly all of it; now and then it is one that there
        isn't, or another value."""
        format = self.opening.format
        size, pixels, _ = format.pgroup
        groups, row = format.width // pixels, draws.below(format.height)
        first = draws.below(groups) if draws.one_in(8) else 0
        data = bytes((time // TICKS + 5 * row + place) % 256 for place in range(size * groups))
        data = bytearray(data[size * first:])
        if draws.one_in(12):
            data[draws.below(len(data))] ^= 1 << draws.below(8)
        row = draws.at_bound(row, (format.height,), 40)
        return self.header(time, number) + words(len(data), row, first * pixels) + bytes(data)

    def other(self, draws, time, number):
        """A datagram that is of no stream, or of another one a minute later."""
        octets = self.row(draws, time + 5400000, number)
        turned = bytes([octets[1] ^ 1])
        other = octets[:1] + turned + octets[2:]
        source = octets[:11] + bytes([octets[11] ^ 3]) + octets[12:]
        version = b"\x40" + octets[1:]
        kinds = (REPORT, other, version, b"", octets[:11])
        return draws.pick(kinds + (source,) * 2 if self.opening.ssrc else kinds)

    def sent_by(self, draws):
        """What came by a file: one of eight datagrams is lost."""
        sent, head = [], 20
        for place in range(draws.pick((SENT, SENT, SENT, 5, 1, 0))):
            head += draws.one_in(3)
            time = self.time(draws, head, 3 * place > SENT)
            make = self.other if draws.one_in(40) else self.row
            datagram = Sent(time, make(draws, time, place))
            if not draws.one_in(8):
                sent.append(datagram)
        return sent


def text_of(opening):
    kind = opening.payload_type
    leg = sdp_reading.Leg(kind, opening.format, b"NARROW", b"BT709")
    section = "m=video 5004 RTP/AVP %d\na=rtpmap:%d raw/90000\n" % (kind, kind)
    return (section + sdp_reading.canonical_line(leg) + "\n").encode()


class FilesOfStream:
    """Files of a stream: their octets by their names, what a second reading has of each, and the
    words that take them."""

    def __init__(self, draws, sender):
        text = text_of(sender.opening)
        self.octets, self.read, self.words = {}, [], []
        kinds = [draws.one_in(3) for _ in range(draws.pick((1, 2, 2, 2, 2, 3)))]
        has_text = not kinds[0] and draws.one_in(2)
        if not has_text:
            self.octets["text.sdp"] = text
            self.words += ["--sdp", "text.sdp"]
        if True in kinds:
            self.words += ["--a", "5004", "--b", "5006"]
        for number, is_recording in enumerate(kinds):
            sent = sender.sent_by(draws)
            front = text if has_text and number == 0 else b""
            self.add(draws, "file-%d" % number, is_recording, front, sent)
        self.words += ["file-%d" % number for number in range(len(kinds))]

    def add(self, draws, name, is_recording, text, sent):
        """Puts a file behind the others; now and then one that is cut within its last datagram."""
        octets, fault = PCAP if is_recording else file_reading.capture_octets(text, []), None
        for datagram in sent:
            last = packet(draws, datagram.octets) if is_recording else record(draws, datagram)
            octets += last + (others(draws, last) if is_recording else b"")
        if sent and draws.one_in(12):
            octets = octets[:octets.rindex(last) + 1 + draws.below(len(last) - 1)]
            fault = "recording 2 Truncated" if is_recording else "capture 5 Truncated"
            sent = sent[:-1]
        self.octets[name] = octets
        self.read.append(File(sent, fault))


def record(draws, datagram):
    """The record of a datagram in a capture, by either path."""
    entry = file_reading.Record(draws.below(2), 0, datagram.octets)
    return file_reading.capture_octets(b"", [entry])[10:]


def packet(draws, octets):
    """The packet of a datagram to the port of either path, in a recording."""
    udp = words(5004, draws.pick((5004, 5006)), 8 + len(octets), 0) + octets
    return kept(words(0x4500, 20 + len(udp)) + TCP[4:9] + b"\x11" + TCP[10:] + udp)


def kept(octets):
    return longs(0, 5, len(octets), len(octets)) + octets


def others(draws, last):
    """Now and then a packet that is no datagram, or one to another port."""
    octets = kept(TCP) if draws.one_in(16) else b""
    return octets + last[:38] + words(5008) + last[40:] if draws.one_in(16) else octets


class StreamTrial(Trial):
    """What `follow` tells of files that a second reading has as these, and the pictures that it
    makes of the frames, where it is asked for them."""

    def __init__(self, opening, size, is_early, files, words=(), fill=None, is_held=False):
        stream, fault = stream_reading.follow(files.read, opening, size, is_early)
        command = ["follow", "--window", "%d" % size] + ["--eager"] * is_early + list(words)
        if opening.ssrc is not None:
            command += ["--ssrc", "%d" % opening.ssrc]
        told, output = "".join(line + "\n" for line in stream.lines), b""
        if fill:
            frames = stream_reading.settled(opening.format, stream.left, fill, is_held)
            output = forms.pictures(opening.format, frames)
        faults = "st2110: %s\n" % fault if fault else ""
        output, faults = (output, told + faults) if fill else (told, faults)
        came = stream.counts + collections.Counter(["files: %s" % (fault or "read")])
        came.update(streams=1)
        status = int(fault is not None)
        super().__init__(command + files.words, b"", status, output, faults, came, files.octets)

    def view(self, answer):
        """Without what is told of packets that are left out."""
        lines = answer.faults.splitlines(True)
        told = b"".join(line for line in lines if line.startswith(TOLD))
        return answer._replace(faults=told)


def picture_words(draws, format):
    """Words by which pictures are made now and then; what a sample without a value gets, and
    whether pictures are held."""
    most = (1 << format.depth) - 1
    if draws.one_in(2):
        return (), None, False
    words, fill = ["--out", "-"], forms.black(format)
    if draws.one_in(2):
        numbers = [draws.number(draws.below(most + 1), 65535) for _ in range(3)]
        words += ["--fill", ",".join(map(str, numbers))]
        fill = [min(number, most) for number in numbers]
    is_held = draws.one_in(2)
    return words + ["--hold"] * is_held, fill, is_held


def any_trial(draws):
    sender = Sender(draws)
    files = FilesOfStream(draws, sender)
    size, is_early = draws.below(16) + 1, draws.one_in(2)
    words, fill, is_held = picture_words(draws, sender.opening.format)
    return StreamTrial(sender.opening, size, is_early, files, words, fill, is_held)


class WideFile:
    """A capture of a frame that is too large to be written at once: every second run of a hundred
    pgroups came."""

    def __init__(self, draws, opening):
        size, pixels, _ = opening.format.pgroup
        groups, sent = opening.format.width // pixels, []
        for row in range(opening.format.height):
            for first in range(draws.below(50), groups - 100, 200):
                head = words(0x8000 | opening.payload_type, 7) + longs(900, 1)
                head += words(0, 100 * size, row, first * pixels)
                sent.append(Sent(900, head + draws.octets(100 * size)))
        octets = file_reading.capture_octets(text_of(opening), [])
        octets += b"".join(record(draws, datagram) for datagram in sent)
        self.octets, self.words, self.read = {"wide": octets}, ["wide"], [File(sent, None)]


def wide_trials(draws):
    """Of each sampling and depth, held or not: 4,096 pgroups are written at once."""
    for place, (sampling, depth) in enumerate((it, bits) for it in SAMPLINGS for bits in DEPTHS):
        opening = Opening(Format(sampling, depth, 4104, 4, (60, 1)), 96, None)
        words = ["--out", "-", "--fill", "16,200,128"] + ["--hold"] * (place % 2)
        files = WideFile(draws, opening)
        yield StreamTrial(opening, 1, False, files, words, (16, 200, 128), place % 2 == 1)


def trials(draws, count):
    """So many streams, and wide frames."""
    for _ in range(count):
        yield any_trial(draws)
    yield from wide_trials(draws)
