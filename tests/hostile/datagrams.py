"""Hostile datagrams: mostly sound, but each field now and then at a bound or beside it, and octets
turned, cut off, put in and taken out. A receiver takes 64 of them by one script of `trace`, which
then asks for each cell; and by `receive` of a capture, which counts the refusals and writes the
receiver's file, also of wide frames."""
import collections
import itertools
import re

import file_reading
import receivers
import sdp_reading
from draws import big, longs, words
from formats import DEPTHS, SAMPLINGS, TIMESTAMPS, Format, any_format
from programs import Trial

# How many datagrams a receiver is given.
ROUND = 64
# How many columns a wide frame has, whose rows are some blocks of 64 pgroups, and some more; and
# how many of these there are in a round.
WIDE = 840
WIDE_ROUNDS = 4
# How many segments there are, each as often as it stands here: four are refused.
SEGMENTS = (4, 3, 3, 3, 3, 2, 2, 2, 2, 1, 1, 1, 1, 1, 1, 1)


def header(draws, opening, window):
    """The RTP header, with CSRC words and an extension now and then (RFC 3550, 5.1 and 5.3.1)."""
    count, extends = draws.one_of(8, 16, 0), draws.one_in(8)
    flags = draws.one_of(32, 4, 2) << 14 | extends << 12 | count << 8 | draws.below(2) << 7
    octets = words(flags | draws.number(opening.payload_type, 127), draws.number(7, 65535))
    octets += longs(draws.number(draws.pick(window), 2**32 - 1))
    octets += longs(draws.number(opening.ssrc or 1, 2**32 - 1))
    octets += longs(*(draws.below(9) for _ in range(count)))
    if extends:
        count = draws.below(3)
        octets += words(0xBEDE, draws.number(count, 65535))
        octets += longs(*(draws.below(9) for _ in range(count)))
    return octets


def segment_header(draws, format, goes_on):
    """The header of a segment, and how many octets it was to have before a field was spoiled."""
    size, pixels, _ = format.pgroup
    groups = format.width // pixels
    first = draws.below(groups)
    length = draws.below(groups - first + 1) * size
    row = draws.number(draws.below(format.height), 65535)
    offset = draws.at_bound(first * pixels, (first * pixels + 2,), 48)
    offset = goes_on << 15 | draws.number(offset, 32767)
    return words(draws.number(length, 65535), row, offset), length


def segments(draws, format):
    """The headers of one to four segments, and their octets: mostly the same ones, so that values
    agree, in wide frames over many pgroups."""
    count = draws.pick(SEGMENTS)
    heads = [segment_header(draws, format, place + 1 < count) for place in range(count)]
    length = min(sum(length for _, length in heads), 16384)
    odds = 16 if format.width < WIDE else draws.pick((16, 256, 4096))
    data = bytes(draws.one_of(odds, 256, 0x5A) for _ in range(length))
    return b"".join(head for head, _ in heads) + data


def padding(draws):
    """Some padding, whose last octet says how long it is (RFC 3550, 5.1)."""
    count = draws.below(6)
    return bytes(count - 1) + big(draws.number(count, 255), 1) if count else b""


def make_datagram(draws, opening, window):
    """A datagram; now and then one with nothing behind its header but padding."""
    octets = header(draws, opening, window)
    if not draws.one_in(64):
        octets += words(draws.number(draws.pick((1, 1, 1, 0)), 65535))
        octets += segments(draws, opening.format)
    if draws.one_in(8):
        octets = big(octets[0] | 0x20, 1) + octets[1:] + padding(draws)
    return draws.spoil(octets) if draws.one_in(4) else octets


def any_opening(draws):
    ssrc = draws.number(1, 2**32 - 1) if draws.one_in(2) else None
    return receivers.Opening(any_format(draws), draws.below(128), ssrc)


def opening_lines(opening, window):
    source = "any" if opening.ssrc is None else opening.ssrc
    window = ",".join(map(str, window))
    opens = "open %d %s %s" % (opening.payload_type, source, window)
    return ["format " + opening.format.words(), opens]


def cell_lines(receiver):
    """A question for each cell of a receiver, and its answer."""
    for timestamp in receiver.frames:
        for place in receiver.places:
            yield "cell %d %d %d %d" % ((timestamp,) + place), receiver.cell(timestamp, *place)


def make_datagrams(draws, opening, window, count):
    """So many datagrams, each with its path."""
    return [(draws.pick("AB"), make_datagram(draws, opening, window)) for _ in range(count)]


def trace_trial(opening, window, datagrams):
    """The script of a receiver and these datagrams, and what is printed of them."""
    receiver = receivers.Receiver(opening, window)
    lines, wanted = opening_lines(opening, window), []
    for path, octets in datagrams:
        lines.append("%s %s" % (path, octets.hex() or "-"))
        wanted.append(receiver.take(octets))
    for line, answer in cell_lines(receiver):
        lines.append(line)
        wanted.append(answer)
    wanted += receiver.frame_lines()
    script = "\n".join(lines) + "\n"
    trial = Trial(["trace"], script.encode(), 0, "\n".join(wanted) + "\n", "", receiver.came)
    trial.shorten = lambda output: shorten(lines, wanted, output)
    return trial


def capture_of(opening, datagrams):
    """The capture of datagrams, its text the SDP of the receiver that takes them."""
    leg = sdp_reading.Leg(opening.payload_type, opening.format, b"NARROW", b"BT709")
    kind = opening.payload_type
    text = "m=video 5004 RTP/AVP %d\na=rtpmap:%d raw/90000\n%s\n" % (
        kind, kind, sdp_reading.canonical_line(leg)
    )
    records = [
        file_reading.Record("AB".index(path), moment, octets)
        for moment, (path, octets) in enumerate(datagrams)
    ]
    return file_reading.capture_octets(text.encode(), records)


def refusal_lines(came):
    """How often each refusal came, by their numbers, and then how many datagrams were outside the
    window."""
    refused = [answer for answer in came if answer.startswith("refused")]
    refused.sort(key=lambda answer: int(answer.split()[1]))
    lines = ["%s %d" % (answer, came[answer]) for answer in refused]
    return lines + ["outside %d" % came["outside"]] * (came["outside"] > 0)


def receive_trial(opening, window, datagrams):
    """The same datagrams as a capture: how many were refused, and the receiver's file."""
    receiver = receivers.Receiver(opening, window)
    for _, octets in datagrams:
        receiver.take(octets)
    lines = ["delivered %d" % len(datagrams)] + refusal_lines(receiver.came)
    told = "\n".join(lines + receiver.frame_lines()) + "\n"
    command = ["receive", "--refusals", "--window", ",".join(map(str, window)), "--state", "-"]
    if opening.ssrc is not None:
        command += ["--ssrc", str(opening.ssrc)]
    files = {"capture": capture_of(opening, datagrams)}
    state = receivers.state_of(receiver)
    trial = Trial(command + ["capture"], b"", 0, state, told, collections.Counter(), files)
    trial.view = without_losses
    return trial


def wide_trial(draws):
    """Datagrams of wide rows, given to `receive`."""
    format = Format(draws.pick(SAMPLINGS), draws.pick(DEPTHS), WIDE, 2, (60, 1))
    opening, odds = receivers.Opening(format, draws.below(128), None), draws.odds
    draws.odds = 64
    datagrams = make_datagrams(draws, opening, (900,), draws.below(24) + 1)
    draws.odds = odds
    return receive_trial(opening, (900,), datagrams)


def without_losses(answer):
    """An answer without what `receive` adds of lost and refused datagrams."""
    return answer._replace(faults=re.sub(rb"(?m)^  .*\n", b"", answer.faults))


def shorten(lines, wanted, output):
    """The script with the one datagram that was answered otherwise, where no cell was asked for
    before."""
    answers = itertools.zip_longest(wanted, output.splitlines())
    for line, (answer, found) in zip(lines[2:], answers):
        if answer != found:
            return "\n".join(lines if line.startswith("cell") else lines[:2] + [line])
    return "\n".join(lines)


def trials(draws, count):
    for left in range(count, 0, -ROUND):
        opening, window = any_opening(draws), TIMESTAMPS[:draws.below(4) + 1]
        datagrams = make_datagrams(draws, opening, window, min(left, ROUND))
        yield trace_trial(opening, window, datagrams)
        yield receive_trial(opening, window, datagrams)
        for _ in range(WIDE_ROUNDS):
            yield wide_trial(draws)
