"""Hostile files: captures, pictures and receivers' files, mostly sound, but fields now and then at
a bound or beside it, and octets turned, cut off, put in and taken out. What is read is written
again, as the same octets: a picture by `convert`, a receiver's file by `merge` with itself, a
capture's records by `migrate` or `import`."""
import collections

import file_reading
import formats
from draws import big, longs, words
from programs import Trial

RATES = ((60000, 1001), (1000000, 999999), (300, 1), (25, 1))
# The text that a written capture has, an SDP.
TEXT = (
    b"m=video 5004 RTP/AVP 96\na=rtpmap:96 raw/90000\na=fmtp:96 sampling=YCbCr-4:2:2; width=4; "
    b"height=2; exactframerate=60; depth=8; colorimetry=BT709; PM=2110GPM; SSN=ST2110-20:2017\n"
)


def front(draws, name, version):
    """Name and version; now and then the last digit is another."""
    return name + big(48 + draws.number(version, 9), 1)


def make_capture(draws):
    """A capture of version 01 or 02, of up to three records."""
    version = draws.below(2) + 1
    octets = front(draws, b"S20CAP0", version)
    if version == 2:
        text = draws.octets(draws.below(5))
        octets += words(draws.number(len(text), 65535)) + text
    for _ in range(draws.below(4)):
        data = draws.octets(draws.below(40))
        octets += big(draws.at_bound(len(data) % 2, (2, 255), 48), 1)
        octets += longs(draws.below(3), draws.below(65536))
        octets += words(draws.number(len(data), 65535)) + data
    return octets


def side(draws, sound):
    """A width or height: a large one is none, so that no file asks for much memory."""
    number = draws.at_bound(draws.number(sound, 65535), (0, 1, 2, 8193, 8194), 48)
    return sound if 64 < number <= 8192 else number


def block(draws):
    """A format block, whose fields are now and then others, and the format that it was made for."""
    sampling, depth = draws.below(3), draws.pick(formats.DEPTHS)
    n, d = draws.pick(RATES)
    width, height = 4 * draws.below(3) + 4, draws.below(3) + 1
    format = formats.Format(formats.SAMPLINGS[sampling], depth, width, height, (n, d))
    octets = big(draws.number(sampling, 255), 1) + big(draws.number(depth, 255), 1)
    octets += words(side(draws, width), side(draws, height))
    return octets + longs(draws.number(n, 1000001), draws.number(d, 1000001)), format


def make_picture(draws):
    octets, format = block(draws)
    return front(draws, b"S20PIC0", 1) + octets + draws.octets(format.pgroups * format.pgroup[0])


def make_state(draws):
    """A receiver's file of up to three timestamps."""
    octets, format = block(draws)
    flag = draws.below(2)
    octets = front(draws, b"S20RCV0", 1) + octets
    payload_type = draws.at_bound(96, (0, 127, 128), 24)
    octets += big(payload_type, 1) + big(draws.at_bound(flag, (2, 255, 1 - flag), 16), 1)
    octets += longs(draws.number(flag * draws.below(9), 2**32 - 1))
    count = draws.below(3) + 1
    octets += big(draws.at_bound(count, (0, 16, 17, 255), 12), 1)
    for place in range(count):
        octets += longs(draws.number(900 + place, 2**32 - 1))
        octets += b"".join(pgroup(draws, format) for _ in range(format.pgroups))
    return octets


def pgroup(draws, format):
    """A pgroup of any state, now and then of none that there is."""
    state = draws.below(3)
    octets = big(draws.at_bound(state, (3, 4, 255), 256), 1)
    if state == 1:
        octets += draws.octets(format.pgroup[0])
    return octets + mixed(draws, format) if state == 2 else octets


def mixed(draws, format):
    """A pgroup of which one sample is contested, and written as 0; so are most others."""
    size, _, samples = format.pgroup
    sample = draws.below(samples)
    octets = bytearray(size)
    for place in range(size):
        if draws.one_in(512) or place == size - 1 and sample == 0:
            octets[place] = draws.below(256)
    mask = draws.at_bound(1 << sample, (0, 1, 3, 1 << samples, 0x8000, 0xFFFF), 48)
    return words(mask) + bytes(octets)


def capture_trial(draws, octets):
    """What is written of a capture: `migrate` takes version 01 alone, and writes its front before
    the records; `import`, which takes both, sorts files by the moments of their first records, so
    that it wants one before it writes."""
    if draws.one_in(2):
        text, records, fault = file_reading.read_capture(octets, (b"01",))
        command, begins = ["migrate"], text is not None
        told = "records %d\n" % len(records)
    else:
        text, records, fault = file_reading.read_capture(octets)
        command, begins = ["import", "--a", "5004", "--b", "5006"], bool(records) or fault is None
        by_a = sum(record.path == 0 for record in records)
        told = "recorded A %d B %d left out 0\n" % (by_a, len(records) - by_a)
    command += ["--sdp", "text.sdp", "--out", "-", "capture"]
    files = {"text.sdp": TEXT, "capture": octets}
    output = file_reading.capture_octets(TEXT, records) if begins else b""
    trial = file_trial(command, files, "capture", fault, output, told)
    trial.view = without_flows
    return trial


def without_flows(answer):
    """Behind `recorded A 0 B 0`, `import` says so of a capture without records: that there are no
    flows."""
    return answer._replace(faults=answer.faults.splitlines(True)[0]) if answer.faults else answer


def file_trial(command, files, subject, fault, output, told):
    """The trial of a file that is refused by a fault, or of which this is written and told."""
    came = collections.Counter(["%s: %s" % (subject, fault or "read")])
    if fault is not None:
        told = "st2110: %s %s\n" % (subject, fault)
    return Trial(command, b"", int(fault is not None), output, told, came, files)


def picture_trial(octets):
    command = ["convert", "--from", "picture", "--as", "picture", "picture", "-"]
    fault = None
    try:
        file_reading.read_picture(octets)
    except file_reading.Faulty as refused:
        fault = str(refused)
    output = octets if fault is None else b""
    return file_trial(command, {"picture": octets}, "picture", fault, output, "")


def state_trial(octets):
    command, told, fault = ["merge", "--state", "-", "state", "state"], "", None
    try:
        lines = file_reading.read_state(octets).frame_lines()
        told = "".join(line + "\n" for line in lines)
    except file_reading.Faulty as refused:
        fault = str(refused)
    output = octets if fault is None else b""
    return file_trial(command, {"state": octets}, "state", fault, output, told)


def trials(draws, count):
    for _ in range(count):
        kind = draws.below(3)
        draws.odds = draws.pick((4, 16, 64))
        octets = (make_capture, make_picture, make_state)[kind](draws)
        if draws.one_in(2):
            octets = draws.spoil(octets)
        if kind == 0:
            yield capture_trial(draws, octets)
        else:
            yield picture_trial(octets) if kind == 1 else state_trial(octets)
