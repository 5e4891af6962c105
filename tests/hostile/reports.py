"""Reports of receivers' files (docs/FORMATS.md, "Reports"): made ones, some of which are refused,
and one of a row of which each second pgroup came."""
import collections
import itertools

import file_reading
import files
import receivers
from draws import longs
from formats import Format
from programs import Trial

NAMES = {"YCbCr-4:2:2": ("Y", "Cb", "Cr"), "YCbCr-4:4:4": ("Y", "Cb", "Cr"), "RGB": "RGB"}


def missing_lines(format, cells):
    """A line for each maximal run of missing pgroups of each row."""
    _, pixels, samples = format.pgroup
    by_row = format.width // pixels
    for row in range(format.height):
        first = row * by_row
        gone = [cells[(first + at) * samples] == receivers.MISSING for at in range(by_row)]
        for is_gone, run in itertools.groupby(range(by_row), gone.__getitem__):
            run = list(run)
            if is_gone:
                ends = row, run[0] * pixels, (run[-1] + 1) * pixels - 1
                yield "missing row %d columns %d to %d" % ends


def contested_lines(format, cells):
    """A line for each contested sample, in the order in which they are sent."""
    for cell, (row, column, component) in zip(cells, format.positions()):
        if cell == receivers.CONTESTED:
            name = NAMES[format.sampling][component]
            yield "contested row %d column %d %s" % (row, column, name)


def report_lines(receiver):
    format, payload_type, ssrc = receiver.opening
    source = "any" if ssrc is None else ssrc
    yield "receiver %s pt %d ssrc %s" % (format.words(), payload_type, source)
    for (timestamp, cells), line in zip(receiver.frames.items(), receiver.frame_lines()):
        yield line
        yield from missing_lines(format, cells)
        yield from contested_lines(format, cells)
    yield "end"


def report_trial(octets):
    """The report of a receiver's file, or its refusal."""
    output, fault = "", None
    try:
        lines = report_lines(file_reading.read_state(octets))
        output = "".join(line + "\n" for line in lines)
    except file_reading.Faulty as refused:
        fault = str(refused)
    return files.file_trial(["report", "state"], {"state": octets}, "state", fault, output, "")


def wide_trial():
    """A row of 8192 pgroups, of which each second one came: what is told is more than a page."""
    format = Format("YCbCr-4:4:4", 8, 8192, 1, (60, 1))
    front = receivers.state_front(receivers.Opening(format, 96, None), 1)
    octets = front + longs(900) + b"\1\1\0\1\0" * 4096
    lines = ["receiver YCbCr-4:4:4 8 8192 1 60/1 pt 96 ssrc any"]
    lines.append("frame 900 present 12288 missing 12288 contested 0")
    lines += ["missing row 0 columns %d to %d" % (at, at) for at in range(1, 8192, 2)] + ["end"]
    output, came = "".join(line + "\n" for line in lines), collections.Counter(["wide"])
    return Trial(["report", "state"], b"", 0, output, "", came, {"state": octets})


def trials(draws, count):
    yield wide_trial()
    for _ in range(count):
        draws.odds = draws.pick((16, 64, 256))
        yield report_trial(files.make_state(draws))
