"""Hostile scripts of `trace` and of `rehearse`: lines of their forms, some of whose numbers are at
bounds; and then fields turned, lines doubled, left out and exchanged, and octets turned, cut off,
put in and taken out."""
import collections
import re

import rehearsal_lines
import rehearsal_reading
import script_reading
import trace_lines
from programs import Trial

# What stands in place of a field.
FIELDS = (
    b"", b" ", b"-", b"any", b"0", b"4294967295", b"4294967296", b"9999999999", b"10000000000",
    b"0000000007", b"00000000007", b"007", b"+1", b"-1", b"1.", b"0x1", b"60/1/1", b"60/", b"/1",
    b"060/01", b"RGB", b"rgb", b"YCbCr-4:2:0", b"A", b"B", b"C", b"slide", b"cell", b"numbers",
    b"format", b"open", b"80F", b"8g", b"80e0", b"7,", b",7",
)
# Ends of lines, each as often as it stands here.
ENDS = (b"\n",) * 54 + (b"\r\n",) * 8 + (b"\n\n", b"\n\r\n")


# By each command what makes lines of its scripts, and what reads these a second time.
MAKE = {"trace": trace_lines.lines_of, "rehearse": rehearsal_lines.lines_of}
FOLLOW = {
    "trace": script_reading.follow_trace, "rehearse": rehearsal_reading.follow_rehearsal,
}


def turn_field(draws, line):
    """A line with another field in place of one of its own, or with one more or one less."""
    fields = line.split(b" ")
    place, kind = draws.below(len(fields)), draws.below(8)
    other = [] if kind == 1 else [draws.pick(FIELDS)]
    fields[place:place + 1] = fields[place:place + (kind == 0)] + other
    return b" ".join(fields)


def change(draws, lines):
    """Doubles a line, leaves one out, exchanges two, puts another field into one, or spoils its
    octets."""
    if not lines:
        return
    place, other, kind = draws.below(len(lines)), draws.below(len(lines)), draws.below(8)
    if kind == 0:
        lines.insert(other, lines[place])
    elif kind == 1:
        del lines[place]
    elif kind == 2:
        lines[place], lines[other] = lines[other], lines[place]
    else:
        lines[place] = draws.spoil(lines[place]) if kind < 5 else turn_field(draws, lines[place])


def join(draws, lines):
    """The script of lines, some of which end otherwise."""
    text = b"".join(line + draws.pick(ENDS) for line in lines)
    if draws.one_in(48):
        text = text.replace(b"\r", b"\r\r", 1)
    if draws.one_in(8):
        text = text[:-1]
    return draws.spoil(text) if draws.one_in(16) else text


def make_script(draws, lines_of):
    lines = [line.encode() for line in lines_of(draws)]
    if draws.one_in(4):
        for _ in range(draws.below(3) + 1):
            change(draws, lines)
    if draws.one_in(32):
        del lines[draws.below(6):]
    return join(draws, lines)


def kind_of(line):
    """How a line of output begins: its word, and of a refusal its number and name."""
    return re.match(r"refused slide|refused \d+ \w+|\w+", line).group()


def end_of(fault):
    """How a script ends: by a fault without its line or event, or at its end."""
    return re.sub(r"^(script|play 2 BadEvent) \d+$", r"\1", fault) if fault else "at its end"


def make_trial(command, text):
    """What is to become of a script; None where its frames are too large to be run here."""
    output, fault = [], None
    try:
        FOLLOW[command](text, output)
    except script_reading.Stop as stop:
        fault = str(stop)
    except script_reading.Large:
        return None
    came = collections.Counter(kind_of(line) for line in output)
    came["%s ends: %s" % (command, end_of(fault))] += 1
    told = "st2110: %s\n" % fault if fault else ""
    printed = "".join(line + "\n" for line in output)
    return Trial([command], text, int(fault is not None), printed, told, came)


def trials(draws, count):
    """So many scripts, in place of those that are too large as many others."""
    while count > 0:
        command = draws.pick(("trace", "rehearse"))
        draws.odds = draws.pick((4, 16, 64))
        trial = make_trial(command, make_script(draws, MAKE[command]))
        if trial:
            count -= 1
            yield trial
