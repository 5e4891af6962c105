"""A second reading of SDP texts, written apart from the libraries: the canonical line, or the first
fault by its number (RFC 8866; SMPTE ST 2110-20; docs/FORMATS.md, "SDP"; docs/FAULTS.md,
SdpFault)."""
import collections
import math

import formats

REQUIRED = (
    b"sampling", b"width", b"height", b"exactframerate", b"depth", b"colorimetry", b"PM", b"SSN"
)
SAMPLINGS = tuple(name.encode() for name in formats.SAMPLINGS)
RANGES = (b"NARROW", b"FULLPROTECT", b"FULL")
BLANK = b" \t"

# What a video section says.
Leg = collections.namedtuple("Leg", "payload_type format range colorimetry")


class Faulty(Exception):
    """A text is refused: the fault's number and name."""


def refuse(is_wrong, fault):
    if is_wrong:
        raise Faulty(fault)


def number(text):
    """The number of one to ten decimal digits that is below 2^32, or None."""
    is_number = 1 <= len(text) <= 10 and all(48 <= octet <= 57 for octet in text)
    return int(text) if is_number and int(text) < 2**32 else None


def sections_of(text):
    """The lines of each section, the session's first."""
    lines = [line[:-1] if line.endswith(b"\r") else line for line in text.split(b"\n")]
    sections = [[]]
    for line in lines:
        if line.startswith(b"m="):
            sections.append([])
        sections[-1].append(line)
    return sections


def payload_type_of(line):
    """The payload type of a line `m=video PORT RTP/AVP PT`."""
    fields = line.rstrip(BLANK).split(b" ")
    refuse(len(fields) != 4 or fields[2] != b"RTP/AVP", "4 BadMediaLine")
    port, payload_type = number(fields[1]), number(fields[3])
    refuse(port is None or port > 65535, "4 BadMediaLine")
    refuse(payload_type is None or payload_type > 127, "4 BadMediaLine")
    return payload_type


def attribute(section, name, payload_type, fault):
    """What stands behind the first line `NAME:PT ` of a section."""
    for line in section:
        if line.startswith(name):
            kind, space, behind = line[len(name):].partition(b" ")
            if space and number(kind) == payload_type:
                return behind
    raise Faulty(fault)


def items_of(text):
    """The names and values of items."""
    for part in text.split(b";"):
        part = part.strip(BLANK)
        if part:
            name, _, value = part.partition(b"=")
            yield name.rstrip(BLANK), value.lstrip(BLANK)


def rate_of(text):
    """A rate's two numbers, the second 1 where there is one alone; or None."""
    numbers = [number(part) for part in text.split(b"/")]
    if len(numbers) > 2 or None in numbers:
        return None
    return tuple(numbers) if len(numbers) == 2 else (numbers[0], 1)


def is_formed(name, value):
    """Whether a value is of the form of its name."""
    if name in (b"width", b"height"):
        return number(value) is not None
    if name == b"exactframerate":
        return rate_of(value) is not None
    if name == b"colorimetry":
        return 1 <= len(value) <= 32 and all(33 <= octet <= 126 for octet in value)
    return name != b"" and (name != b"RANGE" or value in RANGES)


def format_of(values):
    """The format of items, of which each has its form."""
    rate = rate_of(values[b"exactframerate"])
    sampling, depth = values[b"sampling"].decode(), int(values[b"depth"])
    width, height = number(values[b"width"]), number(values[b"height"])
    format = formats.Format(sampling, depth, width, height, rate)
    refuse(formats.fault_of(format), "16 BadFormat")
    divisor = math.gcd(*rate)
    return format._replace(rate=(rate[0] // divisor, rate[1] // divisor))


def read_items(text):
    """Format, range and colorimetry; the fault with the least number comes."""
    items = list(items_of(text))
    values = dict(items)
    refuse(not all(is_formed(name, value) for name, value in items), "8 BadParameter")
    refuse(len(values) < len(items), "9 DoubleParameter")
    refuse(any(name not in values for name in REQUIRED), "10 MissingParameter")
    refuse(values[b"sampling"] not in SAMPLINGS, "11 UnsupportedSampling")
    refuse(values[b"depth"] not in (b"8", b"10", b"12", b"16"), "12 UnsupportedDepth")
    refuse(b"interlace" in values or b"segmented" in values, "13 Interlaced")
    refuse(values[b"PM"] != b"2110GPM", "14 UnsupportedPacking")
    refuse(not values[b"SSN"].startswith(b"ST2110-20:"), "15 BadSsn")
    return format_of(values), values.get(b"RANGE", b"NARROW"), values[b"colorimetry"]


def read_section(section):
    payload_type = payload_type_of(section[0])
    encoding = attribute(section, b"a=rtpmap:", payload_type, "5 NoRtpmap")
    refuse(encoding.strip(BLANK).lower() != b"raw/90000", "6 NotRaw90000")
    return Leg(payload_type, *read_items(attribute(section, b"a=fmtp:", payload_type, "7 NoFmtp")))


def read_sdp(text):
    """The stream that a text announces."""
    sections = [section for section in sections_of(text)[1:] if section[0].startswith(b"m=video ")]
    refuse(not sections, "2 NoVideo")
    refuse(len(sections) > 2, "3 TooManyLegs")
    legs = [read_section(section) for section in sections]
    refuse(legs[0] != legs[-1], "17 LegsDiffer")
    return legs[0]


def canonical_line(leg):
    """The fmtp line that says this and no more."""
    n, d = leg.format.rate
    items = [
        "sampling=" + leg.format.sampling,
        "width=%d" % leg.format.width,
        "height=%d" % leg.format.height,
        "exactframerate=" + ("%d" % n if d == 1 else "%d/%d" % (n, d)),
        "depth=%d" % leg.format.depth,
        "colorimetry=" + leg.colorimetry.decode(),
        "PM=2110GPM",
        "SSN=ST2110-20:2017",
    ]
    if leg.range != b"NARROW":
        items.append("RANGE=" + leg.range.decode())
    return "a=fmtp:%d %s" % (leg.payload_type, "; ".join(items))
