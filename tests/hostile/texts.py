"""Hostile SDP texts: sections of which a line or an item now and then is another, in any order,
with octets turned, cut off, put in and taken out. `sdp` prints their canonical line."""
import collections

import sdp_reading
from programs import Trial

# What a section says soundly, and otherwise: the lines `m=`, what stands behind the payload type's
# two lines, and items.
MEDIA = (
    (b"m=video 5004 RTP/AVP 112", b"m=video 05004 RTP/AVP 0112", b"m=video 65535 RTP/AVP 112\t "),
    (b"m=video 5004 RTP/AVP 128", b"m=video 65536 RTP/AVP 112", b"m=video  5004 RTP/AVP 112",
     b"m=video", b"m=video 5004 RTP/AVP 112 96", b"m=video 5004/2 RTP/AVP 112",
     b"m=video 5004 RTP/SAVP 112", b"m=video "),
)
RTPMAP = (
    (b"a=rtpmap:112 raw/90000", b"a=rtpmap:0112 RAW/90000 ", b"a=rtpmap:112  \traw/90000"),
    (b"a=rtpmap:113 raw/90000", b"a=rtpmap:112 raw/9000", b"a=rtpmap:112\traw/90000",
     b"a=rtpmap: raw/90000", b"a=rtpmap:112", b"a=rtpmap:112 smpte291/90000",
     b"a=rtpmap:11200000000 raw/90000"),
)
FMTP = (
    (b"a=fmtp:112 ", b"a=fmtp:00112 ", b"a=fmtp:112  \t"),
    (b"a=fmtp:111 ", b"a=fmtp:112\t", b"a=fmtp:112;", b"a=fmtp: 112 "),
)
ITEMS = (
    ((b"sampling=RGB", b" sampling = RGB"),
     (b"sampling=rgb", b"sampling=YCbCr-4:2:0", b"sampling=KEY", b"sampling", b"Sampling=RGB")),
    ((b"width=8", b"width=0000000008", b"width=\t8"),
     (b"width=8x", b"width=7", b"width=8194", b"width=00000000008", b"width=-8")),
    ((b"height=2", b"height=02"),
     (b"height=2;height=2", b"height=0", b"height=4294967296", b"height=4294967295", b"height=")),
    ((b"exactframerate=120/2", b"exactframerate=60", b"exactframerate=060/01"),
     (b"exactframerate=60/", b"exactframerate=60/1/1", b"exactframerate=0",
      b"exactframerate=60 /1", b"exactframerate=301")),
    ((b"depth=16", b" depth = 16"), (b"depth=16f", b"depth=08", b"depth=20", b"depth=")),
    ((b"colorimetry=BT709", b"colorimetry=BT2020",
      b"colorimetry=0123456789=123456789012345678901"),
     (b"colorimetry=BT 709", b"colorimetry=", b"colorimetry=\x7f",
      b"colorimetry=012345678901234567890123456789012")),
    ((b"PM=2110GPM",), (b"PM=2110BPM", b"pm=2110GPM", b"PM=2110GPM;PM=2110GPM")),
    ((b"SSN=ST2110-20:2017", b"SSN=ST2110-20:2022", b"SSN=ST2110-20:"),
     (b"SSN=ST2110-21:2017", b"SSN=ST2110-20", b"ssn=ST2110-20:2017")),
)
# Items that are mostly not there: sound ones, and others.
OTHERS = (
    (b"", b" ", b"TP=2110TPN", b"interlac", b"RANGE=NARROW"),
    (b"RANGE=FULL", b"RANGE=FULLPROTECT", b"RANGE=full", b"RANGE=", b"interlace", b"segmented=0",
     b"=5", b" = ", b"TP=1;TP=2", b"="),
)
# Lines that count for nothing.
LINES = (
    b"a=mid:A", b"c=IN IP4 239.1.1.1/64", b"", b"a=rtpmap:97 L24/48000/2", b"a=fmtp:97 width=7",
    b" a=rtpmap:112 x", b"a=rtpmap:x y",
)
# How many sections there are, each as often as it stands here.
COUNTS = (0, 3, 2, 2, 2, 2, 2, 2, 2, 1, 1, 1, 1, 1, 1, 1)


def choose(draws, choices, one_in):
    """Mostly the first sound choice, now and then another sound one, and once in so many draws one
    of the others."""
    sound, others = choices
    if draws.one_in(one_in):
        return draws.pick(others)
    return draws.pick(sound) if draws.one_in(4) else sound[0]


def moved(draws, pieces, one_in):
    """Pieces in their order, or once in so many draws with one of them in another place."""
    pieces = list(pieces)
    if draws.one_in(one_in):
        pieces.insert(draws.below(len(pieces)), pieces.pop(draws.below(len(pieces))))
    return pieces


def section(draws, one_in):
    items = [choose(draws, choices, one_in) for choices in ITEMS]
    if draws.one_in(2):
        items.append(choose(draws, OTHERS, 8))
    items = moved(draws, items, 4)
    fmtp = choose(draws, FMTP, one_in) + draws.pick((b"; ", b";", b" ; ")).join(items)
    lines = [choose(draws, RTPMAP, one_in), fmtp]
    lines += [draws.pick(LINES) for _ in range(draws.below(3))]
    return [choose(draws, MEDIA, one_in)] + moved(draws, lines, 3)


def make_text(draws):
    lines = [b"v=0", b"s=-", b"m=audio 5000 RTP/AVP 97", b"a=rtpmap:97 L24/48000/2"]
    one_in = draws.pick((12, 60, 60, 1000))
    sections = [section(draws, one_in) for _ in range(draws.pick(COUNTS))]
    if len(sections) > 1 and not draws.one_in(3):
        sections[1] = sections[0]
    end = draws.at_bound(draws.pick((b"\n", b"\r\n")), (b"\r\r\n", b"\r"), 48)
    text = end.join(lines + [line for lines in sections for line in lines])
    text += draws.pick((end, b"", b"\r"))
    for _ in range(draws.below(4) if draws.one_in(2) else 0):
        text = draws.spoil(text)
    return text


def make_trial(text):
    try:
        line = sdp_reading.canonical_line(sdp_reading.read_sdp(text))
    except sdp_reading.Faulty as fault:
        came = collections.Counter([str(fault)])
        return Trial(["sdp"], text, 1, "", "st2110: sdp %s\n" % fault, came)
    return Trial(["sdp"], text, 0, line + "\n", "", collections.Counter(["read"]))


def trials(draws, count):
    for _ in range(count):
        yield make_trial(make_text(draws))
