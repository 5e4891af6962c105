"""Lines of `trace`: their digits, whichever octet stands at whichever place, and their ends, of
each length."""
import scripts

FRONT = b"format YCbCr-4:2:2 8 8 2 60/1\nopen 96 any 900\n"
# A datagram of the upper row (RFC 3550, 5.1; RFC 4175, 4.1).
DATAGRAM = b"80E000010000038400000001000000100000000080108011801280138014801580168017"
DIGITS = b"0123456789ABCDEFabcdef"
# Octets beside digits, and such as end lines or fields.
BESIDE = b"/:@G`g\0\x80\xb0 \r\n"
CELLS = b"".join(
    b"cell 900 0 %d %d\n" % (column, component) for column in range(8) for component in range(3)
)
# How many octets a line has at most.
MOST = 70


def with_octet(place, octet):
    return DATAGRAM[:place] + bytes((octet,)) + DATAGRAM[place + 1:]


def each_digit():
    """A script of a line for each digit at each place, each of a new frame, all of whose samples
    are asked for."""
    text = FRONT
    for place in range(len(DATAGRAM)):
        for digit in DIGITS:
            text += b"A " + with_octet(place, digit) + b"\n" + CELLS + b"slide 901\nslide 900\n"
    return text


def other_octets():
    """Scripts whose one line has another octet: any at two places, else one beside digits."""
    for place in range(len(DATAGRAM)):
        octets = range(256) if place in (5, 71) else BESIDE
        for octet in octets:
            if octet not in DIGITS:
                yield FRONT + b"A " + with_octet(place, octet)


def line_of(path, count):
    """A line of so many octets in digits of either case, without its end."""
    octets = bytes((place * 37 + count) % 256 for place in range(count))
    pairs = (b"%02x" % octet if octet % 3 == 0 else b"%02X" % octet for octet in octets)
    return path + b" " + b"".join(pairs)


def ends_of_lines():
    """Lines of each length by A and B in turn, which end by LF or by CR and LF, with up to two
    empty lines behind each and a line of no form behind all; a last line of each length without an
    end; and a line of no form behind so many empty ones."""
    text = FRONT
    for count in range(1, MOST + 1):
        text += line_of(b"AB"[count % 2:][:1], count) + (b"\n" if count % 4 < 2 else b"\r\n")
        text += b"\n" * (count % 3)
        yield FRONT + line_of(b"A", count)
        yield FRONT + b"\n" * count + b"x"
    yield text + b"x"


def trials(draws, count):
    yield scripts.make_trial("trace", each_digit())
    for text in other_octets():
        yield scripts.make_trial("trace", text)
    for text in ends_of_lines():
        yield scripts.make_trial("trace", text)
