"""Pictures in forms of other tools, of the values of samples in the order in which these are sent:
YUV4MPEG2 of YCbCr, planes of Y, Cb and Cr, and portable pixmaps of RGB (docs/FORMATS.md,
"convert")."""
from draws import words


def spelled(values, depth, order):
    """Values of one octet, or of two in this order."""
    if depth == 8:
        return bytes(values)
    octets = words(*values)
    if order == "little":
        octets = b"".join(octets[at:at + 2][::-1] for at in range(0, len(octets), 2))
    return octets


def stream_head(format):
    bits = "" if format.depth == 8 else "p%d" % format.depth
    colours = format.sampling[-5:].replace(":", "") + bits
    size = format.width, format.height
    return b"YUV4MPEG2 W%d H%d F%d:%d Ip A1:1 C%s\n" % (size + format.rate + (colours.encode(),))


def stream_frame(format, values):
    octets, components = b"FRAME\n", [component for _, _, component in format.positions()]
    for plane in range(3):
        of_plane = [value for value, component in zip(values, components) if component == plane]
        octets += spelled(of_plane, format.depth, "little")
    return octets


def pixmap(format, values):
    head = b"P6\n%d %d\n%d\n" % (format.width, format.height, (1 << format.depth) - 1)
    return head + spelled(values, format.depth, "big")


def pictures(format, frames):
    """Pictures one behind the other, a stream with its line before the first."""
    if format.sampling == "RGB":
        return b"".join(pixmap(format, values) for values in frames)
    head = stream_head(format) if frames else b""
    return head + b"".join(stream_frame(format, values) for values in frames)


def black(format):
    """What a sample without a value gets where no fill is given, by its component."""
    colour = 16 if format.sampling == "RGB" else 128
    return [number << format.depth - 8 for number in (16, colour, colour)]
