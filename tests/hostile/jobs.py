"""Jobs of `process` on receivers' files, of which samples are missing and contested: the capture
against the formulas at each position, by whole numbers (ITU-R BT.709, integer coding;
docs/FORMATS.md, "process"). First the worked examples, whose values stand here."""
import collections
import functools

import receivers
import sender
from draws import longs
from formats import DEPTHS, Format, SAMPLINGS, any_format
from programs import Trial

# What is told of a frame that is read: the octets that its receiver's file has of it, and its
# values where a sample without one has the fill's.
Frame = collections.namedtuple("Frame", "format octets values")
STAMP = sender.Stamp(96, 1, 900, 1)
# Of Y, Cb and Cr: what R, G and B are taken by, what their sum is taken by and divided by, and the
# centre at 8 bits.
MATRIX_ROWS = (
    ((1063, 3576, 361), 1, 5000, 0),
    ((-1063, -3576, 4639), 112, 1015941, 128),
    ((3937, -3576, -361), 112, 862203, 128),
)
GAINS = (0, 1, 2048, 4096, 4097, 8192, 16384)


def scale(format):
    return 1 << format.depth - 8


def clip(value, low, high):
    return max(low, min(high, value))


def video(format, value):
    """The nearest value of video data."""
    return clip(value, scale(format), 255 * scale(format) - 1)


def nearest(number, divisor):
    """The whole number nearest to a fraction, of two the upper one."""
    return (2 * number + divisor) // (2 * divisor)


def is_colour(format, component):
    return format.sampling != "RGB" and component > 0


def limited(format, word, component, value):
    s = scale(format)
    if word == "video":
        return video(format, value)
    return clip(value, 16 * s, (240 if is_colour(format, component) else 235) * s)


def gained(format, g, component, value):
    zero = (128 if is_colour(format, component) else 16) * scale(format)
    return video(format, ((value - zero) * g + 2048) // 4096 + zero)


def matrixed(format, pixel, component):
    """Y, Cb or Cr of R, G and B."""
    factors, times, divisor, centre = MATRIX_ROWS[component]
    total = times * sum(factor * value for factor, value in zip(factors, pixel))
    return video(format, nearest(total, divisor) + centre * scale(format))


def keyed(format, a, b, luma):
    most = 219 * scale(format)
    k = clip(luma - 16 * scale(format), 0, most)
    return nearest(a * (most - k) + b * k, most)


def wiped(a, b, x, position, soft):
    weight = 0 if x < position else 256 if x >= position + soft else (x - position) * 256 // soft
    return (a * (256 - weight) + b * weight + 128) // 256


def format_made(word, format):
    """The format of a job's picture."""
    made = {"ycc444": "YCbCr-4:4:4", "ycc422": "YCbCr-4:2:2"}
    return format._replace(sampling=made.get(word, format.sampling))


def value_made(job, format, inputs, place):
    """The value of a job's picture at a place, of inputs' values by their places."""
    word, _, rest = job.partition(":")
    row, column, component = place
    if word == "ycc444":
        return matrixed(format, [inputs[0][row, column, of_rgb] for of_rgb in range(3)], component)
    value = inputs[0][place]
    if word == "limit":
        return limited(format, rest, component, value)
    if word == "gain":
        return gained(format, int(rest), component, value)
    if word == "wipe":
        axis, position, soft = rest.split(":")
        x = column if axis == "columns" else row
        return wiped(value, inputs[1][place], x, int(position), int(soft))
    if word == "key":
        return keyed(format, value, inputs[1][place], inputs[2][row, column, 0])
    return value


def values_made(job, frames):
    """A job's picture: its format, and its values in the order in which they are sent."""
    format = frames[0].format
    inputs = [dict(zip(frame.format.positions(), frame.values)) for frame in frames]
    made = format_made(job.partition(":")[0], format)
    return made, [value_made(job, format, inputs, place) for place in made.positions()]


def octets_made(format, values):
    """The octets of a picture's values, pgroup by pgroup."""
    count = format.pgroup[2]
    groups = (values[at:at + count] for at in range(0, len(values), count))
    return b"".join(receivers.octets_of(group, format.depth) for group in groups)


def any_values(draws, format, count):
    """Values without order, the least and the greatest among them."""
    most = (1 << format.depth) - 1
    return [draws.at_bound(draws.below(most + 1), (0, most), 3) for _ in range(count)]


def cells_of(draws, format, count):
    """A pgroup's cells: all missing, some contested, or values."""
    kind = draws.below(4)
    if kind == 0:
        return [receivers.MISSING] * count
    cells = any_values(draws, format, count)
    if kind == 1:
        cells[draws.below(count)] = receivers.CONTESTED
    return cells


def frame_of(format, cells, fill, held=None):
    """A frame of cells, over a fill or the values of a picture that is held."""
    count = format.pgroup[2]
    groups = (cells[at:at + count] for at in range(0, len(cells), count))
    octets = b"".join(receivers.pgroup_state(group, format.depth) for group in groups)
    without = (receivers.MISSING, receivers.CONTESTED)
    base = held or [fill[component] for _, _, component in format.positions()]
    values = [under if cell in without else cell for cell, under in zip(cells, base)]
    return Frame(format, octets, values)


def any_frame(draws, format, fill, held=None):
    cells = []
    for _ in range(format.pgroups):
        cells += cells_of(draws, format, format.pgroup[2])
    return frame_of(format, cells, fill, held)


def state_file(frame):
    """The receiver's file of a frame of timestamp 900."""
    front = receivers.state_front(receivers.Opening(frame.format, 96, None), 1)
    return front + longs(900) + frame.octets


def trial_of(job, frames, fill, most, made, picture, held=None):
    """The trial of a job on frames, of which this picture is sent in packets of at most so many
    octets."""
    sent = sender.datagrams_of(STAMP, most, made, picture)
    names = ["state-%d" % place for place in range(len(frames))]
    files = {name: state_file(frame) for name, frame in zip(names, frames)}
    command = ["process", "--job", job, "--ts", "900", "--fill", ",".join(map(str, fill))]
    command += ["--max", str(most), "--first", "1", "--base", "900", "--out", "-"]
    if held is not None:
        files["held.pic"] = held
        command += ["--hold", "held.pic"]
    came = collections.Counter([job.partition(":")[0]])
    told = "sent %d\n" % len(sent)
    return Trial(command + names, b"", 0, sender.capture_of(sent), told, came, files)


def plain(sampling, depth, colour):
    """A frame of 8 by 2 of one colour, all of whose samples are there."""
    format = Format(sampling, depth, 8, 2, (60, 1))
    cells = [colour[component] for _, _, component in format.positions()]
    return frame_of(format, cells, colour)


# Worked examples (docs/EXAMPLES.md): a job, a depth, a sampling and the colours of the frames, and
# the sampling and the colour of the picture.
MATRIX = (
    ("ycc444", 10, "RGB", [(940, 64, 64)], "YCbCr-4:4:4", (250, 409, 960)),
    ("ycc444", 8, "RGB", [(235, 235, 235)], "YCbCr-4:4:4", (235, 128, 128)),
    ("ycc444", 12, "RGB", [(0, 0, 4095)], "YCbCr-4:4:4", (296, 4079, 1856)),
    ("ycc444", 16, "RGB", [(0, 0, 65535)], "YCbCr-4:4:4", (4732, 65279, 29695)),
    ("ycc422", 8, "YCbCr-4:4:4", [(235, 128, 128)], "YCbCr-4:2:2", (235, 128, 128)),
)
GAIN_AND_LIMIT = (
    ("gain:8192", 8, "YCbCr-4:2:2", [(100, 128, 255)], "YCbCr-4:2:2", (184, 128, 254)),
    ("gain:8192", 8, "YCbCr-4:2:2", [(235, 100, 0)], "YCbCr-4:2:2", (254, 72, 1)),
    ("gain:2048", 8, "YCbCr-4:2:2", [(10, 100, 128)], "YCbCr-4:2:2", (13, 114, 128)),
    ("gain:8192", 16, "YCbCr-4:2:2", [(25600, 32768, 0)], "YCbCr-4:2:2", (47104, 32768, 256)),
    ("gain:0", 12, "YCbCr-4:2:2", [(256, 2048, 4079)], "YCbCr-4:2:2", (256, 2048, 2048)),
    ("limit:nominal", 10, "YCbCr-4:4:4", [(0, 1023, 0)], "YCbCr-4:4:4", (64, 960, 64)),
    ("limit:video", 10, "YCbCr-4:4:4", [(0, 1023, 0)], "YCbCr-4:4:4", (4, 1019, 4)),
    ("limit:nominal", 10, "YCbCr-4:2:2", [(1023, 64, 960)], "YCbCr-4:2:2", (940, 64, 960)),
    ("limit:video", 10, "YCbCr-4:2:2", [(1023, 3, 500)], "YCbCr-4:2:2", (1019, 4, 500)),
    ("limit:nominal", 10, "RGB", [(0, 1023, 941)], "RGB", (64, 940, 940)),
    ("limit:video", 10, "RGB", [(0, 1023, 941)], "RGB", (4, 1019, 941)),
)
# key-rounds: a depth, the lumas of a and b, the key's luma, and the luma of their mix.
KEYS = (
    (8, 16, 17, 125, 16), (8, 16, 17, 126, 17), (10, 64, 940, 502, 502),
    (16, 4096, 60160, 32128, 32128),
)
# wipe-weights: position, softness, and the lumas of each row between luma 16 and luma 235.
WIPES = (
    ("wipe:columns:2:4", (16, 16, 16, 71, 126, 180, 235, 235)),
    ("wipe:columns:2:0", (16, 16, 235, 235, 235, 235, 235, 235)),
    ("wipe:columns:8:8", (16,) * 8),
    ("wipe:columns:0:0", (235,) * 8),
)


def example(job, frames, wanted):
    """The trial of a worked example: the picture has the values of a frame."""
    picture = octets_made(wanted.format, wanted.values)
    return trial_of(job, frames, (0, 0, 0), 1400, wanted.format, picture)


def examples():
    for job, depth, sampling, colours, made, colour in MATRIX + GAIN_AND_LIMIT:
        frames = [plain(sampling, depth, of_one) for of_one in colours]
        yield example(job, frames, plain(made, depth, colour))
    for depth, of_a, of_b, of_key, luma in KEYS:
        for sampling in SAMPLINGS[:2]:
            frames = [plain(SAMPLINGS[0], depth, (of_one, 1, of_one)) for of_one in (of_a, of_b)]
            frames.append(plain(sampling, depth, (of_key, 0, 0)))
            yield example("key", frames, plain(SAMPLINGS[0], depth, (luma, 1, luma)))
    for job, lumas in WIPES:
        for sampling in SAMPLINGS[:2]:
            frames = [plain(sampling, 8, (16, 128, 16)), plain(sampling, 8, (235, 128, 235))]
            places = frames[0].format.positions()
            values = [128 if component == 1 else lumas[column] for _, column, component in places]
            yield example(job, frames, frames[0]._replace(values=values))
    low, high = plain(SAMPLINGS[0], 8, (16, 128, 16)), plain(SAMPLINGS[0], 8, (235, 128, 235))
    half = len(low.values) // 2
    values = low.values[:half] + high.values[half:]
    yield example("wipe:rows:1:0", [low, high], low._replace(values=values))


def any_job(draws, format):
    """A job that a format's frames can have, and how many of them it takes."""
    edge = format.width, format.height
    jobs = ["limit:nominal", "limit:video"]
    jobs += ["gain:%d" % draws.pick(GAINS), "gain:%d" % draws.below(16385)]
    jobs += {"RGB": ["ycc444"] * 3, "YCbCr-4:4:4": ["ycc422"] * 3}.get(format.sampling, [])
    for axis, side in zip(("columns", "rows"), edge):
        jobs.append("wipe:%s:%d:%d" % (axis, draws.below(side + 1), draws.below(side + 1)))
    job = draws.pick(jobs + ["key"] * 3)
    return job, {"wipe": 2, "key": 3}.get(job.partition(":")[0], 1)


def any_trial(draws):
    format = any_format(draws)
    job, count = any_job(draws, format)
    most = (1 << format.depth) - 1
    fill, held, file = [draws.below(most + 1) for _ in range(3)], None, None
    if draws.one_in(3):
        held = [draws.below(most + 1) for _ in range(format.samples)]
        file = sender.picture_file(format, octets_made(format, held))
    frames = [any_frame(draws, format, fill, held)]
    while len(frames) < count:
        of_key = format._replace(sampling=draws.pick(SAMPLINGS[:2]))
        frames.append(any_frame(draws, of_key if len(frames) == 2 else format, fill))
    made, values = values_made(job, frames)
    size = draws.pick((20 + made.pgroup[0] + draws.below(200), 1400))
    return trial_of(job, frames, fill, size, made, octets_made(made, values), file)


# Columns, rows and the most octets of a packet, of pictures that are made as they are sent, and of
# such as are just too small for that: of rows of 480 samples, of runs of 240 and 256, of 393,216
# samples in all.
PAIRS = (
    (390, 505, 9000), (1200, 164, 9000), (1200, 163, 9000), (640, 308, 500), (640, 308, 499),
    (640, 308, 532), (640, 308, 540), (240, 820, 1400), (238, 827, 1400),
)
PIXELS = (
    (260, 505, 9000), (800, 164, 9000), (800, 163, 9000), (640, 205, 500), (640, 205, 499),
    (160, 820, 1400), (156, 841, 1400),
)


def palette_of(draws, format, fill):
    """Frames of one row and the least width, of which large ones are made."""
    unit = format._replace(width=max(2, format.pgroup[1]), height=1)
    return [any_frame(draws, unit, fill) for _ in range(16)]


def picks_of(draws, count):
    """Places in a palette: runs of one of them, as of missing groups, and others without order."""
    picks = []
    while len(picks) < count:
        long = draws.pick((1, 2, 24, 400))
        length, place = draws.below(long) + 1, draws.below(16)
        if draws.one_in(2):
            picks += [place] * length
        else:
            picks += [draws.below(16) for _ in range(length)]
    return picks[:count]


def large_trial(draws, job, samplings, depth, case):
    """A job of large frames, each made of a palette of 16, so that the formulas are reckoned once
    for each of its mixes."""
    width, height, most = case
    fill, palettes, frames = [draws.below(1 << depth) for _ in range(3)], [], []
    for sampling in samplings:
        format = Format(sampling, depth, width, height, (60, 1))
        palette = palette_of(draws, format, fill)
        picks = picks_of(draws, width // palette[0].format.width * height)
        octets = b"".join([palette[place].octets for place in picks])
        palettes.append(palette)
        frames.append(Frame(format, octets, picks))

    @functools.lru_cache(None)
    def made_of(*places):
        units = [palette[place] for palette, place in zip(palettes, places)]
        return octets_made(*values_made(job, units))

    picture = b"".join([made_of(*places) for places in zip(*(frame.values for frame in frames))])
    made = format_made(job, frames[0].format)
    return trial_of(job, frames, fill, most, made, picture)


def large_trials(draws):
    """Each case at another depth than the one before; a key of 4:2:2 by 4:4:4 is never made as it
    is sent."""
    ycc422, ycc444, rgb = SAMPLINGS
    cases = [("key", [ycc422] * 3, case) for case in PAIRS]
    cases += [("key", [ycc444] * 3, case) for case in PIXELS]
    cases += [("ycc444", [rgb], case) for case in PIXELS]
    cases.append(("key", [ycc422, ycc422, ycc444], (1200, 164, 9000)))
    for place, (job, samplings, case) in enumerate(cases):
        yield large_trial(draws, job, samplings, DEPTHS[(place + draws.below(2)) % 4], case)


def trials(draws, count):
    """The examples, so many of small frames, and a few of large ones."""
    yield from examples()
    for _ in range(count):
        yield any_trial(draws)
    yield from large_trials(draws)
