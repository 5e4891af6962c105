"""Hostile receivers' files: frames narrow and wide, whose pgroups are missing, have values or are
contested in runs. They are merged, written as pictures over a fill or a picture that is held, and
processed by each job; the octets that are written are those of a second reading."""
import collections

import forms
import jobs
import receivers
import sender
from formats import DEPTHS, SAMPLINGS, Format
from programs import Trial
from receivers import CONTESTED, MISSING

TIMESTAMPS = (900, 2**32 - 1, 0)
# How many columns there are, beside any number up to 160: some blocks of 64 pgroups, and some more.
WIDE = (840, 516)


def any_format(draws):
    width = draws.pick(WIDE) if draws.one_in(16) else 4 * draws.below(40) + 4
    return Format(draws.pick(SAMPLINGS), draws.pick(DEPTHS), width, draws.below(3) + 1, (60, 1))


def any_values(draws, count, depth):
    """Values without order, or the least and the greatest among them."""
    most = (1 << depth) - 1
    if draws.one_in(4):
        return [draws.pick((0, most, 16 << depth - 8, 235 << depth - 8)) for _ in range(count)]
    return [draws.below(most + 1) for _ in range(count)]


def run_of(draws, values, size, most):
    """The cells of whole pgroups with these values, of which some are others or contested."""
    kind = draws.below(6)
    if kind == 0:
        return [MISSING] * len(values)
    cells, place = list(values), 0
    while kind < 3 and place < len(cells):
        cells[place] = CONTESTED if kind == 1 else draws.below(most + 1)
        place += 1 + draws.below(2 * size)
    return cells


def any_cells(draws, format, values):
    """A frame's cells, in runs of pgroups, of which most have the picture's values."""
    cells, size, most = [], format.pgroup[2], (1 << format.depth) - 1
    while len(cells) < len(values):
        count = size * (1 + draws.below(draws.pick((2, 20, 200))))
        cells += run_of(draws, values[len(cells):len(cells) + count], size, most)
    return cells


def joined(one, other):
    """What two receivers know of a sample."""
    if MISSING in (one, other):
        return other if one == MISSING else one
    return one if one == other else CONTESTED


def receiver_of(opening, frames):
    receiver = receivers.Receiver(opening, ())
    receiver.frames.update(frames)
    return receiver


class Scene:
    """A format, the values of a picture for each timestamp, and receivers of them."""

    def __init__(self, draws, format, count, timestamps):
        ssrc = draws.pick((None, 0, 7))
        self.format, self.opening = format, receivers.Opening(format, draws.below(128), ssrc)
        pictures = {it: any_values(draws, format.samples, format.depth) for it in timestamps}
        self.receivers = []
        for _ in range(count):
            frames = {it: any_cells(draws, format, values) for it, values in pictures.items()}
            self.receivers.append(receiver_of(self.opening, frames))

    def files(self):
        states = map(receivers.state_of, self.receivers)
        return {"state-%d" % number: state for number, state in enumerate(states)}


def merge_trial(draws):
    """Receivers merged: the cells of each, joined."""
    timestamps = TIMESTAMPS[:draws.below(3) + 1]
    scene = Scene(draws, any_format(draws), draws.below(2) + 2, timestamps)
    frames = collections.OrderedDict()
    for timestamp in timestamps:
        cells = scene.receivers[0].frames[timestamp]
        for other in scene.receivers[1:]:
            cells = list(map(joined, cells, other.frames[timestamp]))
        frames[timestamp] = cells
    merged, files = receiver_of(scene.opening, frames), scene.files()
    told = "".join(line + "\n" for line in merged.frame_lines())
    command = ["merge", "--state", "-"] + sorted(files)
    state = receivers.state_of(merged)
    return Trial(command, b"", 0, state, told, collections.Counter(merged=1), files)


def components(format):
    return [component for _, _, component in format.positions()]


def settled(format, cells, base):
    """Values of cells, of a base where there is none."""
    return [other if cell in (MISSING, CONTESTED) else cell for cell, other in zip(cells, base)]


def any_base(draws, format):
    """The words of a fill or of a picture that is held beside it, the files of these, and what each
    sample without a value gets."""
    most = (1 << format.depth) - 1
    fill = [draws.below(most + 1) for _ in range(3)]
    base, options, files = [fill[it] for it in components(format)], [], {}
    if draws.one_in(3):
        base = any_values(draws, format.samples, format.depth)
        held = sender.picture_file(format, jobs.octets_made(format, base))
        options, files = ["--hold", "held.pic"], {"held.pic": held}
    return ["--fill", ",".join(map(str, fill))], options, files, base


def written(draws, format, values):
    """A form and a picture in it."""
    octets = jobs.octets_made(format, values)
    form = "ppm" if format.sampling == "RGB" else "y4m"
    return draws.pick((
        ("picture", sender.picture_file(format, octets)), ("raw", octets),
        (form, forms.pictures(format, [values])),
    ))


def picture_trial(draws):
    """A frame as a picture."""
    timestamp = draws.pick(TIMESTAMPS)
    scene = Scene(draws, any_format(draws), 1, (timestamp,))
    fill, hold, held, base = any_base(draws, scene.format)
    values = settled(scene.format, scene.receivers[0].frames[timestamp], base)
    form, output = written(draws, scene.format, values)
    command = ["picture", "--ts", str(timestamp), "--as", form, "--out", "-"]
    command += (hold or fill) + ["state-0"]
    files = dict(held, **scene.files())
    return Trial(command, b"", 0, output, "", collections.Counter(pictures=1), files)


def job_trial(draws):
    """A job of frames of any width."""
    format = any_format(draws)
    job, count = jobs.any_job(draws, format)
    fill, frames = [draws.below(1 << format.depth) for _ in range(3)], []
    for place in range(count):
        sampling = draws.pick(SAMPLINGS[:2]) if place == 2 else format.sampling
        format = format._replace(sampling=sampling)
        cells = any_cells(draws, format, any_values(draws, format.samples, format.depth))
        frames.append(jobs.frame_of(format, cells, fill))
    made, values = jobs.values_made(job, frames)
    return jobs.trial_of(job, frames, fill, 1400, made, jobs.octets_made(made, values))


def trials(draws, count):
    makers = (merge_trial, picture_trial, job_trial, job_trial)
    for place in range(count):
        yield makers[place % 4](draws)
