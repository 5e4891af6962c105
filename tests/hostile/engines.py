"""Each command over what the one before it wrote, of formats of each sampling and depth, where
there is enough memory: none wants more, and each answers as its second reading does."""
import collections
import itertools

import cuts
import files
import jobs
import receivers
import reports
import scripts
import sender
import sends
import texts
from formats import DEPTHS, Format, SAMPLINGS
from programs import Trial

# Widths and heights, which are whole pgroups of each sampling and depth.
SIZES = tuple(itertools.product(range(4, 68, 4), range(1, 4)))


def script_trials(format, picture):
    """A script of `trace` without datagrams, and a schedule of one picture."""
    line = b"format " + format.words().encode() + b"\n"
    yield scripts.make_trial(
        "trace", line + b"open 96 any 900,2400\nnumbers 0 4\nslide 3900\n"
    )
    events = b"send\narrive 0 A 0\nmerge 1 0\nslide 0 1500\n"
    front = b"stamp 96 0 0 1\nmax 1400\nwindow 0\nreceivers 2\npicture "
    yield scripts.make_trial("rehearse", line + front + picture.hex().encode() + b"\n" + events)


def loop_trial(format, picture):
    """A picture that is sent to a receiver of this machine."""
    count = len(sender.datagrams_of(jobs.STAMP, 1400, format, picture))
    told = "sent %d\ndelivered %d\nframe 0 present %d missing 0 contested 0\n"
    came, file = collections.Counter(["looped"]), sender.picture_file(format, picture)
    output = told % (count, count, format.samples)
    return Trial(["loop", "picture"], b"", 0, output, "", came, {"picture": file})


def gain_trial(format, cells):
    """A receiver's frame at gain one, within video data."""
    frame = jobs.frame_of(format, cells, (0, 0, 0))
    made, values = jobs.values_made("gain:4096", [frame])
    picture = jobs.octets_made(made, values)
    return jobs.trial_of("gain:4096", [frame], (0, 0, 0), 1400, made, picture)


def format_trials(draws, format):
    values = [draws.below(1 << format.depth) for _ in range(format.samples)]
    picture = jobs.octets_made(format, values)
    sent = sender.datagrams_of(sends.STAMP, 1400, format, picture)
    state = receivers.state_of(sends.received(format, sent))
    yield from script_trials(format, picture)
    yield texts.make_trial(sender.sdp_of(format, 96))
    yield loop_trial(format, picture)
    yield files.picture_trial(sender.picture_file(format, picture))
    yield files.capture_trial(draws, cuts.BOTH_OLD)
    yield sends.send_trial(format, picture, 1400)
    yield sends.receive_trial(format, [sent])
    yield files.state_trial(state)
    yield reports.report_trial(state)
    yield gain_trial(format, values)


def trials(draws, count):
    """Of so many sizes, each sampling and depth."""
    for _ in range(count):
        for sampling, depth in itertools.product(SAMPLINGS, DEPTHS):
            yield from format_trials(draws, Format(sampling, depth, *draws.pick(SIZES), (60, 1)))
