"""Pictures of each sampling and depth, sent by both paths, of which each loses some datagrams, and
received: from both, or from each and then merged, they come back whole (SMPTE ST 2022-7). First
plans that are worked out by hand."""
import collections
import itertools

import file_reading
import jobs
import receivers
import sender
from datagrams import without_losses
from formats import DEPTHS, Format, SAMPLINGS
from programs import Trial

STAMP = sender.Stamp(96, 1, 900, 1)
# Worked examples (docs/EXAMPLES.md, hd-ten-bit-plan) of 4:2:2: depth, width and height, and how
# many pgroups each packet of 1,400 octets has, segment by segment.
PLANS = (
    (8, 1920, 2, ((345,), (345,), (270, 73), (345,), (345,), (197,))),
    (8, 2, 7, ((1, 1, 1), (1, 1, 1), (1,))),
    (10, 1920, 2, ((276,), (276,), (276,), (132, 142), (276,), (276,), (266,))),
)


def send_trial(format, picture, most, packets=None):
    """A picture sent by both paths in packets of at most so many octets, with a text."""
    sent = sender.datagrams_of(STAMP, most, format, picture, packets)
    text = sender.sdp_of(format, 96)
    paths = itertools.product(sent, (0, 1))
    records = [
        file_reading.Record(path, moment, octets) for moment, (octets, path) in enumerate(paths)
    ]
    command = ["send", "--sdp", "text.sdp", "--base", "900", "--first", "1", "--max", str(most)]
    command += ["--paths", "both", "--out", "-", "picture"]
    files = {"text.sdp": text, "picture": sender.picture_file(format, picture)}
    output = file_reading.capture_octets(text, records)
    came = collections.Counter(["sent"])
    return Trial(command, b"", 0, output, "sent %d\n" % len(sent), came, files)


def plan_trial(depth, width, height, packets):
    """The packets of a picture of zeros, as they are worked out."""
    format, ranges, at = Format(SAMPLINGS[0], depth, width, height, (60, 1)), [], 0
    for segments in packets:
        ranges.append(range(at, at + sum(segments)))
        at += sum(segments)
        runs = sender.runs_of(ranges[-1], format)
        assert tuple(count for _, _, count in runs) == segments
    return send_trial(format, bytes(format.pgroups * format.pgroup[0]), 1400, ranges)


def received(format, datagrams):
    """A receiver of one source that took datagrams."""
    receiver = receivers.Receiver(receivers.Opening(format, 96, 1), (900,))
    for octets in datagrams:
        receiver.take(octets)
    return receiver


def receive_trial(format, captures):
    """What a receiver has of captures, each of these datagrams by its path."""
    receiver = received(format, itertools.chain(*captures))
    lines = ["delivered %d" % sum(map(len, captures))] + receiver.frame_lines()
    command = ["receive", "--window", "900", "--ssrc", "1", "--state", "-"]
    text, files = sender.sdp_of(format, 96), {}
    for path, capture in enumerate(captures):
        files["capture-%d" % path] = sender.capture_of(capture, text, path)
    told = "".join(line + "\n" for line in lines)
    state, came = receivers.state_of(receiver), collections.Counter(["received"])
    trial = Trial(command + sorted(files), b"", 0, state, told, came, files)
    trial.view = without_losses
    return trial


def merge_trial(format, left, right):
    """The receivers of two lossy paths, merged."""
    whole = received(format, left + right)
    files = {
        "left": receivers.state_of(received(format, left)),
        "right": receivers.state_of(received(format, right)),
    }
    told = "".join(line + "\n" for line in whole.frame_lines())
    came = collections.Counter(["merged"])
    state = receivers.state_of(whole)
    return Trial(["merge", "--state", "-", "left", "right"], b"", 0, state, told, came, files)


def lossy_trials(format, picture, most):
    """By A each third datagram is lost; by B, in reverse, each fourth, but none that A lost."""
    sent = sender.datagrams_of(STAMP, most, format, picture)
    left = [octets for place, octets in enumerate(sent) if place % 3 != 2]
    right = [octets for place, octets in enumerate(sent) if place % 4 != 3 or place % 3 == 2]
    right.reverse()
    yield send_trial(format, picture, most)
    yield receive_trial(format, [left, right])
    yield merge_trial(format, left, right)


def trials(draws, count):
    """The plans, and pictures of each kind, of 64 by 36 and of 8 by 3, in packets of 200 octets, of
    the fewest and of 1,400."""
    for plan in PLANS:
        yield plan_trial(*plan)
    for sampling, depth in itertools.product(SAMPLINGS, DEPTHS):
        for size in ((64, 36), (8, 3)):
            format = Format(sampling, depth, *size, (60, 1))
            picture = jobs.octets_made(format, jobs.any_values(draws, format, format.samples))
            most = (200,) if size == (64, 36) else (20 + format.pgroup[0], 1400)
            for octets in most:
                yield from lossy_trials(format, picture, octets)
