#!/usr/bin/env python3
"""Gives hostile input to the built program, and compares each answer with a second reading that is
written here, apart from the libraries: tests/hostile.py PROGRAM [KIND SEED COUNT]

Without KIND a few of each are made, and a line is printed for each; else it prints how often each
answer came. The first input that is answered otherwise is printed, with status 1."""
import collections
import pathlib
import sys
import tempfile

sys.dont_write_bytecode = True
sys.path.insert(0, str(pathlib.Path(__file__).parent / "hostile"))

import cuts  # noqa: E402
import datagrams  # noqa: E402
import draws  # noqa: E402
import engines  # noqa: E402
import files  # noqa: E402
import jobs  # noqa: E402
import lines  # noqa: E402
import programs  # noqa: E402
import recordings  # noqa: E402
import reports  # noqa: E402
import scripts  # noqa: E402
import sends  # noqa: E402
import states  # noqa: E402
import streams  # noqa: E402
import texts  # noqa: E402

# By their names, what makes trials of each, and the seed and the count of a few. Those of `cuts`,
# `lines` and `sends` are as many as they are, whatever is asked for.
KINDS = {
    "datagrams": (datagrams.trials, 1, 640),
    "files": (files.trials, 1, 640),
    "texts": (texts.trials, 1, 640),
    "scripts": (scripts.trials, 1, 400),
    "pcap": (recordings.pcap_trials, 1, 640),
    "pcapng": (recordings.pcapng_trials, 1, 640),
    "jobs": (jobs.trials, 1, 300),
    "sends": (sends.trials, 1, 0),
    "reports": (reports.trials, 1, 300),
    "cuts": (cuts.trials, 1, 0),
    "lines": (lines.trials, 1, 0),
    "engines": (engines.trials, 1, 8),
    "streams": (streams.trials, 1, 640),
    "states": (states.trials, 1, 640),
}
USAGE = "usage: tests/hostile.py PROGRAM [%s SEED COUNT]" % "|".join(KINDS)


def give(program, kind, seed, count):
    """How many runs there were and how often each answer came, or None where one is another, which
    is printed."""
    runs, came = 0, collections.Counter()
    for runs, trial in enumerate(KINDS[kind][0](draws.Draws(seed), count), 1):
        difference = trial.difference(program.run(trial))
        if difference:
            print("%s of seed %d, %d asked for: another answer" % (kind, seed, count))
            print(difference)
            return None
        came.update(trial.came)
    return runs, came


def give_few(program):
    """Whether a few of each were answered alike."""
    are_alike = True
    for kind, (_, seed, count) in KINDS.items():
        given = give(program, kind, seed, count)
        if given is None:
            are_alike = False
        else:
            print("%s: %d answered alike" % (kind, given[0]), flush=True)
    return are_alike


def run(words):
    """The status of what words ask for."""
    with tempfile.TemporaryDirectory() as folder:
        if len(words) == 1:
            return int(not give_few(programs.Program(words[0], folder)))
        if len(words) != 4 or words[1] not in KINDS or not (words[2] + words[3]).isdigit():
            print(USAGE, file=sys.stderr)
            return 2
        given = give(programs.Program(words[0], folder), words[1], int(words[2]), int(words[3]))
    for answer, count in sorted(given[1].items() if given else ()):
        print("%s: %d" % (answer, count))
    return int(given is None)


if __name__ == "__main__":
    sys.exit(run(sys.argv[1:]))
