"""Trials: what the program is given, and what it is to answer; and the program, which is started
for each of them."""
import collections
import itertools
import os
import subprocess

# The most seconds that a run has.
SECONDS = 120
# How a run ended: its status, and the octets of its output and of its faults.
Answer = collections.namedtuple("Answer", "status output faults")


class Trial:
    """One run of the program: its words, its standard input and the files that it reads, by their
    names; its status, output and faults by the second reading; and how often each answer comes in
    it."""

    def __init__(self, words, octets, status, output, faults, came, files=()):
        self.words, self.octets, self.files = words, octets, dict(files)
        output = output.encode() if isinstance(output, str) else output
        self.wanted = Answer(status, output, faults.encode())
        self.came = came

    def view(self, answer):
        """What is compared of an answer: mostly all of it."""
        return answer

    def shorten(self, output):
        """The input, or the part of it that is answered otherwise."""
        parts = [("standard input", self.octets)] if self.octets else []
        parts += sorted(self.files.items())
        return "\n".join("%s: %s" % (name, spelled(octets)) for name, octets in parts)

    def difference(self, answer):
        """What is to be told where an answer isn't the one that is wanted; nothing where it is."""
        found, wanted = self.view(answer), self.wanted
        if found == wanted:
            return ""
        found, wanted = zip(*map(first_apart, found, wanted))
        lines = ["words: " + " ".join(self.words), self.shorten(answer.output.decode("latin-1"))]
        for name, one, other in zip(Answer._fields, found, wanted):
            if one != other:
                lines += ["%s: %s" % (name, spelled(one)), "wanted: %s" % spelled(other)]
        return "\n".join(lines)


def first_apart(one, other):
    """Of two outputs of lines the first that differ, each with its number; all of any others."""
    are_lines = isinstance(one, bytes) and isinstance(other, bytes) and is_text(one + other)
    if not are_lines or one == other:
        return one, other
    pairs = itertools.zip_longest(one.split(b"\n"), other.split(b"\n"), fillvalue=b"(nothing)")
    place, apart = next(pair for pair in enumerate(pairs, 1) if pair[1][0] != pair[1][1])
    return tuple(b"line %d: %s" % (place, line) for line in apart)


def is_text(octets):
    return all(32 <= octet < 127 or octet in b"\n" for octet in octets)


def spelled(it):
    """Octets as text where all of them are printed, else as hexadecimal digits."""
    if not isinstance(it, bytes):
        return str(it)
    return it.decode() if is_text(it) else it.hex()


class Program:
    """The built program, run in a folder where the files of trials are written."""

    def __init__(self, path, folder):
        self.path, self.folder = os.path.abspath(path), folder

    def run(self, trial):
        for name, octets in trial.files.items():
            with open(os.path.join(self.folder, name), "wb") as file:
                file.write(octets)
        answer = self.start([self.path] + trial.words, trial.octets)
        for name in trial.files:
            os.unlink(os.path.join(self.folder, name))
        return answer

    def start(self, words, octets):
        pipe, options = subprocess.PIPE, {"cwd": self.folder, "timeout": SECONDS}
        try:
            ended = subprocess.run(words, input=octets, stdout=pipe, stderr=pipe, **options)
        except subprocess.TimeoutExpired:
            return Answer("none in %d seconds" % SECONDS, b"", b"")
        return Answer(ended.returncode, ended.stdout, ended.stderr)
