"""A second reading of files that are followed, written apart from the libraries: which datagram
goes next, which frame leaves when, and what is told of it (docs/FORMATS.md, "follow"). Times don't
go round here as timestamps do, so that the older of two is the less."""
import collections

import receivers

TEN_SECONDS = 900000
# The greatest window.
MOST_FRAMES = 16

# A datagram: the time of its picture in ticks, and its octets; and a file: its datagrams, and the
# fault behind them, or None.
Sent = collections.namedtuple("Sent", "time octets")
File = collections.namedtuple("File", "sent fault")


def steers(octets, opening):
    """Whether a datagram has a header of the stream: its timestamp says when it goes."""
    try:
        receivers.rtp_payload(octets)
    except receivers.Refused:
        return False
    source = int.from_bytes(octets[8:12], "big")
    return octets[1] & 127 == opening.payload_type and opening.ssrc in (None, source)


def joined(files, opening):
    """The datagrams of files side by side, and the fault that ended them, or None: the oldest goes
    first, before it what steers nothing, and of those alike the one of the first file. A file is
    read on once its datagram went, the first one first."""
    places, given = [0] * len(files), []
    while True:
        coming = []
        for number, (file, place) in enumerate(zip(files, places)):
            if place < len(file.sent):
                sent = file.sent[place]
                is_steered = steers(sent.octets, opening)
                coming.append((is_steered, sent.time if is_steered else 0, number))
            elif file.fault:
                return given, file.fault
        if not coming:
            return given, None
        number = min(coming)[2]
        given.append(files[number].sent[places[number]])
        places[number] += 1


class Stream:
    """A stream that is followed by so many frames at most, early or not, and what was told of it;
    frames as lists of cells by their times."""

    def __init__(self, opening, size, is_early):
        self.receiver = receivers.Receiver(opening, ())
        self.size, self.is_early = size, is_early
        self.held, self.last = {}, None
        # The times of which a datagram came that wasn't too far ahead, and how many frames would
        # have held all of these.
        self.came, self.need = set(), 0
        # The time of the first that was lost since one was kept; how many came late since the last
        # line.
        self.lost_since, self.late = None, 0
        self.counts, self.lines = collections.Counter(), []
        # The cells of each frame that left.
        self.left = []

    def take(self, sent):
        try:
            _, _, carried = receivers.read_datagram(sent.octets, self.receiver.opening)
        except receivers.Refused:
            self.counts["refused"] += 1
            self.leave_early()
            return
        fate = self.fate(sent.time)
        if fate == "kept":
            for segment, data in carried:
                self.receiver.offer(self.held[sent.time], segment, data)
        self.note(fate, sent.time)
        self.leave_early()
        if fate != "kept" and self.lost_since + TEN_SECONDS < sent.time:
            self.begin_anew(sent.time)

    def fate(self, time):
        """What becomes of a datagram; where it is kept there is a frame of its time, for which the
        oldest left if there was no room."""
        if time in self.held:
            return "kept"
        newest = max(self.held, default=self.last)
        if newest is not None and newest + TEN_SECONDS < time:
            return "far"
        is_full = len(self.held) == self.size
        if self.last is not None and time <= self.last or is_full and time < min(self.held):
            return "late"
        if is_full:
            self.leave()
        self.held[time] = self.receiver.blank()
        return "kept"

    def note(self, fate, time):
        self.counts[fate] += 1
        if fate == "kept":
            self.lost_since = None
        elif self.lost_since is None:
            self.lost_since = time
        if fate == "late":
            self.late += 1
        if fate != "far":
            self.need = max(self.need, 1 + sum(time < other for other in self.came))
            self.came.add(time)

    def leave(self):
        """The oldest frame leaves."""
        time = min(self.held)
        self.left.append(self.held.pop(time))
        line = receivers.counts_line("frame", time % 2**32, self.left[-1])
        self.lines.append("%s late %d" % (line, self.late))
        self.last, self.late = time, 0
        self.counts["frames"] += 1

    def leave_early(self):
        """All frames leave of which nothing is missing, up to the first that isn't so."""
        while self.is_early and self.held and receivers.MISSING not in self.held[min(self.held)]:
            self.leave()

    def leave_all(self):
        while self.held:
            self.leave()

    def begin_anew(self, time):
        self.leave_all()
        self.lines.append("anew %d" % (time % 2**32))
        self.counts["anew"] += 1
        self.last, self.lost_since = None, None
        self.came.clear()

    def finish(self):
        """All frames leave, and the totals are told; and which window would have held what came
        late, where one would."""
        self.leave_all()
        totals = ["%s %d" % (it, self.counts[it]) for it in "frames kept late far refused".split()]
        self.lines.append(" ".join(totals))
        if self.counts["late"] and self.size < self.need:
            more = "%d" % self.need if self.need <= MOST_FRAMES else "%d" % MOST_FRAMES
            wants = "window " if self.need <= MOST_FRAMES else "more than window "
            self.lines.append("late wants " + wants + more)


def settled(format, frames, fill, is_held):
    """The values of frames: a sample without one has its component's of the fill, or where pictures
    are held that of the picture before."""
    base, pictures = [fill[component] for _, _, component in format.positions()], []
    for cells in frames:
        without = receivers.MISSING, receivers.CONTESTED
        values = [under if cell in without else cell for cell, under in zip(cells, base)]
        pictures.append(values)
        base = values if is_held else base
    return pictures


def follow(files, opening, size, is_early):
    """The stream of files, and the fault that ended them, or None; where one did, what is still in
    is not told."""
    stream = Stream(opening, size, is_early)
    given, fault = joined(files, opening)
    for sent in given:
        stream.take(sent)
    if fault is None:
        stream.finish()
    return stream, fault
