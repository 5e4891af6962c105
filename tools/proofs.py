"""The proofs of the crates that a program stands on, side by side in rooms (see first_run.py), the lowest first."""
import contextlib
import os
import subprocess
import sys
import time

from machine import number_of_processors

# About how many seconds the first proof of each crate takes, of a processor: which is first, and the minutes that are told, hang
# on how they compare.
SECONDS = {
    "st_format": 95, "packet_numbers": 25, "lane_kernels": 45, "text_line": 10, "rtp_header": 20,
    "payload_header": 20, "pgroup_pack": 45, "interface_name": 10, "address_text": 15, "flow": 25, "sdp_format": 125,
    "sdp_writing": 30, "frame_assembly": 95, "packet_plan": 35, "path_receiver": 90, "path_merge": 75,
    "following": 120, "frame_report": 45, "bt709_fixed": 25, "key_mix": 135, "media_file": 125, "receiver_file": 110,
    "pcap_file": 135, "picture_forms": 125, "marked_view": 20, "settled_forms": 65, "form_files": 30,
    "recording_counts": 105, "recording_reader": 90, "devices": 160, "run_outcome": 90, "script_engines": 205,
    "capture_engines": 265, "window_finding": 75, "stream_inspection": 145, "receiver_engines": 150,
    "convert_engine": 40, "stream_sending": 60, "recording_engines": 130, "picture_engine": 60, "side_by_side": 85,
    "follow_engine": 135, "frame_sinks": 70, "inspect_engine": 60, "export_engine": 45, "paced_export": 65,
    "command_line": 105, "command_end": 60, "program_entry": 25, "script_runs": 55, "script_program": 60,
    "capture_runs": 160, "inspect_runs": 65, "follow_runs": 100, "receiver_runs": 70, "picture_runs": 65,
    "recording_runs": 105, "st2110": 130,
}
# What a crate takes that isn't named there.
OTHER_SECONDS = 60


def show(line):
    """Prints a line to standard error, if that is there."""
    if sys.stderr:
        with contextlib.suppress(OSError):
            print(line, file=sys.stderr, flush=True)


def say(text):
    show(f"st2110: {text}")


def crates_of(checkout, program):
    """The crates that a program stands on, lowest first, and last itself: each with those of the checkout that it names."""
    named, seen, found = {}, set(), {}
    with open(f"{checkout}/crates.txt", encoding="utf-8") as lines:
        for line in lines:
            head, colon, below = line.partition("#")[0].partition(":")
            if colon and head.split():
                named[head.split()[0]] = below.split()

    def add(name):
        if name in named and name not in seen:
            seen.add(name)
            for it in named[name]:
                add(it)
            found[name] = [it for it in named[name] if it in named]

    add(program)
    return found


def changed(checkout, crates, moment):
    """The crates of which a source was changed after a moment, and those that stand on them."""
    found = []
    for name, below in crates.items():
        walked = [it for part in ("src", "specs", "proofs") for it in os.walk(f"{checkout}/crates/{name}/{part}")]
        files = [f"{at}/{it}" for at, _, names in walked for it in ("", *names)]
        if set(found).intersection(below) or any(os.lstat(it).st_mtime > moment for it in files):
            found.append(name)
    return found


def chains(crates, seconds):
    """For each crate, how long it takes from its beginning until the program stands, if nothing waits for a room."""
    longest = {}
    for name in reversed(list(crates)):
        longest[name] = seconds[name] + max((longest[it] for it in longest if name in crates[it]), default=0)
    return longest


def jobs_of(is_last, beside):
    """How many jobs a proof has while others run beside it: of the processors one, and of what they leave all where the
    program waits for it the longest. More jobs take a third more processor time, since each reads all libraries."""
    processors = number_of_processors()
    return max(processors - beside, 1) if is_last else max(processors // (beside + 1), 1)


class Proofs:
    """The proofs of some crates of a program, each in a room, the lowest first. The program is proved and built in the
    checkout."""

    def __init__(self, crates, wanted, rooms, checkout, logs):
        self.crates, self.left, self.rooms, self.checkout, self.logs = crates, list(wanted), rooms, checkout, logs
        *_, self.program = crates
        self.seconds = {it: SECONDS.get(it, OTHER_SECONDS) for it in crates}
        self.running, self.count, self.start, self.expected, self.measured = {}, len(self.left), time.time(), 0, 0

    def step(self):
        """Begins what can begin, takes what has ended, and returns the log of a proof that failed, or None."""
        for room in self.rooms:
            under_way = [name for name, _, _ in self.running.values()]
            ready = [it for it in self.left if not {*self.left, *under_way}.intersection(self.crates[it])]
            if not under_way:
                # (of crates that stand on one another, `rt` tells)
                ready = ready or self.left
            if ready and room not in [it for _, it, _ in self.running.values()]:
                longest = chains(self.crates, self.seconds)
                name = max(ready, key=longest.get)
                beside = min(len(self.rooms), len(under_way) + len(ready)) - 1
                is_last = all(longest[name] >= longest[it] for it in under_way)
                self.begin(name, room, jobs_of(is_last, beside))
        for process in [it for it in self.running if it.poll() is not None]:
            name, _, begun = self.running.pop(process)
            took = time.time() - begun
            if process.returncode:
                return self.log(name)
            # (what takes less was proved before)
            if took > self.seconds[name] / 8:
                self.expected, self.measured = self.expected + self.seconds[name], self.measured + took
        return None

    def begin(self, name, room, jobs):
        self.left.remove(name)
        flags = ["--jobs", str(jobs)] if self.rooms[1:] else []
        at, verb = (self.checkout, ["run", *flags, "--", "--version"]) if name == self.program else (room, ["lib", *flags])
        with open(self.log(name), "w", encoding="utf-8") as log:
            how = {"cwd": f"{at}/crates/{name}", "stdin": subprocess.DEVNULL, "stdout": log, "stderr": log}
            self.running[subprocess.Popen(["rt", *verb], **how)] = name, room, time.time()
        place, spent = self.count - len(self.left), round((time.time() - self.start) / 60)
        say(f"proving {name}, crate {place} of {self.count}, {spent} min so far, about {self.more()} more")

    def more(self):
        """In how many minutes the program stands, if the proofs take as much of what is expected as those before them."""
        scale = self.measured / self.expected if self.expected else 1
        seconds = {it: self.seconds[it] * scale if it in self.left else 0 for it in self.crates}
        for name, _, begun in self.running.values():
            seconds[name] = max(self.seconds[name] * scale - (time.time() - begun), 0)
        last = seconds[self.program]
        in_rooms = (sum(seconds.values()) - last) / len(self.rooms) + last
        return max(round(max(in_rooms, *chains(self.crates, seconds).values()) / 60), 1)

    def log(self, name):
        return f"{self.logs}/{name}.log"
