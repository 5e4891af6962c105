#!/usr/bin/env python3
"""Proves and builds a program for the launcher of a checkout, the whole st2110 or its part, and then begins the launcher again.

usage: first_run.py CHECKOUT st2110|script_program WORD..

`rt` locks a crate's folder and each below it, so that proofs in one checkout run one after the other. Here each runs in a
room: a folder of its own with a copy of the sources, in the person's folder for caches. What one room proved `rt` takes in the
others and in the checkout, where the program is built; by kits that don't, the crates are proved in the checkout, one after the
other. The rooms stay until the program stands, so that a run after one that was stopped goes on. A command that reads standard
input alone is meanwhile tried with no proof.
"""
import contextlib
import fcntl
import glob
import hashlib
import os
import re
import shutil
import signal
import subprocess
import sys
import tempfile
import time

from machine import GROUP, number_in, number_of_processors
from proofs import Proofs, changed, crates_of, say, show

# The whole program, and what is said before it or another is built.
WHOLE = "st2110"
BEGINS = {
    WHOLE: "proving and building the program; from nothing that takes 5 GB of disk",
    "script_program": "proving and building what trace, sdp and rehearse need; the other commands' crates are proved at their"
    " first use",
}
# The first kit that was seen to take in one copy of the sources what another proved.
SHARING_KIT = 13, "f"
# The free memory for each room, in octets, and the most octets of standard input that are tried.
ROOM_MEMORY = 4_000_000_000
MOST_TRIED = 16 << 20
SIGNALS = signal.SIGINT, signal.SIGTERM, signal.SIGHUP


def number_of_rooms():
    """How many proofs may run side by side: as ST2110_ROOMS says, or by the processors and the memory that are there."""
    if os.environ.get("ST2110_ROOMS", "").isdigit():
        return int(os.environ["ST2110_ROOMS"])
    processors = number_of_processors()
    memory = 1024 * (number_in("/proc/meminfo", r"^MemAvailable: *(\d+)") or 0)
    memory = min(memory, number_in(f"{GROUP}/memory.max", r"^(\d+)") or memory)
    return min(3 if processors >= 4 else 2 if processors >= 2 else 1, memory // ROOM_MEMORY)


def is_sharing():
    """Whether the kit takes in one copy of the sources what another proved, by the name that it has for itself."""
    with contextlib.suppress(OSError):
        told = subprocess.run(["rt", "version"], stdin=subprocess.DEVNULL, capture_output=True, text=True).stdout
        kit = re.match(r"rattle-kit-(\d+)([a-z]*)", told)
        return bool(kit) and (int(kit[1]), kit[2]) >= SHARING_KIT
    return False


def furnish(room, checkout):
    """Gives a room the sources of the checkout, beside what an earlier run proved there."""
    # (in a folder with a .git the search of `rt` for the top of the repository ends)
    os.makedirs(f"{room}/.git", exist_ok=True)
    for it in glob.glob(f"{room}/crates/*/*"):
        if os.path.basename(it) != "out":
            (shutil.rmtree if os.path.isdir(it) else os.remove)(it)
    shutil.copytree(f"{checkout}/crates", f"{room}/crates", ignore=shutil.ignore_patterns("out"), dirs_exist_ok=True)
    for it in glob.glob(f"{checkout}/crates.txt") + glob.glob(f"{checkout}/HANDLES"):
        shutil.copy(it, room)


class Try:
    """What a command says of its standard input with no proof. The input is kept for the proved program."""

    def __init__(self, program, words):
        self.program, self.words, self.is_begun, self.tried = program, words, False, None
        self.kept, self.out, self.err = [tempfile.TemporaryFile() for _ in range(3)]
        self.reading = subprocess.Popen(["head", "-c", str(MOST_TRIED + 1)], stdout=self.kept, stderr=subprocess.DEVNULL)

    def is_whole(self):
        return os.fstat(self.kept.fileno()).st_size <= MOST_TRIED

    def step(self, room):
        """Begins once the input is there, and shows what was said once that has ended."""
        if not self.is_begun and self.reading.poll() is not None:
            self.is_begun = True
            if not self.reading.returncode and self.is_whole():
                self.kept.seek(0)
                how = {"stdin": self.kept, "stdout": self.out, "stderr": self.err}
                self.tried = subprocess.Popen(["rt", "try", "--", *self.words], cwd=f"{room}/crates/{self.program}", **how)
        if self.tried and self.tried.poll() is not None:
            self.tried = None
            self.out.seek(0)
            self.err.seek(0)
            lines = self.err.read().decode(errors="replace").splitlines()
            if lines and re.fullmatch("run=ended .*proved=no", lines[-1]):
                # (the line of a fault, and what `--verbose` adds)
                faults = [it for it in lines if it.startswith(("st2110: ", "  "))]
                for it in [*self.out.read().decode(errors="replace").splitlines(), *faults]:
                    say(f"not yet proved: {it}")

    def give(self):
        """Makes the kept input standard input, and what comes behind it, and returns whether it could."""
        if self.reading.wait():
            say("standard input can't be read, or not be kept: the program stands now, so run it again")
            return False
        self.kept.seek(0)
        given, file = self.kept, self.kept.fileno()
        if not self.is_whole():
            given = subprocess.Popen(["cat", f"/dev/fd/{file}", "-"], pass_fds=[file], stdout=subprocess.PIPE).stdout
        os.dup2(given.fileno(), 0)
        return True


def is_tried(words):
    """Whether a command reads standard input alone, and that is there and no terminal."""
    with contextlib.suppress(OSError):
        os.fstat(0)
        named = [it for it in words if it not in ("-v", "--verbose", "-q", "--quiet")]
        return named in ([], ["trace"], ["sdp"], ["rehearse"]) and not os.isatty(0)
    return False


def stop(number, _):
    for it in SIGNALS:
        signal.signal(it, signal.SIG_IGN)
    say("stopped; the next run goes on where this one was")
    sys.exit(128 + number)


def rooms_at(folder, checkout):
    """The rooms in a folder, or the checkout alone where there is no place for two, or nothing would be gained."""
    rooms = [f"{folder}/{it + 1}" for it in range(number_of_rooms())]
    if not (rooms[1:] and is_sharing()):
        return [checkout]
    try:
        for it in rooms:
            furnish(it, checkout)
    except OSError as fault:
        say(f"{folder} can't be used, so the crates are proved one after the other: {fault.strerror or fault}")
        return [checkout]
    return rooms


def build(checkout, program, logs, words):
    """Proves and builds a program, and returns whether it can be started. Words: of a command that is tried, or None."""
    stands, built = os.access(f"{checkout}/crates/{program}/out/{program}", os.X_OK), f"{logs}/built"
    begun, crates = time.time(), crates_of(checkout, program)
    moment = os.path.getmtime(built) if stands and os.path.exists(built) else 0
    home = os.environ.get("XDG_CACHE_HOME") or os.path.expanduser("~/.cache")
    folder = f"{home}/woqtarish/{hashlib.sha256(os.fsencode(checkout)).hexdigest()[:16]}"
    say(BEGINS[program])
    if moment > os.path.getmtime(f"{checkout}/crates.txt"):
        rooms, wanted = [checkout], changed(checkout, crates, moment)
    else:
        rooms, wanted = rooms_at(folder, checkout), crates
    proofs = Proofs(crates, wanted, rooms, checkout, logs)
    attempt = None if words is None or rooms == [checkout] else Try(program, words)
    try:
        while proofs.left or proofs.running:
            failed = proofs.step()
            if failed:
                with open(failed, encoding="utf-8", errors="replace") as log:
                    show("".join(log.readlines()[-20:]).rstrip("\n"))
                say(f"the program was not built; the whole text of the build is in {failed}")
                return False
            if attempt:
                attempt.step(rooms[0])
            time.sleep(0.1)
        with open(f"{built}.new", "w", encoding="utf-8") as it:
            it.writelines(f"{name}\n" for name in crates)
        os.utime(f"{built}.new", (begun, begun))
        os.replace(f"{built}.new", built)
        shutil.rmtree(folder, ignore_errors=True)
        return not attempt or attempt.give()
    finally:
        processes = [*proofs.running, *([attempt.reading, attempt.tried] if attempt else [])]
        for it in filter(None, processes):
            it.terminate()
        for it in filter(None, processes):
            it.wait()


def has_waited(lock):
    """Takes the lock of the build, and returns whether another run held it."""
    try:
        fcntl.flock(lock, fcntl.LOCK_EX | fcntl.LOCK_NB)
    except BlockingIOError:
        say("another run builds the program; this one waits for it")
        fcntl.flock(lock, fcntl.LOCK_EX)
        return True
    except OSError:
        # Some file systems have no locks.
        pass
    return False


def main(checkout, program, *words):
    tried = words if is_tried(words) else None
    for it in SIGNALS:
        if signal.getsignal(it) != signal.SIG_IGN:
            signal.signal(it, stop)
    try:
        # (one lock for both programs, since they have their rooms in common)
        for it in (program, WHOLE):
            out = f"{checkout}/crates/{it}/out"
            os.makedirs(f"{out}/launcher", exist_ok=True)
        lock = open(f"{out}/launcher/lock", "w", encoding="utf-8")
    except OSError:
        say(f"the program isn't built, and {out} can't be written to")
        return 125
    if not shutil.which("rt"):
        say("the program isn't built, and the command rt of the Rattle kit isn't found")
        return 125
    if not has_waited(lock):
        if not build(checkout, program, f"{checkout}/crates/{program}/out/launcher", tried):
            return 125
        os.environ["ST2110_IS_BUILT"] = program
    # Python ignores it, and the program would too.
    signal.signal(signal.SIGPIPE, signal.SIG_DFL)
    os.execvp("sh", ["sh", f"{checkout}/st2110", *words])


if __name__ == "__main__":
    sys.exit(main(*sys.argv[1:]))
