"""What the machine has, or the part of it that this process may use."""
import contextlib
import os
import re

# Where the system says how much of the machine this process and those beside it may use.
GROUP = "/sys/fs/cgroup"


def number_in(file, pattern):
    """The number that a pattern finds in a file of the system, or None."""
    with contextlib.suppress(OSError), open(file, encoding="utf-8") as it:
        found = re.search(pattern, it.read(), re.M)
        return int(found[1]) if found else None


def number_of_processors():
    """How many processors may be used."""
    processors = len(os.sched_getaffinity(0))
    quota, period = number_in(f"{GROUP}/cpu.max", r"^(\d+)"), number_in(f"{GROUP}/cpu.max", r"(\d+)$")
    return max(min(processors, quota // period), 1) if quota and period else processors
