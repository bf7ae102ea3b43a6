"""How many proofs and builds the machine can run at once. `./build`, `./gate` and the suite from outside ask this."""
import contextlib
import os
import pathlib
import re

# The most memory that a proof takes, or a build with checks, in bytes, but for one: silt_server takes up to 5.8 GB.
JOB_MEMORY = 4_500_000_000


def number_in(path, pattern):
    """The number in a file that comes where the pattern says, or None."""
    with contextlib.suppress(OSError):
        if found := re.search(pattern, pathlib.Path(path).read_text()):
            return int(found[1])
    return None


def processors():
    """How many processors there are to use: those that this process may run on, or fewer by the quota of its group."""
    found = len(os.sched_getaffinity(0))
    quota, period = (number_in("/sys/fs/cgroup/cpu.max", it) for it in (r"^(\d+) ", r"^\d+ (\d+)"))
    return min(found, max(1, quota // period)) if quota and period else found


def jobs():
    """How many proofs or builds may run at once: one for each processor, if there is so much memory for each."""
    free = 1024 * number_in("/proc/meminfo", r"MemAvailable:\s+(\d+)")
    most = number_in("/sys/fs/cgroup/memory.max", r"^(\d+)") or free
    return max(1, min(processors(), min(free, most) // JOB_MEMORY))
