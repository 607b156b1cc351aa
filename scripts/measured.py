"""How long a run takes by the clock, how much processor time, and how much memory. Used by audit-speed, fleet-speed and
ledger-speed."""

import json
import os
import subprocess
import sys
import tempfile
from collections import namedtuple

from trials import untried

# Seconds by the clock and of processor time, the most memory in megabytes, the status, and what was written.
Run = namedtuple("Run", ["seconds", "processor", "memory", "status", "out", "err"])

# The system reckons the most memory of a process from the one on that started it. So a small one starts the program.
SMALL = """
import json, os, sys, time
start = time.monotonic()
child = os.posix_spawn(sys.argv[2], sys.argv[2:], os.environ)
_, status, used = os.wait4(child, 0)
seconds = time.monotonic() - start
with open(sys.argv[1], "w") as file:
    json.dump([seconds, used.ru_utime + used.ru_stime, used.ru_maxrss / 1024, os.waitstatus_to_exitcode(status)], file)
"""
# So much the small process has itself: a program that takes less can't be told from one that takes this.
FLOOR = 10


def measure(words, text=""):
    """One run of a program with these words, over this input."""
    with tempfile.TemporaryDirectory() as folder:
        numbers = os.path.join(folder, "numbers")
        small = [sys.executable, "-ISE", "-c", SMALL, numbers]
        run = subprocess.run(small + words, input=text, capture_output=True, text=True, timeout=3600)
        if run.returncode != 0:
            untried("the program didn't start:\n" + run.stderr[-2000:])
        with open(numbers) as file:
            return Run(*json.load(file), run.stdout, run.stderr.strip())


def median(runs):
    """The run in the middle by processor time."""
    return sorted(runs, key=lambda run: run.processor)[len(runs) // 2]


def memory_of(runs):
    """The most memory of these runs, in words."""
    most = max(run.memory for run in runs)
    return "at most %d MB of memory" % (FLOOR if most <= FLOOR else round(most + 0.5))


def memory_folder():
    """A folder whose files are in memory, so that the disk hides nothing, or None where there is none."""
    folder = "/dev/shm"
    return folder if os.path.isdir(folder) and os.access(folder, os.W_OK) else None
