"""A disk on paper: the system calls of a run as `strace` tells them, and what the disk may have of a file after each of them.
Used by cut-calls and cut-database."""

import os
import re
import subprocess

import trials

CALLS = ("open,openat,creat,close,read,pread64,readv,write,pwrite64,writev,lseek,ftruncate,truncate,fsync,fdatasync,rename,renameat,"
         "renameat2,unlink,unlinkat,mmap")
CALL = re.compile(r"^(?:\d+ +)?(\w+)\((.*)\) += (-?\d+)")
TEXT = re.compile(r'"((?:\\x[0-9a-f]{2})*)"')


def record(program, folder, words, lines):
    """Runs the program with these words under strace in this folder, and answers the calls as (name, arguments, result)."""
    trace = os.path.join(folder, "trace")
    words = ["strace", "-f", "-xx", "-s", "70000", "-o", trace, "-e", "trace=" + CALLS, program] + words
    text = "".join(line + "\n" for line in lines)
    run = subprocess.run(words, input=text, cwd=folder, capture_output=True, text=True, timeout=120)
    if run.returncode != 0:
        trials.untried("the recorded run ended with status %d: %s" % (run.returncode, run.stderr[-500:]))
    calls = []
    with open(trace) as file:
        for line in file:
            match = CALL.match(line)
            if match is None and "+++ exited" not in line:
                trials.untried("a line of the trace isn't read: " + line[:200])
            if match and int(match.group(3)) >= 0:
                calls.append((match.group(1), match.group(2), int(match.group(3))))
    return calls


def text_in(arguments):
    """The first text among the arguments of a call, as bytes."""
    match = TEXT.search(arguments)
    return bytes.fromhex(match.group(1).replace("\\x", "")) if match else b""


class File:
    """What the disk has of a file, and what was written since."""

    def __init__(self, synced=b""):
        self.synced = synced
        self.writes = []

    def contents(self):
        """All that the disk may have."""
        count = len(self.writes)
        chosen = [()] + [(i,) for i in range(count)] + [tuple(range(n)) for n in range(2, count + 1)]
        if count > 1:
            chosen.append(tuple(range(1, count)))
        for which in chosen:
            yield patched(self.synced, [self.writes[i] for i in which])
        if self.writes and self.writes[-1][1] is not None:
            at, data = self.writes[-1]
            before = self.writes[:-1]
            for n in sorted({1, 2, 4, 7, 512, 2048, len(data) - 1} & set(range(1, len(data)))):
                yield patched(self.synced, before + [(at, data[:n])])
                yield patched(self.synced, before + [(at + n, data[n:])])


def patched(data, writes):
    """The data with these writes on it. A write of no piece sets the length."""
    made = bytearray(data)
    for at, piece in writes:
        if piece is None:
            made = made[:at].ljust(at, b"\0")
            continue
        if len(made) < at + len(piece):
            made.extend(b"\0" * (at + len(piece) - len(made)))
        made[at : at + len(piece)] = piece
    return bytes(made)
