"""What the trials of the built program on real files share: building it, starting it, and how a device stands after each
of its events. Used by each trial."""

import os
import subprocess
import sys
import tempfile

CRATE = os.path.join(os.path.dirname(os.path.abspath(__file__)), "..", "crates", "paygo")
MAKE = "make 000102030405060708090a0b0c0d0e0f 123456789 1 9"
TOKEN_30_DAYS = "294132819"  # count 1, value 30: the time left is set to 30 days
TOKEN_995_DAYS = "497201784"  # count 15, value 995: the time left is set to 995 days
DAY = 86400

# The statuses of a trial: all came out as wanted; something came out otherwise; nothing was tried.
WELL, WRONG, UNTRIED = 0, 1, 2


def build():
    """The path of the proved program, or of the one that the environment names by `PAYGO`. Ends the trial with `UNTRIED` where it
    isn't built."""
    if os.environ.get("PAYGO"):
        return os.path.abspath(os.environ["PAYGO"])
    with tempfile.TemporaryDirectory() as folder:
        words = ["rt", "run", "--", "device", os.path.join(folder, "warm.bin")]
        try:
            made = subprocess.run(words, cwd=CRATE, stdin=subprocess.DEVNULL, capture_output=True, text=True)
        except FileNotFoundError:
            untried("`rt` isn't on the PATH")
        if made.returncode != 0:
            untried("the program isn't built:\n" + (made.stdout + made.stderr)[-2000:])
    return os.path.abspath(os.path.join(CRATE, "out", "paygo"))


def untried(why):
    print("not tried: " + why)
    sys.exit(UNTRIED)


def banks():
    """How many banks the flash has: those of the first word behind the trial's name, as `4`, or the two of `device`."""
    return int(sys.argv[1]) if len(sys.argv) > 1 else 2


def words(flash):
    """The words of a run of a device on this flash: `ring FLASH BANKS` where the trial was called with a number of banks."""
    return ["ring", flash, str(banks())] if len(sys.argv) > 1 else ["device", flash]


def answers(program, flash, lines):
    """The answers of one run over these lines, and its exit status. A run has 60 seconds."""
    text = "".join(line + "\n" for line in lines)
    run = subprocess.run([program] + words(flash), input=text, capture_output=True, text=True, timeout=60)
    return run.stdout.splitlines(), run.returncode


def found(program, flash):
    """How the device on this flash stands when it is started: its count, time left, failures, block and digits held, or
    `unmade`. Anything else is handed out as it was said, with the status."""
    said, status = answers(program, flash, ["power", "show"])
    if status == 0 and said == ["unmade", "unmade"]:
        return "unmade"
    words = said[-1].split() if said else []
    if status == 0 and len(said) == 2 and len(words) == 7 and words[0] == "shown":
        return " ".join(words[1:6])
    return "status %d, %r" % (status, said)


def is_event(answer):
    """Whether this answer acknowledges an event: a device was made, a token accepted, or time passed."""
    return answer.split(" ")[0] in ("up", "set", "ticked")


def made_states(ticks):
    """How a new device stands after each of its events: it is made, set to thirty days, and ticked by the minute."""
    left = [30 * DAY - 60 * tick for tick in range(ticks + 1)]
    return ["unmade", "0 0 0 0 0"] + ["1 %d 0 0 0" % seconds for seconds in left]


def made_lines(ticks):
    return ["power", MAKE, "keys %s#" % TOKEN_30_DAYS] + ["tick 60"] * ticks


def header(flash, bank):
    """The number of a bank, `erased`, or None where its header is neither, or no file is there."""
    if not os.path.exists(flash):
        return None
    with open(flash, "rb") as file:
        file.seek(4096 * bank)
        word = file.read(8)
    if word == b"\xff" * 8:
        return "erased"
    high, low = int.from_bytes(word[:4], "big"), int.from_bytes(word[4:], "big")
    return high if high ^ low == 0xFFFFFFFF else None
