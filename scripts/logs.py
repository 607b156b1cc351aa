"""Logs of runs, as `paygo check` reads them: the lines that are typed and their answers, how a cut of the power is told in them, and
what the check says of them. And the lines of a device as a number draws them. Used by check-logs, check-speed and try-firmware."""

import os
import re
import signal
import subprocess
import threading
import time
from dataclasses import dataclass, replace

from trials import untried

# A device that doesn't answer a line within so many seconds is taken for one that has no answer.
PATIENCE = 20
# The check keeps up to so many states that the device may be in.
STATES = 64
# The lines that a device which is off has no answer to.
EVENT = re.compile(r"make [0-9A-Fa-f]{32} [0-9]{1,9} [0-9]{1,3} (9|15)|keys [0-9*# ]+|tick [0-9]{1,9}|show|raise")
VERDICT = re.compile(r"(yes|no|wide|unread) ([0-9]+)\n")


@dataclass(frozen=True)
class Turn:
    """A line, its answers, and whether the power was cut before the last of them."""

    line: str
    answers: tuple = ()
    cut: bool = False

    def told(self):
        """The lines of the log. An event that was cut is answered `down`."""
        return ["> " + self.line] + ["< " + answer for answer in self.answers] + ["< down"] * self.cut

    def uncut(self):
        """What was answered of it, as turns, where what was cut changed nothing: the keys up to the last answered `#`, or none."""
        if not self.answers:
            return []
        end = [at for at, key in enumerate(self.line) if key == "#"][len(self.answers) - 1]
        return [Turn(self.line[: end + 1], self.answers)]


def told(turns):
    return [line for turn in turns for line in turn.told()]


def verdict(program, lines):
    """What the check says of a log: a word and a number."""
    text = "".join(line + "\n" for line in lines).encode(errors="surrogateescape")
    run = subprocess.run([program, "check"], input=text, capture_output=True, timeout=600)
    said = VERDICT.fullmatch(run.stdout.decode(errors="replace"))
    if run.returncode != 0 or said is None:
        untried("`check` ended with status %d: %r %s" % (run.returncode, run.stdout[:200], run.stderr.decode(errors="replace")[-500:]))
    return said[1], int(said[2])


def judged(program, turns):
    """What the check says of a story, and the turns in the log that it was handed. Where it says that a cut event couldn't be
    answered `down`, that event changes nothing on any flash, so the log is the one without it."""
    turns = list(turns)
    while True:
        said = verdict(program, told(turns))
        at = place(turns, said[1])
        if said[0] != "no" or at is None or not turns[at].cut or said[1] != len(told(turns[: at + 1])):
            return said, turns
        turns[at : at + 1] = turns[at].uncut()


def place(turns, number):
    """Which turn has this line of the log."""
    for at, turn in enumerate(turns):
        number -= len(turn.told())
        if number <= 0:
            return at
    return None


def answers_to(line, on):
    """How many answers a device that is on, or off, has to a line, or a ledger to one of its own."""
    if line == "":
        return 0
    if not EVENT.fullmatch(line):
        return 1
    return 0 if not on else line.count("#") if line.startswith("keys ") else 1


class Run:
    """A program that answers lines, where it is so asked in a group of processes of its own. `paces` has how long it takes for an answer, by the first
    letter of a line."""

    def __init__(self, words, paces, own_group=True):
        self.paces, self.on, self.own_group = paces, False, own_group
        pipe = subprocess.PIPE
        self.process = subprocess.Popen(words, stdin=pipe, stdout=pipe, start_new_session=own_group)

    def stop(self):
        """Ends all its processes at once, by their group."""
        if self.process.returncode is None:
            if self.own_group:
                os.killpg(self.process.pid, signal.SIGKILL)
            else:
                self.process.kill()
        self.process.wait(timeout=PATIENCE)

    def say(self, line):
        try:
            self.process.stdin.write(line.encode() + b"\n")
            self.process.stdin.flush()
        except BrokenPipeError:
            pass

    def turn(self, line):
        """A line and its answers. A device that has no more answers is stopped, and has too few then."""
        begun = time.monotonic()
        waiting = threading.Timer(PATIENCE, self.stop)
        waiting.start()
        self.say(line)
        said, wanted = [], answers_to(line, self.on)
        while len(said) < wanted and "down" not in said:
            answer = self.process.stdout.readline()
            if not answer.endswith(b"\n"):
                break
            said.append(text_of(answer[:-1]))
        waiting.cancel()
        if wanted:
            self.paces[line[0]] = 0.8 * self.pace(line) + 0.2 * (time.monotonic() - begun)
        return self.done(Turn(line, tuple(said)))

    def pace(self, line):
        return self.paces.get(line[0], 0.002)

    def killed_turn(self, line, moment):
        """A line, in the middle of which all processes are killed: at this part, from 0 to 1, of a little more than the time that such an
        answer takes."""
        self.say(line)
        time.sleep(moment * 1.3 * self.pace(line))
        self.stop()
        said = self.rest()
        wanted = answers_to(line, self.on)
        return Turn(line, tuple(said), len(said) < wanted and "down" not in said)

    def rest(self):
        """The whole answers that are still to be read. What it takes to answer ends with its processes."""
        said = self.process.stdout.read().split(b"\n")
        self.process.stdout.close()
        try:
            self.process.stdin.close()
        except BrokenPipeError:
            pass
        return [text_of(answer) for answer in said[:-1]]

    def end(self):
        """Ends the input, and waits. The answers that came behind those that were wanted, and the status."""
        waiting = threading.Timer(PATIENCE, self.stop)
        waiting.start()
        try:
            self.process.stdin.close()
        except BrokenPipeError:
            pass
        said = self.rest()
        status = self.process.wait(timeout=2 * PATIENCE)
        waiting.cancel()
        return said, status

    def done(self, turn):
        """Keeps whether the device is on."""
        if "down" in turn.answers:
            self.on = False
        elif turn.line == "power":
            self.on = True
        return turn


def text_of(answer):
    """An answer as text, from which its bytes can be had again."""
    return answer.decode(errors="surrogateescape")


def device_line(random, tokens, digits):
    """A line of a device, drawn: mostly keys of these tokens, and time that passes."""
    chance = random.random()
    if chance < 0.45 and tokens:
        token = random.choice(tokens)
        return typed(random, token)
    if chance < 0.50:
        return "keys %s#" % "".join(random.choice("1234" if digits == 15 else "0123456789") for _ in range(digits))
    if chance < 0.60:
        return "keys " + random.choice(["12345#", "123", "*", "#", "1 2*34#", "12#34#", "9" * 30 + "#", "0" * digits + "#"])
    if chance < 0.85:
        return "tick %d" % random.choice([0, 1, 29, 31, 60, 120, 3600, 5 * 3600, 86400, 61440, 999999999 if chance < 0.61 else 7])
    if chance < 0.95:
        return "show"
    return random.choice(["raise", "power", "walk", "tick", "keys x#"])


def typed(random, token):
    """The keys of a token: plain, with spaces, behind keys that are cleared, or twice in one line."""
    chance = random.random()
    if chance < 0.70:
        return "keys %s#" % token
    if chance < 0.80:
        return "keys %s %s %s#" % (token[:3], token[3:6], token[6:])
    if chance < 0.90:
        return "keys 12*%s#" % token
    return "keys %s#%s#" % (token, token)
