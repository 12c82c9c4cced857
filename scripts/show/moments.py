"""The story of `make demo`, moment by moment, as `replay` answers: its list with questions after the calls and with its long ticks taken in
parts, which ends in the same unit (`SameAfterTicks`). The answers to the story's own calls must be those that are kept beside it."""
import pathlib
import re
import subprocess
import sys

from in_words import SLOT, lines_of, number

ROOT = pathlib.Path(__file__).resolve().parent.parent.parent
STORY = ROOT / "story" / "fiscal_year.txt"
KEPT = ROOT / "story" / "fiscal_year.answers"


class Moment:
    """The unit after a call. at: the latest second that its clock had; own: whether the call is the story's."""

    def __init__(self, at, line, answer, own):
        self.at, self.line, self.answer, self.own = at, line, answer, own
        self.command = self.free = self.ceiling = None
        self.held = {}

    def learn(self, question, answer):
        """Takes the answer to a question: the command, each block's month, the free blocks, rate and percent of the clock's slot."""
        if question == "state":
            self.command = int(re.search(r" command (\d+) ", answer)[1])
            held = answer.rsplit(" ", 1)[1]
            self.held = {} if held == "-" else {int(b): int(m) for m, b in (pair.split(":") for pair in held.split(","))}
        elif question == "free":
            self.free = int(answer)
        elif answer.startswith("rate "):
            self.ceiling = tuple(map(int, answer.split(" ")[1:]))


def questions(at):
    return [("state", False), ("free", False), (f"ceiling {at // SLOT}", False)]


def asked(calls, answers, parts, end):
    """The story's list with what is asked between its calls: pairs of a line and whether it is the story's own."""
    clock, latest = None, 0
    for line, answer in zip(calls, answers):
        if line.startswith("tick ") and answer == "accepted":
            to = number(line[5:])
            # what the clock passes again after a step back was seen before
            for at in [at for at in parts if latest < at < to and clock is not None]:
                yield from [(f"tick {at}", False)] + questions(at)
            clock, latest = to, max(to, latest)
        elif line == "lost":
            clock = None
        yield line, True
        yield from questions(latest) if latest else []
    yield from [(f"tick {end}", False)] + questions(end)


def replayed(parts, end):
    """The story's install line as words, and its moments in order. parts: where its long ticks are parted, rising; end: up to when the
    clock runs on after its last call."""
    calls = [line for line in lines_of(STORY) if line and not line.startswith("#")]
    kept = lines_of(KEPT)
    if subprocess.run([ROOT / "scripts" / "program", "replay"], stdout=sys.stderr).returncode:
        sys.exit(1)
    lines = list(asked(calls, kept, parts, end))
    text = "".join(f"{line}\n" for line, _ in lines)
    answers = subprocess.run([ROOT / "target" / "bin" / "replay"], input=text, capture_output=True, text=True).stdout.split("\n")[:-1]
    if len(answers) != len(lines) or [answer for answer, (_, own) in zip(answers, lines) if own] != kept:
        sys.exit("error: replay's answers to the story are not those of story/fiscal_year.answers")
    moments, latest = [], 0
    for (line, own), answer in zip(lines, answers):
        if not own and not line.startswith("tick "):
            moments[-1].learn(line, answer)
            continue
        if line.startswith("tick ") and answer == "accepted":
            latest = max(latest, number(line[5:]))
        moments.append(Moment(latest, line, answer, own))
    return calls[0].split(" "), moments


def seen(moments, window):
    """The last moment of each second in a window: pairs of second and moment."""
    return sorted({here.at: here for here in moments if window[0] <= here.at <= window[1]}.items())


def runs(values):
    """Pairs of second and value, as lists of beginning, end and value: one for each run of equal values."""
    found = []
    for at, value in values:
        if found:
            found[-1][1] = at
        if not found or found[-1][2] != value:
            found.append([at, at, value])
    return found
