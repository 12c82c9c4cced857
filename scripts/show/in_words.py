#!/usr/bin/env python3
"""Prints a list of calls with the answers of `replay`, each line as it is and, right of a bar, in words: seconds as Japanese time, slots,
months, causes of refusal, what is due.

usage: in_words.py LIST ANSWERS

It reads lines and judges nothing: a line that it does not understand has no words.
"""
import datetime
import re
import signal
import sys

BEGINNING = datetime.datetime(2000, 1, 1)
LAST = 3155760000 + 172800  # f and u stay below it
SLOT = 1800
SLOTS = 1753200
MONTHS = 1200
BLOCK = 1488
LONGEST = 65536  # bytes of a line that is read

# Document 01's table of causes and those of 02; of 6, 7 and 9 what a call of `replay` can be refused for.
CAUSES = {
    "1": "ID length, byte or check digit",
    "2": "setting, MAC length or MAC byte out of range",
    "3": "store not 23,808 bytes",
    "4": "unit, or a lent store, not sound",
    "5": "clock unset",
    "6 tick": "tick not below 3,155,760,000, the end of 2099",
    "6 ceiling": "slot not below 1,753,200, the end of 2099",
    "6 failure": "status not 0, 100-199 or 300-599",
    "7 take": "name breaks its form, or 301 given to be taken",
    "7 response": "name breaks its form, or 301 given to be taken",
    "7 request": "segment breaks its form",
    "8": "name's ID isn't the plant's",
    "9": "record count, digit, 203's n above 336, or length",
    "10": "a date or n against the rules",
    "11": "rate above 100",
    "12": "checksum",
    "13": "record's plant ID isn't the name's",
    "14": "more than 16 months would be held",
    "15": "output longer than the lent buffer",
    "17": "response breaks its form",
}


def moment(second):
    """A second as date and time."""
    return str(BEGINNING + datetime.timedelta(seconds=second)) if second < LAST else "past 2099"


def slot(number):
    """A slot as the date and hh:mm of its beginning."""
    return moment(number * SLOT)[:16] if number < SLOTS else "past 2099"


def month(number):
    """A month's number as year and month."""
    return f"{2000 + number // 12}-{number % 12 + 1:02}" if number < MONTHS else "past 2099"


def percent(parts, minutes):
    """A command's parts as percent of the inverter, by the ramp minutes N."""
    return f"{parts / (60 * minutes):.2f}".rstrip("0").rstrip(".") + "%"


def text_of(word):
    """A word that may be given in hex digits."""
    if not word.startswith("hex:"):
        return word
    try:
        return bytes.fromhex(word[4:]).decode("ascii", "replace")
    except ValueError:
        return ""


def segment(text):
    """What a request's or a name's segment asks for."""
    if text == "0000":
        return "update"
    if text == "8888":
        return "registration"
    if re.fullmatch("999[0-9]", text):
        return f"yearly file of flag {text[3]}"
    if re.fullmatch("[0-9][0-9](0[1-9]|1[0-2])", text):
        return f"monthly file of 20{text[:2]}-{text[2:]}"
    return ""


def file(name):
    """A file by its name: pair of what it is and when it was made; None where the name has another form."""
    found = re.fullmatch(r"(201|202|203|301)_([0-9]{4})_[0-9]{26}_([0-9]{14})\.data", name)
    if not found or not segment(found[2]):
        return None
    made = re.sub("(....)(..)(..)(..)(..)(..)", r"\1-\2-\3 \4:\5:\6", found[3])
    return f"{found[1]}, {segment(found[2])}", made


def carried(digits):
    """The name in a response of these hex digits: what follows the first `filename=` to its line's end."""
    found = re.search("filename=(.*?)\r\n", text_of(f"hex:{digits}"), re.DOTALL)
    return found[1] if found else ""


def number(word):
    """A word as a number, None where it is none."""
    return int(word.lstrip("0") or 0) if re.fullmatch("0*[0-9]{1,20}", word) else None


def of_call(line):
    """What a call says, in words."""
    word, *rest = line.split(" ")
    numbers = [number(part) for part in rest]
    if word in ("take", "response") and len(rest) == 2:
        found = file(text_of(rest[0]) if word == "take" else carried(rest[1]))
        length = 0 if rest[1] == "-" else len(rest[1]) // 2
        what = "a body" if word == "take" else "a response"
        return (f"{found[0]}, made {found[1]}, " if found else "") + f"{what} of {length:,} byte{'s' * (length != 1)}"
    if word == "request" and len(rest) == 1:
        return segment(text_of(rest[0]))
    if word == "failure" and rest and rest[0] in ("update", "fixed") and numbers[1:] and numbers[1] is not None:
        what = {"update": "the update", "fixed": "the fixed schedule"}[rest[0]]
        return f"{what} failed: " + (f"status {numbers[1]}" if numbers[1] else "link lost or file refused")
    if word == "install" and len(rest) == 5 and None not in numbers[2:]:
        panel, inverter, minutes = numbers[2:]
        return f"panel {panel:,} W, inverter {inverter:,} W, {minutes} ramp minutes: 100% is {6000 * minutes:,} parts"
    if not numbers or None in numbers:
        return ""
    if word in ("tick", "ceiling", "block"):
        return {"tick": moment, "ceiling": slot, "block": month}[word](numbers[0])
    if word == "store" and numbers[0] == 16 * BLOCK:
        return f"16 blocks of {BLOCK:,} bytes"
    if word == "byte" and numbers[0] < 16 * BLOCK:
        return f"byte {numbers[0] % BLOCK} of block {numbers[0] // BLOCK}"
    return ""


def of_state(answer, minutes):
    """The unit's values in words, held months eight to a line."""
    found = re.fullmatch(r"clock (\S+) floor (\d+) w (\S+) h (\S+) k (\d) f (\d+) u (\d+) command (\d+) held (\S+)", answer)
    if not found:
        return []
    clock, floor, wanted, held_flag, failures, fixed, update, parts, held = found.groups()
    months = [] if held == "-" else [pair.split(":") for pair in held.split(",")]
    words = [
        f"clock {clock if clock == 'unset' else moment(int(clock))}, floor {month(int(floor))}, command {percent(int(parts), minutes)}",
        f"fixed schedule: wanted flag {wanted}, held flag {held_flag}, failures {failures}"
        + (f", not before {moment(int(fixed))}" if int(fixed) else ""),
        "update: " + (f"not before {moment(int(update))}" if int(update) else "at any time"),
    ]
    if not months:
        words.append("held: no month")
    for at in range(0, len(months), 8):
        words.append(("held in block: " if at == 0 else " " * 15) + " ".join(f"{month(int(m))}:{b}" for m, b in months[at : at + 8]))
    return words


def of_block(answer):
    """How many rates a block has."""
    given = [rate for rate in bytes.fromhex(answer) if rate != 255]
    if not given:
        return "no slot has a rate"
    return f"slots with a rate: {len(given):,}, from {min(given)} to {max(given)} percent of C"


def of_answer(call, answer, minutes):
    """What an answer to a call says, in words: lines. minutes: the N of the unit."""
    word = call.split(" ")[0]
    if answer == "unknown":
        return ["no call of this form"]
    if answer == "too long":
        return [f"more than {LONGEST:,} bytes"]
    if answer == "no unit":
        return ["no unit is installed"]
    if answer.startswith("refused "):
        cause = answer.split(" ")[1]
        return [CAUSES.get(cause) or CAUSES.get(f"{cause} {word}", "")]
    if word == "due":
        if answer == "update":
            return ["the update is due (203, segment 0000)"]
        if answer.startswith("fixed "):
            return [f"the fixed schedule of flag {answer[6:]} is due (201, segment 999{answer[6:]})"]
        return ["nothing is due"]
    if word == "ceiling":
        found = re.fullmatch(r"rate (\d+) (\d+)", answer)
        return [f"{found[1]}% of C, the lesser capacity; {found[2]}% of the inverter" if found else "no rate, which counts as 0"]
    if word == "command" and minutes:
        return [f"{percent(int(answer), minutes)} of the inverter"]
    if word == "free":
        return [f"blocks free of 16: {answer}"]
    if word == "state" and minutes:
        return of_state(answer, minutes)
    if word == "block":
        return ["no block of that month"] if answer == "none" else [of_block(answer)]
    return []


def cut(text, most):
    return text if len(text) <= most else f"{text[:most]}.. ({len(text):,} characters)"


def beside(text, words, indent):
    """A line as it is, with its words right of a bar: beside it, or under it where they have no room."""
    words = [line for line in words if line]
    line = " " * indent + text
    if len(words) == 1 and len(line) <= 44:
        return [f"{line:<44}  | {words[0]}"]
    return [line] + [f"{' ' * (indent + 4)}| {line}" for line in words]


def shown(lines, answers):
    """The list with its answers, line by line."""
    answers, minutes, before = iter(answers), None, "the line above"
    yield "Each call has its answer under it. Right of a bar is the line in words; times are Japanese."
    for line in lines:
        size = len(line.encode("utf-8", "surrogateescape"))
        if size <= LONGEST and (not line or line.startswith("#")):
            if line and before and not before.startswith("#"):
                yield ""
            yield cut(line, 200)
        else:
            answer = next(answers, None)
            understood = answer not in ("unknown", "too long", None)
            yield from beside(cut(line, 100), [of_call(line)] if understood else [], 2)
            if line.startswith("install ") and answer == "accepted":
                minutes = number(line.split(" ")[5])
            if answer is not None:
                yield from beside(cut(answer, 300), of_answer(line, answer, minutes), 6)
        before = line


def lines_of(path):
    with open(path, encoding="utf-8", errors="surrogateescape", newline="\n") as source:
        lines = source.read().split("\n")
    return lines if lines[-1] else lines[:-1]


if __name__ == "__main__":
    signal.signal(signal.SIGPIPE, signal.SIG_DFL)
    sys.stdout.reconfigure(encoding="utf-8", errors="surrogateescape")
    print("\n".join(shown(lines_of(sys.argv[1]), lines_of(sys.argv[2]))))
