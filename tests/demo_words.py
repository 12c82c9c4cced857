"""What `make demo` says beside a line of `replay`, held to a table of calls, answers and their words for a unit of 5 ramp minutes; and how
a list is laid out. Ends with status 1 where a line is another.
"""
import pathlib
import sys

sys.path.insert(0, str(pathlib.Path(__file__).parent.parent / "scripts" / "show"))
import in_words

X = "12345678901234567890123455"
INSTALL = f"install {X} 0123456789AB 4000 5500 5"
INSTALLED = "panel 4,000 W, inverter 5,500 W, 5 ramp minutes: 100% is 30,000 parts"
RESPONSE = f"--B\r\nContent-Disposition: attachment; filename=203_0000_{X}_20260327090000.data\r\n\r\n".encode().hex()
STATE = "clock 827971500 floor 313 w 2 h none k 3 f 828056400 u 828014400 command 8700 held "
TOLD = [
    "clock 2026-03-28 00:05:00, floor 2026-02, command 29%",
    "fixed schedule: wanted flag 2, held flag none, failures 3, not before 2026-03-28 23:40:00",
    "update: not before 2026-03-28 12:00:00",
]

# A call, its answer, the call in words, the answer in words.
TABLE = [
    (INSTALL, "accepted", INSTALLED, []),
    (INSTALL, "refused 1", INSTALLED, ["ID length, byte or check digit"]),
    ("tick 0", "accepted", "2000-01-01 00:00:00", []),
    ("tick 826761600", "accepted", "2026-03-14 00:00:00", []),
    ("tick 3155759999", "accepted", "2099-12-31 23:59:59", []),
    ("tick 18446744073709551615", "refused 6", "past 2099", ["tick not below 3,155,760,000, the end of 2099"]),
    ("tick 00827917200", "refused 4", "2026-03-27 09:00:00", ["unit, or a lent store, not sound"]),
    ("ceiling 459956", "rate 40 29", "2026-03-27 10:00", ["40% of C, the lesser capacity; 29% of the inverter"]),
    ("ceiling 459959", "none", "2026-03-27 11:30", ["no rate, which counts as 0"]),
    ("ceiling 1753200", "refused 6", "past 2099", ["slot not below 1,753,200, the end of 2099"]),
    (f"take 203_0000_{X}_20260327090000.data 0000", "refused 9", "203, update, made 2026-03-27 09:00:00, a body of 2 bytes",
     ["record count, digit, 203's n above 336, or length"]),
    (f"take 202_2708_{X}_20260501120000.data -", "refused 14", "202, monthly file of 2027-08, made 2026-05-01 12:00:00, a body of 0 bytes",
     ["more than 16 months would be held"]),
    ("take xy 00", "refused 7", "a body of 1 byte", ["name breaks its form, or 301 given to be taken"]),
    (f"response B {RESPONSE}", "refused 17", "203, update, made 2026-03-27 09:00:00, a response of 106 bytes", ["response breaks its form"]),
    ("response B -", "refused 5", "a response of 0 bytes", ["clock unset"]),
    ("response B 00", "refused 7", "a response of 1 byte", ["name breaks its form, or 301 given to be taken"]),
    ("due", "update", "", ["the update is due (203, segment 0000)"]),
    ("due", "fixed 2", "", ["the fixed schedule of flag 2 is due (201, segment 9992)"]),
    ("due", "nothing", "", ["nothing is due"]),
    ("due", "refused 5", "", ["clock unset"]),
    ("due", "no unit", "", ["no unit is installed"]),
    ("failure update 404", "accepted", "the update failed: status 404", []),
    ("failure fixed 0", "accepted", "the fixed schedule failed: link lost or file refused", []),
    ("command", "18500", "", ["61.67% of the inverter"]),
    ("free", "3", "", ["blocks free of 16: 3"]),
    ("request hex:39393932", "refused 4", "yearly file of flag 2", ["unit, or a lent store, not sound"]),
    ("request 2613", "refused 7", "", ["segment breaks its form"]),
    ("byte 4464 200", "accepted", "byte 0 of block 3", []),
    ("block 0", "none", "2000-01", ["no block of that month"]),
    ("block 1199", "ff" * 1485 + "64281c", "2099-12", ["slots with a rate: 3, from 28 to 100 percent of C"]),
    ("state", f"{STATE}-", "", TOLD + ["held: no month"]),
    ("state", f"{STATE}314:0,315:15", "", TOLD + ["held in block: 2026-03:0 2026-04:15"]),
    ("state", "clock unset floor 0 w none h none k 0 f 0 u 0 command 0 held -", "",
     ["clock unset, floor 2000-01, command 0%", "fixed schedule: wanted flag none, held flag none, failures 0", "update: at any time", "held: no month"]),
]

# A list as it is, its answers, and what is shown under the first line.
LIST = ["# begins", "due", "", INSTALL, "tick x", "tick 827917200", "# ends", "request " + "9" * 100]
ANSWERS = ["no unit", "accepted", "unknown", "refused 3", "refused 7"]
SHOWN = [
    "",
    "# begins",
    "  due",
    "      no unit                                 | no unit is installed",
    "",
    f"  {INSTALL}",
    f"      | {INSTALLED}",
    "      accepted",
    "  tick x",
    "      unknown                                 | no call of this form",
    "  tick 827917200                              | 2026-03-27 09:00:00",
    "      refused 3                               | store not 23,808 bytes",
    "",
    "# ends",
    "  request " + "9" * 92 + ".. (108 characters)",
    "      refused 7                               | segment breaks its form",
]


def main():
    wrong = [(call, words, in_words.of_call(call)) for call, _, words, _ in TABLE if in_words.of_call(call) != words]
    wrong += [(f"{call} -> {answer}", words, in_words.of_answer(call, answer, 5)) for call, answer, _, words in TABLE if in_words.of_answer(call, answer, 5) != words]
    shown = list(in_words.shown(LIST, ANSWERS))[1:]
    wrong += [("a list", SHOWN, shown)] if shown != SHOWN else []
    for what, expected, found in wrong:
        print(f"error: {what}: expected {expected}, found {found}")
    return 1 if wrong else 0


if __name__ == "__main__":
    sys.exit(main())
