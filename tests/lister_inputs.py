"""Writes inputs of the lister, and the line that document 01 has it print for each, into a folder.

usage: lister_inputs.py FOLDER        (for each case: CASE.input and CASE.line)

Made from document 01 alone: the files are written field by field, and each line is stated beside its input.
"""
import pathlib
import sys

sys.path.insert(0, str(pathlib.Path(__file__).parent))
from schedule_files import OTHER, X, Y, body, digits, month, name, record, update, year_from

UPDATE = name("203", "0000")
YEAR = name("201", "9993")
APRIL = name("202", "2604")
REGISTERED = name("301", "8888")
YEARLY = body(year_from(2026, 4))
EXAMPLE = body([update()])
LONGEST = body([record(f"2026{i + 1:02}010000", [0] * 99999) for i in range(12)] + [record("202701010000", [0] * 99999)])


def with_month(i, changed):
    records = year_from(2026, 4)
    records[i] = changed
    return body(records)



CASES = {
    # what reads well
    "example-10": (UPDATE, EXAMPLE, "ok 203 1 3"),
    "update-without-rates": (UPDATE, body([update(rates=())]), "ok 203 1 0"),
    "update-of-336": (UPDATE, body([update(rates=[100] * 336)]), "ok 203 1 336"),
    "rates-that-are-0A": (UPDATE, body([update(rates=[10, 10, 13, 10])]), "ok 203 1 4"),
    "update-in-the-last-slot": (UPDATE, body([update(start="209912312330", rates=[7])]), "ok 203 1 1"),
    "update-of-a-leap-day": (UPDATE, body([update(start="202802291200", rates=[1] * 48)]), "ok 203 1 48"),
    "yearly-of-19681-bytes": (YEAR, YEARLY, "ok 201 13 18960"),
    "monthly": (APRIL, body([month(2026, 4)]), "ok 202 1 1440"),
    "monthly-of-a-leap-February": (name("202", "2802"), body([month(2028, 2)]), "ok 202 1 1392"),
    "registered": (REGISTERED, body([digits(X) + b"\0"]), "ok 301 1 0"),
    "not-registered": (REGISTERED, body([digits(X) + b"\1"]), "ok 301 1 0"),
    # 7: the name
    "name-with-a-byte-less": (UPDATE[:-1], EXAMPLE, "refused 7"),
    "name-with-a-byte-more": (UPDATE + b" ", EXAMPLE, "refused 7"),
    "name-ended-by-0D-0A": (UPDATE + b"\r", EXAMPLE, "refused 7"),
    "format-204": (name("204", "0000"), EXAMPLE, "refused 7"),
    "update-with-segment-0001": (name("203", "0001"), EXAMPLE, "refused 7"),
    "yearly-with-segment-9983": (name("201", "9983"), YEARLY, "refused 7"),
    "monthly-with-month-13": (name("202", "2613"), body([month(2026, 4)]), "refused 7"),
    "monthly-with-month-00": (name("202", "2600"), body([month(2026, 4)]), "refused 7"),
    "registration-with-segment-0000": (name("301", "0000"), body([digits(X) + b"\0"]), "refused 7"),
    "created-on-30-February": (name("203", "0000", created="20260230090000"), EXAMPLE, "refused 7"),
    "created-in-1999": (name("203", "0000", created="19991231235959"), EXAMPLE, "refused 7"),
    "created-in-2100": (name("203", "0000", created="21000101000000"), EXAMPLE, "refused 7"),
    "other-ending": (name("203", "0000", end=".date"), EXAMPLE, "refused 7"),
    "hyphen-for-underscore": (UPDATE.replace(b"_", b"-", 1), EXAMPLE, "refused 7"),
    "letter-in-the-plant": (name("203", "0000", plant="A" + X[1:]), EXAMPLE, "refused 7"),
    "name-in-digits-that-are-not-ASCII": (digits("203") + UPDATE[3:], EXAMPLE, "refused 7"),
    "0A-first": (b"", EXAMPLE, "refused 7"),
    "bad-name-of-another-plant": (name("203", "0001", plant=OTHER), EXAMPLE, "refused 7"),
    # 8: the check digit
    "check-digit-4": (name("203", "0000", plant=X[:-1] + "4"), EXAMPLE, "refused 8"),
    "check-digit-and-form": (name("203", "0000", plant=OTHER), EXAMPLE[:-1], "refused 8"),
    # 9: the form
    "no-body": (UPDATE, b"", "refused 9"),
    "record-count-2": (UPDATE, body([update()], count=2), "refused 9"),
    "record-count-0": (UPDATE, body([update()], count=0), "refused 9"),
    "two-records": (UPDATE, body([update(), update()]), "refused 9"),
    "twelve-months": (YEAR, body(year_from(2026, 4)[:12]), "refused 9"),
    "body-digits-in-ASCII": (UPDATE, bytes(b + 48 for b in EXAMPLE), "refused 9"),
    "schedule-digit-10": (UPDATE, EXAMPLE[:6] + b"\x0a" + EXAMPLE[7:], "refused 9"),
    "checksum-digit-10": (UPDATE, body([update(rates=[10])])[:-16] + b"\x00\x0a" + digits("20260327113000"), "refused 9"),
    "a-byte-less": (UPDATE, EXAMPLE[:-1], "refused 9"),
    "a-byte-more": (UPDATE, EXAMPLE + b"\0", "refused 9"),
    "n-337": (UPDATE, body([update(rates=[100] * 337)]), "refused 9"),
    "n-above-the-rates": (UPDATE, body([update(count=4)]), "refused 9"),
    "n-below-the-rates": (UPDATE, body([update(count=2)]), "refused 9"),
    "registration-result-2": (REGISTERED, body([digits(X) + b"\2"]), "refused 9"),
    "registration-with-a-byte-more": (REGISTERED, body([digits(X) + b"\0\0"]), "refused 9"),
    "form-of-the-last-month-and-date-of-the-first": (YEAR, with_month(0, month(2026, 5))[:-1] + b"\x0a", "refused 9"),
    # 10: dates and n
    "start-minute-05": (UPDATE, body([update(start="202603270905")]), "refused 10"),
    "start-on-30-February": (UPDATE, body([update(start="202602300930")]), "refused 10"),
    "start-at-24-00": (UPDATE, body([update(start="202603272400")]), "refused 10"),
    "last-slot-at-T": (UPDATE, body([update(start="209912312330", rates=[7, 7])]), "refused 10"),
    "next-access-that-does-not-exist": (UPDATE, body([update(following="20260327113060")]), "refused 10"),
    "monthly-of-another-month": (name("202", "2605"), body([month(2026, 4)]), "refused 10"),
    "monthly-with-a-rate-less": (APRIL, body([month(2026, 4, rates=[50] * 1439)]), "refused 10"),
    "monthly-from-day-02": (APRIL, body([record("202604020000", [50] * 1440)]), "refused 10"),
    "monthly-from-00-30": (APRIL, body([record("202604010030", [50] * 1440)]), "refused 10"),
    "yearly-with-a-month-twice": (YEAR, with_month(12, month(2027, 3)), "refused 10"),
    "yearly-with-months-exchanged": (YEAR, body([month(2026, 5), month(2026, 4)] + year_from(2026, 4)[2:]), "refused 10"),
    "date-of-the-last-month-and-rate-of-the-first": (YEAR, body([month(2026, 4, rates=[101] * 1440)] + year_from(2026, 4)[1:12] + [month(2027, 5)]), "refused 10"),
    # 11: rates
    "rate-101": (UPDATE, body([update(rates=[101])]), "refused 11"),
    "rate-255": (UPDATE, body([update(rates=[1, 2, 255])]), "refused 11"),
    "rate-of-the-last-month-and-checksum-of-the-first": (YEAR, body([month(2026, 4, checksum=4)] + year_from(2026, 4)[1:12] + [month(2027, 4, rates=[50] * 1439 + [101])]), "refused 11"),
    # 12: checksums
    "checksum-17": (UPDATE, body([update(checksum=17)]), "refused 12"),
    "checksum-with-the-flag-summed": (UPDATE, body([update(checksum=20)]), "refused 12"),
    "checksum-of-the-last-month-and-plant-of-the-first": (YEAR, body([month(2026, 4, plant=Y)] + year_from(2026, 4)[1:12] + [month(2027, 4, checksum=1)]), "refused 12"),
    # 13: the records' plant
    "record-of-another-plant": (UPDATE, body([update(plant=Y)]), "refused 13"),
    "last-month-of-another-plant": (YEAR, with_month(12, month(2027, 4, plant=Y)), "refused 13"),
    "registration-of-another-plant": (REGISTERED, body([digits(Y) + b"\0"]), "refused 13"),
    # the longest body that has the form of one, and beyond it
    "longest-body": (YEAR, LONGEST, "refused 10"),
    "longest-body-and-a-byte": (YEAR, LONGEST + b"\0", "refused 9"),
    "longest-body-and-ten-million-bytes": (YEAR, LONGEST + bytes(10_000_000), "refused 9"),
    "example-10-and-ten-million-bytes": (UPDATE, EXAMPLE + b"\n" * 10_000_000, "refused 9"),
    "longest-body-with-check-digit-4": (name("201", "9993", plant=X[:-1] + "4"), LONGEST + bytes(10_000_000), "refused 8"),
    "longest-body-under-a-long-name": (YEAR + b"a" * 2_000_000, LONGEST, "refused 7"),
    # without byte 0A, all of it is the name
    "empty-input": (b"", None, "refused 7"),
    "name-without-0A": (UPDATE, None, "refused 9"),
    "name-without-0A-and-check-digit-4": (name("203", "0000", plant=X[:-1] + "4"), None, "refused 8"),
    "five-million-bytes-without-0A": (b"2" * 5_000_000, None, "refused 7"),
}


def main():
    if len(sys.argv) != 2:
        sys.exit(__doc__)
    folder = pathlib.Path(sys.argv[1])
    # the lengths that 01 states
    assert len(UPDATE) == 55 and len(EXAMPLE) == 79 and len(YEARLY) == 19_681 and len(LONGEST) == 1_300_708
    for case, (first, rest, text) in CASES.items():
        given = first if rest is None else first + b"\n" + rest
        (folder / f"{case}.input").write_bytes(given)
        (folder / f"{case}.line").write_text(text + "\n")


main()
