"""Names and bodies of files, written field by field as document 01 has them."""
X = "12345678901234567890123455"  # 'Plant X'
OTHER = "00000000000000000000000011"  # weight 9 × 1 at digit 25: check digit 9, so this one is wrong
Y = "00000000000000000000000019"  # and this one is right
CREATED = "20260327090000"
DAYS = [31, 28, 31, 30, 31, 30, 31, 31, 30, 31, 30, 31]


def digits(number_or_text, width=None):
    """'a digit is one byte of value 0 to 9, not ASCII'"""
    text = str(number_or_text).zfill(width or 0)
    return bytes(int(c) for c in text)


def name(form, segment, plant=X, created=CREATED, end=".data"):
    return f"{form}_{segment}_{plant}_{created}{end}".encode()


def record(start, rates, flag=None, following=None, plant=X, schedule="2603270001", checksum=None, count=None):
    """schedule ID, plant ID, start, rate count n, n rates, for 203 a flag digit, checksum, for 203 next access"""
    modulus = int(start[4:6]) + int(start[6:8])
    total = sum(rates) % modulus if checksum is None else checksum
    out = digits(schedule) + digits(plant) + digits(start) + digits(len(rates) if count is None else count, 5) + bytes(rates)
    if flag is not None:
        out += digits(flag)
    out += digits(total, 2)
    if following is not None:
        out += digits(following)
    return out


def body(records, count=None):
    return digits(len(records) if count is None else count, 6) + b"".join(records)


def update(start="202603270930", rates=(100, 40, 28), following="20260327113000", **more):
    return record(start, list(rates), flag=2, following=following, **more)


def response(name, file, boundary="BOUNDARY"):
    """A file in a whole response, as figure 4.3 of document 002 has it; lines end in 0D 0A."""
    edge = f"--{boundary}".encode()
    head = [f"Content-Length: {len(file)}".encode(), b"Content-Type: application/octet-stream", b"Content-Disposition: attachment; filename=" + name]
    return b"\r\n".join([edge, *head, b"", file, edge + b"--"])


def slots(year, month):
    return 48 * (DAYS[month - 1] + (1 if month == 2 and year % 4 == 0 else 0))


def month(year, number, rates=None, **more):
    rates = [50] * slots(year, number) if rates is None else rates
    return record(f"{year}{number:02}010000", rates, **more)


def year_from(year, first, **more):
    return [month(year + (first - 1 + i) // 12, (first - 1 + i) % 12 + 1, **more) for i in range(13)]
