#!/usr/bin/env python3
"""Writes the section `values` of crates/test_values: its rows in `stdin`, and the answers that must come in `stdout`.

The answers come from Python's integers, fractions and calendar, and from the rules of
docs/language.md ('Values'), and from no answer of the program. It runs from anywhere."""

import sys
from datetime import date, timedelta
from fractions import Fraction
from random import Random

if __name__ == "__main__" and sys.argv[1:] == ["--help"]:
    print(__doc__.strip())
    sys.exit()

from sections import put

UNIT = 10**10
I32, I64, I128 = 2**31, 2**63, 2**127
EPOCH = date(1970, 1, 1).toordinal()
FIRST, LAST = date(1, 1, 1).toordinal() - EPOCH, date(9999, 12, 31).toordinal() - EPOCH
random = Random(20261127)

# A value is a pair of its kind and its number or bytes; a decimal is counted in units of 10^-10.


def word(value):
    kind, x = value
    if kind == "?":
        return "?"
    if kind == "logical":
        return "yes" if x else "no"
    if kind == "text":
        if len(x) > 99:
            return f"text of {len(x)} bytes"
        return "text:" + shown(x)
    return f"{kind}:{x}"


def shown(text):
    return "".join(chr(b) if 33 <= b <= 126 and b != 37 else f"%{b:02x}" for b in text)


def operand(value):
    kind, x = value
    return f"run:{len(x)}" if kind == "text" and len(x) > 99 else word(value)


WHOLE, NUMBERS = ("int", "int64"), ("int", "int64", "dec")
UNKNOWN = ("?", None)


def units(value):
    return value[1] if value[0] == "dec" else value[1] * UNIT


def half_away(x):
    """The whole number nearest to a fraction, a half away from zero."""
    n = (2 * abs(x.numerator) + x.denominator) // (2 * x.denominator)
    return n if x >= 0 else -n


def within(kind, n, low, high):
    return (kind, n) if low <= n <= high else "overflow"


def whole(n):
    return within("int64", n, -I64, I64 - 1)


def decimal(n):
    return within("dec", n, -I128, I128 - 1)


def day(n):
    return within("date", n, FIRST, LAST)


def add(a, b):
    if a[0] == b[0] == "text":
        return ("text", a[1] + b[1]) if len(a[1] + b[1]) <= 30000 else "overflow"
    if a[0] in WHOLE and b[0] in WHOLE:
        return whole(a[1] + b[1])
    if a[0] in NUMBERS and b[0] in NUMBERS:
        return decimal(units(a) + units(b))
    if a[0] == "date" and b[0] in WHOLE:
        return day(a[1] + b[1])
    return UNKNOWN


def subtract(a, b):
    if a[0] in WHOLE and b[0] in WHOLE:
        return whole(a[1] - b[1])
    if a[0] in NUMBERS and b[0] in NUMBERS:
        return decimal(units(a) - units(b))
    if a[0] == "date" and b[0] in WHOLE:
        return day(a[1] - b[1])
    if a[0] == b[0] == "date":
        return whole(a[1] - b[1])
    return UNKNOWN


def multiply(a, b):
    if a[0] in WHOLE and b[0] in WHOLE:
        return whole(a[1] * b[1])
    if a[0] in NUMBERS and b[0] in NUMBERS:
        product = units(a) * units(b)
        if not -I128 <= product < I128:
            return "overflow"
        return decimal(half_away(Fraction(product, UNIT)))
    return UNKNOWN


def divide(a, b):
    if a[0] not in NUMBERS or b[0] not in NUMBERS or b[1] == 0:
        return UNKNOWN
    dividend = units(a) * UNIT
    if not -I128 <= dividend < I128:
        return "overflow"
    return decimal(half_away(Fraction(dividend, units(b))))


def modulo(a, b):
    if a[0] not in WHOLE or b[0] not in WHOLE or b[1] == 0:
        return UNKNOWN
    rest = abs(a[1]) % abs(b[1])
    return ("int64", rest if a[1] >= 0 else -rest)


def fit(value, kind):
    had, x = value
    if had == "text" and kind == "character":
        return value if len(x) <= 30000 else "overflow"
    if had in NUMBERS and kind in ("integer", "int64"):
        n = x if had in WHOLE else half_away(Fraction(x, UNIT))
        return within("int", n, -I32, I32 - 1) if kind == "integer" else whole(n)
    if had in NUMBERS and kind == "decimal":
        return decimal(units(value))
    if (had, kind) == ("logical", "logical"):
        return value
    if (had, kind) == ("date", "date"):
        return day(x)
    return UNKNOWN


CLASSES = {"text": 0, "int": 1, "int64": 1, "dec": 1, "logical": 2, "date": 3, "?": 4}


def place(value):
    kind, x = value
    if kind == "text":
        return (0, bytes(b + 32 if 65 <= b <= 90 else b for b in x.rstrip(b" ")))
    return (CLASSES[kind], units(value) if kind in NUMBERS else x or 0)


def compare(a, b):
    return "below" if place(a) < place(b) else "above" if place(b) < place(a) else "level"


def export(value):
    kind, x = value
    if kind == "text":
        return b'"' + x.replace(b'"', b'""') + b'"'
    if kind == "dec":
        sign = "-" if x < 0 else ""
        decimals = f"{abs(x) % UNIT:010}".rstrip("0")
        return f"{sign}{abs(x) // UNIT}{'.' if decimals else ''}{decimals}".encode()
    if kind == "date":
        d = date.fromordinal(x + EPOCH)
        year = f"{d.year % 100:02}" if 1950 <= d.year <= 2049 else f"{d.year:04}"
        return f"{d.month:02}/{d.day:02}/{year}".encode()
    if kind == "logical":
        return b"yes" if x else b"no"
    return b"?" if kind == "?" else str(x).encode()


rows = []


def row(left, answer):
    rows.append((left, answer if isinstance(answer, str) else word(answer)))


def texts():
    return [("text", t) for t in (b"", b" ", b"\0", b"a", b"A", b"a ", b"Ab", b"ab  ", b"a b", b"abc",
                                  b"Z", b"[", b"z", b"~", b"\xc4", b"\xe4", b"\xff")]


def ints(edge, kind):
    return [(kind, n) for n in (-edge, -edge + 1, -1, 0, 1, 7, edge - 2, edge - 1)]


def decimals():
    return [("dec", n) for n in (-I128, -I128 + 1, -I64 * UNIT, -15 * UNIT // 10, -UNIT, -UNIT // 2, -1, 0, 1,
                                 UNIT // 2, UNIT, 3 * UNIT, 7 * UNIT + 1, (I64 - 1) * UNIT, I128 // UNIT,
                                 I128 - 2, I128 - 1)]


def days():
    return [("date", n) for n in (FIRST, FIRST + 1, -1, 0, 1, 18321, LAST - 1, LAST)]


LOGICALS = [("logical", False), ("logical", True)]
EDGES = ints(I32, "int") + ints(I64, "int64") + decimals()
ALL = texts() + EDGES + LOGICALS + days() + [UNKNOWN]


def some(values, n):
    return [(random.choice(values), random.choice(values)) for _ in range(n)]


def near(bits):
    return random.choice((-1, 1)) * random.getrandbits(random.randrange(1, bits))


def number():
    kind = random.choice(NUMBERS)
    bits = {"int": 31, "int64": 63, "dec": random.choice((70, 127))}[kind]
    return (kind, near(bits))


def operators():
    t = texts()
    for a, b in [(x, y) for x in t for y in t if t.index(x) <= t.index(y) <= t.index(x) + 2]:
        row(f"compare {operand(a)} {operand(b)}", compare(a, b))
    for a, b in some(ALL, 80) + some(EDGES, 40):
        row(f"compare {operand(a)} {operand(b)}", compare(a, b))
    for name, call in (("add", add), ("subtract", subtract), ("multiply", multiply), ("divide", divide),
                       ("modulo", modulo)):
        for a, b in some(EDGES, 60) + some(ALL, 25) + [(number(), number()) for _ in range(40)]:
            row(f"{name} {operand(a)} {operand(b)}", call(a, b))
    for name, call in (("add", add), ("subtract", subtract)):
        for a in days():
            for b in ints(2, "int") + [("int64", n) for n in (-I64, LAST - FIRST, FIRST - LAST, I64 - 1)]:
                row(f"{name} {operand(a)} {operand(b)}", call(a, b))
        for a, b in some(days(), 8):
            row(f"{name} {operand(a)} {operand(b)}", call(a, b))
    # halves on both sides of zero, at the last decimal
    for n in (1, 3, 5, 7, 9, 15, 25):
        for s in (1, -1):
            for d in (-1, 0, 1):
                a = ("dec", s * (n * UNIT // 2 + d) )
                row(f"multiply {operand(a)} dec:1", multiply(a, ("dec", 1)))
                row(f"multiply dec:-1 {operand(a)}", multiply(("dec", -1), a))
                b = ("dec", s * n)
                row(f"divide {operand(b)} dec:{2 * UNIT}", divide(b, ("dec", 2 * UNIT)))
                row(f"divide {operand(b)} dec:{-2 * UNIT + d}", divide(b, ("dec", -2 * UNIT + d)))
    # where a product and a dividend leave 128 bits
    for n in (I128 // UNIT - 1, I128 // UNIT, I128 // UNIT + 1):
        for s in (1, -1):
            a = ("dec", s * n)
            row(f"multiply {operand(a)} int:1", multiply(a, ("int", 1)))
            row(f"multiply {operand(a)} int:-1", multiply(a, ("int", -1)))
            row(f"divide {operand(a)} int:1", divide(a, ("int", 1)))
            row(f"divide {operand(a)} int:-1", divide(a, ("int", -1)))
    for n in (0, 1, 29999, 30000):
        for m in (0, 1, 2):
            a, b = ("text", b"a" * n), ("text", b"b" * m)
            row(f"add {operand(a)} {operand(b)}", add(a, b))


def targets():
    kinds = ("character", "integer", "int64", "decimal", "logical", "date")
    halves = [("dec", s * (n * UNIT + UNIT // 2 + d)) for n in (0, 1, 2, I32 - 1, I32, I64 - 1, I64)
              for s in (1, -1) for d in (-1, 0, 1)]
    for value in halves:
        for kind in ("integer", "int64"):
            row(f"fit {kind} {operand(value)}", fit(value, kind))
    for value in EDGES + LOGICALS + [UNKNOWN, ("text", b"t"), ("text", b"a" * 30000), ("text", b"a" * 30001)]:
        for kind in kinds:
            row(f"fit {kind} {operand(value)}", fit(value, kind))
    for n in (-I32, FIRST - 1, FIRST, 0, LAST, LAST + 1, I32 - 1):
        row(f"fit date date:{n}", fit(("date", n), "date"))


def calendar():
    dates = [date.fromordinal(n) for n in (1, 2, 365, 366)]
    for year in (4, 100, 400, 1582, 1600, 1700, 1899, 1900, 1949, 1950, 1969, 1970, 1999, 2000, 2023, 2024,
                 2049, 2050, 2100, 2400, 9996, 9999):
        dates += [date(year, 1, 1), date(year, 2, 28), date(year, 3, 1), date(year, 12, 31)]
        if date(year, 3, 1) - date(year, 2, 28) == timedelta(2):
            dates.append(date(year, 2, 29))
    dates += [date.fromordinal(random.randrange(1, LAST - FIRST + 2)) for _ in range(40)]
    for d in dates:
        n = d.toordinal() - EPOCH
        row(f"day {d.month} {d.day} {d.year}", str(n))
        row(f"parts {n}", f"{d.month} {d.day} {d.year}")
    for m, d, y in [(2, 29, 1900), (2, 29, 2023), (2, 30, 2024), (4, 31, 2024), (6, 31, 1), (9, 31, 9999), (11, 31, 1999),
                    (0, 1, 2024), (13, 1, 2024), (-1, 1, 2024), (1, 0, 2024), (1, 32, 2024), (1, -1, 2024),
                    (1, 1, 0), (1, 1, -1), (1, 1, 10000), (2**40, 1, 1), (1, 257, 1), (257, 1, 1), (1, 1, 65537),
                    (-I64, -I64, -I64), (I64 - 1, I64 - 1, I64 - 1)]:
        row(f"day {m} {d} {y}", "no date")
    for n, parts in [(-I32, "1 1 1"), (FIRST - 1, "1 1 1"), (LAST + 1, "12 31 9999"), (I32 - 1, "12 31 9999")]:
        row(f"parts {n}", parts)


def written():
    for value in texts() + [("text", b'a"b'), ("text", b'"')] + EDGES + LOGICALS + days() + [UNKNOWN]:
        row(f"export {operand(value)}", shown(export(value)))
    for n in (5, 10, 120, 12345678901, -99999999999, 10**20, -(10**19) - 5):
        row(f"export dec:{n}", shown(export(("dec", n))))
    for d in (date(1949, 12, 31), date(1950, 1, 1), date(2049, 12, 31), date(2050, 1, 1), date(987, 6, 5)):
        value = ("date", d.toordinal() - EPOCH)
        row(f"export {operand(value)}", shown(export(value)))
    digits = "9" * 40
    for kind, mask, fits in [
        ("character", "x(8)", True), ("character", "X(999)", True), ("character", "x(1)", True),
        ("character", "xxX", True), ("character", "x", True), ("character", "x(0)", False),
        ("character", "x(1000)", False), ("character", "x(8", False), ("character", "x()", False),
        ("character", "", False), ("character", "xy", False),
        ("logical", "yes/no", True), ("logical", "a/b", True), ("logical", "yes/", False), ("logical", "/no", False),
        ("logical", "a/b/c", False), ("logical", "yes", False),
        ("date", "99/99/99", True), ("date", "99/99/9999", True), ("date", "99/99/999", False), ("date", "9/99/99", False),
        ("integer", "->,>>>,>>9", True), ("int64", "zzzzzzzzz9", True), ("integer", "->>,>>9.99", False),
        ("decimal", "->>,>>9.99", True), ("decimal", "9.9", True), ("integer", "9>", False), ("integer", "-,", False),
        ("decimal", "9.", False), ("integer", digits, True), ("integer", digits + "9", False),
    ]:
        row(f"mask {kind} {shown(mask.encode())}", "fits" if fits else "does not fit")


# ---- texts that denote values, worked by hand from the rules of docs/formats.md ('Texts')

VALUES = [
    ("integer", "-2147483648", "int:-2147483648"), ("integer", "2147483648", None), ("integer", "-", None),
    ("integer", "", None), ("integer", "007", "int:7"), ("integer", "+1", None), ("integer", "1.0", None),
    ("int64", "-2147483649", "int64:-2147483649"), ("int64", "9223372036854775807", "int64:9223372036854775807"),
    ("int64", "9223372036854775808", None), ("int64", "-9223372036854775808", "int64:-9223372036854775808"),
    ("decimal", "12.5", "dec:125000000000"), ("decimal", "-5.", "dec:-50000000000"), ("decimal", ".5", None),
    ("decimal", "1.0000000001", "dec:10000000001"), ("decimal", "1.00000000000", None), ("decimal", "-0", "dec:0"),
    ("decimal", "17014118346046923173168730371.5884105727", f"dec:{I128 - 1}"),
    ("decimal", "17014118346046923173168730371.5884105728", None),
    ("decimal", "-17014118346046923173168730371.5884105728", f"dec:{-I128}"),
    ("decimal", "9" * 60, None),
    ("logical", "YES", "yes"), ("logical", "True", "yes"), ("logical", "y", "yes"), ("logical", "T", "yes"),
    ("logical", "no", "no"), ("logical", "fAlse", "no"), ("logical", "N", "no"), ("logical", "f", "no"),
    ("logical", "ye", None), ("logical", "", None), ("logical", "1", None),
    ("date", "1/01/70", "date:0"), ("date", "2/3/24", "date:19756"), ("date", "02/03/2024", "date:19756"),
    ("date", "1/1/50", "date:-7305"), ("date", "12/31/49", f"date:{date(2049, 12, 31).toordinal() - EPOCH}"),
    ("date", "1/1/0001", f"date:{FIRST}"), ("date", "12/31/9999", f"date:{LAST}"), ("date", "2/29/23", None),
    ("date", "1/1/024", None), ("date", "001/1/24", None), ("date", "1/1/0000", None), ("date", "1/1/24/", None),
    ("date", "13/1/24", None), ("date", "1-1-24", None), ("date", "1/1/", None), ("date", "/1/24", None),
    ("character", "-1", "text:-1"), ("character", "", "text:"), ("character", "a b%", "text:a%20b%25"),
]

# ---- rows, keys and names, worked by hand from the rules of docs/formats.md ('Rows and keys')

READ = [
    ("integer,-", b"\x01\xff\xff\xff\xfe\x00", "int:-2 ?"), ("integer,-", b"\x01\xff\xff\xff\xfe\x01", None),
    ("integer,-", b"\x01\xff\xff\xff", None), ("integer,-", b"\x00\x00\x00", None), ("integer,-", b"\x00\x00", "? ?"),
    ("integer", b"\x02\x00\x00\x00\x01", None), ("integer", b"\x01\x80\x00\x00\x00", "int:-2147483648"),
    ("int64", b"\x01\x00\x00\x00\x00\x00\x00\x01\x00", "int64:256"), ("int64", b"\x01\x00\x00\x00\x00\x00\x00\x01", None),
    ("decimal", b"\x01" + b"\xff" * 16, "dec:-1"), ("decimal", b"\x01" + b"\xff" * 15, None),
    ("character,logical", b"\x01\x00\x02ab\x01\x01", "text:ab yes"), ("character", b"\x01\x00\x03ab", None),
    ("character", b"\x01\x00\x00", "text:"),
    ("logical", b"\x01\x00", "no"), ("logical", b"\x01\x02", None), ("logical", b"\x01", None),
    ("date", b"\x01\x00\x00\x4d\x2c", "date:19756"), ("date", b"\x01\x00\x2c\xc0\xa0", "date:2932896"),
    ("date", b"\x01\x00\x2c\xc0\xa1", None), ("-", b"\x00", "?"), ("-", b"\x01", None), ("-", b"", None),
]

KEYS = [
    ("0,2d,3,1d", "text:A%00%20 dec:-1 yes int:-2147483648",
     b"\x01a\x00\xff\x00\x00\xfe\xfe\x01\x7f\xff\xff\xff\x80\x00\x00\x00\xfe\x80" + b"\x00" * 15),
    ("0", "?", b"\x02"), ("0d", "?", b"\xfd"), ("1", "yes", b"\x02"), ("0", "no", b"\x01\x00"), ("0", "text:", b"\x01\x00\x00"),
    ("0", "int:1", b"\x01\x80\x00\x00\x00\x00\x00\x00\x01"), ("0", "int64:-1", b"\x01\x7f" + b"\xff" * 7),
    ("0", "date:0", b"\x01\x80\x00\x00\x00"), ("0", "dec:0", b"\x01\x80" + b"\x00" * 15),
    ("0,0d", "text:Z", b"\x01z\x00\x00\xfe\x85\xff\xff"),
]

LONG = "abcdefghijklmnopqrstuvwxyzabcdef"
NAMES = [("ItemNum ITEMNUM", "0 taken"), (f"ItemNum {LONG}g {LONG} {LONG.upper()}", "0 too-long 1 taken"), ("a b c B d", "0 1 2 taken 3")]


def stored():
    for kind, text, value in VALUES:
        row(f"value {kind} {shown(text.encode())}", value or "no value")
    row("run 30000", "text of 30000 bytes")
    row("run 30001", "no value")
    for kinds, data, values in READ:
        row(f"read {kinds} {shown(data)}", f"{values} end" if values else "no row of them")
    row("bytes of none", "")
    for parts, values, data in KEYS:
        row(f"key {parts} {values}", shown(data))
    for names, answer in NAMES:
        row(f"names {names}", f"{answer} end")


operators()
targets()
calendar()
written()
stored()
for left in ("", "add", "add int:1", "add int:1 what:2", "what int:1 int:2", "fit what int:1", "add int:2147483648 int:1"):
    row(left, "no row")
put("test_values", "values", "".join(f"{left}\n" for left, _ in rows), "".join(f"{left} = {answer}\n" for left, answer in rows))
print(len(rows), "rows")
