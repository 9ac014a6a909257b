#!/usr/bin/env python3
"""Writes the section `expressions` of crates/test_values: its rows in `stdin`, and the answers that must come in `stdout`.

The answers come from the rules of docs/language.md ('Values'): most are worked by hand and are here as they
are, the others come from Python's fractions, calendar and texts; none from the program. It runs from anywhere."""

import sys
from datetime import date
from fractions import Fraction
from math import floor
from random import Random

if __name__ == "__main__" and sys.argv[1:] == ["--help"]:
    print(__doc__.strip())
    sys.exit()

from sections import put

UNIT = 10**10
EPOCH = date(1970, 1, 1).toordinal()
random = Random(20261128)
rows = []


def row(left, answer):
    rows.append((left, answer))


def day(y, m, d):
    return f"date:{date(y, m, d).toordinal() - EPOCH}"


def dec(text):
    """The word of a decimal that is written in digits."""
    return f"dec:{int(Fraction(text) * UNIT)}"


def word(text):
    """The word of a text."""
    return "text:" + "".join(c if 33 <= ord(c) <= 126 and c != "%" else f"%{ord(c):02x}" for c in text)


def answer(text):
    """What is written of a text."""
    return word(text) if len(text) <= 99 else f"text of {len(text)} bytes"


# ---- worked by hand: the expression in postfix notation, and what it gives. In the surroundings `first` the
# variable i is 7, d is 1.5, t is "x,y," and u is `?`; f0 is "Ann", f1 is 02/03/2024, and the buffers 1 and 2 of
# e1 and e2 are empty

FIRST = [
    # what is there
    ("text:a", "text:a"), ("?", "?"), ("yes", "yes"), ("i", "int:7"), ("d", dec("1.5")), ("t", "text:x,y,"), ("u", "?"),
    ("f0", "text:Ann"), ("f1", day(2024, 2, 3)), ("e1", "buffer 1 is empty"), ("e2", "buffer 2 is empty"),
    ("available0", "yes"), ("available1", "no"), ("locked1", "no"), ("locked2", "yes"), ("retry", "no"), ("error-status", "no"),
    ("return-value", "text:done"), ("run:30000", "text of 30000 bytes"), ("run:30001", "range"), ("run:29000", "text of 29000 bytes"),
    # signs and NOT
    ("int:5 positive", "int64:5"), ("d positive", dec("1.5")), ("d negative", dec("-1.5")), ("? negative", "?"), ("u positive", "?"),
    ("int64:-9223372036854775808 negative", "range"), ("int:-2147483648 negative", "int64:2147483648"), ("e1 negative", "buffer 1 is empty"),
    ("yes not", "no"), ("no not", "yes"), ("? not", "?"), ("yes not not", "yes"), ("e1 not", "buffer 1 is empty"),
    # conversions
    ("text:3.7 integer", "int:4"), ("text:-2.5 integer", "int:-3"), ("text:2.5 int64", "int64:3"), ("text:3,7 integer", "convert"), ("text: integer", "convert"),
    ("text:2147483648 integer", "range"), ("text:2147483647.4 integer", "int:2147483647"), ("text:2147483647.5 integer", "range"),
    ("text:2147483648 int64", "int64:2147483648"), ("text:abc decimal", "convert"), ("text:-1.25 decimal", dec("-1.25")), ("? integer", "?"), ("? int64", "?"),
    ("u decimal", "?"), ("int:2 decimal", dec("2")), ("d integer", "int:2"), ("d negative integer", "int:-2"), (dec("0.4999999999") + " integer", "int:0"),
    ("int64:2147483648 integer", "range"), ("int64:-2147483648 integer", "int:-2147483648"), ("run:29000 integer", "convert"), ("e2 integer", "buffer 2 is empty"),
    # STRING
    ("d string", "text:1.5"), ("u string", "?"), ("text:a string", "text:a"), ("yes string", "text:yes"), ("f1 string", "text:02/03/24"), ("int:-5 string", "text:-5"),
    ("run:29000 string", "text of 29000 bytes"), ("e1 string", "buffer 1 is empty"), (dec("9.995") + " mask:z9.99", "text:10.00"), ("u mask:z9.99", "?"),
    ("i mask:->>9", "text:%20%20%207"), ("t mask:x(6)", "text:x,y,%20%20"), ("f0 mask:xx", "text:An"), ("f1 mask:99/99/9999", "text:02/03/2024"),
    ("yes mask:on/off", "text:on%20"), ("int:1000 mask:>>9", "text:???"), ("e1 mask:x(3)", "buffer 1 is empty"), ("run:29000 mask:x(999)", "text of 999 bytes"),
    # a mask that is none for its value: a question mark for each of its bytes
    ("i mask:x(8)", "text:????"), ("f0 mask:9", "text:?"), ("d mask:yes/no", "text:??????"), ("yes mask:99/99/99", "text:????????"), ("i mask:9.9", "text:???"), ("i mask:", "text:"),
    # LENGTH
    ("text:abc length", "int64:3"), ("text: length", "int64:0"), ("u length", "?"), ("run:29000 length", "int64:29000"), ("run:30000 length", "int64:30000"),
    ("return-value length", "int64:4"), ("f0 length", "int64:3"), ("e1 length", "buffer 1 is empty"), ("run:30001 length", "range"),
    # YEAR, MONTH, DAY and DATE
    ("f1 year", "int64:2024"), ("f1 month", "int64:2"), ("f1 day", "int64:3"), ("? year", "?"), ("u month", "?"), ("? day", "?"),
    ("int:2 int:3 int:2024 date", day(2024, 2, 3)), ("int:2 int:29 int:2024 date", day(2024, 2, 29)), ("int:2 int:29 int:2023 date", "argument"),
    ("int:2 int:30 int:2024 date", "argument"), ("int:13 int:1 int:2024 date", "argument"), ("int:0 int:1 int:2024 date", "argument"), ("int:1 int:0 int:2024 date", "argument"),
    ("int:1 int:1 int:0 date", "argument"), ("int:1 int:1 int:10000 date", "argument"), ("int:12 int:31 int:9999 date", day(9999, 12, 31)), ("int:1 int:1 int:1 date", day(1, 1, 1)),
    ("int:-1 int:1 int:2024 date", "argument"), ("int:2 ? int:2024 date", "?"), ("? int:99 int:99 date", "?"), ("int:2 int:3 u date", "?"),
    ("int64:2 int64:3 int64:2024 date", day(2024, 2, 3)), ("e1 e2 int:1 date", "buffer 1 is empty"), ("? e2 e1 date", "buffer 2 is empty"),
    # `+` and the other operators on numbers, texts and dates
    ("i int:1 +", "int64:8"), ("text:a text:b +", "text:ab"), ("text:a ? +", "?"), ("? text:b +", "?"), ("f1 int:1 +", day(2024, 2, 4)), ("f1 int:-3 +", day(2024, 1, 31)),
    ("f1 int:27 +", day(2024, 3, 1)), ("f1 ? +", "?"), (day(9999, 12, 31) + " int:1 +", "range"), (day(1, 1, 1) + " int:1 -", "range"), ("f1 f1 -", "int64:0"),
    (day(2024, 3, 1) + " f1 -", "int64:27"), ("f1 int:3 -", day(2024, 1, 31)), ("int64:9223372036854775807 int:1 +", "range"), ("int64:-9223372036854775808 int:1 -", "range"),
    ("run:29000 run:1000 +", "text of 30000 bytes"), ("run:29000 run:1001 +", "range"), ("return-value text:! +", "text:done!"), ("d int:1 +", dec("2.5")),
    ("int:1 d -", dec("-0.5")), ("int:-3 int:4 *", "int64:-12"), ("d d *", dec("2.25")), (dec("0.0000000001") + " " + dec("0.5") + " *", dec("0.0000000001")),
    (dec("0.0000000001") + " " + dec("0.4") + " *", dec("0")), ("int64:9223372036854775807 int:2 *", "range"), ("int:1 int:3 /", dec("0.3333333333")), ("int:2 int:3 /", dec("0.6666666667")),
    ("int:-2 int:3 /", dec("-0.6666666667")), ("int:1 int:0 /", "?"), ("d int:0 /", "?"), ("? int:2 /", "?"), ("int:4 int:2 /", dec("2")), ("int:-7 int:3 modulo", "int64:-1"),
    ("int:7 int:-3 modulo", "int64:1"), ("int:7 int:0 modulo", "?"), ("int:7 ? modulo", "?"), ("int64:-9223372036854775808 int:-1 modulo", "int64:0"), ("u u *", "?"), ("u i -", "?"),
    # the left operand first, and a fault in either
    ("e1 e2 +", "buffer 1 is empty"), ("? e1 -", "buffer 1 is empty"), ("e2 int:0 /", "buffer 2 is empty"), ("text:x integer e1 +", "convert"), ("e1 text:x integer +", "buffer 1 is empty"),
    ("e1 e2 =", "buffer 1 is empty"), ("i e2 <", "buffer 2 is empty"), ("? e1 begins", "buffer 1 is empty"), ("text: e1 num-entries", "buffer 1 is empty"),
    # comparisons
    ("text:Ab%20 text:aB =", "yes"), ("text:a text:b =", "no"), ("? ? =", "yes"), ("? int:1 =", "no"), ("u int:1 <>", "yes"), ("u u <>", "no"), ("int:1 " + dec("1") + " =", "yes"),
    ("int:1 int64:1 =", "yes"), ("yes yes =", "yes"), ("yes no =", "no"), ("f1 " + day(2024, 2, 3) + " =", "yes"), ("text:%09 text: =", "no"), ("text:%20%20 text: =", "yes"),
    ("int:1 " + dec("1.0000000001") + " <", "yes"), ("? int:1 >", "?"), ("int:1 ? <", "?"), ("? ? <", "no"), ("? ? >", "no"), ("? ? <=", "yes"), ("? ? >=", "yes"), ("? int:1 <=", "?"), ("int:1 ? >=", "?"),
    ("int:1 int:2 >=", "no"), ("int:2 int:2 >=", "yes"), ("int:2 int:2 <=", "yes"), ("int:2 int:2 <", "no"), ("int:3 int:2 >", "yes"), ("text:abc text:ABD <", "yes"), ("text:a text:a! <", "yes"),
    ("no yes <", "yes"), ("yes no <=", "no"), ("f1 " + day(2024, 2, 4) + " <", "yes"), ("run:29000 run:29000 =", "yes"), ("run:29000 run:29001 <", "yes"), ("run:30001 ? =", "range"),
    # BEGINS
    ("text:Hell text:hE%20 begins", "yes"), ("text:Hell text: begins", "yes"), ("text: text: begins", "yes"), ("text: text:a begins", "no"), ("text:ab text:b begins", "no"), ("text:ab text:abc begins", "no"),
    ("? text:a begins", "?"), ("text:a ? begins", "?"), ("run:29000 run:28999 begins", "yes"), ("run:28999 run:29000 begins", "no"), ("f0 text:AN begins", "yes"), ("text:a%20 text:a%20%20 begins", "yes"),
    # NUM-ENTRIES and ENTRY
    ("text:a,b,, text:, num-entries", "int64:4"), ("t text:, num-entries", "int64:3"), ("text:aaa text:aa num-entries", "int64:2"), ("text: text:, num-entries", "int64:0"), ("text:a text: num-entries", "argument"),
    ("text:, text:, num-entries", "int64:2"), ("? text:, num-entries", "?"), ("text:a ? num-entries", "?"), ("? text: num-entries", "?"), ("run:200 text:a num-entries", "int64:201"), ("run:29000 text:a num-entries", "int64:29001"),
    ("run:29000 text:aa num-entries", "int64:14501"), ("run:29000 text:, num-entries", "int64:1"), ("run:99 run:100 num-entries", "int64:1"), ("run:100 run:100 num-entries", "int64:2"), ("text:A text:a num-entries", "int64:1"),
    ("int:2 text:a,bc,d text:, entry", "text:bc"), ("int:1 text:x--y text:-- entry", "text:x"), ("int:2 text:x--y text:-- entry", "text:y"), ("int:3 text:a,b, text:, entry", "text:"), ("int:4 text:a,bc,d text:, entry", "argument"),
    ("int:0 text:a text:, entry", "argument"), ("int:-1 text:a text:, entry", "argument"), ("int:1 text: text:, entry", "argument"), ("int:1 text:a text: entry", "argument"), ("? text:a text: entry", "?"), ("int:1 ? text: entry", "?"),
    ("int:1 text:a ? entry", "?"), ("int64:2 t text:, entry", "text:y"), ("int:3 t text:, entry", "text:"), ("int:1 run:29000 text:, entry", "text of 29000 bytes"), ("int:29001 run:29000 text:a entry", "text:"),
    ("int:29002 run:29000 text:a entry", "argument"), ("e1 text:a text:, entry", "buffer 1 is empty"), ("int:9 e2 e1 entry", "buffer 2 is empty"), ("int:2 text:aaa text:aa entry", "text:a"), ("int:1 text:aaa text:aa entry", "text:"),
    # SUBSTRING
    ("text:hello int:2 int:3 substring", "text:ell"), ("text:hello int:4 int:-1 substring", "text:lo"), ("text:hello int:9 int:2 substring", "text:"), ("text:hello int:5 int:9 substring", "text:o"), ("text:hello int:6 int:-1 substring", "text:"),
    ("text:hello int:0 int:1 substring", "argument"), ("text:hello int:-1 int:1 substring", "argument"), ("text:hello int:1 int:-2 substring", "argument"), ("text:hello int:1 int:0 substring", "text:"), ("text:hello int:9 int:-2 substring", "argument"),
    ("? int:0 int:1 substring", "?"), ("text:a ? int:-2 substring", "?"), ("text:a int:0 ? substring", "?"), ("text:hello int64:2 int64:9223372036854775807 substring", "text:ello"), ("text:hello int64:9223372036854775807 int:1 substring", "text:"),
    ("run:29000 int:1000 int:28000 substring", "text of 28000 bytes"), ("run:29000 int:28999 int:-1 substring", "text:aa"), ("run:29000 int:1 int:29000 substring", "text of 29000 bytes"), ("e1 int:0 int:1 substring", "buffer 1 is empty"),
    # AND and OR: what is not needed is not looked at
    ("no e1 and", "no"), ("yes e1 and", "buffer 1 is empty"), ("yes e1 or", "yes"), ("no e1 or", "buffer 1 is empty"), ("? e1 and", "buffer 1 is empty"), ("? e1 or", "buffer 1 is empty"), ("e1 no and", "buffer 1 is empty"), ("e1 yes or", "buffer 1 is empty"),
    ("? no and", "?"), ("? yes and", "?"), ("? ? and", "?"), ("yes ? and", "?"), ("no ? and", "no"), ("? no or", "?"), ("? yes or", "?"), ("? ? or", "?"), ("no ? or", "?"), ("yes ? or", "yes"),
    ("yes yes and", "yes"), ("yes no and", "no"), ("no yes and", "no"), ("no no and", "no"), ("yes yes or", "yes"), ("yes no or", "yes"), ("no yes or", "yes"), ("no no or", "no"), ("e1 e2 and", "buffer 1 is empty"), ("e1 e2 or", "buffer 1 is empty"),
    # chains, from the left
    ("int:10 int:3 - int:2 .-", "int64:5"), ("int:10 int:3 int:2 - -", "int64:9"), ("int:8 int:2 / int:2 .*", dec("8")), ("text:a text:b + text:c .+ text:d .+", "text:abcd"), ("int:1 int:2 + d .*", dec("4.5")),
    ("yes no and e1 .and", "no"), ("no e1 and e2 .and", "no"), ("yes e1 and e2 .and", "buffer 1 is empty"), ("no no or yes .or e1 .or", "yes"), ("yes e1 or e2 .or", "yes"), ("? no and e2 .and", "buffer 2 is empty"), ("? yes and no .and", "?"),
    ("yes yes and yes .and no .and e1 .and", "no"), ("no no or ? .or", "?"), ("e1 e2 + i .+", "buffer 1 is empty"), ("i e2 + e1 .+", "buffer 2 is empty"), ("i i - e1 .-", "buffer 1 is empty"), ("int64:9223372036854775807 int:1 + int:1 .-", "range"),
    ("int64:9223372036854775807 int:1 - int:1 .+", "int64:9223372036854775807"), ("int:1 int:2 < yes .=", "yes"), ("int:1 int:0 / e1 .+", "buffer 1 is empty"), ("no e1 and e2 .or", "buffer 2 is empty"), ("yes e1 or no .and", "no"),
    ("int:5 many:0", "int:5"), ("int:5 many:1", "int64:6"), ("int:0 many:1000", "int64:1000"), ("int:0 many:300000", "int64:300000"), ("e1 many:100000", "buffer 1 is empty"), ("d many:100000", dec("100001.5")), ("u many:100000", "?"),
    ("int:0 many:100000 int:0 many:100000 -", "int64:0"), ("int64:9223372036854775800 many:8", "range"), ("int64:9223372036854775800 many:7", "int64:9223372036854775807"),
    # IF
    ("yes int:1 e1 if:decimal", dec("1")), ("no e1 d if:decimal", dec("1.5")), ("? e1 int:2 if:integer", "int:2"), ("no int:1 ? if:none", "?"), ("yes text:a e1 if:character", "text:a"), ("yes ? e1 if:date", "?"), ("yes int:1 e1 if:int64", "int64:1"),
    ("e1 int:1 int:2 if:integer", "buffer 1 is empty"), ("yes e1 int:2 if:integer", "buffer 1 is empty"), ("no int:1 e2 if:integer", "buffer 2 is empty"), ("yes int64:2147483648 int:1 if:integer", "range"), ("u e1 f1 if:date", day(2024, 2, 3)),
    ("available0 f0 e1 if:character", "text:Ann"), ("available1 e1 text:none if:character", "text:none"), ("i int:7 = t e1 if:character", "text:x,y,"), ("yes run:29000 ? if:character", "text of 29000 bytes"), ("yes no yes if:logical", "no"),
]

# in the surroundings `second` RETRY and ERROR-STATUS:ERROR are yes, RETURN-VALUE has 29,000 bytes, and t has 30,000
SECOND = [
    ("retry", "yes"), ("error-status", "yes"), ("error-status not", "no"), ("retry error-status and", "yes"), ("return-value", "text of 29000 bytes"), ("return-value length", "int64:29000"), ("t", "text of 30000 bytes"), ("t length", "int64:30000"),
    ("t t =", "yes"), ("t text:! +", "range"), ("t text: +", "text of 30000 bytes"), ("t t begins", "yes"), ("return-value t +", "range"), ("return-value run:1000 +", "text of 30000 bytes"), ("return-value run:1001 +", "range"),
    ("t text:a num-entries", "int64:30001"), ("int:30001 t text:a entry", "text:"), ("t int:30000 int:-1 substring", "text:a"), ("t int:2 int:29000 substring", "text of 29000 bytes"), ("t string", "text of 30000 bytes"), ("t mask:x(2)", "text:aa"),
    ("t integer", "convert"), ("return-value int:1 int:3 substring", "text:rrr"), ("locked2", "yes"), ("locked1", "no"), ("error-status t e1 if:character", "text of 30000 bytes"), ("t return-value <", "yes"), ("retry e1 or", "yes"), ("error-status e2 and", "buffer 2 is empty"),
]

# conditions and the bounds of loops
TESTS = [
    ("holds yes", "yes"), ("holds no", "no"), ("holds ?", "no"), ("holds int:1", "no"), ("holds text:yes", "no"), ("at-most int:1 int:2", "yes"), ("at-most int:2 int:2", "yes"), ("at-most int:3 int:2", "no"), ("at-most ? int:2", "?"), ("at-most int:2 ?", "?"),
    ("at-most ? ?", "yes"), ("at-least int:1 int:2", "no"), ("at-least int:2 int:2", "yes"), ("at-least int:3 int:2", "yes"), ("at-least ? int:2", "?"), ("at-least int:2 ?", "?"), ("at-least ? ?", "yes"), ("at-most int:1 " + dec("0.9999999999"), "no"),
    ("at-least int:1 " + dec("0.9999999999"), "yes"), ("at-most date:1 date:2", "yes"), ("at-most text:B text:a", "no"), ("at-least text:B text:a", "yes"),
]

for words, given in FIRST:
    row(f"first {words}", given)
for words, given in SECOND:
    row(f"second {words}", given)
for words, given in TESTS:
    row(words, given)
for left in ["first", "first +", "first int:1 +", "third i", "first int:1 int:2", "first i .+", "first i date", "first not", "first i many:x", "holds x", "at-most int:1", "first  "]:
    row(left, "no row")


# ---- chains of numbers, by Python's fractions

def half_away(x):
    """The nearest whole number, a half away from zero."""
    return floor(x + Fraction(1, 2)) if x >= 0 else -floor(-x + Fraction(1, 2))


def number():
    if random.random() < 0.5:
        n = random.choice([random.randrange(-20, 20), random.randrange(-10**6, 10**6)])
        return f"int:{n}", (False, Fraction(n))
    n = random.choice([random.randrange(-5 * UNIT, 5 * UNIT), random.randrange(-10**15, 10**15)])
    return f"dec:{n}", (True, Fraction(n, UNIT))


def step(operator, a, b):
    decimal = a[0] or b[0] or operator == "/"
    if operator == "+":
        x = a[1] + b[1]
    elif operator == "-":
        x = a[1] - b[1]
    elif operator == "*":
        x = a[1] * b[1]
    else:
        x = a[1] / b[1]
    return (True, Fraction(half_away(x * UNIT), UNIT)) if decimal else (False, x)


def shown(a):
    return f"dec:{int(a[1] * UNIT)}" if a[0] else f"int64:{int(a[1])}"


for _ in range(200):
    first, value = number()
    words = first
    for i in range(random.randrange(1, 7)):
        operator = random.choice("+-*/")
        other, b = number()
        if operator == "/" and b[1] == 0 or abs(value[1]) > 10**8 or abs(b[1]) > 10**4 and operator in "*/":
            operator = "-"
        value = step(operator, value, b)
        words += f" {other} {'.' if i else ''}{operator}"
    row(f"first {words}", shown(value))


# ---- texts, by Python's texts

def some_text(most):
    return "".join(random.choice("abAB, ") for _ in range(random.randrange(most)))


for _ in range(60):
    a, b = some_text(6), some_text(4)
    row(f"first {word(a)} {word(b)} begins", "yes" if a.rstrip(" ").lower().startswith(b.rstrip(" ").lower()) else "no")
for _ in range(60):
    a, d = some_text(12), random.choice([",", "a", "ab", " ", ", "])
    parts = a.split(d) if a else []
    row(f"first {word(a)} {word(d)} num-entries", f"int64:{len(parts)}")
    n = random.randrange(1, 5)
    row(f"first int:{n} {word(a)} {word(d)} entry", answer(parts[n - 1]) if n <= len(parts) else "argument")
for _ in range(60):
    a, first, count = some_text(9), random.randrange(1, 11), random.randrange(-1, 9)
    rest = a[first - 1:]
    row(f"first {word(a)} int:{first} int:{count} substring", answer(rest if count == -1 else rest[:count]))
for _ in range(40):
    a, b = some_text(5), some_text(5)
    left, right = a.rstrip(" ").lower(), b.rstrip(" ").lower()
    for operator, holds in [("=", left == right), ("<", left < right), (">=", left >= right)]:
        row(f"first {word(a)} {word(b)} {operator}", "yes" if holds else "no")

seen = {left: right for left, right in rows}
put("test_values", "expressions", "".join(f"{left}\n" for left in seen), "".join(f"{left} = {right}\n" for left, right in seen.items()))
