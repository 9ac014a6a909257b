#!/usr/bin/env python3
"""Writes the section `expansions` of crates/test_sources: its rows in `stdin`, and the answers that must come in `stdout`.

The rows and their answers are in tools/expansion_rows.txt, worked by hand from docs/language.md ('Preprocessor'); those at size, which are
too long to be read, are made here, and their answers are counted out beside them. The reference of tools/expansion_reference.py must agree
with each of them, save that it knows no rule L to U. None of the answers comes from the program. It runs from anywhere."""

import re
import sys
from pathlib import Path

if __name__ == "__main__" and sys.argv[1:] == ["--help"]:
    print(__doc__.strip())
    sys.exit()

import expansion_reference
from sections import put

HERE = Path(__file__).parent
MIB = 1 << 20
MARK = re.compile(rb"!([A-Z]\d+)!")
ANSWER = re.compile(r"^(.*?) =(>|\?|@|ok)(?: (.*))?$")
ROWS = []


def bytes_of(shown):
    """The bytes that a text of a row shows."""
    shown = shown.replace(" | ", "\n").encode()
    return re.sub(rb"%([0-9a-f]{2})", lambda found: bytes((int(found[1], 16),)), shown)


def graphic(byte):
    return 33 <= byte < 127 and byte != ord("%")


def word(text):
    """Bytes as the program writes them as a word."""
    return "".join(chr(byte) if graphic(byte) else f"%{byte:02x}" for byte in text)


def lines(text):
    """Bytes as the program writes them as lines."""
    return "".join(chr(byte) if graphic(byte) or byte in b" \n" else f"%{byte:02x}" for byte in text)


def asked(text):
    """The lines that denote a text in `stdin`."""
    *whole, last = text.split(b"\n")
    ended = [re.sub(r"^(==|--|##) | $", lambda found: found[0].replace(" ", "%20"), lines(line)) for line in (*whole, last)]
    return "".join(f"{line}\n" for line in ended[:-1]) + (f"{ended[-1]}%-\n" if last else "")


def row(name, texts, answer, shown=None):
    """A row: its texts by name, the source first; its answer; and the lines of each text, where they are not those of `asked`."""
    texts = [(file.encode(), text) for file, text in texts]
    found = expansion_reference.expansion(texts)
    wanted = reference_answer(name, texts, found)
    assert wanted is None or wanted == answer, f"{name}\n{texts}\nby hand {answer!r}\nreference {wanted!r}"
    shown = shown or [asked(text) for _, text in texts]
    ROWS.append((name, "".join(f"-- {word(file)}\n{text}" for (file, _), text in zip(texts, shown)), answer))


def reference_answer(name, texts, found):
    """What the reference says of a row, or None where it does not know."""
    if found[0] == "needs":
        return f"needs {word(found[1])}"
    if found[0] == "breaks":
        return "{} at {}:{}:{}".format(found[1], word(texts[found[2]][0]), *found[3])
    _, given, origins = found
    if name.endswith("judged"):
        return None
    if name.endswith("size"):
        return f"{len(given)} bytes, last from {origin_shown(texts, origins[-2] if given else origins[-1])}"
    if name.endswith("places"):
        pieces = [f"\n{origin_shown(texts, origin)} {word(piece)}" for origin, piece in expansion_reference.pieces(given, origins)]
        return "pieces" + "".join(pieces) + f"\nend {origin_shown(texts, origins[-1])}"
    return f"{lines(given)}<end>"


def origin_shown(texts, origin):
    return f"{word(texts[origin[0]][0])}:{origin[1]}:{origin[2]}"


def read_row(name, line):
    """A row of tools/expansion_rows.txt."""
    found = ANSWER.match(line)
    line, kind, answer = found.groups() if found else (line, None, None)
    shown = [part.partition(": ")[::2] for part in ("p: " + line).split(" || ")]
    texts, broken = [], []
    for file, part in shown:
        text = bytes_of(part)
        mark = MARK.search(text)
        if mark:
            place = expansion_reference.place_of(text, mark.start())
            broken.append((mark[1].decode(), "{}:{}:{}".format(word(bytes_of(file)), *place)))
            text = MARK.sub(b"", text)
        texts.append((bytes_of(file).decode(), text))
    assert len(broken) == (kind is None), f"{name}: one answer is wanted\n{line}"
    if kind is None:
        [(rule, place)] = broken
        row(name if rule.startswith("E") else f"{name} judged", texts, f"{rule} at {place}")
    elif kind == "ok":
        row(f"{name} judged", texts, "ok")
    elif kind == "?":
        row(name, texts, f"needs {word(bytes_of(answer))}")
    elif kind == "@":
        *pieces, end = answer.split(" ; ")
        row(f"{name} places", texts, "pieces" + "".join(f"\n{piece}" for piece in pieces) + f"\nend {end}")
    else:
        row(name, texts, f"{lines(bytes_of(answer or ''))}<end>")


def read():
    name, count = "", 0
    for line in (HERE / "expansion_rows.txt").read_text().splitlines():
        if line.startswith("## "):
            name, count = line[3:], 0
        elif line and not line.startswith("#"):
            count += 1
            read_row(f"{name} {count}", line)


def repeated(name, texts, answer):
    """A row with texts of many lines: each text is a list of lines, and of pairs of a number and a line that is there so often, with 0, 1 and
    so on for its first `#`. A text that ends in `%-` has no line feed there."""
    whole, shown = [], []
    for file, parts in texts:
        parts = [part if isinstance(part, tuple) else (1, part) for part in parts]
        text = "".join(line.replace("#", str(number), 1) + "\n" for count, line in parts for number in range(count))
        whole.append((file, text.removesuffix("%-\n").encode()))
        shown.append("".join(f"%*{count} {line}\n" if count > 1 else f"{line}\n" for count, line in parts))
    row(name, whole, answer, shown)


def chain(count, last):
    """Texts that each include the next one: `p`, `f2` and so on up to the last one, which has this text."""
    names = ["p", *(f"f{n}" for n in range(2, count + 1))]
    return [(file, b"{%s}" % after.encode()) for file, after in zip(names, names[1:])] + [(names[-1], last)]


# Definitions whose last value has 524,288 bytes: 16 bytes, doubled 15 times.
DOUBLED = ["&GLOBAL-DEFINE A 0123456789abcdef", *["&GLOBAL-DEFINE A {&A}{&A}"] * 15]


def limits():
    """E5 and E6, and texts at size."""
    row("the 16th text", chain(16, b"x"), "x<end>")
    row("the 17th text", chain(17, b"x"), "E5 at f16:1:1")
    row("a 17th text that is not there", chain(16, b" {none}"), "E5 at f16:1:2")
    row("an empty reference in the 16th text", chain(16, b"{}"), "E2 at f16:1:1")
    row("an argument without name in the 16th text", chain(16, b"{none &}"), "E2 at f16:1:1")
    row("values in the 16th text", chain(16, b"{&A}{0}"), "f16<end>")
    row("the 16th text twice", [*chain(15, b"{x}{x}"), ("x", b"y")], "yy<end>")
    doubled = ("d.i", "".join(f"{line}\n" for line in DOUBLED).encode())
    row("1048576 bytes size", [("p", b"&IF {d.i}1 &THEN{&A}{&A}&ENDIF"), doubled], "1048576 bytes, last from p:1:21")
    row("one byte more than 1048576", [("p", b"&IF {d.i}1 &THEN{&A}{&A} &ENDIF"), doubled], "E6 at p:1:25")
    row("a value too many", [("p", b"&IF {d.i}1 &THEN {&A}{&A}&ENDIF"), doubled], "E6 at p:1:22")
    row("a file too many", [("p", b"x\n{i.i}"), ("i.i", b"&IF {d.i}1 &THEN{&A}{&A}&ENDIF"), doubled], "E6 at p:2:1")
    row("one byte more in a file", [("p", b"{i.i}"), ("i.i", b"&IF {d.i}1 &THEN{&A}{&A}\n&ENDIF"), doubled], "E6 at i.i:1:25")
    row("one byte more in a reference", [("p", b"&IF {d.i}1 &THEN{{&A}{&A}~}}&ENDIF"), doubled], "E6 at p:1:26")
    row("a value too many in a reference", [("p", b"&IF {d.i}1 &THEN{ {&A}{&A}}&ENDIF"), doubled], "E6 at p:1:23")
    row("a value too many in a condition", [("p", b"&IF {d.i}1 &THEN\n&IF {&A}{&A} &THEN &ENDIF &ENDIF"), doubled], "E6 at p:2:9")
    row("a value too many in a line", [("p", b"{d.i}&GLOBAL-DEFINE B {&A}{&A}"), doubled], "E6 at p:1:27")
    row("a value that is doubled once more", [("p", b"{d.i}"), ("d.i", doubled[1] + DOUBLED[1].encode())], "E6 at d.i:17:22")
    repeated("a source of 1048576 bytes size", [("p", [(1024, "x" * 1023)])], "1048576 bytes, last from p:1024:1024")
    repeated("10000 references size", [("p", ["&SCOPED-DEFINE A 12345", (10_000, "{&A} {&B}")])], "70001 bytes, last from p:10001:10")
    repeated("10000 files size", [("p", [(10_000, "{i.i a}")]), ("i.i", ["[{1}]%-"])], "40000 bytes, last from p:10000:8")
    repeated("2000 names size", [("p", [(2_000, "&SCOPED-DEFINE A# v"), (2_000, "{&A#}")])], "6000 bytes, last from p:4000:9")
    row("1000 braces", [("p", b"{" * 1000 + b"&A" + b"}" * 1000)], "E2 at p:1:999")
    row("1000 braces, one too few", [("p", b"{" * 1000 + b"&A" + b"}" * 999)], "E1 at p:1:1")
    row("500 parts in each other size", [("p", b"&IF 1 &THEN " * 500 + b"x " + b"&ENDIF " * 500)], "1002 bytes, last from p:1:9502")
    row("65 blocks in each other judged", [("p", b"{d.i}" * 65 + b"END. " * 65), ("d.i", b"\n DO: ")], "G2 at d.i:2:2")
    work()


def skipped(length):
    """The lines of a file of this length that gives nothing: a part that is not chosen, and a condition of three bytes."""
    count, rest = divmod(length - len("&IF 0 &THEN\n&ENDIF"), 1024)
    return ["&IF 0 &THEN", (count, "x" * 1023), "x" * (rest - 1), "&ENDIF%-"]


def work():
    """At most 67,108,864 bytes are read and given: each text as often as it is opened, and what each expansion gives.

    A source of 64 references `{f.i}` has 320 bytes; their insides give 3 bytes each, and so do the conditions of the files. So 63 files of
    1 MiB and one of 1,047,872 bytes are 320 + 192 + 192 + 66,060,288 + 1,047,872 = 67,108,864."""
    files = [("p", ["{f.i}" * 63 + "{g.i}%-"]), ("f.i", skipped(MIB)), ("g.i", skipped(1_047_872))]
    repeated("67108864 bytes read and given", files, "<end>")
    repeated("one byte more given", [("p", ["{f.i}" * 63 + "{g.i}x%-"]), *files[1:]], "E6 at g.i:1:6")
    repeated("one byte more read", [*files[:2], ("g.i", skipped(1_047_876))], "E6 at p:1:316")
    # `d.i` has 34 + 15 * 26 = 424 bytes. Its lines give 19 + 15 * 3 + 32 * 32,767 = 1,048,608 bytes, its 30 references 2 each, and it gives
    # 16 line feeds, which the source gives too, as it gives the line feed after the reference: with its inside 1,049,128. Each later line of
    # the source gives 3 + 524,288 bytes, 2 in its reference and a line feed. The source has 6 + 126 * 22 = 2,778 bytes, so 125 lines are
    # 1,049,128 + 2,778 + 65,536,750 = 66,588,656, and the value of the next one is too many.
    repeated("values given in lines", [("p", ["{d.i}", (126, "&GLOBAL-DEFINE B {&A}")]), ("d.i", DOUBLED)], "E6 at p:127:18")
    repeated("values given in 125 lines size", [("p", ["{d.i}", (125, "&GLOBAL-DEFINE B {&A}")]), ("d.i", DOUBLED)], "142 bytes, last from p:126:22")


def main():
    read()
    limits()
    schema = (HERE / "scope_schema.df").read_text()
    put(
        "test_sources",
        "expansions",
        f"== schema\n-- s.df\n{schema}" + "".join(f"== {name}\n{texts}" for name, texts, _ in ROWS),
        "".join(f"== {name}\n{answer}\n" for name, _, answer in ROWS),
    )
    print(len(ROWS), "rows of expansions")


if __name__ == "__main__":
    sys.setrecursionlimit(20_000)
    main()
