"""The rows of names and types of crates/test_sources, from tools/type_rows.txt, for
tools/binding_rows.py. The rows of the limits, which are too long to be read, are made here. Each
answer was worked by hand from docs/language.md ('Names, types and values'); this script only counts
the lines and columns of the tokens that are marked."""

import re
import sys
from pathlib import Path

if __name__ == "__main__" and sys.argv[1:] == ["--help"]:
    print(__doc__.strip())
    sys.exit()

HERE = Path(__file__).parent
MARK = re.compile(r"([!~])([A-Z]\d+)\1")
ROWS = []


def number(rule):
    """The number of a rule; L and G come before any Y, as the source is refused by them first."""
    return (rule[0] == "Y", int(rule[1:]))


def placed(text):
    """The source without its marks, and the marks with their places."""
    marks, out, line, column = [], [], 1, 1
    at = 0
    for mark in MARK.finditer(text):
        for char in text[at : mark.start()]:
            out.append(char)
            line, column = (line + 1, 1) if char == "\n" else (line, column + 1)
        marks.append((mark.group(1) == "!", mark.group(2), (line, column)))
        at = mark.end()
    out.append(text[at:])
    return "".join(out), marks


def row(name, text):
    """A source with its marks. The one that is marked by `!` must come before each other one."""
    source, marks = placed(text)
    first = [mark for mark in marks if mark[0]]
    assert len(first) == bool(marks), f"{name}: one mark by ! is wanted\n{text}"
    for _, rule, place in marks:
        assert (first[0][2], number(first[0][1])) <= (place, number(rule)), f"{name}: {rule} comes first\n{text}"
    answer = "ok" if not first else f"{first[0][1]} at {first[0][2][0]}:{first[0][2][1]}"
    ROWS.append((name, source, answer))


def read():
    name, count = "", 0
    for line in (HERE / "type_rows.txt").read_text().splitlines():
        if line.startswith("## "):
            name, count = line[3:], 0
        elif line and not line.startswith("#"):
            count += 1
            row(f"{name} {count}", line.replace(" | ", "\n"))


def variables(count, mark_at=0, mark="", begin=1):
    return "\n".join(
        f"DEFINE VARIABLE {mark if i == mark_at else ''}v{i} AS INTEGER." for i in range(begin, begin + count)
    )


def buffers(count, mark_at=0, mark="", table="Customer"):
    return "\n".join(f"DEFINE BUFFER {mark if i == mark_at else ''}b{i} FOR {table}." for i in range(1, count + 1))


def streams(count, mark_at=0, mark="", begin=1):
    return "\n".join(f"DEFINE STREAM {mark if i == mark_at else ''}s{i}." for i in range(begin, begin + count))


def inputs(count, mark_at=0, mark="", begin=1):
    return "\n".join(f"INPUT FROM {mark if i == mark_at else ''}\"f{i}\"." for i in range(begin, begin + count))


def limits():
    """Y14, and the lengths of names."""
    row("1024 variables", variables(1024))
    row("1025 variables", variables(1025, 1025, "!Y14!"))
    row("1026 variables", variables(1025, 1025, "!Y14!") + "\nDEFINE VARIABLE ~Y14~w AS DATE.")
    row("1025th variable named as another", variables(1024) + "\nDEFINE VARIABLE !Y3!~Y14~v1 AS INTEGER.")
    row("1025 variables of two procedures", "PROCEDURE p:\n" + variables(600) + "\nEND.\n" + variables(425, 425, "!Y14!"))
    row("1024 variables of two procedures", "PROCEDURE p:\n" + variables(600) + "\nEND.\n" + variables(424))
    row("1025th is a parameter", variables(1024) + "\nPROCEDURE p: DEFINE INPUT PARAMETER !Y14!a AS INTEGER. END.")
    row("1025 variables and an earlier fault", "MESSAGE !Y1!zz.\n" + variables(1025, 1025, "~Y14~"))
    row("64 buffers", buffers(64))
    row("65 buffers", buffers(65, 65, "!Y14!"))
    row("66 buffers", buffers(65, 65, "!Y14!") + "\nDEFINE BUFFER ~Y14~c FOR Item.")
    row("64 buffers and a table", buffers(64) + "\nFIND !Y14!Customer.")
    row("63 buffers and a table", buffers(63) + "\nFIND Customer.\nFIND Customer.\nMESSAGE Customer.CustNum.")
    row("64 buffers and a field of another table", buffers(64) + "\nMESSAGE !Y14!Item.Price.")
    row("64 buffers and a test of another table", buffers(64) + "\nMESSAGE AVAILABLE !Y14!Item.")
    row("65th buffer named as a table", buffers(64) + "\nDEFINE BUFFER !Y3!~Y14~Item FOR Customer.")
    row("65 buffers of two procedures", buffers(64) + "\nPROCEDURE p: FIND !Y14!Item. END.")
    row("64 buffers of two procedures", buffers(63) + "\nPROCEDURE p: FIND Item. FIND Item. END.")
    row("16 streams", streams(16))
    row("17 streams", streams(17, 17, "!Y14!"))
    row("17th stream named as another", streams(16) + "\nDEFINE STREAM !Y3!~Y14~s1.")
    row("17 streams of two procedures", "PROCEDURE p:\n" + streams(9) + "\nEND.\n" + streams(8, 8, "!Y14!"))
    row("16 inputs", inputs(16))
    row("17 inputs", inputs(17, 17, "!Y14!"))
    row("16 inputs twice", inputs(16) + "\n" + inputs(16) + "\nINPUT CLOSE.")
    row("17 inputs in a stream", "DEFINE STREAM s.\n" + inputs(16) + "\nINPUT STREAM s FROM !Y14!\"g\".")
    row("17 inputs of two procedures", "PROCEDURE p:\n" + inputs(9) + "\nEND.\n" + inputs(8, 17, "!Y14!", 10))
    row("17 inputs in other letters", inputs(16) + "\nINPUT FROM !Y14!\"F1\".")
    row("17 outputs", "\n".join(f'OUTPUT TO "f{i}".' for i in range(1, 18)))
    name = "a" * 32
    row("name of 32 bytes", f"DEFINE VARIABLE {name} AS INTEGER.\n{name.upper()} = 1.")
    row("name of 33 bytes", f"DEFINE VARIABLE !L4!{name}a AS INTEGER.\n{name}a = 1.")
    row("qualified name of 32 bytes", f"DEFINE BUFFER {name} FOR Customer.\nMESSAGE {name}.Name.")
    row("qualified name of 33 bytes", f"MESSAGE Customer.!L4!{name}a.")
    row("names that differ in the last byte", f"DEFINE VARIABLE {name[1:]}b AS INTEGER.\nMESSAGE !Y1!{name[1:]}c.")


def rows():
    """Each row: its name, its source and its answer."""
    read()
    limits()
    return ROWS
