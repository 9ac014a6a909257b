"""The sections of the programs of rows: `crates/PROGRAM/stdin` and `stdout` have a line `## NAME` before each.

    from sections import put
    put("test_values", "formats", asked, answered)    # replaces the section in both files, and leaves the others"""
import sys
from pathlib import Path

if __name__ == "__main__" and sys.argv[1:] == ["--help"]:
    print(__doc__.strip())
    sys.exit()

CRATES = Path(__file__).resolve().parent.parent / "crates"


def replaced(text, name, rows):
    """The text with these rows, whole lines, as its section of that name."""
    head = f"## {name}\n"
    before, found, after = text.partition(head)
    if not found or before and not before.endswith("\n"):
        raise SystemExit(f"there is no section {name}")
    _, next_head, rest = after.partition("\n## ") if not after.startswith("## ") else ("", "\n## ", after[3:])
    return before + head + rows + (next_head[1:] + rest if next_head else "")


def put(program, name, asked, answered):
    """Writes what is asked and what must be answered as the section of that name of a program of rows."""
    for file, rows in (("stdin", asked), ("stdout", answered)):
        path = CRATES / program / file
        path.write_text(replaced(path.read_text(), name, rows))
