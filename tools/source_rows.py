#!/usr/bin/env python3
"""Writes the section `sources` of crates/test_sources: its rows in `stdin`, and the answers that must come in `stdout`.

The rows and their answers are in tools/source_rows.txt, worked by hand from the rules of
docs/language.md; here the places of tokens are counted, and each keyword is tried as a name. None
of the answers comes from the program. It runs from anywhere."""

import re
import sys
from pathlib import Path

if __name__ == "__main__" and sys.argv[1:] == ["--help"]:
    print(__doc__.strip())
    sys.exit()

from sections import put

TOP = Path(__file__).parent.parent
ROWS = []


def expanded(shown):
    """A source without its repetitions."""
    return re.sub(r"\{(\d+)\|([^}]*)\}", lambda m: int(m[1]) * m[2], shown)


def place(shown, token):
    """The place of a token in a source of one line whose tokens have blanks between, and of the
    end after its last token."""
    starts = [m.start() + 1 for m in re.finditer(r"[^ ]+", expanded(shown))]
    return f"1:{(starts + [len(expanded(shown)) + 1])[token]}"


def row(question, shown, answer):
    ROWS.append((f"{question} {shown}", answer))


def keywords():
    """The keywords, as tools/grammar.txt writes them."""
    grammar = (TOP / "tools/grammar.txt").read_text()
    rules = "\n".join(line.split("#")[0] for line in grammar.splitlines())
    forms = {"NAME", "QNAME", "INT", "DEC", "DATELIT", "TEXT"}
    words = set(re.findall(r"(?<![\w-])[A-Z][A-Z0-9-]+(?![\w-])", rules)) - forms
    return sorted(words | {"DECIMAL"})


def read(line):
    """A row of tools/source_rows.txt."""
    question, _, rest = line.partition(" ")
    if question == "parse":
        row("parse", rest, "program")
    elif question in ("stops", "nests"):
        token, _, shown = rest.partition(" ")
        rule = "G1" if question == "stops" else "G2"
        row("parse", shown, f"{rule} at token {token}, {place(shown, int(token))}")
    else:
        shown, answer = line.rsplit(" = ", 1) if question != "tokens" else split(line)
        ROWS.append((shown, answer))


def split(line):
    """A row of tokens: the answer begins with a kind or a rule and its place."""
    found = re.match(r"(.*?) = ((?:[A-Z]\w* (?:at )?\d+:\d+).*)$", line)
    return found[1], found[2]


def main():
    for line in (TOP / "tools/source_rows.txt").read_text().splitlines():
        if line and not line.startswith("#"):
            read(line)
    for word in keywords():
        row("parse", f"CREATE {word} .", "G1 at token 1, 1:8")
    put("test_sources", "sources", "".join(f"{shown}\n" for shown, _ in ROWS), "".join(f"{shown} = {answer}\n" for shown, answer in ROWS))


main()
