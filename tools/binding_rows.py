#!/usr/bin/env python3
"""Writes the section `bindings` of crates/test_sources: its files in `stdin`, and the answers that must come in `stdout`. Its two
sections are the rows of names and types (tools/type_rows.py, over tools/type_schema.df) and those of
scopes (tools/scope_rows.py, over tools/scope_schema.df). It runs from anywhere."""

import sys
from pathlib import Path

if __name__ == "__main__" and sys.argv[1:] == ["--help"]:
    print(__doc__.strip())
    sys.exit()

import scope_rows
import type_rows
from sections import put

HERE = Path(__file__).parent


def main():
    asked, answered = [], []
    for name, rows in (("type", type_rows.rows()), ("scope", scope_rows.rows())):
        asked.append(f"== schema {name}s\n" + (HERE / f"{name}_schema.df").read_text())
        asked.extend(f"== {row}\n{source}\n" for row, source, _ in rows)
        answered.extend(f"== {row}\n{answer}\n" for row, _, answer in rows)
        print(len(rows), "rows of", f"{name}s")
    put("test_sources", "bindings", "".join(asked), "".join(answered))


main()
