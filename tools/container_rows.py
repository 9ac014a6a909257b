#!/usr/bin/env python3
"""Writes the section `containers` of crates/test_machine: its rows in `stdin`, and the answers that must come in `stdout`,
from tools/container_rows.txt, where both are worked by hand. It runs from anywhere."""

import sys
from pathlib import Path

if __name__ == "__main__" and sys.argv[1:] == ["--help"]:
    print(__doc__.strip())
    sys.exit()

from sections import put

TOP = Path(__file__).parent.parent
LINES = (TOP / "tools/container_rows.txt").read_text().splitlines()
ROWS = [line for line in LINES if line and not line.startswith("#")]
put("test_machine", "containers", "".join(row.split(" = ")[0] + "\n" for row in ROWS), "".join(row + "\n" for row in ROWS))
