"""The texts of pages: how a file of pages is read, how a source is tried, and how a page is laid out for a terminal."""

import re
import subprocess
import tempfile
import textwrap
from pathlib import Path

WIDTH = 78


def pages(path):
    """The pages of a file by name, each its parts by name; the first part is ''. A line `== NAME ==` is one of a report."""
    found, page, part = {}, None, None
    for line in path.read_text().splitlines():
        if line.startswith("== ") and not line.endswith(" =="):
            page, part = found.setdefault(line[3:], {}), ""
            page[part] = []
        elif page is not None and line.startswith("-- "):
            part = line[3:]
            page[part] = []
        elif page is not None:
            page[part].append(line)
    return {name: {part: "\n".join(lines).strip("\n") for part, lines in parts.items()} for name, parts in found.items()}


def expanded(text):
    """The text with each `{N*TEXT}` written out."""
    def times(match):
        one = match[2].replace("|", "\n")
        return "".join(one.replace("@", str(at + 1)) for at in range(int(match[1])))
    return re.sub(r"\{(\d+)\*([^}]*)\}", times, text)


def split_at_mark(text, mark):
    """The text without its mark, and the line and the column of the mark, which may be left out of a page."""
    text = expanded(text)
    before, found, after = text.partition(f"!{mark}!")
    line, column = before.count("\n") + 1, len(before.rpartition("\n")[2].encode()) + 1
    return before + after + "\n", (line, column) if found else None


def ran(program, files, commands, output=None):
    """The status and the standard error of the last of the commands over these files, and its standard output where that goes to no file."""
    with tempfile.TemporaryDirectory() as folder:
        for name, text in files.items():
            (Path(folder) / name).write_text(text)
        for words in commands[:-1]:
            # (over a schema file that is refused nothing is created, and the last command itself says so)
            subprocess.run([program, *words], cwd=folder, stdin=subprocess.DEVNULL, stdout=subprocess.DEVNULL, stderr=subprocess.DEVNULL, timeout=300)
        with open(output or Path(folder) / ".output", "w") as out:
            got = subprocess.run([program, *commands[-1]], cwd=folder, stdin=subprocess.DEVNULL, stdout=out, stderr=subprocess.PIPE, timeout=300)
        told = "" if output else (Path(folder) / ".output").read_bytes().decode(errors="replace")
        return got.returncode, got.stderr.decode().rstrip("\n"), told


def indented(text):
    """A text of a page, set off from its sentences."""
    return "\n".join(f"    {line}".rstrip() for line in text.split("\n"))


def filled(text):
    """Sentences in lines of a terminal."""
    return textwrap.fill(text.replace("\n", " "), WIDTH, break_on_hyphens=False)


def with_caret(text, mark):
    """A wrong text with a caret below the marked place."""
    before, _, _ = text.partition(f"!{mark}!")
    lines = text.replace(f"!{mark}!", "").split("\n")
    at, column = before.count("\n"), len(before.rpartition("\n")[2])
    return "\n".join(lines[: at + 1] + [" " * column + "^"] + lines[at + 1 :])
