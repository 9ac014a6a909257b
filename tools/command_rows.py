#!/usr/bin/env python3
"""Writes `stdout` of crates/test_commands and test_databases, the answers to the rows of their `stdin`.

Each row that runs sources without records is answered by tools/abl_reference.py, each row that runs one
source over a schema by tools/abl_records.py, each row of `bank` by the balances that its transfers leave, and each row of `check` that lists sources by the reference of
scopes in tools/scope_rows.py, where it reads the source; none knows anything of the program. The answers to other rows (wrong arguments, files that cannot be read, rules that are
broken, faults of the outside) were worked by hand; they are in `stdout` and stay. So do those in which a
client stops with TxFull or TraceFull, since no reference counts slot writes or the trace. Run it at the
top of the repository; with `--check` it only says which committed answers the reference denies."""

import re
import sys
from pathlib import Path

if __name__ == "__main__" and sys.argv[1:] == ["--help"]:
    print(__doc__.strip())
    sys.exit()

import abl_records
import abl_reference
import scope_rows

TABLES = [Path(__file__).parent.parent / "crates" / name for name in ("test_commands", "test_databases")]
MOST_SHOWN, SHOWN_AT_ENDS, MOST_FILE = 400, 80, 1048576
COMMAND = re.compile(r"run s\.df ([1-9]\d{0,8}) (quiet|trace)((?: [A-Za-z0-9]{1,16}=[^ <]+(?:<[^ <]+)?){1,16})$")
CLIENT = re.compile(r" ([^=]+)=([^ <]+)(?:<([^ <]+))?")
BY_CLIENT, WHOLE = "clients", "whole"
CHECK = re.compile(r"check s\.df( [^ ]+){1,16}$")
SCHEMA_LINE = re.compile(r'ADD (?:TABLE|FIELD "(\w+)" OF) "(\w+)"')
BANK = re.compile(r"bank (0|[1-9]\d*) ([1-9]\d*) ([1-9]\d*) ([1-9]\d*)$")
KEPT = re.compile(r"(1|2|3|4|6|7|10) ")
UNCOUNTED = re.compile(r" stop (TxFull|TraceFull)\|")
BETWEEN = " ; "
BANK_FILE = Path(__file__).parent.parent / "examples" / "bank" / "bank.df"


def text_of(written):
    """The bytes that a row writes so, as crates/test_runs/README.md says."""

    def plain(text, number):
        return text.replace("|", "\n").replace("^", "x" * 10000).replace("`", "^").replace("@", number)

    pieces = written.split("{")
    out = [plain(pieces[0], "@")]
    for piece in pieces[1:]:
        repeated, brace, rest = piece.partition("}")
        if not brace:
            out.append(plain(piece, "@"))
            continue
        count, _, text = repeated.partition("*")
        out.extend(plain(text, str(at + 1)) for at in range(int(count)))
        out.append(plain(rest, "@"))
    return "".join(out).encode("utf-8")


def plain(text):
    """The bytes of a stream as an answer writes them whole."""
    return text.decode("latin1").replace("\n", "|")


def shown(text):
    """The bytes of a stream as an answer writes them."""
    if len(text) <= MOST_SHOWN:
        return plain(text)
    head, tail = text[:SHOWN_AT_ENDS], text[-SHOWN_AT_ENDS:]
    middle = f"..{len(text)} bytes.."
    return shown(head) + middle + shown(tail)


def answered(row, schema_before):
    """The answer to a row, or None where the reference does not judge it. Where the row has no schema it
    has that of the line `= TEXT` before."""
    fields = row.split("\t")
    arguments, source, schema, faults = (fields + [""] * 4)[:4]
    schema = schema or schema_before
    files = dict(field.split("=", 1) for field in fields[4:] if field)
    files.setdefault("p", source)
    files.setdefault("s.df", schema)
    if BETWEEN in arguments or arguments.startswith(("create", "dump")):
        return over_a_disk(arguments.split(BETWEEN), files, faults)
    if CHECK.match(arguments) and not faults:
        return listed(arguments.split()[2:], schema, files)
    bank = BANK.match(arguments)
    if bank and not faults:
        return banked(*(int(number) for number in bank.groups()))
    command = COMMAND.match(arguments)
    if not command or faults not in ("", BY_CLIENT, WHOLE):
        return None
    files = {key.encode(): text_of(text) for key, text in files.items()}
    clients = CLIENT.findall(command[3])
    if schema:
        return ran_over_records(int(command[1]), command[2], clients, files, faults == WHOLE) if len(clients) == 1 else None
    return ran(int(command[1]), command[2], clients, files, faults == BY_CLIENT)


def draws(state):
    """The draws of a bank, one after the other, from this state."""
    while True:
        state = (state * 1103515245 + 12345) % 2**31
        yield state // 65536


def banked(start, clients, accounts, transfers):
    """The answer to a bank."""
    return f"0 {shown(bank_of(start, clients, accounts, transfers)[0])} "


def bank_of(start, clients, accounts, transfers):
    """What a bank prints, and the balances that it leaves: each transfer is made, in whatever order."""
    balances, drawn = [1000] * (accounts + 1), draws(start)
    for _ in range(transfers):
        giver = next(drawn) % accounts + 1
        taker = next(drawn) % (accounts - 1) + 1
        taker += taker >= giver
        amount = next(drawn) % 100 + 1
        balances[giver] -= amount
        balances[taker] += amount
    weighted = sum(number * balances[number] for number in range(1, accounts + 1))
    names = ["setup", *(f"c{number + 1}" for number in range(clients)), "total"]
    out = "".join(f"== {name} ==\n" for name in names) + f"total {sum(balances[1:])} weighted {weighted}\n"
    return out.encode(), balances[1:]


class Stored:
    """A database between two commands: what its schema file says, and its rows."""

    def __init__(self, df):
        self.schema = abl_records.canonical(df)
        self.rows = abl_records.Database(abl_records.schema_of(df))


def over_a_disk(commands, files, faults):
    """The answers to commands over one disk, one after the other; None where the reference does not judge one."""
    if faults not in ("", "uncreated", WHOLE, f"uncreated {WHOLE}"):
        return None
    files = {key.encode(): text_of(text) for key, text in files.items()}
    files[b"bank.df"] = BANK_FILE.read_bytes()
    first = "bank.df" if commands[0].startswith("bank") else "s.df"
    stored = None if "uncreated" in faults else Stored(files[first.encode()].decode())
    answers = []
    for command in commands:
        told = after_command(command.split(" "), files, stored)
        if told is None:
            return None
        stored, text, line, status = told
        answers.append(f"{status} {plain(text) if WHOLE in faults else shown(text)} {shown(line)}")
    return BETWEEN.join(answers)


def after_command(words, files, stored):
    """The database after a command, what is on the two streams, and the status; None where it is not judged."""
    df = files.get(b"bank.df" if words[0] == "bank" else words[1].encode() if len(words) > 1 else None)
    if words[0] not in ("create", "run", "dump", "bank") or df is None:
        return None
    try:
        given = abl_records.canonical(df.decode())
    except (AttributeError, IndexError, KeyError, StopIteration, TypeError, ValueError):
        return None
    table = None
    if words[0] == "dump":
        tables = abl_records.schema_of(df.decode())[0]
        table = next((n for n, t in enumerate(tables) if t.name.lower() == words[2].lower()), None)
        if table is None:
            return stored, b"", b"abl: no table %s\n" % words[2].encode(), 3
    if words[0] == "create":
        if stored is None:
            return Stored(df.decode()), b"", b"", 0
        return stored, b"", b"abl: already created\n", 9
    if stored is None:
        return stored, b"", b"abl: not created\n", 9
    if stored.schema != given:
        return stored, b"", b"abl: schema differs\n", 9
    if words[0] == "dump":
        return stored, abl_records.dump(stored.rows, table), b"", 0
    if words[0] == "bank":
        text, balances = bank_of(*(int(number) for number in words[1:]))
        stored = Stored(df.decode())
        for number, balance in enumerate(balances):
            stored.rows.insert(0, [("I", number + 1), ("L", balance)])
        stored.rows.close()
        return stored, text, b"", 0
    return (stored, *ran_over(stored, words, files))


def ran_over(stored, words, files):
    """What a run of one client over the database writes, and its status."""
    name, program, given = CLIENT.match(" " + words[4]).groups()
    own = files[given.encode()] if given else b""
    schema = files[words[1].encode()].decode()
    return abl_records.run(schema, files[program.encode()], int(words[2]), words[3], name, own, files, stored.rows)


def ran_over_records(units, mode, clients, files, whole):
    """The answer to a run of one client over a schema; None where it is refused."""
    name, program, given = clients[0]
    source, own = files.get(program.encode()), files.get(given.encode()) if given else b""
    if source is None or own is None or len(source) > MOST_FILE or len(own) > MOST_FILE:
        return None
    try:
        text, line, status = abl_records.run(files[b"s.df"].decode(), source, units, mode, name, own, files)
    except abl_reference.Refused:
        return None
    return f"{status} {plain(text) if whole else shown(text)} {shown(line)}"


def ran(units, mode, named, files, by_client):
    """The answer to a run of these clients; None where one of them is refused. The lines of a trace of
    several clients are judged by client, without their numbers, since their order is the schedule's."""
    names = [name for name, _, _ in named]
    if len(set(names)) < len(names) or (mode == "trace" and len(names) > 1 and not by_client):
        return None
    clients = []
    for name, program, given in named:
        source, own = files.get(program.encode()), files.get(given.encode()) if given else b""
        if source is None or own is None or len(source) > MOST_FILE or len(own) > MOST_FILE:
            return None
        try:
            clients.append(abl_reference.Client(source, units, own, files))
        except abl_reference.Refused:
            return None
    if any(len(files.get(file, b"x" * (MOST_FILE + 1))) > MOST_FILE for client in clients for file in client.parser.inputs):
        return None
    out, lines, status, trace = b"", b"", 0, b""
    for name, client in zip(names, clients):
        text, line, its_status = abl_reference.report(name, client, mode, client.run())
        text, heading, events = text.partition(b"== trace ==\n")
        out, lines, status, trace = out + text, lines + line, max(status, its_status), trace + events
    if mode == "trace":
        if by_client:
            trace = b"".join(line.partition(b" ")[2] for line in trace.splitlines(keepends=True))
        out += b"== trace ==\n" + trace
    return f"{status} {shown(out)} {shown(lines)}"


def tables_of(schema):
    """The tables of a schema file and their fields, as the reference of scopes takes them."""
    tables = {}
    for line in schema.split("|"):
        found = SCHEMA_LINE.match(line)
        if found and found[1] is None:
            tables[found[2].lower()] = (found[2], [])
        elif found:
            tables[found[2].lower()][1].append(found[1].lower())
    return tables


def listed(names, schema, files):
    """The answer to a check whose sources break no rule; None where the reference does not read one
    of them, or finds a rule S that it breaks."""
    scope_rows.TABLES = tables_of(schema)
    out = ""
    try:
        for name in names:
            answer = scope_rows.judge(text_of(files[name]).decode())
            if re.match(r"S\d at", answer):
                return None
            out += f"== {name} ==\n{answer}\n"
    except (AssertionError, IndexError, KeyError, StopIteration):
        return None
    return f"0 {shown(out.encode())} "


def answers(table):
    """The lines of the table's `stdout`, and the committed answers that the reference denies."""
    rows = (table / "stdin").read_text().splitlines()
    known = {}
    for line in (table / "stdout").read_text().splitlines():
        row, _, answer = line.rpartition("\t")
        known[row] = answer
    lines, denied, schema = [], [], ""
    for row in rows:
        if row.startswith(("#", "= ")):
            schema = row[2:] if row.startswith("= ") else schema
            lines.append(row)
            continue
        old = known.get(row)
        if old is not None and (UNCOUNTED.search(old) or (KEPT.match(old) and "N1 at" not in old and BETWEEN not in row)):
            new = old
        else:
            new = answered(row, schema) or old
        if new is None:
            raise SystemExit(f"no answer: {row}")
        if old is not None and new != old:
            denied.append(f"{row[:200]}\n  was {old[:200]}\n  is  {new[:200]}")
        lines.append(f"{row}\t{new}")
    return lines, denied


def main():
    sys.setrecursionlimit(1000000)
    all_denied = []
    for table in TABLES:
        lines, denied = answers(table)
        all_denied += denied
        if "--check" not in sys.argv:
            (table / "stdout").write_text("\n".join(lines) + "\n")
    if "--check" in sys.argv:
        print("\n".join(all_denied))
        raise SystemExit(bool(all_denied))


if __name__ == "__main__":
    main()
