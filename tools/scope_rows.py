"""The rows of scopes of crates/test_sources, from tools/scope_rows.txt, for tools/binding_rows.py. The
answers in scope_rows.txt were worked by hand; the reference below, which reads a part of the language
by itself, must agree with each of them, and gives those of the generated rows."""

import random
import re
import sys
from pathlib import Path

if __name__ == "__main__" and sys.argv[1:] == ["--help"]:
    print(__doc__.strip())
    sys.exit()

HERE = Path(__file__).parent
TABLES = {"customer": ("Customer", ["num", "name"]), "item": ("Item", ["code", "label"])}
TOKEN = re.compile(r'\s+|"[^"]*"|[A-Za-z][A-Za-z0-9_-]*(?:\.[A-Za-z][A-Za-z0-9_-]*)?|[0-9]+|.', re.S)
OPTIONS = {"where", "no-lock", "share-lock", "exclusive-lock", "no-error"}
LOCKS = {"no-lock", "share-lock", "exclusive-lock"}


class Block:
    """A block: its kind, the block around it, its buffers, and what its statements do."""

    def __init__(self, kind, place, outer):
        self.kind, self.place, self.outer = kind, place, outer
        self.transaction = self.handles = self.list_for = False
        self.updates = []  # blocks, and True for an update
        self.scoped = set()

    def around(self):
        return [self] + (self.outer.around() if self.outer else [])

    def has_undo(self):
        return self.kind != "DO" or self.transaction or self.handles

    def directly_updates(self):
        return any(part is True or (not part.starts() and part.directly_updates()) for part in self.updates)

    def starts(self):
        return self.transaction or (self.has_undo() and self.directly_updates())

    def may_scope(self):
        return self.kind != "DO" or self.list_for

    def line(self, names):
        flag = "transaction" if self.starts() else "sub" if self.has_undo() else "plain"
        return " ".join([str(self.place[0]), self.kind, flag] + [names[b] for b in sorted(self.scoped, key=list(names).index)])


class Procedure:
    """The namings of a procedure: its variables, its buffers by first naming, and its references."""

    def __init__(self, block):
        self.block, self.variables, self.names, self.refs = block, set(), {}, []


class Reader:
    """Reads a source of the part of the language that the rows use."""

    def __init__(self, text):
        self.tokens, line, column = [], 1, 1
        for word in TOKEN.findall(text):
            if not word.isspace():
                self.tokens.append((word, (line, column)))
            for char in word:
                line, column = (line + 1, 1) if char == "\n" else (line, column + 1)
        self.at, self.blocks = 0, []
        self.main = Procedure(self.open("procedure", (1, 1), None))
        self.procedures, self.now = [self.main], self.main
        self.fields = []
        while self.at < len(self.tokens):
            if self.word() == "procedure":
                self.internal()
            else:
                self.statement(self.main.block)

    def open(self, kind, place, outer):
        block = Block(kind, place, outer)
        self.blocks.append(block)
        return block

    def word(self, ahead=0):
        at = self.at + ahead
        return self.tokens[at][0].lower() if at < len(self.tokens) else None

    def take(self, *wanted):
        word, place = self.tokens[self.at]
        assert not wanted or word.lower() in wanted, (word, place, wanted)
        self.at += 1
        return word.lower(), place

    def name(self, word):
        """The buffer of this name, which gets its number by its first naming."""
        if word not in self.now.names:
            self.now.names[word] = TABLES[word][0]
        return word

    def refer(self, kind, block):
        word, place = self.take()
        self.now.refs.append((self.name(word), kind, block, place))
        return word

    def value(self, block, stops):
        """An expression up to one of the words that end it."""
        depth = 0
        while depth or self.word() not in stops:
            word, place = self.tokens[self.at]
            word = word.lower()
            if word in ("available", "locked"):
                self.take()
                self.refer("free", block)
                continue
            if word == "next-value":
                self.at += 4
                continue
            depth += (word == "(") - (word == ")")
            self.at += 1
            if "." in word and word[0].isalpha():
                self.now.refs.append((self.name(word.split(".")[0]), "free", block, place))
            elif word[0].isalpha() and word not in self.now.variables and word not in self.main.variables:
                if word in TABLES or word in self.now.names:
                    self.now.refs.append((self.name(word), "free", block, place))
                else:
                    self.fields.append((self.now, len(self.now.refs), word, block, place))
                    self.now.refs.append(None)

    def options(self, block, lock):
        """The options of FOR and FIND; whether one of them is EXCLUSIVE-LOCK."""
        exclusive = False
        while self.word() in OPTIONS:
            word, _ = self.take()
            exclusive |= word == "exclusive-lock"
            if word == "where":
                self.value(block, OPTIONS | lock)
        return exclusive

    def internal(self):
        _, place = self.take("procedure")
        self.take()
        self.take(":")
        self.now = Procedure(self.open("procedure", place, None))
        self.procedures.append(self.now)
        self.body(self.now.block)
        self.now = self.main

    def body(self, block):
        while self.word() != "end":
            self.statement(block)
        self.take("end")
        self.take(".")

    def header(self, block):
        while self.word() != ":":
            word, _ = self.take()
            if word == "while":
                self.value(block, {":", "transaction", "on"})
            elif word == "transaction":
                block.transaction = True
            elif word == "on":
                block.handles = True
                self.take("error", "endkey")
                self.take("undo")
                if self.word() == ",":
                    self.take()
                    self.take("leave", "next", "retry")
            else:
                assert word in self.now.variables
                self.take("=")
                self.value(block, {"to"})
                self.take("to")
                self.value(block, {":", "while", "transaction", "on"})
        self.take(":")
        self.body(block)

    def statement(self, outer):
        if self.word(1) == ":" and self.word() not in ("do", "repeat"):
            self.take()
            self.take(":")
        word, place = self.take()
        if word in ("do", "repeat"):
            block = self.open(word.upper(), place, outer)
            outer.updates.append(block)
            if self.word() == "for":
                block.list_for = True
                while self.take("for", ",") and self.refer("strong", block) and self.word() == ",":
                    pass
            self.header(block)
        elif word == "for":
            block = self.open("FOR", place, outer)
            outer.updates.append(block)
            self.take("each", "first", "last")
            self.refer("weak", block)
            if self.options(block, {":", "while", "transaction", "on"}):
                block.updates.append(True)
            self.header(block)
        elif word == "if":
            self.value(outer, {"then"})
            self.take("then")
            self.statement(outer)
            if self.word() == "else":
                self.take()
                self.statement(outer)
        elif word == "define":
            if self.take("variable", "buffer")[0] == "variable":
                self.now.variables.add(self.take()[0])
                self.take("as")
                self.take("integer")
            else:
                name, _ = self.take()
                self.take("for")
                self.take()
                self.now.names[name] = name
            self.take(".")
        elif word == "find":
            if self.word() in ("first", "last", "next", "prev"):
                self.take()
            self.refer("free", outer)
            if self.options(outer, {"."}):
                outer.updates.append(True)
            self.take(".")
        elif word in ("create", "delete", "release"):
            self.refer("free", outer)
            if word != "release":
                outer.updates.append(True)
            self.take(".")
        elif word in ("import", "export"):
            self.refer("free", outer)
            if word == "import":
                outer.updates.append(True)
            self.take(".")
        elif word == "message":
            self.value(outer, {"."})
            self.take(".")
        elif word in ("run", "leave", "next", "undo", "stop"):
            while self.take()[0] != ".":
                pass
        else:
            self.at -= 1
            if word not in self.now.variables and word not in self.main.variables:
                outer.updates.append(True)
            self.value(outer, {"="})
            self.take("=")
            self.value(outer, {"."})
            self.take(".")

    def fill_fields(self):
        """The buffer of each field alone: the one that its procedure names, whose table has it."""
        for procedure, at, field, block, place in self.fields:
            owner = next(b for b in procedure.names if b in TABLES and field in TABLES[b][1])
            procedure.refs[at] = (owner, "free", block, place)


def judge(text):
    """The listing, or the first rule S that is broken."""
    reader = Reader(text)
    reader.fill_fields()
    broken = []
    for procedure in reader.procedures:
        for buffer in procedure.names:
            refs = [r for r in procedure.refs if r[0] == buffer]
            broken += scopes_of(buffer, refs)
    if broken:
        place, rule = min(broken)
        return f"S{rule} at {place[0]}:{place[1]}"
    owner = {b: q for q in reader.procedures for b in reader.blocks if q.block in b.around()}
    return "\n".join(b.line(owner[b].names) for b in reader.blocks)


def scopes_of(buffer, refs):
    """Scopes one buffer by its references, each with the set of blocks that hold it."""
    own = {kind: {r[2] for r in refs if r[1] == kind} for kind in ("strong", "weak")}
    both = own["strong"] | own["weak"]
    outside = [r for r in refs if r[1] == "free" and not both & set(r[2].around())]
    free = None
    if outside:
        common = set.intersection(*(set(r[2].around()) for r in outside))
        free = max((b for b in common if b.may_scope()), key=lambda b: len(b.around()))
    for _, kind, block, _ in refs:
        holders = block.around()
        strong = [b for b in holders if b in own["strong"]]
        weak = [b for b in holders if b in own["weak"]]
        if strong:
            strong[0].scoped.add(buffer)
        elif not weak:
            free.scoped.add(buffer)
        elif free in weak[0].around():
            free.scoped.add(buffer)
        else:
            weak[0].scoped.add(buffer)
    broken = []
    for block in own["weak"]:
        outer = set(block.around()[1:])
        broken += [(block.place, 1)] if outer & own["weak"] else []
        broken += [(block.place, 3)] if outer & own["strong"] else []
    for block in own["strong"]:
        outer = set(block.around()[1:])
        broken += [(block.place, 2)] if free in block.around() else []
        broken += [(block.place, 3)] if outer & both else []
    seen = set()
    for _, kind, block, place in refs:
        if kind == "strong":
            broken += [(place, 4)] if block in seen else []
            seen.add(block)
    return broken


def made(pick, depth):
    """A statement made at random."""
    buffer = pick.choice(["customer", "item", "b"])
    kind = pick.randrange(12 if depth else 4)
    if kind < 2:
        return f"FIND {pick.choice(['FIRST', 'LAST', 'NEXT'])} {buffer}{pick.choice(['', ' EXCLUSIVE-LOCK', ' NO-LOCK'])}."
    if kind == 2:
        return f"RELEASE {buffer}."
    if kind == 3:
        return pick.choice([f"CREATE {buffer}.", "i = 1.", f"MESSAGE AVAILABLE {buffer}."])
    inside = " ".join(made(pick, depth - 1) for _ in range(pick.randrange(3)))
    inside = inside + " " if inside else ""
    if kind < 7:
        return f"FOR EACH {buffer}{pick.choice(['', ' NO-LOCK', ' EXCLUSIVE-LOCK'])}: {inside}END."
    if kind == 7:
        return f"{pick.choice(['DO', 'REPEAT'])} FOR {buffer}: {inside}END."
    if kind == 8:
        return f"{pick.choice(['DO', 'REPEAT'])} FOR {buffer}, {pick.choice(['customer', 'item', 'b'])}: {inside}END."
    if kind == 9:
        return f"DO{pick.choice(['', ' TRANSACTION', ' ON ERROR UNDO, LEAVE', f' WHILE AVAILABLE {buffer}'])}: {inside}END."
    if kind == 10:
        return f"IF AVAILABLE {buffer} THEN {made(pick, depth - 1)} ELSE {made(pick, depth - 1)}"
    return f"REPEAT: {inside}END."


def generated():
    """Sources made at random: 120 that break no rule and 80 that break one."""
    pick, wanted, rows = random.Random(7), {True: 120, False: 80}, []
    while any(wanted.values()):
        lines = [made(pick, 3) for _ in range(pick.randrange(1, 5))]
        if pick.randrange(4) == 0:
            inner = " ".join(made(pick, 2) for _ in range(2))
            lines.insert(pick.randrange(len(lines) + 1), f"PROCEDURE p: DEFINE BUFFER b FOR item. {inner} END.")
        text = "DEFINE VARIABLE i AS INTEGER.\nDEFINE BUFFER b FOR customer.\n" + "\n".join(lines)
        answer = judge(text)
        clean = not answer.startswith("S")
        if wanted[clean] and len(answer.split("\n")) > 2 * clean + 1 - (not clean):
            wanted[clean] -= 1
            rows.append((f"generated {len(rows) + 1}", text, answer))
    return rows


def read():
    rows, name, count = [], "", 0
    for line in (HERE / "scope_rows.txt").read_text().splitlines():
        if line.startswith("## "):
            name, count = line[3:], 0
        elif line and not line.startswith("#"):
            count += 1
            text, answer = line.split(" => ")
            text, answer = text.replace(" | ", "\n"), answer.replace(" | ", "\n")
            assert judge(text) == answer, f"{name} {count}: {judge(text)!r} is not {answer!r}\n{text}"
            rows.append((f"{name} {count}", text, answer))
    return rows


def rows():
    """Each row: its name, its source and its answer."""
    return read() + generated()
