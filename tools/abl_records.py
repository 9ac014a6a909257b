"""The reference reading of the language with records and sequences, for one client over an empty database.

It was written from docs/language.md, docs/formats.md and docs/machine.md, before the client that it judges,
and shares nothing with it: an UNDO restores whole copies, a search looks at every row. It reads well-formed
sources, and knows of the rules only those that it meets. `run` gives what a command writes to standard output
and standard error, and its status."""

import sys

if __name__ == "__main__" and sys.argv[1:] == ["--help"]:
    print(__doc__.strip())
    sys.exit()

import abl_reference as plain_reference
from abl_reference import KINDS, RANGE, Block, Client, Fault, Parser, Refused, Stop, Var, fit, lex, order

MAX_ROW, MAX_KEY, FIRST_ROW, FRAGMENT = 30000, 200, 8192, 240
DEFMASK, INITS = plain_reference.DEFMASK, plain_reference.INITS


# ---- the schema

class Table:
    """A table: fields as (name, kind, initial, mask, mandatory), usable indexes as Index."""

    def __init__(self, name):
        self.name, self.fields, self.indexes, self.primary = name, [], [], None

    def field(self, name):
        return next((n for n, f in enumerate(self.fields) if f[0].lower() == name), None)


class Index:
    def __init__(self, name):
        self.name, self.unique, self.word, self.parts = name, False, False, []


def unquoted(text):
    """A text between quotes, in which a doubled quote denotes one."""
    return text[1:-1].replace('""', '"') if text.startswith('"') else text


def schema_of(text):
    """The tables and sequences of a well-formed schema file whose fields stand in order."""
    tables, sequences, item = [], [], None
    for line in text.splitlines():
        line = line.strip()
        words = line.split()
        if line == ".":
            break
        if line.startswith("ADD TABLE"):
            tables.append(Table(unquoted(words[2])))
        elif line.startswith("ADD FIELD"):
            table = next(t for t in tables if t.name.lower() == unquoted(words[4]).lower())
            kind = KINDS.get(words[6].upper())
            item = [unquoted(words[2]), kind, INITS.get(kind), DEFMASK.get(kind), False]
            table.fields.append(item)
        elif line.startswith("ADD INDEX"):
            table = next(t for t in tables if t.name.lower() == unquoted(words[4]).lower())
            item = Index(unquoted(words[2]))
            table.indexes.append(item)
        elif line.startswith("ADD SEQUENCE"):
            item = [unquoted(words[2]), 0, 1]
            sequences.append(item)
        elif words and words[0] == "INITIAL":
            value = line[len("INITIAL"):].strip()
            if len(item) == 3:
                item[1] = int(value)
            else:
                item[2] = initial_of(item[1], value)
        elif words and words[0] == "INCREMENT":
            item[2] = int(words[1])
        elif words and words[0] == "FORMAT":
            item[3] = unquoted(line[len("FORMAT"):].strip()).encode()
        elif words and words[0] == "MANDATORY":
            item[4] = True
        elif words and words[0] == "UNIQUE":
            item.unique = True
        elif words and words[0] == "PRIMARY":
            table.primary = item
        elif words and words[0] == "WORD":
            item.word = True
        elif words and words[0] == "INDEX-FIELD":
            item.parts.append((table.field(unquoted(words[1]).lower()), words[2].startswith("DESC")))
    for table in tables:
        table.indexes = [i for i in table.indexes if not i.word and all(table.fields[f][1] for f, _ in i.parts)]
        if table.primary not in table.indexes:
            table.primary = table.indexes[0] if table.indexes else None
    return tables, sequences


def initial_of(kind, text):
    """The initial value that a schema file gives a field."""
    text = unquoted(text)
    if text == "?" and kind != 'C':
        return None
    if kind == 'C':
        return ('C', text.encode())
    if kind == 'B':
        return ('B', text.lower() in ("yes", "true"))
    if kind == 'D':
        return ('D', plain_reference.number_in(text.encode()))
    return (kind, int(text))


# ---- the tokens: names with two parts

def lex_qualified(source):
    """As `lex`, with names of two parts."""
    out, places = [], []
    text = bytearray(source)
    i, quote, depth = 0, None, 0
    while i < len(text):
        c = text[i]
        if depth:
            if text[i:i + 2] == b'*/':
                depth -= 1
                i += 2
                continue
            if text[i:i + 2] == b'/*':
                depth += 1
                i += 2
                continue
        elif quote is not None:
            if c == 126:
                i += 2
                continue
            if c == quote:
                quote = None
        elif text[i:i + 2] == b'/*':
            depth = 1
            i += 2
            continue
        elif c in b'"\'':
            quote = c
        elif c in plain_reference.LET:
            j = i
            while j < len(text) and text[j] in plain_reference.NAMECH:
                j += 1
            if j + 1 < len(text) and text[j] == 46 and text[j + 1] in plain_reference.LET:
                text[j] = 35  # the point, as a sign that stands in names
                places.append((i, j - i))
                i = j + 1
                while i < len(text) and text[i] in plain_reference.NAMECH:
                    i += 1
                continue
            i = j
            continue
        elif c in plain_reference.DIG:
            while i < len(text) and text[i] in plain_reference.DIG:
                i += 1
            continue
        i += 1
    lines = [0]
    for n, c in enumerate(source):
        if c == 10:
            lines.append(n + 1)
    where = {}
    for start, length in places:
        line = max(k for k, s in enumerate(lines) if s <= start)
        where[(line + 1, start - lines[line] + 1)] = length
    for kind, what, place in lex(bytes(text)):
        if place in where:
            length = where[place]
            out.append(('Q', (what[:length], what[length + 1:]), place))
        else:
            out.append((kind, what, place))
    return out


# ---- the source

class BufferName:
    """A buffer of a procedure: its name as it is spelled, its table, and its number."""

    def __init__(self, spelled, table, number):
        self.spelled, self.table, self.number = spelled, table, number
        self.references = []


class RecordBlock(Block):
    """A block with what it reads, the buffers that it scopes, and whether it starts a transaction."""

    def __init__(self):
        super().__init__()
        self.fetch, self.strong, self.scoped = None, [], []
        self.starts_here = False

    @property
    def starts(self):
        return self.starts_here

    @property
    def iterates(self):
        return self.kind in ('REPEAT', 'FOR') or self.to is not None or self.wh is not None


class RecordParser(Parser):
    """Reads a source twice: first for the buffers that each procedure names, then for its meaning."""

    def __init__(self, source, schema):
        self.tables, self.sequences = schema
        toks = lex_qualified(source)
        self.scanning, self.named = True, {}
        super().__init__(toks)
        self.program()
        named = self.named
        super().__init__(toks)
        self.scanning, self.named = False, named
        for names in named.values():
            for buffer in names.values():
                buffer.references = []
        self.main = self.program()
        self.settle_scopes()

    def new_block(self, kind):
        b = RecordBlock()
        b.kind = kind
        return b

    # -- buffers

    def buffers_here(self):
        return self.named.setdefault(self.proc, {})

    def table_named(self, name):
        return next((n for n, t in enumerate(self.tables) if t.name.lower() == name), None)

    def buffer(self, name, kind='free', in_block=None):
        """The buffer of that name, noting the reference."""
        name = name.lower()
        here = self.buffers_here()
        if name not in here:
            table = self.table_named(name)
            if table is None or not self.scanning:
                raise Refused('Y1', self.t[self.i - 1][2])
            here[name] = BufferName(self.tables[table].name, table, len(here))
        found = here[name]
        if not self.scanning:
            around = [b.block if isinstance(b, HeadStart) else b for b in self.blocks]
            found.references.append((kind, around + ([in_block] if in_block else [])))
        return found

    def is_buffer(self, name):
        return name in self.buffers_here() or self.table_named(name) is not None

    def field(self, buffer, name):
        n = self.tables[buffer.table].field(name.lower())
        if n is None:
            raise Refused('Y1', self.t[self.i - 1][2])
        return ('FIELD', buffer, n)

    def lookup(self, nm, place):
        for scope in reversed(self.scope):
            if nm in scope:
                return scope[nm]
        if self.scanning:
            return Var(nm, 'C', True, None, b'x(8)', False)
        raise Refused('Y1', place)

    def variable_or_field(self, nm, place):
        """A variable, else the field of the one buffer that has it."""
        for scope in reversed(self.scope):
            if nm in scope:
                return ('VAR', scope[nm])
        if self.scanning:
            return ('VAR', self.lookup(nm, place))
        have = [b for b in self.buffers_here().values() if b.makes_known and self.tables[b.table].field(nm) is not None]
        if len(have) != 1:
            raise Refused('Y1' if not have else 'Y2', place)
        self.buffer(next(k for k, b in self.buffers_here().items() if b is have[0]))
        return self.field(have[0], nm)

    # -- expressions

    def primary(self):
        t = self.peek()
        if t[0] == 'Q':
            self.take()
            return self.field(self.known(self.buffer(t[1][0])), t[1][1])
        if t[0] == 'N':
            self.take()
            return self.variable_or_field(t[1].lower(), t[2])
        if self.is_symbol('(') and getattr(self, 'in_where', False):
            self.take()
            e = self.expr()
            self.symbol(')')
            return ('PAREN', e)
        if self.is_keyword('AVAILABLE', 'LOCKED'):
            word = self.take()[1]
            bracketed = self.is_symbol('(') and bool(self.take())
            buffer = self.buffer(self.name())
            if bracketed:
                self.symbol(')')
            return (word, buffer)
        return super().primary()

    def known(self, buffer):
        """The fields of the buffer are known by their names alone."""
        buffer.makes_known = True
        return buffer

    def kind_of(self, e):
        if e[0] == 'FIELD':
            return self.tables[e[1].table].fields[e[2]][1]
        if e[0] == 'PAREN':
            return self.kind_of(e[1])
        if e[0] in ('AVAILABLE', 'LOCKED'):
            return 'B'
        return super().kind_of(e)

    def defmask(self, e):
        if e[0] == 'FIELD':
            return self.tables[e[1].table].fields[e[2]][3]
        return super().defmask(e)

    # -- readings

    def reading_options(self, block=None, statement=False):
        """WHERE, USE-INDEX, locks; for a FIND also NO-WAIT and NO-ERROR."""
        r = dict(where=None, index=None, lock='S', wait=True, quiet=False)
        while True:
            if self.optional('WHERE'):
                self.in_where = True
                if block is not None:
                    r['where'] = self.in_header_of(block)
                else:
                    r['where'] = self.expr()
                self.in_where = False
            elif self.optional('USE-INDEX'):
                r['index'] = self.name()
            elif self.is_keyword('NO-LOCK', 'SHARE-LOCK', 'EXCLUSIVE-LOCK'):
                r['lock'] = dict(N='N', S='S', E='X')[self.take()[1][0]]
            elif statement and self.optional('NO-WAIT'):
                r['wait'] = False
            elif statement and self.optional('NO-ERROR'):
                r['quiet'] = True
            else:
                return r

    def reading(self, buffer, options):
        """The reading with its index and its bracket."""
        table = self.tables[buffer.table]
        index = table.primary
        if options['index'] is not None:
            index = next(i for i in table.indexes if i.name.lower() == options['index'])
        parts = []

        def conjuncts(e):
            if e is None:
                return
            if e[0] == 'AND':
                conjuncts(e[1])
                conjuncts(e[2])
            else:
                parts.append(e)
        conjuncts(options['where'])
        bracket = []
        for field, _ in (index.parts if index else []):
            value = next((p[2] for p in parts if p[0] == '=' and p[1][:1] == ('FIELD',) and p[1][1] is buffer and p[1][2] == field and not names(p[2], buffer)), None)
            if value is None:
                break
            bracket.append(value)
        return dict(options, buffer=buffer, index=index, bracket=bracket)

    # -- blocks

    def block(self, label):
        b = self.new_block('DO')
        b.label = label
        if self.optional('FOR'):
            b.kind = 'FOR'
            word = self.take()[1]
            name = self.name()
            buffer = self.known(self.buffer(name, 'weak', b))
            options = self.reading_options(b)
            b.fetch = (word, options, buffer)
        else:
            if self.optional('REPEAT'):
                b.kind = 'REPEAT'
            else:
                self.keyword('DO')
            if self.optional('FOR'):
                while True:
                    b.strong.append(self.known(self.buffer(self.name(), 'strong', b)))
                    if not self.is_symbol(','):
                        break
                    self.take()
        self.head(b)
        if b.fetch:
            b.fetch = (b.fetch[0], self.reading(b.fetch[2], b.fetch[1]))
        return ('BLOCK', b)

    def head(self, b):
        """The rest of a header, the body and END, as the plain reference reads them."""
        if self.peek()[0] == 'N' and self.peek(1)[:2] == ('S', '='):
            place = self.peek()[2]
            v = self.lookup(self.name(), place)
            self.symbol('=')
            start = self.in_block(b)
            self.keyword('TO')
            end = self.in_header_of(b)
            by = self.in_block(b) if self.optional('BY') else None
            b.to = [v, start, end, by]
        phrases = []
        while not self.is_symbol(':'):
            if self.optional('WHILE'):
                b.wh = self.in_header_of(b)
            elif self.optional('TRANSACTION'):
                b.trans = True
            else:
                self.keyword('ON')
                which = self.take()[1]
                self.keyword('UNDO')
                phrases.append((which, self.i))
                setattr(b, 'on_error' if which == 'ERROR' else 'on_endkey', ())
                if self.peek()[0] == 'N':
                    self.take()
                if self.is_symbol(','):
                    self.take()
                    if self.is_keyword('RETURN'):
                        self.take()
                        self.optional('ERROR')
                        if not (self.is_symbol(':', ',') or self.is_keyword('WHILE', 'TRANSACTION', 'ON')):
                            self.in_header_of(b)
                    else:
                        self.take()
                        if self.peek()[0] == 'N':
                            self.take()
        end_at = self.i
        self.blocks.append(b)
        if b.retry_in_header:
            self.mark_retry()
        for which, at in phrases:
            self.i = at
            t = self.label_of(self.name()) if self.peek()[0] == 'N' else self.undo_block()
            act = ('RETRY',)
            if self.is_symbol(','):
                self.take()
                act = self.action(t)
            setattr(b, 'on_error' if which == 'ERROR' else 'on_endkey', (t, act))
        self.i = end_at
        self.symbol(':')
        while not self.is_keyword('END'):
            self.stmt_into(b.body)
        self.take()
        self.symbol('.')
        self.blocks.pop()

    def in_block(self, b):
        """An expression of the header whose RETRY is that of the block around."""
        outer = self.blocks
        self.blocks = outer + [HeadStart(b)]
        e = self.expr()
        self.blocks = outer
        return e

    # -- statements

    def target(self):
        """A variable or a field, as the target of a value."""
        t = self.take()
        if t[0] == 'Q':
            return self.field(self.known(self.buffer(t[1][0])), t[1][1])
        return self.variable_or_field(t[1].lower(), t[2])

    def pair(self):
        to = self.target()
        self.symbol('=')
        if self.is_keyword('NEXT-VALUE', 'CURRENT-VALUE'):
            word = self.take()[1]
            self.symbol('(')
            name = self.name()
            self.symbol(')')
            return (to, ('SEQUENCE', word, next((n for n, q in enumerate(self.sequences) if q[0].lower() == name))))
        return (to, self.expr())

    def stmt(self):
        if self.is_keyword('FOR'):
            return self.block(None)
        if self.peek()[0] == 'Q':
            pairs = [self.pair()]
            q = self.optional('NO-ERROR')
            self.symbol('.')
            return ('ASSIGN', pairs, q)
        if self.optional('ASSIGN'):
            pairs = []
            while self.peek()[0] in 'NQ':
                pairs.append(self.pair())
            q = self.optional('NO-ERROR')
            self.symbol('.')
            return ('ASSIGN', pairs, q)
        if self.optional('FIND'):
            word = self.take()[1] if self.is_keyword('FIRST', 'LAST', 'NEXT', 'PREV', 'CURRENT') else 'ONLY'
            buffer = self.known(self.buffer(self.name()))
            options = self.reading_options(statement=True)
            self.symbol('.')
            return ('FIND', word, self.reading(buffer, options), options['quiet'])
        for word in ('CREATE', 'DELETE', 'RELEASE'):
            if self.optional(word):
                buffer = self.known(self.buffer(self.name()))
                q = self.optional('NO-ERROR')
                self.symbol('.')
                return (word, buffer, q)
        if self.optional('IMPORT'):
            n, targets = self.stream(), []
            while True:
                if self.is_symbol('^'):
                    self.take()
                    targets.append(None)
                elif self.peek()[0] == 'N' and self.names_buffer():
                    buffer = self.known(self.buffer(self.name()))
                    targets += [('FIELD', buffer, f) if d[1] else None for f, d in enumerate(self.tables[buffer.table].fields)]
                elif self.peek()[0] in 'NQ':
                    targets.append(self.target())
                else:
                    break
            q = self.optional('NO-ERROR')
            self.symbol('.')
            return ('IMPORT', n, targets, q)
        if self.is_keyword('EXPORT'):
            at = self.i
            self.take()
            n = self.stream()
            if self.peek()[0] == 'N' and self.names_buffer() and self.peek(1)[:2] == ('S', '.'):
                buffer = self.known(self.buffer(self.name()))
                self.symbol('.')
                return ('EXPORT BUFFER', n, buffer)
            self.i = at
        return super().stmt()

    def names_buffer(self):
        nm = self.peek()[1].lower()
        return not any(nm in scope for scope in self.scope) and self.is_buffer(nm)

    def define(self):
        if self.peek(1)[:2] == ('K', 'BUFFER'):
            self.take()
            self.take()
            spelled = self.take()[1]
            self.keyword('FOR')
            table = self.table_named(self.name())
            self.symbol('.')
            if self.scanning:
                here = self.buffers_here()
                here[spelled.lower()] = BufferName(spelled, table, len(here))
                here[spelled.lower()].makes_known = True
            return None
        return super().define()

    # -- scopes and transactions

    def settle_scopes(self):
        """The block that scopes each buffer, and the blocks that start a transaction."""
        mains = {None: self.main} | {nm: p[0] for nm, p in self.procs.items()}
        for proc, names_here in self.named.items():
            for buffer in sorted(names_here.values(), key=lambda b: b.number):
                own = [(kind, blocks) for kind, blocks in buffer.references]
                heads = {blocks[-1]: kind for kind, blocks in own if kind != 'free'}
                for kind, blocks in own:
                    if kind != 'free' and any(b in heads for b in blocks[:-1]):
                        outer = next(b for b in reversed(blocks[:-1]) if b in heads)
                        raise Refused('S1' if kind == 'weak' and heads[outer] == 'weak' else 'S3', (0, 0))
                free = [blocks for kind, blocks in own if kind == 'free' and not any(b in heads for b in blocks)]
                scope = None
                if free:
                    common = free[0]
                    for blocks in free[1:]:
                        common = [a for a, b in zip(common, blocks) if a is b]
                    holders = [b for b in common if b.kind != 'DO' or b.strong]
                    scope = holders[-1]
                    scope.scoped.append(buffer)
                for kind, blocks in own:
                    if kind == 'free' or blocks[-1] is scope:
                        continue
                    if scope is not None and any(b is scope for b in blocks):
                        if kind == 'strong':
                            raise Refused('S2', (0, 0))
                        continue
                    if buffer not in blocks[-1].scoped:
                        blocks[-1].scoped.append(buffer)
        for main in mains.values():
            self.settle_block(main)

    def settle_block(self, b):
        direct = b.fetch is not None and b.fetch[1]['lock'] == 'X'
        direct = self.updates(b.body) or direct
        b.starts_here = b.trans or (b.undo and direct)
        b.scoped.sort(key=lambda x: x.number)
        return direct and not b.starts_here

    def updates(self, body):
        """Whether a body directly updates."""
        found = False
        for st in body:
            if st[0] == 'BLOCK':
                found |= self.settle_block(st[1])
            elif st[0] == 'IF':
                found |= self.updates(st[2]) | self.updates(st[3])
            elif st[0] in ('CREATE', 'DELETE'):
                found = True
            elif st[0] == 'ASSIGN':
                found |= any(to[0] == 'FIELD' for to, _ in st[1])
            elif st[0] == 'IMPORT':
                found |= any(to is not None and to[0] == 'FIELD' for to in st[2])
            elif st[0] == 'FIND':
                found |= st[2]['lock'] == 'X'
        return found


class HeadStart:
    """A block around the start value of its TO, or its BY, whose RETRY is not that block's."""

    undo = in_header = iterates = False
    label = None

    def __init__(self, block):
        self.block, self.kind = block, 'DO'


BufferName.makes_known = False


def names(e, buffer):
    """Whether an expression names the buffer."""
    if isinstance(e, BufferName):
        return e is buffer
    return isinstance(e, (tuple, list)) and any(names(x, buffer) for x in e)


# ---- the database, with one client

class Database:
    """Rows by identity, each a table, its values and its slots; a list of copies, one a level."""

    def __init__(self, schema):
        self.tables, sequences = schema
        self.rows, self.levels, self.touched = {}, [], set()
        self.sequences = [[q[1], q[2]] for q in sequences]
        self.committed = [q[1] for q in sequences]

    def close(self):
        """Leaves what the next command finds: the committed rows, and the sequence values of the last commit."""
        if self.levels:
            self.rows = self.levels[0]
        self.levels, self.touched = [], set()
        for sequence, value in zip(self.sequences, self.committed):
            sequence[0] = value

    def enter(self):
        self.levels.append(dict(self.rows))

    def back(self, depth):
        self.rows = dict(self.levels[depth - 1])
        del self.levels[depth:]

    def leave(self):
        self.levels.pop()
        if not self.levels:
            self.touched = set()
            self.committed = [value for value, _ in self.sequences]

    def key(self, index, values):
        return [values[f] for f, _ in index.parts]

    def free(self, count):
        """The lowest slots that no row has and no open transaction has touched."""
        taken = self.touched.union(*(slots for _, _, slots in self.rows.values()))
        found, at = [], FIRST_ROW
        while len(found) < count:
            if at not in taken:
                found.append(at)
            at += 1
        return found

    def refusal(self, table, values, row):
        """The index whose key is too long, or has a duplicate, with that row."""
        for index in self.tables[table].indexes:
            if sum(part_size(v) for v in self.key(index, values)) > MAX_KEY:
                return ('KeyTooLong', index, None)
        for index in self.tables[table].indexes:
            key = self.key(index, values)
            if not index.unique or None in key:
                continue
            for other, (t, vs, _) in sorted(self.rows.items()):
                if t == table and other != row and all(v is not None and order(v, k) == 0 for v, k in zip(self.key(index, vs), key)):
                    return ('Duplicate', index, other)
        return None

    def insert(self, table, values):
        slots = self.free(fragments(values))
        self.touched.update(slots)
        self.rows[slots[0]] = (table, list(values), slots)
        return slots[0]

    def put(self, row, values):
        table, _, slots = self.rows[row]
        count = fragments(values)
        self.touched.update(slots)
        if count > len(slots):
            more = self.free(count - len(slots))
            self.touched.update(more)
            slots = slots + more
        self.rows[row] = (table, list(values), slots[:count])

    def delete(self, row):
        self.touched.update(self.rows[row][2])
        del self.rows[row]

    def next(self, table, index, prefix, cursor, forward):
        """The next row in the order of the index whose leading values are the prefix, with its place there."""
        found = None
        for row, (t, values, _) in self.rows.items():
            if t != table:
                continue
            key = self.key(index, values) if index else []
            if not all(level(v, w) for v, w in zip(key, prefix)):
                continue
            place = ([Part(v, d) for v, (_, d) in zip(key, index.parts)] if index else []) + [row]
            if cursor is not None and not (place > cursor if forward else place < cursor):
                continue
            if found is None or (place < found[0] if forward else place > found[0]):
                found = (place, row, values)
        return found


class Part:
    """A component of a key in the order of its index: `?` is above all values."""

    def __init__(self, value, descending):
        self.value, self.descending = value, descending

    def compare(self, other):
        a, b = self.value, other.value
        found = 0 if a is None and b is None else 1 if a is None else -1 if b is None else order(a, b)
        return -found if self.descending else found

    def __eq__(self, other):
        return self.compare(other) == 0

    def __lt__(self, other):
        return self.compare(other) < 0


def level(a, b):
    """Whether two values are equal in an index, where `?` is level with itself."""
    return a is None and b is None if a is None or b is None else order(a, b) == 0


def part_size(v):
    """The bytes of a component of a key."""
    if v is None:
        return 1
    if v[0] == 'C':
        text = plain_reference.fold(v[1])
        return 3 + len(text) + text.count(b'\0')
    return dict(I=9, L=9, D=17, B=2, T=5)[v[0]]


def row_size(values):
    """The bytes of a row."""
    return sum(1 if v is None else 1 + (2 + len(v[1]) if v[0] == 'C' else dict(I=4, L=8, D=16, B=1, T=4)[v[0]]) for v in values)


def fragments(values):
    return max(1, -(-row_size(values) // FRAGMENT))


# ---- the client

class Buffer:
    """A buffer of an open procedure. Its content is None, ('R', row, values, held, made), or ('P', values, since, made)."""

    def __init__(self, name):
        self.name, self.table = name, name.table
        self.content, self.spot, self.locked = None, None, False


class RecordClient(Client):
    """Runs a source over a database of its own."""

    def __init__(self, schema, src, units, inp=b'', files=None, db=None):
        self.parser = RecordParser(src, schema)
        self.main = self.parser.main
        self.units, self.inp, self.files = (units, inp, files or {})
        self.level, self.status, self.retval = (0, False, b'')
        self.sections = [[None, bytearray()]]
        self.size = self.at = self.made = 0
        self.streams = [dict(out=None, inp=None, at=0) for _ in range(1 + getattr(self.parser, 'nstreams', 0))]
        self.ops, self.frames = [], []
        self.db = db or Database(schema)

    def new_frame(self, proc):
        f = plain_reference.new_frame(self.parser.allvars[proc])
        f.buffers = [Buffer(b) for b in sorted(self.parser.named.get(proc, {}).values(), key=lambda b: b.number)]
        return f

    def own(self, name):
        return self.frames[-1].buffers[name.number]

    def everywhere(self):
        """Every buffer in buffer order: the outermost procedure first."""
        return [(f, b) for f in self.frames for b in f.buffers]

    def table_name(self, buffer):
        return self.db.tables[buffer.table].name

    def copy(self):
        """A copy of the undoable variables and of the pending records, with the number of CREATEs."""
        return (self.made, [(f, [f[v.number] for v in f.vars], [frozen(b.content) for b in f.buffers]) for f in self.frames])

    def restore(self, copy):
        for f, old, contents in copy[1]:
            for v in f.vars:
                if v.undo:
                    f[v.number] = old[v.number]
            for b, c in zip(f.buffers, contents):
                if c is not None and c[0] == 'P':
                    b.content = thawed(c)

    # -- expressions

    def evaluate(self, e, retry):
        if e[0] == 'FIELD':
            b = self.own(e[1])
            if b.content is None:
                raise Fault('no record in buffer ' + b.name.spelled)
            return values_in(b.content)[e[2]]
        if e[0] == 'PAREN':
            return self.evaluate(e[1], retry)
        if e[0] == 'AVAILABLE':
            return ('B', self.own(e[1]).content is not None)
        if e[0] == 'LOCKED':
            return ('B', self.own(e[1]).locked)
        return super().evaluate(e, retry)

    # -- pending records and release

    def storable(self, buffer, values):
        table = self.db.tables[buffer.table]
        for f, v in zip(table.fields, values):
            if f[4] and v is None:
                raise Fault('field %s of %s is mandatory' % (f[0], table.name))
        if row_size(values) > MAX_ROW:
            raise Fault('record of %s too long' % table.name)

    def refuse(self, op, buffer, found):
        kind, index, row = found
        self.operation(op, kind + (' %d' % row if row is not None else ''))
        text = 'key too long' if kind == 'KeyTooLong' else 'duplicate key'
        raise Fault('%s in index %s of %s' % (text, index.name, self.table_name(buffer)))

    def enter(self, buffer):
        c = buffer.content
        if c is None or c[0] == 'R':
            return
        self.storable(buffer, c[1])
        op = 'Insert ' + self.table_name(buffer)
        found = self.db.refusal(buffer.table, c[1], None)
        if found:
            self.refuse(op, buffer, found)
        if self.units == 0:
            raise Stop('Budget')
        row = self.db.insert(buffer.table, c[1])
        self.operation(op, 'Inserted %d' % row)
        buffer.content = ('R', row, c[1], 'X', c[3])

    def locked_rows(self, but=()):
        return {b.content[1] for f, b in self.everywhere() if not (f is self.frames[-1] and b.name in but) and b.content and b.content[0] == 'R' and b.content[3] != 'N'}

    def drop(self, buffer):
        c = buffer.content
        held = c is not None and c[0] == 'R' and c[3] != 'N'
        alone = held and self.level == 0 and c[1] not in self.locked_rows([buffer.name])
        buffer.content = None
        if alone:
            self.operation('Drop %d' % c[1], 'Done')

    def release(self, buffer):
        self.enter(buffer)
        self.drop(buffer)

    # -- reading

    def shows(self, buffer, row, values, held='N'):
        buffer.content = ('R', row, list(values), held, None)

    def passes_test(self, r, retry):
        """Whether WHERE holds of the record in the buffer, which is emptied otherwise."""
        if r['where'] is None:
            return True
        buffer = self.own(r['buffer'])
        try:
            holds = self.evaluate(r['where'], retry) == ('B', True)
        except Fault:
            buffer.content = None
            raise
        if not holds:
            buffer.content = None
        return holds

    def ask_next(self, r, prefix, cursor, forward):
        buffer = self.own(r['buffer'])
        found = self.db.next(buffer.table, r['index'], prefix, cursor, forward)
        self.operation('Next ' + self.table_name(buffer), 'AtEnd' if found is None else 'Found %d' % found[1])
        return found

    def take(self, r, row, retry, wait):
        """Locks the row, reads it again and tests it; whether it is taken."""
        buffer = self.own(r['buffer'])
        self.operation('Lock %d %s %s' % (row, r['lock'], 'W' if wait else 'N'), 'Granted' if row in self.db.rows else 'Gone')
        if row not in self.db.rows:
            buffer.content = None
            return False
        return self.read(r, row, retry)

    def read(self, r, row, retry):
        buffer = self.own(r['buffer'])
        there = row in self.db.rows
        self.operation('Get %d' % row, 'Row' if there else 'Gone')
        if not there:
            buffer.content = None
            return False
        self.shows(buffer, row, self.db.rows[row][1])
        if not self.passes_test(r, retry):
            return False
        self.shows(buffer, row, self.db.rows[row][1], r['lock'])
        return True

    def search(self, r, retry, cursor, forward, only=False, wait=True):
        """The place of the record that is found and taken, or None."""
        buffer = self.own(r['buffer'])
        prefix = [self.evaluate(e, retry) for e in r['bracket']]
        while True:
            if self.units == 0:
                raise Stop('Budget')
            found = self.ask_next(r, prefix, cursor, forward)
            if found is None:
                buffer.spot = None
                return None
            cursor, row, values = found
            self.shows(buffer, row, values)
            buffer.spot = (r['index'], cursor)
            if not self.passes_test(r, retry):
                continue
            if only:
                self.expect_no_second(r, prefix, cursor, retry)
                self.shows(buffer, row, values)
            if r['lock'] == 'N' or self.take(r, row, retry, wait):
                return cursor

    def expect_no_second(self, r, prefix, cursor, retry):
        buffer = self.own(r['buffer'])
        while True:
            found = self.ask_next(r, prefix, cursor, True)
            if found is None:
                return
            cursor, row, values = found
            self.shows(buffer, row, values)
            if self.passes_test(r, retry):
                buffer.content = None
                raise Fault('more than one record in ' + buffer.name.spelled)

    def find(self, word, r, retry):
        buffer = self.own(r['buffer'])
        if word == 'CURRENT':
            return self.find_current(r)
        buffer.locked = False
        self.release(buffer)
        start = buffer.spot[1] if word in ('NEXT', 'PREV') and buffer.spot and buffer.spot[0] is r['index'] else None
        found = self.search(r, retry, start, word not in ('LAST', 'PREV'), word == 'ONLY', r['wait'])
        if found is not None:
            return ('N',)
        if word in ('NEXT', 'PREV'):
            return ('ENDKEY', (None, []))
        raise Fault('no record found in ' + buffer.name.spelled)

    def find_current(self, r):
        buffer = self.own(r['buffer'])
        c = buffer.content
        if c is None:
            raise Fault('no record in buffer ' + buffer.name.spelled)
        buffer.locked = False
        if c[0] == 'P':
            return ('N',)
        there = c[1] in self.db.rows
        if r['lock'] != 'N':
            self.operation('Lock %d %s %s' % (c[1], r['lock'], 'W' if r['wait'] else 'N'), 'Granted' if there else 'Gone')
        if there or r['lock'] == 'N':
            self.operation('Get %d' % c[1], 'Row' if there else 'Gone')
        if not there:
            buffer.content = None
            raise Fault('no record found in ' + buffer.name.spelled)
        buffer.content = ('R', c[1], list(self.db.rows[c[1]][1]), r['lock'], c[4])
        return ('N',)

    def fetch(self, b, turn_retry, retry, own):
        """The record of a FOR: its place, or None."""
        word, r = b.fetch
        buffer = self.own(r['buffer'])
        buffer.locked = False
        self.release(buffer)
        forward = word != 'LAST'
        if own is None:
            return self.search(r, retry, None, forward)
        if turn_retry:
            row = own[-1]
            if self.read(r, row, retry) if r['lock'] == 'N' else self.take(r, row, retry, True):
                return own
        elif word != 'EACH':
            return None
        return self.search(r, retry, own, forward)

    # -- changes

    def upgrade(self, buffer):
        c = buffer.content
        if c is None or c[0] == 'P' or c[3] == 'X':
            return
        if c[3] == 'N':
            raise Fault('record of %s is read NO-LOCK' % buffer.name.spelled)
        there = c[1] in self.db.rows
        self.operation('Lock %d X W' % c[1], 'Granted' if there else 'Gone')
        if not there:
            raise Fault('record of %s is gone' % buffer.name.spelled)
        buffer.content = c[:3] + ('X',) + c[4:]

    def settle(self, buffer):
        c = buffer.content
        if c is None:
            return
        if c[0] == 'P':
            unique = [i for i in self.db.tables[buffer.table].indexes if i.unique]
            if all(any(f in c[2] for f, _ in i.parts) for i in unique):
                self.enter(buffer)
            return
        self.storable(buffer, c[2])
        op = 'Put %d' % c[1]
        if c[1] not in self.db.rows:
            self.operation(op, 'Gone')
            raise Fault('record of %s is gone' % buffer.name.spelled)
        found = self.db.refusal(buffer.table, c[2], c[1])
        if found:
            self.refuse(op, buffer, found)
        if self.units == 0:
            raise Stop('Budget')
        self.db.put(c[1], c[2])
        self.operation(op, 'Done')

    def store(self, to, v):
        """Gives a target a value."""
        if to[0] == 'VAR':
            self.put(to[1], fit(v, to[1].kind))
            return
        b = self.own(to[1])
        if b.content is None:
            raise Fault('no record in buffer ' + b.name.spelled)
        v = fit(v, self.db.tables[b.table].fields[to[2]][1])
        c = thawed(frozen(b.content))
        values_in(c)[to[2]] = v
        if c[0] == 'P':
            c[2].append(to[2])
        b.content = c

    def value_for(self, e, retry):
        if e[0] != 'SEQUENCE':
            return self.evaluate(e, retry)
        q = self.db.sequences[e[2]]
        name = self.parser.sequences[e[2]][0]
        if e[1] == 'NEXT-VALUE':
            if self.units == 0:
                raise Stop('Budget')
            if not -2**63 <= q[0] + q[1] < 2**63:
                self.operation('NextValue %s' % name, 'SequenceEnd')
                raise Fault(RANGE)
            q[0] += q[1]
        self.operation('%s %s' % ('NextValue' if e[1] == 'NEXT-VALUE' else 'CurrentValue', name), 'Value %d' % q[0])
        return ('L', q[0])

    def assign(self, pairs, retry):
        changed = []
        for to, _ in pairs:
            if to[0] == 'FIELD' and to[1] not in changed:
                changed.append(to[1])
        buffers = [self.own(b) for b in changed]
        old = [frozen(b.content) for b in buffers]

        def back(from_):
            for b, c in list(zip(buffers, old))[from_:]:
                if c is not None and b.content is not None and c[0] == b.content[0]:
                    c = thawed(c)
                    b.content = (c[0], b.content[1], c[2], b.content[3], b.content[4]) if c[0] == 'R' else (c[0], c[1], c[2], b.content[3])
        try:
            for to, e in pairs:
                self.store(to, self.value_for(e, retry))
            for b in buffers:
                self.upgrade(b)
        except Fault:
            back(0)
            raise
        for n, b in enumerate(buffers):
            try:
                self.settle(b)
            except Fault:
                back(n)
                raise
        return ('N',)

    def delete(self, buffer):
        c = buffer.content
        if c is None:
            raise Fault('no record in buffer ' + buffer.name.spelled)
        if c[0] == 'R':
            self.upgrade(buffer)
            there = c[1] in self.db.rows
            if self.units == 0:
                raise Stop('Budget')
            if there:
                self.db.delete(c[1])
            self.operation('Delete %d' % c[1], 'Done' if there else 'Gone')
            if not there:
                raise Fault('record of %s is gone' % buffer.name.spelled)
        buffer.content = None
        return ('N',)

    def create(self, buffer):
        self.release(buffer)
        self.made += 1
        buffer.content = ('P', [f[2] for f in self.db.tables[buffer.table].fields], [], self.made)
        return ('N',)

    # -- statements

    def statement(self, st, retry, procs):
        if st[0] in ('FIND', 'CREATE', 'DELETE', 'RELEASE'):
            quiet = st[-1]
            self.unit()
            if quiet:
                self.status = False
            try:
                c = self.does_record(st, retry)
            except Fault as f:
                c = ('FAULT', f.text)
            if c[0] == 'ENDKEY' and quiet:
                c = ('FAULT', None)
            return self.handled(c, quiet)
        c = super().statement(st, retry, procs)
        return (c[0], (None, [])) if c[0] in ('RAISE', 'ENDKEY') and c[1] is None else c

    def handled(self, c, quiet):
        if c[0] != 'FAULT':
            return c
        if quiet:
            self.status = True
            return ('N',)
        if c[1] is not None:
            self.complain(c[1])
        return ('RAISE', (None, []))

    def does_record(self, st, retry):
        if st[0] == 'FIND':
            return self.find(st[1], st[2], retry)
        buffer = self.own(st[1])
        if st[0] == 'CREATE':
            return self.create(buffer)
        if st[0] == 'DELETE':
            return self.delete(buffer)
        self.release(buffer)
        return ('N',)

    def does(self, st, retry, procs):
        if st[0] == 'ASSIGN':
            return self.assign(st[1], retry)
        if st[0] == 'EXPORT BUFFER':
            b = self.own(st[2])
            if b.content is None:
                raise Fault('no record in buffer ' + b.name.spelled)
            self.write(self.streams[st[1]]['out'], b' '.join(plain_reference.export(v) for v in values_in(b.content)) + b'\n')
            return ('N',)
        c = super().does(st, retry, procs)
        if c[0] == 'UNDO' and c[4] is None:
            return c[:4] + ((None, []),)
        return c

    def imports(self, st, retry):
        targets = [KindOf(to, self) if to is not None else None for to in st[2]]
        given = []
        self.put_aside = given
        c = super().imports(('IMPORT', st[1], targets, st[3]), retry)
        self.put_aside = None
        if c[0] != 'N':
            return c
        return self.assign([(to.target, ('LIT', v)) for to, v in given], retry)

    def put(self, v, x):
        if isinstance(v, KindOf):
            self.put_aside.append((v, x))
        else:
            super().put(v, x)

    # -- blocks

    def block(self, b, outer, procs, runner=None):
        start, by, own = None, ('L', 1), None
        if b.to:
            start = (self.evaluate(b.to[1], outer),)
            if b.to[3] is not None:
                by = self.evaluate(b.to[3], outer)
        turn_retry = False
        while True:
            self.unit()
            retry = turn_retry if b.undo else outer
            if b.to and not turn_retry and not self.reaches(b, start, by, retry):
                return ('N',)
            start = None
            if b.wh is not None and self.evaluate(b.wh, retry) != ('B', True):
                return ('N',)
            lvl = None
            if b.undo if self.level else b.starts:
                self.operation('Enter', 'Done')
                self.db.enter()
                lvl = (self.level + 1, self.copy())
                self.level += 1
            if b.fetch:
                try:
                    found = self.fetch(b, turn_retry, retry, own)
                except Fault:
                    self.goes_back(lvl, b.scoped)
                    raise
                if found is None:
                    self.own(b.fetch[1]['buffer']).content = None
                    if lvl:
                        self.leave(b.scoped)
                    return ('N',)
                own = found
            c = self.ends(b, lvl, turn_retry, self.body(b.body, retry, procs))
            if c[0] == 'AGAIN':
                turn_retry = c[1]
                continue
            return c

    def reaches(self, b, start, by, retry):
        """Sets the loop variable, and whether it is not past its end."""
        v = b.to[0]
        if start:
            x = start[0]
        else:
            x = self.get(v)
            if x is None or by is None:
                x = None
            elif 'D' in (x[0], by[0]):
                x = ('D', plain_reference.i128(plain_reference.scaled(x) + plain_reference.scaled(by)))
            else:
                x = ('L', plain_reference.i64(x[1] + by[1]))
        self.put(v, fit(x, v.kind))
        end = self.evaluate(b.to[2], retry)
        down = by is not None and by[1] < 0
        cur = self.get(v)
        if cur is None or end is None:
            return cur is None and end is None
        return order(cur, end) >= 0 if down else order(cur, end) <= 0

    def leave(self, but):
        self.operation('Leave %d' % len(self.locked_rows(but)), 'Committed' if self.level == 1 else 'Done')
        self.db.leave()
        self.level -= 1
        if self.level == 0:
            for _, b in self.everywhere():
                if b.content and b.content[0] == 'R' and b.content[3] == 'X':
                    b.content = b.content[:3] + ('S',) + b.content[4:]

    def goes_back(self, lvl, but):
        if lvl is None:
            return
        depth, copy = lvl
        self.operation('Back %d' % depth, 'Done')
        self.db.back(depth)
        self.level = depth
        self.restore(copy)
        for f, b in self.everywhere():
            if not (f is self.frames[-1] and b.name in but):
                self.refresh(b, copy[0])
        self.leave(but)
        for name in but:
            self.own(name).content = None

    def refresh(self, b, made):
        c = b.content
        if c is None:
            return
        if c[0] == 'P':
            if c[3] > made:
                b.content = None
            return
        if c[4] is not None and c[4] > made:
            b.content = None
            return
        there = c[1] in self.db.rows
        self.operation('Get %d' % c[1], 'Row' if there else 'Gone')
        b.content = ('R', c[1], list(self.db.rows[c[1]][1]), c[3], c[4]) if there else None

    def closing(self, b, lvl):
        for name in b.scoped:
            self.enter(self.own(name))
        for name in b.scoped:
            self.release(self.own(name))
        if lvl and lvl[0] == 1:
            for _, x in self.everywhere():
                self.enter(x)
        if lvl:
            self.leave(b.scoped)

    def ends(self, b, lvl, turn_retry, c):
        if c[0] == 'UNDO':
            return self.undo_comes(b, lvl, c)
        if c[0] == 'RAISE':
            return self.error_comes(b, lvl, turn_retry, c[1])
        if c[0] == 'ENDKEY':
            if b.on_endkey:
                t, act = b.on_endkey
            elif b.kind != 'DO':
                t, act = (b, ('LEAVE', b))
            else:
                return self.passes(b, ('ENDKEY', c[1]), ('ENDKEY', with_level(b, lvl, c[1])))
            return self.undo_comes(b, lvl, ('UNDO', t, act, turn_retry, c[1]))
        try:
            self.closing(b, lvl)
        except Fault as f:
            self.complain(f.text)
            return self.error_comes(b, lvl, turn_retry, (None, []))
        return self.after(b, c)

    def error_comes(self, b, lvl, turn_retry, passed):
        if b.undo:
            t, act = b.on_error if b.on_error else (b, ('RETRY',))
            return self.undo_comes(b, lvl, ('UNDO', t, act, turn_retry, passed))
        return self.passes(b, ('RAISE', passed), ('RAISE', with_level(b, lvl, passed)))

    def passes(self, b, ended, left):
        if self.level:
            return left
        for name in b.scoped:
            self.release(self.own(name))
        return ended

    def undo_comes(self, b, lvl, c):
        _, t, act, retry, passed = c
        inner = with_level(b, lvl, passed)
        if t is not b:
            return self.passes(b, c, ('UNDO', t, act, retry, inner))
        self.goes_back(*inner)
        if act[0] == 'RETRY':
            if b.names_retry:
                return ('AGAIN', True)
            act = ('NEXT', b) if b.iterates else ('LEAVE', b)
        elif act[0] == 'RETURN':
            self.retval = self.text_to_return(act[2], retry)
            act = ('RETURN', act[1])
        elif act[0] == 'ERROR':
            act = ('RETURN', True)
        for name in b.scoped:
            self.release(self.own(name))
        return self.after(b, act)

    def run_proc(self, st, retry, depth_left):
        _, nm, args, quiet = st
        b, params, _ = self.parser.procs[nm]
        vals = []
        for (w, e), (_, v) in zip(args, params):
            vals.append(None if w == 'OUTPUT' else fit(self.evaluate(e, retry) if w == 'INPUT' else self.get(e), v.kind))
        if depth_left == 0:
            raise Stop('Depth')
        f = self.new_frame(nm)
        for (w, e), (_, v), x in zip(args, params, vals):
            if w != 'OUTPUT':
                f[v.number] = x
        self.frames.append(f)
        c = self.block(b, False, depth_left - 1)
        self.frames.pop()
        if c[0] == 'N' or c == ('RETURN', False):
            for (w, e), (_, v) in zip(args, params):
                if w != 'INPUT':
                    self.put(e, f[v.number])
            return ('N',)
        return ('FAULT', None) if c == ('RETURN', True) else c

    def run(self):
        self.frames = [self.new_frame(None)]
        try:
            c = self.block(self.main, False, 32)
            end = ('Returned',) if c == ('RETURN', False) else ('Error', self.retval) if c == ('RETURN', True) else ('Normal',)
        except Stop as e:
            end = ('Stop', e.why)
        self.ops.append('End Done')
        return end


class KindOf:
    """The target of an IMPORT with its kind."""

    def __init__(self, target, client):
        self.target = target
        self.kind = client.parser.kind_of(target)


def with_level(b, lvl, passed):
    """What an unwinding has passed, with this iteration: the outermost level, and the buffers that are scoped inside."""
    return (lvl or passed[0], b.scoped + passed[1])


def values_in(content):
    return content[2] if content[0] == 'R' else content[1]


def frozen(c):
    """A content that no later change reaches."""
    return None if c is None else tuple(tuple(x) if isinstance(x, list) else x for x in c)


def thawed(c):
    """A content whose values can be changed."""
    return None if c is None else ('R', c[1], list(c[2])) + c[3:] if c[0] == 'R' else ('P', list(c[1]), list(c[2]), c[3])


def run(schema, src, units, mode='quiet', name='a', inp=b'', files=None, db=None):
    """The report, the lines of the status, and the status of a run over this database, or over an empty one."""
    sys.setrecursionlimit(max(sys.getrecursionlimit(), 100000))
    c = RecordClient(schema_of(schema), src, units, inp, files, db)
    end = c.run()
    c.db.close()
    return plain_reference.report(name, c, mode, end)


def canonical(schema):
    """What two schema files of one database have in common: all but masks and the case of names."""
    tables, sequences = schema_of(schema)
    return (
        [
            (
                t.name.lower(),
                [(f[0].lower(), f[1], f[2], f[4]) for f in t.fields],
                [(i.name.lower(), i.unique, i is t.primary, i.parts) for i in t.indexes],
            )
            for t in tables
        ],
        [(q[0].lower(), q[1], q[2]) for q in sequences],
    )


def dump(db, number):
    """The lines of the table's rows, in the order of its primary index, or of their identities without one."""
    index = db.tables[number].primary

    def place(row):
        parts = [Part(v, d) for v, (_, d) in zip(db.key(index, db.rows[row][1]), index.parts)] if index else []
        return parts + [row]
    rows = sorted((row for row, (t, _, _) in db.rows.items() if t == number), key=place)
    return b''.join(b' '.join(plain_reference.export(v) for v in db.rows[row][1]) + b'\n' for row in rows)
