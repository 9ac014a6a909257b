"""A reference reading of the language without records, for rows of commands.

It was written from docs/language.md and docs/formats.md alone, before the client that it judges, and
shares nothing with it: a source is interpreted over its tree, an UNDO restores whole copies. It reads
well-formed sources; of rules it knows those that it meets while it reads. `run` gives what a command
writes to standard output and standard error, and its status."""

import sys

if __name__ == "__main__" and sys.argv[1:] == ["--help"]:
    print(__doc__.strip())
    sys.exit()

S = 10 ** 10
MAXTEXT = 30000
KEYWORDS = set("""
    PROCEDURE END DO REPEAT FOR EACH FIRST LAST TO BY WHILE TRANSACTION ON ERROR ENDKEY UNDO LEAVE NEXT
    RETRY RETURN WHERE USE-INDEX NO-LOCK SHARE-LOCK EXCLUSIVE-LOCK VARIABLE AS BUFFER STREAM INPUT
    OUTPUT INPUT-OUTPUT PARAMETER CHARACTER INTEGER INT64 DECIMAL LOGICAL DATE NO-UNDO INITIAL FORMAT
    LABEL YES NO TRUE FALSE NO-ERROR ASSIGN NEXT-VALUE CURRENT-VALUE FIND PREV CURRENT NO-WAIT CREATE
    DELETE RELEASE STOP RUN IMPORT EXPORT PUT UNFORMATTED MESSAGE FROM CLOSE APPEND SKIP SPACE IF THEN
    ELSE OR AND NOT EQ NE LT GT LE GE BEGINS MODULO RETURN-VALUE ERROR-STATUS AVAILABLE LOCKED STRING
    SUBSTRING LENGTH ENTRY NUM-ENTRIES YEAR MONTH DAY DEFINE
""".split())
ABBR = dict(DEF='DEFINE', VAR='VARIABLE', PARAM='PARAMETER', PROCE='PROCEDURE', CHAR='CHARACTER', INT='INTEGER', DEC='DECIMAL', LOG='LOGICAL', INIT='INITIAL', TRANS='TRANSACTION', EXCLUSIVE='EXCLUSIVE-LOCK', SHARE='SHARE-LOCK', AVAIL='AVAILABLE')
LET = set(b'abcdefghijklmnopqrstuvwxyzABCDEFGHIJKLMNOPQRSTUVWXYZ')
DIG = set(b'0123456789')
NAMECH = LET | DIG | set(b'#$%&-_')
WS = set(b' \t\n\r\x0c')


def days_of(y, m, d):
    """The number of a day, from 1 January 1970, or None where there is no such day in the years 1 to 9999."""
    def leap(y):
        return y % 4 == 0 and (y % 100 != 0 or y % 400 == 0)
    if not (1 <= y <= 9999 and 1 <= m <= 12):
        return None
    ml = [31, 29 if leap(y) else 28, 31, 30, 31, 30, 31, 31, 30, 31, 30, 31]
    if not 1 <= d <= ml[m - 1]:
        return None
    n = 365 * (y - 1) + (y - 1) // 4 - (y - 1) // 100 + (y - 1) // 400
    n += sum(ml[:m - 1]) + d - 1
    return n - 719162


def parts_of_day(n):
    """The year, month and day of a day number."""
    lo, hi = (1, 9999)
    while lo < hi:
        mid = (lo + hi + 1) // 2
        if days_of(mid, 1, 1) <= n:
            lo = mid
        else:
            hi = mid - 1
    y = lo
    m = max((k for k in range(1, 13) if days_of(y, k, 1) <= n))
    return (y, m, n - days_of(y, m, 1) + 1)


class Refused(Exception):
    """A rule that the source breaks, and its place."""

    def __init__(self, rule, place):
        self.rule, self.place = (rule, place)


def lex(src):
    """The tokens of a source, each a kind, what it denotes and its place: K keyword, N name, V value, S symbol, E end."""
    toks, i, line, col = ([], 0, 1, 1)

    def adv(n):
        nonlocal i, line, col
        for _ in range(n):
            if src[i] == 10:
                line, col = (line + 1, 1)
            else:
                col += 1
            i += 1
    while i < len(src):
        c = src[i]
        if c in WS:
            adv(1)
            continue
        if src[i:i + 2] == b'/*':
            depth, start = (0, (line, col))
            while True:
                if src[i:i + 2] == b'/*':
                    depth += 1
                    adv(2)
                elif src[i:i + 2] == b'*/':
                    depth -= 1
                    adv(2)
                    if depth == 0:
                        break
                elif i >= len(src):
                    raise Refused('L2', start)
                else:
                    adv(1)
            continue
        place = (line, col)
        if c in LET:
            j = i
            while j < len(src) and src[j] in NAMECH:
                j += 1
            name = src[i:j].decode()
            up = ABBR.get(name.upper(), name.upper())
            toks.append(('K', up, place) if up in KEYWORDS else ('N', name, place))
            adv(j - i)
            continue
        if c in DIG:
            j = i
            while j < len(src) and src[j] in DIG:
                j += 1
            k = _date(src, i)
            if k:
                end, m, d, y = k
                dd = days_of(y, m, d)
                if dd is None:
                    raise Refused('L5', place)
                toks.append(('V', ('T', dd), place))
                adv(end - i)
                continue
            if j + 1 < len(src) and src[j] == 46 and (src[j + 1] in DIG):
                k = j + 1
                while k < len(src) and src[k] in DIG:
                    k += 1
                whole, frac = (src[i:j].decode(), src[j + 1:k].decode())
                toks.append(('V', ('D', int(whole) * S + int(frac.ljust(10, '0'))), place))
                adv(k - i)
                continue
            toks.append(('V', ('L', int(src[i:j])), place))
            adv(j - i)
            continue
        if c in b'"\'':
            start, out = (place, bytearray())
            q = c
            adv(1)
            while True:
                if i >= len(src):
                    raise Refused('L3', start)
                c = src[i]
                if c == q:
                    if src[i + 1:i + 2] == bytes([q]):
                        out.append(q)
                        adv(2)
                        continue
                    adv(1)
                    break
                if c == 126:
                    n = src[i + 1:i + 2]
                    o = src[i + 1:i + 4]
                    if len(o) == 3 and all((48 <= x <= 55 for x in o)) and (int(o, 8) <= 255):
                        out.append(int(o, 8))
                        adv(4)
                    elif n == b'n':
                        out.append(10)
                        adv(2)
                    elif n == b't':
                        out.append(9)
                        adv(2)
                    elif n == b'r':
                        out.append(13)
                        adv(2)
                    elif n == b'\n':
                        adv(2)
                    elif n == b'':
                        adv(1)
                    else:
                        out.append(n[0])
                        adv(2)
                    continue
                out.append(c)
                adv(1)
            toks.append(('V', ('C', bytes(out)), place))
            continue
        two = src[i:i + 2]
        if two in (b'<>', b'<=', b'>='):
            toks.append(('S', two.decode(), place))
            adv(2)
            continue
        if c in b':,()=<>+-*/?^':
            toks.append(('S', chr(c), place))
            adv(1)
            continue
        if c == 46 and (i + 1 == len(src) or src[i + 1] in WS or src[i + 1:i + 3] == b'/*'):
            toks.append(('S', '.', place))
            adv(1)
            continue
        raise Refused('L1', place)
    toks.append(('E', None, (line, col)))
    return toks


def _date(src, i):
    """The end, month, day and year of a date that begins at the place, if one does."""
    def digits(j, most):
        k = j
        while k < len(src) and k - j < most and (src[k] in DIG):
            k += 1
        return k
    for a in (2, 1):
        j = i + a
        if not all((x in DIG for x in src[i:j])) or len(src[i:j]) < a or src[j:j + 1] != b'/':
            continue
        for b in (2, 1):
            k = j + 1 + b
            if len(src[j + 1:k]) < b or not all((x in DIG for x in src[j + 1:k])) or src[k:k + 1] != b'/':
                continue
            for y in (4, 2):
                e = k + 1 + y
                t = src[k + 1:e]
                if len(t) == y and all((x in DIG for x in t)) and (not (e < len(src) and src[e] in DIG)):
                    yy = int(t)
                    if y == 2:
                        yy += 1900 if yy >= 50 else 2000
                    return (e, int(src[i:j]), int(src[j + 1:k]), yy)
    return None


class Var:
    """A variable or parameter."""

    def __init__(self, name, kind, undo, init, mask, ext):
        self.name, self.kind, self.undo, self.init, self.mask, self.ext = (name, kind, undo, init, mask, ext)
KINDS = dict(CHARACTER='C', INTEGER='I', INT64='L', DECIMAL='D', LOGICAL='B', DATE='T')
DEFMASK = dict(C=b'x(8)', I=b'->,>>>,>>9', L=b'->,>>>,>>9', D=b'->>,>>9.99', B=b'yes/no', T=b'99/99/99')
INITS = dict(C=('C', b''), I=('I', 0), L=('L', 0), D=('D', 0), B=('B', False), T=None)


class Block:
    """A block and what its header says."""

    def __init__(self):
        self.label = None
        self.kind = 'DO'
        self.to = self.wh = self.on_error = self.on_endkey = None
        self.trans = False
        self.body = []
        self.names_retry = False
        self.in_header = self.retry_in_header = False

    @property

    def undo(self):
        return self.kind != 'DO' or self.trans or self.on_error is not None or (self.on_endkey is not None)

    @property

    def starts(self):
        return self.trans

    @property

    def iterates(self):
        return self.kind == 'REPEAT' or self.to is not None or self.wh is not None


class Parser:
    """Reads the tokens into statements, which are tuples that begin with their word."""

    def __init__(self, toks):
        self.t, self.i = (toks, 0)
        self.procs = {}
        self.extvars, self.vars, self.proc = ({}, None, None)
        self.streams = {}
        self.blocks = []
        self.inputs, self.outputs = ([], [])
        self.order = []
        self.nblocks = 0

    def peek(self, k=0):
        return self.t[min(self.i + k, len(self.t) - 1)]

    def is_keyword(self, *w):
        return self.peek()[0] == 'K' and self.peek()[1] in w

    def is_symbol(self, *w):
        return self.peek()[0] == 'S' and self.peek()[1] in w

    def take(self):
        self.i += 1
        return self.t[self.i - 1]

    def keyword(self, w):
        if not self.is_keyword(w):
            raise Refused('G1', self.peek()[2])
        return self.take()

    def symbol(self, w):
        if not self.is_symbol(w):
            raise Refused('G1', self.peek()[2])
        return self.take()

    def name(self):
        if self.peek()[0] != 'N':
            raise Refused('G1', self.peek()[2])
        return self.take()[1].lower()

    def optional(self, w):
        if self.is_keyword(w):
            self.take()
            return True
        return False

    def new_block(self, kind):
        b = Block()
        b.kind = kind
        return b

    def program(self):
        main = self.new_block('PROCEDURE')
        self.blocks = [main]
        self.scope = [self.extvars]
        self.allvars = {None: []}
        while self.peek()[0] != 'E':
            if self.is_keyword('PROCEDURE'):
                self.take()
                nm = self.name()
                self.symbol(':')
                b = self.new_block('PROCEDURE')
                saved = self.blocks
                self.blocks = [b]
                self.scope = [self.extvars, {}]
                self.allvars[nm] = []
                self.proc = nm
                self.params = []
                while not self.is_keyword('END'):
                    self.stmt_into(b.body)
                self.take()
                self.optional('PROCEDURE')
                self.symbol('.')
                self.procs[nm] = (b, self.params, self.allvars[nm])
                self.blocks = saved
                self.scope = [self.extvars]
                self.proc = None
            else:
                self.stmt_into(main.body)
        return main

    def lookup(self, nm, place):
        for sc in reversed(self.scope):
            if nm in sc:
                return sc[nm]
        raise Refused('Y1', place)

    def stmt_into(self, body):
        st = self.stmt()
        if st is not None:
            body.append(st)

    def label_of(self, nm):
        for b in reversed(self.blocks):
            if b.label == nm:
                return b
        raise Refused('U1', self.t[self.i - 1][2])

    def undo_block(self):
        for b in reversed(self.blocks):
            if b.undo:
                return b

    def iter_block(self):
        for b in reversed(self.blocks):
            if b.iterates or b.kind == 'PROCEDURE':
                return b

    def action(self, target):
        if self.optional('RETRY'):
            if self.peek()[0] == 'N':
                self.name()
            return ('RETRY',)
        for w in ('LEAVE', 'NEXT'):
            if self.optional(w):
                b = self.label_of(self.name()) if self.peek()[0] == 'N' else target
                return (w, b)
        self.keyword('RETURN')
        err = self.optional('ERROR')
        e = None if self.is_symbol('.', ':', ',') or self.is_keyword('WHILE', 'TRANSACTION', 'ON') else self.expr()
        return ('RETURN', err, e)

    def block(self, label):
        b = self.new_block('DO')
        b.label = label
        if self.is_keyword('REPEAT'):
            b.kind = 'REPEAT'
            self.take()
        else:
            self.keyword('DO')
        if self.peek()[0] == 'N' and self.peek(1)[:2] == ('S', '='):
            place = self.peek()[2]
            v = self.lookup(self.name(), place)
            self.symbol('=')
            start = self.expr()
            self.keyword('TO')
            end = self.in_header_of(b)
            by = None
            if self.optional('BY'):
                by = self.expr()
            b.to = [v, start, end, by]
        phrases = []
        while not self.is_symbol(':'):
            if self.optional('WHILE'):
                b.wh = self.in_header_of(b)
            elif self.optional('TRANSACTION'):
                b.trans = True
            else:
                self.keyword('ON')
                which = self.take()[1]
                self.keyword('UNDO')
                phrases.append((which, self.i))
                setattr(b, 'on_error' if which == 'ERROR' else 'on_endkey', ())
                if self.peek()[0] == 'N':
                    self.take()
                if self.is_symbol(','):
                    self.take()
                    if self.is_keyword('RETURN'):
                        self.take()
                        self.optional('ERROR')
                        if not (self.is_symbol(':', ',') or self.is_keyword('WHILE', 'TRANSACTION', 'ON')):
                            self.in_header_of(b)
                    else:
                        self.take()
                        if self.peek()[0] == 'N':
                            self.take()
        end_at = self.i
        self.blocks.append(b)
        if b.retry_in_header:
            self.mark_retry()
        for which, at in phrases:
            self.i = at
            t = self.label_of(self.name()) if self.peek()[0] == 'N' else self.undo_block()
            act = ('RETRY',)
            if self.is_symbol(','):
                self.take()
                act = self.action(t)
            setattr(b, 'on_error' if which == 'ERROR' else 'on_endkey', (t, act))
        self.i = end_at
        self.symbol(':')
        while not self.is_keyword('END'):
            self.stmt_into(b.body)
        self.take()
        self.symbol('.')
        self.blocks.pop()
        return ('BLOCK', b)

    def in_header_of(self, b):
        """An expression in the header of a block. Its RETRY is that of the block, or of one around; which
        of them can be undone is known once the whole header is read."""
        self.blocks.append(b)
        b.in_header = True
        e = self.expr()
        b.in_header = False
        self.blocks.pop()
        return e

    def mark_retry(self):
        """Marks the block that names RETRY here: the innermost one with the undo property."""
        for b in reversed(self.blocks):
            if b.in_header:
                b.retry_in_header = True
                break
            if b.undo:
                b.names_retry = True
                break

    def stmt(self):
        p = self.peek()
        if p[0] == 'N':
            if self.peek(1)[:2] == ('S', ':'):
                label = self.name()
                self.take()
                return self.block(label)
            pairs = [self.pair()]
            q = self.optional('NO-ERROR')
            self.symbol('.')
            return ('ASSIGN', pairs, q)
        if self.is_keyword('DO', 'REPEAT'):
            return self.block(None)
        if self.is_keyword('DEFINE'):
            return self.define()
        if self.optional('IF'):
            c = self.expr()
            self.keyword('THEN')
            a, b = ([], [])
            self.stmt_into(a)
            if self.optional('ELSE'):
                self.stmt_into(b)
            return ('IF', c, a, b)
        if self.optional('ASSIGN'):
            pairs = []
            while self.peek()[0] == 'N':
                pairs.append(self.pair())
            q = self.optional('NO-ERROR')
            self.symbol('.')
            return ('ASSIGN', pairs, q)
        if self.optional('UNDO'):
            t = self.label_of(self.name()) if self.peek()[0] == 'N' else self.undo_block()
            act = ('RETRY',)
            if self.is_symbol(','):
                self.take()
                act = self.action(t)
            self.symbol('.')
            return ('UNDO', t, act)
        for w in ('LEAVE', 'NEXT'):
            if self.optional(w):
                b = self.label_of(self.name()) if self.peek()[0] == 'N' else self.iter_block()
                self.symbol('.')
                return (w, b)
        if self.optional('RETURN'):
            err = self.optional('ERROR')
            e = None if self.is_symbol('.') else self.expr()
            self.symbol('.')
            return ('RETURN', err, e, self.undo_block())
        if self.optional('STOP'):
            self.symbol('.')
            return ('STOP',)
        if self.optional('RUN'):
            nm = self.name()
            args = []
            if self.is_symbol('('):
                self.take()
                if not self.is_symbol(')'):
                    while True:
                        if self.is_keyword('OUTPUT', 'INPUT-OUTPUT'):
                            w = self.take()[1]
                            place = self.peek()[2]
                            args.append((w, self.lookup(self.name(), place)))
                        else:
                            self.optional('INPUT')
                            args.append(('INPUT', self.expr()))
                        if not self.is_symbol(','):
                            break
                        self.take()
                self.symbol(')')
            q = self.optional('NO-ERROR')
            self.symbol('.')
            return ('RUN', nm, args, q)
        if self.optional('IMPORT'):
            n = self.stream()
            ts = []
            while True:
                if self.is_symbol('^'):
                    self.take()
                    ts.append(None)
                elif self.peek()[0] == 'N':
                    place = self.peek()[2]
                    ts.append(self.lookup(self.name(), place))
                else:
                    break
            q = self.optional('NO-ERROR')
            self.symbol('.')
            return ('IMPORT', n, ts, q)
        if self.optional('EXPORT'):
            n = self.stream()
            es = []
            while not self.is_symbol('.'):
                es.append(self.expr())
            self.symbol('.')
            return ('EXPORT', n, es)
        if self.optional('PUT'):
            n = self.stream()
            un = self.optional('UNFORMATTED')
            items = []
            while not self.is_symbol('.'):
                if self.is_keyword('SKIP', 'SPACE'):
                    w = self.take()[1]
                    c = 1
                    if self.is_symbol('('):
                        self.take()
                        c = self.take()[1][1]
                        self.symbol(')')
                    items.append((w, c))
                else:
                    e = self.expr()
                    m = None
                    if self.optional('FORMAT'):
                        m = self.take()[1][1]
                    if un:
                        m = None
                    elif m is None:
                        m = self.defmask(e)
                    items.append(('SHOW', e, m))
            self.symbol('.')
            return ('PUT', n, items)
        if self.optional('MESSAGE'):
            es = []
            while not self.is_symbol('.'):
                es.append(self.expr())
            self.symbol('.')
            return ('MESSAGE', es)
        if self.is_keyword('INPUT', 'OUTPUT'):
            w = self.take()[1]
            n = self.stream()
            if self.optional('CLOSE'):
                self.symbol('.')
                return (w + ' CLOSE', n)
            self.keyword('FROM' if w == 'INPUT' else 'TO')
            f = self.take()[1][1]
            lst = self.inputs if w == 'INPUT' else self.outputs
            if f not in lst:
                lst.append(f)
            ap = w == 'OUTPUT' and self.optional('APPEND')
            self.symbol('.')
            return (w, n, f, ap)
        raise Refused('G1', p[2])

    def stream(self):
        if self.optional('STREAM'):
            place = self.peek()[2]
            nm = self.name()
            if nm in self.streams:
                return self.streams[nm]
            raise Refused('Y1', place)
        return 0

    def pair(self):
        place = self.peek()[2]
        v = self.lookup(self.name(), place)
        self.symbol('=')
        return (v, self.expr())

    def define(self):
        self.keyword('DEFINE')
        if self.optional('STREAM'):
            nm = self.name()
            self.symbol('.')
            self.streams[nm] = max(self.streams.values(), default=0) + 1 if not hasattr(self, 'nstreams') else self.nstreams + 1
            self.nstreams = self.streams[nm]
            return None
        direction = None
        if self.is_keyword('INPUT', 'OUTPUT', 'INPUT-OUTPUT'):
            direction = self.take()[1]
            self.keyword('PARAMETER')
        else:
            self.keyword('VARIABLE')
        nm = self.name()
        self.keyword('AS')
        kind = KINDS[self.take()[1]]
        undo, init, mask = (True, INITS[kind], DEFMASK[kind])
        seen = set()
        while not self.is_symbol('.'):
            if self.optional('NO-UNDO'):
                undo = False
            elif self.optional('INITIAL'):
                neg = self.is_symbol('-') and bool(self.take())
                t = self.take()
                v = None if t[:2] == ('S', '?') else ('B', t[1] in ('YES', 'TRUE')) if t[0] == 'K' else t[1]
                if neg:
                    v = (v[0], -v[1])
                init = fit(v, kind)
            elif self.optional('FORMAT'):
                mask = self.take()[1][1]
            else:
                self.keyword('LABEL')
                self.take()
        self.symbol('.')
        v = Var(nm, kind, undo, init, mask, self.proc is None)
        v.number = len(self.allvars[self.proc])
        self.allvars[self.proc].append(v)
        self.scope[-1][nm] = v
        if direction:
            self.params.append((direction, v))
        return None

    def expr(self):
        if self.optional('IF'):
            c = self.expr()
            self.keyword('THEN')
            a = self.expr()
            self.keyword('ELSE')
            b = self.expr()
            return ('IF', c, a, b)
        e = self.conjunction()
        while self.optional('OR'):
            e = ('OR', e, self.conjunction())
        return e

    def conjunction(self):
        e = self.negation()
        while self.optional('AND'):
            e = ('AND', e, self.negation())
        return e

    def negation(self):
        if self.optional('NOT'):
            return ('NOT', self.negation())
        a = self.sum()
        ops = {'=': '=', '<>': '<>', '<': '<', '>': '>', '<=': '<=', '>=': '>=', 'EQ': '=', 'NE': '<>', 'LT': '<', 'GT': '>', 'LE': '<=', 'GE': '>=', 'BEGINS': 'BEGINS'}
        if self.peek()[0] in 'KS' and self.peek()[1] in ops:
            op = ops[self.take()[1]]
            return (op, a, self.sum())
        return a

    def sum(self):
        e = self.product()
        while self.is_symbol('+', '-'):
            op = self.take()[1]
            e = (op, e, self.product())
        return e

    def product(self):
        e = self.signed()
        while self.is_symbol('*', '/') or self.is_keyword('MODULO'):
            op = self.take()[1]
            e = (op, e, self.signed())
        return e

    def signed(self):
        if self.is_symbol('+', '-'):
            op = self.take()[1]
            return ('NEG' if op == '-' else 'POS', self.signed())
        return self.primary()

    def primary(self):
        t = self.peek()
        if t[0] == 'V':
            self.take()
            return ('LIT', t[1])
        if t[0] == 'N':
            self.take()
            return ('VAR', self.lookup(t[1].lower(), t[2]))
        if self.is_symbol('?'):
            self.take()
            return ('LIT', None)
        if self.is_symbol('('):
            self.take()
            e = self.expr()
            self.symbol(')')
            return e
        if self.is_keyword('YES', 'TRUE'):
            self.take()
            return ('LIT', ('B', True))
        if self.is_keyword('NO', 'FALSE'):
            self.take()
            return ('LIT', ('B', False))
        if self.optional('RETRY'):
            self.mark_retry()
            return ('RETRY',)
        if self.optional('RETURN-VALUE'):
            return ('RETVAL',)
        if self.optional('ERROR-STATUS'):
            self.symbol(':')
            self.keyword('ERROR')
            return ('STATUS',)
        if self.optional('STRING'):
            self.symbol('(')
            e = self.expr()
            m = None
            if self.is_symbol(','):
                self.take()
                m = self.take()[1][1]
            self.symbol(')')
            return ('STRING', e, m)
        if self.is_keyword('INTEGER', 'INT64', 'DECIMAL', 'SUBSTRING', 'LENGTH', 'ENTRY', 'NUM-ENTRIES', 'DATE', 'YEAR', 'MONTH', 'DAY'):
            f = self.take()[1]
            self.symbol('(')
            a = [self.expr()]
            while self.is_symbol(','):
                self.take()
                a.append(self.expr())
            self.symbol(')')
            return ('F', f, a)
        raise Refused('G1', t[2])

    def kind_of(self, e):
        o = e[0]
        if o == 'LIT':
            return None if e[1] is None else e[1][0]
        if o == 'VAR':
            return e[1].kind
        if o == 'IF':
            a, b = (self.kind_of(e[2]), self.kind_of(e[3]))
            if a is None:
                return b
            if b is None:
                return a
            if a == b:
                return a
            return 'D' if 'D' in (a, b) else 'L'
        if o in ('OR', 'AND', 'NOT', '=', '<>', '<', '>', '<=', '>=', 'BEGINS', 'RETRY', 'STATUS'):
            return 'B'
        if o in ('RETVAL', 'STRING'):
            return 'C'
        if o == 'F':
            return dict(INTEGER='I', INT64='L', DECIMAL='D', SUBSTRING='C', LENGTH='L', ENTRY='C', DATE='T', YEAR='L', MONTH='L', DAY='L').get(e[1], 'L')
        if o in ('NEG', 'POS'):
            k = self.kind_of(e[1])
            return k if k is None or o == 'POS' else 'D' if k == 'D' else 'L'
        a, b = (self.kind_of(e[1]), self.kind_of(e[2]))
        if o == '/':
            return 'D'
        if o == 'MODULO':
            return 'L'
        if o == '+' and 'C' in (a, b):
            return 'C'
        if a == 'T':
            return ('T' if o == '+' else None) if b is None else 'L' if b == 'T' else 'T'
        if b == 'T':
            return 'L'
        if 'D' in (a, b):
            return 'D'
        return None if None in (a, b) else 'L'

    def defmask(self, e):
        if e[0] == 'VAR':
            return e[1].mask
        k = self.kind_of(e)
        return b'x(8)' if k is None else DEFMASK[k]


class Fault(Exception):
    """What makes a statement an error, with the text of its line."""

    def __init__(self, text):
        self.text = text
RANGE, CONVERT, ARGUMENT = ('value out of range', 'bad conversion', 'bad argument')


def i64(n):
    if not -2 ** 63 <= n < 2 ** 63:
        raise Fault(RANGE)
    return n


def i128(n):
    if not -2 ** 127 <= n < 2 ** 127:
        raise Fault(RANGE)
    return n


def rnd(n, d):
    """n / d, rounded a half away from zero."""
    q, r = divmod(abs(n), abs(d))
    if 2 * r >= abs(d):
        q += 1
    return -q if (n < 0) != (d < 0) else q


def fit(v, kind):
    """The value as a target of this kind holds it."""
    if v is None:
        return None
    if kind in 'ILD' and v[0] in 'ILD':
        if kind == 'D':
            return ('D', v[1] if v[0] == 'D' else i128(v[1] * S))
        n = v[1] if v[0] != 'D' else rnd(v[1], S)
        if kind == 'I' and (not -2 ** 31 <= n < 2 ** 31):
            raise Fault(RANGE)
        return (kind, i64(n))
    if kind == 'C' and len(v[1]) > MAXTEXT:
        raise Fault(RANGE)
    assert kind == v[0], (kind, v)
    return v


def scaled(v):
    return v[1] if v[0] == 'D' else v[1] * S


def fold(t):
    """A text as comparisons take it."""
    return t.lower().rstrip(b' ') if isinstance(t, bytes) else t


def order(a, b):
    """-1, 0 or 1 by the order of two values."""
    if a[0] in 'ILD':
        x, y = (scaled(a), scaled(b))
    elif a[0] == 'C':
        x, y = (fold(a[1]), fold(b[1]))
    else:
        x, y = (a[1], b[1])
    return (x > y) - (x < y)


def plain(v):
    """The plain text of a value."""
    if v is None:
        return b'?'
    k, n = v
    if k == 'C':
        return n
    if k in 'IL':
        return str(n).encode()
    if k == 'D':
        w, f = divmod(abs(n), S)
        t = str(w)
        f = str(f).rjust(10, '0').rstrip('0')
        if f:
            t += '.' + f
        return (('-' if n < 0 else '') + t).encode()
    if k == 'B':
        return b'yes' if n else b'no'
    y, m, d = parts_of_day(n)
    return ('%02d/%02d/%02d' % (m, d, y % 100) if 1950 <= y <= 2049 else '%02d/%02d/%04d' % (m, d, y)).encode()


def export(v):
    """The text of a value that EXPORT writes."""
    if v is not None and v[0] == 'C':
        return b'"' + v[1].replace(b'"', b'""') + b'"'
    return plain(v)


def masked(m, v):
    """The text of a value under a mask."""
    low = m.lower()
    if set(low) == {120} or low.startswith(b'x('):
        n = len(m) if set(low) == {120} else int(m[2:-1])
        t = b'?' if v is None else v[1]
        return t[:n].ljust(n)
    if low in (b'99/99/99', b'99/99/9999'):
        if v is None:
            return b'?'.ljust(len(m))
        y, mo, d = parts_of_day(v[1])
        return ('%02d/%02d/%02d' % (mo, d, y % 100) if len(m) == 8 else '%02d/%02d/%04d' % (mo, d, y)).encode()
    if b'/' in m and (not all((c in b'-,>zZ9.' for c in m))):
        a, b = m.split(b'/')
        w = max(len(a), len(b))
        if v is None:
            return b'?'.ljust(w)
        return (a if v[1] else b).ljust(w)
    width = len(m)
    if v is None:
        return b'?'.rjust(width)
    mm = low.decode()
    neg_ok = mm.startswith('-')
    body = mm[1:] if neg_ok else mm
    whole, _, frac = body.partition('.')
    dec = len(frac)
    n = rnd(scaled(v), 10 ** (10 - dec))
    neg = n < 0
    digits = str(abs(n)).rjust(dec + 1, '0')
    w, f = (digits[:-dec], digits[-dec:]) if dec else (digits, '')
    w = w.lstrip('0')
    signs = sum((c in '>z9' for c in whole))
    nines = whole.count('9')
    if len(w) > signs or (neg and (not neg_ok)):
        return b'?' * width
    w = w.rjust(nines, '0')
    out, left = ('', w)
    k = len(w)
    for c in reversed(whole):
        if c == ',':
            if k > 0:
                out = ',' + out
        elif k > 0:
            k -= 1
            out = w[k] + out
    t = ('-' if neg else '') + out + ('.' + f if dec else '')
    return t.rjust(width).encode()


def number_in(t):
    """the scaled number that a text denotes as IMPORT takes a DECIMAL, or None"""
    s = t.decode('latin1')
    neg = s.startswith('-')
    if neg:
        s = s[1:]
    w, p, f = s.partition('.')
    if not w or not all((c in '0123456789' for c in w + f)) or len(f) > 10:
        return None
    n = int(w) * S + int((f or '0').ljust(10, '0'))
    n = -n if neg else n
    return n if -2 ** 127 <= n < 2 ** 127 else None


class Stop(Exception):
    """Why the client stops."""

    def __init__(self, why):
        self.why = why


class Client:
    """Runs a source. Units, levels and the trace are counted as docs/language.md says."""

    def __init__(self, src, units, inp=b'', files=None):
        self.parser = Parser(lex(src))
        self.main = self.parser.program()
        self.units, self.inp, self.files = (units, inp, files or {})
        self.level, self.status, self.retval = (0, False, b'')
        self.sections = [[None, bytearray()]]
        self.size = 0
        self.at = 0
        self.streams = [dict(out=None, inp=None, at=0) for _ in range(1 + getattr(self.parser, 'nstreams', 0))]
        self.ops = []
        self.frames = []

    def unit(self):
        if self.units == 0:
            raise Stop('Budget')
        self.units -= 1

    def operation(self, text, answer):
        self.unit()
        self.ops.append(text + ' ' + answer)

    def frame(self, v):
        return self.frames[0] if v.ext else self.frames[-1]

    def get(self, v):
        return self.frame(v)[v.number]

    def put(self, v, x):
        self.frame(v)[v.number] = x

    def copy(self):
        return [(f, [f[v.number] for v in f.vars]) for f in self.frames]

    def restore(self, c):
        for f, old in c:
            for v in f.vars:
                if v.undo:
                    f[v.number] = old[v.number]

    def section(self, out):
        for x in self.sections:
            if x[0] == out:
                return x

    def write(self, out, b):
        if self.size + len(b) > 16 * 1024 * 1024:
            raise Stop('OutputFull')
        self.size += len(b)
        self.section(out)[1] += b

    def complain(self, f):
        self.write(None, b'** ' + f.encode() + b'\n')

    def evaluate(self, e, retry):
        o = e[0]
        if o == 'LIT':
            if e[1] and e[1][0] == 'C' and (len(e[1][1]) > MAXTEXT):
                raise Fault(RANGE)
            return e[1]
        if o == 'VAR':
            return self.get(e[1])
        if o == 'RETRY':
            return ('B', retry)
        if o == 'RETVAL':
            return ('C', self.retval)
        if o == 'STATUS':
            return ('B', self.status)
        if o == 'IF':
            c = self.evaluate(e[1], retry)
            v = self.evaluate(e[2] if c == ('B', True) else e[3], retry)
            k = self.parser.kind_of(e)
            return v if k is None else fit(v, k)
        if o in ('AND', 'OR'):
            a = self.evaluate(e[1], retry)
            if o == 'AND' and a == ('B', False):
                return a
            if o == 'OR' and a == ('B', True):
                return a
            b = self.evaluate(e[2], retry)
            return None if a is None else b
        if o == 'STRING':
            v = self.evaluate(e[1], retry)
            if v is None:
                return None
            return ('C', plain(v) if e[2] is None else masked(e[2], v))
        if o == 'F':
            return self.func(e[1], [self.evaluate(a, retry) for a in e[2]])
        if o in ('NOT', 'NEG', 'POS'):
            a = self.evaluate(e[1], retry)
            if a is None:
                return None
            if o == 'NOT':
                return ('B', not a[1])
            if a[0] == 'D':
                return ('D', i128(a[1] if o == 'POS' else -a[1]))
            return ('L', i64(a[1] if o == 'POS' else -a[1]))
        a, b = (self.evaluate(e[1], retry), self.evaluate(e[2], retry))
        if o in ('=', '<>'):
            r = a is None and b is None if a is None or b is None else order(a, b) == 0
            return ('B', r == (o == '='))
        if o in ('<', '>', '<=', '>='):
            if a is None and b is None:
                return ('B', o in ('<=', '>='))
            if a is None or b is None:
                return None
            c = order(a, b)
            return ('B', dict(zip(('<', '>', '<=', '>='), (c < 0, c > 0, c <= 0, c >= 0)))[o])
        if a is None or b is None:
            return None
        if o == 'BEGINS':
            return ('B', fold(a[1]).startswith(fold(b[1])))
        if o == '+' and a[0] == 'C':
            t = a[1] + b[1]
            if len(t) > MAXTEXT:
                raise Fault(RANGE)
            return ('C', t)
        if 'T' in (a[0], b[0]):
            if a[0] == b[0]:
                return ('L', a[1] - b[1])
            n = a[1] + b[1] if o == '+' else a[1] - b[1]
            if not days_of(1, 1, 1) <= n <= days_of(9999, 12, 31):
                raise Fault(RANGE)
            return ('T', n)
        if o == 'MODULO':
            if b[1] == 0:
                return None
            return ('L', i64(abs(a[1]) % abs(b[1]) * (-1 if a[1] < 0 else 1)))
        if o == '/':
            x, y = (scaled(a), scaled(b))
            if y == 0:
                return None
            return ('D', i128(rnd(i128(x * S), y)))
        if 'D' in (a[0], b[0]):
            x, y = (scaled(a), scaled(b))
            if o == '*':
                return ('D', rnd(i128(x * y), S))
            return ('D', i128(x + y if o == '+' else x - y))
        return ('L', i64({'+': a[1] + b[1], '-': a[1] - b[1], '*': a[1] * b[1]}[o]))

    def func(self, f, a):
        if f == 'ENTRY' and len(a) == 2:
            a = a + [('C', b',')]
        if f == 'NUM-ENTRIES' and len(a) == 1:
            a = a + [('C', b',')]
        if f == 'SUBSTRING' and len(a) == 2:
            a = a + [('L', -1)]
        if any((x is None for x in a)):
            return None
        if f in ('INTEGER', 'INT64', 'DECIMAL'):
            v = a[0]
            if v[0] == 'C':
                n = number_in(v[1])
                if n is None:
                    raise Fault(CONVERT)
                v = ('D', n)
            return fit(v, KINDS[f])
        if f == 'LENGTH':
            return ('L', len(a[0][1]))
        if f == 'SUBSTRING':
            t, i, n = (a[0][1], a[1][1], a[2][1])
            if i < 1 or n < -1:
                raise Fault(ARGUMENT)
            return ('C', t[i - 1:] if n == -1 else t[i - 1:i - 1 + n])
        if f == 'ENTRY':
            i, t, d = (a[0][1], a[1][1], a[2][1])
            if not d:
                raise Fault(ARGUMENT)
            parts = t.split(d) if t else []
            if not 1 <= i <= len(parts):
                raise Fault(ARGUMENT)
            return ('C', parts[i - 1])
        if f == 'NUM-ENTRIES':
            t, d = (a[0][1], a[1][1])
            if not d:
                raise Fault(ARGUMENT)
            return ('L', len(t.split(d)) if t else 0)
        if f == 'DATE':
            n = days_of(a[2][1], a[0][1], a[1][1])
            if n is None:
                raise Fault(ARGUMENT)
            return ('T', n)
        y, m, d = parts_of_day(a[0][1])
        return ('L', dict(YEAR=y, MONTH=m, DAY=d)[f])

    def body(self, sts, retry, procs):
        for st in sts:
            c = self.statement(st, retry, procs)
            if c[0] != 'N':
                return c
        return ('N',)

    def statement(self, st, retry, procs):
        o = st[0]
        self.unit()
        if o == 'IF':
            try:
                v = self.evaluate(st[1], retry)
            except Fault as f:
                self.complain(f.text)
                return ('RAISE', None)
            return self.body(st[2] if v == ('B', True) else st[3], retry, procs)
        quiet = o in ('ASSIGN', 'RUN', 'IMPORT') and st[-1]
        if quiet:
            self.status = False
        try:
            c = self.does(st, retry, procs)
        except Fault as f:
            c = ('FAULT', f.text)
        if c[0] == 'FAULT':
            if quiet:
                self.status = True
                return ('N',)
            if c[1] is not None:
                self.complain(c[1])
            return ('RAISE', None)
        return c

    def text_to_return(self, e, retry):
        if e is None:
            return b''
        try:
            return plain(self.evaluate(e, retry))
        except Fault:
            return b''

    def does(self, st, retry, procs):
        o = st[0]
        if o == 'BLOCK':
            return self.block(st[1], retry, procs)
        if o == 'ASSIGN':
            for v, e in st[1]:
                self.put(v, fit(self.evaluate(e, retry), v.kind))
            return ('N',)
        if o == 'UNDO':
            return ('UNDO', st[1], st[2], retry, None)
        if o in ('LEAVE', 'NEXT'):
            return (o, st[1])
        if o == 'RETURN':
            self.retval = self.text_to_return(st[2], retry)
            if st[1]:
                return ('UNDO', st[3], ('ERROR',), retry, None)
            return ('RETURN', False)
        if o == 'STOP':
            raise Stop('Statement')
        if o == 'RUN':
            return self.run_proc(st, retry, procs)
        if o == 'MESSAGE':
            t = b' '.join((plain(self.evaluate(e, retry)) for e in st[1])) + b'\n'
            self.write(None if True else 0, t) if self.streams[0]['out'] is None else self.write(self.streams[0]['out'], t)
            return ('N',)
        if o == 'EXPORT':
            t = b' '.join((export(self.evaluate(e, retry)) for e in st[2])) + b'\n'
            self.write(self.streams[st[1]]['out'], t)
            return ('N',)
        if o == 'PUT':
            t = b''
            for it in st[2]:
                if it[0] == 'SKIP':
                    t += b'\n' * it[1]
                elif it[0] == 'SPACE':
                    t += b' ' * it[1]
                else:
                    v = self.evaluate(it[1], retry)
                    t += plain(v) if it[2] is None else masked(it[2], v)
            self.write(self.streams[st[1]]['out'], t)
            return ('N',)
        if o == 'OUTPUT':
            x = self.section(st[2])
            if x is None:
                self.sections.append([st[2], bytearray()])
            elif not st[3]:
                x[1].clear()
            self.streams[st[1]]['out'] = st[2]
            return ('N',)
        if o == 'OUTPUT CLOSE':
            self.streams[st[1]]['out'] = None
            return ('N',)
        if o == 'INPUT':
            self.streams[st[1]].update(inp=st[2], at=0)
            return ('N',)
        if o == 'INPUT CLOSE':
            self.streams[st[1]].update(inp=None, at=0)
            return ('N',)
        if o == 'IMPORT':
            return self.imports(st, retry)
        raise AssertionError(o)

    def imports(self, st, retry):
        x = self.streams[st[1]]
        data = self.inp if x['inp'] is None else self.files[x['inp']]
        at = self.at if x['inp'] is None else x['at']
        if at >= len(data):
            return ('ENDKEY', None)
        els, i, start = ([], at, at)
        line_end = data.find(b'\n', at)
        bare = data[at:line_end if line_end >= 0 else len(data)]
        if bare.endswith(b'\r') and line_end >= 0:
            bare = bare[:-1]
        if bare == b'.':
            return ('ENDKEY', None)
        while True:
            while i < len(data) and data[i] in b' \t':
                i += 1
            if i >= len(data):
                break
            if data[i] == 10:
                i += 1
                break
            if data[i] == 13 and data[i + 1:i + 2] == b'\n':
                i += 2
                break
            if data[i] == 34:
                i += 1
                t = bytearray()
                while i < len(data):
                    if data[i] == 34:
                        if data[i + 1:i + 2] == b'"':
                            t.append(34)
                            i += 2
                            continue
                        i += 1
                        break
                    t.append(data[i])
                    i += 1
                els.append((True, bytes(t)))
            else:
                j = i
                while j < len(data) and data[j] not in b' \t\n' and (not (data[j] == 13 and data[j + 1:j + 2] == b'\n')):
                    j += 1
                els.append((False, data[i:j]))
                i = j
        vals, bad = ([], None)
        for n, v in enumerate(st[2]):
            if n >= len(els) or v is None:
                vals.append(None)
                continue
            q, t = els[n]
            if not q and t == b'-':
                vals.append(None)
                continue
            r = self.element(q, t, v.kind)
            if r is False:
                bad = n + 1
                break
            vals.append((r,))
        if x['inp'] is None:
            self.at = i
        else:
            x['at'] = i
        if bad:
            return ('FAULT', 'input field %d is bad' % bad)
        for v, r in zip(st[2], vals):
            if r is not None:
                self.put(v, fit(r[0], v.kind))
        return ('N',)

    def element(self, q, t, kind):
        if not q and t == b'?':
            return None
        if kind == 'C':
            return ('C', t) if len(t) <= MAXTEXT else False
        if kind == 'D':
            n = number_in(t)
            return False if n is None else ('D', n)
        if kind in 'IL':
            u = t[1:] if t.startswith(b'-') else t
            if not u or not all((c in DIG for c in u)):
                return False
            n = -int(u) if t.startswith(b'-') else int(u)
            lim = 31 if kind == 'I' else 63
            return (kind, n) if -2 ** lim <= n < 2 ** lim else False
        if kind == 'B':
            u = t.lower()
            if u in (b'yes', b'y', b'true', b't'):
                return ('B', True)
            if u in (b'no', b'n', b'false', b'f'):
                return ('B', False)
            return False
        k = _date(t + b' ', 0)
        if not k or k[0] != len(t):
            return False
        n = days_of(k[3], k[1], k[2])
        return False if n is None else ('T', n)

    def block(self, b, outer, procs, runner=None):
        start, by = (None, ('L', 1))
        if b.to:
            start = (self.evaluate(b.to[1], outer),)
            if b.to[3] is not None:
                by = self.evaluate(b.to[3], outer)
        again_retry = False
        while True:
            self.unit()
            retry = again_retry if b.undo else outer
            if b.to and (not again_retry):
                v = b.to[0]
                if start:
                    x = start[0]
                    start = None
                else:
                    x = self.get(v)
                    if x is not None and by is not None:
                        if 'D' in (x[0], by[0]):
                            x = ('D', i128(scaled(x) + scaled(by)))
                        else:
                            x = ('L', i64(x[1] + by[1]))
                    else:
                        x = None
                self.put(v, fit(x, v.kind))
                end = self.evaluate(b.to[2], retry)
                down = by is not None and by[1] < 0
                cur = self.get(v)
                if cur is None and end is None:
                    ok = True
                elif cur is None or end is None:
                    ok = False
                else:
                    ok = order(cur, end) >= 0 if down else order(cur, end) <= 0
                if not ok:
                    return ('N',)
            start = None
            if b.wh is not None and self.evaluate(b.wh, retry) != ('B', True):
                return ('N',)
            lvl = None
            if b.undo if self.level else b.starts:
                self.operation('Enter', 'Done')
                self.level += 1
                lvl = (self.level, self.copy())
            c = self.body(b.body, retry, procs)
            c = self.ends(b, lvl, again_retry, c)
            if c[0] == 'AGAIN':
                again_retry = c[1]
                continue
            return c

    def leave(self):
        self.operation('Leave 0', 'Committed' if self.level == 1 else 'Done')
        self.level -= 1

    def after(self, b, c):
        if c[0] == 'N':
            return ('AGAIN', False) if b.iterates else c
        if c[0] == 'LEAVE' and c[1] is b:
            return ('N',)
        if c[0] == 'NEXT' and c[1] is b:
            return ('AGAIN', False)
        return c

    def ends(self, b, lvl, turn_retry, c):
        o = c[0]
        if o == 'UNDO':
            return self.undo_comes(b, lvl, c)
        if o == 'RAISE':
            if b.undo:
                t, act = b.on_error if b.on_error else (b, ('RETRY',))
                return self.undo_comes(b, lvl, ('UNDO', t, act, turn_retry, c[1]))
            return ('RAISE', self.pass_by(lvl, c[1]))
        if o == 'ENDKEY':
            if b.on_endkey:
                t, act = b.on_endkey
            elif b.kind in ('REPEAT', 'PROCEDURE'):
                t, act = (b, ('LEAVE', b))
            else:
                return ('ENDKEY', self.pass_by(lvl, c[1]))
            return self.undo_comes(b, lvl, ('UNDO', t, act, turn_retry, c[1]))
        if lvl:
            self.leave()
        return self.after(b, c)

    def pass_by(self, lvl, first):
        if self.level == 0:
            return first
        return lvl or first

    def undo_comes(self, b, lvl, c):
        _, t, act, retry, first = c
        if t is not b:
            return ('UNDO', t, act, retry, self.pass_by(lvl, first))
        d = lvl or first
        if d:
            depth, copy = d
            self.operation('Back %d' % depth, 'Done')
            self.level = depth
            self.restore(copy)
            self.leave()
        if act[0] == 'RETRY':
            if b.names_retry:
                return ('AGAIN', True)
            return self.after(b, ('NEXT', b) if b.iterates else ('LEAVE', b))
        if act[0] == 'RETURN':
            self.retval = self.text_to_return(act[2], retry)
            return ('RETURN', act[1])
        if act[0] == 'ERROR':
            return ('RETURN', True)
        return self.after(b, act)

    def run_proc(self, st, retry, depth_left):
        _, nm, args, quiet = st
        b, params, vs = self.parser.procs[nm]
        vals = []
        for (w, e), (d, v) in zip(args, params):
            if w == 'INPUT':
                vals.append(fit(self.evaluate(e, retry), v.kind))
            elif w == 'INPUT-OUTPUT':
                vals.append(fit(self.get(e), v.kind))
            else:
                vals.append(None)
        if depth_left == 0:
            raise Stop('Depth')
        f = new_frame(vs)
        for (w, e), (d, v), x in zip(args, params, vals):
            if w != 'OUTPUT':
                f[v.number] = x
        self.frames.append(f)
        c = self.block(b, False, depth_left - 1)
        self.frames.pop() if c[0] in ('N', 'RETURN') else None
        if c[0] == 'N' or c == ('RETURN', False):
            for (w, e), (d, v) in zip(args, params):
                if w != 'INPUT':
                    self.put(e, f[v.number])
            return ('N',)
        if c == ('RETURN', True):
            return ('FAULT', None)
        return c

    def run(self):
        self.frames = [new_frame(self.parser.allvars[None])]
        try:
            c = self.block(self.main, False, 32)
            end = ('Returned',) if c == ('RETURN', False) else ('Error', self.retval) if c == ('RETURN', True) else ('Normal',)
        except Fault as f:
            end = ('Normal', 'unhandled header fault')
        except Stop as e:
            end = ('Stop', e.why)
        self.ops.append('End Done')
        return end


class FrameList(list):
    pass


def new_frame(vs):
    """The variables of a procedure as it begins."""
    f = FrameList((v.init for v in vs))
    f.vars = vs
    return f


def report(name, client, mode, end):
    """What the command writes to standard output and standard error, and its status."""
    out = bytearray()
    for sec, b in client.sections:
        title = name.encode() + (b':' + sec if sec is not None else b'')
        out += b'== ' + title + b' ==\n' + b
        if b and (not b.endswith(b'\n')):
            out += b'\n'
    if mode == 'trace':
        out += b'== trace ==\n'
        for i, o in enumerate(client.ops):
            out += b'%d %s %s\n' % (i + 1, name.encode(), o.encode())
    err, status = (b'', 0)
    if end[0] == 'Error':
        err, status = (b'abl: client %s: error %s\n' % (name.encode(), end[1]), 8)
    if end[0] == 'Stop':
        err, status = (b'abl: client %s: stop %s\n' % (name.encode(), end[1].encode()), 8)
    return (bytes(out), err, status)


def run(src, units, mode='quiet', name='a', inp=b'', files=None):
    c = Client(src, units, inp, files)
    sys.setrecursionlimit(max(sys.getrecursionlimit(), 100000))
    return report(name, c, mode, c.run())
