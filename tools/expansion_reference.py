#!/usr/bin/env python3
"""A reference reading of the preprocessor: what a source expands to, by the rules of docs/language.md ('Preprocessor') alone.

    tools/expansion_reference.py SOURCE [FOLDER]   prints the expansion of the file SOURCE, whose include files are in FOLDER
                                                   (else here); or the line and status of what it breaks or cannot find
    tools/expansion_reference.py --places SOURCE [FOLDER]
                                                   prints a line for each piece of the expansion: the file, line and column that it was
                                                   taken from, and its bytes. The bytes of a value are a piece each, at their `{`

It was written from those rules before any row was run, and shares nothing with the code that it judges. It works on whole texts: a text
is copied byte by byte into a list of bytes with their origins. `expansion` is what other scripts call: it gives one of

    ("gives", bytes, [(text, line, column) of each byte, and of the end])
    ("breaks", rule, text, (line, column))
    ("needs", name)

for a list of (name, bytes), the source first; `text` is a number in that list."""

import re
import sys
from fractions import Fraction
from pathlib import Path

MOST_BYTES = 1_048_576
MOST_WORK = 67_108_864
MOST_OPEN = 16

LETTERS = frozenset(b"abcdefghijklmnopqrstuvwxyzABCDEFGHIJKLMNOPQRSTUVWXYZ")
DIGITS = frozenset(b"0123456789")
NAME_BYTES = LETTERS | DIGITS | frozenset(b"#$%&-_")
SPACE = b" \t\n\r\x0c"
QUOTES = frozenset(b"\"'")
WORDS = {b"&SCOPED-DEFINE": "scoped", b"&GLOBAL-DEFINE": "global", b"&IF": "if", b"&THEN": "then", b"&ELSEIF": "elseif", b"&ELSE": "else", b"&ENDIF": "endif"}
KINDS = {"global": 1, "argument": 2, "scoped": 3}
TOKEN = re.compile(rb"[A-Za-z][A-Za-z0-9#$%&_-]*|[0-9]+(\.[0-9]+)?|<>|[=()]")


class Broken(Exception):
    """A rule is broken in the text of this number, at this offset."""

    def __init__(self, rule, text, at):
        super().__init__(rule)
        self.rule, self.text, self.at = rule, text, at


class Needed(Exception):
    """A file is needed that is not there."""

    def __init__(self, name):
        super().__init__(name)
        self.name = name


class State:
    """What the bytes of a text are, read from its start: within comments, within a TEXT, within a name, after a number."""

    def __init__(self):
        self.comments, self.quote, self.in_name, self.after_number = 0, 0, False, False

    def copied(self, text, at, end):
        """How many bytes from here on are copied together, none of which opens or closes a brace or begins a word."""
        byte, pair = text[at], text[at : min(at + 2, end)]
        was_name = self.in_name
        self.passed()
        if self.comments:
            change = {b"/*": 1, b"*/": -1}.get(pair, 0)
            self.comments += change
            return 2 if change else 1
        if self.quote:
            if byte == ord("~"):
                return len(pair)
            if byte == self.quote:
                self.quote = 0
            return 1
        if pair in (b"~{", b"~}"):
            return 2
        if pair == b"/*":
            self.comments = 1
            return 2
        if byte in QUOTES:
            self.quote = byte
        self.in_name = byte in LETTERS or was_name and byte in NAME_BYTES
        self.after_number = byte in DIGITS and not was_name
        return 1

    def is_brace(self, byte):
        return not self.comments and byte in b"{}"

    def begins_word(self, byte):
        return byte == ord("&") and not (self.comments or self.quote or self.in_name)

    def word(self, text, at, end):
        """The end of the word that begins with the `&` here, and what it is; a word directly after a number is none of the known ones."""
        after = at + 1
        while after < end and text[after] in NAME_BYTES:
            after += 1
        what = None if self.after_number else WORDS.get(text[at:after].upper())
        self.passed()
        return after, what

    def passed(self):
        """After a reference, a word, or any other byte."""
        self.in_name = self.after_number = False


def closing(text, at, end):
    """Where the reference closes whose inside begins here; None where it does not. Each inside has a state of its own."""
    states = [State()]
    while at < end:
        state = states[-1]
        if state.is_brace(text[at]):
            state.passed()
            if text[at] == ord("{"):
                states.append(State())
            else:
                states.pop()
                if not states:
                    return at
            at += 1
        else:
            at += state.copied(text, at, end)
    return None


def line_end(text, at, end):
    """The end of a definition's line: its first line feed, or the end."""
    found = text.find(b"\n", at, end)
    return end if found < 0 else found


def is_name(word):
    return bool(word) and word[0] in LETTERS and all(byte in NAME_BYTES for byte in word)


def words_of(inside):
    """The words of a reference: apart by white space, but not between two `"`, which are dropped."""
    words, word, quoted = [], None, False
    for byte in inside:
        if byte == ord('"'):
            word, quoted = word or b"", not quoted
        elif byte in SPACE and not quoted:
            if word is not None:
                words.append(word)
            word = None
        else:
            word = (word or b"") + bytes((byte,))
    return words if word is None else [*words, word]


def text_value(tokens, at, quote):
    """The value of the TEXT that begins after this quote, as the language has it, and its end; None where it is open."""
    value = bytearray()
    while at < len(tokens):
        byte = tokens[at]
        if byte == ord("~") and at + 1 < len(tokens):
            octal = re.match(rb"[0-3][0-7][0-7]", tokens[at + 1 : at + 4])
            if octal:
                value.append(int(octal[0], 8))
                at += 4
            else:
                value += {ord("n"): b"\n", ord("t"): b"\t", ord("r"): b"\r", ord("\n"): b""}.get(tokens[at + 1], tokens[at + 1 : at + 2])
                at += 2
        elif byte == quote and tokens[at + 1 : at + 2] == bytes((quote,)):
            value.append(quote)
            at += 2
        elif byte == quote:
            return bytes(value), at + 1
        else:
            value.append(byte)
            at += 1
    return None


def tokens_of(condition):
    """The tokens of a condition: numbers as Fraction, TEXTs as `("text", value)`, words in capitals, symbols; None where a byte begins none."""
    tokens, at = [], 0
    while at < len(condition):
        byte = condition[at]
        if byte in SPACE:
            at += 1
        elif byte in QUOTES:
            read = text_value(condition, at + 1, byte)
            if read is None:
                return None
            tokens.append(("text", read[0]))
            at = read[1]
        else:
            found = TOKEN.match(condition, at)
            if not found:
                return None
            tokens.append(Fraction(found[0].decode()) if found[0][:1].isdigit() else found[0].upper())
            at = found.end()
    return tokens


def compared(text):
    """A TEXT as the language compares it: letters folded, trailing blanks dropped."""
    return text.lower().rstrip(b" ")


class Given:
    """What an expansion has given so far: its bytes, and the origin of each as a text and an offset."""

    def __init__(self):
        self.bytes, self.origins = bytearray(), []


class Open:
    """A text that is open: its number, its name, its arguments, its own definitions, and the text that includes it."""

    def __init__(self, number, name, arguments, own, outer):
        self.number, self.name, self.arguments, self.own, self.outer = number, name, arguments, own, outer
        self.depth = outer.depth + 1 if outer else 1


class Expander:
    def __init__(self, texts):
        self.texts, self.work, self.globals, self.parts = texts, 0, [], {}

    # ---- limits

    def count(self, more, here, at):
        if self.work + more > MOST_WORK:
            raise Broken("E6", here.number, at)
        self.work += more

    def give(self, given, piece, origins, here, at):
        """Gives bytes on; `at` is the byte or reference that they come from."""
        if len(given.bytes) + len(piece) > MOST_BYTES:
            raise Broken("E6", here.number, at)
        self.count(len(piece), here, at)
        given.bytes += piece
        given.origins += origins

    # ---- names

    def definition(self, here, name):
        """The definition that counts: its kind and its value, or None."""
        name = name.upper()
        while here:
            for known, value, kind in reversed(here.own):
                if known == name:
                    return kind, value
            here = here.outer
        for known, value, kind in reversed(self.globals):
            if known == name:
                return kind, value
        return None

    # ---- texts

    def text(self, here, at=0):
        """The expansion of a text that is opened now; `at` is the place in the text around it."""
        text = self.texts[here.number][1]
        self.count(len(text), here.outer or here, at)
        given = Given()
        self.span(here, 0, len(text), given, "text")
        return given

    def span(self, here, at, end, given, kind):
        """Expands these bytes of the open text. The kind is `text`, or `condition`, or `bytes` where no word counts."""
        text, state = self.texts[here.number][1], State()
        while at < end:
            byte = text[at]
            if state.is_brace(byte) and byte == ord("{"):
                close = closing(text, at + 1, end)
                if close is None:
                    raise Broken("E1", here.number, at)
                inside = Given()
                self.span(here, at + 1, close, inside, "bytes")
                self.reference(here, at, words_of(inside.bytes), given)
                state.passed()
                at = close + 1
            elif kind != "bytes" and state.begins_word(byte):
                after, what = state.word(text, at, end)
                at = self.word(here, at, after, end, what, given, kind)
            elif state.is_brace(byte):
                state.passed()
                self.give(given, b"}", [(here.number, at)], here, at)
                at += 1
            else:
                for _ in range(state.copied(text, at, end)):
                    self.give(given, text[at : at + 1], [(here.number, at)], here, at)
                    at += 1

    # ---- references

    def reference(self, here, at, words, given):
        if not words:
            raise Broken("E2", here.number, at)
        [first, *rest] = words
        if not rest and first[:1] == b"&" and is_name(first[1:]):
            known = self.definition(here, first[1:])
            value = known[1] if known else b""
            self.give(given, value, [(here.number, at)] * len(value), here, at)
        elif not rest and first.isdigit():
            which = int(first)
            value = here.name if which == 0 else here.arguments[which - 1] if which <= len(here.arguments) else b""
            self.give(given, value, [(here.number, at)] * len(value), here, at)
        else:
            self.file(here, at, first, rest, given)

    def file(self, here, at, name, words, given):
        arguments, own = [], []
        if not name:
            raise Broken("E2", here.number, at)
        for word in words:
            if word[:1] != b"&":
                arguments.append(word)
                continue
            defined, sign, value = word[1:].partition(b"=")
            if not sign or not is_name(defined):
                raise Broken("E2", here.number, at)
            own.append((defined.upper(), value, "argument"))
        if here.depth == MOST_OPEN:
            raise Broken("E5", here.number, at)
        for number, (known, _) in enumerate(self.texts):
            if known == name:
                break
        else:
            raise Needed(name)
        extra = self.text(Open(number, name, arguments, own, here), at)
        self.give(given, extra.bytes, extra.origins, here, at)

    # ---- words with `&`

    def word(self, here, at, after, end, what, given, kind):
        """Does what the word says, and gives where the text goes on."""
        if kind == "condition":
            raise Broken("E7", here.number, at)
        if what in ("scoped", "global"):
            return self.definition_line(here, at, after, end, what)
        if what == "if":
            return self.conditional(here, at, after, end, given)
        raise Broken("E3" if what else "E7", here.number, at)

    def definition_line(self, here, at, after, end, what):
        stop = line_end(self.texts[here.number][1], after, end)
        line = Given()
        self.span(here, after, stop, line, "bytes")
        name, *value = bytes(line.bytes).strip(SPACE).split(None, 1) or [b""]
        if not is_name(name):
            raise Broken("E7", here.number, at)
        known = (name.upper(), value[0] if value else b"", what)
        (self.globals if what == "global" else here.own).append(known)
        return stop

    def cuts(self, number, at, end):
        """The words &THEN, &ELSEIF, &ELSE and &ENDIF of the &IF whose condition begins here, up to its &ENDIF: each with its offset and its
        end. None where it has no &ENDIF."""
        if (number, at) not in self.parts:
            self.parts[number, at] = self.found_cuts(self.texts[number][1], at, end)
        return self.parts[number, at]

    def found_cuts(self, text, at, end):
        found, nested, state = [], 0, State()
        while at < end:
            byte = text[at]
            if state.is_brace(byte):
                close = closing(text, at + 1, end) if byte == ord("{") else at
                if close is None:
                    return None
                state.passed()
                at = close + 1
            elif state.begins_word(byte):
                after, what = state.word(text, at, end)
                if what in ("scoped", "global"):
                    after = line_end(text, after, end)
                elif what == "if":
                    nested += 1
                elif what == "endif" and nested:
                    nested -= 1
                elif what and not nested:
                    found.append((what, at, after))
                    if what == "endif":
                        return found
                at = after
            else:
                at += state.copied(text, at, end)
        return None

    def conditional(self, here, at, after, end, given):
        """Gives the chosen part, and gives where the text goes on. The words are looked at in their order up to the one that ends the chosen
        part, and each must be one that may be there; then all up to &ENDIF is passed over."""
        cuts = self.cuts(here.number, after, end)
        if cuts is None:
            raise Broken("E3", here.number, at)
        head, start, before = at, after, "if"
        for what, begins, ends in cuts:
            if before in ("if", "elseif"):
                holds = self.condition(here, head, start, begins, what)
            elif holds:
                self.span(here, start, begins, given, "text")
            if what not in FOLLOWS[before]:
                raise Broken("E3", here.number, begins)
            if before in ("then", "else") and holds:
                break
            if what == "else":
                holds = True
            head, start, before = begins, ends, what
        return cuts[-1][2]

    def condition(self, here, head, start, end, what):
        """Whether the condition holds that these bytes are; `what` is the word after it."""
        read = Given()
        self.span(here, start, end, read, "condition")
        if what != "then":
            raise Broken("E3", here.number, end)
        holds = self.truth(here, bytes(read.bytes))
        if holds is None:
            raise Broken("E4", here.number, head)
        return holds

    def truth(self, here, condition):
        """Whether a condition holds; None where it has no form of one."""
        tokens = tokens_of(condition)
        if tokens is None:
            return None
        turned = tokens[:1] == [b"NOT"]
        values, signs, at = [], [], 1 if turned else 0
        while at < len(tokens):
            token = tokens[at]
            if token == b"DEFINED" and tokens[at + 1 : at + 2] == [b"("] and tokens[at + 3 : at + 4] == [b")"]:
                name = tokens[at + 2]
                if not isinstance(name, bytes) or not is_name(name):
                    return None
                known = self.definition(here, name)
                values.append(Fraction(KINDS[known[0]] if known else 0))
                at += 4
            elif isinstance(token, (Fraction, tuple)):
                values.append(token)
                at += 1
            else:
                return None
            if at < len(tokens):
                signs.append(tokens[at])
                at += 1
                if at == len(tokens):
                    return None
        if len(values) == 1 and isinstance(values[0], Fraction):
            return (values[0] != 0) != turned
        if len(values) != 2 or signs[0] not in (b"=", b"<>") or type(values[0]) is not type(values[1]):
            return None
        one, other = (value if isinstance(value, Fraction) else compared(value[1]) for value in values)
        return ((one == other) == (signs[0] == b"=")) != turned


# Which words may follow each word of an &IF, after its condition or part.
FOLLOWS = {
    "if": ("then",),
    "elseif": ("then",),
    "then": ("elseif", "else", "endif"),
    "else": ("endif",),
}


def place_of(text, at):
    """The line and column of an offset, both from 1."""
    return text.count(b"\n", 0, at) + 1, at - (text.rfind(b"\n", 0, at) + 1) + 1


def places_of(text):
    """The places of all offsets of a text, its end included."""
    places, line, column = [], 1, 1
    for byte in text:
        places.append((line, column))
        line, column = (line + 1, 1) if byte == ord("\n") else (line, column + 1)
    return [*places, (line, column)]


def expansion(texts):
    """What the texts, the source first, expand to: `gives`, `breaks` or `needs`, as is said above."""
    try:
        given = Expander(texts).text(Open(0, texts[0][0], [], [], None))
    except Broken as broken:
        return "breaks", broken.rule, broken.text, place_of(texts[broken.text][1], broken.at)
    except Needed as needed:
        return "needs", needed.name
    places = {number: places_of(texts[number][1]) for number in {0, *(text for text, _ in given.origins)}}
    origins = [(text, *places[text][at]) for text, at in given.origins]
    return "gives", bytes(given.bytes), [*origins, (0, *places[0][-1])]


def pieces(bytes_given, origins):
    """The expansion in pieces: each with its origin, and bytes that go on from it in one text."""
    found, follows = [], None
    for byte, origin in zip(bytes_given, origins):
        text, line, column = origin
        if origin != follows:
            found.append((origin, bytearray()))
        found[-1][1].append(byte)
        follows = (text, line + 1, 1) if byte == ord("\n") else (text, line, column + 1)
    return [(origin, bytes(piece)) for origin, piece in found]


def expanded_from(source, folder):
    """The expansion of a file, whose include files are read from a folder; and the texts that were read."""
    texts = [(source.encode(), Path(source).read_bytes())]
    while True:
        found = expansion(texts)
        if found[0] != "needs":
            return found, texts
        path = Path(folder) / found[1].decode("utf-8", "surrogateescape")
        if not path.is_file():
            return found, texts
        texts.append((found[1], path.read_bytes()))


def main(arguments):
    if arguments == ["--help"]:
        print(__doc__.strip())
        return 0
    with_places = arguments[:1] == ["--places"]
    arguments = arguments[with_places:]
    if len(arguments) not in (1, 2):
        print(__doc__)
        return 1
    found, texts = expanded_from(arguments[0], (arguments[1:] or ["."])[0])
    if found[0] == "needs":
        print("cannot read", found[1].decode(errors="replace"), file=sys.stderr)
        return 2
    if found[0] == "breaks":
        print("{} at {}:{}:{}".format(found[1], texts[found[2]][0].decode(errors="replace"), *found[3]), file=sys.stderr)
        return 4
    if with_places:
        for (text, line, column), piece in pieces(found[1], found[2]):
            print(f"{texts[text][0].decode(errors='replace')}:{line}:{column} {piece}")
    else:
        sys.stdout.buffer.write(found[1])
    return 0


if __name__ == "__main__":
    sys.setrecursionlimit(20_000)
    sys.exit(main(sys.argv[1:]))
