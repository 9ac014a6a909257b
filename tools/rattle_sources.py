"""Reads crates.txt and the sources of crates for tools/crates and tools/check_house: the crates with what they depend on, the functions and constants of
each crate, and what each function names. Names are resolved by modules and imports; methods by name alone, so what is found is never too little."""
import dataclasses
import functools
import pathlib
import re
import sys

if __name__ == "__main__" and sys.argv[1:] == ["--help"]:
    print(__doc__.strip())
    sys.exit()

TOP = pathlib.Path(__file__).resolve().parent.parent
CRATES = TOP / "crates"
LIST = TOP / "crates.txt"
CATALOGUE = TOP / "docs" / "architecture.md"


@dataclasses.dataclass
class Line:
    """A line of crates.txt: the crate, the words between its name and the colon, the crates that it depends on, and the heading it is under."""
    name: str
    words: list
    below: list
    heading: str


def read_list(text=None):
    """The lines of crates.txt in order."""
    lines, heading = [], ""
    for line in (LIST.read_text() if text is None else text).split("\n"):
        if line.startswith("#"):
            heading = line[1:].strip()
        elif ":" in line:
            front, _, below = line.partition(":")
            name, *words = front.split()
            lines.append(Line(name, words, below.split(), heading))
    return lines


def read_catalogue(text=None):
    """The layers of docs/architecture.md, each with its crates, in order: the tables under the headings '### LAYER' of '## The crates', whose rows
    begin with a link to a crate."""
    layers, inside = [], False
    for line in (CATALOGUE.read_text() if text is None else text).split("\n"):
        if line.startswith("## "):
            inside = line == "## The crates"
        elif inside and line.startswith("### "):
            layers.append((line[4:].strip(), []))
        elif inside and layers and (row := re.match(r"\| \[`(\w+)`\]\(\.\./crates/(\w+)/README\.md\) \|", line)):
            layers[-1][1].append(row[1])
    return layers


def all_below(lines):
    """For each crate those that it depends on, through others too."""
    direct = {line.name: line.below for line in lines}

    @functools.cache
    def below(name):
        found = set()
        for one in direct.get(name, ()):
            if one in direct and one not in found:
                found |= {one} | below(one)
        return frozenset(found)
    return {name: below(name) for name in direct}


def spaces(text):
    """As many characters, all blanks but the ends of lines."""
    return re.sub(r"[^\n]", " ", text)


PLAIN = re.compile(r"""//[^\n]*|/\*.*?\*/|b?r(#*)".*?"\1|b?"(?:\\.|[^"\\])*"|b?'(?:\\[^\n']+|[^'\\\n])'""", re.S)


def without_texts(text):
    """The source with blanks for comments and for the contents of texts and of characters."""
    return PLAIN.sub(lambda found: spaces(found[0]) if found[0].startswith("/") else '"' + spaces(found[0])[2:] + '"', text)


def end_of(text, at, opening, closing):
    """The place after the bracket that closes the one at `at`."""
    depth = 0
    for found in re.compile("[" + re.escape(opening + closing) + "]").finditer(text, at):
        depth += 1 if found[0] == opening else -1
        if depth == 0:
            return found.end()
    return len(text)


def code_of(text):
    """The source with blanks for all that is not code: comments, texts, ghost items, clauses of contracts, attributes."""
    text = without_texts(text)
    parts, at = [], 0
    for found in re.finditer(r"\bghost\b|\b(?:requires|ensures)\b\*?[\w\s]*\{|#!?\[", text):
        if found.start() < at:
            continue
        if found[0] == "ghost":
            end = found.end()
            while end < len(text) and text[end] not in ";,}":
                end = end_of(text, end, "{", "}") if text[end] == "{" else end + 1
            end += text[end:end + 1] != "}"
        elif found[0].endswith("["):
            end = end_of(text, found.end() - 1, "[", "]")
        else:
            end = end_of(text, found.end() - 1, "{", "}")
        parts += [text[at:found.start()], spaces(text[found.start():end])]
        at = end
    return "".join(parts) + text[at:]


TOKEN = re.compile(r"'\w+|[A-Za-z_]\w*|\d[\w.]*?(?=\.\.|[^\w.]|\.[A-Za-z_]|$)|::|\.\.=|\.\.|->|=>|\S")


@dataclasses.dataclass
class Item:
    """A function or a constant: where it is, for a method the type and the trait of its `impl` or `trait`, and what it names."""
    kind: str
    name: str
    crate: str
    module: tuple
    path: pathlib.Path
    first: int
    last: int
    public: bool
    of_type: str = ""
    of_trait: str = ""
    has_body: bool = True
    is_empty: bool = False
    is_test: bool = False
    uses: list = dataclasses.field(default_factory=list)

    def label(self):
        """The name as a person writes it."""
        owner = f"{self.of_type or self.of_trait}::" if self.of_type or self.of_trait else ""
        return f"{self.crate}: {owner}{self.name}"


class Module:
    """What a module has by name: imports and the types, traits and aliases that it defines."""

    def __init__(self):
        self.imports, self.globs, self.types, self.aliases = {}, [], set(), {}


class Sources:
    """All crates given, read."""

    def __init__(self, names):
        self.items, self.modules, self.traits, self.loose = [], {}, {}, []
        self.crates = set(names)
        for name in names:
            for path in sorted((CRATES / name / "src").rglob("*.rt")):
                Reader(self, name, path).read()


class Reader:
    """Reads one file."""

    def __init__(self, sources, crate, path):
        self.sources, self.crate, self.path = sources, crate, path
        inside = path.relative_to(CRATES / crate / "src").with_suffix("").parts
        self.module = () if inside in (("lib",), ("main",)) else tuple(part for part in inside if part != "mod")
        text = path.read_text()
        self.has_tests = bool(re.search(r"#\[(?:test|cfg\(test\))", text))
        code = code_of(text)
        self.tokens = [(found[0], found.start()) for found in TOKEN.finditer(code) if not found[0].startswith("'")]
        self.starts = [0] + [found.end() for found in re.finditer("\n", code)]

    def line(self, at):
        """The number of the line of the token."""
        import bisect
        return bisect.bisect_right(self.starts, self.tokens[min(at, len(self.tokens) - 1)][1])

    def read(self):
        self.items(0, len(self.tokens), self.module, "", "", "")

    def word(self, at):
        return self.tokens[at][0] if at < len(self.tokens) else ""

    def closing(self, at):
        """The place after the bracket that closes the one at `at`."""
        depth = 0
        while at < len(self.tokens):
            if self.word(at) in "([{":
                depth += 1
            elif self.word(at) in ")]}":
                depth -= 1
                if depth == 0:
                    return at + 1
            at += 1
        return at

    def until(self, at, words):
        """The first place from `at` on, outside brackets, that has one of the words."""
        while at < len(self.tokens) and self.word(at) not in words:
            at = self.closing(at) if self.word(at) in ("(", "[", "{") else at + 1
        return at

    def items(self, at, end, module, of_type, of_trait, kind):
        """Reads the items from `at` to `end`."""
        here = self.sources.modules.setdefault((self.crate, module), Module())
        public = False
        while at < end:
            word = self.word(at)
            if word == "pub":
                public = True
                at = self.closing(at + 1) if self.word(at + 1) == "(" else at + 1
                continue
            if word == "fn":
                at = self.function(at, module, of_type, of_trait, kind, public)
            elif word in ("const", "static") and self.word(at + 1) != "fn":
                at = self.constant(at, module, of_type, of_trait, public)
            elif word in ("const", "unsafe", "async", "extern"):
                at += 1
                continue
            elif word == "use":
                stop = self.until(at, (";",))
                self.imports(at + 1, stop, here, module)
                at = stop + 1
            elif word == "mod":
                if self.word(at + 2) == "{":
                    stop = self.closing(at + 2)
                    self.items(at + 3, stop - 1, module + (self.word(at + 1),), "", "", "")
                    at = stop
                else:
                    at += 3
            elif word == "impl":
                at = self.implementation(at, module)
            elif word == "trait":
                name, body = self.word(at + 1), self.until(at, ("{",))
                here.types.add(name)
                self.sources.traits.setdefault(name, set()).add(self.crate)
                stop = self.closing(body)
                self.items(body + 1, stop - 1, module, "", name, "trait")
                at = stop
            elif word in ("struct", "enum", "union", "type"):
                name = self.word(at + 1)
                here.types.add(name)
                stop = self.until(at, (";", "{"))
                if word == "type":
                    stop = self.until(at, (";",))
                    here.aliases[name] = [w for w, _ in self.tokens[at + 3:stop] if re.match(r"[A-Z]\w*$", w)][:1]
                at = self.closing(stop) if self.word(stop) == "{" else stop + 1
            else:
                # A macro among the items, or what this reader does not know: all that it names counts as named.
                stop = self.closing(at) if word in ("(", "[", "{") else at + 1
                self.sources.loose.append((self.crate, module, of_type, self.uses(at, stop, set())))
                at = stop
            public = False
        return at

    def implementation(self, at, module):
        """Reads an `impl`."""
        body = self.until(at, ("{",))
        header = [word for word, _ in self.tokens[at + 1:body]]
        if header and header[0] == "<":
            depth = 0
            for place, word in enumerate(header):
                depth += (word == "<") - (word == ">")
                if depth == 0:
                    header = header[place + 1:]
                    break
        if "where" in header:
            header = header[:header.index("where")]
        of_trait = ""
        if "for" in header:
            of_trait, header = last_name(header[:header.index("for")]), header[header.index("for") + 1:]
        stop = self.closing(body)
        self.items(body + 1, stop - 1, module, last_name(header), of_trait, "impl")
        return stop

    def function(self, at, module, of_type, of_trait, kind, public):
        """Reads a function."""
        name, body = self.word(at + 1), self.until(at, ("{", ";"))
        has_body = self.word(body) == "{"
        end = self.closing(body) if has_body else body + 1
        bound = {self.word(k) for k in range(at, body) if self.word(k + 1) == ":"}
        bound |= {self.word(k) for k in range(body, end) if self.word(k - 1) in ("let", "mut", "for", "|", "ref") and self.word(k + 1) != "("}
        item = Item("fn", name, self.crate, module, self.path, self.line(at), self.line(end - 1), public or (kind != "" and of_trait != ""), of_type, of_trait,
                    has_body, has_body and end - body == 2, self.has_tests, self.uses(at + 2, end, bound))
        self.sources.items.append(item)
        # A function inside a function is one of its module.
        for inner in range(body, end):
            if self.word(inner) == "fn" and re.match(r"[A-Za-z_]\w*$", self.word(inner + 1)):
                self.function(inner, module, "", "", "", False)
        return end

    def constant(self, at, module, of_type, of_trait, public):
        """Reads a constant."""
        name_at = at + 2 if self.word(at + 1) == "mut" else at + 1
        stop = self.until(at, (";",))
        item = Item("const", self.word(name_at), self.crate, module, self.path, self.line(at), self.line(stop), public, of_type, of_trait,
                    uses=self.uses(name_at + 1, stop, set()))
        self.sources.items.append(item)
        return stop + 1

    def imports(self, at, stop, here, module):
        """Reads what `use` names."""
        def tree(at, front):
            path = list(front)
            while at < stop:
                word = self.word(at)
                if word == "{":
                    end = self.closing(at)
                    place = at + 1
                    while place < end - 1:
                        place = tree(place, path)
                        if self.word(place) == ",":
                            place += 1
                    return end
                if word == "*":
                    here.globs.append((self.crate, module, path))
                    return at + 1
                if word == "::":
                    at += 1
                    continue
                if word in (",", "}", "as"):
                    break
                path.append(word)
                at += 1
            name = path[-1]
            if name == "self":
                path = path[:-1]
                name = path[-1]
            if self.word(at) == "as":
                name = self.word(at + 1)
                at += 2
            here.imports.setdefault(name, []).append(path)
            return at
        tree(at, [])

    def uses(self, at, stop, bound):
        """What the tokens name: ('method', name), ('path', parts), ('call', name), ('value', name)."""
        found = []
        while at < stop:
            word, before, after = self.word(at), self.word(at - 1), self.word(at + 1)
            if not re.match(r"[A-Za-z_]\w*$", word):
                at += 1
                continue
            if before == ".":
                if after in ("(", "::"):
                    found.append(("method", word))
                at += 1
                continue
            if before == "::":
                # What follows `<T as Trait>::` or a type with arguments.
                found.append(("method", word))
                at += 1
                continue
            parts, place = [word], at + 1
            while self.word(place) == "::":
                if self.word(place + 1) == "<":
                    first, depth, place = place + 2, 0, place + 1
                    while place < stop:
                        depth += (self.word(place) == "<") - (self.word(place) == ">")
                        place += 1
                        if depth == 0:
                            break
                    found += self.uses(first, place - 1, bound)
                    continue
                if not re.match(r"[A-Za-z_]\w*$", self.word(place + 1)):
                    break
                parts.append(self.word(place + 1))
                place += 2
            if len(parts) > 1:
                found.append(("path", tuple(parts)))
            elif self.word(place) == "(":
                found.append(("call", word))
            elif self.word(place) not in (":", "!") and word not in bound:
                found.append(("value", word))
            at = place
        return found


def last_name(words):
    """The name of a type, without its path, references and arguments."""
    name, depth = "", 0
    for word in words:
        if word in "<([":
            depth += 1
        elif word in ">)]":
            depth -= 1
        elif depth == 0 and re.match(r"[A-Za-z_]\w*$", word) and word not in ("mut", "dyn", "const"):
            name = word
    return name


class Graph:
    """Which function names which."""

    def __init__(self, sources, below):
        self.sources, self.below = sources, below
        self.plain, self.methods = {}, {}
        for item in sources.items:
            if item.of_type or item.of_trait:
                self.methods.setdefault(item.name, []).append(item)
            else:
                self.plain.setdefault((item.crate, item.module, item.name), []).append(item)
        self.repository_traits = set(sources.traits)
        self.type_names = {name for module in sources.modules.values() for name in module.types}

    def sees(self, crate, other):
        return other == crate or other in self.below[crate]

    def by_method(self, crate, name, owner=None):
        """The methods of that name that a call in the crate may be: of a type or trait below it; what a trait of the repository has, each crate may
        implement."""
        found = []
        for item in self.methods.get(name, ()):
            if owner is not None and owner not in (item.of_type, item.of_trait):
                continue
            if item.of_trait in self.repository_traits:
                if any(self.sees(crate, home) for home in self.sources.traits[item.of_trait]):
                    found.append(item)
            elif self.sees(crate, item.crate):
                found.append(item)
        return found

    def in_module(self, crate, module, parts, seen, but=None):
        """What a path names, from a module on, its imports of the name `but` left out."""
        key = (crate, module, tuple(parts))
        here = self.sources.modules.get((crate, module))
        if here is None or key in seen or not parts:
            return []
        seen.add(key)
        head, rest = parts[0], parts[1:]
        found = []
        if not rest:
            found += self.plain.get((crate, module, head), ())
        elif (crate, module + (head,)) in self.sources.modules:
            found += self.in_module(crate, module + (head,), rest, seen)
        if rest and head in here.types:
            found += self.of_type(crate, here.aliases.get(head, [head]), rest)
        for path in here.imports.get(head, ()) if head != but else ():
            found += self.from_path(crate, module, list(path) + list(rest), "", seen, head)
        for home, place, path in here.globs:
            found += self.from_path(home, place, list(path) + list(parts), "", seen)
        return found

    def of_type(self, crate, names, rest):
        return [item for name in names for item in self.by_method(crate, rest[0], name)]

    def from_path(self, crate, module, parts, of_type, seen=None, but=None):
        """What a path names that stands in a module, its imports of the name `but` left out."""
        seen = set() if seen is None else seen
        head = parts[0]
        if head == "crate":
            return self.in_module(crate, (), parts[1:], seen)
        if head == "self":
            return self.in_module(crate, module, parts[1:], seen)
        if head == "super":
            return self.in_module(crate, module[:-1], parts[1:], seen) or (self.from_path(crate, module[:-1], parts[1:], of_type, seen) if parts[1:2] == ["super"] else [])
        if head == "Self" and len(parts) > 1:
            return self.by_method(crate, parts[1], of_type) or self.by_method(crate, parts[1])
        found = self.in_module(crate, module, parts, seen, but)
        if not found and head in self.sources.crates and head != crate:
            found = self.in_module(head, (), parts[1:], seen)
        return found

    def named(self, crate, module, of_type, uses):
        """The items that some uses may be."""
        found = []
        for kind, what in uses:
            if kind == "method":
                found += self.by_method(crate, what)
            elif kind == "path":
                some = self.from_path(crate, module, list(what), of_type)
                if not some and len(what) > 1 and not self.is_foreign(crate, module, what[0]):
                    some = self.by_method(crate, what[-1])
                found += some
            else:
                found += self.in_module(crate, module, [what], set())
        return found

    def is_foreign(self, crate, module, head):
        """Whether the first part of a path is no name of the repository: a type or module of std or of the kit."""
        here = self.sources.modules[(crate, module)]
        if head in here.types or head in self.type_names and head not in here.imports:
            return False
        if head in here.imports:
            return all(path[0] in ("std", "core", "alloc") or path[0] not in self.sources.crates | {"crate", "self", "super"} for path in here.imports[head])
        return len(head) > 1

    def reached(self, roots):
        """All that is reached from the roots, and from what the kit calls: methods of traits that are not of the repository."""
        todo, done = list(roots), set()
        for item in self.sources.items:
            if item.of_trait and item.of_trait not in self.repository_traits and not item.is_test:
                todo.append(item)
        for crate, module, of_type, uses in self.sources.loose:
            todo += self.named(crate, module, of_type, uses)
        while todo:
            item = todo.pop()
            if id(item) in done:
                continue
            done.add(id(item))
            todo += self.named(item.crate, item.module, item.of_type, item.uses)
        return done
