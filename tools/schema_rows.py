#!/usr/bin/env python3
"""Writes the section `schemas` of crates/test_sources: its files in `stdin`, and the answers that must come in `stdout`.

Each answer is written by hand from the rules of docs/formats.md ('Schema files'), save the long
ones of the limits, which are counted out here. None comes from an answer of the program. It runs from anywhere."""

import sys

if __name__ == "__main__" and sys.argv[1:] == ["--help"]:
    print(__doc__.strip())
    sys.exit()
from sections import put

ROWS = []


def shown(text):
    """Bytes as the program writes them."""
    return "".join(c if c == "\n" or 32 <= ord(c) <= 126 and c != "%" else f"%{ord(c):02x}" for c in text)


def row(name, text, answer):
    ROWS.append((name, text, answer))


def good(name, text, canonical):
    """A file without violation, and its canonical text, a line each."""
    row(name, text, "".join(line + "\n" for line in canonical) + "end")


def bad(name, text, rule, line):
    row(name, text, f"{rule} at line {line}")


def field(name, kind, *attributes, table="t"):
    return f'ADD FIELD "{name}" OF "{table}" AS {kind}\n' + "".join(f"  {a}\n" for a in attributes)


def index(name, *attributes, table="t"):
    return f'ADD INDEX "{name}" ON "{table}"\n' + "".join(f"  {a}\n" for a in attributes)


def sequence(name, *attributes):
    return f'ADD SEQUENCE "{name}"\n' + "".join(f"  {a}\n" for a in attributes)


T = 'ADD TABLE "t"\n'
UP, DOWN = 'INDEX-FIELD "f" ASCENDING', 'INDEX-FIELD "f" DESCENDING'
F = field("f", "integer")


def one(kind, *attributes):
    """A table with one field."""
    return T + field("f", kind, *attributes)


def initial(name, kind, attributes, value, mandatory="O"):
    good(name, one(kind, *attributes), ["T t", f"F f {kind.upper()} {mandatory} {value}"])


# ---- the worked file

WORKED = """ADD TABLE "Item"
  AREA "Data Area"
  LABEL "Items"
  DUMP-NAME "item"

ADD FIELD "ItemNum" OF "Item" AS integer
  FORMAT "zzzzzzzzz9"
  INITIAL "0"
  MAX-WIDTH 4
  ORDER 10
  MANDATORY

ADD FIELD "Sizes" OF "Item" AS decimal
  EXTENT 3
  ORDER 20

ADD INDEX "ItemNum" ON "Item"
  AREA "Index Area"
  UNIQUE
  PRIMARY
  INDEX-FIELD "ItemNum" ASCENDING

.
PSC
cpstream=UTF-8
.
0000000512
"""
WORKED_TEXT = ["T item", "F itemnum INTEGER M 0", "F sizes - O ?", "I itemnum U P itemnum A"]
good("worked", WORKED, WORKED_TEXT)
good("worked spelt", WORKED, WORKED_TEXT + ["t Item=0 ItemNum=0 [zzzzzzzzz9] Sizes=1 [] i ItemNum"])
good("worked with carriage returns", WORKED.replace("\n", "\r\n"), WORKED_TEXT)
good("worked with tabs", WORKED.replace("  ", "\t"), WORKED_TEXT)

# ---- lines

good("empty", "", [])
good("one line feed", "\n", [])
good("blank lines", "\n \n\t\n\r\n", [])
good("period alone", ".\n", [])
good("last line without a line feed", 'ADD TABLE "t"', ["T t"])
good("period without a line feed", T + ".", ["T t"])
good("period between blanks", T + " \t. \r\n" + "ADD garbage\n", ["T t"])
good("violation after the period", T + ".\n" + T + "DROP TABLE\n", ["T t"])
good("two periods are no end", T + "..\n" + field("f", "date"), ["T t", "F f DATE O ?"])
good("blanks around", ' \t ADD TABLE "t" \t\n', ["T t"])
good("tabs between", 'ADD\tTABLE\t\t"t"\n', ["T t"])
good("no blank before a quotation mark", 'ADD TABLE"t"\n', ["T t"])
good("small words are skipped", T + 'add table "u"\nupdate table "t"\ndrop table "t"\n', ["T t"])
good("longer words are skipped", T + "ADDED\nUPDATES\nDROP-IT\nRENAMED\n", ["T t"])
good("other lines are skipped", 'UNIQUE\nINITIAL "x"\nsome text\n"quoted"\n"open\n' + T, ["T t"])
good("attributes before an item are skipped", "ORDER x\nINCREMENT 0\n" + T, ["T t"])
good("words after an attribute are skipped", one("integer", "ORDER 10 20", 'INITIAL "5" "x"', "MANDATORY yes"), ["T t", "F f INTEGER M 5"])
good("attributes of a table are skipped", T + '  INITIAL "x"\n  ORDER x\n  INDEX-FIELD "q" ASCENDING\n  INCREMENT 0\n', ["T t"])
good("attributes of another item are skipped", T + field("f", "integer", "INCREMENT 0", "PRIMARY", 'INDEX-FIELD "q" ASCENDING') + index("i", "ORDER x", "EXTENT x", 'INITIAL "x"', "INCREMENT 0", "MANDATORY", UP) + sequence("s", "ORDER x", "EXTENT 4", "PRIMARY"), ["T t", "F f INTEGER O 0", "I i N P f A", "S s 0 1"])
good("small attributes are skipped", one("integer", "mandatory", "order x", 'initial "x"'), ["T t", "F f INTEGER O 0"])

# ---- F1

bad("table without quotation marks", "ADD TABLE customer\n", "F1", 1)
bad("table with single quotation marks", "ADD TABLE 't'\n", "F1", 1)
bad("table without a name", "ADD TABLE\n", "F1", 1)
bad("open name", 'ADD TABLE "t\n', "F1", 1)
bad("words after a table", 'ADD TABLE "t" TYPE 1\n', "F1", 1)
bad("name twice", 'ADD TABLE "t" "u"\n', "F1", 1)
bad("ADD alone", "ADD\n", "F1", 1)
bad("ADD at a name", 'ADD"t"\n', "F1", 1)
bad("ADD of another thing", 'ADD DATABASE "d"\n', "F1", 1)
bad("ADD of a small thing", 'ADD table "t"\n', "F1", 1)
bad("UPDATE", T + '\nUPDATE TABLE "t"\n', "F1", 3)
bad("DROP", T + "\n\n DROP INDEX\n", "F1", 4)
bad("RENAME", T + 'RENAME TABLE "t" TO "u"\n', "F1", 2)
bad("field without OF", T + 'ADD FIELD "f" "t" AS date\n', "F1", 2)
bad("field with small words", T + 'ADD FIELD "f" of "t" as date\n', "F1", 2)
bad("field without a type", T + 'ADD FIELD "f" OF "t" AS\n', "F1", 2)
bad("field with a quoted type", T + 'ADD FIELD "f" OF "t" AS "date"\n', "F1", 2)
bad("field with two types", T + 'ADD FIELD "f" OF "t" AS date date\n', "F1", 2)
bad("index with OF", T + F + 'ADD INDEX "i" OF "t"\n', "F1", 3)
bad("words after an index", T + F + 'ADD INDEX "i" ON "t" UNIQUE\n', "F1", 3)
bad("index without a table", T + F + 'ADD INDEX "i" ON\n', "F1", 3)
bad("words after a sequence", 'ADD SEQUENCE "s" 1\n', "F1", 1)
bad("F1 before F3", T + 'ADD TABLE "t" x\n', "F1", 2)
bad("a malformed line ends the item before", T + F + 'ADD INDEX "i" ON "t"\nDROP\n  ' + UP + "\n", "F8", 3)

# ---- F2

bad("empty name", 'ADD TABLE ""\n', "F2", 1)
bad("name with a digit first", 'ADD TABLE "1t"\n', "F2", 1)
bad("name with a blank", 'ADD TABLE "a b"\n', "F2", 1)
bad("name with a quotation mark", 'ADD TABLE "a""b"\n', "F2", 1)
bad("name with a point", 'ADD SEQUENCE "a.b"\n', "F2", 1)
bad("name with a letter of two bytes", 'ADD TABLE "\xc3\xa4"\n', "F2", 1)
good("name with all signs", 'ADD TABLE "a#$%&-_9Z"\n', ["T a#$%25&-_9z"])
good("name of 32 bytes", f'ADD TABLE "{"a" * 32}"\n', ["T " + "a" * 32])
bad("name of 33 bytes", f'ADD TABLE "{"a" * 33}"\n', "F2", 1)
bad("field name of 33 bytes", T + field("a" * 33, "date"), "F2", 2)
bad("index name of 33 bytes", T + F + index("a" * 33, UP), "F2", 3)
good("keyword as a name", 'ADD TABLE "FIND"\n', ["T find"])
bad("F2 before F4 in a field", T + field("f", "date", table="1u"), "F2", 2)
bad("F2 before F4 in an index", T + index("i", UP, table="1u"), "F2", 2)
bad("F2 before F8", T + F + index("1i"), "F2", 3)
bad("F2 in INDEX-FIELD", T + F + index("i", 'INDEX-FIELD "1f" ASCENDING'), "F2", 4)

# ---- F3 to F7

bad("a table twice", T + 'ADD TABLE "u"\nADD TABLE "T"\n', "F3", 3)
bad("a field of an unknown table", T + field("f", "date", table="u"), "F4", 2)
bad("a field before its table", field("f", "date") + T, "F4", 1)
bad("an index of an unknown table", T + index("i", UP, table="u"), "F4", 2)
bad("F4 before F8", T + index("i", table="u"), "F4", 2)
good("table in any case", T + field("f", "date", table="T"), ["T t", "F f DATE O ?"])
bad("a field twice", T + F + field("F", "date", table="T"), "F5", 3)
good("a field of two tables", T + 'ADD TABLE "u"\n' + F + field("f", "date", table="u"), ["T t", "F f INTEGER O 0", "T u", "F f DATE O ?"])
bad("an index twice", T + F + index("i", UP) + index("I", UP), "F6", 5)
bad("a skipped index twice", T + F + index("i", UP, "WORD") + index("i", UP), "F6", 6)
bad("F6 before F8", T + F + index("i", UP) + index("i"), "F6", 5)
bad("an unknown component", T + F + index("i", UP, 'INDEX-FIELD "g" ASCENDING'), "F7", 5)
bad("a component of another table", T + F + 'ADD TABLE "u"\n' + index("i", UP, table="u"), "F7", 5)
bad("a component after the index", T + index("i", UP) + F, "F7", 3)
bad("a component without a direction", T + F + index("i", 'INDEX-FIELD "f"'), "F7", 4)
bad("a component with a small direction", T + F + index("i", 'INDEX-FIELD "f" ascending'), "F7", 4)
bad("a component without quotation marks", T + F + index("i", "INDEX-FIELD f ASCENDING"), "F7", 4)
good("a component in any case", T + F + index("i", 'INDEX-FIELD "F" ASCENDING'), ["T t", "F f INTEGER O 0", "I i N P f A"])

# ---- F8, F9

bad("an index without components", T + F + index("i", "UNIQUE") + index("j", UP), "F8", 3)
bad("components of the next index do not count", T + F + index("i") + index("j", UP), "F8", 3)
bad("a component twice", T + F + index("i", UP, 'INDEX-FIELD "F" DESCENDING'), "F8", 3)
bad("an unknown component twice", T + F + index("i", 'INDEX-FIELD "g" ASCENDING', 'INDEX-FIELD "g" ASCENDING'), "F8", 3)
bad("a WORD index without components", T + F + index("i", "WORD"), "F8", 3)
bad("two PRIMARY indexes", T + F + index("i", "PRIMARY", UP) + index("j", UP, "PRIMARY"), "F9", 8)
bad("two PRIMARY indexes, one skipped", T + F + index("i", "PRIMARY", "WORD", UP) + index("j", "PRIMARY", UP), "F9", 8)
good("PRIMARY twice in one index", T + F + index("i", "PRIMARY", "PRIMARY", UP), ["T t", "F f INTEGER O 0", "I i N P f A"])
good("PRIMARY in two tables", T + F + index("i", "PRIMARY", UP) + 'ADD TABLE "u"\n' + field("f", "date", table="u") + index("i", "PRIMARY", UP, table="u"),
     ["T t", "F f INTEGER O 0", "I i N P f A", "T u", "F f DATE O ?", "I i N P f A"])
bad("F7 before F9 by its line", T + F + index("i", "PRIMARY", UP) + index("j", 'INDEX-FIELD "g" ASCENDING', "PRIMARY"), "F7", 7)

# ---- F10

for name, kind, attribute in [
    ("text for an integer", "integer", 'INITIAL "x"'),
    ("empty text for an integer", "integer", 'INITIAL ""'),
    ("decimals for an integer", "integer", 'INITIAL "1.5"'),
    ("integer out of range", "integer", 'INITIAL "2147483648"'),
    ("integer below range", "integer", 'INITIAL "-2147483649"'),
    ("int64 out of range", "int64", 'INITIAL "9223372036854775808"'),
    ("blanks in a number", "integer", 'INITIAL " 1"'),
    ("plus", "integer", 'INITIAL "+1"'),
    ("point first", "decimal", 'INITIAL ".5"'),
    ("eleven decimals", "decimal", 'INITIAL "0.00000000001"'),
    ("decimal out of range", "decimal", 'INITIAL "17014118346046923173168730372"'),
    ("two points", "decimal", 'INITIAL "1.2.3"'),
    ("minus alone", "decimal", 'INITIAL "-"'),
    ("no word of a logical", "logical", 'INITIAL "maybe"'),
    ("part of a word", "logical", 'INITIAL "ye"'),
    ("no date", "date", 'INITIAL "02/30/2024"'),
    ("month 13", "date", 'INITIAL "13/01/24"'),
    ("year of three digits", "date", 'INITIAL "01/01/024"'),
    ("year 0", "date", 'INITIAL "01/01/0000"'),
    ("date with dashes", "date", 'INITIAL "01-01-2024"'),
    ("date and more", "date", 'INITIAL "01/01/2024/"'),
    ("INITIAL without a value", "character", "INITIAL"),
    ("open INITIAL", "character", 'INITIAL "abc'),
    ("ORDER without a number", "character", "ORDER"),
    ("ORDER of a word", "character", "ORDER x"),
    ("ORDER with a minus", "character", "ORDER -1"),
    ("ORDER with a leading zero", "character", "ORDER 010"),
    ("ORDER in quotation marks", "character", 'ORDER "10"'),
    ("ORDER too large", "character", "ORDER 2147483648"),
    ("EXTENT of a word", "character", "EXTENT x"),
    ("EXTENT without a number", "character", "EXTENT"),
]:
    bad(name, one(kind, "MANDATORY", attribute), "F10", 4)
bad("text of 30,001 bytes", one("character", f'INITIAL "{"x" * 30001}"'), "F10", 3)
good("text of 30,000 bytes", one("character", f'INITIAL "{"x" * 30000}"'), ["T t", 'F f CHARACTER O "' + "x" * 30000 + '"'])
bad("INITIAL of a sequence", sequence("s", 'INITIAL "x"'), "F10", 2)
bad("INITIAL of a sequence out of range", sequence("s", "INITIAL 9223372036854775808"), "F10", 2)
bad("INITIAL of a sequence without a value", sequence("s", "INITIAL"), "F10", 2)
bad("first of two INITIAL lines", one("integer", 'INITIAL "x"', 'INITIAL "1"'), "F10", 3)
bad("EXTENT 0 is supported", one("integer", 'INITIAL "x"', "EXTENT 0"), "F10", 3)

# ---- F11

bad("a sequence twice", sequence("s") + T + sequence("S"), "F11", 3)
bad("INCREMENT 0", sequence("s", "INITIAL 5", "INCREMENT 0"), "F11", 3)
bad("INCREMENT of a word", sequence("s", "INCREMENT x"), "F11", 2)
bad("INCREMENT without a number", sequence("s", "INCREMENT"), "F11", 2)
bad("INCREMENT -0", sequence("s", "INCREMENT -0"), "F11", 2)
bad("INCREMENT out of range", sequence("s", "INCREMENT 9223372036854775808"), "F11", 2)
bad("INCREMENT with a leading zero", sequence("s", "INCREMENT 01"), "F11", 2)
good("a sequence", sequence("Next"), ["S next 0 1"])
good("sequences spelt", sequence("Next", "INITIAL 5", "INCREMENT 10", "CYCLE-ON-LIMIT no", "MIN-VAL 0"), ["S next 5 10", "s Next"])
good("a sequence that falls", sequence("s", "INCREMENT -3", "INITIAL -7"), ["S s -7 -3"])
good("bounds of a sequence", sequence("s", 'INITIAL "-9223372036854775808"', "INCREMENT 9223372036854775807"), ["S s -9223372036854775808 9223372036854775807"])
good("numbers of a sequence in quotation marks", sequence("s", 'INITIAL "2"', 'INCREMENT "-3"'), ["S s 2 -3"])
bad("INCREMENT in quotation marks with a blank", sequence("s", 'INCREMENT " 2"'), "F11", 2)
bad("INCREMENT in quotation marks that are open", sequence("s", 'INCREMENT "2'), "F11", 2)
good("last INCREMENT counts", sequence("s", "INCREMENT 2", "INCREMENT 3", "INITIAL 1", "INITIAL 4"), ["S s 4 3"])
good("a sequence named as a table", T + sequence("t"), ["T t", "S t 0 1"])
good("tables and sequences in the order of the file", sequence("a") + 'ADD TABLE "b"\n' + sequence("c") + 'ADD TABLE "a"\n', ["S a 0 1", "T b", "S c 0 1", "T a"])

# ---- initial values

for kind, value in [("character", '""'), ("integer", "0"), ("int64", "0"), ("decimal", "0"), ("logical", "no"), ("date", "?")]:
    initial(f"{kind} without INITIAL", kind, [], value)
    initial(f"{kind} unknown", kind, ["INITIAL ?"], "?")
    initial(f"{kind} unknown in quotation marks", kind, ['INITIAL "?"'], '"?"' if kind == "character" else "?")
for typed, kind in [("INTEGER", "INTEGER"), ("Character", "CHARACTER"), ("dEcImAl", "DECIMAL"), ("LOGICAL", "LOGICAL"), ("Date", "DATE"), ("INT64", "INT64"),
                    ("int", "-"), ("char", "-"), ("dec", "-"), ("log", "-"), ("datetime", "-"), ("datetime-tz", "-"), ("clob", "-"), ("blob", "-"), ("raw", "-"), ("recid", "-")]:
    value = {"INTEGER": "0", "CHARACTER": '""', "DECIMAL": "0", "LOGICAL": "no", "DATE": "?", "INT64": "0", "-": "?"}[kind]
    good(f"type {typed}", one(typed), ["T t", f"F f {kind} O {value}"])
initial("text", "character", ['INITIAL "a ""b"" c"'], '"a ""b"" c"')
initial("text of quotation marks", "character", ['INITIAL """"""'], '""""""')
initial("word as a text", "character", ["INITIAL abc def"], '"abc"')
initial("blanks of a text stay", "character", ['INITIAL "  a  "'], '"  a  "')
initial("no escape in a text", "character", ['INITIAL "a~nb"'], '"a~nb"')
initial("last INITIAL counts", "character", ['INITIAL "a"', 'INITIAL "b"'], '"b"')
initial("integer", "integer", ['INITIAL "-12"'], "-12")
initial("integer as a word", "integer", ["INITIAL 12"], "12")
initial("integer with zeros", "integer", ['INITIAL "007.000"'], "7")
initial("integer with a bare point", "integer", ['INITIAL "5."'], "5")
initial("largest integer", "integer", ['INITIAL "2147483647"'], "2147483647")
initial("least integer", "integer", ['INITIAL "-2147483648"'], "-2147483648")
initial("least int64", "int64", ['INITIAL "-9223372036854775808"'], "-9223372036854775808")
initial("decimal", "decimal", ['INITIAL "-0.50"'], "-0.5")
initial("ten decimals", "decimal", ['INITIAL "1.0000000001"'], "1.0000000001")
initial("largest decimal", "decimal", ['INITIAL "17014118346046923173168730371.5884105727"'], "17014118346046923173168730371.5884105727")
initial("least decimal", "decimal", ['INITIAL "-17014118346046923173168730371.5884105728"'], "-17014118346046923173168730371.5884105728")
bad("one unit above", one("decimal", 'INITIAL "17014118346046923173168730371.5884105728"'), "F10", 3)
for word, value in [("yes", "yes"), ("NO", "no"), ("True", "yes"), ("false", "no"), ("y", "yes"), ("N", "no"), ("t", "yes"), ("F", "no")]:
    initial(f"logical {word}", "logical", [f'INITIAL "{word}"'], value)
initial("logical by its FORMAT", "logical", ['FORMAT "open/shut"', 'INITIAL "shut"'], "no")
initial("logical by a FORMAT that follows", "logical", ['INITIAL "OPEN"', 'FORMAT "open/shut"'], "yes")
initial("FORMAT before yes and no", "logical", ['FORMAT "F/M"', 'INITIAL "f"'], "yes")
initial("yes beside a FORMAT", "logical", ['FORMAT "open/shut"', 'INITIAL "yes"'], "yes")
bad("word of a FORMAT that is no mask", one("logical", 'FORMAT "a/b/c"', 'INITIAL "a"'), "F10", 4)
initial("date", "date", ['INITIAL "2/3/2024"'], "02/03/24")
initial("date of 1950", "date", ['INITIAL "01/01/50"'], "01/01/50")
initial("date of 2049", "date", ['INITIAL "12/31/49"'], "12/31/49")
initial("old date", "date", ['INITIAL "12/31/1949"'], "12/31/1949")
initial("first date", "date", ["INITIAL 1/1/0001"], "01/01/0001")
initial("today", "date", ['INITIAL "TODAY"'], "?")
initial("today as a word", "date", ["INITIAL Today"], "?")

# ---- unsupported kinds

good("INITIAL of an unsupported kind", one("datetime", 'INITIAL "x"', "MANDATORY"), ["T t", "F f - M ?"])
good("EXTENT after INITIAL", one("integer", 'INITIAL "x"', "EXTENT 5"), ["T t", "F f - O ?"])
good("last EXTENT counts", one("integer", "EXTENT 5", "EXTENT 0"), ["T t", "F f INTEGER O 0"])
good("index of an unsupported kind", T + F + field("g", "raw") + index("i", UP, 'INDEX-FIELD "g" ASCENDING') + index("j", UP, "UNIQUE"), ["T t", "F f INTEGER O 0", "F g - O ?", "I j U P f A"])
good("unsupported PRIMARY index", T + F + field("g", "raw") + index("i", UP) + index("j", "PRIMARY", 'INDEX-FIELD "g" ASCENDING') + index("k", DOWN), ["T t", "F f INTEGER O 0", "F g - O ?", "I i N P f A", "I k N N f D"])
good("WORD index", T + field("f", "character") + index("i", "WORD", UP) + index("j", "UNIQUE", DOWN), ["T t", 'F f CHARACTER O ""', "I j U P f D"])
good("no usable index", T + field("f", "raw") + index("i", "PRIMARY", UP), ["T t", "F f - O ?"])

# ---- order of fields, indexes

good("by ORDER", T + field("a", "date") + field("b", "date", "ORDER 30") + field("c", "date", "ORDER 10") + field("d", "date") + field("e", "date", "ORDER 30") + field("g", "date", "ORDER 0"),
     ["T t"] + [f"F {f} DATE O ?" for f in "gcbead"])
good("last ORDER counts", T + field("a", "date", "ORDER 1", "ORDER 9") + field("b", "date", "ORDER 5"), ["T t", "F b DATE O ?", "F a DATE O ?"])
good("ORDER 2147483647 is before none", T + field("a", "date") + field("b", "date", "ORDER 2147483647"), ["T t", "F b DATE O ?", "F a DATE O ?"])
good("components by number", T + field("a", "date", "ORDER 2") + field("b", "integer", "ORDER 1") + index("i", 'INDEX-FIELD "a" DESCENDING', 'INDEX-FIELD "b" ASCENDING ABBREVIATED'),
     ["T t", "F b INTEGER O 0", "F a DATE O ?", "I i N P a D b A"])
good("first index is primary", T + F + index("i", UP) + index("j", DOWN), ["T t", "F f INTEGER O 0", "I i N P f A", "I j N N f D"])
good("PRIMARY index", T + F + index("i", UP) + index("j", DOWN, "PRIMARY", "UNIQUE"), ["T t", "F f INTEGER O 0", "I i N N f A", "I j U P f D"])
good("items of two tables between each other", T + 'ADD TABLE "u"\n' + field("f", "date", table="u") + F + index("i", UP, table="u") + field("g", "date") + index("i", UP) + field("h", "logical", table="u"),
     ["T t", "F f INTEGER O 0", "F g DATE O ?", "I i N P f A", "T u", "F f DATE O ?", "F h LOGICAL O no", "I i N P f A"])
good("a field after the index", T + F + index("i", UP) + field("g", "date", "ORDER 1"), ["T t", "F g DATE O ?", "F f INTEGER O 0", "I i N P f A"])

# ---- masks

MASKS = [("character", "x(20)", "x(20)"), ("character", "X(20)", "X(20)"), ("character", "!(9)", "x(8)"), ("character", "x(1000)", "x(8)"),
         ("integer", ">>9", ">>9"), ("integer", ">>9.99", "->,>>>,>>9"), ("int64", "zzz9", "zzz9"), ("int64", "", "->,>>>,>>9"),
         ("decimal", ">9.99", ">9.99"), ("decimal", "9.", "->>,>>9.99"), ("logical", "a/b", "a/b"), ("logical", "a/b/c", "yes/no"),
         ("date", "99/99/9999", "99/99/9999"), ("date", "99-99-99", "99/99/99"), ("datetime", "99/99/9999", "")]
KINDS = {"character": '""', "integer": "0", "int64": "0", "decimal": "0", "logical": "no", "date": "?", "datetime": "?"}
good("masks spelt", T + "".join(field(f"f{i}", kind, f'FORMAT "{mask}"') for i, (kind, mask, _) in enumerate(MASKS)),
     ["T t"] + [f"F f{i} {'-' if kind == 'datetime' else kind.upper()} O {KINDS[kind]}" for i, (kind, _, _) in enumerate(MASKS)]
     + ["t t=0" + "".join(f" f{i}={i} [{kept}]" for i, (_, _, kept) in enumerate(MASKS))])
good("default masks spelt", T + "".join(field(kind, kind) for kind in KINDS),
     ["T t"] + [f"F {kind} {'-' if kind == 'datetime' else kind.upper()} O {KINDS[kind]}" for kind in KINDS]
     + ["t t=0 character=0 [x(8)] integer=1 [->,>>>,>>9] int64=2 [->,>>>,>>9] decimal=3 [->>,>>9.99] logical=4 [yes/no] date=5 [99/99/99] datetime=6 []"])
good("last FORMAT counts spelt", one("integer", 'FORMAT ">>9"', 'FORMAT "?"'), ["T t", "F f INTEGER O 0", "t t=0 f=0 [->,>>>,>>9]"])

# ---- limits

good("256 tables", "".join(f'ADD TABLE "t{i}"\n' for i in range(256)), [f"T t{i}" for i in range(256)])
bad("257 tables", "".join(f'ADD TABLE "t{i}"\n' for i in range(257)), "F12", 257)
bad("F3 before F12", "".join(f'ADD TABLE "t{i}"\n' for i in range(256)) + 'ADD TABLE "T0"\n', "F3", 257)
good("256 fields", T + "".join(field(f"f{i}", "date") for i in range(256)), ["T t"] + [f"F f{i} DATE O ?" for i in range(256)])
bad("257 fields", T + "".join(field(f"f{i}", "date") for i in range(257)), "F12", 258)
good("32 indexes", T + F + "".join(index(f"i{i}", UP) for i in range(32)), ["T t", "F f INTEGER O 0"] + [f"I i{i} N {'N' if i else 'P'} f A" for i in range(32)])
bad("33 indexes", T + F + "".join(index(f"i{i}", UP) for i in range(33)), "F12", 67)
bad("33 indexes, one skipped", T + F + index("w", "WORD", UP) + "".join(index(f"i{i}", UP) for i in range(32)), "F12", 68)
PARTS = [f'INDEX-FIELD "f{i}" ASCENDING' for i in range(17)]
FIELDS = "".join(field(f"f{i}", "date") for i in range(17))
good("16 components", T + FIELDS + index("i", *PARTS[:16]), ["T t"] + [f"F f{i} DATE O ?" for i in range(17)] + ["I i N P" + "".join(f" f{i} A" for i in range(16))])
bad("17 components", T + FIELDS + index("i", *PARTS), "F12", 19)
good("256 sequences", "".join(sequence(f"s{i}") for i in range(256)), [f"S s{i} 0 1" for i in range(256)])
bad("257 sequences", "".join(sequence(f"s{i}") for i in range(257)), "F12", 257)


# ---- a dump as OpenEdge writes it

def dump():
    tables = [("Customer", "Customers", "cust"), ("Order", "Orders", "order"), ("Order-Line", "Lines of orders", "ordline"), ("Employee", "Staff", "empl")]
    fields = [
        ("Num", "integer", ">>>>9", '"0"', "INTEGER", "0", True),
        ("Name", "character", "x(30)", '""', "CHARACTER", '""', True),
        ("Balance", "decimal", "->,>>>,>>9.99", '"0"', "DECIMAL", "0", False),
        ("Since", "date", "99/99/99", "TODAY", "DATE", "?", False),
        ("Active", "logical", "active/closed", '"active"', "LOGICAL", "yes", False),
        ("Total", "int64", "->,>>>,>>>,>>9", '"1000"', "INT64", "1000", False),
        ("Picture", "blob", None, "?", "-", "?", False),
        ("Monthly", "decimal", ">>9.99", '"1.5"', "-", "?", False),
        ("Changed", "datetime-tz", "99/99/9999 HH:MM:SS.SSS+HH:MM", "?", "-", "?", False),
        ("Comments", "character", "x(60)", '"say ""hi"""', "CHARACTER", '"say ""hi"""', False),
    ]
    text = ""
    canonical = []
    for name, factor in [("NextCustNum", 5), ("NextOrderNum", 1)]:
        text += f'ADD SEQUENCE "{name}"\n  INITIAL 1000\n  INCREMENT {factor}\n  CYCLE-ON-LIMIT no\n  MIN-VAL 1000\n\n'
        canonical.append(f"S {name.lower()} 1000 {factor}")
    for table, label, dumped in tables:
        text += f'ADD TABLE "{table}"\n  AREA "Data Area"\n  LABEL "{label}"\n  DESCRIPTION "The {label.lower()} of the company"\n  DUMP-NAME "{dumped}"\n'
        text += f'  TABLE-TRIGGER "CREATE" NO-OVERRIDE PROCEDURE "sports/cr{dumped}.p" CRC "?"\n  TABLE-TRIGGER "WRITE" NO-OVERRIDE PROCEDURE "sports/wr{dumped}.p" CRC "?"\n\n'
        canonical.append(f"T {table.lower()}")
        for place, (name, kind, mask, start, shown_kind, value, mandatory) in enumerate(fields):
            text += f'ADD FIELD "{name}" OF "{table}" AS {kind} \n  DESCRIPTION "Field {name} of {table}"\n'
            text += f'  FORMAT "{mask}"\n' if mask else '  FORMAT ?\n'
            text += f"  INITIAL {start}\n  LABEL \"{name}\"\n  POSITION {place + 2}\n"
            text += f'  MAX-WIDTH {8 * (place + 1)}\n  COLUMN-LABEL "{name[:4]}!{name[4:]}"\n  HELP "Enter ""{name}"" here"\n'
            text += '  FIELD-TRIGGER "ASSIGN" NO-OVERRIDE PROCEDURE "sports/as.p" CRC "?"\n' if place == 1 else ""
            text += '  LOB-AREA "Lob Area"\n  LOB-BYTES 104857600\n  LOB-SIZE 100M\n' if kind == "blob" else ""
            text += "  EXTENT 12\n" if name == "Monthly" else ""
            text += f"  ORDER {(place + 1) * 10}\n" + ("  MANDATORY\n" if mandatory else "") + "\n"
            canonical.append(f"F {name.lower()} {shown_kind} {'M' if mandatory else 'O'} {value}")
        text += f'ADD INDEX "Name" ON "{table}" \n  AREA "Index Area"\n  INDEX-FIELD "Name" ASCENDING ABBREVIATED\n  INDEX-FIELD "Since" DESCENDING \n\n'
        text += f'ADD INDEX "Num" ON "{table}" \n  AREA "Index Area"\n  UNIQUE\n  PRIMARY\n  INDEX-FIELD "Num" ASCENDING \n\n'
        text += f'ADD INDEX "Words" ON "{table}" \n  AREA "Index Area"\n  WORD\n  INDEX-FIELD "Comments" ASCENDING \n\n'
        text += f'ADD INDEX "Changed" ON "{table}" \n  AREA "Index Area"\n  INDEX-FIELD "Changed" ASCENDING \n  INDEX-FIELD "Num" ASCENDING \n\n'
        canonical += ["I name N N name A since D", "I num U P num A"]
    text += ".\nPSC\ncpstream=UTF-8\nmapdfm=\n.\n0000012345\n"
    return text, canonical


good("a dump", *dump())

# ---- files at size, whose lines the program numbers: 100 tables of 250 fields, and with one more rule at the end

SIZED = "".join(f'ADD TABLE "t{t}"\n%*250 ADD FIELD "f#" OF "t{t}" AS date\n' for t in range(100))
SIZED_BYTES = sum(len(f"T t{t}\n") + sum(len(f"F f{f} DATE O ?\n") for f in range(250)) for t in range(100))
SIZES = [("25,000 fields size", SIZED, f"{SIZED_BYTES} bytes, last F f249 DATE O ?"),
         ("a rule broken after 25,000 fields", SIZED + 'ADD FIELD "f" OF "u" AS date\n', f"F4 at line {100 * 251 + 1}"),
         ("20,000 skipped lines size", '%*20000 LABEL "#"\n' + T, "4 bytes, last T t")]


def encoded(text):
    """The lines of a file as rows of the input."""
    lines = text.split("\n")
    last = lines.pop()
    rows = ["".join(c if 32 < ord(c) < 127 and c != "%" or c == " " else f"%{ord(c):02x}" for c in line) for line in lines]
    rows = [row[:-1] + "%20" if row.endswith(" ") else row for row in rows]
    rows = ["%20" + row[1:] if row.startswith(" ") and not row.strip() else row for row in rows]
    if last:
        rows.append("".join(c if c != "%" else "%25" for c in last) + "%-")
    return "".join(row + "\n" for row in rows)


asked = "".join(f"== {name}\n{encoded(text)}" for name, text, _ in ROWS) + "".join(f"== {name}\n{text}" for name, text, _ in SIZES)
put("test_sources", "schemas", asked, "".join(f"== {name}\n{answer}\n" for name, _, answer in ROWS + SIZES))
