"""The pages of words of OpenEdge ABL that are not taken here: tools/words.txt, tried and laid out for tools/explanations."""

import re
import shutil
import subprocess
import tempfile
from pathlib import Path

from page_texts import WIDTH, filled, indented, pages, split_at_mark, with_caret

TABLE = Path(__file__).parent / "words.txt"
MARK = re.compile(r"!([ELGYSU]\d+)!")
PARTS = {"", "also", "openedge", "wrong", "here", "right", "input", "prints"}
FIXTURE = ("schema", "records")


def word_pages():
    """The pages by their words."""
    return {name: page for name, page in pages(TABLE).items() if name not in FIXTURE}


def fixture():
    """The schema and the source that makes the records of the examples."""
    found = pages(TABLE)
    return [found[part][""] for part in FIXTURE]


def spellings(name, page):
    """Each other spelling of a word: those that its page names, and each one without its hyphens and with blanks for them."""
    words = [name, *(word.strip() for word in page.get("also", "").replace("\n", ",").split(",") if word.strip())]
    spelt = [one for word in words for one in (word, word.replace("-", ""), word.replace("-", " "))]
    return [word for at, word in enumerate(spelt) if word != name and word not in spelt[:at]]


# ---- trying them

def faults_of_form(name, page):
    """What is wrong with the layout of a page."""
    faults = []
    if set(page) - PARTS or not {"", "openedge", "wrong", "here"} <= set(page) or ("right" in page) != ("prints" in page):
        faults += [f"{name}: its parts are {sorted(page)}"]
        return faults
    if len(title(name, page)) > WIDTH:
        faults += [f"{name}: its title is longer than a line of a terminal"]
    if filled(page["openedge"]).count("\n") + 1 > 3:
        faults += [f"{name}: what it does in OpenEdge has more than three lines of a terminal"]
    if filled("Here: " + page["here"]).count("\n") + 1 > 4:
        faults += [f"{name}: how it is written here has more than four lines of a terminal"]
    if len(page.get("right", "").split("\n")) > 12:
        faults += [f"{name}: its example has more than twelve lines"]
    if len(MARK.findall(page["wrong"])) != 1:
        faults += [f"{name}: not one place is marked"]
    return faults


def faults_of_word(run, name, page):
    """What is wrong with the page of a word."""
    faults = faults_of_form(name, page)
    if faults:
        return faults
    rule = MARK.search(page["wrong"])[1]
    text, (line, column) = split_at_mark(page["wrong"], rule)
    got = run(text)
    if got != (4, f"abl: a: {rule} at {line}:{column}", ""):
        faults += [f"{name}: wanted {rule} at {line}:{column}, got {got}"]
    if "right" in page:
        got = run(page["right"] + "\n", page.get("input", ""))
        if got != (0, "", f"== a ==\n{page['prints']}\n"):
            faults += [f"{name}: its example gives {got}"]
    return faults


def faults(program, taken, only=()):
    """What is wrong with the pages of words, where the names `taken` are those of other pages, and how many were tried."""
    found, tried, known = [], 0, {name.lower() for name in taken}
    all_pages = word_pages()
    if sorted(all_pages) != list(all_pages):
        found += ["the words are not in the order of their letters"]
    for name, page in all_pages.items():
        for word in (name, *spellings(name, page)):
            if word.lower() in known:
                found += [f"{name}: {word} has another page"]
            known.add(word.lower())
    schema, records = fixture()
    with tempfile.TemporaryDirectory() as home:
        def call(folder, *words):
            got = subprocess.run([program, "shop", *words], cwd=folder, stdin=subprocess.DEVNULL, capture_output=True, timeout=300)
            return got.returncode, got.stderr.decode().rstrip("\n"), got.stdout.decode(errors="replace")
        made = Path(home) / "made"
        made.mkdir()
        (made / "shop.df").write_text(schema + "\n")
        (made / "records.p").write_text(records + "\n")
        for words in (["create", "shop.df"], ["run", "shop.df", "10000", "quiet", "r=records.p"]):
            if (got := call(made, *words))[:2] != (0, ""):
                return [*found, f"the records of the examples are not made: {got}"], tried

        def run(source, given=""):
            folder = Path(home) / "one"
            shutil.copytree(made, folder)
            (folder / "a.p").write_text(source)
            (folder / "in").write_text(given + "\n" if given else "")
            got = call(folder, "run", "shop.df", "10000", "quiet", "a=a.p<in")
            shutil.rmtree(folder)
            return got
        for name, page in all_pages.items():
            if not only or name in only:
                tried += 1
                found += faults_of_word(run, name, page)
    return found, tried


# ---- laying them out

def title(name, page):
    """The first line of a page."""
    return f"{name}: {summary(page)}"


def summary(page):
    """The line of a page in the list of all."""
    return page[""].replace("\n", " ").rstrip(".")


def place(page):
    """The rule by which the wrong text is refused, and where."""
    rule = MARK.search(page["wrong"])[1]
    line, column = split_at_mark(page["wrong"], rule)[1]
    return rule, f"{line}:{column}"


def for_terminal(name, page):
    """A page as `abl --explain` prints it."""
    rule, where = place(page)
    out = [title(name, page), filled(f"In OpenEdge: {page['openedge']}"), f"Refused by {rule} at {where}:", indented(with_caret(page["wrong"], rule)), filled(f"Here: {page['here']}")]
    if "right" in page:
        out += [indented(page["right"])]
        if "input" in page:
            out += ["Over the input", indented(page["input"])]
        out += ["it prints" if "input" in page else "It prints", indented(page["prints"])]
    return "\n\n".join(out) + "\n"


def as_markdown(name, page):
    """A page as docs/words.md has it."""
    rule, where = place(page)
    other = [word.strip() for word in page.get("also", "").replace("\n", ",").split(",") if word.strip()]
    out = [f"### {name}", "", f"{summary(page)}." + (f" Also {', '.join(f'`{word}`' for word in other)}." if other else "")]
    out += ["", "**In OpenEdge:** " + page["openedge"].replace("\n", " "), "", f"Refused by {rule} at {where}:", "", "```", page["wrong"].replace(f"!{rule}!", ""), "```"]
    out += ["", "**Here:** " + page["here"].replace("\n", " ")]
    if "right" in page:
        out += ["", "```", page["right"], "```", ""]
        out += ["Over the input", "", "```", page["input"], "```", "", "it prints"] if "input" in page else ["It prints"]
        out += ["", "```", page["prints"], "```"]
    return "\n".join(out) + "\n"


def document():
    """docs/words.md."""
    schema, records = fixture()
    all_pages = word_pages()
    out = [
        "# Words of ABL that are not taken",
        "",
        "A page for each word of OpenEdge ABL, and for each form of a statement, that people write and that a source here cannot have: what it does in OpenEdge, how a "
        "source that has it is refused, and how the same is written here. `abl --explain WORD` prints the page of one, in any case, with its hyphens or without. "
        "`tools/explanations` writes this file from `tools/words.txt`, and tries each page with the program: the first text is refused at that place, "
        "and the second prints what follows it. What is said of OpenEdge is from its manuals and from practice.",
        "",
        "The examples find the records of this source over this schema file:",
        "",
        "```",
        records,
        "```",
        "",
        "```",
        schema,
        "```",
        "",
        "\n".join(as_markdown(name, page) for name, page in all_pages.items()).rstrip("\n"),
    ]
    return "\n".join(out) + "\n"
