"""What docs/PROOFS.md names stands where it says: each clause, each definition with its length, each wrong body, what its layers have.

`audit.py --write` writes the lengths of the definitions into the page, and how many there are.

A promise is a section that begins with lines after `> `. They are followed by what carries it (functions with their clauses and files), its
definitions (`crate/File`, and of each its name, the lines of its declaration without comments, and what it says), the wrong bodies that are refused
(`crate/name`, whose text to be replaced stands in the file that it names), and what passes. A layer is a row of the last table, with its crates and
what to look at: functions, types, clauses and definitions of these. Each crate of the program is in one. The promise itself is that of the README.

No clause of the crates has a line of more than 120 columns, or more than three lines: what is longer has a name.
"""
import functools
import glob
import os
import re
from pathlib import Path

from handles import PROGRAM, crates
from ssikvd_harness.arguments import run_harness
from ssikvd_harness.cases import Harness
from ssikvd_harness.deviations import expect
from ssikvd_harness.settings import TOP, text_of

PAGE = "docs/PROOFS.md"
CLAUSE = r"`(?:\w+::)?(\w+)`, (?:clause `(\w+)`|its clause), in `(crates/\S+\.rt)`"    # a clause that is alone may have no name
FILE_OF_DEFINITIONS = r"^- `(\w+)/(\w+)`: (`\w+` \(\d+\),.*(?:\n  .*)*)"
DEFINITION = r"`(\w+)`\s+\((\d+)\)"
IN_AN_HOUR = r"Up to \"(.*)\" they are (\d+) definitions of (\d+) lines"
WITHOUT_CLAUSE = "This needs no clause"
CLAUSE_MAX, CLAUSE_LINES = 120, 3
NAMED = r"`([a-z]\w*)/(\w+)`"


def words(text):
    return " ".join(text.split())


def length_of(definition, name):
    """The lines of a definition without comments: up to an empty line, or one that stands no further right and isn't a clause of it."""
    lines = [line for line in text_of(name).splitlines() if not line.lstrip().startswith("--")]
    head = re.compile(rf"( *)(?:abbrev pub|unfoldable pub|pub record|pub data|pub) {definition}(?![\w-])")
    for first, line in enumerate(lines):
        found = head.match(line)
        if found:
            margin, count = len(found[1]), 1
            for line in lines[first + 1:]:
                indent = len(line) - len(line.lstrip())
                if not line or indent < margin or (indent == margin and not line.split()[0] == definition):
                    break
                count += 1
            return count
    return None


# ---- The page

def sections(text):
    """The sections of the page, each its head and what stands below it."""
    for section in re.split(r"^### ", text, flags=re.M)[1:]:
        head, _, below = section.partition("\n")
        yield head, re.split(r"^## ", below, flags=re.M)[0]


def promises(text):
    return [(head, below) for head, below in sections(text) if below.lstrip().startswith("> ")]


def layers(text):
    """The rows of the layers, each its crates and what to look at in them."""
    table = text.partition("| Crates | What to look at |\n")[2].partition("\n\n")[0]
    return [(re.findall(r"`(\w+)`", head), below) for head, below in re.findall(r"^\| ((?:`\w+`(?:, )?)+) \|(.*)\|$", table, re.M)]


def definitions_in(text):
    """The definitions that a promise names, in order: each with its lines and its file."""
    for crate, file, those in re.findall(FILE_OF_DEFINITIONS, text, re.M):
        for name, lines in re.findall(DEFINITION, those):
            yield name, int(lines), f"crates/{crate}/specs/{file}.antt"


# ---- What a promise names

def clauses(tally, text):
    found = re.findall(CLAUSE, text)
    for function, clause, name in found:
        with tally.run(f"{function}, clause {clause}"):
            head = re.search(rf"\bfn {function}\b.*?\n *\{{", text_of(name), re.S)
            expect(head, f"{name} has no function {function}")
            expect(re.search(rf"^ *ensures\*? {clause} *\{{", head[0], re.M), f"{name}: {function} ensures no {clause}")
    return len(found)


def definitions(tally, text):
    found = list(definitions_in(text))
    for definition, lines, name in found:
        with tally.run(f"{definition} in {name}"):
            length = length_of(definition, name)
            expect(length, f"{name} declares no {definition}")
            expect(length == lines, f"{definition} has {length} lines, and the page says {lines}")
    return len(found)


def edit_of(crate, name):
    """The file of a wrong body, or None."""
    places = (os.path.join("crates", crate, "must-fail", f"{name}.edit"), os.path.join("wrong_bodies", crate, f"{name}.edit"))
    return next((place for place in places if os.path.exists(os.path.join(TOP, place))), None)


def applies(crate, edit):
    lines = text_of(edit).splitlines()
    file, old = lines[0].removeprefix("file: "), lines[1].removeprefix("old:").removeprefix(" ")
    expect(old in text_of(os.path.join("crates", crate, file)), f"crates/{crate}/{file} has no {old}")


def wrong_bodies(tally, text):
    """The names of a crate's files: of wrong bodies, or of definitions."""
    count = 0
    for crate, name in re.findall(NAMED, text):
        if os.path.isdir(os.path.join(TOP, "crates", crate)) and not os.path.exists(os.path.join(TOP, "crates", crate, "specs", f"{name}.antt")):
            with tally.run(f"{crate}/{name}"):
                edit = edit_of(crate, name)
                expect(edit, "it isn't there")
                applies(crate, edit)
            count += 1
    return count


def promise(tally, head, text):
    counts = [check(tally, text) for check in (clauses, definitions, wrong_bodies)]
    with tally.run(head):
        enough = counts[2] if WITHOUT_CLAUSE in text else all(counts)
        expect(enough, f"it names {counts[0]} clauses, {counts[1]} definitions, {counts[2]} wrong bodies")
        expect(re.search(r"^Passes: ", text, re.M), "it doesn't say what passes")


# ---- The layers

@functools.cache
def texts_of(crate):
    """The code of a crate, and its definitions."""
    folder = Path(TOP, "crates", crate)
    return ["\n".join(path.read_text(encoding="utf-8") for path in sorted(folder.glob(pattern))) for pattern in ("src/**/*.rt", "specs/*.antt")]


def is_known(crate, name):
    """Is it a function, a type, a clause or a ghost part of the code, or a definition?"""
    code, specs = texts_of(crate)
    declared = rf"^ *(?:(?:abbrev|unfoldable|pub|record|data) )*{re.escape(name)}(?![\w'-])"
    return re.search(rf"\b(?:fn|struct|enum|trait|const|type|ghost|ensures) {name}\b", code) or re.search(declared, specs, re.M)


def expanded(token):
    """`A::{b, c}` stands for two functions of A."""
    owner, _, several = token.rpartition("::") if "{" not in token else token.partition("::")
    return [name for name in (owner, *several.strip("{}").split(", ")) if name]


def layer(tally, those, text):
    named = [token for token in re.findall(r"`([^`]+)`", text) if not os.path.isdir(os.path.join(TOP, "crates", token))]
    for name in dict.fromkeys(name for token in named for name in expanded(token)):
        with tally.run(f"{name} of {', '.join(those)}"):
            expect(any(is_known(crate, name) for crate in those + re.findall(rf"`{name}` of `(\w+)`", text)), "there is none")


# ---- The clauses of the crates

def clauses_of(text):
    """The clauses of a file, each as its lines, with the number of the first."""
    lines = text.splitlines()
    for number, line in enumerate(lines, 1):
        if re.match(r" *(?:requires|ensures)\b", line):
            clause = [line]
            while "".join(clause).count("{") > "".join(clause).count("}"):
                clause.append(lines[number - 1 + len(clause)])
            yield number, clause


def widths(tally):
    for name in sorted(glob.glob("crates/*/src/**/*.rt", root_dir=TOP, recursive=True)):
        wide = [str(number) for number, clause in clauses_of(text_of(name)) if len(clause) > CLAUSE_LINES or max(map(len, clause)) > CLAUSE_MAX]
        with tally.run(f"{name}, its clauses"):
            expect(not wide, f"too wide: line {', '.join(wide)}")


# ---- All

def in_an_hour(text):
    """The last promise that the page says can be read within an hour, and the definitions up to it with their lines."""
    last = re.search(IN_AN_HOUR, words(text))[1]
    found = []
    for head, below in promises(text):
        found += [lines for _, lines, _ in definitions_in(below)]
        if head == last:
            return last, len(found), sum(found)
    return last, 0, 0


def written(text):
    """The page with the lengths as they are."""
    def one(crate, file, those):
        return re.sub(DEFINITION, lambda it: it[0].replace(f"({it[2]})", f"({length_of(it[1], f'crates/{crate}/specs/{file}.antt')})"), those)
    text = re.sub(FILE_OF_DEFINITIONS, lambda it: f"- `{it[1]}/{it[2]}`: {one(*it.groups())}", text, flags=re.M)
    _, number, lines = in_an_hour(text)
    return re.sub(r"they are \d+ definitions of \d+ lines", f"they are {number} definitions of {lines} lines", text)


def options(parser):
    parser.add_argument("--write", action="store_true", help="write the lengths of the definitions into the page")


def instead(asked):
    """Writes the page if asked to."""
    if not asked.write:
        return None
    Path(TOP, PAGE).write_text(written(text_of(PAGE)), encoding="utf-8")
    return 0


class Audit(Harness):
    NAME = "audit"
    NEEDS = ()

    def test_audit(self):
        tally, text = self.tally, text_of(PAGE)
        widths(tally)
        with tally.run("the promise of the README"):
            headline = words("".join(line[2:] + " " for line in text.partition("\n## ")[0].splitlines() if line.startswith("> ")))
            expect(headline and headline in words(text_of("README.md").replace("\n> ", "\n")), "it isn't that of the page")
        with tally.run("the definitions of an hour"):
            last, number, lines = in_an_hour(text)
            expect(f"Up to \"{last}\" they are {number} definitions of {lines} lines" in words(text), f"they are {number} of {lines} lines")
        wrong_bodies(tally, text.partition("## The promises")[0])
        for head, below in promises(text):
            promise(tally, head, below)
        found = layers(text)
        with tally.run("the layers"):
            missing = set(crates()) - {crate for those, _ in found for crate in those} - {PROGRAM}
            expect(not missing, f"none has {sorted(missing)}")
        for those, below in found:
            layer(tally, those, below)


if __name__ == "__main__":
    run_harness(options, instead)
