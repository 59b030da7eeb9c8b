#!/usr/bin/env python3
"""What each public function promises: `clauses.py --write` writes docs/CLAUSES.md, `clauses.py` checks that it can be written.

Crate by crate of the program, in the order of crates.txt, the page has each public function, method, type and trait: its name with its file, the
first sentence of its comment, and its clauses as they stand in the source, each with the files of specs/ whose definitions it is stated with. Public
is what src/lib.rt passes on, and the methods of that. A type of the crate has its invariants, and what it makes of a trait's definitions and clauses.

It fails where a definition is not where the source has it from, where a public function has no comment, where any function has more than seven
clauses, where lib.rt passes on what isn't found, and where a `pub fn` or a clause of a source was not read. Each run also reads a source with one
comment left out, which must be missed, and with eight clauses more, which must be seen. The page isn't kept. Needs Python 3 alone.
"""
import functools
import os
import re
from dataclasses import dataclass, field

from handles import crates
from reading import Untrue, braced, handed_on, imports, words, write_page
from ssikvd_harness.arguments import run_harness
from ssikvd_harness.cases import Harness
from ssikvd_harness.deviations import expect
from ssikvd_harness.settings import TOP, text_of

PAGE = "docs/CLAUSES.md"
PLANTED = "crates/resp/src/decoding.rt", "decode"    # a function that is read without its comment, which must be missed
CLAUSES_MAX = 7    # what always comes together is a record of specs/
BLOCK = re.compile(r"(pub(?:\([a-z]+\))? )?(struct|enum|trait|impl)\b(.*)", re.S)
FUNCTION = re.compile(r"( {4})?(pub(?:\([a-z]+\))? )?(?:const )?fn (\w+)")
GHOST = re.compile(r" +ghost (\w+)(?::| =) *\{")
CLAUSE = re.compile(r" +(requires|ensures)\*?(?: (\w+))? *\{")
HEAD = """# Every public clause

What each public function, method, type and trait of the program's crates promises, in the order of `crates.txt`. [PROOFS.md](PROOFS.md) says which of
these clauses carry its promises, and what each layer is for. Behind a clause stand the definitions that it is stated with, each with its file:
`model/History` is `crates/model/specs/History.antt`. `harness/clauses.py --write` writes this page from the sources.
"""


@dataclass
class Clause:
    """A clause of a function, or a ghost part of a type or a trait."""

    kind: str
    name: str
    text: str
    above: str    # the comment above it
    cited: list[tuple[str, str]]


@dataclass
class Item:
    """A function, a type or a trait, or what a type makes of a trait."""

    name: str
    owner: str
    kind: str
    path: str
    is_public: bool
    comment: str
    clauses: list[Clause] = field(default_factory=list)
    trait: str = ""
    is_written_public: bool = False    # by a `pub` of its own


# ---- The sources

def home_of(module, name):
    """The file of specs/ that declares a name of a module, or None: the library's, a type of the code, a function's contract."""
    path = f"crates/{module.replace('.', '/')}.antt"
    if not re.match(r"\w+\.specs\.\w+$", module) or not os.path.exists(os.path.join(TOP, path)):
        return None
    if re.search(rf"^ *(?:(?:abbrev|unfoldable|pub|record|data|opaque) )*{re.escape(name)}(?![\w'-])", text_of(path), re.M):
        return path
    if name not in handed_on(path):
        raise Untrue(f"{path} does not declare {name}")
    return home_of(*handed_on(path)[name])


def cited(text, names):
    """The definitions that a text names, each with its crate and file."""
    homes = [(word, home_of(*names[word])) for word in dict.fromkeys(words(text)) if word in names]
    return [(word, home.removeprefix("crates/").removesuffix(".antt").replace("/specs/", "/")) for word, home in homes if home]


def clauses_of(lines, pattern, names):
    """The clauses of a function's head, or the ghost parts of a block."""
    text, above, at = "\n".join(lines), [], 0
    for line in lines:
        found = pattern.match(line)
        if found:
            said = " ".join(braced(text, at + found.end() - 1).split())
            kind, name = ("", found[1]) if pattern is GHOST else (found[1], found[2] or "")
            yield Clause(kind, name, said, " ".join(above), cited(said, names))
        above = [*above, line.strip().lstrip("/ ")] if line.lstrip().startswith("//") else []
        at += len(line) + 1


def first_line(lines, number):
    """The first line of the comment and the attributes above an item."""
    while number and re.match(r" *(?:///|#\[|\)\])", lines[number - 1]):
        number -= 1
    return number


def comment_above(lines, number):
    """The first sentence of the `///` lines above an item."""
    found = [line.strip()[3:].strip() for line in lines[first_line(lines, number):number] if line.lstrip().startswith("///")]
    text = " ".join(found[:found.index("")] if "" in found else found)
    return (re.match(r".*?[.?](?= [A-Z`]|$)", text) or [text])[0]


def end_of_head(lines, first):
    """The line after a function's head."""
    margin = lines[first][:len(lines[first]) - len(lines[first].lstrip())]
    for number in range(first, len(lines)):
        if lines[number] in (f"{margin}{{", f"{margin}{{}}"):
            return number
        if lines[number].endswith((";", "{", "{}")) and not re.match(r" *ghost\b", lines[number]):
            return number + 1
    raise Untrue(f"{lines[first].strip()} does not end")


def owner_of(head):
    """Of the head of an `impl` the trait, or nothing, and the type."""
    whole = re.sub(r"^<(?:[^<>]|<[^<>]*>)*>", "", head.removesuffix("{").strip()).strip()
    trait, _, of = whole.rpartition(" for ")
    return re.match(r"\w*", trait)[0], (re.match(r"(?:&?(?:'\w+ )?)(\w+)", of) or [of, of])[1]


def items_of(path, text):
    """All items of a source, those that aren't public too."""
    lines = text.splitlines()
    names, block = imports("\n".join(lines)), None
    for number, line in enumerate(lines):
        head = BLOCK.match(line)
        if head:
            last = next(end for end in range(number, len(lines)) if lines[end].endswith(("{", "{}", ";")))
            end = next(end for end in range(last, len(lines)) if end == last and not lines[end].endswith("{") or lines[end] == "}")
            trait, name = owner_of("\n".join([head[3], *lines[number + 1:last + 1]])) if head[2] == "impl" else ("", re.match(r" (\w+)", head[3])[1])
            block = Item(name, "", head[2], path, head[1] == "pub ", comment_above(lines, number), list(clauses_of(lines[last + 1:end], GHOST, names)), trait)
            if head[2] != "impl" or trait:
                yield block
        elif line == "}":
            block = None
        found = FUNCTION.match(line)
        if found and bool(found[1]) == bool(block):
            is_public = block.is_public if block and block.kind == "trait" else found[2] == "pub "
            clauses = list(clauses_of(lines[number + 1:end_of_head(lines, number)], CLAUSE, names))
            yield Item(found[3], block.name if block else "", "fn", path, is_public, comment_above(lines, number), clauses, block.trait if block else "",
                       found[2] == "pub ")


@functools.cache
def items_in(path):
    return list(items_of(path, text_of(path)))


def modules(crate):
    """The sources of a crate in the order in which lib.rt names them, with whether each is public, and what lib.rt passes on of them."""
    path = f"crates/{crate}/src/lib.rt"
    if not os.path.exists(os.path.join(TOP, path)):
        return [], {}
    text = text_of(path)
    handed = {name.strip(): module for module, names in re.findall(r"^pub use (\w+)::\{?([^;}]*)\}?;", text, re.M) for name in names.split(",") if name.strip()}
    return [(name, bool(public)) for public, name in re.findall(r"^(pub )?mod (\w+);", text, re.M)], handed


def public_items(crate):
    """The public items of a crate, in order, and the names that lib.rt passes on and that aren't found."""
    those, handed = modules(crate)
    items = [(item, public) for name, public in those for item in items_in(f"crates/{crate}/src/{name}.rt")]
    known = {item.name for item, public in items if item.kind in ("struct", "enum", "trait") and item.is_public and (public or item.name in handed)}
    found = [item for item, public in items if is_shown(item, public, handed, known)]
    gone = [name for name, module in handed.items() if module in dict(those) and name not in {item.name for item in found if not item.owner}]
    return found, [name for name in gone if not re.search(rf"^pub (?:const|type) {name}\b", text_of(f"crates/{crate}/src/{handed[name]}.rt"), re.M)]


def is_shown(item, in_public, handed, known):
    """Is it public? What a public type makes of a trait is shown where it says something of its own."""
    if item.kind == "impl":
        return item.name in known and bool(item.clauses)
    if item.trait:
        return item.owner in known and bool(item.clauses)
    return item.is_public and (item.owner in known if item.owner else in_public or item.name in handed)


def every_crate():
    """The program's crates, in the order of crates.txt."""
    own = crates()
    return [name for name in re.findall(r"^(\w+):", text_of("crates.txt"), re.M) if name in own]


# ---- The page

def shown(clause):
    """A clause on the page."""
    name = f"{clause.kind} {clause.name}".strip() if clause.kind == "requires" else clause.name
    files = {}
    for word, file in clause.cited:
        files.setdefault(file, []).append(f"`{word}`")
    behind = "; ".join(f"`{file}`: {', '.join(those)}" for file, those in files.items())
    return f"  - {f'{name}: ' if name else ''}`{clause.text}`{f' ({behind})' if behind else ''}{f' {clause.above}' if clause.above else ''}"


def printed(item):
    """An item on the page."""
    name = f"{item.owner}::{item.name}" if item.owner else item.name
    kind = f", as {item.trait}" if item.trait else "" if item.kind == "fn" else f", {item.kind}"
    out = [f"- **`{name}`**{kind}, in `{item.path.partition('/src/')[2]}`{f': {item.comment}' if item.comment else ''}"]
    return out + [shown(clause) for clause in item.clauses]


def page():
    out = [HEAD]
    for crate in every_crate():
        items, _ = public_items(crate)
        if items:
            out += [f"## {crate}", "", re.match(r"//! (.*(?:\n//! .*)*)", text_of(f"crates/{crate}/src/lib.rt"))[1].replace("\n//! ", " "), ""]
            out += [*(line for item in items for line in printed(item)), ""]
    return "\n".join(out)


# ---- The check

def lacks_comment(item):
    """A public function says what it does, except one that only keeps a trait's promises."""
    return item.kind != "impl" and not item.trait and not item.comment


def unread(crate):
    """The sources of a crate of which not every public function and every clause is among its items."""
    for name, _ in modules(crate)[0]:
        path = f"crates/{crate}/src/{name}.rt"
        functions = [item for item in items_in(path) if item.kind == "fn"]
        written = re.findall(r"^ *pub (?:const )?fn (\w+)", text_of(path), re.M)
        clauses = len(re.findall(r"^ *(?:requires|ensures)\b", text_of(path), re.M))
        if written != [item.name for item in functions if item.is_written_public] or clauses != sum(len(item.clauses) for item in functions):
            yield path


def crowded(items):
    """The functions that have more clauses than a contract is read in."""
    return [f"{item.name} has {len(item.clauses)}" for item in items if item.kind == "fn" and len(item.clauses) > CLAUSES_MAX]


def planted(tally):
    """What is wrong is seen: a function without a comment, one with many clauses, and a name that no file declares."""
    path, name = PLANTED
    text = re.sub(rf"(?:^ *///.*\n)+(?=(?:^ *#\[.*\n)*^ *pub fn {name}\b)", "", text_of(path), flags=re.M)
    with tally.run(f"{name} without a comment"):
        expect(text != text_of(path) and any(item.name == name and lacks_comment(item) for item in items_of(path, text)), "it isn't missed")
    with tally.run(f"{name} with eight clauses more"):
        expect(crowded(items_of(path, re.sub(rf"(\bfn {name}\b[^\n]*\n)", r"\1" + "    ensures { ⊤ }\n" * 8, text_of(path)))), "they aren't seen")
    with tally.run("a name that isn't declared"):
        try:
            home_of("model.specs.Grammar", "Undeclared")
        except Untrue:
            return
        expect(False, "it isn't missed")


def check(tally):
    """Returns how many functions were seen."""
    count = 0
    for crate in every_crate():
        items, gone = public_items(crate)
        with tally.run(f"the sources of {crate}"):
            expect(not gone, f"what lib.rt passes on isn't found: {gone}")
            expect(not list(unread(crate)), f"not every `pub fn` or clause is read: {list(unread(crate))}")
            many = [found for name, _ in modules(crate)[0] for found in crowded(items_in(f"crates/{crate}/src/{name}.rt"))]
            expect(not many, f"more than {CLAUSES_MAX} clauses: {many}")
        for item in items:
            with tally.run(f"{item.name} in {item.path}"):
                expect(not lacks_comment(item), "it has no `///` comment")
            count += item.kind == "fn"
    planted(tally)
    return count


def options(parser):
    parser.add_argument("--write", action="store_true", help="write the page")


def instead(asked):
    """Writes the page if asked to."""
    return write_page("clauses", PAGE, page) if asked.write else None


class Clauses(Harness):
    NAME = "clauses"
    NEEDS = ()

    def test_clauses(self):
        count, lines = check(self.tally), page().count("\n")
        print(f"  {PAGE} can be written: {count} functions, {lines} lines")


if __name__ == "__main__":
    run_harness(options, instead)
