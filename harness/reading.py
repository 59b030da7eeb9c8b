#!/usr/bin/env python3
"""All that the promises of docs/PROOFS.md are stated with: `reading.py --write` writes docs/DEFINITIONS.md, `reading.py` checks that it can be
written.

It takes the clauses that PROOFS.md names out of the sources, follows every name in them through the definitions of the crates (crates/NAME/specs)
down to the library's, and prints these in reading order: each after those that it needs, with its text. A name that a file passes on by `pub use` is
followed to where it is defined. It fails where a clause or a definition is not there, or where a name of a file of specs/ is neither defined, passed
on, a constructor nor a field there. The page isn't kept. Needs Python 3 alone.
"""
import functools
import os
import re

import audit
from ssikvd_harness.arguments import run_harness
from ssikvd_harness.cases import Harness
from ssikvd_harness.settings import TOP

PAGE = "docs/DEFINITIONS.md"
STATED = r"^Stated as `(\w+)`, in `(\w+)/(\w+)`"
# Relations of which the clauses say only that they hold at the beginning and from call to call: what they are said with need not be read.
UNKNOWN = (("crates/engine/specs/StandsFor.antt", "StandsFor"), ("crates/engine/specs/StandsFor.antt", "Represents"),
           ("crates/pivot_check/specs/FewKept.antt", "KeepsLittle"))
DEFINING = ("abbrev", "unfoldable", "record", "data", "pub", "opaque")


class Untrue(Exception):
    """What the list says and the repository doesn't."""


def read(path):
    try:
        with open(os.path.join(TOP, path), encoding="utf-8") as file:
            return file.read()
    except OSError:
        raise Untrue(f"{path} is not there") from None


def words(text):
    return re.findall(r"[^\s(){}\[\],;.|]+", text)


# ---- Definitions

def imports(text):
    """The names that `use` lines bring in, some of a module below: each with its module and its name there."""
    found = {}
    for module, names in re.findall(r"^\s*(?:ghost )?use Rattle\.([\w.]+)\.\{([^}]*)\}", text, re.M):
        for name in names.split(","):
            whole, _, alias = name.strip().partition(" as ")
            below, _, own = whole.rpartition(".")
            found[alias or own] = (f"{module}.{below}" if below else module, own)
    return found


def head_of(line):
    """The name that a line at the margin declares or defines."""
    parts = line.split()
    while parts and parts[0] in DEFINING:
        parts = parts[1:]
    return re.split(r"[^\w'-]", parts[0])[0] if parts else ""


@functools.cache
def parts_of(path):
    """The definitions of a file of specs/: the lines of each, with its comments; those before it at the margin are its own."""
    found, current, depth, before = {}, None, 0, []
    # a module's parameters may take several lines
    text = re.sub(r"^( *module _(?:(?!\bwhere$)[^\n])*)\n *([^\n]*\bwhere)$", r"\1 \2", read(path), flags=re.M)
    for line in text.split("\n"):
        indent = len(line) - len(line.lstrip())
        if re.match(r" *module _.*where$", line):
            depth = None
            continue
        if depth is None and line.strip():
            depth = indent
        if not line.strip() or re.match(r"(?:pub )?(?:use|mod|syntax) ", line):
            before = []
            continue
        depth = indent if depth is None else min(depth, indent)
        is_comment = line.lstrip().startswith("--")
        if is_comment and indent == depth:
            before.append(line[depth:])
            continue
        if not is_comment and indent == depth and line[depth] not in "|)]}":
            current = head_of(line[depth:]) or current
        if current:
            found.setdefault(current, []).extend([*before, line[depth:]])
        before = []
    return found


@functools.cache
def definitions(path):
    """The same without comments."""
    return {name: [line for line in lines if not line.lstrip().startswith("--")] for name, lines in parts_of(path).items()}


@functools.cache
def handed_on(path):
    """The names that a file of specs/ passes on: each with its module and its name there."""
    return imports("\n".join(line.removeprefix("pub ") for line in read(path).split("\n") if line.startswith("pub use ")))


def owner_of(path, name):
    """The definition of the file whose constructor or field this is."""
    for owner, lines in definitions(path).items():
        if any(re.match(rf"\s+(?:pub )?{re.escape(name)}(?:\s.*)? ?:", line) for line in lines):
            return owner
    return None


def place_of(module, name):
    """The file of specs/ that defines a name of a module, and the type of the code, if it is one of those."""
    crate, _, rest = module.partition(".")
    if crate == "std" or not os.path.isdir(os.path.join(TOP, "crates", crate)):
        return None
    parts = rest.split(".")
    if parts[:2] == ["specs", "declared"]:
        names = parts[2:] + [name]
        return "type", f"crates/{crate}/src/{names[0]}.rt", names[1] if len(names) > 1 else name
    if not os.path.exists(os.path.join(TOP, "crates", crate, *parts) + ".antt"):
        name = parts.pop()  # a constructor of a type: the type is what is to be read
    return defined_at(f"crates/{crate}/{'/'.join(parts)}.antt", name)


def defined_at(path, name):
    """Where a name of a file of specs/ is defined: there, or where it is passed on from; a constructor or a field by its definition."""
    if name in definitions(path):
        return "definition", path, name
    if name in handed_on(path):
        return place_of(*handed_on(path)[name])
    owner = owner_of(path, name)
    if not owner:
        raise Untrue(f"{path} does not define {name}")
    return "definition", path, owner


class Reading:
    """What is to be read for some clauses, in order."""

    def __init__(self):
        self.order, self.types, self.seen = [], [], set(UNKNOWN)

    def follow(self, text, names, own=None):
        """All that a text names; `own` is the file that it stands in, if it is one of specs/."""
        for word in dict.fromkeys(words(text)):
            if own and word in definitions(own):
                self.add("definition", own, word)
            elif word in names:
                place = place_of(*names[word])
                if place:
                    self.add(*place)

    def add(self, kind, path, name):
        if (path, name) in self.seen:
            return
        self.seen.add((path, name))
        if kind == "type":
            self.types += [(path, name)] * (name != "TheConstants")
            return
        lines = definitions(path)[name]
        self.follow("\n".join(lines), imports(read(path)), path)
        self.order.append((path, name, len(lines)))


# ---- Clauses

def function_at(text, name, path):
    """The head of a function, with its clauses."""
    found = re.search(rf"^ *(?:pub(?:\(crate\))? )?fn {name}\b.*?^ *\{{$|^ *(?:pub(?:\(crate\))? )?fn {name}\b.*?\n *\{{\}}$", text, re.M | re.S)
    if not found:
        raise Untrue(f"{path} has no function {name}")
    return found


def braced(text, at):
    """What stands in the braces that open here."""
    depth = 0
    for end in range(at, len(text)):
        depth += {"{": 1, "}": -1}.get(text[end], 0)
        if depth == 0:
            return text[at + 1:end].strip()
    raise Untrue("a clause does not end")


def clause_of(path, function, clause):
    """A clause's text, and the names that it can use: those of the file above it."""
    text = read(path)
    head = function_at(text, function, path)
    found = re.search(rf"\bensures {clause} *\{{", head[0])
    if not found:
        raise Untrue(f"{path}: {function} has no clause {clause}")
    return braced(head[0], found.end() - 1), imports(text[:head.start()])


# ---- The page

def title(path, name):
    """A definition's head on the page: its crate, its file and its name."""
    return f"{path.removeprefix('crates/').removesuffix('.antt').replace('/specs/', ': ').replace('/', ': ')}: {name}"


def anchor_of(head):
    return re.sub(r"[^\w\- ]", "", head.lower()).replace(" ", "-")


def anchor(path, name):
    return anchor_of(title(path, name))


def needed(path, name, shown):
    """The definitions of the page that this one is stated with."""
    own, names = definitions(path), imports(read(path))
    for word in dict.fromkeys(words("\n".join(own[name]))):
        found = (path, word) if word in own else (place_of(*names[word]) or (None,))[1:] if word in names else None
        if found in shown and found != (path, name):
            yield found


def printed(path, name, shown):
    """A definition with its text, and links to those that it needs."""
    out = [f"### {title(path, name)}", "", "```text", *parts_of(path)[name], "```", ""]
    links = [f"[{other}](#{anchor(file, other)})" for file, other in needed(path, name, shown)]
    return out + ([f"Needs {', '.join(links)}.", ""] if links else [])


def promises():
    """Of each promise of PROOFS.md the head, what it is stated as, its clauses, and the definitions that stand there."""
    for head, promise in audit.promises(read(audit.PAGE)):
        named = [(path, name) for name, _, path in audit.definitions_in(promise)]
        stated = [(f"crates/{crate}/specs/{file}.antt", name) for name, crate, file in re.findall(STATED, promise, re.M)]
        yield head, stated, re.findall(audit.CLAUSE, promise), named


def counted(definitions_read):
    return f"{len(definitions_read)} definitions, {sum(lines for _, _, lines in definitions_read)} lines"


def section(reading, head, begun, intro=""):
    """What was read since, under its head."""
    further = reading.order[begun:]
    if not further:
        return [f"## {head}", "", "All that this is stated with stands above.", ""]
    out = [f"## {head}", "", f"{counted(further)}.{intro}", ""]
    shown = {(path, name) for path, name, _ in reading.order}
    for path, name, _ in further:
        out += printed(path, name, shown)
    return out


def follow_promise(reading, head, clauses, named):
    """All that a promise's clauses are stated with."""
    for function, clause, path in clauses:
        text, names = clause_of(path, function, clause)
        reading.follow(text, names)
    for path, name in named:
        if (path, name) not in reading.seen:
            raise Untrue(f"PROOFS.md names {name} at {head}, of which its clauses do not speak")


def follow_unknown(reading):
    """What the relations that may be unknown are stated with."""
    reading.seen.difference_update(UNKNOWN)
    for relation in UNKNOWN:
        reading.add("definition", *relation)


STATES = "One state: isolated, and serializable"
BEHIND = "Behind the refinement relation"
BEHIND_INTRO = (
    " None of them need be read. The clauses say little of this relation of an engine and a state of the machine. Some state is represented at an"
    " opening. Each call leads from each represented state to one that is so related. And equations say what is seen meanwhile: replies, faults,"
    " images. That is refinement for any relation, also one that nobody knows. So it is of what is kept of written keys (`KeepsLittle`).")

HEAD = """# Definitions

[PROOFS.md](PROOFS.md) names for each promise the clauses that carry it, and what to read first. Here is the rest: every definition that these clauses are
stated with, down to the words of the library (numbers, lists, options), with its text. Each stands after those that it needs, where it is first
needed. Lines are counted without comments. `harness/reading.py --write` finds the definitions by their names and writes this page.

Whoever has read them knows what is claimed; the proofs need not be read. The clauses also speak of types of the code:
"""


def page():
    reading, parts, table = Reading(), [], []

    def add(head, follow, intro=""):
        begun = len(reading.order)
        follow()
        parts.extend(section(reading, head, begun, intro))
        table.append((head, len(reading.order) - begun, sum(lines for _, _, lines in reading.order[begun:])))

    every = [promise for promise in promises() if promise[2]]
    add(STATES, lambda: [reading.add("definition", *one) for _, stated, _, _ in every for one in stated])
    for head, _, clauses, named in every:
        add(head, lambda: follow_promise(reading, head, clauses, named))
    add(BEHIND, lambda: follow_unknown(reading), BEHIND_INTRO)
    by_file = {}
    for path, name in sorted(reading.types):
        by_file.setdefault(path, []).append(f"`{name}`")
    types = [f"- {', '.join(names)} in [{path.removeprefix('crates/')}](../{path})" for path, names in by_file.items()]
    rows = [f"| [{head}](#{anchor_of(head)}) | {number} | {lines} |" for head, number, lines in table]
    heads = ["| What is stated with them | Definitions | Lines |", "|---|---|---|"]
    return "\n".join([HEAD, *types, "", f"In all {counted(reading.order)}:", "", *heads, *rows, "", *parts]).rstrip() + "\n"


def options(parser):
    parser.add_argument("--write", action="store_true", help="write the page")


def write_page(who, name, made):
    """Writes a page, unless what it says is untrue. The status."""
    try:
        text = made()
    except Untrue as untrue:
        print(f"{who}: {untrue}")
        return 1
    with open(os.path.join(TOP, name), "w", encoding="utf-8") as file:
        file.write(text)
    print(f"{who}: {name} is written: {len(text.splitlines())} lines")
    return 0


def instead(asked):
    """Writes the page if asked to."""
    return write_page("reading", PAGE, page) if asked.write else None


class Definitions(Harness):
    NEEDS = ()

    def test_reading(self):
        print(f"reading: {PAGE} can be written: {len(page().splitlines())} lines")


if __name__ == "__main__":
    run_harness(options, instead)
