"""Breaks long lines of definitions, proofs and their comments: `columns.py [--write] [FILE..]`, those of all crates where no file is named.

A line of `specs` has at most 120 columns, one of `proofs` 160, one of `src` 140 and a clause there 120, and an import 118. `rt fmt` leaves such
breaks as they are, and makes none.
Prints each line that is longer; with `--write` it breaks what it can first: an import into several of one home, a comment between words,
and what else is long in `specs` and `proofs` before an operator or behind a comma, as far out of brackets as there is a place.
"""
import re
from pathlib import Path

from ssikvd_harness.arguments import FORMS, asked, run_harness
from ssikvd_harness.cases import Harness

TOP = Path(__file__).resolve().parent.parent
MOST = {"specs": 120, "proofs": 160, "src": 140}
CLAUSE_MOST, IMPORT_MOST = 120, 118
COMMENT = re.compile(r"^( *(?:--|///|//!|//))(?= \S)")
# What is no clause, nor part of one: a comment, a text, an attribute.
NO_CLAUSE = re.compile(r'^ *(?://|#)|"')
IMPORT = re.compile(r"^(?P<head> *(?:ghost )?(?:pub |unfoldable )*use [^{]*\{)(?P<names>.*)\}(?P<end>;?)$")
# By how loosely they bind.
OPERATORS = {"→": 0, "↔": 0, "⊎": 1, "×": 2, "∙": 3, "≡": 4, "≢": 4, "≤": 4, "<": 4, "&&": 5, "||": 5, "++": 6, "∷": 6, "+": 7, "-": 7}
LAST = 9


def places(line):
    """Where the line may be broken: the column of what then begins a line, how deep in brackets it stands, and how loosely it is bound."""
    depth, found = 0, []
    start = len(line) - len(line.lstrip())
    for at, sign in enumerate(line):
        depth += (sign in "([{⟦") - (sign in ")]}⟧")
        if sign != " " or at <= start:
            continue
        word, before = line[at + 1:].split(" ", 1)[0], line[:at].rsplit(" ", 1)[-1]
        if word in OPERATORS:
            found.append((at + 1, depth, OPERATORS[word]))
        elif before == "=" and depth == 0 or before.endswith((",", ";")):
            found.append((at + 1, depth, 0))
        elif before not in OPERATORS and "=" not in (word, before) and word not in ("{", ":") and not in_binder(line, at):
            found.append((at + 1, depth, LAST))
    return found


def in_binder(line, at):
    """Whether a lambda's names stand around this column."""
    head = line[:at].rpartition("λ")
    return bool(head[1]) and "." not in head[2]


def best(line, most):
    """The column at which a line is broken, or None."""
    start = len(line) - len(line.lstrip())
    fitting = [it for it in places(line) if start + 24 < it[0] <= most + 1]
    return min(fitting, key=lambda it: (it[1] + 1.5 * (it[2] == LAST), it[2], -it[0]), default=(None,))[0]


def broken(line, most):
    """The lines that stand for a long one of definitions or proofs."""
    indent = len(line) - len(line.lstrip())
    continues = line.split()[0] in OPERATORS
    lines = []
    while len(line) > most and (at := best(line, most)):
        lines.append(line[:at].rstrip())
        line = " " * (indent if continues else indent + 4) + line[at:]
    return [*lines, line]


def refilled(lines, most):
    """A comment's lines, from the first that is too long on broken between words again."""
    first = next(number for number, line in enumerate(lines) if len(line) > most)
    head = COMMENT.match(lines[first])[1]
    made = [head]
    for word in " ".join(line.removeprefix(head) for line in lines[first:]).split():
        if len(f"{made[-1]} {word}") > most:
            made.append(head)
        made[-1] += f" {word}"
    return [*lines[:first], *made]


def with_comments(lines, most):
    """The lines, each paragraph of a comment with none that is too long."""
    made, paragraph = [], []
    for line in [*lines, ""]:
        found = COMMENT.match(line)
        if paragraph and (not found or found[1] != COMMENT.match(paragraph[0])[1]):
            made += refilled(paragraph, most) if max(map(len, paragraph)) > most else paragraph
            paragraph = []
        paragraph += [line] if found else []
        made += [] if found else [line]
    return made[:-1]


def imports(found):
    """An import as several of its home."""
    lines, names = [], []
    for name in re.split(r", (?![^{]*\})", found["names"]):
        if names and len(found["head"] + ", ".join([*names, name]) + "}" + found["end"]) > IMPORT_MOST:
            lines.append(names)
            names = []
        names.append(name)
    return [found["head"] + ", ".join(it) + "}" + found["end"] for it in [*lines, names]]


def most_of(line, kind):
    """How many columns the line may have: an import of one name has as many as that takes."""
    found = IMPORT.match(line)
    if found:
        return IMPORT_MOST if "," in found["names"] else len(line)
    return CLAUSE_MOST if kind == "src" and not NO_CLAUSE.search(line) else MOST[kind]


def mended(line, kind):
    """The lines that stand for a line."""
    most = most_of(line, kind)
    if len(line) <= most:
        return [line]
    if found := IMPORT.match(line):
        return imports(found)
    return [line] if COMMENT.match(line) or NO_CLAUSE.search(line) and kind == "src" else broken(line, most)


def kind_of(file):
    return next(it for it in file.parts[::-1] if it in MOST)


def options(parser):
    parser.add_argument("--write", action="store_true", help="break the lines that can be broken")
    parser.add_argument("files", nargs="*", metavar="FILE", help="only these files; quick and long name none, and stand for all of them")


def lines_too_wide(asked):
    """How many files there are, and which of their lines are too wide, after breaking those that can be broken if asked to."""
    every = [it for kind in MOST for it in sorted((TOP / "crates").glob(f"*/{kind}/**/*.{'rt' if kind == 'src' else 'antt'}"))]
    files = [Path(name) for name in asked.files if name not in FORMS] or every
    wide = []
    for file in files:
        kind, lines = kind_of(file), file.read_text(encoding="utf-8").split("\n")
        if asked.write:
            lines = [new for line in with_comments(lines, MOST[kind]) for new in mended(line, kind)]
            file.write_text("\n".join(lines), encoding="utf-8")
        wide += [f"{file}:{number}: {len(line)} columns" for number, line in enumerate(lines, 1) if len(line) > most_of(line, kind)]
    return len(files), wide


class Columns(Harness):
    NEEDS = ()

    def test_columns(self):
        count, wide = lines_too_wide(asked(options))
        print(*wide, f"columns: {count} files, {len(wide) or 'no'} lines that are too wide", sep="\n")
        self.assertEqual(wide, [])


if __name__ == "__main__":
    run_harness(options, has_form=False)
