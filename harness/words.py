"""The field's words: no document, man page, picture, tool or script of bench or harness uses those of `AVOIDED`; documents have those of `SEARCHED`.

A reader finds by searching what he knows the name of. Of documents and man pages, what is between backticks, in blocks and in links isn't read: names,
commands and texts of the program. Of a picture its text is read; of a script its docstrings, help and messages, and the comments at its head; of the
completions all of it. `words.py --list` prints what would be refused, with files and lines.
"""
import ast
import bisect
import glob
import os
import re

from ssikvd_harness.arguments import run_harness
from ssikvd_harness.cases import Harness
from ssikvd_harness.deviations import expect
from ssikvd_harness.settings import TOP, text_of
from documents import documents

# Words that no document uses, each with the field's.
AVOIDED = {
    "sent at once": "pipelined",
    "of the processor": "of CPU time",
    "by the clock": "wall-clock",
    "middle half": "interquartile range",
    "lives": "restarts, runs",
    "anew": "again, from scratch",
    "beside": "with, against, while .. runs, next to",
    "want of memory": "out of memory",
    "asks for memory": "allocates",
    "asked for memory": "allocated",
    "told": "reported, notified, said",
    "let be": "left alone",
    "is said of": "holds of",
    "said with": "stated with",
    "to be had": "available",
    "of before": "the previous one",
    "departed": "sent",
    "due": "expected; garbage",
    "reckon with": "expect, allow",
    "given back": "freed, returned",
    "gives back": "frees, returns",
    "give back": "free, return",
    "breaks off": "ends early, aborts",
    "broken off": "ended early, interrupted",
    "begins again": "retries",
    "begin again": "retry",
    "handed on": "passed on",
    "hands on": "passes on",
    "hand on": "pass on",
    "greatest": "largest",
    "in one go": "at once",
    "processor time": "CPU time",
    "settled": "durable",
    "unsettled": "not durable",
    "sitting": "run",
}
# Words that a reader searches for.
SEARCHED = ("throughput", "CPU time", "write-ahead log", "optimistic", "idempotency key", "backoff", "percentile", "pipelined", "restart", "garbage", "snapshot",
            "recovery", "abort", "serializable", "wall-clock", "group commit", "auto-commit", "replication", "authentication", "idempotent", "buffered",
            "received", "sent", "reported", "notified", "interquartile range", "compaction", "back-pressure", "write skew", "phantom")
# The last holds the list.
NOT_READ = ("docs/STATUS.md", "harness/words.py")


def prose(name):
    """The lines of a document that are prose, each with its number."""
    is_block = False
    for number, line in enumerate(text_of(name).splitlines(), 1):
        if line.startswith("```"):
            is_block = not is_block
        elif not is_block and not line.startswith(("    ", ".\\\"")):
            yield number, re.sub(r"`[^`]*`|\]\([^)]*\)|<[^>]*>", " ", line)


def shell_texts(text):
    """The lines of a script that aren't Python: its comments, and what it has in quotes."""
    for number, line in enumerate(text.splitlines(), 1):
        said = [line.lstrip(" #")] if re.match(r" *#[^!]", line) else re.findall(r"\"([^\"]* [^\"]*)\"|'([^']* [^']*)'", line)
        yield number, " | ".join(part for it in said for part in ([it] if isinstance(it, str) else it))


def python_texts(text):
    """What a script in Python says: the comments at its head, docstrings, and texts of more than one word. A value in a text counts as a break."""
    yield from ((number, line) for number, line in shell_texts(text.partition('"""')[0]) if line)
    for node in ast.walk(ast.parse(text)):
        if isinstance(node, ast.Constant) and isinstance(node.value, str) and " " in node.value.strip():
            yield from ((node.lineno + number, line) for number, line in enumerate((node.value + "\n|").splitlines()))


def spoken(name):
    """The lines of a script, a picture or another file that a reader sees, each with its number. Names between backticks aren't read."""
    text = text_of(name)
    if name.endswith(".svg"):
        lines = [(number, found) for number, line in enumerate(text.splitlines(), 1) for found in re.findall(r">([^<>]+)<", line)]
    elif name.endswith(".py") or text.startswith("#!/usr/bin/env python3") or text.startswith("#!/usr/bin/python3"):
        lines = python_texts(text)
    elif text.startswith("#!"):
        lines = shell_texts(text)
    else:
        lines = enumerate(text.splitlines(), 1)
    for number, line in lines:
        yield number, re.sub(r"`[^`]*`", " ", line)


def found_in(*patterns):
    return sorted(os.path.relpath(name, TOP) for pattern in patterns for name in glob.glob(os.path.join(TOP, pattern)) if os.path.isfile(name))


def read():
    """The files that are read, each with what gives its lines."""
    pages = [name for name in documents() + found_in("man/*.[1-8]") if name not in NOT_READ]
    scripts = found_in("bench/*.py", "dist/*", "completions/*", "docs/pictures/*", "examples/*.py", "harness/*.py", "harness/run.sh",
                       "harness/ssikvd_harness/*.py", "wrong_bodies/*.py", "wrong_bodies/run.sh")
    return [(name, prose) for name in pages] + [(name, spoken) for name in scripts if name not in NOT_READ]


def hits(name, lines_of=prose):
    """The words that a document shouldn't use, also across lines: each with its line and what the field says."""
    lines = list(lines_of(name))
    text, starts = "", []
    for _, line in lines:
        starts.append(len(text))
        text += line.strip() + " "
    for word, better in AVOIDED.items():
        # A dot and a name after it make it code.
        for found in re.finditer(rf"(?<![\w-]){word}(?![\w-]|\.\w)(?! to\b)", text, re.I):
            yield lines[bisect.bisect(starts, found.start()) - 1][0], word, better


def options(parser):
    parser.add_argument("--list", action="store_true", help="print what would be refused, and judge nothing")


def instead(asked):
    """Prints where each word stands, where that is asked for."""
    if not asked.list:
        return None
    for name, lines_of in read():
        for number, word, better in hits(name, lines_of):
            print(f"{name}:{number}: {word}: {better}")
    return 0


class Words(Harness):
    NAME = "words"
    NEEDS = ()

    def test_words(self):
        for name, lines_of in read():
            with self.tally.run(name):
                found = [f"line {number}: '{word}' ({better})" for number, word, better in hits(name, lines_of)]
                expect(not found, "; ".join(found[:5]))

    def test_read(self):
        for name in ("docs/pictures/pauses.svg", "bench/workloads.py", "harness/kills.py", "dist/ssikvd-ship", "dist/ssikvd-compact"):
            with self.tally.run(f"{name}, of which something is read"):
                expect(sum(len(line.split()) for _, line in spoken(name)) > 50, "next to nothing is read of it")

    def test_planted(self):
        with self.tally.run("words that are planted"):
            planted = python_texts('"""What was sent\nat once."""\nprint("it was told", "by the clock")\n')
            found = sorted(word for _, word, _ in hits("planted", lambda _: planted))
            expect(found == ["by the clock", "sent at once", "told"], f"of three, {found} are seen")

    def test_searched(self):
        with self.tally.run("the words that are searched for"):
            whole = " ".join(" ".join(text_of(name) for name in documents()).split()).lower()
            missing = [word for word in SEARCHED if word.lower() not in whole]
            expect(not missing, f"no document has {', '.join(missing)}")


if __name__ == "__main__":
    run_harness(options, instead)
