"""Who holds a handle of the system: `handles.py` compares the list with "What you trust" of docs/PROOFS.md, `handles.py --list` prints it.

A handle is a right to call the system (a bound `Files`, `Net`, `Env`, or the whole runtime) or an open thing of it (`File`, `TcpStream`,
`TcpListener`, `Poll`). What is done with one no clause sees, so a function that has one may do anything with it. It has one where

- its signature names one, or a type that carries one;
- it is a method of a type that carries one, or of an `impl` whose head names one;
- it calls a method that gives one.

A type carries one where a field of it is one, or carries one, as far as that field can be named: in its file, if it is private, and in its
crate else. The crates are those of the program. No function of theirs may wait or start threads, so these handles are named nowhere.
"""
import os
import re

from ssikvd_harness.arguments import run_harness
from ssikvd_harness.cases import Harness
from ssikvd_harness.deviations import expect
from ssikvd_harness.settings import TOP, text_of

HANDLES = "Files|Net|Env|HostRuntime|File|TcpStream|TcpListener|Poll"
NEVER = "Wait|Threads|Processes"
PROGRAM = "ssikvd"
BLOCK = re.compile(r"^(?:pub(?:\([a-z]+\))? )?(struct|enum|trait|impl)\b(.*?)(?:\{$(.*?)^\}|;$)", re.M | re.S)
FUNCTION = re.compile(r"^( *)(?:pub(?:\([a-z]+\))? )?(?:const )?fn (\w+)(.*?)(?:^\1\{$(.*?)^\1\}|^\1\{\}$|[{;]$(.*?)(?=^\1\}|\Z))", re.M | re.S)
ROW = re.compile(r"^\| (.*?) \| .*? \| (`crates/.*?`) \|$", re.M)


def names(words, text):
    """Does a text name one of these, but as a part of another type?"""
    return bool(words) and re.search(rf"(?<![:\w])(?:{words})\b(?!::| *=)", text) is not None


def crates():
    """The crates of the program: those that it stands on."""
    lines = [line.partition(":") for line in text_of("crates.txt").splitlines() if line and not line.startswith("#")]
    below = {head.split()[0]: rest.split() for head, _, rest in lines}
    found, due = [], [PROGRAM]
    while due:
        crate = due.pop()
        if crate in below and crate not in found:
            found.append(crate)
            due += below[crate]
    return sorted(found)


def code_of(path):
    """A source without its comments, its ghost parts and its clauses."""
    lines, depth = [], 0
    for line in text_of(path).splitlines():
        bare = re.sub(r"//.*", "", line)
        if depth or re.match(r"\s*(?:ghost\b|requires\b|ensures\b)", bare):
            depth += bare.count("{") - bare.count("}")
            continue
        lines.append(bare)
    return "\n".join(lines) + "\n"


class Crate:
    """The functions of a crate, and which of them hold a handle."""

    def __init__(self, name):
        folder = os.path.join(TOP, "crates", name, "src")
        self.paths = sorted(f"crates/{name}/src/{file}" for file in os.listdir(folder) if file.endswith(".rt"))
        self.code = {path: code_of(path) for path in self.paths}
        self.carriers = {path: set() for path in self.paths}    # by file, the types that carry a handle there
        while self._carries_more():
            pass

    def _carries_more(self):
        before = {path: set(types) for path, types in self.carriers.items()}
        for path in self.paths:
            for kind, head, body in BLOCK.findall(self.code[path]):
                if kind not in ("struct", "enum"):
                    continue
                name = re.match(r" (\w+)", head)[1]
                fields = re.findall(r"^ {4}(pub(?:\([a-z]+\))? )?\w+: (.*)$", body, re.M) if kind == "struct" else [("pub ", text) for text in re.findall(r"\((.*?)\)", body)]
                for shown, field in fields:
                    if names(HANDLES, field) or names("|".join(before[path]), field):
                        for place in self.paths if shown else [path]:
                            self.carriers[place].add(name)
        return before != self.carriers

    def givers(self):
        """The methods of types alone that give a handle. Those of traits are known to a caller by their contracts."""
        return {name for path in self.paths for _, head, text in self._blocks(path) if head and " for " not in head
                for _, name, signature, *_ in FUNCTION.findall(text) if names(HANDLES, signature.partition("->")[2])}

    def holders(self):
        """Each function that holds a handle: its name, of a method with the type, and its file."""
        givers = "|".join(sorted(self.givers()))
        for path in self.paths:
            carriers = "|".join(sorted(self.carriers[path]))
            held = f"{HANDLES}|{carriers}" if carriers else HANDLES
            for owner, head, text in self._blocks(path):
                own = names(HANDLES, head) or names(carriers, owner or "")
                for _, name, signature, *bodies in FUNCTION.findall(text):
                    calls = givers and re.search(rf"\.(?:{givers})\(", "".join(bodies))
                    given = re.search(rf"\b(?:{carriers})::\w+\(", "".join(bodies)) if carriers else None
                    if names(held, signature) or (own and re.search(r"\(\s*(?:&(?:'\w+ )?)?(?:mut )?self\b", signature)) or calls or given:
                        yield f"{owner}::{name}" if owner else name, path

    def _blocks(self, path):
        """The functions at the margin, and those of each block: the type's name, the block's head and its text."""
        code = self.code[path]
        yield None, "", BLOCK.sub("", code)
        for kind, head, body in BLOCK.findall(code):
            if kind in ("impl", "trait"):
                whole = re.sub(r"^<(?:[^<>]|<[^<>]*>)*>", "", head.strip())
                owner = re.search(r"(?:\bfor )?(&?\w+)(?:<[^{]*)?\s*$", whole.split(" for ")[-1].split(":")[0].strip())
                yield owner[1] if owner else None, head, body


def computed():
    return {found for crate in crates() for found in Crate(crate).holders()}


def told():
    """The functions of the table, each with its file: `A::{b, c}` stands for two."""
    table = re.search(r"^\| Holds a handle \|.*?\n\n", text_of("docs/PROOFS.md"), re.M | re.S)
    expect(table, "docs/PROOFS.md has no table of those that hold a handle")
    for functions, files in ROW.findall(table[0]):
        paths = re.findall(r"`(crates/[^`]*)`", files)
        for name in re.findall(r"`([^`]*)`", functions):
            owner, _, several = name.partition("::{")
            for one in several.rstrip("}").split(", ") if several else [None]:
                yield f"{owner}::{one}" if one else name, tuple(paths)


def options(parser):
    parser.add_argument("--list", action="store_true", help="print the functions and their files, and compare nothing")


def instead(asked):
    """Prints the list where that is asked for."""
    if not asked.list:
        return None
    print("\n".join(f"{path}: {name}" for name, path in sorted(computed(), key=lambda pair: pair[::-1])))
    return 0


class Handles(Harness):
    NAME = "handles"
    NEEDS = ()

    def test_list(self):
        found, listed = computed(), {(name, path) for name, paths in told() for path in paths}
        for name, path in sorted(found - listed):
            with self.tally.run(f"{name} in {path}"):
                expect(False, "it holds a handle of the system, and isn't in the list of what is trusted")
        for name, path in sorted(listed - found):
            with self.tally.run(f"{name} in {path}"):
                expect(False, "it holds no handle of the system, and is in the list of those that do")

    def test_code(self):
        for crate in crates():
            for path, code in Crate(crate).code.items():
                with self.tally.run(path):
                    expect(not names(NEVER, code), "it may wait, or start something")


if __name__ == "__main__":
    run_harness(options, instead)
