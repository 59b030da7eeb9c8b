"""Tries the wrong bodies of crates, many in one check: `batches.py [CRATE..]`, all crates where none is named.

A wrong body of a function is tried in a copy of it, with a name and a folder of proofs of its own, next to the function, which stays as it is. So one
check judges many of them, several of one function too: `rattle` reports each function by itself. With `--controls` an unchanged copy of each is
checked as well, which must be proved. A method that a trait asks for, and a function whose copy isn't proved unchanged, are edited in place. A check
then takes one edit of each of several functions, as long as none of them calls another; where `rattle` reports that a callee isn't proved, the caller
is tried again without that callee's edit. What stands outside a function, such as a constant, is tried alone, over the whole crate. All is done on a
copy of the repository; `--gate` tries those of the crates' own folders `must-fail` as well.

Prints each wrong body that isn't refused, and ends with status 1 where there is one. `BAD` is one that doesn't compile, or of which nothing is said.
`FORM` is one that is refused, but by the form of a proof alone: it names a fact of the real body that the wrong one lacks, and nothing is open but
what that answer was for. What came out is written next to the wrong bodies of each crate, as `result.json`, with the commit; `applies.py --write`
takes docs/TESTING.md's table from there. `--log FILE` keeps what each check printed.
"""
import argparse
import json
import os
import re
import shutil
import subprocess
import sys
import tempfile
import time
from dataclasses import dataclass
from pathlib import Path

TOP = Path(__file__).resolve().parent.parent
REPORT = re.compile(r"^(?:fn|impl|struct|enum) (\S+): (.*)$", re.MULTILINE)
FUNCTION = re.compile(r"( *)(?:pub(?:\([a-z]+\))? )?(?:const )?fn (\w+)")
BLOCK = re.compile(r"(?:pub )?(?:trait|impl\b(?:<.*?>)?) (?:(?:\w+::)*(?P<trait>\w+)(?:<(?P<of>.*)>)? for )?"
                   r"(?:&(?:'\w+ )?)?(?P<type>\w+|\(.*?\))")
FAULT = re.compile(r"^(?:\./)?(src/\S+?):(\d+):\d+: error", re.MULTILINE)
GOAL = re.compile(r"\(`([^`]+)`\)")
ANSWER = re.compile(r"pub (\S+) :")
# What is said where a proof names a fact of the real body that the wrong one lacks: that the contract refuses it isn't shown by that.
NAMED = re.compile(r"has no field|\(nearest: |that can be named from here")
# What is said of a function that calls, or passes on, what isn't proved: of its own body nothing is known then.
WAITS = re.compile(r"\bit (?:calls|passes) ")
# What is said where no proof of the wrong body can be tried at all: that the contract refuses it isn't shown by that either.
UNCOVERED = "does not cover this function"
# So many copies are checked at once.
AT_ONCE = 60


@dataclass(frozen=True)
class Function:
    """A function: its file, the line of its head, what `rattle` calls it, and whether a trait asks for it."""

    file: str
    head: int
    name: str
    of_trait: bool

    def copy(self, word):
        """What `rattle` calls a copy of it."""
        return f"{self.name}_{word}"


def pairs_of(edit):
    """The file, the old and the new text of each of its changes."""
    pairs, path, old = [], None, None
    for line in edit.read_text().split("\n"):
        word, _, rest = line.partition(" ")
        path = rest.strip() if word == "file:" else path
        old = rest if word == "old:" else old
        if word == "new:":
            pairs.append((path, old, rest))
    return pairs


def home_of(folder, path, block):
    """The file whose module a block's functions belong to: for methods of a type alone, that of the type, wherever the block stands."""
    if not block["trait"]:
        declares = re.compile(rf"^(?:pub(?:\([a-z]+\))? )?(?:struct|enum) {re.escape(block['type'])}\b", re.MULTILINE)
        for file in (folder / "src").rglob("*.rt"):
            if declares.search(file.read_text()):
                return str(file.relative_to(folder))
    return path


def function_at(folder, path, old):
    """The function in whose body the old text stands, or None."""
    text = (folder / path).read_text()
    lines = text[:text.index(old) + len(old)].split("\n")
    number = len(lines) - 1 - old.count("\n")
    found = [(i, FUNCTION.match(line)) for i, line in enumerate(lines[:number + 1]) if FUNCTION.match(line)]
    if not found:
        return None
    head, function = found[-1]
    if any(line == function[1] + "}" for line in lines[head:number]):
        return None
    blocks = [BLOCK.match(line) for line in lines[:head] if BLOCK.match(line)] if function[1] else []
    home = home_of(folder, path, blocks[-1]) if blocks else path
    modules = [it for it in home.removeprefix("src/").removesuffix(".rt").split("/") if it not in ("lib", "main", "mod")]
    name = "::".join([folder.name, *modules, *(name_of(it) for it in blocks[-1:]), function[2]])
    in_trait = any(it["trait"] or it[0].startswith(("trait", "pub trait")) for it in blocks[-1:])
    return Function(path, head, name, in_trait)


def name_of(block):
    """What `rattle` calls a block of methods: after the type, and after the trait where it has one, and what that is of."""
    words = re.findall(r"\(\)|\w+", block["of"] or "")
    of = "".join("Unit" if word == "()" else word[0].upper() + word[1:] for word in words if len(word) > 1)
    return (f"Tuple{block['type'].count(',') + 1}" if block["type"].startswith("(") else block["type"]) + (block["trait"] or "") + of


def span_of(lines, head):
    """The first line of the function whose head stands there, with the comments and attributes above it, and the one behind its last."""
    indent = FUNCTION.match(lines[head])[1]
    start = head
    while start and re.match(rf"{indent}(?: |///|//|#|\)\])", lines[start - 1]):
        start -= 1
    return start, next(i for i in range(head, len(lines)) if lines[i] == indent + "}") + 1


def kind_of(goal):
    """What a goal is about, wherever in the body it stands: a clause of the contract, an invariant, or what a callee asks."""
    words = goal.split("-")
    return "-".join(words[:2 if words[0] in ("invariant_of", "loop") else 1]), goal.partition("-clause-")[2]


def waits_for(said):
    """What a function calls or passes on and isn't proved, by what a check reports of it."""
    found = WAITS.search(said)
    return set(re.findall(r"`([^`]+)`", said[found.end():])) if found else set()


def by_form(function, printed, crate):
    """Whether all that is said against the function is that its proof names what the body lacks, and that what these answers were for is open."""
    folder = "./proofs/" + "/".join(function.split("::")[1:]) + "/"
    lines = printed.replace("\n  ", " ").split("\n")
    errors = [it for it in lines if it.startswith(folder) and ": error: " in it]
    last = next((i for i, it in enumerate(lines) if it.startswith(f"fn {function}: ")), 0)
    if not errors or "did not prove" in lines[last] or not all(NAMED.search(it) for it in errors):
        return False
    lost = {kind_of(answer_at(crate, it)) for it in errors}
    first = max((i for i, it in enumerate(lines[:last]) if it.startswith("fn ")), default=0)
    still_open = {kind_of(goal) for it in lines[first:last] if "not proved" in it for goal in GOAL.findall(it)}
    return still_open <= lost or ("", "") in lost


def answer_at(crate, error):
    """The goal whose answer an error is in: none outside of the answers."""
    path, number = error.split(":")[:2]
    answers = [ANSWER.match(line) for line in (crate / path).read_text().split("\n")[:int(number)]]
    return next((it[1] for it in reversed(answers) if it and path.endswith("/Answers.antt")), "")


class Crate:
    """The wrong bodies of a crate, on a copy of the repository."""

    def __init__(self, copy, name, edits, words):
        self.controls, self.log = words.controls, words.log
        self.name, self.folder, self.fresh = name, copy / "crates" / name, TOP / "crates" / name
        self.edits = edits
        self.functions = {edit: self.function_of(edit) for edit in edits}
        self.verdicts, self.calls = {}, {}
        self.formal = set()

    def function_of(self, edit):
        """The one function that it changes, or None."""
        found = set()
        for path, old, _ in pairs_of(edit):
            file = self.fresh / path
            if file.is_file() and old in file.read_text():
                found.add(function_at(self.fresh, path, old))
        return found.pop() if len(found) == 1 else None

    def restore(self):
        """Puts the copy of the repository back as it was."""
        for part in ("src", "specs", "proofs"):
            if (self.fresh / part).is_dir():
                shutil.rmtree(self.folder / part)
                shutil.copytree(self.fresh / part, self.folder / part)

    def check(self, names, edits):
        """What a check reports of each of these functions, or of all where there are none, and all that it prints."""
        only = [word for name in names for word in ("--only", name)]
        began = time.monotonic()
        ran = subprocess.run(["rt", "check", self.name, *only], cwd=self.folder, capture_output=True, text=True)
        if self.log:
            head = f"== {self.name}, {time.monotonic() - began:.0f} s: {' '.join(it.stem for it in edits)}"
            self.log.write("\n".join([head, ran.stdout, ran.stderr]))
            self.log.flush()
        return dict(REPORT.findall(ran.stdout)), ran.stdout + ran.stderr

    def check_in_place(self, edits, names):
        """The same with these edits made where they stand."""
        self.restore()
        self.change(edits)
        return self.check(names, edits)

    def change(self, edits):
        """Makes these edits where they stand."""
        for path, old, new in (pair for edit in edits for pair in pairs_of(edit)):
            file = self.folder / path
            file.write_text(file.read_text().replace(old, new))

    def copy_function(self, function, wrong):
        """Writes a copy of a function behind it with each of these edits, or unchanged."""
        file = self.folder / function.file
        lines = file.read_text().split("\n")
        start, end = span_of(lines, function.head)
        copies, last = [], function.name.rpartition("::")[2]
        for word, edit in wrong.items():
            text = "\n".join(lines[start:end])
            for _, old, new in pairs_of(edit) if edit else []:
                text = text.replace(old, new)
            copies += ["", re.sub(rf"\bfn {last}\b", f"fn {last}_{word}", text, count=1)]
            self.copy_proof(function, word)
        file.write_text("\n".join([*lines[:end], *copies, *lines[end:]]))

    def copy_proof(self, function, word):
        """Gives a copy of a function a copy of its proof."""
        modules = function.name.split("::")[1:]
        proof = self.folder.joinpath("proofs", *modules)
        if proof.is_dir():
            place = ".".join(["Rattle", self.name, "proofs", *modules])
            for file in shutil.copytree(proof, proof.parent / f"{proof.name}_{word}").rglob("*.antt"):
                file.write_text(file.read_text().replace(f"{place}.", f"{place}_{word}."))

    def judge_copies(self, chosen):
        """Tries these, by function, each in a copy of its function: those of which nothing can be said yet stay."""
        self.restore()
        words = {edit: f"wrong_{i}" for i, edit in enumerate(edit for edits in chosen.values() for edit in edits)}
        unchanged = {"unchanged": None} if self.controls else {}
        for function in sorted(chosen, key=lambda it: -it.head):
            self.copy_function(function, {**unchanged, **{words[edit]: edit for edit in chosen[function]}})
        names = [function.copy(word) for function, edits in chosen.items() for word in [*unchanged, *(words[edit] for edit in edits)]]
        found, printed = self.check(names, words)
        if not found:
            self.leave_out_faults(chosen, words, printed)
            return
        for function, edits in chosen.items():
            if unchanged and not found.get(function.copy("unchanged"), "").startswith("proved"):
                print(f"{self.name}: an unchanged copy of {function.name} isn't proved", flush=True)
            else:
                self.take({function.copy(words[edit]): edit for edit in edits}, found, printed)

    def leave_out_faults(self, chosen, words, printed):
        """Where a check of copies says nothing: leaves those in which it finds a fault to be tried in place, or tries the halves."""
        names = {self.function_with(file, int(line)) for file, line in FAULT.findall(printed)}
        faulty = {edit for edit, word in words.items() if any(name.endswith(f"_{word}") for name in names)}
        left = {function: [edit for edit in edits if edit not in faulty] for function, edits in chosen.items()}
        items = [(function, edits) for function, edits in left.items() if edits]
        if faulty and items:
            self.judge_copies(dict(items))
        elif len(items) > 1:
            self.judge_copies(dict(items[:len(items) // 2]))
            self.judge_copies(dict(items[len(items) // 2:]))

    def function_with(self, file, number):
        """The name of the function with this line."""
        heads = [FUNCTION.match(line) for line in (self.folder / file).read_text().split("\n")[:number]]
        return next((head[2] for head in reversed(heads) if head), "")

    def alone(self, edit):
        """Tries one by itself."""
        function = self.functions[edit]
        found, printed = self.check_in_place([edit], [function.name]) if function else ({}, "")
        found, printed = (found, printed) if found else self.check_in_place([edit], [])
        if not found or any("could not tell" in it or UNCOVERED in it for it in found.values()):
            self.verdicts[edit] = "BAD"
        else:
            against = [it for it, said in found.items() if not said.startswith(("proved", "assumed")) and not waits_for(said)]
            self.verdicts[edit] = "refused" if any(not it.startswith(("proved", "assumed")) for it in found.values()) else "PROVED"
            self.formal |= {edit} if against and all(by_form(it, printed, self.folder) for it in against) else set()

    def below(self, function):
        """The functions that it is known to call, at any distance."""
        found, left = set(), [function]
        while left:
            new = self.calls.get(left.pop(), set()) - found
            found |= new
            left += new
        return found

    def batch(self):
        """One wrong body of each function, of which none is known to call another."""
        chosen = {}
        for edit in self.edits:
            function = self.functions[edit] and self.functions[edit].name
            if edit not in self.verdicts and function and function not in chosen:
                if not any(it in self.below(function) or function in self.below(it) for it in chosen):
                    chosen[function] = edit
        return chosen

    def judge(self, chosen):
        """Tries these at once: those of which nothing can be said yet stay."""
        found, printed = self.check_in_place(chosen.values(), chosen)
        if not found and len(chosen) > 1:
            items = list(chosen.items())
            self.judge(dict(items[:len(items) // 2]))
            self.judge(dict(items[len(items) // 2:]))
            return
        if not self.take(chosen, found, printed):
            for edit in chosen.values():
                self.alone(edit)

    def take(self, chosen, found, printed):
        """Takes down what a check reports of the wrong bodies in these functions, or copies of functions. Was anything clear?"""
        for name, said in found.items():
            self.calls.setdefault(re.sub(r"_wrong_\d+$", "", name), set()).update(waits_for(said))
        told = {name: found.get(name, "nothing") for name in chosen}
        clear = [name for name, said in told.items() if said.startswith(("proved", "not proved", "no proof")) and not waits_for(said)]
        for name in clear:
            self.verdicts[chosen[name]] = "PROVED" if told[name].startswith("proved") else "BAD" if UNCOVERED in told[name] else "refused"
            self.formal |= {chosen[name]} if by_form(name, printed, self.folder) else set()
        return bool(clear)

    def parts(self):
        """The wrong bodies that are tried in copies, by function, not many at once."""
        functions = {}
        for edit, function in self.functions.items():
            if function and not function.of_trait:
                functions.setdefault(function, []).append(edit)
        parts, count = [{}], 0
        for function, edits in functions.items():
            if count + len(edits) > AT_ONCE:
                parts, count = [*parts, {}], 0
            parts[-1][function], count = edits, count + len(edits)
        return [it for it in parts if it]

    def run(self):
        # (what is edited in place isn't proved, so nothing could be said of a copy that calls it: the two are never in one check)
        for part in self.parts():
            self.judge_copies(part)
        while chosen := self.batch():
            self.judge(chosen)
        for edit in self.edits:
            if edit not in self.verdicts:
                self.alone(edit)
        wrong = {edit: said for edit, said in self.verdicts.items() if said != "refused"}
        for edit, said in wrong.items():
            print(f"{said}: {edit.relative_to(TOP)}", flush=True)
        for edit in sorted(self.formal - set(wrong)):
            print(f"FORM: {edit.relative_to(TOP)}", flush=True)
        refused = len(self.verdicts) - len(wrong)
        print(f"{self.name}: {len(self.verdicts)} wrong bodies, {refused} refused, {len(self.formal)} of them by form alone", flush=True)
        return not wrong


def commit_of(name):
    """The commit at which the crate and its wrong bodies stand, with a `+` where they have been changed since."""
    places = [str(Path(part) / name) for part in ("crates", "wrong_bodies") if (TOP / part / name).is_dir()]
    commit = subprocess.run(["git", "log", "-1", "--format=%h", "--abbrev=12"], cwd=TOP, capture_output=True, text=True).stdout.strip()
    changed = subprocess.run(["git", "status", "--porcelain", "--", *places], cwd=TOP, capture_output=True, text=True).stdout
    return commit + ("+" if any(not line.endswith("result.json") for line in changed.splitlines()) else "")


def record(crate, commit):
    """Writes down what came out for a crate, all of whose wrong bodies of this folder were tried."""
    edits = [edit for edit in crate.verdicts if edit.parent.name != "must-fail"]
    result = {
        "commit": commit,
        "tried": len(edits),
        "by form alone": sorted(edit.stem for edit in edits if edit in crate.formal and crate.verdicts[edit] == "refused"),
        "accepted": sorted(edit.stem for edit in edits if crate.verdicts[edit] == "PROVED"),
        "not judged": sorted(edit.stem for edit in edits if crate.verdicts[edit] == "BAD"),
    }
    (TOP / "wrong_bodies" / crate.name / "result.json").write_text(json.dumps(result, indent=1) + "\n")


def taken(source, target):
    """Copies a file; one of a folder `out`, which `rt` replaces and never changes, is linked where it can be."""
    if "out" in Path(source).parts:
        try:
            return os.link(source, target)
        except OSError:
            pass
    return shutil.copy2(source, target)


def main():
    parser = argparse.ArgumentParser(description=__doc__, formatter_class=argparse.RawDescriptionHelpFormatter)
    parser.add_argument("--gate", action="store_true", help="try those of the crates' own folders must-fail as well")
    parser.add_argument("--controls", action="store_true", help="check an unchanged copy of each function as well")
    parser.add_argument("--log", type=argparse.FileType("a"), metavar="FILE", help="keep what each check printed")
    parser.add_argument("crates", nargs="*", metavar="CRATE")
    words = parser.parse_args()
    crates = sorted(it.name for it in (TOP / "crates").iterdir())
    if unknown := sorted({*words.crates} - {*crates}):
        parser.error(f"there is no crate {unknown[0]}")
    with tempfile.TemporaryDirectory() as folder:
        copy = Path(folder)
        shutil.copytree(TOP / "crates", copy / "crates", copy_function=taken)
        for name in ("crates.txt", "HANDLES"):
            shutil.copy(TOP / name, copy)
        good = True
        for name in words.crates or crates:
            edits = sorted((TOP / "wrong_bodies" / name).glob("*.edit"))
            edits += sorted((TOP / "crates" / name / "must-fail").glob("*.edit")) if words.gate else []
            if edits:
                crate, commit = Crate(copy, name, edits, words), commit_of(name)
                good &= crate.run()
                record(crate, commit)
    return 0 if good else 1


if __name__ == "__main__":
    sys.exit(main())
