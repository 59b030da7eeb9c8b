"""Checks that each wrong body still applies: each of its `old:` texts stands exactly once in its file, once those before it were changed.

`applies.py [CRATE..]`, all crates where none is named: those of the folder `must-fail` of each crate, and those next to this file. Nothing is proved.
Prints each that does not apply, and each that `gate.txt` names and that no folder `must-fail` has, and ends with status 1 where there is one.
`--table` prints how many there are of each crate, with what came out when they were last tried (`result.json` next to them), and `--write` writes
that into docs/TESTING.md.
"""
import argparse
import json
import re
import sys
from pathlib import Path

TOP = Path(__file__).resolve().parent.parent


def fault_of(edit, crate):
    """Why the edit does not apply, if it does not."""
    texts, path, old, pairs = {}, None, None, 0
    for line in edit.read_text().split("\n"):
        word, _, rest = line.partition(" ")
        if word == "file:":
            path = crate / rest.strip()
        elif word == "old:":
            old = rest
        elif word == "new:":
            if path is None or not old:
                return "a 'new:' line stands before any 'file:' or 'old:' line"
            if path not in texts and not path.is_file():
                return f"there is no file {path.relative_to(crate)}"
            text = texts.get(path) or path.read_text()
            if text.count(old) != 1:
                return f"an 'old:' text is in {path.relative_to(crate)} {text.count(old)} times, and not once"
            texts[path], old, pairs = text.replace(old, rest), None, pairs + 1
    return None if pairs else "it has no 'old:' and 'new:' pair"


def edits_of(crate):
    return sorted((crate / "must-fail").glob("*.edit")) + sorted((TOP / "wrong_bodies" / crate.name).glob("*.edit"))


def missing():
    """The wrong bodies that the gate is to try and that aren't where it finds them."""
    lines = (TOP / "wrong_bodies" / "gate.txt").read_text().split("\n")
    names = [line.strip() for line in lines if line.startswith("  ")]
    places = {name: TOP / "crates" / Path(name).parent / "must-fail" / f"{Path(name).name}.edit" for name in names}
    return [f"{place.relative_to(TOP)}: gate.txt names it, and it isn't there" for place in places.values() if not place.is_file()]


HEAD = ("Crate", "Tried", "Refused by a clause", "By the form of a proof alone", "Accepted", "Not judged", "At commit", "More, by the gate")


def result_of(name):
    """What came out when the wrong bodies of a crate were last tried: a cell for each column but the first and the last."""
    folder = TOP / "wrong_bodies" / name
    count = len(list(folder.glob("*.edit")))
    if not (folder / "result.json").is_file():
        return [f"{count} not yet" if count else "0", "", "", "", "", ""]
    result = json.loads((folder / "result.json").read_text())
    form, accepted, unjudged = (len(result[it]) for it in ("by form alone", "accepted", "not judged"))
    later = f", {count - result['tried']} not yet" if count > result["tried"] else ""
    refused = result["tried"] - form - accepted - unjudged
    return [f"{result['tried']}{later}", str(refused), str(form), str(accepted), str(unjudged), f"`{result['commit']}`"]


def table():
    """What came out of the wrong bodies of each crate, in the order of crates.txt, and how many more of each the gate tries."""
    lines = (TOP / "crates.txt").read_text().split("\n")
    names = [line.partition(":")[0].split()[0] for line in lines if line and not line.startswith("#")]
    gate = {name: len(list((TOP / "crates" / name / "must-fail").glob("*.edit"))) for name in names}
    rows = [[f"`{name}`", *result_of(name), str(gate[name])] for name in names if gate[name] or (TOP / "wrong_bodies" / name).is_dir()]
    tried = sum(len(list((TOP / "wrong_bodies" / name).glob("*.edit"))) for name in names)
    rows.append(["all", str(tried), "", "", "", "", "", str(sum(gate.values()))])
    return "\n".join("| " + " | ".join(cells) + " |" for cells in (HEAD, ["---"] * len(HEAD), *rows))


def write():
    page = TOP / "docs" / "TESTING.md"
    page.write_text(re.sub(r"^\| Crate \| (?:By `wrong_bodies|Tried).*?(?=\n\n)", lambda _: table(), page.read_text(), flags=re.M | re.S))


def main():
    parser = argparse.ArgumentParser(description=__doc__, formatter_class=argparse.RawDescriptionHelpFormatter)
    parser.add_argument("--table", action="store_true", help="print how many there are of each crate")
    parser.add_argument("--write", action="store_true", help="write these numbers into docs/TESTING.md")
    parser.add_argument("crates", nargs="*", metavar="CRATE")
    given = parser.parse_args()
    if given.table or given.write:
        print(table()) if given.table else write()
        return 0
    return judge(given.crates)


def judge(names):
    crates = [TOP / "crates" / name for name in names] or sorted((TOP / "crates").iterdir())
    edits = [(edit, fault_of(edit, crate)) for crate in crates for edit in edits_of(crate)]
    faults = [f"{edit.relative_to(TOP)}: {fault}" for edit, fault in edits if fault] + missing()
    for fault in faults:
        print(fault)
    print(f"{len(edits)} wrong bodies, {len(faults)} do not apply or are missing")
    return 1 if faults else 0


if __name__ == "__main__":
    sys.exit(main())
