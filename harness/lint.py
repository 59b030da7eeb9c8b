"""The repository's Python, read and not run: names that aren't defined, imports and variables that nobody uses, warnings of the compiler.

Each file is compiled as Python 3.10 takes it. A function of the package `ssikvd_harness` has the types of its parameters and of what it gives.
Each script of this folder that is a harness is one that runner.py runs, and each of bench is named in a document. pyflakes looks at all files, too,
where it is installed. Sources with one fault each must be reported, and one without any must not.
"""
import ast
import builtins
import os
import re
import shutil
import subprocess
import symtable
import sys
import warnings

from runner import HARNESSES
from ssikvd_harness.arguments import run_harness
from ssikvd_harness.cases import Harness
from ssikvd_harness.deviations import expect, missing
from ssikvd_harness.settings import HARNESS, PATIENCE, TOP, text_of

LEFT_OUT = {".git", "out", "node_modules", "vendor", "target", "build", "__pycache__"}
VERSION = (3, 10)
KNOWN = {*dir(builtins), "__file__", "__name__", "__doc__", "__spec__", "__path__", "__class__", "__annotations__"}
PACKAGE = os.path.join("harness", "ssikvd_harness", "")


def sources():
    """The files of the repository that are Python, by their names or by their first lines."""
    for place, folders, names in os.walk(TOP):
        folders[:] = sorted(set(folders) - LEFT_OUT)
        for name in sorted(names):
            path = os.path.join(place, name)
            if name.endswith(".py") or "." not in name and is_script(path):
                yield os.path.relpath(path, TOP)


def is_script(path):
    with open(path, "rb") as file:
        return re.match(rb"#!.*python", file.readline(100)) is not None


def compiled(name, text):
    """What the compiler says, warnings too. None where it takes the text."""
    try:
        with warnings.catch_warnings():
            warnings.simplefilter("error")
            compile(ast.parse(text, name, feature_version=VERSION), name, "exec")
    except (SyntaxError, Warning) as found:
        yield f"{found}"


def undefined(text, name):
    """Names that are read and that nobody defines."""
    whole = symtable.symtable(text, name, "exec")
    known = KNOWN | {symbol.get_name() for symbol in whole.get_symbols() if symbol.is_assigned() or symbol.is_imported() or symbol.is_namespace()}
    tables = [whole]
    while tables:
        table = tables.pop()
        tables += table.get_children()
        known |= {symbol.get_name() for symbol in table.get_symbols() if symbol.is_declared_global() and symbol.is_assigned()}
    tables = [whole]
    while tables:
        table = tables.pop()
        tables += table.get_children()
        for symbol in table.get_symbols():
            if symbol.is_referenced() and symbol.get_name() not in known and (symbol.is_global() or table is whole):
                yield f"{symbol.get_name()} isn't defined, below line {table.get_lineno()}"


def read_names(tree):
    """The names that a tree reads, also in `__all__` and in types that are written as texts."""
    found = {node.id for node in ast.walk(tree) if isinstance(node, ast.Name) and not isinstance(node.ctx, ast.Store)}
    for node in ast.walk(tree):
        if isinstance(node, ast.Constant) and isinstance(node.value, str) and re.fullmatch(r"[\w.\[\], |]+", node.value):
            found |= set(re.findall(r"\w+", node.value))
    return found


def unused(tree):
    """Imports that the file doesn't read, and variables that their function doesn't."""
    read = read_names(tree)
    for node in ast.walk(tree):
        if isinstance(node, (ast.Import, ast.ImportFrom)) and getattr(node, "module", None) != "__future__":
            for alias in node.names:
                if (alias.asname or alias.name).split(".")[0] not in read | {"*"} and alias.asname != alias.name:
                    yield f"line {node.lineno}: {alias.name} is imported and not used"
        elif isinstance(node, (ast.FunctionDef, ast.AsyncFunctionDef)):
            here = read_names(node)
            outer = {name for each in ast.walk(node) if isinstance(each, (ast.Global, ast.Nonlocal)) for name in each.names}
            for each in ast.walk(node):
                for target in each.targets if isinstance(each, ast.Assign) else ():
                    if isinstance(target, ast.Name) and target.id not in here | outer and not is_of_class(node, each):
                        yield f"line {each.lineno}: {target.id} is given a value and not used"


def is_of_class(function, statement):
    """Does the statement stand in a class within the function? Then it defines an attribute."""
    return any(isinstance(node, ast.ClassDef) and statement in ast.walk(node) for node in ast.walk(function))


def twice(tree):
    """Functions and classes that a later one of the same name replaces."""
    for node in ast.walk(tree):
        seen = {}
        for each in getattr(node, "body", ()) if isinstance(node, (ast.Module, ast.ClassDef, ast.FunctionDef)) else ():
            if isinstance(each, (ast.FunctionDef, ast.AsyncFunctionDef, ast.ClassDef)):
                if each.name in seen and not each.decorator_list:
                    yield f"line {each.lineno}: {each.name} is defined on line {seen[each.name]}, too"
                seen[each.name] = each.lineno


def untyped(tree):
    """Functions without the types of their parameters or of what they give."""
    for node in ast.walk(tree):
        if isinstance(node, (ast.FunctionDef, ast.AsyncFunctionDef)):
            own = [*node.args.posonlyargs, *node.args.args, *node.args.kwonlyargs, *filter(None, (node.args.vararg, node.args.kwarg))]
            bare = [one.arg for one in own if not one.annotation and one.arg not in ("self", "cls")]
            if bare or not node.returns:
                yield f"line {node.lineno}: {node.name} says no type of {', '.join(bare) or 'what it gives'}"


def faults(name, text):
    """All that is wrong with a file."""
    found = list(compiled(name, text))
    if not found:
        tree = ast.parse(text)
        found = [*undefined(text, name), *unused(tree), *twice(tree), *(untyped(tree) if name.startswith(PACKAGE) else ())]
    return found


SOUND = '''"""Nothing is wrong here."""
from __future__ import annotations

import os
import sys as system


class Base:
    size = 1

    def of(self, other: Base) -> Base:
        return other


def one(name: str, *more: int) -> list[str]:
    count, _ = len(more), 7

    def inner() -> int:
        return count

    for each in range(count):
        print(each)
    return [f"{part}{inner()}" for part in os.listdir(name)] + system.argv
'''
# What is planted: the text in which it stands in place of another one, and what is said of it.
PLANTED = {
    "a name that isn't defined": ("os.listdir(name)", "os.listdir(nane)", "nane isn't defined"),
    "a name of another function": ("print(each)", "print(parts)", "parts isn't defined"),
    "an import that nobody uses": ("import os\n", "import os\nimport re\n", "re is imported and not used"),
    "a variable that nobody uses": ("    for each", "    total = count + 1\n    for each", "total is given a value and not used"),
    "a function that is defined twice": ("\n\ndef one", "\n\ndef one() -> None:\n    pass\n\n\ndef one", "one is defined on line"),
    "a parameter without its type": ("name: str,", "name,", "one says no type of name"),
    "a function that doesn't say what it gives": (") -> list[str]:", "):", "one says no type of what it gives"),
    "an escape that is none": ('"""Nothing', '"""\\d Nothing', "invalid escape sequence"),
    "a comparison with a literal": ("print(each)", "print(each is 7)", '"is" with'),
    "what a later Python takes": ("    for each", "    try:\n        pass\n    except* OSError:\n        pass\n    for each", "planted.py, line"),
}


def planted(tally):
    """Each fault is reported, and where there is none, none is."""
    name = os.path.join(PACKAGE, "planted.py")
    with tally.run("a sound file"):
        found = faults(name, SOUND)
        expect(not found, f"it is said that {found}")
    for what, (right, wrong, due) in PLANTED.items():
        with tally.run(f"{what} is reported"):
            expect(SOUND.count(right) == 1, f"{right!r} stands there {SOUND.count(right)} times")
            found = faults(name, SOUND.replace(right, wrong))
            expect(len(found) == 1 and due in found[0], f"it is said that {found}")


def by_pyflakes(tally, names):
    """The same files by pyflakes, as a module of this Python or as a program."""
    module = [sys.executable, "-m", "pyflakes"]
    is_module = subprocess.run([*module, "--version"], capture_output=True).returncode == 0
    program = shutil.which("pyflakes") or shutil.which("pyflakes3")
    if not is_module and not program:
        missing("pyflakes", "pyflakes (Debian's pyflakes3)")
        return
    ran = subprocess.run([*(module if is_module else [program]), *names], cwd=TOP, capture_output=True, text=True, timeout=6 * PATIENCE)
    with tally.run("pyflakes"):
        expect(ran.returncode == 0, f"it says {(ran.stdout + ran.stderr)[:500]}")


def harnesses(tally):
    """The scripts that are harnesses are those that are run."""
    with tally.run("the list of the harnesses"):
        scripts = {name.removesuffix(".py") for name in os.listdir(HARNESS) if name.endswith(".py") and "    run_harness(" in text_of(f"harness/{name}")}
        listed = {harness.name for harness in HARNESSES}
        expect(scripts == listed, f"runner.py and the folder differ in {sorted(scripts ^ listed)}")


def scripts_of_bench(tally):
    """Each script of bench that can be run is named in a document, and each that is named is there."""
    with tally.run("the scripts of bench"):
        place = os.path.join(TOP, "bench")
        scripts = {name for name in os.listdir(place) if name.endswith(".py") and os.access(os.path.join(place, name), os.X_OK)}
        named = set(re.findall(r"bench/(\w+\.py)", "".join(text_of(f"docs/{name}") for name in os.listdir(os.path.join(TOP, "docs")) if name.endswith(".md"))))
        lost = sorted(scripts - named) + sorted(name for name in named if not os.path.exists(os.path.join(place, name)))
        expect(not lost, f"no document names it, or it isn't there: {', '.join(lost)}")


def files(tally):
    """All files, by the searches of this one and by pyflakes."""
    names = list(sources())
    for name in names:
        with tally.run(name):
            found = faults(name, text_of(name))
            expect(not found, "; ".join(found[:5]))
    by_pyflakes(tally, names)


class Lint(Harness):
    NAME = "lint"
    NEEDS = ()
    PARTS = (planted, files, harnesses, scripts_of_bench)


if __name__ == "__main__":
    run_harness()
