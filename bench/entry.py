"""What the scripts of this folder have in common: the words of their command lines, how they end, their results and their tables."""

import argparse
import hashlib
import json
import os
import signal
import sys

from servers import HERE, Failure

DEFAULT_PROGRAM = os.path.normpath(os.path.join(HERE, "..", "crates", "ssikvd", "out", "ssikvd"))
IN_MEMORY = "/dev/shm"


def parser_of(text, folder=IN_MEMORY):
    """The options that most scripts have: the program, the folder for the data, and a file for the figures."""
    parser = argparse.ArgumentParser(description=text, formatter_class=argparse.RawDescriptionHelpFormatter)
    parser.add_argument(
        "--program", "--ssikvd", default=os.environ.get("SSIKVD", DEFAULT_PROGRAM), metavar="PROGRAM", help="the program that was built (%(default)s)")
    parser.add_argument("--folder", default=folder, help="where the data lies (%(default)s)")
    parser.add_argument("--out", help="a file for the figures, as JSON")
    return parser


def words_of(parser):
    """What was asked for, of a program that is there."""
    options = parser.parse_args()
    need_program(parser, options)
    return options


def need_program(parser, options):
    if not os.access(options.program, os.X_OK):
        parser.error(f"there is no program {options.program}; cd crates/ssikvd && rt run -- --help builds it")


def run_script(main):
    """Runs a script and ends with its status. What keeps it from measuring is reported in a line."""
    signal.signal(signal.SIGTERM, lambda *_: sys.exit("stopped"))
    try:
        sys.exit(main())
    except Failure as failure:
        sys.exit(f"{os.path.basename(sys.argv[0])}: {failure}")


# Results

def facts(program):
    """What was measured, and where."""
    with open(program, "rb") as binary:
        digest = hashlib.sha256(binary.read()).hexdigest()
    with open("/proc/cpuinfo") as info:
        models = sorted({line.split(":", 1)[1].strip() for line in info if line.startswith("model name")})
    return {"program_sha256": digest, "processors": os.cpu_count(), "model": ", ".join(models), "kernel": os.uname().release}


def rounded(value):
    """The value with four significant digits in each number."""
    if isinstance(value, dict):
        return {name: rounded(part) for name, part in value.items()}
    if isinstance(value, list):
        return [rounded(part) for part in value]
    return float(f"{value:.4g}") if isinstance(value, float) else value


def write_results(path, value):
    """Figures as JSON in a file, if one is named."""
    if not path:
        return
    with open(path, "w", encoding="utf-8") as file:
        file.write("{\n" + ",\n".join(f' "{name}": {text_of(it)}' for name, it in value.items()) + "\n}\n")


def text_of(value):
    """JSON, with a line for each row of a list of rows."""
    if isinstance(value, list) and value and isinstance(value[0], dict):
        return "[\n" + ",\n".join("  " + json.dumps(row) for row in value) + "\n ]"
    return json.dumps(value, indent=1).replace("\n", "\n ")


# Tables

def shown(value, each=1.0):
    """With three digits."""
    if value is None:
        return ""
    return f"{value / each:,.0f}" if value / each >= 100 else f"{value / each:.3g}"


def print_table(heads, rows):
    """A Markdown table, each row as soon as there is one."""
    print("| " + " | ".join(heads) + " |\n|" + "---|" * len(heads), flush=True)
    for row in rows:
        print("| " + " | ".join(row) + " |", flush=True)
