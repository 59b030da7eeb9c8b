"""The documents: their commands run from a fresh copy, and how they are written.

Commands stand in blocks of ```console, each behind `$ `, with what it prints on the lines below it. Those of a document are typed into one shell,
which begins at the top of a copy of the repository's files; those of CLIENTS.md, COOKBOOK.md and OPERATIONS.md first start its server. A server that
keeps a terminal of its own runs in the background, and `^C` ends it. Port 7777 is another, free one. `...` stands for anything. What isn't run is
listed with the reason. `long` runs also what needs `rt` for a minute.

Then: no line over 150 columns, tables and code apart, no table cell over 120 characters and no sentence over 40 words, no link that leads nowhere,
pictures as docs/pictures/draw.py draws them, docs/PERFORMANCE.md and the figures that other documents have from it as bench/page.py writes them from
bench/results, the table of sizes of docs/OPERATIONS.md as bench/sizing.py computes it, and the crates of docs/ARCHITECTURE.md as crates.txt has them.
Each crate has a short README, and what that names is a file, or stands in the code and the definitions of the crate or of those that it stands on.
What docs/MAINTAINING.md names is there. The commands and refusals of docs/PROTOCOL.md, docs/CLIENTS.md and man/ssikvd.7 are those of the definitions,
and the tables of docs/LOG_FORMAT.md those of the model's logs. docs/TESTING.md has each harness of runner.py. Numbers of the code are its constants.
A commit has each version that CHANGELOG.md names. Documents that are installed link to none that isn't. Of each block of ```ini and ```python: a unit
that `systemd-analyze verify` takes, Python that is Python. A server that is started under a lock has the one that the tools of dist/ look for.
"""
import glob
import os
import re
import select
import shutil
import subprocess
import sys
import time

from hostile import memory_bound
from runner import HARNESSES
from ssikvd_harness.arguments import is_long, run_harness
from ssikvd_harness.cases import Harness
from ssikvd_harness.deviations import expect
from ssikvd_harness.frames import PARTS
from ssikvd_harness.limits import KEY_MAX, VALUE_MAX, WRITES_MAX
from ssikvd_harness.log_format import BODY_MAX, HEAD, OLD_HEAD, SECTOR, body_sectors, log_image, payload
from ssikvd_harness.server import folder, free_port, run
from ssikvd_harness.settings import PATIENCE, PROGRAM, TOP, text_of

CELL_MAX, WORDS_MAX, LINE_MAX, README_MAX = 120, 40, 150, 15
PORT = "7777"
NOT_RUN = (
    (r"^rt try ", "takes a minute; `long` runs it"),
    (r"^\(?(cd \S+ && )?rt (run|ci)|^make (build|check)", "proves for minutes to an hour; the gate runs it"),
    (r"^(SSIKVD=\S+ )?harness/run.sh", "would run this harness again"),
    (r"^bench/", "measures for minutes"),
    (r"^python3 harness/soak.py ", "plays rounds for as long as it is told to"),
    (r"^wrong_bodies/", "proves for hours"),
    (r"^systemd-run ", "starts a unit of the system"),
    (r"(pip|npm|gem|composer|cargo|mvn) ", "installs a client package, which may need the network"),
    (r"(python3|node|ruby|php|java -cp out) [fF]irst\.|cc -o first|go run ./first", "is run by `packages.py`, with the file that stands above it"),
    (r"javac -d out clients|cc -O2 -c ssikvd.c|go mod edit", "is of a program that uses the package"),
    (r".*psql", "needs a PostgreSQL; `clients.py long` starts one"),
)
COMMAND = r"(rt|ssikvd|python3|grep|cp|psql|\(cd|harness/|bench/|wrong_bodies/|[A-Z]+=\S+) ?"
WRITTEN = ("CLAUSES.md", "DEFINITIONS.md")    # by `make definitions`, and not kept
NOT_READ = ("docs/STATUS.md",)    # what is open, written anew with each change
NEEDS = {"rt": "the kit"}
# Where redis-cli is missing, this is run in its place: it sends the lines of its input, and shows replies as redis-cli does.
REDIS_CLI = f"""#!{sys.executable}
import shlex, sys
sys.path.append({os.path.join(TOP, "examples", "clients")!r})
from simple_client import Client, Refused
def shown(reply):
    if isinstance(reply, list):
        return "\\n".join(shown(part) for part in reply)
    return "" if reply is None else reply.decode() if isinstance(reply, bytes) else str(reply)
client = Client(int(sys.argv[2]))
for line in sys.stdin:
    try:
        print(shown(client.ask(*shlex.split(line))))
    except Refused as refusal:
        print(refusal)
"""
AS_README = (
    "export PATH=$PWD/crates/ssikvd/out:$PATH", "ssikvd create --data shop.data --sectors 1024",
    f"ssikvd serve --data shop.data --listen 127.0.0.1:{PORT} &",
    "python3 -c \"import sys; sys.path.append('examples/clients'); from simple_client import Client; "
    f"Client({PORT}).transact(lambda store: (store.ask('SET', 'a', 1), store.ask('SET', 'b', 22)))\"")
BEFORE = dict.fromkeys(("docs/CLIENTS.md", "docs/COOKBOOK.md", "docs/OPERATIONS.md"), AS_README)


def documents():
    found = sorted(name for name in os.listdir(TOP) if name.endswith(".md")) + ["harness/README.md"]
    found += sorted("docs/" + name for name in os.listdir(os.path.join(TOP, "docs")) if name.endswith(".md") and name not in WRITTEN)
    patterns = ("clients/*.md", "clients/*/*.md", "crates/*/README.md")
    return found + [name for pattern in patterns for name in sorted(glob.glob(pattern, root_dir=TOP))]


def blocks(name, kind):
    """The blocks of a kind in a document."""
    return re.findall(rf"^```{kind}\n(.*?)^```$", text_of(name), re.M | re.S)


# Commands

def commands(name):
    """The commands of a document, each with the lines that it is to print."""
    found = []
    for block in blocks(name, "console"):
        for line in block.splitlines():
            if line.startswith("$ ") or line == "^C":
                found.append((line.removeprefix("$ "), []))
            else:
                found[-1][1].append(line)
    return found


def typed(command):
    """The command as a shell takes it that has one terminal alone."""
    if command == "^C":
        return "kill $!; wait $! 2> /dev/null; true"
    return f"{command} &" if re.match(r"ssikvd serve .*[^&]$", command) else command


def copy_of(place, crates=None):
    """A copy of the repository's files, with the program where `rt run` leaves it; the crates may be those of another copy."""
    copy, ignored = os.path.join(place, "copy"), ["out", ".git", ".ci", "__pycache__", *(["crates"] if crates else [])]
    shutil.copytree(TOP, copy, ignore=shutil.ignore_patterns(*ignored))
    if crates:
        os.symlink(crates, os.path.join(copy, "crates"))
    else:
        made = os.path.join(copy, "crates", "ssikvd", "out")
        os.makedirs(made)
        shutil.copy(PROGRAM, os.path.join(made, "ssikvd"))
    return copy


class Shell:
    """A shell that is typed into, command by command. What it starts ends with it."""

    def __init__(self, copy):
        environment = {**os.environ, "PYTHONDONTWRITEBYTECODE": "1"}
        if not shutil.which("redis-cli"):
            stand_in = os.path.join(copy, "redis-cli")
            with open(stand_in, "w", encoding="utf-8") as file:
                file.write(REDIS_CLI)
            os.chmod(stand_in, 0o755)
            environment["PATH"] += ":" + copy
        self.process = subprocess.Popen(
            ["bash", "--norc"], cwd=copy, env=environment, stdin=subprocess.PIPE, stdout=subprocess.PIPE, stderr=subprocess.STDOUT,
            start_new_session=True)
        self.came, self.turn = b"", 0

    def _read(self, is_done, seconds):
        end = time.monotonic() + seconds
        while not is_done() and time.monotonic() < end:
            ready, _, _ = select.select([self.process.stdout], [], [], max(0.0, end - time.monotonic()))
            piece = os.read(self.process.stdout.fileno(), 65_536) if ready else b""
            if not piece:
                break
            self.came += piece

    def type(self, command, least=0, seconds=6 * PATIENCE):
        """What the command prints, and its status. Of one in the background this many lines are waited for."""
        self.turn += 1
        mark = b"--- %d " % self.turn
        self.process.stdin.write(f"{command}\necho \"--- {self.turn} $?\"\n".encode())
        self.process.stdin.flush()
        self._read(lambda: re.search(mark + rb"\d+\n", self.came), seconds)
        ended = re.search(mark + rb"(\d+)\n", self.came)
        expect(ended, f"{command} did not end, it printed {self.came[-200:]!r}")
        self.came = self.came[:ended.start()] + self.came[ended.end():]
        if command.endswith("&"):
            self._read(lambda: self.came.count(b"\n") >= least, seconds)
        lines = [line for line in self.came.decode(errors="replace").splitlines() if not re.match(r"bash: line \d+: +\d+ Killed", line)]
        self.came = b""
        return lines, int(ended[1])

    def end(self):
        """Ends the shell, and the servers that it started, by their ids."""
        self.process.stdin.write(b"kill -9 $(jobs -p) 2>/dev/null\nexit\n")
        self.process.stdin.close()
        try:
            self.process.wait(PATIENCE)
        finally:
            self.process.stdout.close()


def fits(found, due):
    """Are these the lines that are expected, in which `...` stands for any?"""
    if "..." not in due:
        return found == due
    at = due.index("...")
    return found[:at] == due[:at] and len(found) >= at


def why_not(command):
    for pattern, reason in NOT_RUN:
        if re.match(pattern, command) and not (is_long() and command.startswith("rt try") and shutil.which("rt")):
            return reason
    for word, needed in NEEDS.items():
        if re.search(rf"(^|[|(&] *){word} ", command) and not shutil.which(word):
            return f"wants {needed}"
    if "over_redis.py" in command and subprocess.run(["python3", "-c", "import redis"], capture_output=True).returncode:
        return "wants redis-py (Debian's python3-redis)"
    return None


def run_commands(tally):
    with folder() as place:
        left_out, whole = {}, os.path.join(copy_of(place), "crates")
        for name in documents():
            run_document(tally, name, whole, left_out)
    if not shutil.which("redis-cli"):
        print("  redis-cli is missing (Debian's redis-tools): a stand-in sends the same requests")
    for reason, found in left_out.items():
        print(f"  not run, since it {reason}:", *found, sep="\n    ")


def run_document(tally, name, crates, left_out):
    """The commands of a document; those that aren't run are noted with their reason."""
    todo = commands(name)
    if todo:
        with folder() as place:
            port, shell = str(free_port()), Shell(copy_of(place, crates))
            try:
                for command in BEFORE.get(name, ()):
                    lines, _ = shell.type(command.replace(PORT, port), 1)
                for command, due in todo:
                    if why_not(command):
                        left_out.setdefault(why_not(command), []).append(f"{name}: {command.split('  ')[0]}")
                        continue
                    with tally.run(f"{name}: {command}"):
                        due = [line.replace(PORT, port) for line in due]
                        lines, status = shell.type(typed(command).replace(PORT, port), len(due), (15 if command.startswith("rt") else 6) * PATIENCE)
                        expect(fits(lines, due), f"{command} printed {lines}, expected {due}")
                        expect(status == 0, f"{command} ended with {status}")
            finally:
                shell.end()


def worked(tally):
    """The examples of requests with their replies, in blocks that are indented, as `play` answers them."""
    for name in documents():
        for number, block in enumerate(re.findall(r"(?:^    \d+ [A-Z].*\n)+", text_of(name), re.M)):
            rows = [re.fullmatch(r" {4}(\d+ .*?) {2,}(.*)", line) for line in block.splitlines()]
            if "\\" in block or not all(rows):
                print(f"  {name}: not played: its example {number + 1}, which `play` can't read")
                continue
            with tally.run(f"{name}: example {number + 1}"):
                script = "".join(row[1] + "\n" for row in rows)
                due = "".join(f"{row[1].split()[0]} {row[2]}\n" for row in rows)
                found = run(["play"], script.encode())
                expect(found == (0, due.encode(), b""), f"it printed {found}, expected {due!r}")


# Units and Python

def other_blocks(tally):
    for name in documents():
        for number, block in enumerate(blocks(name, "python")):
            with tally.run(f"{name}: Python {number}"):
                compile(block, name, "exec")
        for block in blocks(name, "ini"):
            if not shutil.which("systemd-analyze"):
                print(f"  {name}: its unit isn't verified, for want of systemd-analyze")
                continue
            with folder() as place, tally.run(f"{name}: unit"):
                unit = os.path.join(place, "ssikvd.service")
                with open(unit, "w", encoding="utf-8") as file:
                    file.write(block.replace("/usr/local/bin/ssikvd", os.path.abspath(PROGRAM)))
                ran = subprocess.run(["systemd-analyze", "verify", unit], capture_output=True, text=True, timeout=PATIENCE)
                said = [line for line in (ran.stdout + ran.stderr).splitlines() if "ssikvd" in line]
                expect(ran.returncode == 0 and not said, f"systemd-analyze ended with {ran.returncode}: {said or ran.stderr[-300:]}")


# How they are written

def paragraphs(text):
    """The paragraphs, list items and table cells of a document, without its blocks. True marks a cell."""
    found, here = [], []

    def close():
        if here:
            found.append((" ".join(here), False))
            here.clear()

    is_block = False
    for line in text.splitlines():
        if line.startswith("```"):
            is_block = not is_block
        if is_block or line.startswith(("```", "    ", "#")) or not line.strip():
            close()
        elif line.startswith("|"):
            close()
            found += [(cell.strip().replace("\\|", "|"), True) for cell in re.split(r"(?<!\\)\|", line.strip().strip("|"))]
        else:
            if re.match(r"\s*(-|\d+\.) ", line):
                close()
            here.append(line.strip())
    close()
    return found


def sentences(text):
    """The sentences of a text. A link counts as its words."""
    text = re.sub(r"\]\([^)]*\)", "]", text)
    return re.split(r"(?<=[.!?])[*`\"”)\]]*\s+(?=[^a-z])", text)


def style(tally):
    for name in documents():
        with tally.run(f"the blocks of {name}"):
            outside = re.findall(rf"^ {{4}}{COMMAND}.*$", re.sub(r"^```.*?^```$", "", text_of(name), flags=re.M | re.S), re.M)
            expect(not outside, f"{name}: a command stands outside a block of console: {outside[:1]}")
        if name in NOT_READ:
            continue
        with tally.run(f"the style of {name}"):
            found = paragraphs(text_of(name))
            wide = [cell for cell, is_cell in found if is_cell and len(cell) > CELL_MAX]
            long = [it for text, _ in found for it in sentences(text) if len(it.split()) > WORDS_MAX]
            far = [line for line in text_of(name).splitlines() if len(line) > LINE_MAX and not re.match(r"\||!\[|The same in \[| {4}", line)]
            expect(not far, f"{name}: {len(far)} lines over {LINE_MAX} columns, first {far[:1]}")
            expect(not wide, f"{name}: {len(wide)} cells over {CELL_MAX} characters, first {wide[:1]}")
            expect(not long, f"{name}: {len(long)} sentences over {WORDS_MAX} words, first {long[:1]}")


def anchors(name):
    heads = re.findall(r"^#+ (.*)$", text_of(name), re.M)
    return {re.sub(r"[^\w\- ]", "", head.lower()).replace(" ", "-") for head in heads}


def links(tally):
    for name in documents():
        with tally.run(f"the links of {name}"):
            for link in re.findall(r"\]\(([^)]+)\)", re.sub(r"`[^`]*`", "", text_of(name))):
                path, _, anchor = link.partition("#")
                target = os.path.normpath(os.path.join(os.path.dirname(name), path)) if path else name
                expect(os.path.exists(os.path.join(TOP, target)), f"{name}: {link} leads nowhere")
                is_line = not target.endswith(".md") and re.fullmatch(r"L\d+", anchor)    # cookbook.py looks at those
                expect(not anchor or is_line or anchor in anchors(target), f"{name}: {link} names no head")


# What they say that stands elsewhere

def pictures(tally):
    with tally.run("the pictures"):
        draw = os.path.join(TOP, "docs", "pictures", "draw.py")
        ran = subprocess.run([sys.executable, "-B", draw, "--check"], capture_output=True, text=True)
        expect(ran.returncode == 0, (ran.stdout + ran.stderr).strip())
    with tally.run("the figures that were measured"):
        ran = subprocess.run([sys.executable, "-B", os.path.join(TOP, "bench", "page.py")], capture_output=True, text=True)
        expect(ran.returncode == 0, (ran.stdout + ran.stderr).strip())
    with tally.run("the sizing"):
        words = [sys.executable, "-B", os.path.join(TOP, "bench", "sizing.py")]
        expect_shown(subprocess.run(words, capture_output=True, text=True), "docs/OPERATIONS.md")


# Constants of the code, each with how documents say it: `#` stands for the number.
CONSTANTS = (
    ("versions/src/reclaiming.rt", "LISTS_A_STEP", "looks at # (?:of the )?lists|(?:collects|looks at) what # commits"),
    ("merging_runs/src/runs.rt", "FREED_MAX", "frees # written keys|freed, # keys at each end|does # of (?:the|that) work"),
    ("merging_runs/src/runs.rt", "MOVES_EACH", "(?:by|makes) # (?:keys |steps |moves )?for each (?:key|step|written key)"),
    ("merging_runs/src/runs.rt", "MOVES_MORE", "for each (?:key that it wrote|written key|step of its marks) and #"),
    ("merging_runs/src/merges.rt", "SWEPT_MAX", "merged past # elements"),
    ("merging_runs/src/merges.rt", "RELEASED_MAX", "for # elements of the longer"),
    ("stream_driver/src/driving.rt", "REQUESTS_MAX", "(?:up to|after) # requests|# requests at most"),
    ("stream_driver/src/driving.rt", "READ_MAX", "reads at most # bytes"),
    ("stream_driver/src/buffered_bytes.rt", "BUFFERED_MAX", "stream holds up to # bytes|a stream of #"),
    ("stream_driver/src/buffered.rt", "SHARE_MAX", "takes # bytes"),
    ("sessions/src/events.rt", "OUTPUT_KEPT", "# for longer replies|longer replies has room for #|Up to # bytes of a longer reply"),
    ("sessions/src/events.rt", "SESSIONS_MAX", "# sessions;|# connections, [0-9]+ open"),
    ("event_loop/src/lingering.rt", "LINGERING_MAX", "newest # linger|At most # linger"),
    ("event_loop/src/lingering.rt", "LINGERING_BYTES_A_TURN", "dropped, # bytes a turn"),
    ("engine/src/engine.rt", "OPEN_MAX", "# open transactions"),
    ("marks/src/marks.rt", "MARKS_MAX", "# (?:marks in|reads) a transaction"),
    ("write_buffer/src/buffer.rt", "WRITES_MAX", "# (?:written keys and|writes and)"),
    ("model/src/keys.rt", "KEY_MAX", "keys of # bytes, values of 16|Keys of 1 to # bytes"),
    ("model/src/values.rt", "VALUE_MAX", "value over # bytes|value has # bytes at most|bytes and values of up to #|of 256 bytes, values of #"),
    ("resp/src/writing.rt", "BRIEF_MAX", "an output of #|value or pairs has # bytes"),
    ("stream_driver/src/buffered.rt", "LIGHT_MAX", "last replies had over # bytes|took more than # bytes"),
    ("sessions/src/events.rt", "INBOX_MAX", "inbox(?:es)? of # bytes"),
    ("model/src/values.rt", "FRAME_MAX", "largest frame has # bytes"),
    ("model/src/values.rt", "RANGE_REPLY_MAX", "A reply has # bytes at most|a reply of # in each"),
    ("model/src/keys.rt", "SHORT_MAX", "a key of up to # bytes"),
    ("command_line/src/invocation.rt", "FILE_SECTORS_MAX", "#, which is 2 GiB"),
    ("sorted_pages/src/page.rt", "STEP", "places come in steps of #"),
    ("sorted_pages/src/page.rt", "PAGE_MAX", "places come in steps of [0-9]+, up to #"),
    ("pivot_check/src/bound.rt", "BLOCK", "bounds of its numbers, one for each # keys"),
    ("merging_runs/src/sweeps.rt", "LOOK", "look at an element counts as #"),
)
EXPRESSION = r"\bconst (\w+): \w+ = ([^;]+);"


def value_of(path, constant):
    """What a constant is: its own expression over those of `model`."""
    known = {}
    for name in ("model/src/keys.rt", "model/src/values.rt", path):
        for found, expression in re.findall(EXPRESSION, text_of(f"crates/{name}")):
            if set(re.findall(r"[A-Z]\w+", expression)) <= set(known):
                known[found] = eval(expression, {"__builtins__": {}}, known)    # numbers and names of constants
    return known.get(constant)


def constants(tally):
    """What documents say of a constant of the code is its value."""
    whole = {name: " ".join(text_of(name).split()) for name in documents()}
    for path, constant, said in CONSTANTS:
        with tally.run(f"{constant} of {path}"):
            value = value_of(path, constant)
            expect(value is not None, "it isn't there")
            pattern, due = said.replace("#", r"([\d,]*\d)"), str(value)
            found = [(name, number) for name, text in whole.items() for numbers in re.findall(pattern, text, re.I)
                     for number in ([numbers] if isinstance(numbers, str) else numbers) if number]
            expect(found, f"no document says '{said}'")
            wrong = [f"{name} has {number}" for name, number in found if number.replace(",", "") != due]
            expect(not wrong, f"it is {due}: {'; '.join(wrong)}")


def limits(tally):
    """What docs/OPERATIONS.md says that the limits of all sessions allow is what hostile.py computes, without a map, an idle server and kept commits."""
    with tally.run("the memory of every session at its limits"):
        parts = memory_bound(0, 0)
        allowed = f"{(sum(parts.values()) - parts['the map']) / 1e6:.1f}"
        found = re.findall(r"at all of their limits may take ([\d.]+) million bytes", " ".join(text_of("docs/OPERATIONS.md").split()))
        expect(found == [allowed], f"docs/OPERATIONS.md has {found}, and hostile.py computes {allowed}")


def has_been(version):
    """Has a commit of the repository this version, by its tag or in the program's code?"""
    def said(*words):
        return subprocess.run(["git", "-C", TOP, *words], capture_output=True, text=True).stdout.strip()
    return said("tag", "--list", f"v{version}") or said("log", "-1", "--format=%h", f'-S"{version}"', "--", "crates/*.rt")


def versions(tally):
    """Each version that CHANGELOG.md names is in debian/changelog, and a commit has it."""
    named = re.findall(r"^## \[(\d[\d.]*)\]", text_of("CHANGELOG.md"), re.M)
    with tally.run("the versions of both changelogs"):
        packed = re.findall(r"^ssikvd \((\d[\d.]*)\)", text_of("debian/changelog"), re.M)
        expect(named and named == packed, f"CHANGELOG.md names {named}, debian/changelog {packed}")
    if not shutil.which("git") or not os.path.exists(os.path.join(TOP, ".git")) or os.path.exists(os.path.join(TOP, ".git", "shallow")):
        print("  whether a commit has each version isn't known, for want of the history")
        return
    for version in named:
        with tally.run(f"version {version}"):
            expect(has_been(version), f"CHANGELOG.md names {version}, and no commit has it")
    with tally.run("a version that never was"):
        expect(not has_been("999.0.1"), "it isn't seen that no commit has it")


def installed(tally):
    """No link of a document that is installed leads to a file that isn't."""
    if not shutil.which("make"):
        print("  which files are installed isn't known, for want of make")
        return
    ran = subprocess.run(["make", "-s", "-C", TOP, "--eval=notes: ; @echo $(NOTES)", "notes"], capture_output=True, text=True)
    names = set(ran.stdout.split())
    folders = {os.path.dirname(name) for name in names}
    with tally.run("the installed documents"):
        expect({"README.md", "docs/PROOFS.md"} <= names, f"make installs {len(names)} files: {ran.stderr}")
    for name in sorted(name for name in names if name.endswith(".md")):
        with tally.run(f"the links of {name}, installed"):
            links = [link.partition("#")[0] for link in re.findall(r"\]\(([^)]+)\)", re.sub(r"`[^`]*`", "", text_of(name)))]
            targets = [os.path.normpath(os.path.join(os.path.dirname(name), link)) for link in links if link]
            gone = [target for target in targets if target not in names and not any(f"{folder}/".startswith(f"{target}/") for folder in folders)]
            expect(not gone, f"{gone[:3]} aren't installed")


def expect_shown(report, name="docs/PERFORMANCE.md"):
    """What a report printed stands in a document, line by line."""
    missing = [line for line in report.stdout.splitlines() if line not in text_of(name).splitlines()]
    expect(report.returncode == 0 and report.stdout and not missing, f"{name} has not {missing[:1]} {report.stderr}")


def lock_calls(text):
    """Each start of a server under `flock` in a text: the words before `ssikvd serve`, and its data file."""
    joined = re.sub(r"\\e?\n\s*", " ", text).replace('\\"', "")
    return re.findall(r"flock ([^`\n]*?)ssikvd serve --data (\S+)", joined)


def locks(tally):
    """Where a document, a man page, a unit or the image starts a server under a lock, it is that of the data file, which the tools look for."""
    found = []
    for name in [*documents(), "Containerfile", *sorted(glob.glob("man/*", root_dir=TOP)), *sorted(glob.glob("dist/*", root_dir=TOP))]:
        for words, data in lock_calls(text_of(name)):
            found.append(name)
            with tally.run(f"the lock of {data} in {name}"):
                expect(words.startswith(f"-n -F -E 75 {data}.lock "), f"flock gets {words}")
    with tally.run("the places that start a server under a lock"):
        expect({"Containerfile", "docs/OPERATIONS.md", "dist/ssikvd@.service", "man/ssikvd.1"} <= set(found), f"only {found} do")


def stands_on():
    """The crates of crates.txt, each with those that it stands on."""
    lines = [line.partition(":") for line in text_of("crates.txt").splitlines() if line and line[0] != "#"]
    return {name.split()[0]: rest.split() for name, _, rest in lines}


def layers(tally):
    """The table of ARCHITECTURE.md names for each crate those that crates.txt names."""
    with tally.run("the crates of docs/ARCHITECTURE.md"):
        due = stands_on()
        rows = re.findall(r"^\| `(\w+)`(?:, `\w+`)* \| [^|]* \| ([^|]*) \|", text_of("docs/ARCHITECTURE.md"), re.M)
        expect(len(rows) > 10, "there is no table")
        for name, lows in rows:
            own = {low for low in due[name] if low in due}
            expect(set(re.findall(r"\w+", lows)) == own, f"{name} stands on {sorted(own)}, the table says {lows}")


def words_of(crate):
    """The words of a crate's code and definitions."""
    paths = [path for kind in ("src/**/*.rt", "specs/*.antt") for path in glob.glob(f"crates/{crate}/{kind}", root_dir=TOP, recursive=True)]
    return {word for path in paths for word in re.findall(r"\w+", text_of(path))}


def readmes(tally):
    """Each crate has a README of a few lines. What stands there between backticks is a file, or words of the crate or of those that it stands on."""
    below = stands_on()
    for crate, lows in below.items():
        with tally.run(f"the README of {crate}"):
            text = text_of(f"crates/{crate}/README.md")
            lines = text.splitlines()
            expect(lines[0] == f"# `{crate}`", f"its title is {lines[0]}")
            expect(len(lines) <= README_MAX and max(map(len, lines)) <= CELL_MAX, f"it has {len(lines)} lines, of up to {max(map(len, lines))} columns")
            known = {*below, *words_of(crate)}.union(*(words_of(low) for low in lows if low in below))
            for name in re.findall(r"`([^`]+)`", text):
                is_file = any(os.path.exists(os.path.join(TOP, place, name)) for place in (f"crates/{crate}", ""))
                unknown = [name] if "/" in name else [word for word in re.findall(r"\w+", name) if word not in known]
                expect(is_file or not unknown, f"there is no {', '.join(unknown)}")


def sources():
    """The files of the crates, each with its name and with that without its ending."""
    for kind in ("src/**/*.rt", "specs/*.antt", "proofs/**/*.antt"):
        for path in glob.glob(f"crates/*/{kind}", root_dir=TOP, recursive=True):
            yield from (path, os.path.splitext(path)[0])


def recipes(tally):
    """What docs/MAINTAINING.md has between backticks is a file, or words of the crates or of the harnesses."""
    crates, paths = stands_on(), set(sources())
    known = set(crates).union(*(words_of(crate) for crate in crates), *(path.split("/") for path in paths))
    known |= {word for path in glob.glob("harness/**/*.py", root_dir=TOP, recursive=True) for word in (*re.findall(r"\w+", text_of(path)), *path.split("/"))}
    text = re.sub(r"^```.*?^```$", "", text_of("docs/MAINTAINING.md"), flags=re.M | re.S)
    for name in dict.fromkeys(re.findall(r"`((?!\S*NAME/)[\w./]+)`", text)):
        with tally.run(f"{name} in docs/MAINTAINING.md"):
            is_there = os.path.exists(os.path.join(TOP, name)) or os.path.basename(name) in WRITTEN
            is_there = is_there or any(f"/{name.rstrip('/')}/" in f"{path}/" for path in paths)
            expect(is_there or "/" not in name and set(re.findall(r"\w+", name)) <= known, f"there is no {name}")


def sealed(tally):
    """The lemmas that would refute the premises on files and sockets are cited where a call is made of one, and nowhere else."""
    for crate, user, lemmas, calls in (
        ("file_calls", "sector", "error|read|write|sync|close|make|open|open_to_read|length|directory|link|way|advice",
            [f"counted/CountedFile/{name}" for name in ("read", "write", "write_zeros", "sync", "sync_all", "close")]
            + [f"opened/OpenedFile/{name}" for name in ("make", "open", "open_to_read", "length", "sync_directory", "advise", "drop_copies")]
            + ["opened/is_link", "opened/without_links"]),
        ("socket_calls", "event_loop",
            "fault|receive|send|send_at_once|ask_whether_there|register|reregister|end_writing|wait|listen|accept|accepts_reported|address",
            [f"counted/CountedSocket/{name}" for name in ("read", "write", "send_at_once", "ask_whether_there", "register", "reregister", "end_writing")]
            + [f"listening/ListeningSocket/{name}" for name in ("bind", "register", "accept", "address")] + ["polled/CountedPoll/wait"]),
    ):
        with tally.run(f"the lemmas of HappenedCalls in {crate}"):
            users = [line.partition(":")[0] for line in text_of("crates.txt").splitlines() if re.search(rf":.*\b{crate}\b", line)]
            expect(users == [user], f"{crate} stands in {users}")
            found = set()
            for path in subprocess.check_output(["git", "-C", TOP, "ls-files", "crates"], text=True).split():
                if path.endswith((".antt", ".rt")) and re.search(rf"\breal_({lemmas})\b", text_of(path)):
                    found.add(path)
            own = f"crates/{crate}/"
            due = {f"{own}specs/HappenedCalls.antt", *(f"{own}proofs/{name}/Answers.antt" for name in calls)}
            expect(found == due, f"they are named in {sorted(found)}")
    with tally.run("an opened file, which is counted once"):
        code = "".join(text_of(f"crates/file_calls/src/{name}.rt") for name in ("opened", "counted"))
        made = re.findall(r"fn (\w+)[^{]*-> (?:io::Result<)?OpenedFile\b", code)
        expect(made == ["make", "open", "open_to_read"], f"{made} give an opened file")
        expect(not re.search(r"derive\([^)]*(?:Clone|Copy)", code) and "impl Clone" not in code, "a file can be copied")
        expect(len(re.findall(r"\bOpenedFile \{\n", code)) == 3 + 2, "an opened file is made elsewhere")


def tests(tally):
    """Each harness that runner.py runs stands in the table of docs/TESTING.md, and so do the numbers of wrong bodies."""
    page = text_of("docs/TESTING.md")
    for name in sorted(harness.name for harness in HARNESSES):
        with tally.run(f"{name} in docs/TESTING.md"):
            expect(f"`{name}.py" in page, "the table of what could go wrong doesn't have it")
    with tally.run("the wrong bodies of each crate"):
        printed = subprocess.run([os.path.join(TOP, "wrong_bodies", "run.sh"), "--table"], capture_output=True, text=True).stdout
        expect(printed and printed in page, "docs/TESTING.md has not what `wrong_bodies/run.sh --table` prints: `wrong_bodies/run.sh --write` writes it")


def names(tally):
    """The documents' tables of commands and refusals have those of the definitions, each once, and so has the model in Python."""
    table = text_of("crates/model/specs/CommandTable.antt")
    commands = re.findall(r'is_named parts \(codes "(\w+)"\)', table)
    texts = {text.strip() for text in re.findall(r'^refusal_text .*codes "([^"]+)"', text_of("crates/model/specs/ReplyText.antt"), re.M)}
    protocol, manual = text_of("docs/PROTOCOL.md"), text_of("man/ssikvd.7")
    asked = protocol.partition("## Commands")[2].partition("## Replies")[0]
    refused = protocol.partition("## Refusals")[2].partition("## Conflicts")[0]
    with tally.run("the commands"):
        expect(len(commands) >= 8, f"the definitions have {commands}")
        for where, found in (("PROTOCOL.md", re.findall(r"^\| `([A-Z]+)", asked, re.M)), ("ssikvd.7", re.findall(r"^\.It Ic ([A-Z]+)", manual, re.M)),
                             ("model.py", [name.decode() for name in PARTS])):
            expect(sorted(found) == sorted(commands), f"{where} has {found}, the definitions {commands}")
    with tally.run("the refusals"):
        expect(len(texts) >= 17, f"the definitions have {sorted(texts)}")
        for where, found in (("PROTOCOL.md", re.findall(r"^\| `([A-Z]+ [a-z]+(?: self)?)(?: <\w+>)?` ", refused, re.M)),
                             ("ssikvd.7", re.findall(r"^\.It ((?:ERR|FULL|CONFLICT|STORE) [a-z]+(?: self)?)", manual, re.M))):
            expect(sorted(found) == sorted(texts), f"{where} and the definitions differ in {sorted(texts ^ set(found))}")
        advice = text_of("docs/CLIENTS.md").partition("## What to do at each refusal")[2].partition("\n## ")[0]
        told = set(re.findall(r"`([A-Z]+ (?:[a-z]+|\.\.))`", advice))
        due = {"CONFLICT .." if text.startswith("CONFLICT") else text for text in texts}
        expect(told == due, f"CLIENTS.md and the definitions differ in {sorted(told ^ due)}")


def rows_of(table):
    """The rows below the head of a table, each its cells."""
    return [[cell.strip() for cell in line.strip("|").split("|")] for line in table.splitlines() if line.startswith("| ")][1:]


def log_format(tally):
    """The tables of docs/LOG_FORMAT.md have the bytes and sizes that the model's logs have."""
    text = text_of("docs/LOG_FORMAT.md")
    formats, body, example = (text.partition(place)[2].partition(end)[0] for place, end in (
        ("two formats", "## Records"), ("| Offset", "`b` is"), ("## An example", "Sector 0 is")))
    with tally.run("the table of the formats"):
        table = {name: cells for name, *cells in rows_of("| | |\n" + formats)}
        for column, (head, value_max) in enumerate(((OLD_HEAD, 4_096), (HEAD, VALUE_MAX))):
            largest = len(payload([(b"%c" % i * KEY_MAX, bytes(value_max)) for i in range(WRITES_MAX)]))
            cells = {name: cells[column] for name, cells in table.items() if len(cells) == 2}
            expect(cells["head"] == f"`{head[:8].decode()}` (hex `{head[:8].hex()}`)", f"a head is {cells['head']}")
            expect(cells["bytes of a value"] == f"0 to {value_max:,}", f"values have {cells['bytes of a value']}")
            expect(cells["largest payload"].endswith(f"= {largest:,} bytes"), f"the largest payload is {cells['largest payload']}")
            bodies = body_sectors(bytes(largest))
            expect(cells["most body sectors"] == f"{bodies:,}", f"there are {cells['most body sectors']} body sectors")
        expect(bodies == BODY_MAX, f"a body has {bodies} sectors at most")
    image = log_image([[(b"a", b"1")], [(b"a", None)]], 8)
    with tally.run("the table of a body"):
        parts = [(int(offset), length) for offset, length, _ in rows_of("| Offset" + body) if offset.isdigit()]
        expect(parts == [(0, "4"), (4, "8"), (12, "32"), (44, "L")], f"the parts of a body are {parts}")
    with tally.run("the vectors"):
        table = {name: [cell.strip("`") for cell in cells] for name, *cells in rows_of(example)}
        for column, sector in enumerate((2, 4)):
            place = sector * SECTOR
            size = int.from_bytes(image[place:place + 4], "big")
            due = {"L": image[place:place + 4], "index": image[place + 4:place + 12], "payload": image[place + 44:place + 44 + size]}
            found = {name: bytes.fromhex(cells[column]) for name, cells in table.items()}
            expect(found == due, f"record {column} is {found}, and the model writes {due}")


class Documents(Harness):
    NAME = "documents"
    NEEDS = (PROGRAM,)
    PARTS = (
        run_commands, worked, other_blocks, style, links, pictures, constants, limits, versions, installed, locks, layers, readmes, recipes, sealed, tests,
        names, log_format)


if __name__ == "__main__":
    run_harness()
