"""The client packages of `clients` against `serve`, and against a server of this harness that answers by a script.

Each language has a program, `PROGRAM ADDRESS JOB WORDS..`, that does the jobs below over its package. One judge looks at what they print, so that a
package is held to the same in every language. All languages that are installed run at once, each with servers of its own.

    count NAME WORKERS TIMES        each worker adds 1 to NAME so many times, the n-th time by `once` of NAME:WORKER:n, from 0; where workers share a
                                    store, it has 4 connections
                                    prints `counter N tries M`, M being how often the work ran
    reserve ROOM WORKERS TIMES      each worker books so many times of a room by `once` of by:ROOM:WORKER:n, unless one that overlaps is booked;
                                    the n-th begins at s = (13 WORKER + 7 n) mod 60 and ends at e = s + 1 + (WORKER + n) mod 5;
                                    the key ROOM:e, e in three digits, holds `s WORKER n`; the first key from ROOM:s+1 up to ROOM; tells;
                                    prints `WORKER n booked` or `WORKER n taken`, as `once` gave it, in any order
    walk PAIRS                      all pairs of the store, so many in each transaction
                                    prints `pairs N sum S`: from 0, for each byte of each key and its value, S = (31 S + byte) mod 1,000,000,007
    errors                          provokes the errors of ERRORS below
    set KEY VALUE DEADLINE REPLY    sets the key, with a deadline and a reply timeout in seconds; prints `done`, or the error
    once KEY DEADLINE REPLY         a `once` whose work gives `made`; prints what it gave, or the error

An error is printed as its kind, and what it says: `Conflict key HEX`, `Conflict pivot self`, `Conflict pivot N`, `Full LIMIT`, `Stopped`, `Refused
TEXT`, `Lost`, `Unreachable`, `Invalid`. The deadline of count, reserve and walk is 60 seconds; all else is as `connect` has it.

Then: the frames of clients/frames.txt by the model, each package's own tests, its version, and its length. `quick` runs each job once, with kills,
cut connections and 64 other transactions at once; `long` also conflicts, cuts and kills alone, and wrong forms of each package, which must be found.
A language that isn't installed is left out, and a line says so.
"""
import collections
import concurrent.futures
import os
import re
import shutil
import signal
import subprocess
import time

from ssikvd_harness.arguments import is_long, run_harness
from ssikvd_harness.cases import Harness
from ssikvd_harness.connection import Connection
from ssikvd_harness.cutting import CLOSE, PIVOT, SILENCE, Scripted
from ssikvd_harness.deviations import Deviation, Tally, expect, is_refused, missing
from ssikvd_harness.frames import FULL, OK, bulk, decode, frame, pairs, refusal
from ssikvd_harness.languages import CLIENTS, PACKAGES, WORKERS, Run, shell
from ssikvd_harness.limits import WRITES_MAX
from ssikvd_harness.log_format import log_image
from ssikvd_harness.server import Server, folder, free_port, fresh, run
from ssikvd_harness.settings import PATIENCE, PROGRAM
from ssikvd_harness.tools import memory

LINES_MAX = 400
KEYS = 100_000
SEATS = 60
SECTORS = 16_384
SCRIPTS_AT_ONCE = 8    # of which some only wait
LONGER = 3    # how many times as long a script may take that is played again


ERRORS = """overwritten: Conflict key 6b
pivot: Conflict pivot self
writes: Full writes
marks: Full marks
connections: Full connections
empty key: Invalid
long key: Invalid
long value: Invalid
zero limit: Invalid
ended: Invalid
raised: Raised
after it: none
closed: Invalid
"""


# Jobs

def ended(process, seconds=3 * PATIENCE):
    """What a job printed. It ends with status 0."""
    try:
        out, err = process.communicate(timeout=seconds)
    finally:
        if process.poll() is None:
            os.killpg(process.pid, signal.SIGKILL)
            process.communicate()
    expect(process.returncode == 0, f"it ended with {process.returncode}, {out[-200:]!r} {err[-600:]!r}")
    return out


class Count(Run):
    """A run of `count` over a proxy, as those of the example clients."""

    def __init__(self, package, place, share, times):
        super().__init__(package, package.copy, place, share, times, SECTORS)

    def result(self):
        found = re.fullmatch(r"counter (\d+) tries (\d+)\n", ended(self.process))
        expect(found, "it printed something else")
        expect(int(found[1]) == self.due, f"the counter holds {found[1]}, expected {self.due}")
        expect(self.proxy.firsts <= {b"BEGIN", b"PING"}, f"connections begin with {self.proxy.firsts}")
        return int(found[2])


def all_at_once(package):
    """Conflicts, 64 other transactions, connections that are cut, and a kill."""
    with folder(memory()) as place, Count(package, place, 0.15, 12) as count:
        count.among_others()
        count.kill(count.due // 2)
        count.result()
        expect(count.proxy.cuts > 5, f"only {count.proxy.cuts} connections were cut")


def conflicts(package):
    with folder(memory()) as place, Count(package, place, 0.0, 100) as count:
        for is_first in (True, False):
            count.process = count.begin()
            tries = count.result()
            expect((tries > count.due) == is_first, f"it took {tries} tries; the first time is {is_first}")


def cuts(package):
    with folder(memory()) as place, Count(package, place, 0.4, 40) as count:
        count.process = count.begin()
        count.result()
        expect(count.proxy.cuts > count.due // 4, f"only {count.proxy.cuts} connections were cut")


def kills(package):
    with folder(memory()) as place, Count(package, place, 0.0, 100) as count:
        count.process = count.begin()
        for number in range(1, 6):
            count.kill(number * count.due // 6)
        count.result()


class Booking(Count):
    """A run of `reserve` over a proxy."""

    def __init__(self, package, place, times):
        super().__init__(package, place, 0.15, times)
        self.process = package.job(self.proxy.own_port, "reserve", "blue", str(WORKERS), str(times))

    def result(self):
        return bookings(ended(self.process)), in_store(self.server.port, b"blue:", b"blue;")


def bookings(text):
    """What `reserve` printed: for each worker and turn whether it is booked."""
    rows = [line.split() for line in text.splitlines()]
    expect(all(len(row) == 3 and row[2] in ("booked", "taken") for row in rows), f"it printed {text[:200]!r}")
    return {(int(worker), int(turn)): what == "booked" for worker, turn, what in rows}


def in_store(port, lo, hi):
    """The pairs of a range of at most 128, by a connection of this harness."""
    with Connection(port) as connection:
        expect(connection.ask(frame("BEGIN")) == OK, "BEGIN was refused")
        parts = connection.ask(frame("RANGE", lo, hi, "128"))
        parts = re.findall(rb"\$\d+\r\n(.*?)\r\n", parts, re.S)
        return list(zip(parts[0::2], parts[1::2]))


def time_of(worker, turn):
    start = (13 * worker + 7 * turn) % SEATS
    return start, start + 1 + (worker + turn) % 5


def judge_bookings(said, stored, times):
    """Each turn was answered; what was answered `booked` is what is stored; no two overlap; what was answered `taken` overlaps one."""
    due = {(worker, turn) for worker in range(WORKERS) for turn in range(times)}
    expect(set(said) == due, f"{len(due - set(said))} have no answer")
    booked = {one for one, is_booked in said.items() if is_booked}
    kept = {(int(worker), int(turn)) for _, value in stored for _, worker, turn in [value.split()]}
    expect(kept == booked and len(stored) == len(booked), f"the store and the answers differ in {kept ^ booked}")
    taken = collections.Counter(second for one in booked for second in range(*time_of(*one)))
    expect(max(taken.values()) == 1, f"{[second for second, number in taken.items() if number > 1]} are booked twice")
    idle = [one for one in due - booked if not any(second in taken for second in range(*time_of(*one)))]
    expect(not idle, f"{idle} were refused, and nothing overlaps them")


def reservations(package, times=12):
    with folder(memory()) as place, Booking(package, place, times) as booking:
        booking.kill(WORKERS * times // 3)
        judge_bookings(*booking.result(), times)
        expect(booking.proxy.cuts > 2, f"only {booking.proxy.cuts} connections were cut")


def errors(package):
    with folder(memory()) as place, Server(fresh(place, 1_024)) as server:
        found = ended(package.job(server.port, "errors"))
        expect(found == ERRORS, f"it printed {[line for line in found.splitlines() if line not in ERRORS.splitlines()]}")


class Filled:
    """A server with many keys, which all packages walk over. The model writes its log."""

    def __init__(self, place):
        rows, self.sum = [(b"walk:%06d" % number, b"value %d" % (number * 7919 % KEYS)) for number in range(KEYS)], 0
        for byte in b"".join(key + value for key, value in rows):
            self.sum = (31 * self.sum + byte) % 1_000_000_007
        data = os.path.join(place, "filled")
        with open(data, "wb") as file:
            file.write(log_image([rows[at:at + WRITES_MAX] for at in range(0, KEYS, WRITES_MAX)], SECTORS))
        self.server = Server(data)

    def walk(self, package):
        found = ended(package.job(self.server.port, "walk", "20000"))
        expect(found == f"pairs {KEYS} sum {self.sum}\n", f"it printed {found!r}, the sum is {self.sum}")


def readme(package):
    """The first block of code in the package's README, as the file that is run next, prints what the README says."""
    here, name = os.path.join(package.copy, package.place), package.first.split()[-1]
    with open(os.path.join(here, "README.md"), encoding="utf-8") as file:
        text = file.read()
    code = re.search(r"^```(?!console)\w+\n(.*?)^```$", text, re.M | re.S)[1]
    due = re.search(rf"^\$ .*{re.escape(name)}\n(.*?)^```$", text, re.M | re.S)[1]
    with folder(memory()) as place, Server(fresh(place, 1_024)) as server:
        with open(os.path.join(here, name), "w", encoding="utf-8") as file:
            file.write(code.replace("7777", str(server.port)))
        status, out, errors = shell(package.first, here)
        expect(status == 0 and out == due, f"{name} ended with {status}, {out!r} {errors[-400:]!r}, expected {due!r}")


# A job's last two words are its deadline and its reply timeout, in seconds.
def in_pieces(reply):
    return [reply[at:at + 1] for at in range(len(reply))]


SET, ONCE = "set a b 0 10", "once a 0 10"
PATIENT_SET, PATIENT_ONCE = "set a b 30 10", "once a 30 10"
SHORT_SET = "set a b 30 3"    # where a reply never comes; all others must come within this time
# What is scripted, the job, the answers by name, what the job prints, and how often each name is asked. Those that wait are first.
SCRIPTS = [
    ("a COMMIT without a reply", SHORT_SET, {"COMMIT": [SILENCE]}, "Lost", {"BEGIN": 1, "COMMIT": 1}),
    ("half a reply to COMMIT", SHORT_SET, {"COMMIT": [[b":1"]]}, "Lost", {"COMMIT": 1}),
    ("no reply to SET once", SHORT_SET, {"SET": [SILENCE, OK]}, "done", {"BEGIN": 2, "SET": 2, "COMMIT": 1, "ABORT": 0}),
    ("no reply to PING", SHORT_SET, {"PING": [SILENCE]}, "Unreachable", {"PING": 1, "BEGIN": 0}),
    ("the usual", SET, {}, "done", {"PING": 1, "BEGIN": 1, "SET": 1, "COMMIT": 1}),
    ("replies in pieces", SET, {"BEGIN": [in_pieces(OK)], "COMMIT": [in_pieces(b":123\r\n")]}, "done", {"COMMIT": 1}),
    ("a conflict", SET, {"COMMIT": [PIVOT]}, "Conflict pivot 7", {"BEGIN": 1, "COMMIT": 1, "ABORT": 0}),
    ("a key overwritten", SET, {"COMMIT": [refusal("CONFLICT overwritten 00ff")]}, "Conflict key 00ff", {"COMMIT": 1}),
    ("three conflicts", PATIENT_SET, {"COMMIT": [PIVOT, PIVOT, PIVOT, b":1\r\n"]}, "done", {"BEGIN": 4, "SET": 4, "COMMIT": 4}),
    ("64 others", SET, {"BEGIN": [FULL]}, "Full transactions", {"BEGIN": 1, "ABORT": 0}),
    ("64 others for a while", PATIENT_SET, {"BEGIN": [FULL] * 3 + [OK]}, "done", {"BEGIN": 4, "SET": 1, "COMMIT": 1}),
    ("a full log", PATIENT_SET, {"COMMIT": [refusal("FULL log")]}, "Full log", {"COMMIT": 1}),
    ("a stopped store", PATIENT_SET, {"BEGIN": [refusal("STORE stopped")]}, "Stopped", {"BEGIN": 1}),
    ("a store that stops", PATIENT_SET, {"COMMIT": [refusal("STORE stopped")]}, "Stopped", {"COMMIT": 1}),
    ("a fault", PATIENT_SET, {"COMMIT": [refusal("STORE fault")]}, "Lost", {"COMMIT": 1}),
    ("a refusal amid it", PATIENT_SET, {"SET": [refusal("ERR key")]}, "Refused ERR key", {"BEGIN": 1, "SET": 1, "ABORT": 1, "COMMIT": 0}),
    ("no room for a write", PATIENT_SET, {"SET": [refusal("FULL writes")]}, "Full writes", {"ABORT": 1, "COMMIT": 0}),
    ("a COMMIT that is cut", PATIENT_SET, {"COMMIT": [CLOSE]}, "Lost", {"BEGIN": 1, "COMMIT": 1}),
    ("a reply that is none", SET, {"SET": [b"?\r\n"]}, "Unreachable", {"SET": 1, "COMMIT": 0}),
    ("cut at BEGIN", SET, {"BEGIN": [CLOSE]}, "Unreachable", {"BEGIN": 1, "SET": 0}),
    ("cut at BEGIN once", PATIENT_SET, {"BEGIN": [CLOSE, OK]}, "done", {"BEGIN": 2, "COMMIT": 1}),
    ("cut at SET once", PATIENT_SET, {"SET": [CLOSE, OK]}, "done", {"BEGIN": 2, "SET": 2, "COMMIT": 1}),
    ("cut at PING", PATIENT_SET, {"PING": [CLOSE]}, "Unreachable", {"PING": 1, "BEGIN": 0}),
    ("once", ONCE, {}, "made", {"GET": 1, "SET": 1, "COMMIT": 1}),
    ("once, done before", ONCE, {"GET": [bulk(b"before")]}, "before", {"GET": 1, "SET": 0, "COMMIT": 1}),
    ("once, cut, and carried out", PATIENT_ONCE, {"COMMIT": [CLOSE, b":1\r\n"], "GET": [bulk(None), bulk(b"made")]}, "made", {"SET": 1, "COMMIT": 2}),
    ("once, cut, and not carried out", PATIENT_ONCE, {"COMMIT": [CLOSE, b":1\r\n"]}, "made", {"SET": 2, "COMMIT": 2}),
    ("once, cut, at the deadline", ONCE, {"COMMIT": [CLOSE]}, "Lost", {"COMMIT": 1}),
    ("once, cut, then stopped", PATIENT_ONCE, {"COMMIT": [CLOSE], "BEGIN": [OK, refusal("STORE stopped")]}, "Lost", {"BEGIN": 2, "COMMIT": 1}),
    ("once, a fault, then stopped", PATIENT_ONCE, {"COMMIT": [refusal("STORE fault")], "BEGIN": [OK, refusal("STORE stopped")]}, "Lost", {"BEGIN": 2}),
    ("once, a full log", PATIENT_ONCE, {"COMMIT": [refusal("FULL log")]}, "Full log", {"COMMIT": 1}),
]


def judge_script(out, asked, due, counts):
    expect(out == due + "\n", f"it printed {out!r}, expected {due}")
    wrong = {name: asked[name] for name, count in counts.items() if asked[name] != count}
    expect(not wrong, f"it asked {wrong}, expected {counts}")


def longer(words, times):
    """The words of a job that has so many times the time."""
    *what, deadline, reply = words.split()
    return [*what, str(int(deadline) * times), str(int(reply) * times)]


def scripted(package, what, words, answers, due, counts):
    """One script, and once more with more time where it fails: on a machine that does much else a reply may come too late."""
    failures = []
    for times in (1, LONGER):
        server = Scripted(answers)
        try:
            judge_script(ended(package.job(server.port, *longer(words, times)), 3 * PATIENCE * times), server.asked, due, counts)
            return
        except (Deviation, subprocess.TimeoutExpired) as found:
            failures.append(str(found))
        finally:
            server.close()
    raise Deviation(f"{what}: {failures[-1]}, and before that {failures[0]}")


def scripts(package):
    """All scripts, some at a time. The first that fails is reported."""
    with concurrent.futures.ThreadPoolExecutor(SCRIPTS_AT_ONCE) as threads:
        list(threads.map(lambda script: scripted(package, *script), SCRIPTS))


def no_server(package):
    found = ended(package.job(free_port(), *PATIENT_SET.split()))
    expect(found == "Unreachable\n", f"without a server it printed {found!r}")


# Frames, versions, lengths

def bytes_of(word):
    return b"" if word == "-" else bytes.fromhex(word)


def frames():
    """Each row of frames.txt as the model has it."""
    with open(os.path.join(CLIENTS, "frames.txt"), encoding="utf-8") as file:
        rows = [re.split(r" = ", line.strip().partition(" ")[2]) for line in file if line.startswith(("request", "reply"))]
    expect(len(rows) > 15, f"there are {len(rows)} rows")
    for left, right in rows:
        kind, *words = right.split()
        parts = [bytes_of(word) for word in words if kind != "number"]
        due = {"done": lambda: b"+%s\r\n" % parts[0], "refused": lambda: b"-%s\r\n" % parts[0], "number": lambda: b":%d\r\n" % int(words[0]),
               "value": lambda: bulk(parts[0]), "none": lambda: bulk(None), "pairs": lambda: pairs(list(zip(parts[0::2], parts[1::2])))}
        if kind in due:
            expect(bytes_of(left) == due[kind](), f"the reply {left} isn't {right}")
        else:
            request = [bytes_of(word) for word in left.split()]
            expect(bytes_of(kind) == frame(*request) and decode(frame(*request))[0] == request, f"the request {left} isn't {right}")


def code_lines(text):
    """How many lines of code there are: those that hold a word, outside of comments."""
    text = re.sub(r'"""(.|\n)*?"""', "", text)
    return sum(bool(re.search(r"\w", line)) and not re.match(r"\s*(#|//|/\*|\*)", line) for line in text.splitlines())


def length_and_version(package):
    sources, here = [], os.path.join(CLIENTS, package.place)
    for place, _, names in os.walk(here):
        sources += [os.path.join(place, name) for name in names if re.fullmatch(package.sources, os.path.relpath(os.path.join(place, name), here))]
    lines = 0
    for name in sources:
        with open(name, encoding="utf-8") as file:
            lines += code_lines(file.read())
    expect(0 < lines <= LINES_MAX, f"it has {lines} lines of code")
    with open(os.path.join(here, package.version[0]), encoding="utf-8") as file:
        found = re.search(package.version[1], file.read(), re.M)
    due = run(["--version"])[1].decode().split()[-1]
    expect(found and found[1] == due, f"its version is {found and found[1]}, that of the program {due}")


def judges():
    """The judges find what is wrong."""
    right = {(worker, turn): True for worker in range(WORKERS) for turn in range(1)}
    stored = [(b"blue:%03d" % time_of(*one)[1], b"%d %d %d" % (time_of(*one)[0], *one)) for one in right]
    judge_bookings(right, stored, 1)
    for said, kept, times in ((right, stored[1:], 1), (right, stored + stored[:1], 1), (right, stored, 2), ({**right, (0, 0): False}, stored[1:], 1),
                              ({**right, (0, 7): True}, stored + [(b"blue:052", b"49 0 7")], 1)):
        expect(is_refused(judge_bookings, said, kept, times), f"{said} with {kept} was taken")
    for out, asked in (("Lost\n", {"COMMIT": 2}), ("done\n", {"COMMIT": 1})):
        expect(is_refused(judge_script, out, collections.Counter(asked), "Lost", {"COMMIT": 1}), f"{out} with {asked} was taken")
    expect(code_lines('a\n\n# b\n"""c\nd\n"""\n // e\nf // g\n') == 2, "lines are counted in another way")


# Wrong packages, which the judges must find

NO_REPLY = ("a COMMIT that is cut", "a COMMIT without a reply")
# A package, a file of it, what stands there once, what stands there instead, and the scripts or jobs of which each must find it.
WRONG = [
    ("Python", "src/ssikvd/_core.py", 'raise Lost(f"no reply to COMMIT: {error}") from error', "raise", NO_REPLY),
    ("Python", "src/ssikvd/_core.py", '                await session.ask(b"ABORT")', "                pass", ("errors", "a refusal amid it")),
    ("Python", "src/ssikvd/_core.py", "            if found is None:", "            if True:", ("once, done before", "once, cut, and carried out")),
    ("Python", "src/ssikvd/_core.py", "                await transaction.set(name, found)", "                pass", ("once",)),
    ("Python", "src/ssikvd/_core.py", "        self.is_whole = False", "        pass", ("no reply to SET once",)),
    ("Python", "src/ssikvd/_core.py", "            transaction._session = None", "            pass", ("errors",)),
    ("Python", "src/ssikvd/_core.py", 'raise Lost(f"{lost}; then {error}") from error', "raise", ("once, cut, then stopped",)),
    ("JavaScript", "index.js", "if (error instanceof Unreachable || error.text", "if (error.text", NO_REPLY),
    ("JavaScript", "index.js", "      if (isOpen) await session.ask('ABORT');", "", ("errors", "a refusal amid it")),
    ("JavaScript", "index.js", "        lost = error;\n", "", ("once, cut, then stopped",)),
    ("JavaScript", "index.js", "error instanceof Full && error.limit === 'transactions'", "false", ("64 others for a while",)),
    ("Ruby", "lib/ssikvd/session.rb", 'raise Lost, "no reply to COMMIT: #{error.message}"', "raise error", NO_REPLY),
    ("Ruby", "lib/ssikvd/store.rb", '      session.ask("ABORT") if is_open', "      nil", ("errors", "a refusal amid it")),
    ("Ruby", "lib/ssikvd/store.rb", "        tries.wait(error)\n        retry\n      rescue Standard", "        raise\n      rescue Standard",
     ("once, cut, and carried out",)),
    ("PHP", "src/Session.php", "throw new Lost('no reply to COMMIT: ' . $error->getMessage(), 0, $error)", "throw $error", NO_REPLY),
    ("PHP", "src/Store.php", "                $session->ask('ABORT');\n", "", ("errors", "a refusal amid it")),
]


def wrong(tally, package):
    """Each wrong form of the package, some of them at once."""
    forms = [form for name, *form in WRONG if name == package.name]
    with concurrent.futures.ThreadPoolExecutor(SCRIPTS_AT_ONCE) as threads:
        for found in threads.map(lambda form: wrong_form(package, *form), forms):
            tally.take(found)


def wrong_form(package, file_name, right, instead, finders):
    """A wrong form, which each of its finders must find."""
    tally = Tally(f"wrong: {instead or right}")
    with folder() as place, tally.run(file_name):
        copy = shutil.copytree(package.copy, os.path.join(place, "clients"))
        path = os.path.join(copy, package.place, file_name)
        with open(path, encoding="utf-8") as file:
            text = file.read()
        expect(text.count(right) == 1, f"{right!r} stands {text.count(right)} times in {file_name}")
        with open(path, "w", encoding="utf-8") as file:
            file.write(text.replace(right, instead))
        other = package.of(copy)
        some = [script for script in SCRIPTS if script[0] in finders]
        with concurrent.futures.ThreadPoolExecutor(SCRIPTS_AT_ONCE) as threads:
            for (name, *_), is_found in zip(some, threads.map(lambda script: is_refused(scripted, other, *script), some)):
                expect(is_found, f"{name} doesn't find {instead or 'that it lacks'} {right!r}")
        expect("errors" not in finders or is_refused(errors, other), f"errors doesn't find {instead or 'that it lacks'} {right!r}")
    return tally


# All packages at once

def parts_of(package, filled):
    """The runs of a package, each with its name."""
    yield "length and version", lambda: length_and_version(package)
    if package.test:
        yield "its tests", lambda: expect_command(package, package.test)
    if package.first:
        yield "its README", lambda: readme(package)
    yield "all at once", lambda: all_at_once(package)
    yield "reservations", lambda: reservations(package)
    yield "a walk", lambda: filled.walk(package)
    yield "errors", lambda: errors(package)
    yield "no server", lambda: no_server(package)
    yield "the scripts", lambda: scripts(package)
    for part in (conflicts, cuts, kills) if is_long() else ():
        yield part.__name__, lambda part=part: part(package)


def expect_command(package, command):
    found = shell(command, os.path.join(package.copy, package.place))
    expect(found[0] == 0, f"{command} ended with {found[0]}: {(found[1] + found[2])[-600:]}")


def play(package, filled):
    """All runs of a package, with how long they took."""
    tally, begun = Tally(f"packages, {package.name}"), time.monotonic()
    with folder() as place:
        package.copy = os.path.join(place, "clients")
        shutil.copytree(CLIENTS, package.copy, ignore=shutil.ignore_patterns("out", "target", "__pycache__"))
        if package.build:
            with tally.run("build"):
                expect_command(package, package.build)
        for what, part in parts_of(package, filled):
            with tally.run(what):
                part()
        if is_long():
            wrong(tally, package)
    return tally, time.monotonic() - begun


class Packages(Harness):
    NAME = "packages"
    NEEDS = (PROGRAM,)

    def test_judges(self):
        with self.tally.run("judges"):
            judges()

    def test_frames(self):
        with self.tally.run("frames"):
            frames()

    def test_packages(self):
        there = [package for package in PACKAGES if package.is_there()]
        for package in PACKAGES:
            if package not in there:
                missing(f"the package for {package.name}", package.needs)
        with folder(memory()) as place, concurrent.futures.ThreadPoolExecutor(max(1, len(there))) as threads:
            filled = Filled(place)
            try:
                for found, seconds in threads.map(lambda package: play(package, filled), there):
                    self.tally.take(found)
                    print(f"  {found.name}: {found.runs} runs in {seconds:.0f} seconds", flush=True)
            finally:
                filled.server.kill()


if __name__ == "__main__":
    run_harness()
