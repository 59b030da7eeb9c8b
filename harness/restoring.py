"""`ssikvd-restore`: what it refuses before anything is stopped, what it leaves, and what a kill or a loss of power leaves at each step. And the
previous copies that `ssikvd-ship` keeps, with its kills, its metrics, the links that it refuses, and its unit's command.

A sparse copy is put in the place of a served file: each sector of the new one has its place, owner and mode are as before, the previous file is kept,
and the server serves the copy's map. Then the tool is killed before and after each of its calls: the data file is the old or the new one, byte by
byte, `check` reads it, a server starts over it, and the tool that is run again goes on to its end. Of its calls in their order, all names that a loss
of power may leave are found. It is refused, with the server left running, where the copy is damaged or of format 1, where there is no room, where a
file of an earlier restore would be lost, and where another user planted links; none of these is followed. Finally, tools with a planted fault, which
must be reported.
"""
import contextlib
import fcntl
import itertools
import os
import re
import shutil
import signal
import stat
import threading

from ssikvd_harness.arguments import is_long, run_harness
from ssikvd_harness.cases import Harness
from ssikvd_harness.deviations import expect, is_refused, missing
from ssikvd_harness.log_format import SECTOR, log_of, map_of, sectors_used
from ssikvd_harness.server import Server, check, folder, free_port
from ssikvd_harness.settings import PROGRAM, bytes_of
from ssikvd_harness.tools import DIST, ENVIRONMENT, commit, fill, loaded, tool, within

SECTORS = 256
OWNER = (0o640, 12_345 if os.getuid() == 0 else os.getuid(), 12_346 if os.getuid() == 0 else os.getgid())
FILES = {"data", "data.before-restore", "data.lock"}
CALLS = ("open", "posix_fallocate", "pwrite", "fchown", "fchmod", "fsync", "link", "rename", "unlink", "remove", "truncate", "utime")


class Case:
    """A folder with a data file that has other commits than a copy next to it, and the commands that stop and start a server."""

    def __init__(self, place):
        self.place, self.copy, self.data = place, os.path.join(place, "backup"), os.path.join(place, "data")
        self.stopped, self.started = os.path.join(place, "stopped"), os.path.join(place, "started")
        self.words = ["--stop", f"echo >>{self.stopped}", "--start", f"echo >>{self.started}", "--wait", "0", "--data", self.data, self.copy]

    def is_untouched(self, old):
        """Nothing was stopped, and nothing but the lock is there that wasn't."""
        expect(not os.path.exists(self.stopped), "the server was stopped")
        expect(bytes_of(self.data) == old and names(self) <= {"data", "data.lock"}, f"it left {sorted(names(self))}")


def names(case):
    return {name for name in os.listdir(case.place) if name.startswith("data")}


class Files:
    """The bytes of a data file and of a copy, made once. The new file is the copy without what follows its last closed gate."""

    def __init__(self, place):
        old, source, copy = (os.path.join(place, name) for name in ("old", "source", "copy"))
        fill(old, 12, SECTORS)
        fill(source, 9, SECTORS)
        found = tool("ssikvd-ship", "--records", "7", source, copy)
        expect(found[0] == 0, f"ssikvd-ship answered {found}")
        self.old, self.copy, self.log = bytes_of(old), bytes_of(copy), log_of(copy)
        used = check(copy)[2]
        self.new = self.copy[:SECTOR * used].ljust(len(self.copy), b"\0")

    @contextlib.contextmanager
    def case(self):
        with folder() as place:
            case = Case(place)
            with open(case.data, "wb") as file:
                file.write(self.old)
            with open(case.copy, "wb") as file:
                file.write(self.copy.rstrip(b"\0"))
                file.truncate(len(self.copy))
            os.chown(case.data, *OWNER[1:])
            os.chmod(case.data, OWNER[0])
            yield case


def restore(case, *words):
    return tool("ssikvd-restore", *(words or case.words))


def judge_restored(case, files):
    """After a run to its end: the names, the bytes, each sector in its place, owner and mode."""
    expect(names(case) == FILES, f"it left {sorted(names(case))}")
    expect(bytes_of(case.data) == files.new, "the data file is not the copy")
    expect(bytes_of(case.data + ".before-restore") == files.old, "the previous file was not kept")
    now = os.stat(case.data)
    expect((stat.S_IMODE(now.st_mode), now.st_uid, now.st_gid) == OWNER, f"mode and owner are {oct(now.st_mode), now.st_uid, now.st_gid}")
    expect(512 * now.st_blocks >= len(files.new), f"of {len(files.new)} bytes {512 * now.st_blocks} are on the disk")
    expect(os.path.exists(case.started), "the server was not started")


# Kills

class Calls:
    """The calls of the tool, each counted; at the chosen one, before it or after it, the process is killed."""

    def __init__(self, number=None, is_after=False):
        self.number, self.is_after, self.made = number, is_after, []

    def __getattr__(self, name):
        found = getattr(os, name)
        return self.counted(name, found) if name in CALLS else found

    def counted(self, name, call):
        def made(*words, **more):
            self.made.append(name)
            if len(self.made) == self.number and not self.is_after:
                os.kill(os.getpid(), signal.SIGKILL)
            number = len(self.made)
            try:
                return call(*words, **more)
            finally:
                if number == self.number:
                    os.kill(os.getpid(), signal.SIGKILL)

        return made


def with_calls(script, calls):
    """The tool of this file, whose calls are these."""
    module = loaded(script)
    module.os = calls
    if hasattr(module, "run_command"):
        module.run_command = calls.counted("command", module.run_command)
    return module


def killed(script, words, number, is_after):
    """A run in a process of its own, killed at this call: the signal that ended it, or 0."""
    process = os.fork()
    if process == 0:
        status = 1
        try:
            status = within(with_calls(script, Calls(number, is_after)), words)[0]
        finally:
            os._exit(status)
    return os.WTERMSIG(os.waitpid(process, 0)[1])


def judge_kill(files, script, number, is_after, serves):
    """One kill, what it leaves, and a run after it."""
    with files.case() as case:
        expect(killed(script, case.words, number, is_after) == signal.SIGKILL, "it was not killed")
        found = names(case)
        own = {name for name in found if name.startswith("data.restoring-")}
        expect("data" in found and found <= FILES | own and len(own) <= 1, f"a kill leaves {sorted(found)}")
        now = bytes_of(case.data)
        expect(now in (files.old, files.new), "a kill leaves a data file that is neither")
        if "data.before-restore" in found:
            expect(bytes_of(case.data + ".before-restore") == files.old, "a kill leaves another previous file")
        else:
            expect(now == files.old, "a kill leaves no previous file")
        expect(check(case.data)[0] == (12 if now == files.old else 7), "check counts other records")
        if serves:
            shutil.copy(case.data, case.place + "/served")
            with Server(case.place + "/served") as server:
                commit(server.port, 1)
        status, out, err = within(loaded(script), case.words)
        expect(status == 0 and not err, f"run again it ended with {status}: {out}{err}")
        judge_restored(case, files)


def steps(files, script):
    """The calls of a run to its end."""
    with files.case() as case:
        calls = Calls()
        found = within(with_calls(script, calls), case.words)
        expect(found[0] == 0, f"it ended with {found}")
        judge_restored(case, files)
        return calls.made


def kills(tally, files):
    made = steps(files, "ssikvd-restore")
    for number, name in enumerate(made, 1):
        for is_after in (False, True):
            with tally.run(f"a kill {'after' if is_after else 'before'} call {number}, {name}"):
                judge_kill(files, "ssikvd-restore", number, is_after, is_long() or name in ("link", "rename"))
    print(f"  ssikvd-restore: {len(made)} calls, a kill before and after each", flush=True)


# A loss of power

class Power(Calls):
    """The calls as they are made, and the names that a loss of power may leave after each: any of the changes since the folder was synced is undone,
    each independently. A file counts once its bytes, mode and owner are durable."""

    def __init__(self):
        super().__init__()
        self.names, self.changes, self.settled, self.files, self.cases, self.commands = {"data": "old"}, [], {"old"}, {}, 0, 0

    def __getattr__(self, name):
        found = getattr(os, name)
        return self.watched(name, found) if name in CALLS else found

    def counted(self, name, call):
        return self.watched(name, call)

    def watched(self, name, call):
        def made(*words, **more):
            if name == "command":
                self.commands += 1
                self.judge(self.commands == 2)    # the start
            result = call(*words, **more)
            self.note(name, words, result)
            self.judge(False)
            return result

        return made

    def note(self, name, words, result):
        if name == "open":
            self.files[result] = words[0]
            if words[1] & os.O_EXCL:
                self.changes.append({words[0]: "new"})
        elif name in ("posix_fallocate", "pwrite", "fchown", "fchmod"):
            self.settled.discard("new")
        elif name == "fsync" and str(self.files[words[0]]).startswith("data.restoring-"):
            self.settled.add("new")
        elif name == "fsync":
            self.names, self.changes = self.now(self.changes), []
        elif name == "link":
            self.changes.append({words[1]: self.now(self.changes)[words[0]]})
        elif name == "rename":
            self.changes.append({words[1]: self.now(self.changes)[words[0]], words[0]: None})
        elif name == "unlink":
            self.changes.append({words[0]: None})

    def now(self, kept):
        found = dict(self.names)
        for change in kept:
            found.update(change)
        return {name: file for name, file in found.items() if file}

    def judge(self, is_start):
        for count in range(len(self.changes) + 1):
            for kept in itertools.combinations(self.changes, count):
                found = self.now(kept)
                self.cases += 1
                expect(found.get("data") in self.settled, f"after {self.made[-1:]} a loss of power leaves {found}")
                expect(not is_start or found["data"] == "new", f"the server is started, and a loss of power leaves {found}")
                expect("old" in found.values(), f"a loss of power leaves nothing of the previous file: {found}")


def judge_power(files, script):
    """All names that a loss of power may leave at any of the calls. How many cases are there?"""
    with files.case() as case:
        power = Power()
        found = within(with_calls(script, power), case.words)
        expect(found[0] == 0 and power.commands == 2, f"it ended with {found}")
        return power.cases


# What is refused

def refusals(tally, files):
    restoring = loaded("ssikvd-restore")
    with tally.run("a damaged copy"), files.case() as case:
        with open(case.copy, "r+b") as file:
            file.seek(SECTOR * 2 + 60)
            file.write(b"\xff")
        found = restore(case)
        expect(found[0] == 2 and "damaged record 0" in found[2], f"it answered {found}")
        case.is_untouched(files.old)
    with tally.run("a copy that is no log, is missing, is the data file, or is of format 1"), files.case() as case:
        for content in (b"", b"other".ljust(4 * SECTOR, b"\0"), b"SSIKVLG1".ljust(4 * SECTOR, b"\0")):
            with open(case.copy, "wb") as file:
                file.write(content)
            found = restore(case)
            expect(found[0] == 2 and ("not a log" in found[2] or "format 1" in found[2]), f"it answered {found}")
        for copy in (case.copy + ".missing", case.data):
            found = restore(case, *case.words[:-1], copy)
            expect(found[0] == 2, f"it answered {found}")
        case.is_untouched(files.old)
    with tally.run("a copy over which ssikvd-ship was cut off"), files.case() as case:
        place = sectors_used(files.log[:4]) - 1
        with open(case.copy, "r+b") as file:
            file.seek(SECTOR * place)
            file.write(bytes(SECTOR))
        found = restore(case)
        expect(found[0] == 2 and "closed gate of record 4" in found[2] and "--as-it-ends" in found[2], f"it answered {found}")
        case.is_untouched(files.old)
        found = restore(case, "--as-it-ends", *case.words)
        expect(found[0] == 0 and log_of(case.data) == files.log[:4], f"it answered {found}")
    with tally.run("a copy of the name of what a killed run left"), files.case() as case:
        left = case.data + ".restoring-0123abcd"
        os.rename(case.copy, left)
        found = restore(case, *case.words[:-1], left)
        expect(found[0] == 0 and bytes_of(case.data) == files.new and bytes_of(left) == files.copy, f"it answered {found}")
    with tally.run("no room"), files.case() as case:
        full = Calls()
        full.fstatvfs = lambda _: os.statvfs_result((4096, 4096, 100, 10, 10, 100, 10, 10, 0, 255))
        restoring.os = full
        found = within(restoring, case.words)
        expect(found[0] == 2 and "has no room" in found[2], f"it answered {found}")
        case.is_untouched(files.old)
    for name in ("posix_fallocate", "pwrite", "fchown", "fsync"):
        with tally.run(f"{name} fails"), files.case() as case:
            failing = Calls()
            setattr(failing, name, refusing)
            restoring.os = failing
            found = within(restoring, case.words)
            expect(found[0] == 2 and "No space left" in found[2], f"it answered {found}")
            case.is_untouched(files.old)
    with tally.run("a file of an earlier restore"), files.case() as case:
        with open(case.data + ".before-restore", "w", encoding="ascii") as file:
            file.write("earlier")
        found = restore(case)
        expect(found[0] == 2 and "earlier restore" in found[2] and bytes_of(case.data + ".before-restore") == b"earlier", f"it answered {found}")
        os.remove(case.data + ".before-restore")
        case.is_untouched(files.old)
    with tally.run("words that don't fit"), files.case() as case:
        for words in ([], [case.copy], ["shop", "--data", case.data, case.copy], ["--stop", "true", "shop", case.copy], ["a/b", case.copy]):
            found = tool("ssikvd-restore", *words)
            expect(found[0] in (1, 2) and "usage:" in found[2] and found[2].count("[--as-it-ends]") == 2, f"{words} gave {found}")


def refusing(*_):
    raise OSError(28, os.strerror(28))


def locks(tally, files):
    with tally.run("the lock"), files.case() as case, open(case.data + ".lock", "wb") as file:
        fcntl.flock(file, fcntl.LOCK_EX)
        found = restore(case)
        expect(found[0] == 75 and "another process holds" in found[2], f"it answered {found}")
        expect(bytes_of(case.data) == files.old and names(case) == {"data", "data.lock"}, f"it left {sorted(names(case))}")
        expect(os.path.exists(case.started), "the server wasn't started again")
        found = restore(case, "--data", case.data, case.copy)
        expect(found[0] == 75, f"without a stop it answered {found}")
    with tally.run("a stop that fails"), files.case() as case:
        found = restore(case, "--stop", "exit 7", *case.words[2:])
        expect(found[0] == 2 and "ended with 7" in found[2] and os.path.exists(case.started), f"it answered {found}")
        case.is_untouched(files.old)
    with tally.run("a start that fails"), files.case() as case:
        found = restore(case, *case.words[:2], "--start", f"echo >>{case.started}; exit 7", *case.words[4:])
        expect(found[0] == 2 and "wasn't started" in found[2], f"it answered {found}")
        judge_restored(case, files)
    with tally.run("SIGTERM amid the stop"), files.case() as case:
        found = restore(case, "--stop", "kill -TERM $PPID; sleep 0.1", *case.words[2:])
        expect(found[0] == 143 and os.path.exists(case.started), f"it answered {found}")
        case.is_untouched(files.old)
    with tally.run("another one at the same time"), files.case() as case:
        two_at_once(case, files)


def two_at_once(case, files):
    """Each of two at once ends with the copy in its place and the previous file kept, or is refused."""
    answers = []
    threads = [threading.Thread(target=lambda: answers.append(restore(case, *case.words[:4], "--wait", "10", *case.words[6:]))) for _ in range(2)]
    for thread in threads:
        thread.start()
    for thread in threads:
        thread.join()
    expect(0 in [found[0] for found in answers] and all(found[0] in (0, 2, 75) for found in answers), f"they answered {answers}")
    judge_restored(case, files)


def links(tally, files):
    """A user who may write in the folder plants links to what only root may write."""
    with tally.run("links of one's own"), files.case() as case:
        os.rename(case.data, case.place + "/real")
        os.symlink("real", case.data)
        found = restore(case)
        expect(found[0] == 0 and os.path.islink(case.data) and bytes_of(case.place + "/real") == files.new, f"it answered {found}")
        expect(bytes_of(case.place + "/real.before-restore") == files.old, "the previous file was not kept")
    for name in ("data.lock", "data.before-restore"):
        with tally.run(f"{name} is a link"), files.case() as case, folder() as elsewhere:
            target = os.path.join(elsewhere, "target")
            with open(target, "w", encoding="ascii") as file:
                file.write("of root")
            os.symlink(target, os.path.join(case.place, name))
            found = restore(case)
            expect(found[0] == 2 and bytes_of(target) == b"of root" and os.listdir(elsewhere) == ["target"], f"it answered {found}")
            expect(bytes_of(case.data) == files.old, "the data file is another one")
    if os.getuid() != 0:
        missing("links of another user", "root")
        return
    for name in ("data", "backup"):
        with tally.run(f"{name} is a link of another user"), files.case() as case, folder() as elsewhere:
            target = os.path.join(elsewhere, "target")
            os.rename(os.path.join(case.place, name), target)
            before = bytes_of(target)
            os.symlink(target, os.path.join(case.place, name))
            os.lchown(os.path.join(case.place, name), *OWNER[1:])
            found = restore(case)
            expect(found[0] == 2 and "link of another user" in found[2], f"it answered {found}")
            expect(bytes_of(target) == before and os.listdir(elsewhere) == ["target"] and not os.path.exists(case.stopped), "it went elsewhere")


# Served

def served(tally, files):
    """A served file: the server is stopped and started by the tool, as a unit's would be."""
    with files.case() as case, tally.run("a restore of a served file"):
        port, pid, flock = free_port(), os.path.join(case.place, "pid"), shutil.which("flock")
        stops = f"kill -9 $(cat {pid}); {flock} -w 10 {case.data}.lock true"
        starts = (f"setsid {flock} -n -F -E 75 {case.data}.lock {os.path.abspath(PROGRAM)} serve --data {case.data} --listen 127.0.0.1:{port}"
                  f" </dev/null >{case.place}/out 2>&1 & echo $! >{pid}; exec ssikvd-probe --wait 20 --process $! 127.0.0.1:{port} >/dev/null")
        try:
            expect(tool("sh", "-c", starts)[0] == 0, "no server could be started")
            systemctl = os.path.join(case.place, "systemctl")
            with open(systemctl, "w", encoding="utf-8") as file:
                file.write(f'#!/bin/sh\n[ "$2" = ssikvd@shop.service ] || exit 9\ncase $1 in stop) {stops} ;; start) {starts} ;; esac\n')
            os.chmod(systemctl, 0o755)
            os.symlink("data", os.path.join(case.place, "shop.data"))
            os.symlink("data.lock", os.path.join(case.place, "shop.data.lock"))
            by_name(case, files, port)
        finally:
            tool("sh", "-c", stops)


def by_name(case, files, port):
    """By the unit's name, whose file is looked for in this folder."""
    os.remove(os.path.join(case.place, "shop.data.lock"))
    restoring = loaded("ssikvd-restore")
    restoring.STORES = case.place
    own = os.environ["PATH"]
    os.environ["PATH"] = case.place + ":" + ENVIRONMENT["PATH"]
    try:
        status, out, err = within(restoring, ["shop", case.copy])
        expect(status == 0 and not err and "restored; stopped for" in out, f"it answered {status, out, err}")
        expect(map_of(log_of(case.data)) == map_of(files.log), "the map is another one")
        commit(port, 3)
        expect(log_of(case.data)[:-1] == files.log, "the server writes to another file")
        found = within(restoring, ["shop", case.copy])
        expect(found[0] == 2 and "earlier restore" in found[2], f"a second restore answered {found}")
        commit(port, 4)
    finally:
        os.environ["PATH"] = own


def again(tally, files):
    with tally.run("a restore of what is restored"), files.case() as case:
        expect(restore(case)[0] == 0 and restore(case)[0] == 0, "it failed")
        judge_restored(case, files)
        expect(len(bytes_of(case.stopped)) == 1, "it was stopped twice")
    with tally.run("a data file that is missing"), files.case() as case:
        os.remove(case.data)
        found = restore(case)
        expect(found[0] == 0 and bytes_of(case.data) == files.new and names(case) == {"data", "data.lock"}, f"it answered {found}")
        now, like = os.stat(case.data), os.stat(case.place)
        expect((stat.S_IMODE(now.st_mode), now.st_uid) == (0o600, like.st_uid), f"mode and owner are {oct(now.st_mode), now.st_uid}")


# The copies that ssikvd-ship keeps

class Copies:
    """Data files that are different logs, of which each ends the copy of the one before, and the copy's folder."""

    COUNT = 5

    def __init__(self, place):
        self.data = [os.path.join(place, f"data{number}") for number in range(self.COUNT)]
        for number, name in enumerate(self.data):
            fill(name, 3 + number, 64 + number)
        self.bytes = [bytes_of(name) for name in self.data]

    @contextlib.contextmanager
    def shipped(self, count, keep):
        """A copy of the first `count` data files, one after another."""
        with folder() as place:
            copy = os.path.join(place, "copy")
            for name in self.data[:count]:
                found = tool("ssikvd-ship", "--keep", str(keep), name, copy)
                expect(found[0] == 0 and found[1].endswith(", a new copy\n"), f"it answered {found}")
            yield copy

    def kept(self, copy):
        """Which of the data files the copy and the previous ones are, by their names."""
        return {name: self.bytes.index(bytes_of(os.path.join(os.path.dirname(copy), name)))
                for name in os.listdir(os.path.dirname(copy)) if name != "copy.lock"}


def keeping(tally, copies):
    due = {0: {"copy": 4}, 1: {"copy": 4, "copy.old": 3}, 3: {"copy": 4, "copy.old": 3, "copy.old.2": 2, "copy.old.3": 1}}
    for keep, names_due in due.items():
        with tally.run(f"--keep {keep}"), copies.shipped(copies.COUNT, keep) as copy:
            expect(copies.kept(copy) == names_due, f"it keeps {copies.kept(copy)}")
    with tally.run("fewer than before"), copies.shipped(4, 3) as copy:
        found = tool("ssikvd-ship", copies.data[4], copy)
        expect(found[0] == 0 and copies.kept(copy) == due[1], f"it answered {found}, and keeps {copies.kept(copy)}")
    for option in ("--keep", "--records"):
        with tally.run(f"{option}: none fewer than none"), folder() as place:
            found = tool("ssikvd-ship", option, "-1", copies.data[0], os.path.join(place, "copy"))
            expect(found[0] == 2 and f"{option} takes a number" in found[2] and not os.listdir(place), f"it answered {found}")
    with copies.shipped(3, 2) as copy:
        calls = Calls()
        found = within(with_calls("ssikvd-ship", calls), ["--keep", "2", copies.data[3], copy])
        with tally.run("the calls of a run"):
            expect(found[0] == 0 and len(calls.made) > 10, f"it answered {found}")
    for number, name in enumerate(calls.made, 1):
        for is_after in (False, True) if is_long() else (True,) if name in ("link", "rename", "remove") else ():
            with tally.run(f"ssikvd-ship killed {'after' if is_after else 'before'} call {number}, {name}"):
                judge_killed_ship(copies, number, is_after)


def judge_killed_ship(copies, number, is_after):
    """A run that begins a new copy is killed: the copy stands whole, and of the previous ones the last alone may go. Run again, it goes on."""
    with copies.shipped(3, 2) as copy:
        words = ["--keep", "2", copies.data[3], copy]
        expect(killed("ssikvd-ship", words, number, is_after) == signal.SIGKILL, "it was not killed")
        found = {name: bytes_of(os.path.join(os.path.dirname(copy), name)) for name in os.listdir(os.path.dirname(copy)) if name != "copy.new"}
        expect(found["copy"] in copies.bytes[2:4], "the copy is neither the previous one nor the new one")
        expect(all(content in found.values() for content in copies.bytes[1:3]), f"a previous one is gone: {sorted(found)}")
        found = tool("ssikvd-ship", *words)
        expect(found[0] == 0, f"run again it answered {found}")
        expect(copies.kept(copy) == {"copy": 3, "copy.old": 2, "copy.old.2": 1}, f"run again it keeps {copies.kept(copy)}")


def without_room(tally, copies):
    """A new copy for which there is no room isn't left behind: neither a first one, nor one that a compaction asks for."""
    for is_first in (True, False):
        for call in ("truncate", "pwrite", "fsync"):
            with tally.run(f"{'a first' if is_first else 'a new'} copy whose {call} fails"), copies.shipped(0 if is_first else 1, 1) as copy:
                failing, before = Calls(), os.listdir(os.path.dirname(copy))
                setattr(failing, call, refusing)
                found = within(with_calls("ssikvd-ship", failing), [copies.data[1], copy])
                expect(found[0] == 2 and "No space left" in found[2], f"it answered {found}")
                expect(set(os.listdir(os.path.dirname(copy))) == {*before, "copy.lock"}, f"it left {os.listdir(os.path.dirname(copy))}")
                expect(is_first or bytes_of(copy) == copies.bytes[0], "the copy is another one")


def ages(tally, copies):
    with tally.run("the metrics of a backup"), copies.shipped(1, 1) as copy:
        text = copy + ".prom"
        os.utime(copy, (1_000, 1_000))
        found = tool("ssikvd-ship", "--metrics", text, copies.data[0] + ".missing", copy)
        expect(found[0] == 2 and "up to date" in found[2] and "seconds ago" in found[2], f"it answered {found}")
        told = bytes_of(text).decode()
        expect("_time_seconds{" in told and told.count("} 1000.0\n") == 1 and "ssikvd_backup_failed{" in told and told.endswith("} 1\n"), told)
        found = tool("ssikvd-ship", "--metrics", text, copies.data[0], copy)
        told = bytes_of(text).decode()
        expect(found[0] == 0 and told.endswith("} 0\n") and os.stat(copy).st_mtime > 1_000, f"it answered {found}, and wrote {told}")
        expect(f"}} {os.stat(copy).st_mtime}\n" in told and stat.S_IMODE(os.stat(text).st_mode) == 0o644, told)
        found = tool("ssikvd-ship", "--metrics", os.path.join(copy, "no", "folder"), copies.data[0], copy)
        expect(found[0] == 0 and "no metrics" in found[2], f"without the folder it answered {found}")


def links_of_ships(tally, copies):
    """Links in the copy's folder lead to a file of root."""
    for name in ("copy.lock", "copy.new", "copy.old", "copy", "text", "text.tmp"):
        if os.getuid() != 0 and name in ("copy", "text"):
            continue
        with tally.run(f"ssikvd-ship next to a link {name}"), copies.shipped(1, 1) as copy, folder() as elsewhere:
            target, link = os.path.join(elsewhere, "target"), os.path.join(os.path.dirname(copy), name)
            with open(target, "wb") as file:
                file.write(copies.bytes[1] if name == "copy" else b"of root")
            os.utime(target, (1_000, 1_000))
            before = bytes_of(target), os.stat(target).st_mtime, stat.S_IMODE(os.stat(target).st_mode), os.stat(target).st_uid
            with contextlib.suppress(FileNotFoundError):
                os.remove(link)
            os.symlink(target, link)
            os.lchown(link, *OWNER[1:])
            found = tool("ssikvd-ship", "--metrics", os.path.join(os.path.dirname(copy), "text"), copies.data[1], copy)
            expect(found[0] == (2 if name in ("copy.lock", "copy") else 0), f"it answered {found}")
            after = bytes_of(target), os.stat(target).st_mtime, stat.S_IMODE(os.stat(target).st_mode), os.stat(target).st_uid
            expect(before == after and os.listdir(elsewhere) == ["target"], f"it wrote to what the link leads to: {found}")


def itself(tally, copies):
    """A data file that has one of the copy's names: nothing is written to it, and it keeps its names."""
    for name, link in (("", False), ("", True), (".new", False), (".new", True), (".old", False), (".old", True), (".old.2", False)):
        with tally.run(f"COPY{name} is {'a second name of ' if link else ''}the data file"), folder() as place:
            copy = os.path.join(place, "copy")
            data = os.path.join(place, "data") if link else copy + name
            shutil.copy(copies.data[0], data)
            if link:
                os.link(data, copy + name)
            if name:
                shutil.copy(copies.data[1], copy)
            before = {name: (bytes_of(os.path.join(place, name)), os.stat(os.path.join(place, name)).st_ino) for name in os.listdir(place)}
            found = tool("ssikvd-ship", "--keep", "2", data, copy)
            expect(found[0] == 2 and "is the data file itself" in found[2], f"it answered {found}")
            os.remove(copy + ".lock")
            after = {name: (bytes_of(os.path.join(place, name)), os.stat(os.path.join(place, name)).st_ino) for name in os.listdir(place)}
            expect(before == after, f"it left {sorted(after)}")
    with tally.run("a name that only begins as that of the copy does"), folder() as place:
        shutil.copy(copies.data[0], os.path.join(place, "copy.data"))
        found = tool("ssikvd-ship", os.path.join(place, "copy.data"), os.path.join(place, "copy"))
        expect(found[0] == 0, f"it answered {found}")
    for is_link in (False, True):
        with tally.run(f"commits to {'a second name of ' if is_link else ''}the data file that is given as the copy"), folder() as place:
            commits_meanwhile(place, is_link)
    with tally.run("a data file that a start makes under the name of the copy"), folder() as place:
        data = os.path.join(place, "data")
        found = within(acting(lambda: shutil.copy(copies.data[0], data)), [data, data])
        expect(found[0] == 2 and "is the data file itself" in found[2] and bytes_of(data) == copies.bytes[0], f"it answered {found}")
        expect(sorted(os.listdir(place)) == ["data", "data.lock"], f"it left {sorted(os.listdir(place))}")


def acting(act):
    """The tool, which does this between its readings of the copy and of the data file."""
    ship = loaded("ssikvd-ship")
    own = ship.copy_of

    def copy_of(place):
        found = own(place)
        act()
        return found

    ship.copy_of = copy_of
    return ship


def commits_meanwhile(place, is_link):
    """The server appends while the tool is between its two readings: no acknowledged commit is lost."""
    data = os.path.join(place, "data")
    copy = os.path.join(place, "copy") if is_link else data
    fill(data, 3, 64)
    if is_link:
        os.link(data, copy)
    with Server(data) as server:
        found = within(acting(lambda: [commit(server.port, number) for number in range(3, 6)]), [data, copy])
    expect(found[0] == 2 and "is the data file itself" in found[2], f"it answered {found}")
    expect(len(log_of(data)) == 6, f"of 6 commits {len(log_of(data))} are left")


def unit(tally, copies):
    """The unit's command with its default settings, in folders of another user."""
    with open(os.path.join(DIST, "ssikvd-ship@.service"), encoding="utf-8") as file:
        text = file.read()
    settings = dict(word.split("=") for word in re.search(r"(?m)^Environment=(.*)$", text)[1].split())
    command = re.search(r"(?m)^ExecStart=(.*)$", text)[1].replace("%i", "shop")
    with tally.run("the command of ssikvd-ship@.service"), folder() as place:
        for name in ("ssikvd", "ssikvd-backups"):
            os.mkdir(os.path.join(place, name), 0o700)
        shutil.copy(copies.data[0], os.path.join(place, "ssikvd", "shop.data"))
        for name in ("", "ssikvd", "ssikvd/shop.data", "ssikvd-backups"):
            os.chown(os.path.join(place, name), *OWNER[1:])
        for name, value in settings.items():
            command = command.replace(f"${{{name}}}", value)
        words = command.replace("/run/ssikvd-metrics", place + "/no").replace("/var/lib", place).split()
        words[0] = os.path.join(DIST, words[0])
        as_user = ["setpriv", f"--reuid={OWNER[1]}", f"--regid={OWNER[2]}", "--clear-groups"] if os.getuid() == 0 else []
        reads = not as_user or tool(*as_user, "test", "-x", words[0])[0] == 0
        found = tool(*(as_user if reads else []), *words)
        expect(found[0] == 0 and "no metrics" in found[2], f"it answered {found}")
        expect(bytes_of(os.path.join(place, "ssikvd-backups", "shop.data")) == copies.bytes[0], "the copy is another log")


# Faults that are planted

WRONG = {
    "a swap that keeps nothing": ("        data.keep(BEFORE)\n", "        pass\n"),
    "a swap that is not durable": ("    data.take(more)\n    data.settle()\n", "    data.take(more)\n"),
    "a previous file that is not durable": ("    data.settle()\n    data.take(more)\n", "    data.take(more)\n"),
    "a new file that is not durable": ("        os.fsync(file)\n        look_again", "        look_again"),
    "a file with holes": ("        os.posix_fallocate(file, 0, size)",
                          "        os.ftruncate(file, size); return write_all(file, read_all(copy.file, SECTOR * copy.place, 0), 0)"),
    "a file that is written in place": ("    file = data.open(os.O_RDWR | os.O_CREAT | os.O_EXCL, more)", "    file = data.open(os.O_RDWR); data.keep(more)"),
    "an owner that isn't kept": ("        give_owner(file, data)\n", ""),
    "a rename of the previous file": ("        data.keep(BEFORE)\n", "        os.rename(data.path, data.path + BEFORE)\n"),
}


def is_reported(files, script):
    def judge():
        made = steps(files, script)
        judge_power(files, script)
        for number, name in enumerate(made, 1):
            if name in ("pwrite", "link", "rename"):
                judge_kill(files, script, number, True, False)

    return is_refused(judge)


def show_that_they_fail(tally, files):
    with open(os.path.join(DIST, "ssikvd-restore"), encoding="utf-8") as file:
        text = file.read()
    with folder() as place:
        for name in ("ssikvd-used", "ssikvd-verify", "ssikvd-restore"):
            shutil.copy(os.path.join(DIST, name), place)
        changed = os.path.join(place, "ssikvd-restore")
        with tally.run("the tool as it is"):
            expect(not is_reported(files, changed), "it is reported")
        for name, (old, new) in WRONG.items():
            with tally.run(f"{name} is reported"):
                expect(text.count(old) == 1, f"{name} can't be planted")
                with open(changed, "w", encoding="utf-8") as file:
                    file.write(text.replace(old, new))
                expect(is_reported(files, changed), f"{name} was not reported")


class Restoring(Harness):
    NAME = "restoring"
    NEEDS = (PROGRAM,)

    def test_files(self):
        tally = self.tally
        with folder() as place:
            files = Files(place)
            for part in (served, again, refusals, locks, links, kills):
                part(tally, files)
            with tally.run("a loss of power at each call"):
                print(f"  ssikvd-restore: {judge_power(files, 'ssikvd-restore')} cases of names after a loss of power", flush=True)
            show_that_they_fail(tally, files)

    def test_copies(self):
        with folder() as place:
            copies = Copies(place)
            for part in (keeping, without_room, ages, links_of_ships, itself, unit):
                part(self.tally, copies)


if __name__ == "__main__":
    run_harness()
