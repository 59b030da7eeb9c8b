"""What stands in dist/: the probe, the fill of a log, backups, compaction in one command, units and alert rules.

Each tool runs as docs/OPERATIONS.md describes. The probe sees a stopped store, too many transactions and too many connections. The fill of a log is
what `check` counts. A backup that is brought up to date under load is a prefix of the commits, and so is each image that a crash within the run may
leave. `ssikvd-compact` is killed at each of its steps, before it and after it: then a server is started, or it is run again, and all that was
acknowledged is there. Of its commands in their order, all names that a loss of power may leave are found. Units are read by `systemd-analyze`, not
started. Finally, the judges are shown scripts and backups with planted faults, and must report them.

`quick` kills at few of the steps.
"""
import contextlib
import itertools
import json
import math
import os
import random
import re
import shutil
import signal
import stat
import subprocess
import threading
import time

from ssikvd_harness.arguments import is_long, run_harness
from ssikvd_harness.cases import Harness
from ssikvd_harness.connection import Connection
from ssikvd_harness.deviations import Deviation, expect, missing
from ssikvd_harness.examples import simple_client
from ssikvd_harness.failing_calls import DEVICE, Refusals
from ssikvd_harness.frames import frame
from ssikvd_harness.log_format import SECTOR, Damaged, NotALog, log_of, map_of, read_log
from ssikvd_harness.server import Server, check, create, folder, free_port
from ssikvd_harness.settings import PATIENCE, PROGRAM
from ssikvd_harness.tools import DIST, ENVIRONMENT, SECTORS, commit, fill, loaded, operations, tool
from ssikvd_harness.trials import Recorder, Trial, write_script
from ssikvd_harness.units import allocator, judge_metrics, rules, scripts, texts, units


# The probe

def probe(port, *words):
    return tool("ssikvd-probe", *words, f"127.0.0.1:{port}")


def expect_probe(found, status, text):
    name = ("OK", "WARNING", "CRITICAL", "UNKNOWN")[status]
    expect(found[0] == status and found[1].startswith(f"SSIKVD {name}: {text}") and found[1].count("\n") == 1, f"the probe answered {found}")


@contextlib.contextmanager
def held(port, count, *requests):
    """This many connections, each of which has sent these requests and read the replies."""
    held = []
    try:
        for _ in range(count):
            held.append(Connection(port))
            for request in requests:
                held[-1].ask(frame(request))
        yield
    finally:
        for connection in held:
            connection.close()


def probes(tally):
    with folder() as place:
        data = os.path.join(place, "data")
        create(data, 64)
        with Server(data) as server:
            with tally.run("the probe of a server"):
                expect_probe(probe(server.port), 0, "transactions begin | time=")
                expect_probe(probe(server.port, "--warning", "0"), 1, "transactions begin | time=")
            with tally.run("the probe with 64 transactions open"), held(server.port, 64, "BEGIN"):
                expect_probe(probe(server.port), 1, "64 transactions are open")
            with tally.run("the probe with 128 connections open"), held(server.port, 128, "PING"):
                expect(probe(server.port)[0] == 2, "the probe does not see that no connection is taken")
        port = free_port()
        with tally.run("the probe of no server"):
            expect_probe(probe(port), 2, "Connection refused")
            expect_probe(tool("ssikvd-probe", "7777"), 3, "argument")
        with tally.run("the probe waits"):
            is_over = threading.Event()
            threading.Timer(0.3, late_server, (data, port, is_over)).start()
            found = probe(port, "--wait", "20")
            is_over.set()
            expect_probe(found, 0, "transactions begin | time=")
        with tally.run("the probe waits for a process that has ended"):
            ended = subprocess.Popen(["true"])
            ended.wait()
            found = probe(free_port(), "--wait", str(3 * PATIENCE), "--process", str(ended.pid))    # it has no more than PATIENCE
            expect(found[0] == 2, f"the probe answered {found}")
    stopped_store(tally)


def late_server(data, port, is_over):
    with Server(data, listen=f"127.0.0.1:{port}"):
        is_over.wait(2 * PATIENCE)


def stopped_store(tally):
    """A sync fails: PING is answered, and the probe says that the store has stopped."""
    with folder() as place, tally.run("the probe of a stopped store"):
        data, refusals = os.path.join(place, "data"), Refusals(place)
        create(data, 64)
        with Server(data, refusals.environment()) as server:
            refusals.of(DEVICE).fail(refusals.of(DEVICE).made + 2, error=5)
            try:
                commit(server.port, 1)
                said = "nothing"
            except simple_client.Refused as refusal:
                said = str(refusal)
            expect(said == "STORE fault", f"COMMIT was refused with {said}")
            with Connection(server.port) as client:
                expect(client.ask(frame("PING")) == b"+PONG\r\n", "PING is not answered")
            text = os.path.join(place, "text")
            expect_probe(probe(server.port, "--metrics", text), 2, "the store has stopped")
            with open(text, encoding="utf-8") as file:
                metrics = file.read()
            expect(f'ssikvd_probe_status{{address="127.0.0.1:{server.port}"}} 2\n' in metrics, f"the metrics are {metrics}")
            judge_metrics(metrics)


# The fill of a log

def fills(tally):
    used = loaded("ssikvd-used")
    with folder() as place:
        data, state, text = (os.path.join(place, name) for name in ("data", "state", "text"))
        create(data, SECTORS)
        with Server(data) as server:
            for number in range(12 if is_long() else 7):
                with tally.run(f"the fill after {number} commits"):
                    records, _, sectors, count = check(data)
                    line = f"{data}: records {records} sectors {sectors} of {count}\n"
                    for words in (["ssikvd-used", data], ["ssikvd-used", "--state", state, data]):
                        found = tool(*words)
                        expect(found == (0, line, ""), f"it printed {found}, expected {line!r}")
                for _ in range(number):
                    commit(server.port, number)
        with tally.run("the rate"):
            first, _ = used.figures(data, None, 1_000.0, None)
            with Server(data) as server:
                commit(server.port, 7)
            second, found = used.figures(data, first, 1_010.0, None)
            due = (SECTORS - second["place"] - 1) / ((second["place"] - first["place"]) / 10)
            expect(found["seconds_to_full"] == due > 0, f"{found} in place of {due}")
            expect(used.figures(data, second, 1_020.0, None)[1]["seconds_to_full"] == float("inf"), "a log that does not grow fills")
        foreign_states(tally, used, data, state)
        with tally.run("another log of the name"):
            subprocess.run([PROGRAM, "compact", "--from", data, "--to", data + "2"], check=True, capture_output=True)
            os.replace(data + "2", data)
            due = "{0}: records {1} sectors {3} of {4}\n".format(data, *check(data))
            found = tool("ssikvd-used", "--state", state, data)
            expect(found == (0, due, ""), f"it printed {found}, expected {due!r}")
        with tally.run("metrics"):
            expect(tool("ssikvd-used", "--metrics", text, "--state", state, data) == (0, "", ""), "it failed")
            metrics = open(text, encoding="utf-8").read()
            expect(f'ssikvd_log_sectors_used{{data="{data}"}} {check(data)[2]}\n' in metrics, f"the metrics are {metrics}")
            judge_metrics(metrics)
        with tally.run("a damaged log"):
            with open(data, "r+b") as file:
                file.seek(2 * SECTOR)
                file.write(b"\xff")
            found = tool("ssikvd-used", data)
            expect(found == (2, "", f"{data}: damaged record 0\n"), f"it printed {found}")
            expect(tool("ssikvd-used", "--metrics", text, data)[0] == 2, "it ended with 0")
            expect(f'ssikvd_log_damaged{{data="{data}"}} 1\n' in open(text, encoding="utf-8").read(), "the metrics do not tell the damage")


def states_of_others(own):
    """What may stand in a file of states that isn't the tool's own: other JSON, none, and its own of another place, count or time."""
    yield from ("", "{", "7", "null", "[]", '"a"', "\x00", "[" * 10_000, '{"a":' * 10_000)
    name, kept = next(iter(own.items()))
    yield from (json.dumps({name: value}) for value in (None, [], {}, 7, {"place": 1}))
    strange = (None, [], {}, "", "zz", kept["last"], False, -1, 0, 1, kept["place"] + 1, SECTORS - 1, 1 << 40, 1 << 80, 10 ** 400, 0.5, math.nan, math.inf)
    for key in kept:
        # a text as the fault is what a run may have left
        yield from (json.dumps({name: {**kept, key: value}}) for value in strange if value != kept[key] and (key, type(value)) != ("fault", str))


def foreign_states(tally, used, data, state):
    """A state that isn't the tool's own counts as none: the figures are those of the file, and its own state takes the place."""
    with tally.run("a state that isn't its own"):
        line = tool("ssikvd-used", data)[1]
        expect(tool("ssikvd-used", "--state", state, "--verify", "86400", data) == (0, line, ""), "it failed")
        with open(state, encoding="utf-8") as file:
            own = json.load(file)
        for text in states_of_others(own):
            with open(state, "w", encoding="utf-8") as file:
                file.write(text)
            _, found = used.figures(data, used.load(state).get(data), time.time(), 86_400)
            seen = f"{data}: records {found['records']} sectors {found['sectors_used']} of {found['sectors']}\n"
            expect(seen == line and found["seconds_to_full"] >= 0 and not found["damaged"], f"over the state {text[:200]!r} it finds {found}")
        found = tool("ssikvd-used", "--state", state, data)
        expect(found == (0, line, "") and used.load(state)[data]["records"] == own[data]["records"], f"it printed {found}")


# Backups

# A commit every so many seconds: as many as the file holds outlast the backups, also on a slow machine.
PAUSE = 0.02


def backups(tally):
    """Backups under load, each a prefix of the commits with all that were acknowledged before it began."""
    with folder() as place:
        data, copy = os.path.join(place, "data"), os.path.join(place, "copy")
        create(data, SECTORS)
        with Server(data) as server:
            done, is_done = [0], threading.Event()

            def work():
                while not is_done.wait(PAUSE) and done[0] < 800:
                    commit(server.port, done[0])
                    done[0] += 1

            worker = threading.Thread(target=work, daemon=True)
            worker.start()
            found = []
            for number in range(40 if is_long() else 5):
                with tally.run(f"backup {number} under load"):
                    acknowledged = done[0]
                    status, out, err = tool("ssikvd-ship", data, copy)
                    expect((status, err) == (0, "") and (", a new copy" in out) == (number == 0), f"it ended with {(status, out, err)}")
                    found.append(log_of(copy))
                    expect(len(found[-1]) >= acknowledged, f"{len(found[-1])} records, acknowledged were {acknowledged}")
                    expect(check(copy)[0] == len(found[-1]), "check counts other records")
            is_done.set()
            worker.join()
        log = log_of(data)
        with tally.run("backups are prefixes"):
            expect(all(it == log[:len(it)] for it in found) and len(found[-1]) > len(found[0]), "a backup is no prefix of the commits")
        with tally.run("a backup as of a record"):
            half = len(log) // 2
            expect(tool("ssikvd-ship", "--records", str(half), data, copy + ".half")[0] == 0, "it failed")
            expect(log_of(copy + ".half") == log[:half], "it has other records")
            found = tool("ssikvd-ship", "--records", "1", data, copy + ".half")
            expect(found[0] == 2, f"a copy with more records than asked for gave {found}")
        with tally.run("a backup of a compacted file"):
            subprocess.run([PROGRAM, "compact", "--from", data, "--to", data + "2"], check=True, capture_output=True)
            os.replace(data + "2", data)
            found = tool("ssikvd-ship", data, copy)
            expect(found[0] == 0 and found[1].endswith(", a new copy\n"), f"it answered {found}")
            expect(log_of(copy) == log_of(data) and map_of(log_of(copy)) == map_of(log), "it is another log")
            expect(len(log_of(copy + ".old")) > 0, "the previous copy is gone")
        with tally.run("the records before a damaged one"):
            shutil.copyfile(copy + ".half", copy + ".damaged")
            with loaded("ssikvd-used").Log(copy + ".damaged") as found:
                while found.records < 3:
                    found.step()
            with open(copy + ".damaged", "r+b") as file:
                file.seek((found.place + 1) * SECTOR)
                file.write(b"\xff")
            expect(tool("ssikvd-ship", copy + ".damaged", copy + ".saved")[0] == 2, "a damaged log was copied")
            expect(tool("ssikvd-ship", "--records", "3", copy + ".damaged", copy + ".saved")[0] == 0, "it failed")
            expect(log_of(copy + ".saved") == log[:3], "it has other records")
        with tally.run("a restore"):
            expect(subprocess.run(["cp", "--sparse=never", copy, data + ".back"]).returncode == 0, "cp failed")
            with Server(data + ".back") as server:
                commit(server.port, 1)
            expect(len(log_of(data + ".back")) == len(log_of(copy)) + 1, "what was put back is not served")


def judge_ship(ship, data, copy, is_new):
    """Each image of a crash within a run over this copy is a log: the previous one, or that of the data file. How many were looked at?"""
    chance, log, images = random.Random(8), log_of(data), 0
    before, place = None, 0
    if not is_new:
        with ship.Place(copy) as held:
            before, place = log_of(copy), ship.copy_of(held).place
    recorder = Recorder(b"", os.path.getsize(data), -1) if is_new else Recorder(open(copy, "rb").read(), os.path.getsize(data), place)

    def judged(call):
        def judge(*arguments):
            nonlocal images
            result = call(*arguments)
            for image in recorder.images(chance):
                images += 1
                try:
                    found = read_log(lambda at: image[SECTOR * at:SECTOR * (at + 1)], len(image) // SECTOR)[0]
                except NotALog:
                    found = None
                except Damaged as damage:
                    raise Deviation(f"a crash leaves a damaged record {damage}") from None
                expect(found in (before, log), f"a crash leaves {found and len(found)} records")
            return result

        return judge

    own = ship.os.pwrite, ship.os.fsync
    ship.os.pwrite, ship.os.fsync = judged(recorder.write), judged(recorder.sync)
    try:
        with ship.used.Log(data) as source:
            if is_new:
                with ship.Place(copy) as place:
                    ship.new_copy(source.walk(), place, ".judged")
            else:
                ship.ship(source.walk(), 0, place)
    finally:
        ship.os.pwrite, ship.os.fsync = own
        with contextlib.suppress(FileNotFoundError):
            os.remove(copy + ".judged")
    expect(not recorder.unsettled, "what it wrote last is not durable")
    expect(bytes(recorder.settled[:SECTOR * 2]) == open(data, "rb").read(2 * SECTOR), "it did not copy the log")
    return images


def crashes_of_backups(tally):
    ship = loaded("ssikvd-ship")
    with folder() as place:
        data, copy = os.path.join(place, "data"), os.path.join(place, "copy")
        fill(data, 6, 256)
        images = 0
        with tally.run("crashes of a new backup"):
            images += judge_ship(ship, data, copy, True)
        tool("ssikvd-ship", "--records", "2", data, copy)
        with tally.run("crashes of a backup"):
            images += judge_ship(ship, data, copy, False)
        with tally.run("a gate that is copied first is seen"):
            planted(ship, data, copy)
    print(f"  ssikvd-ship: {images} images of crashes", flush=True)


def planted(ship, data, copy):
    """A body of `ship` that copies the gate with what follows it."""
    own = ship.ship

    def wrong(log, target, place):
        ship.copy_sectors(log, target, place, log.place)
        ship.os.fsync(target)

    ship.ship = wrong
    try:
        judge_ship(ship, data, copy, False)
        raise SystemExit("operation: a backup that copies the gate first was not reported")
    except Deviation:
        pass
    finally:
        ship.ship = own


# What the tools print

def outputs(tally):
    """Where a tool can't print, a line says so, and the status is one that its man page has."""
    with folder() as place:
        data, copy, state = (os.path.join(place, name) for name in ("data", "copy", "state"))
        fill(data, 6, 256)
        with Server(data) as server:
            address = f"127.0.0.1:{server.port}"
            runs = {
                "ssikvd-verify": ([data], 2), "ssikvd-used": ([data], 3), "ssikvd-ship": ([data, copy], 2), "ssikvd-probe": ([address], 3),
                "ssikvd-restore": (["--data", os.path.join(place, "restored"), data], 2), "ssikvd-export": ([address], 2),
                "ssikvd-stat": (["--data", data, "--listen", address, "--interval", "0"], 2),
                "ssikvd-salvage": (["--from", "3", data, os.path.join(place, "lines")], 2)}
            for name, (words, due) in runs.items():
                with tally.run(f"{name} where the output has no room"):
                    status, _, err = tool("sh", "-c", 'exec "$@" >/dev/full', "sh", name, *words)
                    expect(status == due and err == f"{name}: standard output: No space left on device\n", f"it answered {status, err}")
            for name, words in (("ssikvd-used", [data, data + ".absent"]), ("ssikvd-probe", [f"127.0.0.1:{free_port()}"])):
                with tally.run(f"{name} of what is wrong, where the output has no room"):
                    status, _, err = tool("sh", "-c", 'exec "$@" >/dev/full', "sh", name, *words)
                    expect(status == 2 and err.endswith(f"{name}: standard output: No space left on device\n"), f"it answered {status, err}")
            os.remove(os.path.join(place, "lines"))
            for name, (words, _) in runs.items():
                with tally.run(f"{name} without an output"):
                    status, _, err = tool("sh", "-c", 'exec "$@" >&-', "sh", name, *words)
                    is_export = name == "ssikvd-export"
                    due = (2, "ssikvd-export: standard output: it is closed\n") if is_export else (0, "")
                    expect((status, err) == due, f"it answered {status, err}")
            with tally.run("a command line that the probe refuses, where the output has no room"):
                status, _, err = tool("sh", "-c", "exec ssikvd-probe >/dev/full")
                expect(status == 3 and err == "ssikvd-probe: standard output: No space left on device\n", f"it answered {status, err}")
            with tally.run("ssikvd-follow where the output has no room"):
                create(copy + ".compacted", 256)
                words = ["--state", state, "--once", data, copy + ".compacted"]
                status, _, err = tool("sh", "-c", 'exec "$@" >/dev/full', "sh", "ssikvd-follow", *words)
                expect(status == 2 and err == "ssikvd-follow: standard output: No space left on device\n", f"it answered {status, err}")
            for words in (["localhost"], ["127.0.0.1:x"], [":7777"], ["127.0.0.1:70000"]):
                with tally.run(f"ssikvd-export {words[0]}"):
                    found = tool("ssikvd-export", *words)
                    expect(found[0] == 2 and "is not ADDRESS:PORT" in found[2], f"it answered {found}")


# Compaction

FILES = {"data", "data.old", "data.new", "data.new.state", "data.new.state.tmp", "data.lock"}


def names(trial):
    place = os.path.dirname(trial.data)
    return {name for name in os.listdir(place) if name.startswith("data")}


def judge_whole(trial, owner):
    """After a run to its end: the names, the mode and the owner, the map, and a server that commits."""
    expect(names(trial) == {"data", "data.old", "data.lock"}, f"it left {sorted(names(trial))}")
    now = os.stat(trial.data)
    expect((stat.S_IMODE(now.st_mode), now.st_uid, now.st_gid) == owner, f"mode and owner are {oct(now.st_mode), now.st_uid, now.st_gid}")
    expect(trial.contents() == trial.due() == map_of(log_of(trial.data + ".old")), "a commit is lost, or one is too many")
    expect(len(log_of(trial.data)) < len(log_of(trial.data + ".old")), "the new log is as long as the old one")
    trial.commit()
    expect(trial.contents() == trial.due(), "the server writes to another file")


OWNER = (0o640, 12_345 if os.getuid() == 0 else os.getuid(), 12_346 if os.getuid() == 0 else os.getgid())


@contextlib.contextmanager
def trial_of(script, commits=30, sectors=1_024):
    """A trial of the script, with its server started on a file of so many sectors and so many commits made."""
    with folder() as place:
        trial = Trial(place, script)
        create(trial.data, sectors)
        os.chmod(trial.data, OWNER[0])
        os.chown(trial.data, *OWNER[1:])
        try:
            trial.start()
            trial.commit(commits)
            yield trial
        finally:
            trial.stop()


def judge_kill(script, step, is_after, is_rerun):
    """One kill, and what comes after it."""
    with trial_of(script) as trial:
        status, out, err, _ = trial.run(**{"after" if is_after else "before": step})
        expect(status == -signal.SIGKILL, f"it ended with {status}: {out}{err}")
        expect("data" in names(trial) <= FILES, f"a kill leaves {sorted(names(trial))}")
        expect(trial.contents() == trial.due(), "a kill leaves another map")
        if is_rerun:
            status, out, err, _ = trial.run()
            expect(status == 0, f"run again it ended with {status}: {out}{err}")
            expect(names(trial) == {"data", "data.old", "data.lock"}, f"run again it left {sorted(names(trial))}")
        else:
            trial.stop()
            trial.start()
        trial.commit()
        expect(trial.contents() == trial.due(), "a commit is lost")
        now = os.stat(trial.data)
        expect((stat.S_IMODE(now.st_mode), now.st_uid, now.st_gid) == OWNER, f"mode and owner are {oct(now.st_mode), now.st_uid, now.st_gid}")


def judge_failure(script, step):
    """A step fails: the server goes on, or is started again, with all commits."""
    with trial_of(script) as trial:
        status, out, err, _ = trial.run(fails=step)
        is_told = status != 0 or "copied in" in out    # but for the time that it took
        expect(is_told and names(trial) <= FILES - {"data.new"}, f"it ended with {status}, and left {sorted(names(trial))}: {out}{err}")
        trial.commit()
        expect(trial.contents() == trial.due(), "a commit is lost")


class Names:
    """The names of a folder, each with the file that it leads to, as commands leave them. A loss of power undoes any of the changes since
    the folder was synced, each independently. `is_settled` has the files whose content, mode and owner are durable."""

    def __init__(self):
        self.settled, self.changes, self.is_settled = {"data": "old"}, [], {"old"}

    def apply(self, line):
        words = [os.path.basename(word) for word in line.split() if not re.match(r"-(?!-(to|from))", word)]
        if words[0] == "rm":
            self.changes += [{name: None} for name in words[1:]]
        elif words[0] == "ssikvd" and "compact" in words:
            self.changes = []    # it syncs the folder once the name is made
            self.settled.update({"data.new": "new"})
            self.is_settled.add("new")
        elif words[0] in ("chown", "chmod"):
            self.is_settled.discard("new")
        elif words == ["sync", "data.new"]:
            self.is_settled.add("new")
        elif words[0] == "ln":
            self.changes.append({words[2]: self.now()[words[1]]})
        elif words[0] == "mv":
            self.changes.append({words[2]: self.now()[words[1]], words[1]: None})
        elif words[0] == "sync" and words[1] not in FILES:
            self.settled, self.changes = self.now(), []

    def now(self, kept=None):
        found = dict(self.settled)
        for change in self.changes if kept is None else kept:
            found.update(change)
        return {name: file for name, file in found.items() if file}

    def after_power_cut(self):
        for count in range(len(self.changes) + 1):
            for kept in itertools.combinations(self.changes, count):
                yield self.now(kept)


def judge_power(lines):
    """What the name of the data file leads to after a loss of power at each step: to a whole file, and once the server is started to the
    new one. How many cases are there?"""
    folder_names, cases = Names(), 0
    for line in lines:
        is_start = line.startswith("sh ") and "starts" in line
        for found in folder_names.after_power_cut():
            cases += 1
            expect(found.get("data") in folder_names.is_settled, f"before `{line}` a loss of power leaves {found}")
            expect(not is_start or found["data"] == "new", f"the server is started, and a loss of power leaves {found}")
        folder_names.apply(line)
    expect(folder_names.now().get("data") == "new", f"at the end the names are {folder_names.now()}")
    return cases


def compactions(tally):
    script = os.path.join(DIST, "ssikvd-compact")
    with tally.run("ssikvd-compact"), trial_of(script) as trial:
        lines = whole(trial)
    with tally.run("ssikvd-compact makes room"), trial_of(script, 60) as trial:
        found = trial.run(words=["--sectors", "1XiB"])
        expect(found[0] == 1 and "usage: " in found[2] and check(trial.data)[3] != 2_048, f"a size of 1XiB gave {found[:3]}")
        for seconds in ("abc", "1s", "", ".", "1.2.3", "-1"):
            found = trial.run(words=["--wait", seconds])
            expect(found[0] == 1 and found[2].startswith("usage: "), f"--wait {seconds} gave {found[:3]}")
        found = trial.run(words=["--sectors", "1MiB"])
        expect(found[0] == 0 and check(trial.data)[3] == 2_048, f"it ended with {found[:3]}")
    with tally.run("ssikvd-compact on a full disk, whose figure df pads"), folder() as place:
        data, commands = os.path.join(place, "data"), os.path.join(place, "commands")
        create(data, 64)
        os.mkdir(commands)
        write_script(os.path.join(commands, "df"), "#!/bin/sh\necho 'Avail'\necho '    0'\n")
        found = tool("ssikvd-compact", "--stop", "true", "--start", "true", data, environment={**ENVIRONMENT, "PATH": f"{commands}:{ENVIRONMENT['PATH']}"})
        expect(found[0] == 2 and "where 0 are free" in found[2], f"it answered {found}")
    with tally.run("ssikvd-compact of a file whose map fills it"):
        growing(script)
    with tally.run("ssikvd-compact of a full file whose map needs more"):
        full(script)
    with tally.run("the lock"), trial_of(script) as trial:
        lock(trial)
    with tally.run("a loss of power at each step of ssikvd-compact"):
        cases = judge_power(lines)
        print(f"  ssikvd-compact: {len(lines)} steps, {cases} cases of names after a loss of power", flush=True)
    for step, line in enumerate(lines, 1):
        broken_off(tally, script, step, line)
    show_that_they_fail(tally, script)


def whole(trial):
    """Runs to the end, and ones that end at once since there is nothing to do or too little room. Returns the steps of the first."""
    status, out, err, lines = trial.run()
    expect(status == 0 and not err and "sectors are used; copied in" in out, f"it ended with {status}: {out}{err}")
    judge_whole(trial, OWNER)
    found = trial.run(words=["--above", "90"])
    expect(found[0] == 0 and "nothing to do" in found[1], f"--above 90 answered {found[:3]}")
    trial.commit()
    found = trial.run(words=["--sectors", "2"])
    expect(found[0] == 3 and "log full" in found[2], f"a file that is too small gave {found[:3]}")
    expect(names(trial) == {"data", "data.lock"}, f"a step that failed left {sorted(names(trial))}")
    trial.commit()
    expect(trial.contents() == trial.due(), "a commit is lost")
    return lines


def lock(trial):
    """The lock is held by the server, so no second one starts, and a server that isn't stopped isn't compacted. A kill releases it."""
    takes = "flock", "-n", "-F", "-E", "75", trial.data + ".lock", "true"
    expect(tool(*takes)[0] == 75, "a second server would start")
    found = trial.run(words=["--stop", "true", "--wait", "0.1"])
    expect(found[0] == 75 and "another process holds" in found[2], f"it answered {found[:3]}")
    expect(names(trial) == {"data", "data.lock"} and trial.contents() == trial.due(), f"it left {sorted(names(trial))}")
    trial.stop()
    expect(tool(*takes)[0] == 0, "the lock stays after a kill")


def broken_off(tally, script, step, line):
    """Kills before this step and after it, and a failure of it: in `quick` some of these, at the swap alone."""
    command = os.path.basename(line.split()[0])
    kills = itertools.product((False, True), (False, True)) if is_long() else [(False, command == "mv")] if command in ("ln", "mv") else []
    for is_after, is_rerun in kills:
        with tally.run(f"a kill {'after' if is_after else 'before'} `{line}`, then {'it is run again' if is_rerun else 'a start'}"):
            judge_kill(script, step, is_after, is_rerun)
    if "starts" not in line and (is_long() or command in ("chown", "mv")):
        with tally.run(f"`{line}` fails"):
            judge_failure(script, step)


def growing(script):
    """Where the map takes more than half of the new file, the file grows to twice the map."""
    with trial_of(script, 0, 64) as trial:
        simple_client.Client(trial.port).transact(lambda store: store.ask("SET", "large", "v" * 16_000))
        due = trial.contents()
        status, out, err, _ = trial.run()
        _, _, used, count = check(trial.data)
        expect(status == 0 and count >= 2 * used > 64, f"{used} of {count} sectors are used; it said {out}{err}")
        expect(trial.contents() == due, "a commit is lost")


def full(script):
    """Where the map of a full file doesn't fit into one of that size, since other keys share a record, the file grows as well."""
    with trial_of(script, 0, 9) as trial:
        store = simple_client.Client(trial.port)
        for first, size, longest in ((0, 4, 0), (1, 12, 127)):    # two records that fill their sectors, of 64 keys each
            pairs = [("%04d" % key, "v" * (size + 16 * (key == longest))) for key in range(first, 128, 2)]
            store.transact(lambda store, pairs=pairs: [store.ask("SET", *pair) for pair in pairs])
        due = trial.contents()
        expect(check(trial.data)[1:] == (128, 9, 9), f"the file isn't full: {check(trial.data)}")
        status, out, err, _ = trial.run()
        _, keys, used, count = check(trial.data)
        expect(status == 0 and keys == 128 and used == 10 and count >= 18, f"{used} of {count} sectors are used; it said {status} {out}{err}")
        expect(trial.contents() == due, "a commit is lost")


def show_that_they_fail(tally, script):
    """Scripts with a planted fault, which must be reported."""
    text = open(script, encoding="utf-8").read()
    swap = '    ln "$data" "$data.old"\n    sync "$folder"\n    mv -fT "$data.new" "$data"\n'
    expect(swap in text, "the swap is written in another way")
    wrong = {
        "a swap by two renames": (swap, '    mv "$data" "$data.old"\n    mv -fT "$data.new" "$data"\n'),
        "a swap that is not synced": ('mv -fT "$data.new" "$data"\n    sync "$folder"\n', 'mv -fT "$data.new" "$data"\n'),
        "a copy that keeps no mode": ('chmod --reference="$data" "$data.new"\n', ""),
    }
    with folder() as place:
        for name, (old, new) in wrong.items():
            with tally.run(f"{name} is reported"):
                expect(old in text, f"{name} can't be planted")
                changed = os.path.join(place, "ssikvd-compact")
                write_script(changed, text.replace(old, new))
                expect(is_reported(changed), f"{name} was not reported")


def is_reported(script):
    """Is there a deviation in a run to the end, in the names after a loss of power, or in a kill at the swap?"""
    try:
        with trial_of(script) as trial:
            status, out, err, lines = trial.run()
            expect(status == 0, f"it ended with {status}: {out}{err}")
            judge_whole(trial, OWNER)
        judge_power(lines)
    except Deviation:
        return True
    return False


# Before a start

def pages_of(data):
    """How many pages of a file, once it was read and synced, are in memory. None where nothing tells."""
    with open(data, "rb") as file:
        os.fsync(file.fileno())
    found = tool("fincore", "-n", "-o", "PAGES", data) if shutil.which("fincore") else (1, "", "")
    return int(found[1]) if found[0] == 0 else None


def before_a_start(tally):
    with folder() as place:
        data = os.path.join(place, "data")
        with tally.run("the first start"):
            found = tool("ssikvd-before", data, "64")
            expect(found == (0, "", "") and check(data)[3] == 64, f"it answered {found}")
            expect(stat.S_IMODE(os.stat(data).st_mode) == 0o600 and os.listdir(place) == ["data"], f"it left {os.listdir(place)}")
        with tally.run("clean pages are dropped"):
            check(data)    # which reads it
            pages = pages_of(data)
            found = tool("ssikvd-before", data, "64")
            expect(found == (0, "", ""), f"it answered {found}")
            if pages is None:
                missing("how many pages stay in memory", "fincore")
            else:
                expect(pages > 0 == pages_of(data), f"of {pages} pages {pages_of(data)} stay in memory")
        with tally.run("a data file that is lost"):
            os.rename(data, data + ".lost")
            open(data + ".lock", "w", encoding="ascii").close()
            found = tool("ssikvd-before", data, "64")
            expect(found[0] == 1 and "missing and was there before" in found[2] and not os.path.exists(data), f"it answered {found}")
            os.remove(data + ".lock")
        with tally.run("a data file that is lost behind a link, as on a disk that isn't mounted"):
            link, there = os.path.join(place, "link"), os.path.join(place, "there")
            os.mkdir(there)
            os.symlink(os.path.join(there, "data"), link)
            open(link + ".lock", "w", encoding="ascii").close()
            found = tool("ssikvd-before", link, "64")
            expect(found[0] == 1 and "missing and was there before" in found[2] and not os.listdir(there), f"it answered {found}")
        with tally.run("a size in the place of a number of sectors"):
            for words, due in ((["32KiB"], 64), (["1MiB"], 2_048), (["1.2KiB"], 3), (["1XiB"], None), (["MiB"], None), ([], None), (["1MiB", "2MiB"], None)):
                found = tool("ssikvd-before", data, *words)
                expect((found[0] == 0) == os.path.exists(data) == (due is not None), f"{words} was answered {found}")
                if due:
                    expect(check(data)[3] == due, f"{words} made {check(data)[3]} sectors")
                    os.remove(data)
        sections(tally, place)
        with tally.run("what a killed create left"):
            with open(data + ".new", "wb") as file:
                file.write(bytes(100))
            found = tool("ssikvd-before", data, "64")
            expect(found == (0, "", "") and check(data)[3] == 64, f"it answered {found}")


def sections(tally, place):
    """What keeps a file from being served is reported with the section of docs/OPERATIONS.md that says what to do. A stand-in finds it."""
    data, stand_in = os.path.join(place, "shop.data"), os.path.join(place, "tools")
    os.mkdir(stand_in)
    create(data, 64)
    for said, status, due in (
        ("closed gate of record 3", 2, "After damaged record"), ("damaged record 3", 2, "After damaged record"),
        ("the cache differs from the device", 2, "After store stopped"), ("can't be read past the cache", 3, "After store stopped"),
        ("not a log", 2, "Why a start fails"), ("Permission denied", 2, "Why a start fails"),
    ):
        with tally.run(f"the section on: {said}"):
            write_script(os.path.join(stand_in, "ssikvd-verify"), f"#!/bin/sh\necho \"{data}: {said}\" >&2\nexit {status}\n")
            found = tool("ssikvd-before", data, "64", environment={**ENVIRONMENT, "PATH": f"{stand_in}:{ENVIRONMENT['PATH']}"})
            expect(found[:2] == (status, "") and found[2].startswith(f"{data}: {said}\n"), f"it answered {found}")
            expect(re.findall(r'"(.*)"', found[2]) == [due], f"it names another section than {due}: {found[2]}")
            expect(f"\n### {due}\n" in operations().replace("`", ""), f"docs/OPERATIONS.md has no section {due}")
    os.remove(data)


# Process 1

def ends_as_process_1(data, *before):
    """Does SIGTERM end a server that is process 1 of a container, or the child of one that is? None where no container can be made."""
    words = ["unshare", "--pid", "--fork", "--kill-child", *before, PROGRAM, "serve", "--data", data, "--listen", "127.0.0.1:0"]
    process = subprocess.Popen(words, stdin=subprocess.DEVNULL, stdout=subprocess.PIPE, stderr=subprocess.PIPE)
    try:
        line = process.stdout.readline()
        if not line:
            return None
        with open(f"/proc/{process.pid}/task/{process.pid}/children", encoding="ascii") as file:
            first = int(file.read())
        os.kill(first, signal.SIGTERM)
        with contextlib.suppress(subprocess.TimeoutExpired):
            process.wait(1.0)
        return process.poll() is not None or probe(int(line.rsplit(b":", 1)[1]))[0] != 0
    finally:
        process.kill()
        process.communicate()


def process_1(tally):
    with folder() as place, tally.run("process 1"):
        data = os.path.join(place, "data")
        create(data, 64)
        found = ends_as_process_1(data)
        if found is None:
            missing("a server as process 1", "the right to make a namespace")
            return
        expect(not found, "SIGTERM ends a server that is process 1")
        if shutil.which("tini"):
            expect(ends_as_process_1(data, "tini", "--"), "SIGTERM to tini does not end the server")
        else:
            missing("a server below tini", "tini")


class Operation(Harness):
    NAME = "operation"
    PARTS = (probes, fills, backups, crashes_of_backups, outputs, before_a_start, compactions, process_1, units, allocator, rules, scripts, texts)


if __name__ == "__main__":
    run_harness()
