"""Compaction while the server runs: a copy that follows its data file, `ssikvd-follow`, and how long `ssikvd-compact` stops a server.

Writes and deletions come between any two steps: before the copy is made, and between each two runs of the tool. The copy then has the map of the data
file, and the program reads it. Of what is written again and again only the last write of each key is appended. A copy or a data file that isn't the
noted one, a damaged record, a closed gate and a full copy are refused, and nothing is changed. Each image that a crash within a run may leave is a log
of so many records. A tool that is killed is run again.
Clients write while `ssikvd-compact` runs, none of their commits is lost, and how long each of them wasn't served is printed. Finally, the judges are
shown tools with a planted fault.
"""
import contextlib
import json
import os
import random
import shutil
import subprocess
import threading
import time

from ssikvd_harness.arguments import is_long, run_harness
from ssikvd_harness.cases import Harness
from ssikvd_harness.deviations import Deviation, expect, is_refused, wait_for
from ssikvd_harness.examples import simple_client
from ssikvd_harness.frames import frame
from ssikvd_harness.log_format import SECTOR, Damaged, NotALog, log_of, map_of, read_log
from ssikvd_harness.server import Server, check, create, folder
from ssikvd_harness.settings import PATIENCE, PROGRAM, bytes_of, text_of
from ssikvd_harness.tools import DIST, ENVIRONMENT, in_memory, loaded, tool
from ssikvd_harness.trials import Recorder, Trial, write_script

SECTORS = 4_096


class Pair:
    """A served data file, a copy that follows it, and the state of the tool."""

    def __init__(self, place, chance):
        self.data, self.new, self.state, self.chance = (*(os.path.join(place, name) for name in ("data", "new", "state")), chance)
        create(self.data, SECTORS)

    def commit(self, port, count):
        """This many transactions that write and delete some of 40 keys."""
        store = simple_client.Client(port)
        for _ in range(count):
            keys = sorted(self.chance.sample(range(40), self.chance.randint(1, 6)))
            store.transact(lambda store: [self._write(store, b"%02d" % key) for key in keys])
        store.close()

    def _write(self, store, key):
        if self.chance.random() < 0.3:
            store.ask("DEL", key)
        else:
            store.ask("SET", key, self.chance.randbytes(self.chance.choice((0, 1, 400, 424, 425, 3_000))))

    def follow(self, *words, script="ssikvd-follow"):
        return tool(script, "--state", self.state, *words)

    def copy_by_command(self, port, before, between, behind, script="ssikvd-follow"):
        """Notes a place and copies by `ssikvd compact`, with this many commits before, between and after these."""
        self.commit(port, before)
        expect(self.follow(self.data, script=script)[0] == 0, "no place could be noted")
        self.commit(port, between)
        subprocess.run([PROGRAM, "compact", "--from", self.data, "--to", self.new], check=True, capture_output=True)
        self.commit(port, behind)

    def copy(self, port, before, behind=0, script="ssikvd-follow"):
        """Makes a copy by the tool alone, with this many commits before and after that."""
        self.commit(port, before)
        create(self.new, SECTORS)
        found = self.follow("--once", self.data, self.new, script=script)
        expect(found[0] == 0, f"it ended with {found}")
        self.commit(port, behind)


@contextlib.contextmanager
def served_pair(chance):
    """A pair in a folder of its own, and the port at which its data file is served."""
    with folder() as place:
        pair = Pair(place, chance)
        with Server(pair.data) as server:
            yield pair, server.port


def judge_copy(pair, found):
    """The tool ended well, and the copy has the map of the data file."""
    expect(found[0] == 0, f"it ended with {found}")
    try:
        copied = map_of(log_of(pair.new))
    except Damaged as damage:
        raise Deviation(f"record {damage} of the copy is damaged") from None
    expect(copied == map_of(log_of(pair.data)), "the copy has another map")
    records, _, sectors, count = check(pair.new)
    expect(found[1] == f"records {records} sectors {sectors} of {count}\n", f"it printed {found[1]!r}, check says {records}, {sectors}, {count}")


def follow_through(pair, port, script="ssikvd-follow", most=12, by_command=False):
    """Commits between any two steps. Returns what the last run of the tool answered."""
    counts = [pair.chance.choice((0, 1, pair.chance.randint(2, most))) for _ in range(5)]
    if by_command:
        pair.copy_by_command(port, *counts[:3], script)
    else:
        pair.copy(port, *counts[:2], script)
    found = pair.follow(pair.data, pair.new, script=script)
    expect(found[0] == 0, f"it ended with {found}")
    pair.commit(port, counts[3])
    pair.follow("--once", pair.data, pair.new, script=script)
    pair.commit(port, counts[4])
    return pair.follow("--once", pair.data, pair.new, script=script)


def follows(tally):
    chance = random.Random(58)
    for number in range(60 if is_long() else 6):
        with tally.run(f"commits between any two steps, {number}"), served_pair(chance) as (pair, port):
            judge_copy(pair, follow_through(pair, port, by_command=number % 2 == 0))
    with tally.run("many records between two steps"), served_pair(chance) as (pair, port):
        judge_copy(pair, follow_through(pair, port, most=400))
    with tally.run("more than is held at once"), served_pair(chance) as (pair, port), folder() as place:
        script = planted(place, "ssikvd-follow", *FEW_HELD)
        copy_neighbours(place)
        judge_copy(pair, follow_through(pair, port, script, most=100))
    with tally.run("an empty copy gets all at once"), folder() as place:
        judge_first(place, *FEW_HELD)
    with tally.run("the last write of each key alone"), served_pair(chance) as (pair, port):
        pair.copy(port, 10)
        before = check(pair.new)[0]
        pair.commit(port, 100)
        judge_copy(pair, pair.follow("--once", pair.data, pair.new))
        expect(check(pair.new)[0] == before + 1, f"of 40 keys it appended {check(pair.new)[0] - before} records")


def copy_neighbours(place):
    """Copies the tools that `ssikvd-follow` looks for in its own folder."""
    for name in ("ssikvd-used", "ssikvd-verify"):
        shutil.copy(os.path.join(DIST, name), place)


def judge_first(place, right, wrong):
    """However few bytes are held later, a first run appends each key once, with this text of the tool in the place of another."""
    script = planted(place, "ssikvd-follow", right, wrong)
    copy_neighbours(place)
    with served_pair(random.Random(2)) as (pair, port):
        pair.copy(port, 100, script=script)
        expect(check(pair.new)[0] == 1, f"40 keys are in {check(pair.new)[0]} records")


def refusals(tally):
    """What isn't the noted file is refused, and nothing is changed."""
    with folder() as place:
        pair = Pair(place, random.Random(5))
        with Server(pair.data) as server:
            pair.copy(server.port, 10)
            pair.follow(pair.data, pair.new)
            pair.commit(server.port, 5)
        kept = {name: bytes_of(getattr(pair, name)) for name in ("data", "new", "state")}

        def refused(what, status, text, change):
            with tally.run(what):
                change()
                before = bytes_of(pair.new)
                found = pair.follow("--once", pair.data, pair.new)
                expect(found[0] == status and text in found[2] and not found[1], f"it answered {found}")
                expect(bytes_of(pair.new)[:2 * SECTOR] == before[:2 * SECTOR] and _reads(pair.new) == _reads_of(before), "the copy was changed")
                for name, content in kept.items():
                    _put(getattr(pair, name), content)

        another = "another log than the one that was noted"
        refused("a data file that was compacted", 2, another, lambda: _compacted(pair.data))
        refused("a data file with a damaged record", 2, "damaged record", lambda: _damage(pair.data))
        refused("a data file with a closed gate", 2, "closed gate of record", lambda: _close(pair.data))
        refused("another copy", 2, another, lambda: _compacted(pair.data, pair.new))
        refused("a copy that goes on behind the place", 2, another, lambda: _put(pair.state, _older(kept["state"])))
        refused("a copy that is no log", 2, "not a log", lambda: _put(pair.new, bytes(len(kept["new"]))))
        refused("a copy that is full", 3, "log full", lambda: os.truncate(pair.new, SECTOR * (json.loads(kept["state"])["new"]["place"] + 3)))
        refused("a state that is none", 2, "", lambda: _put(pair.state, b"{}"))
        with tally.run("none of these changed what follows"):
            judge_copy(pair, pair.follow("--once", pair.data, pair.new))
    for what in ("state", "new"):
        with tally.run(f"no room for the {what}"), folder() as place:
            without_room(Pair(place, random.Random(7)), what)
    for is_link in (False, True):
        with tally.run(f"{'a second name of ' if is_link else ''}the data file as its own copy"), folder() as place:
            refuse_itself(Pair(place, random.Random(6)), is_link)


def without_room(pair, what):
    """The file that can't be written is named, and not the data file."""
    with Server(pair.data) as server:
        pair.copy(server.port, 3, 3)
    words = ["--once", pair.data, *([pair.new] if what == "new" else [])]
    found = tool("sh", "-c", "ulimit -f 0; exec ssikvd-follow \"$@\"", "sh", "--state", pair.state, *words)
    expect(found[0] == 2 and found[2] == f"ssikvd-follow: {getattr(pair, what)}: File too large\n", f"it answered {found}")


def refuse_itself(pair, is_link):
    """Nothing is appended to the data file, whose server appends at the same place."""
    new = pair.data
    if is_link:
        new = pair.new
        os.link(pair.data, new)
    with Server(pair.data) as server:
        pair.commit(server.port, 3)
        expect(pair.follow(pair.data)[0] == 0, "no place was noted")
        pair.commit(server.port, 3)
        before = bytes_of(pair.data)
        found = pair.follow("--once", pair.data, new)
        expect(found[0] == 2 and "is the data file itself" in found[2], f"it answered {found}")
        expect(bytes_of(pair.data) == before, "the data file was changed")


def _put(name, content):
    with open(name, "wb") as file:
        file.write(content)


def _compacted(name, to=None):
    subprocess.run([PROGRAM, "compact", "--from", name, "--to", name + ".other"], check=True, capture_output=True)
    os.replace(name + ".other", to or name)


def _places(name):
    """The sectors of the gates of a log."""
    with loaded("ssikvd-used").Log(name) as log:
        places = [log.place]
        while log.step():
            places.append(log.place)
    return places


def _close(name):
    """Closes the gate of the last record but one."""
    with open(name, "r+b") as file:
        file.seek(SECTOR * _places(name)[-3])
        file.write(b"\0")


def _damage(name):
    """Turns over a byte of the last record but one."""
    with open(name, "r+b") as file:
        file.seek(SECTOR * (_places(name)[-3] + 1) + 60)
        byte = file.read(1)
        file.seek(-1, 1)
        file.write(bytes([byte[0] ^ 1]))


def _older(state):
    """A state whose place in the copy is that of its first record."""
    found = json.loads(state)
    found["new"] = {"place": 1, "records": 0, "last": 0, "digest": "0" * 64}
    return json.dumps(found).encode()


def _reads_of(image):
    try:
        return len(read_log(lambda at: image[SECTOR * at:SECTOR * (at + 1)], len(image) // SECTOR)[0])
    except NotALog:
        return None


def _reads(name):
    return _reads_of(bytes_of(name))


# Crashes and kills

def crashes(tally):
    """Each image that a crash within a run may leave has the records from before the run, or those from after it."""
    tool_module, chance = loaded("ssikvd-follow"), random.Random(3)
    with folder() as place, tally.run("crashes of a run"):
        pair = Pair(place, chance)
        with Server(pair.data) as server:
            pair.copy(server.port, 4)
            pair.follow(pair.data, pair.new)
            pair.commit(server.port, 5)
        tool_module.OF_RECORD = 4    # so that it appends several records
        print(f"  ssikvd-follow: {judge_crashes(tool_module, pair, chance)} images of crashes", flush=True)


def judge_crashes(tool_module, pair, chance):
    before, images = log_of(pair.new), 0
    appended = -(-len({key for writes in log_of(pair.data)[-5:] for key, _ in writes}) // 4)
    recorder = Recorder(bytes_of(pair.new), os.path.getsize(pair.new), tool_module.read_state(pair.state)["new"]["place"])
    own = tool_module.os.pwrite, tool_module.os.fsync

    def judged(call, real):
        def judge(*arguments):
            nonlocal images
            real(*arguments)
            result = call(*arguments)
            for image in recorder.images(chance):
                images += 1
                try:
                    found = read_log(lambda at: image[SECTOR * at:SECTOR * (at + 1)], len(image) // SECTOR)[0]
                except Damaged as damage:
                    raise Deviation(f"a crash leaves a damaged record {damage}") from None
                expect(len(found) in (len(before), len(before) + appended), f"a crash leaves {len(found)} records")
            return result

        return judge

    tool_module.os.pwrite, tool_module.os.fsync = judged(recorder.write, own[0]), judged(recorder.sync, own[1])
    try:
        tool_module.follow(pair.data, pair.new, tool_module.read_state(pair.state))
    finally:
        tool_module.os.pwrite, tool_module.os.fsync = own
    expect(not recorder.unsettled, "what it wrote last is not durable")
    return images


def kills(tally):
    """A run that is killed, at any moment: the next one either goes on, or refuses. Two of three times it is the first run, which makes the copy, or
    follows one that `ssikvd compact` has made."""
    chance = random.Random(9)
    for number in range(40 if is_long() else 4):
        with tally.run(f"a kill, {number}"), served_pair(chance) as (pair, port):
            if number % 3 == 1:
                pair.commit(port, 65)
                create(pair.new, SECTORS)
            elif number % 3 == 2:
                pair.copy_by_command(port, 5, 0, 60)
            else:
                pair.copy(port, 5, behind=60)
            words = [os.path.join(DIST, "ssikvd-follow"), "--state", pair.state, pair.data, pair.new]
            process = subprocess.Popen(words, stdout=subprocess.DEVNULL, stderr=subprocess.DEVNULL)
            time.sleep(chance.uniform(0.03, 0.15))
            process.kill()
            process.wait()
            pair.commit(port, 5)
            found = pair.follow("--once", pair.data, pair.new)
            if found[0] != 2:
                judge_copy(pair, found)
            else:
                expect("another log" in found[2] or f"{pair.new}: closed gate" in found[2], f"it answered {found}")


# The whole of it

class Returning(threading.Thread):
    """A client that does one thing again and again, and comes again where its connection is lost."""

    def __init__(self, port, is_over, pause):
        super().__init__(daemon=True)
        self.port, self.is_over, self.pause = port, is_over, pause

    def run(self):
        while not self.is_over.is_set():
            try:
                store = simple_client.Client(self.port, timeout=PATIENCE)
                while not self.is_over.is_set():
                    self.once(store)
                    time.sleep(self.pause)
            except (OSError, simple_client.Lost):
                time.sleep(0.002)


class Writer(Returning):
    """One that writes one key after the other. `acknowledged` has the keys whose COMMIT was answered."""

    def __init__(self, port, number, is_over, pause):
        super().__init__(port, is_over, pause)
        self.number, self.count, self.acknowledged = number, 0, []

    def once(self, store):
        self.count += 1
        key = b"%d %06d" % (self.number, self.count)
        store.transact(lambda store: store.ask("SET", key, "1"))
        self.acknowledged.append(key)


@contextlib.contextmanager
def writers(port, pause=0.0, first=0):
    """Four such clients, the first of which has this number."""
    is_over = threading.Event()
    found = [Writer(port, first + number, is_over, pause) for number in range(4)]
    for writer in found:
        writer.start()
    try:
        yield found
    finally:
        is_over.set()
        for writer in found:
            writer.join(PATIENCE)


class Watcher(Returning):
    """One that asks as fast as it is answered: how long it wasn't served at most, in seconds."""

    def __init__(self, port):
        super().__init__(port, threading.Event(), 0.001)
        self.longest, self.last = 0.0, 0.0

    def once(self, store):
        store.ask("PING")
        now = time.monotonic()
        self.longest, self.last = max(self.longest, now - self.last), now

    def __enter__(self):
        self.last = time.monotonic()
        self.start()
        return self

    def __exit__(self, *_):
        self.is_over.set()
        self.join(PATIENCE)


def beside_a_load(tally):
    """Clients write while the file is compacted, in each of the two ways: nothing is lost, and the copy is used."""
    with tally.run("ssikvd-compact while clients write"), in_memory() as place:
        print(f"  not served for {judge_load(place, 'ssikvd-compact'):.2f} s at most", flush=True)
    with tally.run("the same where ssikvd-follow makes the copy"), in_memory() as place:
        copy_tools(place)
        print(f"  not served for {judge_load(place, planted(place, 'ssikvd-compact', *BY_FOLLOWER)):.2f} s at most", flush=True)


def judge_load(place, script):
    trial = Trial(place, os.path.join(DIST, script) if os.sep not in script else script)
    environment = {**ENVIRONMENT, "PATH": place + ":" + ENVIRONMENT["PATH"]}    # the place of tools with a fault
    create(trial.data, 262_144)    # at this rate it isn't full in a minute, be the machine as busy as it may
    trial.start()
    try:
        fill(trial.port, 20_000 if is_long() else 2_000)
        with writers(trial.port, 0.002) as load, Watcher(trial.port) as watcher:
            for _ in range(5 if is_long() else 2):
                wait_for(lambda before=count_of(load): count_of(load) > before + 50, "clients aren't served")
                words = [trial.script, "--stop", trial.bin + "/stops", "--start", trial.bin + "/starts", trial.data]
                status, out, err = tool(*words, environment=environment, seconds=6 * PATIENCE)
                expect(status == 0 and "copied while the server ran" in out and not err, f"it ended with {status}: {out}{err}")
        trial.stop()
        judge_kept(load, map_of(log_of(trial.data)))
        return watcher.longest
    finally:
        trial.stop()


def judge_kept(load, found):
    """Each commit that was acknowledged is in the map."""
    lost = [key for writer in load for key in writer.acknowledged if key not in found]
    expect(not lost, f"of {count_of(load)} commits {len(lost)} are lost, as {lost[:2]}")


def count_of(load):
    return sum(len(writer.acknowledged) for writer in load)


def fill(port, keys):
    """This many keys, 64 in a transaction."""
    store = simple_client.Client(port)
    for first in range(0, keys, 64):
        requests = [frame("BEGIN"), *(frame("SET", b"%09d" % key, b"v" * 100) for key in range(first, min(first + 64, keys))), frame("COMMIT")]
        store.socket.sendall(b"".join(requests))
        for _ in requests:
            store.replies.readline()
    store.close()


# Tools with a fault

FEW_HELD = ("MOST, OF_EACH = 1 << 28, 200", "MOST, OF_EACH, verify.PIECE = 1 << 12, 200, 1 << 15")
WRONG = {
    "a record that is left out": ("            writes.add(piece, payloads)\n", "            writes.add(piece, payloads[:3])\n"),
    "a first write": ("                last[key] = value\n", "                last.setdefault(key, value)\n"),
    "a deletion that is left out": ("        keys = sorted(last)\n", "        keys = sorted(key for key in last if last[key] is not None)\n"),
    "an index that isn't its own": ("len(payload), log.records, digest)", "len(payload), log.records + 1, digest)"),
    "a digest without those before it": ("sha256(log.digest + log.records", "sha256(log.records"),
}
OTHER_BYTES = ("write(self.file, content[closed:], SECTOR", 'write(self.file, content[closed:-1] + b"\\1", SECTOR')
FEW_AT_FIRST = (
    'writes, most = Writes(), MOST if found["new"]["records"] else math.inf', "writes, most, verify.PIECE = Writes(), 1 << 12, 1 << 15")
BY_FOLLOWER = ("if ends_in_time; then copy=copy_by_command; else copy=copy_by_follower; fi", "copy=copy_by_follower")
NO_CATCH_UP = '[ -e "$data.new" ] || return 1\n    line=$(ssikvd-follow --once --state "$data.new.state" "$data" "$data.new")'
WRONG_COMPACTIONS = {
    "a copy that is taken as it is": ("ssikvd-compact", NO_CATCH_UP, NO_CATCH_UP.replace(
        'ssikvd-follow --once --state "$data.new.state" "$data"', "ssikvd-used")),
    "a place that is noted too late": ("ssikvd-follow", "        source.look_behind()\n", "        source.walk()\n"),
}


def wrong_tools(tally):
    for name, texts in WRONG.items():
        with tally.run(f"{name} is reported"), folder() as place:
            script = planted(place, "ssikvd-follow", *texts)
            copy_neighbours(place)
            expect(any(is_refused(judge_wrong, seed, script) for seed in range(4)), f"{name} was not reported")
    with tally.run("other bytes than were written are found by the tool itself"), folder() as place:
        script = planted(place, "ssikvd-follow", *OTHER_BYTES)
        copy_neighbours(place)
        with served_pair(random.Random(1)) as (pair, port):
            pair.copy(port, 3, behind=3)
            found = pair.follow(pair.data, pair.new, script=script)
            expect(found[0] == 2 and "what was appended isn't there" in found[2], f"it ended with {found}")
    with tally.run("a first run that holds few writes is reported"), folder() as place:
        expect(is_refused(judge_first, place, *FEW_AT_FIRST), "it was not reported")
    for name, texts in WRONG_COMPACTIONS.items():
        with tally.run(f"{name} is reported"), in_memory() as place:
            copy_tools(place)
            planted(place, *texts)
            expect(is_refused(judge_load, place, os.path.join(place, "ssikvd-compact")), f"{name} was not reported")


def copy_tools(place):
    for name in ("ssikvd-compact", "ssikvd-follow", "ssikvd-used", "ssikvd-verify"):
        shutil.copy(os.path.join(DIST, name), place)


def planted(place, tool_name, right, wrong):
    """The tool in this folder, with one text in the place of another."""
    text, script = text_of(os.path.join("dist", tool_name)), os.path.join(place, tool_name)
    expect(text.count(right) == 1, f"{right!r} stands {text.count(right)} times in {tool_name}")
    write_script(script, text.replace(right, wrong))
    return script


def judge_wrong(seed, script):
    with folder() as place:
        pair = Pair(place, random.Random(seed))
        with Server(pair.data) as server:
            judge_copy(pair, follow_through(pair, server.port, script))


class Following(Harness):
    NAME = "following"
    NEEDS = (PROGRAM,)
    PARTS = (follows, refusals, crashes, kills, beside_a_load, wrong_tools)


if __name__ == "__main__":
    run_harness()
