"""Bytes that change at rest, and tools that run at the same time.

In a served file one bit is flipped: in a value, in a header, in the gate of an older record. The server goes on; `ssikvd-verify`,
`ssikvd-used --verify` and `ssikvd-ship` report it, the previous backup stays, `ssikvd-compact` leaves the server running, `ssikvd-before` starts
nothing over a closed gate; what is exported through the server and loaded into a fresh file is the whole map, and what follows the damage is read by
`ssikvd-salvage`.

What `ssikvd-verify` says of changed and forged images is what `check` says of them, but for a closed gate, of which `check` can't know.

Two runs of `ssikvd-ship` over one copy, with a run begun before each call of the other: one is refused, and the copy is what it should be. Two
of `ssikvd-before`, with one begun before each command of the other: one file is made, and both end with 0.
"""
import contextlib
import itertools
import json
import os
import random
import shutil
import subprocess
import time

from ssikvd_harness.arguments import is_long, run_harness
from ssikvd_harness.cases import Harness
from ssikvd_harness.deviations import expect, is_refused
from ssikvd_harness.log_format import SECTOR, log_image, log_of, map_of
from ssikvd_harness.server import Server, check, create, folder, run
from ssikvd_harness.settings import PATIENCE, PROGRAM
from ssikvd_harness.tools import DIST, ENVIRONMENT, commit, fill, loaded, tool

SECTORS = 512
COMMITS = 30
OLD = 5


def places_of(image):
    """The sectors of the gates of a log's records, and of its last one, which is closed."""
    places, at = [], 1
    while image[SECTOR * at] == 1:
        places.append(at)
        length = int.from_bytes(image[SECTOR * (at + 1):SECTOR * (at + 1) + 4], "big")
        at += 1 + -(-(44 + length) // SECTOR)
    return places, at


def turn(data, at, bit=1):
    """Flips a bit of a file."""
    with open(data, "r+b") as file:
        file.seek(at)
        byte = file.read(1)[0]
        file.seek(at)
        file.write(bytes([byte ^ bit]))


def damages(data):
    """The kinds of damage: the byte that is changed, and what is reported of it."""
    with open(data, "rb") as file:
        places, _ = places_of(file.read())
    gate = SECTOR * places[OLD]
    return {
        "a value": (gate + SECTOR + 60, f"damaged record {OLD}"),
        "a digest": (gate + SECTOR + 12, f"damaged record {OLD}"),
        "a length": (gate + SECTOR + 3, f"damaged record {OLD}"),
        "a gate": (gate, f"closed gate of record {OLD}"),
        "the head": (3, "not a log"),
    }


def judge_tools(data, place, said, server):
    """What the tools say of a damaged file, whose server runs, and what they leave."""
    status, out, err = tool("ssikvd-verify", data)
    expect((status, out, err) == (2, "", f"{data}: {said}\n"), f"ssikvd-verify answered {status, out, err}")
    state = os.path.join(place, "state")
    for _ in range(2):
        found = tool("ssikvd-used", "--state", state, "--verify", "86400", data)
        expect(found[0] == 2 and said in found[2], f"ssikvd-used answered {found}")
    backup = os.path.join(place, "backup")
    before = map_of(log_of(backup))
    for copy in (backup, os.path.join(place, "fresh")):
        found = tool("ssikvd-ship", data, copy)
        is_behind = copy == backup and said != "not a log"    # what is new in the data file is whole
        expect(found[0] == (0 if is_behind else 2) and (is_behind or said in found[2]), f"ssikvd-ship to {copy} answered {found}")
    expect(not os.path.exists(os.path.join(place, "fresh")), "a damaged log was copied")
    expect(before.items() <= map_of(log_of(backup)).items() or said != "not a log", "the backup has lost what it had")
    found = tool("ssikvd-compact", "--stop", "touch " + os.path.join(place, "stopped"), "--start", "true", data)
    expect(found[0] == 2 and not os.path.exists(os.path.join(place, "stopped")), f"ssikvd-compact stopped the server: {found}")
    expect(server.is_alive(), "the server has ended")


def judge_export(place, server, due):
    """What is exported through the server and loaded into a fresh file is the map."""
    status, lines, err = tool("ssikvd-export", f"127.0.0.1:{server.port}")
    expect(status == 0 and not err, f"ssikvd-export answered {status, err}")
    name, fresh = os.path.join(place, "lines"), os.path.join(place, "new")
    with open(name, "w", encoding="utf-8") as file:
        file.write(lines)
    create(fresh, SECTORS)
    with Server(fresh) as other:
        found = tool("ssikvd-load", f"127.0.0.1:{other.port}", name)
        expect(found[0] == 0, f"ssikvd-load answered {found}")
    expect(map_of(log_of(fresh)) == due, "the exported map is another one")
    os.remove(fresh)


def judge_salvage(data, place, said, log):
    """What follows the damage is read, with its numbers."""
    out = os.path.join(place, "salvaged")
    found = tool("ssikvd-salvage", data, out, "--from", str(OLD))
    if said == "not a log":
        expect(found[0] == 2, f"ssikvd-salvage answered {found}")
        return
    first = OLD if "gate" in said else OLD + 1
    expect(found[0] == 0, f"ssikvd-salvage answered {found}")
    with open(out, encoding="utf-8") as file:
        lines = [json.loads(line) for line in file]
    expect([line["record"] for line in lines] == list(range(first, len(log))), f"it found {[line['record'] for line in lines]}")
    for line, writes in zip(lines, log[first:]):
        salvaged = [(write["key"].encode(), write["value"].encode()) for write in line["writes"]]
        expect(salvaged == sorted(writes), f"record {line['record']} has other writes")
    os.remove(out)


def judge_start(data, said):
    """Nothing is started over a closed gate or what isn't a log; a damaged record the server itself reports."""
    found = tool("ssikvd-before", data, str(SECTORS))
    is_seen = said == "not a log" or "gate" in said
    expect(found[0] == 2 if is_seen else found[0] in (0, 2), f"ssikvd-before answered {found}")
    if not is_seen:
        status, out, err = run(["serve", "--data", data, "--listen", "127.0.0.1:0"])
        expect((status, out, err) == (3, b"", f"ssikvd: {said}\n".encode()), f"serve answered {status, out, err}")


def one_bit(tally):
    """Each kind of damage to a served file."""
    with folder() as place:
        whole = os.path.join(place, "whole")
        fill(whole, COMMITS, SECTORS)
        for name, (at, said) in damages(whole).items():
            own = os.path.join(place, name.replace(" ", "-"))
            os.mkdir(own)
            data = os.path.join(own, "data")
            shutil.copy(whole, data)
            with tally.run(f"a bit of {name} turned over"), Server(data) as server:
                found = tool("ssikvd-ship", data, os.path.join(own, "backup"))
                expect(found[0] == 0, f"ssikvd-ship answered {found}")
                turn(data, at)
                commit(server.port, COMMITS)
                log = log_of(whole) + log_of_last(data)
                judge_tools(data, own, said, server)
                judge_export(own, server, map_of(log))
                judge_salvage(data, own, said, log)
            with tally.run(f"a start after a bit of {name} was turned over"):
                judge_start(data, said)


def log_of_last(data):
    """The writes of the last commit that `one_bit` made, as a log of one."""
    del data
    return [[(b"%06d" % (COMMITS % 40), b"v" * (COMMITS * 97 % 1_500)), (b"last", b"%d" % COMMITS)]]


def judged(name):
    """What `check` and `ssikvd-verify` say of a file, in the same words: the counts of records and sectors, or the fault."""
    status, out, err = run(["check", "--data", name])
    words = out.decode().split()
    by_check = " ".join(words[:2] + words[4:]) if status == 0 else err.decode().removeprefix("ssikvd: ").strip()
    status, out, err = tool("ssikvd-verify", name)
    by_verify = (out if status == 0 else err).strip().removeprefix(f"{name}: ")
    return by_check, by_verify


def some_changes(chooser, image, places, end):
    """A few bytes of an image that are changed, most of them in a gate or a header: the place of each, and what is put there."""
    changed, changes = bytearray(image), []
    for _ in range(chooser.choice((1, 1, 1, 3))):
        at = chooser.choice((chooser.randrange(SECTOR * (end + 1)), SECTOR * chooser.choice(places), SECTOR * (chooser.choice(places) + 1) + chooser.randrange(60)))
        changed[at] = chooser.choice((0, 1, 255, changed[at] ^ 1))
        changes.append((at, changed[at]))
    return changes


def expect_same_words(name, image, changes):
    """What `check` and `ssikvd-verify` say of an image with these bytes changed. It is the same, but for a closed gate, of which `check` can't know."""
    changed = bytearray(image)
    for at, byte in changes:
        changed[at] = byte
    with open(name, "wb") as file:
        file.write(changed)
    by_check, by_verify = judged(name)
    is_closed = by_verify.startswith("closed gate of record ")
    expect(by_check == by_verify or is_closed and by_check.startswith(f"records {by_verify.split()[-1]} "),
           f"check says {by_check!r}, ssikvd-verify {by_verify!r}")
    return by_check, by_verify


def changed_images(tally):
    """Images with one byte changed, and with several: the two say the same, but for a closed gate."""
    chooser, count, closed = random.Random(20_261_127), 2_000 if is_long() else 150, 0
    log = [[(b"%03d" % (number % 7), b"v" * (number * 131 % 1_200)), (b"last", b"%d" % number)] for number in range(12)]
    image = log_image([sorted(writes) for writes in log], 64)
    places, end = places_of(image)
    with folder() as place:
        for number in range(count):
            changes = some_changes(chooser, image, places, end)
            with tally.run(f"image {number}"):
                _, said = expect_same_words(os.path.join(place, "image"), image, changes)
                closed += said.startswith("closed gate")
    with tally.run("closed gates among the images"):
        expect(closed > count // 50, f"only {closed} of {count} images have a closed gate")


def pipes(tally):
    """Of a pipe no tool waits for a writer."""
    with folder() as place:
        pipe, other = os.path.join(place, "pipe"), os.path.join(place, "other")
        os.mkfifo(pipe)
        for words in (["ssikvd-verify", pipe], ["ssikvd-verify", "--past-cache", pipe], ["ssikvd-salvage", "--from", "0", pipe, other],
                      ["ssikvd-restore", "--data", other, pipe], ["ssikvd-ship", pipe, other], ["ssikvd-ship", other, pipe]):
            with tally.run(f"{words[0]} of a pipe"):
                found = tool(*words)
                expect(found[0] == 2 and "Illegal seek" in found[2], f"it answered {found}")
                expect(not os.path.exists(other), "it made a file")


# Two at once

class Interrupted:
    """The calls of a module's `os`, before the n-th of which something else is done."""

    NAMES = ("open", "pwrite", "fsync", "rename", "link", "remove", "truncate")

    def __init__(self, number, act):
        self.number, self.act, self.count = number, act, 0

    def __getattr__(self, name):
        found = getattr(os, name)
        return self.counted(found) if name in self.NAMES else found

    def counted(self, call):
        def made(*words, **more):
            self.count += 1
            if self.count == self.number:
                self.act()
            return call(*words, **more)

        return made


def ship_while(data, copy, number):
    """A run of `ssikvd-ship` before whose n-th call another one is made: how many calls it made, and what that one answered."""
    ship, others = loaded("ssikvd-ship"), []
    with ship.Place(copy) as place:
        ship.os = Interrupted(number, lambda: others.append(tool("ssikvd-ship", data, copy)))
        with contextlib.suppress(BlockingIOError), place.locked():
            ship.ship_file(data, place)
    return ship.os.count, others


def two_ships(tally):
    with folder() as place:
        data, copy = os.path.join(place, "data"), os.path.join(place, "copy")
        fill(data, 10, SECTORS)
        for is_first in (True, False):
            number, calls = 1, 2
            while number <= calls:
                for name in (copy, copy + ".new", copy + ".old"):
                    with contextlib.suppress(FileNotFoundError):
                        os.remove(name)
                if not is_first:
                    expect(tool("ssikvd-ship", "--records", "4", data, copy)[0] == 0, "it failed")
                with tally.run(f"another run before call {number} of {'a first copy' if is_first else 'one brought up to date'}"):
                    calls, others = ship_while(data, copy, number)
                    judge_two(data, copy, others, number)
                number += 1 if is_long() or number < 6 else 3


def judge_two(data, copy, others, number):
    """One of the two was refused, or came first; the copy is the log."""
    expect(len(others) <= 1, "more than one")
    for status, _, err in others:
        expect(status == 75 and "another process holds" in err or status == 0 and number == 1, f"the other run answered {status}: {err}")
    expect(log_of(copy) == log_of(data), "the copy is another log")


class Befores:
    """Runs of `ssikvd-before` over one name, of which one begins before the n-th command of the other."""

    COMMANDS = ("dirname", "realpath", "flock", "rm", "ssikvd", "ln", "sync", "ssikvd-verify", "dd")
    STAND_IN = """#!/bin/sh
echo >>{place}/calls
if [ $(wc -l <{place}/calls) -eq {number} ]; then
    # It holds nothing of the first run's: no lock, and no pipe whose end that reads to.
    {{ env PATH={path} SSIKVD={program} {script} {data} 64 >{place}/other 2>&1; echo $? >>{place}/other; }} 9<&- >/dev/null 2>&1 &
    sleep 0.2
fi
exec {real} "$@"
"""

    def __init__(self, place, number, script):
        self.place, self.number, self.script, self.data = place, number, script, os.path.join(place, "data", "data")
        commands = os.path.join(place, "commands")
        os.mkdir(commands)
        os.makedirs(os.path.dirname(self.data), exist_ok=True)
        path, program = ENVIRONMENT["PATH"], ENVIRONMENT["SSIKVD"]
        for name in self.COMMANDS:
            real = program if name == "ssikvd" else shutil.which(name, path=path)
            with open(os.path.join(commands, name), "w", encoding="utf-8") as file:
                file.write(self.STAND_IN.format(place=place, number=number, path=path, program=program, script=script, data=self.data, real=real))
            os.chmod(file.name, 0o755)
        open(os.path.join(place, "calls"), "w", encoding="ascii").close()
        self.environment = {**ENVIRONMENT, "PATH": f"{commands}:{path}", "SSIKVD": os.path.join(commands, "ssikvd")}

    def play(self):
        """Both runs: what each answered, and how many commands the first one made. There is no second one where these were fewer."""
        first, others = tool(self.script, self.data, "64", environment=self.environment), []
        with open(os.path.join(self.place, "calls"), encoding="ascii") as file:
            calls = len(file.readlines())
        name, end = os.path.join(self.place, "other"), time.monotonic() + PATIENCE
        while self.number <= calls and not others and time.monotonic() < end:
            with contextlib.suppress(FileNotFoundError), open(name, encoding="utf-8") as file:
                others = file.read().splitlines()[-1:]
            time.sleep(0.01)
        return first, others, calls


def judge_befores(data, first, others, is_begun):
    """Both found a store to start, and there is one whole file."""
    expect(first == (0, "", "") and others == ["0"] * is_begun, f"they answered {first} and {others}")
    found = check(data)
    expect(found == (0, 0, 2, 64) and os.listdir(os.path.dirname(data)) == ["data"], f"they left {found}, {os.listdir(os.path.dirname(data))}")


def play_befores(place, number, script, is_first):
    """Two runs of this script, one begun before the n-th command of the other. Were there this many commands?"""
    befores = Befores(place, number, script)
    if not is_first:
        create(befores.data, 64)
    first, others, calls = befores.play()
    judge_befores(befores.data, first, others, number <= calls)
    return number <= calls


def two_befores(tally):
    for is_first in (True, False):
        for number in itertools.count(1):
            goes_on = False
            with folder() as place, tally.run(f"another ssikvd-before before command {number} of {'a first start' if is_first else 'a start'}"):
                goes_on = play_befores(place, number, os.path.join(DIST, "ssikvd-before"), is_first)
            if not goes_on:
                break


def show_that_they_fail(tally):
    """A ship and a start without their locks are reported."""
    with folder() as place:
        for name in ("ssikvd-verify", "ssikvd-used", "ssikvd-ship"):
            shutil.copy(os.path.join(DIST, name), place)
        data, copy = os.path.join(place, "data"), os.path.join(place, "copy")
        fill(data, 10, SECTORS)
        with open(os.path.join(DIST, "ssikvd-ship"), encoding="utf-8") as file:
            text = file.read().replace("fcntl.flock(file, fcntl.LOCK_EX | fcntl.LOCK_NB)", "pass")
        with open(os.path.join(place, "ssikvd-ship"), "w", encoding="utf-8") as file:
            file.write(text)
        with tally.run("a ship without its lock is reported"):
            words = [os.path.join(place, "ssikvd-ship"), data, copy]
            ship = loaded("ssikvd-ship")
            others = []
            with ship.Place(copy) as held:
                ship.os = Interrupted(4, lambda: others.append(subprocess.run(words, capture_output=True, text=True, env=ENVIRONMENT)))
                with contextlib.suppress(OSError), held.locked():
                    ship.ship_file(data, held)
            answers = [(other.returncode, other.stdout, other.stderr) for other in others]
            expect(is_refused(lambda: judge_two(data, copy, answers, 4)), "it isn't reported")
        with open(os.path.join(DIST, "ssikvd-before"), encoding="utf-8") as file:
            text = file.read().replace("flock -w 60 9", "true")
        script = os.path.join(place, "ssikvd-before")
        with open(script, "w", encoding="utf-8") as file:
            file.write(text)
        os.chmod(script, 0o755)
        found = []
        for number in range(1, len(Befores.COMMANDS)):
            with folder() as own:
                found.append(is_refused(lambda place=own, number=number: play_befores(place, number, script, True)))
        with tally.run("a start without its lock is reported"):
            expect(any(found), "it isn't reported")


class AtRest(Harness):
    NAME = "at_rest"
    NEEDS = (PROGRAM,)
    PARTS = (one_bit, changed_images, pipes, two_ships, two_befores, show_that_they_fail)


if __name__ == "__main__":
    run_harness()
