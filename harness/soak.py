"""A soak: rounds of what the other harnesses do, each with a seed that was never played, until the time is over.

    soak.py --hours N | --minutes N      rounds of each kind in turn, each kind once at least
    soak.py --again SEED ROUND           a round of this seed again
    soak.py --sight                      shows that each kind of round sees a program that is wrong on purpose

    scripts      random scripts by `play`, and by the plain engine where it is built; each line against the model
    wire         random scripts over sockets: frames cut in two, connections lost within a request, SIGKILL between two; the file at the end
    streams      streams of random bytes, cut frames and changed frames, answered as the model does to the byte
    scenes       floods, crowds, resets and broken frames next to a good client
    closed       commands with standard streams closed
    kills        SIGKILL amid commits: each acknowledged one is found
    compactions  SIGKILL amid `compact`: the old file as it was, the new one refused or whole
    histories    clients at once, and kills: no cycle of dependencies and real time
    lossy        crashes and faults over a file system that loses what wasn't synced; left out where FUSE, or harness/out/lossy, isn't there
    images       logs with changed bytes: `check`, `ssikvd-verify` and a reader in Python say the same

Each round is a line of JSON in the file that --log names, harness/out/soak.jsonl where it names none: `round`, `seed`, `result` (held, failed,
left out), `seconds`, and what was counted. Of a round that failed it has the deviation, and where the round has a list of operations, the few
of them that still fail: the shortest beginning, of which pieces are left out, by halves and then by smaller ones, for at most a minute. The
file only grows.

A seed gives the same operations again. How threads and processes meet isn't the seed's, so a round of kills, histories, scenes or lossy may
fail only now and then.

SIGINT, SIGTERM or SIGHUP ends it after the round that is played, which takes seconds, on a loaded machine one of `compactions` minutes, and where it
failed a minute more. It takes one CPU or two, and some megabytes in the folder for temporary files. The status is 0 where all held, 1 where a round
failed, and 2 where the command line is refused or a program is missing. With --sight it is 1 where something wasn't seen.
"""
import argparse
import contextlib
import hashlib
import io
import itertools
import json
import os
import random
import secrets
import shlex
import signal
import subprocess
import sys
import time

import at_rest
import histories
import hostile
import kills
import lossy
import random_scripts
import streams
from ssikvd_harness.anomalies import History
from ssikvd_harness.connection import Connection
from ssikvd_harness.deviations import Deviation, Tally, expect
from ssikvd_harness.frames import frame
from ssikvd_harness.log_format import SECTOR, Damaged, NotALog, OldFormat, log_image, read_log, sectors_used
from ssikvd_harness.model import Store
from ssikvd_harness.rows import request_of
from ssikvd_harness.server import Server, create, folder
from ssikvd_harness.settings import HARNESS, OUT, PLAIN_PLAY, PROGRAM
from ssikvd_harness.shrinking import Failed, play_whole, shrunk, told

LOG = os.path.join(OUT, "soak.jsonl")
ENDING = {signal.SIGINT, signal.SIGTERM, signal.SIGHUP}
WRONG_PROGRAM = os.path.join(HARNESS, "wrong_program.py")
SIGHT_MAX = 10
SHOWN_MAX = 40    # operations of a failed round that stand in the log


class LeftOut(Exception):
    """What this round needs isn't there."""


def judge(tally):
    """The first deviation of what was counted is reported."""
    expect(not tally.deviations, "; ".join(f"{places[0]}: {text}" for text, places in tally.deviations.items()))


# Scripts

def play_script(lines):
    """How many commits a script has, whose lines are answered as the model does."""
    due = random_scripts.by_model(lines)
    programs = [[PROGRAM, "play"], [PLAIN_PLAY]]
    for words in programs if os.access(PLAIN_PLAY, os.X_OK) else programs[:1]:
        random_scripts.expect_alike(lines, due, random_scripts.by_program(words, lines))
    return sum(" :" in line for line in due)


def scripts(seed):
    chance = random.Random(seed)
    commits = [play_whole(random_scripts.script_of(chance.randrange(1 << 48)), play_script) for _ in range(40)]
    return {"scripts": len(commits), "commits": sum(commits), "plain engine": os.access(PLAIN_PLAY, os.X_OK)}


class Wire:
    """A served file, a connection for each session, and the model of what they are answered."""

    SECTORS = 512

    def __init__(self, place):
        self.data, self.store, self.connections = os.path.join(place, "data"), Store(self.SECTORS), {}
        create(self.data, self.SECTORS)
        self.server = Server(self.data)

    def connection(self, label):
        if label not in self.connections:
            self.connections[label] = Connection(self.server.port)
        return self.connections[label]

    def ask(self, line, cut):
        """A request, sent in two pieces, is answered as the model does."""
        label, parts = request_of(line)
        connection, request = self.connection(label), frame(*parts)
        connection.send(request[:cut])
        connection.send(request[cut:])
        found, due = connection.reply(), self.store.request(label, parts)
        expect(found == due, f"{line}: {found!r}, expected {due!r}")

    def lose(self, line, cut):
        """A connection is closed within a request, which isn't executed, and its transaction is aborted."""
        label, parts = request_of(line)
        self.connection(label).send(frame(*parts)[:cut])
        self.connections.pop(label).close()
        self.store.leave(label)

    def kill(self, *_):
        """The server is killed, and served again."""
        self.close()
        self.store, self.server = Store(self.SECTORS, self.store.log), Server(self.data)

    def close(self):
        self.server.kill()
        for connection in self.connections.values():
            connection.close()
        self.connections.clear()


def wire_operations(chance):
    """A random script with where each request is cut, lost connections, and kills, after which sessions start again."""
    labels, ended = set(), set()
    for line in random_scripts.script_of(chance.randrange(1 << 48)):
        label, size, kind = line.split(" ")[0], len(frame(*request_of(line)[1])), chance.random()
        if kind < 0.02:
            yield ["kill", "", 0]
            ended = set(labels)
        elif kind < 0.06:
            yield ["lose", line, chance.randrange(size)]
            ended.add(label)
        if label in ended and not line.endswith(" BEGIN"):
            yield ["ask", f"{label} BEGIN", 0]
        ended.discard(label)
        labels.add(label)
        yield ["ask", line, chance.randrange(size + 1)]


def play_wire(operations):
    """How many commits there are. The file is at the end byte for byte the log of them."""
    with folder() as place:
        wire = Wire(place)
        try:
            for name, line, cut in operations:
                getattr(wire, name)(line, cut)
        finally:
            wire.close()
        with open(wire.data, "rb") as file:
            expect(file.read() == log_image(wire.store.log, Wire.SECTORS), "the file is not the log of what was committed")
        return len(wire.store.log)


def wire(seed):
    chance = random.Random(seed)
    whole = [list(wire_operations(chance)) for _ in range(12)]
    commits = sum(play_whole(operations, play_wire) for operations in whole)
    counts = {f"{name}s": sum(name == one[0] for operations in whole for one in operations) for name in ("ask", "lose", "kill")}
    return {"scripts": len(whole), **counts, "commits in files": commits}


# Streams and peers

@contextlib.contextmanager
def siege(sectors):
    """A server and its good client, in a folder of their own."""
    with folder() as place, hostile.besieged(place, sectors, False) as besieged:
        yield besieged


def play_stream_alone(pieces):
    with siege(16_384) as besieged:
        hostile.play_stream(besieged, b"".join(pieces))


def streams_of_bytes(seed):
    chance, played = random.Random(seed), 0
    with siege(16_384) as besieged:
        for _ in range(150):
            pieces = hostile.pieces_of(hostile.random_stream(chance))
            played += play_whole(pieces, lambda some: hostile.play_stream(besieged, b"".join(some)), play_stream_alone, lambda some: repr(b"".join(some)))
    return {"streams": played}


# Those that judge time, and the one that is a round of its own, are left out.
SCENES = {scene.__name__: scene for scene in hostile.SCENES if scene not in (hostile.replies_of_two_turns, hostile.random_bytes)}


def play_scenes(names):
    """How many commits the good client made meanwhile."""
    tally, commits = Tally("scenes"), 0
    with siege(hostile.SECTORS) as besieged:
        besieged.good.start()
        try:
            for name in names:
                with contextlib.redirect_stdout(io.StringIO()):
                    commits += hostile.play(tally, besieged, SCENES[name])
        finally:
            besieged.good.end()
    judge(tally)
    return commits


def scenes(seed):
    names = random.Random(seed).sample(sorted(SCENES), 3)
    return {"scenes": names, "good client's commits": play_whole(names, play_scenes)}


def play_closed(operations):
    for name, closed in operations:
        with folder() as place:
            try:
                streams.COMMANDS[name](place, frozenset(closed))
            except Deviation as found:
                raise Deviation(f"{name}, {streams.shown(closed)}: {found}") from None


def closed_streams(seed):
    chance = random.Random(seed)
    operations = [[chance.choice(sorted(streams.COMMANDS)), sorted(chance.choice(streams.CLOSED))] for _ in range(15)]
    play_whole(operations, play_closed)
    return {"commands": len(operations)}


# Kills, histories, crashes

def play_kills(lives):
    """How many commits were acknowledged, and how many more were found, over runs of this many seconds each."""
    acknowledged, more, store = 0, 0, None
    with folder() as place:
        for number, life in enumerate(lives):
            if store is None or store.is_full:
                store = kills.Store(place, f"data{number}")
            noted, unnoted = store.kill_once(life)
            acknowledged, more = acknowledged + noted, more + unnoted
    return acknowledged, more


def kills_of_serve(seed):
    chance = random.Random(seed)
    lives = [round(chance.uniform(0.0, kills.LONGEST_LIFE), 4) for _ in range(4)]
    acknowledged, more = play_whole(lives, play_kills)
    return {"kills": len(lives), "commits acknowledged": acknowledged, "found unanswered": more}


def compactions(seed):
    tally = Tally("compactions")
    with folder() as place:
        left = kills.kill_compactions(tally, place, 2, random.Random(seed))
    judge(tally)
    return {"kills": 2, "left": left}


def transactions_of(events):
    """The events of each transaction of a history."""
    found, begun = [], {}
    for event in events:
        if event["type"] == "invoke":
            begun[event["process"]] = [event]
            found.append(begun[event["process"]])
        else:
            begun[event["process"]].append(event)
    return found


def looking_for(form, names):
    """What plays some transactions of a history again: is one of these anomalies among them?"""
    def play(some):
        events = sorted((event for transaction in some for event in transaction), key=lambda event: event["index"])
        found = {name for name, _ in History(form, events).anomalies()}
        expect(not found & names, f"anomalies {found}")

    return play


def histories_of_clients(seed):
    chance = random.Random(seed)
    form, clients, kills_amid = chance.choice(histories.FORMS), chance.randrange(6, 13), chance.randrange(3)
    with folder() as place:
        events = histories.serve_history(place, form, 3.0, clients, kills_amid, seed)
    try:
        counts = histories.judge(form, events)
    except Deviation as found:
        names = set(histories.names_of(form, events)[:1])
        raise Failed(f"{form}: {found}", transactions_of(events), looking_for(form, names)) if names else found from None
    return {"form": form, "clients": clients, "kills": kills_amid, **counts}


def lossy_disk(seed):
    if not os.access(lossy.LOSSY, os.X_OK):
        raise LeftOut("there is no harness/out/lossy, which harness/run.sh builds where libfuse3 is")
    mode = random.Random(seed).choice([name for name, (_, quick, _) in lossy.MODES.items() if quick])
    with folder() as place:
        try:
            disk = lossy.Disk(place)
        except lossy.NoFuse as found:
            raise LeftOut(str(found)) from None
        with contextlib.closing(disk):
            machine = lossy.Machine(disk, seed)
            runs = lossy.MODES[mode][0](machine)
            for number in range(12):
                try:
                    next(runs)
                except Deviation as found:
                    raise Deviation(f"{mode}, run {number}: {found}") from None
            return {"mode": mode, "runs": 12, **machine.counts}


# Images

def words_of(content):
    """What a reader in Python says of an image, in the words of `check`."""
    sectors = len(content) // SECTOR
    try:
        log, place, _ = read_log(lambda at: content[SECTOR * at:SECTOR * at + SECTOR], sectors)
    except Damaged as found:
        return f"damaged record {found.args[0]}"
    except (NotALog, OldFormat):
        return "not a log"
    return f"records {len(log)} sectors {place + 1} of {sectors}"


def play_image(image):
    """What plays changes of an image: all three readers say the same of what comes of it."""
    def play(changes):
        with folder() as place:
            name = os.path.join(place, "image")
            by_check, _ = at_rest.expect_same_words(name, image, changes)
            with open(name, "rb") as file:
                by_model = words_of(file.read())
        expect(by_check == by_model, f"check says {by_check!r}, the reader in Python {by_model!r}")
        return by_check.split(" ")[0]

    return play


def images(seed):
    chance = random.Random(seed)
    log = [lossy.some_writes(chance, number % lossy.CLIENTS, number) for number in range(chance.randint(1, 14))]
    image = log_image(log, sectors_used(log) + chance.randint(0, 40))
    places, end = at_rest.places_of(image)
    found = []
    for _ in range(20):
        changes = [change for _ in range(chance.choice((1, 1, 2, 4))) for change in at_rest.some_changes(chance, image, places, end)]
        found.append(play_whole(changes, play_image(image)))
    return {"images": len(found), "records": len(log), **{f"called {word}": found.count(word) for word in sorted(set(found))}}


ROUNDS = {
    "scripts": scripts, "wire": wire, "streams": streams_of_bytes, "scenes": scenes, "closed": closed_streams, "kills": kills_of_serve,
    "compactions": compactions, "histories": histories_of_clients, "lossy": lossy_disk, "images": images}


# The soak

def shown(found):
    """What the log has of the operations of a round that failed."""
    operations = shrunk(found.operations, found.play)
    if operations is None:
        return {"operations": len(found.operations), "shrunk": "they didn't fail again"}
    return {"operations": len(found.operations), "left": len(operations), "shrunk": found.show(operations[:SHOWN_MAX])}


def play_round(name, seed):
    """One round: what the log has of it."""
    begun = time.monotonic()
    line = {"time": time.strftime("%Y-%m-%dT%H:%M:%SZ", time.gmtime()), "round": name, "seed": seed}
    try:
        more = {"result": "held", "counts": ROUNDS[name](seed)}
    except LeftOut as found:
        more = {"result": "left out", "text": str(found)}
    except Failed as found:
        more = {"result": "failed", "text": str(found), **shown(found)}
    except (Exception, SystemExit) as found:    # a wrong reply may break what reads it, and a Tally gives up
        more = {"result": "failed", "text": told(found)}
    if more["result"] == "failed":
        more["again"] = f"soak.py --again {seed} {name}"
    return {**line, "seconds": round(time.monotonic() - begun, 1), **more}


def note(log, line):
    log.write(json.dumps(line) + "\n")
    log.flush()


def tell(line):
    """Says what failed, and how it is played again."""
    if line["result"] == "failed":
        print(f"  DEVIATION in {line['round']} of seed {line['seed']}: {line['text'][:600]}", flush=True)
        if "left" in line:
            print(f"  {line['operations']} operations, shrunk to {line['left']}: {line['shrunk']}", flush=True)
        print(f"  again: {line['again']}", flush=True)


def soak(log, names, seconds):
    """Rounds in turn until the time is over. The status."""
    end, results = time.monotonic() + seconds, {name: [] for name in names}
    with open(PROGRAM, "rb") as file:
        note(log, {"program": PROGRAM, "sha256": hashlib.sha256(file.read()).hexdigest(), "seconds": seconds, "rounds": names})
    for number, name in enumerate(itertools.cycle(names)):
        told_to_end = signal.sigpending() & ENDING
        if told_to_end or number >= len(names) and time.monotonic() >= end:
            break
        line = play_round(name, secrets.randbits(48))
        note(log, line)
        tell(line)
        results[name].append(line["result"])
    for name, found in results.items():
        counts = [f"{found.count(result)} {result}" for result in ("held", "failed", "left out") if result in found]
        print(f"  {name}: {', '.join(counts) or 'none'}")
    whole = list(itertools.chain(*results.values()))
    failed = whole.count("failed")
    ended = f", ended by {signal.Signals(min(told_to_end)).name}" if told_to_end else ""
    print(f"soak: {len(whole)} rounds{ended}, {f'{failed} FAILED' if failed else 'all held'}; the seeds are in {log.name}", flush=True)
    return 1 if failed else 0


def again(log, name, seed):
    """A round once more. The status."""
    line = play_round(name, seed)
    note(log, line)
    tell(line)
    print(f"soak: {name} of seed {seed}: {line['result']}; {line.get('counts') or line['text']}", flush=True)
    return 1 if line["result"] == "failed" else 0


# A program that is wrong on purpose

# What each kind of round is to see: a text that the program prints or answers, and what stands in its place. Where there is none, a bit of the
# data file is turned over behind each command.
WRONG = {
    "scripts": (" $1 7", " $1 8"), "wire": ("$1\r\n7\r\n", "$1\r\n8\r\n"), "streams": ("-ERR key\r\n", "-ERR kye\r\n"),
    "scenes": ("-ERR frame\r\n", "-ERR frmae\r\n"), "closed": ("", ""), "kills": ("<1.2.0>", "<1.3.0>"), "compactions": ("", ""),
    "histories": ("$1\r\n3\r\n", "$1\r\n2\r\n"), "lossy": (":1\r\n", ":2\r\n"), "images": ("damaged record 0", "damaged record 1")}


def seen(place, name, old, new):
    """The first round of this kind that sees it, as it stands in the log, and how many were played."""
    program, log = os.path.join(place, f"wrong {name}"), os.path.join(place, f"{name}.jsonl")
    words = shlex.join([sys.executable, "-ISB", WRONG_PROGRAM, "--", *(text.encode("unicode_escape").decode() for text in (old, new)), PROGRAM])
    with open(program, "w", encoding="utf-8") as file:
        file.write(f'#!/bin/sh\nexec {words} "$@"\n')
    os.chmod(program, 0o755)
    for number in range(1, SIGHT_MAX + 1):
        again_words = [sys.executable, os.path.abspath(__file__), "--again", str(number), name, "--log", log]
        subprocess.run(again_words, env={**os.environ, "SSIKVD": program}, stdout=subprocess.DEVNULL)
        with open(log, encoding="utf-8") as file:
            line = json.loads(list(file)[-1])
        if line["result"] != "held":
            return line, number
    return line, SIGHT_MAX


def sight(names):
    """Does each kind of round see the program that is wrong on purpose, and is it shrunk? The status."""
    holds = True
    with folder() as place:
        for name in names:
            line, rounds = seen(place, name, *WRONG[name])
            is_shrunk = f"; {line['operations']} operations, shrunk to {line.get('left')}: {line['shrunk']}" if "operations" in line else ""
            holds &= line["result"] != "held" and (not is_shrunk or "left" in line)
            print(f"  {name}, {line['result']} at round {rounds}: {line.get('text', '')[:200]}{is_shrunk[:400]}", flush=True)
    print(f"soak: {'each kind of round sees' if holds else 'NOT each kind of round sees'} the program that is wrong on purpose", flush=True)
    return 0 if holds else 1


def arguments():
    parser = argparse.ArgumentParser(prog="soak.py", description=__doc__, formatter_class=argparse.RawDescriptionHelpFormatter)
    way = parser.add_mutually_exclusive_group(required=True)
    way.add_argument("--hours", type=float, metavar="N", help="play rounds for this many hours")
    way.add_argument("--minutes", type=float, metavar="N", help="play rounds for this many minutes")
    way.add_argument("--again", nargs=2, metavar=("SEED", "ROUND"), help="play the round of this seed again")
    way.add_argument("--sight", action="store_true", help="play each kind of round over a program that is wrong on purpose")
    parser.add_argument("--rounds", metavar="NAME,..", default=",".join(ROUNDS), help="only these kinds of rounds")
    parser.add_argument("--log", metavar="FILE", default=LOG, help="where the lines go (default harness/out/soak.jsonl)")
    asked = parser.parse_args()
    asked.rounds = asked.rounds.split(",")
    unknown = {*asked.rounds, *(asked.again[1:] if asked.again else ())} - {*ROUNDS}
    if unknown:
        parser.error(f"there is no round {', '.join(sorted(unknown))}; there are {', '.join(ROUNDS)}")
    if asked.again and not asked.again[0].isdigit():
        parser.error(f"the seed {asked.again[0]} is no number; it stands in the line of the log")
    if not os.access(PROGRAM, os.X_OK):
        parser.error(f"there is no program {os.path.normpath(PROGRAM)}; harness/README.md says how to build it, and SSIKVD names another one")
    return asked


def main():
    asked = arguments()
    if asked.sight:
        return sight(asked.rounds)
    # What it starts takes this over, so that a key pressed at the terminal ends no server within a round.
    signal.pthread_sigmask(signal.SIG_BLOCK, ENDING)
    os.makedirs(os.path.dirname(os.path.abspath(asked.log)), exist_ok=True)
    with open(asked.log, "a", encoding="utf-8") as log:
        if asked.again:
            return again(log, asked.again[1], int(asked.again[0]))
        return soak(log, asked.rounds, 3_600 * asked.hours if asked.hours is not None else 60 * asked.minutes)


if __name__ == "__main__":
    sys.exit(main())
