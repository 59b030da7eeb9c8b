"""`serve` killed by SIGKILL in the middle of commits, again and again.

Writers commit numbered sets of keys and note which were acknowledged. After each kill `check` must answer, and a new server's reader must
find every acknowledged set whole, at most one more for each writer, also whole, and nothing else. The file then goes on into the next
kill, until little room is left in it. A commit may be refused for a full log, where that is what the log is: then it isn't found. What is
killed is the process, not the machine: what it had written stays with the system.

`compact` is killed in mid-work as often. The file that it reads is then byte for byte as it was, and what it made is refused when it is
opened, or is the whole copy.

`quick` kills 10 times, else it is 100 times.
"""
import os
import random
import subprocess
import threading
import time

from ssikvd_harness.arguments import is_long, run_harness
from ssikvd_harness.cases import Harness
from ssikvd_harness.connection import Connection
from ssikvd_harness.deviations import expect
from ssikvd_harness.frames import OK, frame, parts_of, refusal
from ssikvd_harness.limits import VALUE_MAX, WRITES_MAX
from ssikvd_harness.log_format import OLD_HEAD, body_sectors, log_image, payload, sectors_used
from ssikvd_harness.server import Server, check, create, folder, run
from ssikvd_harness.settings import PROGRAM

WRITERS = 6
SECTORS = 131_072
ROOM_LEFT = 40_000
LONGEST_LIFE = 0.4
PAGE = 128
FULL = refusal("FULL log")
OLD = [[(b"%06d" % (WRITES_MAX * i + j), b"%06d" % j * 150) for j in range(WRITES_MAX)] for i in range(300)]
OLD_SECTORS = sectors_used(OLD) + 1_000


def key_of(writer, number, part):
    return b"%d.%06d.%d" % (writer, number, part)


def value_of(writer, number, part):
    """A value that tells its key, of a length from 10 bytes to the most."""
    length = (10, 300, 469, 2_000, VALUE_MAX)[(number + part) % 5]
    return (b"<%d.%d.%d>" % (writer, number, part)).ljust(length, b"v")


def set_of(writer, number):
    """The keys and values that one commit writes: one to four."""
    return [(key_of(writer, number, part), value_of(writer, number, part)) for part in range(1 + number % 4)]


LARGEST_BODY = max(body_sectors(payload(set_of(0, number))) for number in range(20))


class Writer(threading.Thread):
    """Commits its numbered sets one after another until the server is gone, or the log is full."""

    def __init__(self, port, writer, number):
        super().__init__(daemon=True)
        self.connection, self.writer = Connection(port), writer
        self.acknowledged, self.is_refused, self.failure = number, False, None

    def _commit(self, number):
        """Was the commit acknowledged?"""
        writes = set_of(self.writer, number)
        self.connection.send(frame("BEGIN") + b"".join(frame("SET", k, v) for k, v in writes) + frame("COMMIT"))
        replies = [self.connection.reply() for _ in range(len(writes) + 2)]
        if None in replies:
            return False
        self.is_refused = replies[-1] == FULL
        done = self.is_refused or replies[-1][:1] == b":"
        expect(replies[:-1] == [OK] * (len(writes) + 1) and done, f"a commit was answered {replies}")
        return not self.is_refused

    def run(self):
        try:
            while self._commit(self.acknowledged + 1):
                self.acknowledged += 1
        except Exception as found:  # what went wrong is told by the harness
            if "closed within a reply" not in str(found):
                self.failure = found
        self.connection.close()


def read_all(port):
    """All keys and values, page by page."""
    found, lo = {}, b"0"
    with Connection(port) as client:
        expect(client.ask(frame("BEGIN")) == OK, "BEGIN was refused")
        while True:
            page = client.ask(frame("RANGE", lo, "", str(PAGE)))
            parts = parts_of(page)
            found.update(zip(parts[0::2], parts[1::2]))
            if len(parts) < 2 * PAGE:
                break
            lo = parts[-2] + b"\0"
        expect(client.ask(frame("COMMIT")) == b":1\r\n", "the reader's COMMIT was not the first")
    return found


def judge(found, writers):
    """The number of each writer's last set, all of which are whole: as many as were acknowledged, or one more that wasn't refused."""
    last, due = [], {}
    for writer in writers:
        has_more = not writer.is_refused and key_of(writer.writer, writer.acknowledged + 1, 0) in found
        last.append(writer.acknowledged + has_more)
        for n in range(1, last[-1] + 1):
            due.update(set_of(writer.writer, n))
    lost = sorted(set(due) - set(found))
    expect(not lost, f"{len(lost)} keys are lost, the first {lost[:1]}")
    expect(not set(found) - set(due), f"{len(found) - len(due)} keys are too many")
    expect(found == due, "a value is another one")
    return last


class Store:
    """A data file that survives many kills."""

    def __init__(self, place, name):
        self.data, self.last, self.is_full = os.path.join(place, name), [0] * WRITERS, False
        create(self.data, SECTORS)

    def kill_once(self, life):
        """Serves and writes for this long, kills, checks and reads. How many sets were acknowledged, and how many more were found?"""
        with Server(self.data) as server:
            expect(server.is_listening(), f"no server: {server.error_text()!r}")
            writers = [Writer(server.port, i, number) for i, number in enumerate(self.last)]
            for writer in writers:
                writer.start()
            time.sleep(life)
            server.process.kill()
            for writer in writers:
                writer.join()
        failures = [str(writer.failure) for writer in writers if writer.failure]
        expect(not failures, f"a writer: {failures[:1]}")
        acknowledged, before = sum(writer.acknowledged for writer in writers), sum(self.last)
        records, keys, used, count = check(self.data)
        with Server(self.data) as server:
            expect(server.is_listening(), f"no server after the kill: {server.error_text()!r}")
            found = read_all(server.port)
        self.last = judge(found, writers)
        expect((records, keys, count) == (sum(self.last), len(found), SECTORS), f"check counts {records} records and {keys} keys")
        is_refused = any(writer.is_refused for writer in writers)
        expect(not is_refused or used + LARGEST_BODY >= SECTORS, f"a commit was refused for a full log, which uses {used} sectors")
        self.is_full = used > SECTORS - ROOM_LEFT
        return acknowledged - before, sum(self.last) - acknowledged


def compact_and_kill(place, life):
    """`compact` of a log of format 1 killed after this long, or not where none is given. What it left: nothing, no log, or a whole one."""
    data, new = os.path.join(place, "old"), os.path.join(place, "new")
    process = subprocess.Popen([PROGRAM, "compact", "--from", data, "--to", new], stdout=subprocess.DEVNULL, stderr=subprocess.PIPE)
    if life is not None:
        time.sleep(life)
        process.kill()
    error = process.communicate()[1]
    expect(error == b"", f"it reported {error!r}")
    with open(data, "rb") as file:
        expect(file.read() == log_image(OLD, OLD_SECTORS, OLD_HEAD), "the old file was changed")
    if not os.path.exists(new):
        return "nothing"
    status, _, text = run(["check", "--data", new])
    with open(new, "rb") as file:
        is_whole = file.read() == log_image(OLD, OLD_SECTORS)
    os.remove(new)
    expect((status == 0) == is_whole, f"check ended with {status}, and the copy is {'' if is_whole else 'not '}whole")
    expect(is_whole or (status, text) in ((3, b"ssikvd: not a log\n"), (3, b"ssikvd: file fault\n")), f"it was refused by {text!r}")
    return "a whole log" if is_whole else "no log"


def kill_compactions(tally, place, kills, chance):
    """How often each was left."""
    left = {"nothing": 0, "no log": 0, "a whole log": 0}
    with open(os.path.join(place, "old"), "wb") as file:
        file.write(log_image(OLD, OLD_SECTORS, OLD_HEAD))
    start = time.monotonic()
    with tally.run("compact to its end"):
        expect(compact_and_kill(place, None) == "a whole log", "the copy is not whole")
    whole = time.monotonic() - start
    for kill in range(kills):
        with tally.run(f"kill {kill} of compact"):
            left[compact_and_kill(place, chance.uniform(0.0, whole))] += 1
    return ", ".join(f"{count} times {what}" for what, count in left.items())


class Kills(Harness):
    NAME = "kill -9"

    def test_kills(self):
        kills, chance = 100 if is_long() else 10, random.Random(2_008)
        tally, acknowledged, more, files, store = self.tally, 0, 0, 0, None
        with folder() as place:
            for kill in range(kills):
                if store is None or store.is_full:
                    files += 1
                    store = Store(place, f"data{files}")
                current, store = store, None
                with tally.run(f"kill {kill}"):
                    noted, unnoted = current.kill_once(chance.uniform(0.0, LONGEST_LIFE))
                    acknowledged, more, store = acknowledged + noted, more + unnoted, current
            left = kill_compactions(tally, place, kills, chance)
        ends = f"{acknowledged} commits acknowledged and all found, {more} found that were not, over {files} files; compact left {left}"
        tally.more = "; " + ends


if __name__ == "__main__":
    run_harness()
