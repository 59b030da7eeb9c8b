"""Histories of many clients of `serve`, for this checker and for others: strict serializability, looked for as Jepsen's Elle does.

    histories.py quick | long            the harness
    histories.py write FORM FOLDER [SECONDS [CLIENTS [KILLS]]]
                                         a history of a new server, as FORM.edn and FORM.jsonl in a folder
    histories.py check FORM FILE         the anomalies of a history in lines of JSON; FORM is list or register

In the form `list` transactions append to lists and read them. A list of even number is the value of one key, and one of odd number has a key for
each element, which RANGE reads. In the form `register` they write values without reading, and read. Each value is new. The clients pick few
keys, so that many commits are refused; some end their connection once they have sent COMMIT. The server is killed and served again amid
the history. It must have no anomaly (the module `anomalies` looks for them), and run one at a time in one order, which respects real time, they
read the same.

The EDN is of Jepsen's form: `list` is for elle.list-append, `register` for elle.rw-register, both with :strict-serializable. Elle itself isn't
in Debian and was not run.

The checker is shown to see planted faults. Each small history that is written here by hand has its anomalies by name. And the same clients ask the
model with one rule left out, stepped by a seeded chance.
"""
import argparse
import json
import os
import random
import re
import threading
import time

from ssikvd_harness.anomalies import History
from ssikvd_harness.arguments import FORMS as HARNESS_FORMS, add_unittest, is_long, need, run_harness
from ssikvd_harness.cases import Harness
from ssikvd_harness.connection import Connection
from ssikvd_harness.deviations import Deviation, expect
from ssikvd_harness.frames import OK, decode, frame
from ssikvd_harness.model import Store, Transaction
from ssikvd_harness.server import Server, create, folder
from ssikvd_harness.settings import PATIENCE, PROGRAM

FORMS = ("list", "register")
SECTORS = {"quick": 32_768, "long": 262_144}
CLIENTS, ACTIVE_KEYS, WRITES_OF_KEY, OPERATIONS = 8, 5, 50, 5
LOST = 0.01     # of the COMMITs: their client ends the connection without waiting for the reply
READER, LATER = 999, 1_000     # the process of the last reads, and how far the next process of a client is
PAGE = "128"
MODEL_COUNT = 250
OK_LEAST, FAIL_LEAST = 50, 5    # how many transactions of a history must be committed, and refused, that there is something to judge


class Lost(Exception):
    """The connection ended before a reply came."""


# What the clients do

class Keys:
    """The keys that are used now, and the next value for each. One that was written often enough is used no more."""

    def __init__(self, chance):
        self.chance, self.active, self.written, self.turn = chance, list(range(ACTIVE_KEYS)), {}, threading.Lock()

    def operation(self):
        """A read, or a write of a new value, of one of the keys."""
        with self.turn:
            place = self.chance.randrange(len(self.active))
            key = self.active[place]
            if self.chance.random() < 0.55:
                return "r", key, None
            self.written[key] = self.written.get(key, 0) + 1
            if self.written[key] == WRITES_OF_KEY:
                self.active[place] = max(self.active) + 1
            return "write", key, self.written[key]

    def all(self):
        return list(range(max(self.active) + 1))


class Events:
    """The events of a history, as they happen."""

    def __init__(self, now=time.monotonic_ns):
        self.now, self.start, self.turn, self.list = now, now(), threading.Lock(), []

    def note(self, kind, process, value, **more):
        with self.turn:
            event = {"index": len(self.list), "type": kind, "process": process, "time": self.now() - self.start, "f": "txn", "value": value}
            self.list.append({**event, **more})


def bulks(reply):
    """The values of a reply to GET or RANGE."""
    found, at = [], reply.index(b"\r\n") + 2 if reply[:1] == b"*" else 0
    while at < len(reply):
        start = reply.index(b"\r\n", at) + 2
        length = int(reply[at + 1:start - 2])
        found.append(None if length < 0 else reply[start:start + length])
        at = start + length + 2 if length >= 0 else start
    return found


def elements_by_value(key):
    """The elements of a list that is one value."""
    value = bulks((yield frame("GET", f"list {key}")))[0]
    return [int(word) for word in (value or b"").split()]


def elements_by_keys(key):
    """The elements of a list that has a key for each."""
    found = bulks((yield frame("RANGE", f"list {key}:", f"list {key};", PAGE)))
    return [int(value) for value in found[1::2]]


def in_list(kind, key, value):
    """One operation on a list: its requests, and what was read. To append is to read, too; only the append stands in the history."""
    found = yield from (elements_by_keys(key) if key % 2 else elements_by_value(key))
    if kind == "r":
        return ["r", key, found]
    name, content = (f"list {key}:{len(found):04d}", value) if key % 2 else (f"list {key}", " ".join(map(str, [*found, value])))
    expect_ok((yield frame("SET", name, str(content))))
    return ["append", key, value]


def in_register(kind, key, value):
    if kind == "r":
        found = bulks((yield frame("GET", f"register {key}")))[0]
        return ["r", key, None if found is None else int(found)]
    expect_ok((yield frame("SET", f"register {key}", str(value))))
    return ["w", key, value]


OPERATION = {"list": in_list, "register": in_register}


def expect_ok(reply):
    expect(reply == OK, f"answered {reply!r}")


def asked(form, kind, key, value):
    """An operation as it is asked for."""
    return ["r", key, None] if kind == "r" else [{"list": "append", "register": "w"}[form], key, value]


def transaction(form, todo, events, process, life):
    """The requests of one transaction, whose events are noted. Was its reply lost, so that the process may not go on?"""
    value, is_committing = [asked(form, *operation) for operation in todo], False
    events.note("invoke", process, value)
    try:
        expect_ok((yield frame("BEGIN")))
        found, lived = [], life()
        for operation in todo:
            found.append((yield from OPERATION[form](*operation)))
        is_committing = True
        reply = yield frame("COMMIT")
    except Lost:
        events.note("info" if is_committing else "fail", process, value, error="connection")
        return is_committing
    if reply[:1] == b":":
        events.note("ok", process, found, commit=int(reply[1:]), life=lived)
    else:
        expect(reply.startswith(b"-CONFLICT "), f"COMMIT was answered {reply!r}")
        events.note("fail", process, value, error=reply[1:-2].decode())
    return False


def client(form, keys, chance, events, process, is_done, life):
    """The requests of a client: one transaction after another. After one of unknown outcome it is another process, as Jepsen has it."""
    while not is_done():
        todo = [keys.operation() for _ in range(chance.randrange(1, OPERATIONS + 1))]
        if (yield from transaction(form, todo, events, process, life)):
            process += LATER


def reader(form, keys, events, life):
    """A client that reads every key once, at the end."""
    whole = keys.all()
    for at in range(0, len(whole), 16):
        expect(not (yield from transaction(form, [("r", key, None) for key in whole[at:at + 16]], events, READER, life)), "a read was lost")


# Over sockets

class Service:
    """The server that is served now: its port, and which life this is."""

    def __init__(self, data):
        self.data, self.life, self.server, self.turn = data, -1, None, threading.Condition()
        self.serve()

    def serve(self):
        server = Server(self.data)
        expect(server.is_listening(), f"no server: {server.error_text()!r}")
        with self.turn:
            self.server, self.life = server, self.life + 1
            self.turn.notify_all()

    def connect(self):
        """A connection to the server, which may have to be waited for."""
        end = time.monotonic() + PATIENCE
        while time.monotonic() < end:
            with self.turn:
                expect(self.turn.wait_for(lambda: self.server, PATIENCE), "no server for a client")
                port, life = self.server.port, self.life
            try:
                return Connection(port), life
            except OSError:
                time.sleep(0.01)
        raise Deviation("no server for a client")

    def kill(self):
        with self.turn:
            server, self.server = self.server, None
        server.kill()


class Driver(threading.Thread):
    """Asks what a client asks, over a connection. Sometimes it ends the connection once it has sent COMMIT."""

    def __init__(self, service, chance, lost=LOST):
        super().__init__(daemon=True)
        self.service, self.chance, self.lost, self.life, self.failure, self.steps = service, chance, lost, 0, None, None
        self.connection = None

    def _ask(self, request):
        if not self.connection:
            self.connection, self.life = self.service.connect()
        try:
            if request == frame("COMMIT") and self.chance.random() < self.lost:
                self.connection.send(request)
                if self.chance.random() < 0.5:
                    self.connection.reset()
                raise Lost
            reply = self.connection.ask(request)
        except (OSError, Deviation) as found:
            if isinstance(found, Deviation) and "closed within a reply" not in str(found):
                raise
            reply = None
        if reply is None:
            raise Lost
        return reply

    def run(self):
        try:
            self._drive()
        except StopIteration:
            pass
        except Exception as found:    # what went wrong is told by the harness
            self.failure = found
        if self.connection:
            self.connection.close()

    def _drive(self):
        request = next(self.steps)
        while True:
            try:
                reply = self._ask(request)
            except Lost:
                self.connection.close()
                self.connection = None
                request = self.steps.throw(Lost())
            else:
                request = self.steps.send(reply)


def is_enough(events):
    """Are there more transactions than a judge wants?"""
    kinds = [event["type"] for event in list(events.list)]
    return kinds.count("ok") > 2 * OK_LEAST and kinds.count("fail") > 2 * FAIL_LEAST


def serve_history(place, form, seconds, clients=CLIENTS, kills=1, seed=1):
    """The events of a history of this many clients over this long, or until there is enough to judge, amid which the server is killed this many
    times."""
    data = os.path.join(place, f"data {seed}")
    create(data, SECTORS["quick" if seconds < 5 else "long"])
    service, events, chance = Service(data), Events(), random.Random(seed)
    keys, end, is_over = Keys(random.Random(seed + 1)), time.monotonic() + seconds, threading.Event()
    drivers = [Driver(service, random.Random(chance.random())) for _ in range(clients)]
    try:
        for process, driver in enumerate(drivers):
            driver.steps = client(
                form, keys, random.Random(chance.random()), events, process, is_over.is_set, lambda d=driver: d.life)
            driver.start()
        for _ in range(kills):
            time.sleep(seconds / (kills + 1) * chance.uniform(0.8, 1.0))
            service.kill()
            service.serve()
        while time.monotonic() < end or not is_enough(events) and any(driver.is_alive() for driver in drivers) and time.monotonic() < end + 3 * PATIENCE:
            time.sleep(0.05)
        is_over.set()
        for driver in drivers:
            driver.join(PATIENCE)
        last = Driver(service, chance, 0)
        last.steps = reader(form, keys, events, lambda: last.life)
        last.run()
        failures = [driver.failure for driver in (*drivers, last) if driver.failure]
        expect(not failures, f"{len(failures)} clients failed, first {failures[:1]!r}")
    finally:
        is_over.set()
        if service.server:
            service.kill()
    os.remove(data)
    return events.list


# Over the model, with a rule left out

class RecentStore(Store):
    """The model, which looks for conflicts among the last commits alone: those of earlier ones concern no open transaction of few clients."""

    LAST = 30

    def _conflict(self, record):
        whole, self.records = self.records, self.records[-self.LAST:]
        try:
            return super()._conflict(record)
        finally:
            self.records = whole


class WithoutPivots(RecentStore):
    """Snapshot isolation: the first committer wins, and that is all."""

    def _conflict(self, record):
        found = super()._conflict(record)
        return found if found and "overwritten" in found else None


class WithoutOverwritten(RecentStore):
    """The last committer wins."""

    def _conflict(self, _):
        return None


class OldSnapshots(RecentStore):
    """A transaction may begin before the last commits. It is judged so, too: what is committed is serializable, but not in real time."""

    def __init__(self):
        super().__init__()
        self.maps = [{}]

    def _begin(self, session):
        old = max(0, len(self.records) - 3)
        self.open[session] = Transaction(old, self.maps[old])
        return OK

    def _commit(self, session, fails):
        reply = super()._commit(session, fails)
        self.maps += [dict(self.contents) for _ in range(len(self.records) + 1 - len(self.maps))]
        return reply


class MovingSnapshots(RecentStore):
    """A read gives what is committed now."""

    def request(self, session, parts, fails=False):
        t = self.open.get(session)
        if t:
            t.copy = {**self.contents, **{key: t.copy[key] for key in t.written if key in t.copy}}
        return super().request(session, parts, fails)

    def _conflict(self, _):
        return None


class DirtyReads(RecentStore):
    """A transaction begins with what another one has written and not committed."""

    def _begin(self, session):
        self.open[session] = Transaction(len(self.records), self.contents)
        for other in self.open.values():
            for key in other.written:
                if key in other.copy:
                    self.open[session].copy[key] = other.copy[key]
        return OK


class LostCommits(RecentStore):
    """Now and then the writes of an acknowledged commit are dropped."""

    def _commit(self, session, fails):
        before = dict(self.contents)
        reply = super()._commit(session, fails)
        if reply[:1] == b":" and len(self.records) % 10 == 9:
            self.contents = before
        return reply


# Each of these with names, one of which must be found in its histories.
PLANTED = {
    WithoutPivots: {"G2"},
    WithoutOverwritten: {"G-single"},
    OldSnapshots: {"G-single-realtime"},
    MovingSnapshots: {"G-single"},
    DirtyReads: {"G1a"},
    LostCommits: {"G-single", "G-single-realtime"},
}


def model_history(store, form, seed, count, clients=6):
    """The events of this many transactions over the model. A seeded chance chooses whose request is next."""
    chance, ticks, begun = random.Random(seed), iter(range(10 ** 9)), []
    events, keys, sessions = Events(lambda: next(ticks)), Keys(random.Random(seed + 1)), iter(range(10 ** 9))

    def is_done():
        begun.append(1)
        return len(begun) > count

    clients = [client(form, keys, random.Random(chance.random()), events, process, is_done, lambda: 0) for process in range(clients)]
    step_all(store, chance, clients, sessions, LOST)
    step_all(store, chance, [reader(form, keys, events, lambda: 0)], sessions, 0)
    return events.list


def step_all(store, chance, clients, sessions, lost):
    """One request after another until all clients have ended. A reply may be lost, before its request was executed or after that."""
    running = [(steps, next(steps), next(sessions)) for steps in clients]
    while running:
        steps, request, session = running.pop(chance.randrange(len(running)))
        is_lost = request == frame("COMMIT") and chance.random() < lost
        reply = store.request(session, decode(request)[0]) if not is_lost or chance.random() < 0.5 else None
        try:
            if is_lost:
                store.leave(session)
                session = next(sessions)
            running.append((steps, steps.throw(Lost()) if is_lost else steps.send(reply), session))
        except StopIteration:
            pass


# Small histories by hand

def small(*lines):
    """The events of lines such as `1 begin`, `1 r x 1`, `1 w y 2`, `1 append x 3`, `1 ok 5`, `1 fail`, `1 info`."""
    events, open_ones = [], {}
    for line in lines:
        process, kind, *rest = line.split()
        event = {"index": len(events), "process": process, "time": len(events), "f": "txn"}
        if kind == "begin":
            open_ones[process] = []
            events.append({**event, "type": "invoke", "value": open_ones[process]})
        elif kind in ("r", "w", "append"):
            read = [int(word) for word in rest[1].strip("[]").split(",") if word] if rest[1:] and "[" in rest[1] else None
            value = read if read is not None else int(rest[1]) if rest[1:] else None
            open_ones[process].append([kind, rest[0], value])
        else:
            ended = {"value": open_ones.pop(process), "type": kind}
            events.append({**event, **ended, **({"commit": int(rest[0]), "life": 0} if kind == "ok" else {})})
    return events


BY_HAND = {
    "one after another": ("register", [], "1 begin", "1 w x 1", "1 ok 1", "2 begin", "2 r x 1", "2 w x 2", "2 ok 2"),
    "a reader before a commit that it did not see": (
        "register", [], "1 begin", "1 r x", "2 begin", "2 w x 1", "2 ok 1", "1 ok 2"),
    "a lost reply that nobody saw": ("list", [], "1 begin", "1 append x 1", "1 info", "2 begin", "2 r x []", "2 ok 1"),
    "a lost reply that was seen": ("list", [], "1 begin", "1 append x 1", "1 info", "2 begin", "2 r x [1]", "2 ok 2"),
    "stale read": (
        "register", ["G-single-realtime"], "1 begin", "1 w x 1", "1 ok 1", "2 begin", "2 r x", "2 ok 2"),
    "stale read of a list": (
        "list", ["G-single-realtime"], "1 begin", "1 append x 1", "1 ok 1", "2 begin", "2 r x []", "2 ok 2", "3 begin", "3 r x [1]", "3 ok 3"),
    "an append that is lost": (
        "list", ["G-single-realtime", "G0-realtime"], "1 begin", "1 append x 1", "1 ok 1", "2 begin", "2 append x 2", "2 ok 2",
        "3 begin", "3 r x [2]", "3 ok 3"),
    "lost update": (
        "register", ["G-single"], "1 begin", "1 r x", "2 begin", "2 r x", "1 w x 1", "2 w x 2", "1 ok 1", "2 ok 2"),
    "write skew": (
        "register", ["G2"], "1 begin", "1 r x", "1 r y", "2 begin", "2 r x", "2 r y", "1 w x 1", "2 w y 1", "1 ok 1", "2 ok 2"),
    "read-only anomaly": (
        "register", ["G2"], "1 begin", "1 r x", "1 r y", "2 begin", "2 r y", "2 w y 1", "2 ok 1", "3 begin", "3 r x", "3 r y 1", "3 ok 2",
        "1 w x 1", "1 ok 3"),
    "read skew": (
        "register", ["G-single"], "1 begin", "1 r x", "2 begin", "2 w x 1", "2 w y 1", "2 ok 1", "1 r y 1", "1 ok 2"),
    "real time turned round by writes": (
        "list", ["G0-realtime"], "1 begin", "1 append x 1", "1 ok 1", "2 begin", "2 append x 2", "2 ok 2", "3 begin", "3 r x [2,1]", "3 ok 3"),
    "a read of what comes later": (
        "list", ["G1c-realtime"], "1 begin", "1 r x [1]", "1 ok 1", "2 begin", "2 append x 1", "2 ok 2"),
    "writes interleaved": (
        "list", ["G0"], "1 begin", "2 begin", "1 append x 1", "2 append x 2", "1 append y 1", "2 append y 2", "1 ok 1", "2 ok 2",
        "3 begin", "3 r x [1,2]", "3 r y [2,1]", "3 ok 3"),
    "a read of an aborted write": (
        "list", ["G1a"], "1 begin", "1 append x 1", "1 fail", "2 begin", "2 r x [1]", "2 ok 1"),
    "a read of a write in between": (
        "register", ["G1b"], "1 begin", "1 w x 1", "1 w x 2", "2 begin", "2 r x 1", "1 ok 1", "2 ok 2"),
    "each read the other's writes": (
        "register", ["G1c"], "1 begin", "2 begin", "1 w x 1", "1 r y 2", "2 w y 2", "2 r x 1", "1 ok 1", "2 ok 2"),
    "two orders of one list": (
        "list", ["G-single-realtime", "incompatible-order"], "1 begin", "2 begin", "1 append x 1", "2 append x 2", "1 ok 1", "2 ok 2",
        "3 begin", "4 begin", "3 r x [1,2]", "4 r x [2,1]", "3 ok 3", "4 ok 4"),
    "one read twice": ("register", ["internal"], "1 begin", "1 r x", "1 r x 1", "2 begin", "2 w x 1", "2 ok 1", "1 ok 2"),
}


# Judgement

def names_of(form, events):
    return sorted({name for name, _ in History(form, events).anomalies()})


def judge(form, events):
    """There is no anomaly, and one order gives the lists that were read. How many transactions ended how."""
    history = History(form, events)
    found = history.anomalies()
    expect(not found, f"{len(found)} anomalies, first {found[:1]}")
    order = history.serial_order()
    expect(order is not None, "there is no serial order")
    expect(history.deviation(order) is None, f"the serial order is none: {history.deviation(order)}")
    counts = {kind: sum(t.kind == kind for t in history.all) for kind in ("ok", "fail", "info")}
    expect(counts["ok"] > OK_LEAST and counts["fail"] > FAIL_LEAST, f"there is little to judge: {counts}")
    return counts


# Files

def in_edn(value):
    """A value as Elle's readers take it: names and the first words of operations are keywords."""
    if isinstance(value, dict):
        return "{" + ", ".join(f":{name} {in_edn(item)}" for name, item in value.items()) + "}"
    if isinstance(value, list):
        return "[" + " ".join(in_edn(item) for item in value) + "]"
    if isinstance(value, str):
        return ":" + value if re.fullmatch("[a-z]+", value) else json.dumps(value)
    return "nil" if value is None else str(value)


def from_edn(text):
    """A line that `in_edn` wrote, read again."""
    tokens = iter(re.findall(r'"[^"]*"|[\[\]{}]|[^\s,\[\]{}]+', text))

    def read(token):
        if token == "{":
            items = list(until("}"))
            return dict(zip(items[::2], items[1::2]))
        if token == "[":
            return list(until("]"))
        return token[1:] if token[0] == ":" else json.loads("null" if token == "nil" else token)

    def until(end):
        for token in tokens:
            if token == end:
                return
            yield read(token)

    return read(next(tokens))


def write_files(place, form, events):
    """The history as EDN and as JSON, one event in a line."""
    os.makedirs(place, exist_ok=True)
    for end, text in (("edn", in_edn), ("jsonl", json.dumps)):
        with open(os.path.join(place, f"{form}.{end}"), "w", encoding="utf-8") as file:
            file.writelines(text(event) + "\n" for event in events)


def read_file(name):
    """The events of a file of lines of JSON."""
    with open(name, encoding="utf-8") as file:
        return [json.loads(line) for line in file]


def write(asked):
    """A history of a new server is written and checked. The status."""
    need(PROGRAM)
    with folder() as data:
        events = serve_history(data, asked.of, asked.seconds, asked.clients, asked.kills)
    write_files(asked.folder, asked.of, events)
    return tell(asked.of, events)


def check(asked):
    """A history of a file is checked. The status."""
    return tell(asked.of, read_file(asked.file))


def tell(form, events):
    """Prints each anomaly, and how many transactions there are. The status is 1 where there is an anomaly."""
    history = History(form, events)
    found = history.anomalies()
    for name, text in found:
        print(f"{name}: {text}")
    print(f"{len(history.all)} transactions, {len(history.committed)} of them committed, {len(found)} anomalies")
    return 1 if found else 0


# The harness

def planted(tally):
    """Faults that must be found, and histories without one, in which none is."""
    for name, (form, due, *lines) in BY_HAND.items():
        with tally.run(name):
            found = names_of(form, small(*lines))
            expect(found == due, f"{name}: found {found}, expected {due}")
    for seed in range(10 if is_long() else 1):
        for form in FORMS:
            with tally.run(f"the model, {form}, {seed}"):
                judge(form, model_history(RecentStore(), form, seed, MODEL_COUNT))
            for store, due in PLANTED.items():
                with tally.run(f"{store.__name__}, {form}, {seed}"):
                    found = names_of(form, model_history(store(), form, seed, MODEL_COUNT))
                    expect(due & set(found), f"{store.__name__}, {form}, {seed}: found {found}, expected one of {due}")


def false_orders(tally):
    """False orders: reversed, with one missing, and with a reader in front of what it read or real time reversed."""
    for form in FORMS:
        history = History(form, model_history(RecentStore(), form, 1, MODEL_COUNT))
        order = history.serial_order()
        exchanged = [[*order[:at], order[at + 1], order[at], *order[at + 2:]] for at in range(len(order) - 1)]
        with tally.run(f"false orders, {form}"):
            expect(history.deviation(order) is None, "the order itself is refused")
            expect(history.deviation(order[::-1]) and history.deviation(order[1:]), "an order turned round, or with one missing, is taken")
            found = {(history.deviation(other) or "taken").split(" ")[1] for other in exchanged if history.deviation(other)}
            expect(found == {"that", "read"}, f"of orders with two exchanged none is refused for what it says: {found}")


def served(tally):
    """Histories of the program, the events of which are also written and read again."""
    whole = {"ok": 0, "fail": 0, "info": 0}
    for seed in range(3 if is_long() else 1):
        for form in FORMS:
            with folder() as place, tally.run(f"serve, {form}, {seed}"):
                events = serve_history(place, form, 20.0 if is_long() else 1.5, CLIENTS, 4 if is_long() else 1, seed)
                for kind, count in judge(form, events).items():
                    whole[kind] += count
                write_files(place, form, events)
                expect(read_file(os.path.join(place, form + ".jsonl")) == events, "the JSON is another history")
                with open(os.path.join(place, form + ".edn"), encoding="utf-8") as file:
                    expect([from_edn(line) for line in file] == events, "the EDN is another history")
    return whole


def options(parser):
    ways = parser.add_subparsers(dest="form", metavar="WAY")
    for name in HARNESS_FORMS:
        add_unittest(ways.add_parser(name, argument_default=argparse.SUPPRESS, help="the harness, in its quick or its long form"))
    for name, way in (("write", write), ("check", check)):
        words = ways.add_parser(name, help=way.__doc__)
        words.set_defaults(way=way)
        words.add_argument("of", choices=FORMS, metavar="FORM", help="list or register")
        if way is check:
            words.add_argument("file", metavar="FILE")
        else:
            words.add_argument("folder", metavar="FOLDER")
            words.add_argument("seconds", nargs="?", type=float, default=5.0, metavar="SECONDS")
            words.add_argument("clients", nargs="?", type=int, default=CLIENTS, metavar="CLIENTS")
            words.add_argument("kills", nargs="?", type=int, default=1, metavar="KILLS")


def instead(asked):
    """Writes or checks a history where that is asked for."""
    return asked.way(asked) if asked.form in ("write", "check") else None


class Histories(Harness):
    NAME = "histories"
    NEEDS = (PROGRAM,)
    PARTS = (planted, false_orders)

    def test_served(self):
        counts = served(self.tally)
        self.tally.more = f"; of serve {counts['ok']} committed, {counts['fail']} refused or aborted, {counts['info']} replies lost"


if __name__ == "__main__":
    run_harness(options, instead, has_form=False)
