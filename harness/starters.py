"""The examples that people start from, in `clients/*/examples`, by several clients at once, over a proxy that cuts connections, and kills.

Each language has three programs, whose routes, words, keys and output the Python ones describe, and one judge looks at all of them.

    seats ADDRESS PORT    a web application; prints `listening 127.0.0.1:PORT`. It meets a server that refuses, falls silent and closes, and must
                          answer each with its status. Then clients ask for seats, two with each key: no seat is reserved twice, asking again gets
                          the same answer, and what was answered is what is stored
    worker ADDRESS ..     producers put the same jobs at once. A worker is killed amid a job, and one is stopped until another has its job:
                          each job has one result, and each result is counted once
    ledger ADDRESS ..     clients make the same transfers at once: each is made once, no account but `outside` is ever below zero, balances add up to
                          zero meanwhile, and each account is the sum of its entries, of which each transfer has two

In each of them connections are cut at a COMMIT, before it is passed on and after, and the server is killed. Programs of all languages also work on
one store together. `long` does more of each, and tries wrong forms of the programs, which must be found. A language that isn't installed is left
out, and a line says so.
"""
import collections
import concurrent.futures
import contextlib
import http.client
import itertools
import json
import os
import random
import re
import shutil
import signal
import subprocess
import tempfile
import threading
import time
import urllib.parse

from ssikvd_harness.arguments import is_long, run_harness
from ssikvd_harness.cases import Harness
from ssikvd_harness.connection import Connection
from ssikvd_harness.cutting import CLOSE, PIVOT, Proxy, Scripted
from ssikvd_harness.deviations import Tally, expect, is_refused, missing, wait_for
from ssikvd_harness.frames import FULL, OK, bulk, frame, pairs, refusal
from ssikvd_harness.languages import CLIENTS, ENVIRONMENT, shell
from ssikvd_harness.limits import PAIRS_MAX
from ssikvd_harness.server import Server, folder, fresh
from ssikvd_harness.settings import PATIENCE, PROGRAM
from ssikvd_harness.threads import Threads

SECTORS, SHARE = 16_384, 0.15
IGNORED = shutil.ignore_patterns("out", "target", "__pycache__")


class Language:
    """A language: its folder, what ends with status 0 where it is there, and its commands, which run in a copy of the folder.

    In the command that runs a program, {name} stands for `seats`, and {Name} for `Seats`."""

    def __init__(self, name, place, probe, needs, run, build=None):
        self.name, self.place, self.probe, self.needs, self.run, self.build = name, place, probe, needs, run, build

    def is_there(self):
        return shell(self.probe, CLIENTS)[0] == 0

    def of(self, copy):
        """The same language with its folder copied into this one."""
        other = Language(self.name, self.place, self.probe, self.needs, self.run, self.build)
        shutil.copytree(os.path.join(CLIENTS, self.place), os.path.join(copy, self.place), ignore=IGNORED)
        other.copy = copy
        return other

    def program(self, name, *words, text=""):
        command = self.run.format(name=name, Name=name.capitalize())
        return Program("exec env " + " ".join([command, *map(str, words)]), os.path.join(self.copy, self.place), text)


class All:
    """All languages by turns: each program that is begun is of the next one."""

    def __init__(self, languages):
        self.name, self.turns = "all together", itertools.cycle(languages)

    def program(self, name, *words, text=""):
        return next(self.turns).program(name, *words, text=text)


LANGUAGES = [
    Language("Python", "python", "python3 -c 'import asyncio, flask; asyncio.timeout'", "Python 3.11 and Debian's python3-flask",
             "PYTHONPATH=src python3 examples/{name}.py"),
    Language("JavaScript", "javascript", "node -e 'process.exit(parseInt(process.versions.node) < 18 ? 1 : 0)'", "Node.js 18",
             "node examples/{name}.mjs"),
    Language("Go", "go", "go version", "Go (Debian's golang-go)", "out/{name}",
             "go build -o out/ ./examples/seats ./examples/worker ./examples/ledger"),
    Language("Java", "java", "javac --version", "a JDK", "java -cp out {Name}",
             "javac -d out src/main/java/ssikvd/*.java examples/{Seats,Worker,Ledger}.java"),
    Language("Rust", "rust", "cargo --version", "cargo (Debian's cargo)", "target/debug/examples/{name}",
             "cargo build --quiet --offline --example seats --example worker --example ledger"),
]


class Program:
    """A process whose lines are read as they come. It is ended by its own group."""

    def __init__(self, command, place, text):
        self.lines, self.errors = [], tempfile.TemporaryFile()
        self.process = subprocess.Popen(["bash", "-c", command], cwd=place, env=ENVIRONMENT, stdin=subprocess.PIPE, stdout=subprocess.PIPE,
                                        stderr=self.errors, text=True, start_new_session=True)
        self.reader = threading.Thread(target=self._read, daemon=True)
        self.reader.start()
        with contextlib.suppress(BrokenPipeError), self.process.stdin as stdin:
            stdin.write(text)

    def _read(self):
        for line in self.process.stdout:
            self.lines.append(line.rstrip("\n"))

    def line(self, pattern):
        """The first line that is like this, once it came."""
        end = time.monotonic() + 3 * PATIENCE
        while time.monotonic() < end:
            for line in list(self.lines):
                if re.fullmatch(pattern, line):
                    return line
            expect(self.reader.is_alive(), f"it ended without {pattern}: {self.error_text()}")
            time.sleep(0.005)
        expect(False, f"there was no line {pattern} in time, after {self.lines[-3:]}: {self.error_text()}")

    def ended(self):
        """Its lines and its status, once it has ended."""
        status = self.process.wait(6 * PATIENCE)
        self.reader.join(PATIENCE)
        return self.lines, status

    def error_text(self):
        self.errors.seek(0)
        return self.errors.read()[-600:].decode()

    def tell(self, signal_number):
        os.killpg(self.process.pid, signal_number)

    def __enter__(self):
        return self

    def __exit__(self, *_):
        if self.process.poll() is None:
            self.tell(signal.SIGKILL)
            self.process.wait()
        self.reader.join(PATIENCE)
        self.process.stdout.close()
        self.errors.close()


class Store:
    """A server behind a proxy that cuts connections."""

    def __init__(self, place, share):
        self.data = fresh(place, SECTORS)
        self.server = Server(self.data)
        self.proxy = Proxy(self.server.port, share)
        self.address = f"127.0.0.1:{self.proxy.own_port}"

    def wait_for(self, name, due):
        """Waits until this many requests of this name came."""
        wait_for(lambda: self.proxy.names[name] >= due, f"not {due} {name} came", 3 * PATIENCE, 0.002)

    def kill(self, commits):
        """Kills the server after this many more COMMITs, and starts it again."""
        self.wait_for(b"COMMIT", self.proxy.names[b"COMMIT"] + commits)
        self.server.kill()
        time.sleep(0.05)
        self.server = Server(self.data)
        self.proxy.port = self.server.port

    def under(self, prefix):
        """The keys with this prefix, without it, and their values; both are texts."""
        found, at, end = {}, prefix.encode(), prefix[:-1].encode() + bytes([ord(prefix[-1]) + 1])
        with Connection(self.server.port) as connection:
            expect(connection.ask(frame("BEGIN")) == OK, "BEGIN was refused")
            while at is not None:
                parts = re.findall(rb"\$\d+\r\n(.*?)\r\n", connection.ask(frame("RANGE", at, end, str(PAIRS_MAX))), re.S)
                found.update((key.decode()[len(prefix):], value.decode()) for key, value in zip(parts[0::2], parts[1::2]))
                at = parts[-2] + b"\0" if len(parts) == 2 * PAIRS_MAX else None
        return found

    def __enter__(self):
        return self

    def __exit__(self, *_):
        self.proxy.close()
        self.server.kill()


@contextlib.contextmanager
def fresh_store(share=SHARE):
    with folder() as place, Store(place, share) as store:
        yield store


# Seats

def asked(port, method, path, key=None, name=None):
    """The status that a request is answered with, its headers, and the text."""
    connection = http.client.HTTPConnection("127.0.0.1", port, timeout=PATIENCE)
    headers = {"Content-Type": "application/x-www-form-urlencoded", **({"Idempotency-Key": key} if key is not None else {})}
    with contextlib.closing(connection):
        connection.request(method, path, urllib.parse.urlencode({"name": name}) if name is not None else None, headers)
        answer = connection.getresponse()
        return answer.status, answer.headers, answer.read().decode()


def is_later(status, headers):
    """Is this 503, with a time to wait?"""
    return status == 503 and headers.get("Retry-After", "").isdecimal()


DONE = bulk(b"201 1A ann")
# What is scripted, the answers by name, the request, and the status that is due.
ANSWERS = [
    ("a free seat", {}, ("POST", "/seats/1A", "k", "ann"), 201),
    ("a taken seat", {"GET": [bulk(None), bulk(b"bob")]}, ("POST", "/seats/1A", "k", "ann"), 409),
    ("reserved before", {"GET": [DONE]}, ("POST", "/seats/1A", "k", "ann"), 201),
    ("refused before", {"GET": [bulk(b"409 1A ann")]}, ("POST", "/seats/1A", "k", "ann"), 409),
    ("a key of another seat", {"GET": [DONE]}, ("POST", "/seats/1B", "k", "ann"), 422),
    ("a key of another name", {"GET": [DONE]}, ("POST", "/seats/1A", "k", "anna"), 422),
    ("a name of two words", {"GET": [bulk("201 1A Änne Öl".encode())]}, ("POST", "/seats/1A", "k", "Änne Öl"), 201),
    ("no such seat", {}, ("POST", "/seats/0A", "k", "ann"), 404),
    ("no key", {}, ("POST", "/seats/1A", None, "ann"), 400),
    ("no name", {}, ("POST", "/seats/1A", "k", None), 400),
    ("an empty name", {}, ("POST", "/seats/1A", "k", ""), 400),
    ("a long name", {}, ("POST", "/seats/1A", "k", "a" * 101), 400),
    ("a long name in bytes", {}, ("POST", "/seats/1A", "k", "ä" * 51), 400),
    ("a long key", {}, ("POST", "/seats/1A", "k" * 101, "ann"), 400),
    ("no such page", {}, ("GET", "/chairs", None, None), 404),
    ("a conflict", {"COMMIT": [PIVOT, b":1\r\n"]}, ("POST", "/seats/1A", "k", "ann"), 201),
    ("conflicts", {"COMMIT": [PIVOT]}, ("POST", "/seats/1A", "k", "ann"), 503),
    ("64 others", {"BEGIN": [FULL]}, ("POST", "/seats/1A", "k", "ann"), 503),
    ("a full log", {"COMMIT": [refusal("FULL log")]}, ("POST", "/seats/1A", "k", "ann"), 503),
    ("a stopped store", {"BEGIN": [refusal("STORE stopped")]}, ("POST", "/seats/1A", "k", "ann"), 503),
    ("a stopped store, read", {"BEGIN": [refusal("STORE stopped")]}, ("GET", "/seats", None, None), 503),
    ("a COMMIT that is cut once", {"COMMIT": [CLOSE, b":1\r\n"], "GET": [bulk(None), bulk(None), DONE]}, ("POST", "/seats/1A", "k", "ann"), 201),
    ("COMMITs that are cut", {"COMMIT": [CLOSE]}, ("POST", "/seats/1A", "k", "ann"), 504),
    ("a refusal that is a fault", {"SET": [refusal("ERR key")]}, ("POST", "/seats/1A", "k", "ann"), 500),
]


def judge_answer(what, due, status, headers):
    expect(status == due and (due != 503 or is_later(status, headers)), f"{what} was answered {status} {dict(headers)}, expected {due}")


def seats_of(port):
    """The seats that are taken, of all."""
    status, _, text = asked(port, "GET", "/seats")
    expect(status == 200, f"the seats were answered {status} {text[:200]}")
    found = json.loads(text)
    expect(len(found) == 60 and set(found.values()) <= {"free", "taken"}, f"the seats are {text[:200]}")
    return {seat for seat, state in found.items() if state == "taken"}


def answers(language):
    """The application before a server that answers by a script."""
    server = Scripted({})
    try:
        with contextlib.ExitStack() as stack:
            port = begin_seats(stack, language, f"127.0.0.1:{server.port}")
            for what, given, (method, path, key, name), due in ANSWERS:
                server.answers = {word.encode(): list(some) for word, some in given.items()}
                status, headers, _ = asked(port, method, path, key, name)
                judge_answer(what, due, status, headers)
            server.answers = {b"RANGE": [pairs([(b"seat:10F", b"ann"), (b"seat:1A", b"bob")])]}
            expect(seats_of(port) == {"1A", "10F"}, "other seats are taken")
    finally:
        server.close()


def ask_until_settled(port, seat, key, name):
    """The answer that isn't `later` and isn't `unknown`."""
    end = time.monotonic() + 3 * PATIENCE
    while time.monotonic() < end:
        status, headers, text = asked(port, "POST", f"/seats/{seat}", key, name)
        if status in (201, 409):
            return status
        expect(status == 504 or is_later(status, headers), f"{key} was answered {status} {text[:200]}")
        time.sleep(0.05)
    expect(False, f"{key} was not answered in time")


def begin_seats(stack, language, address):
    """The port of an application that has begun."""
    program = stack.enter_context(language.program("seats", address, 0))
    return int(program.line(r"listening 127\.0\.0\.1:\d+").rsplit(":", 1)[1])


def reservations(language):
    """Clients ask two applications for seats, each key by two clients, and finally once more."""
    chance, said, threads = random.Random(11), collections.defaultdict(list), Threads()
    seats = [f"{row}{place}" for row in range(1, 7 if is_long() else 5) for place in "ABCDEF"]
    turns = range(40 if is_long() else 15)
    wanted = [[(chance.choice(seats), f"key-{number}-{turn}", f"name {number} {turn}") for turn in turns] for number in range(4)]

    def ask(number):
        for seat, key, name in wanted[number // 2]:
            said[seat, key, name].append(ask_until_settled(ports[number % 2], seat, key, name))

    with contextlib.ExitStack() as stack:
        store = stack.enter_context(fresh_store())
        ports = [begin_seats(stack, language, store.address) for _ in range(2)]
        for number in range(2 * len(wanted)):
            threads.start(ask, number)
        store.kill(len(wanted) * len(wanted[0]) // 2)
        threads.end()
        ask(0)
        stored = store.under("seat:")
        judge_seats(said, stored, {one for some in wanted for one in some})
        expect(seats_of(ports[1]) == set(stored), "the seats that are shown aren't those that are stored")
        expect(store.proxy.cuts > 2, f"only {store.proxy.cuts} connections were cut")
        store.server.kill()
        judge_answer("no server", 503, *asked(ports[0], "POST", f"/seats/{wanted[0][0][0]}", "late", "ann")[:2])


def judge_seats(said, stored, wanted):
    """Each request has one answer, each seat that is wanted goes to one of them, and that one is stored."""
    expect(set(said) == wanted, f"{len(wanted - set(said))} have no answer")
    mixed = [key for (_, key, _), statuses in said.items() if len(set(statuses)) != 1]
    expect(not mixed, f"{mixed} were answered in two ways")
    reserved = [(seat, name) for (seat, _, name), statuses in said.items() if statuses[0] == 201]
    twice = [seat for seat, number in collections.Counter(seat for seat, _ in reserved).items() if number > 1]
    expect(not twice, f"{twice} are reserved twice")
    expect(dict(reserved) == stored, f"the store and the answers differ in {set(reserved) ^ set(stored.items())}")
    expect({seat for seat, _, _ in wanted} == set(stored), "a seat is free that was refused")


# Jobs

LEASE, LONG = 6_000, 4_000    # of a worker, and the work of a job that one holds; both in milliseconds


def jobs(language):
    """Producers and workers at once. One worker is killed amid a job, and one is stopped until another has done its job."""
    number = 160 if is_long() else 40
    ids = [f"job-{at:03}" for at in range(number)]
    with contextlib.ExitStack() as stack:
        store = stack.enter_context(fresh_store())

        def begin(*words):
            return stack.enter_context(language.program("worker", store.address, *words))

        expect(begin("put", LONG, "long-1", "long-2").ended()[1] == 0, "two jobs weren't put")
        workers, held = [], []
        for name, signal_number in (("w1", signal.SIGKILL), ("w2", signal.SIGSTOP)):
            workers.append(begin("work", name, LEASE))
            held.append(workers[-1].line(rf"{name} took long-\d").split()[2])
            workers[-1].tell(signal_number)
        pings = store.proxy.names[b"PING"]
        producers = [begin("put", 5, *some) for some in (ids[:number * 2 // 3], ids[number // 3:])]
        workers += [begin("work", f"w{at}", LEASE) for at in (3, 4)]
        store.wait_for(b"PING", pings + 4)    # so that all of them have begun
        store.kill(number)
        for producer in producers:
            lines, status = producer.ended()
            expect(status == 0 and all(line.startswith("put job-") for line in lines), f"a producer ended with {status}: {producer.error_text()}")
        taken = {f"{name} took {held[1]}" for name in ("w3", "w4")}
        wait_for(lambda: taken & {*workers[2].lines, *workers[3].lines}, "nobody took a job that was held", 3 * PATIENCE)
        workers[1].tell(signal.SIGCONT)
        expect(workers[1].line(f"w2 (did|late) {held[1]}").split()[1] == "late", "a worker did a job that another had taken since")
        wait_for(lambda: set(store.under("done:")) >= {*ids, "long-1", "long-2"}, "jobs were not done in time", 3 * PATIENCE)
        wait_for(lambda: not any(worker.lines[-1:] and " took " in worker.lines[-1] for worker in workers[1:]), "a worker says no more", 3 * PATIENCE)
        lines = [line.split() for worker in workers for line in worker.lines]
        judge_jobs(lines, {*ids, "long-1", "long-2"}, store.under("done:"), store.under("finished:"), store.under("job:"))
        expect(store.proxy.cuts > 2, f"only {store.proxy.cuts} connections were cut")


def judge_jobs(lines, ids, done, finished, left):
    """Each job has a result, of a worker that took it and says so, and as many are counted as there are; none is left."""
    expect(set(done) == ids and not left, f"done are {len(done)} of {len(ids)} jobs, left are {len(left)}")
    counted = sum(int(number) for number in finished.values())
    expect(counted == len(ids), f"{counted} results were written for {len(ids)} jobs")
    took = [(worker, job) for worker, what, job in lines if what == "took"]
    expect(len(took) <= len(ids) + 2 + len(ids) // 4, f"{len(took)} times a job was taken, for {len(ids)}")    # two at least twice
    owners = {job: result.removeprefix("done by ") for job, result in done.items()}
    expect(all((worker, job) in took for job, worker in owners.items()), "a job was done by a worker that didn't take it")
    did = {(worker, job) for worker, what, job in lines if what == "did"}
    wrong = [job for worker, job in did if owners[job] != worker]
    # One that was late may have taken the job again, and done it then.
    wrong += [job for worker, what, job in lines if what == "late" and owners[job] == worker and (worker, job) not in did]
    expect(not wrong, f"{wrong} were done by others than those who say so")


def order(language):
    """A worker takes the oldest job first."""
    with fresh_store(share=0) as store:
        for ids in (["j3", "j4"], ["j1", "j2"], ["j3", "j1"]):    # those that were put before aren't put again
            with language.program("worker", store.address, "put", 0, *ids) as producer:
                expect(producer.ended() == ([f"put {one}" for one in ids], 0), f"jobs weren't put: {producer.error_text()}")
        with language.program("worker", store.address, "work", "w", LEASE) as worker:
            worker.line("w did j2")
            due = [f"w {what} {one}" for one in ("j3", "j4", "j1", "j2") for what in ("took", "did")]
            expect(worker.lines == due and not store.under("job:"), f"the worker printed {worker.lines}")


# Transfers

def transfers_of(chance, number, count):
    """Lines of transfers. The first half of them other clients make too."""
    lines = []
    for turn in range(count):
        source, target = chance.sample("abcde", 2)
        lines.append(f"t-{turn if turn < count // 2 else f'{number}-{turn}'} {source} {target} {chance.randrange(1, 60)}")
    return lines


def ledger(language):
    """Clients make transfers at once, of which they share half, until each has its outcome. Another looks at the balances meanwhile."""
    count, clients = (60, 4) if is_long() else (24, 3)
    shared = transfers_of(random.Random(5), "", count)[:count // 2]
    files = [shared + transfers_of(random.Random(number), number, count)[count // 2:] for number in range(clients)]
    for number, lines in enumerate(files):
        random.Random(number).shuffle(lines)
    said, threads = collections.defaultdict(list), Threads()

    def settle(lines):
        status, rounds = 1, 0
        while status:
            with language.program("ledger", store.address, "transfer", text="".join(line + "\n" for line in lines)) as program:
                found, status = program.ended()
                expect(status == 1 or status == 0 and len(found) == len(lines), f"it ended with {status}: {program.error_text()}")
            rounds += 1
            expect(rounds < 20, f"transfers without an outcome: {found[-3:]}")
            for line, answer in zip(lines, found):
                expect(answer.split()[0] == line.split()[0], f"{line} was answered {answer}")
                if answer.split()[1] not in ("later", "unknown"):
                    said[line].append(answer.split()[1])

    def look():
        while not is_over.is_set():
            with language.program("ledger", store.address, "balances") as program:
                found, status = program.ended()
                expect(status in (0, 1), f"balances ended with {status}: {program.error_text()}")
            if status == 0:
                judge_balances(found)
            looks[status] += 1

    with fresh_store() as store:
        first = [f"first-{account} outside {account} 100" for account in "abcde"]
        settle(first)
        is_over, looking, looks = threading.Event(), Threads(), collections.Counter()
        looking.start(look)
        for lines in files:
            threads.start(settle, lines)
        store.kill(count)
        threads.end()
        is_over.set()
        looking.end()
        expect(looks[0], f"nobody saw the balances, in {looks[1]} tries")
        settle(files[0][:5])
        stored = [store.under(prefix) for prefix in ("account:", "entry:", "transfer:")]
        judge_ledger(said, {*first, *(line for lines in files for line in lines)}, *stored)
        judge_words(language, store, stored[1], shared[0])
        expect(store.proxy.cuts > 2, f"only {store.proxy.cuts} connections were cut")


def said_by(language, store, *words, text=""):
    """What the ledger prints where nothing is in its way."""
    with language.program("ledger", f"127.0.0.1:{store.server.port}", *words, text=text) as program:
        lines, status = program.ended()
        expect(status == 0, f"{words[0]} ended with {status}: {program.error_text()}")
        return lines


def judge_balances(lines):
    rows = [line.split() for line in lines]
    below = [account for account, balance in rows if int(balance) < 0 and account != "outside"]
    expect(sum(int(balance) for _, balance in rows) == 0 and not below, f"the balances are {lines}")


def judge_ledger(said, wanted, accounts, entries, done):
    """Each transfer has one answer, which is stored, and two entries where it was moved, else none. Each account is the sum of its entries."""
    expect(set(said) == wanted and all(len(set(answers)) == 1 for answers in said.values()), "transfers were answered in two ways, or not at all")
    due = {line.split()[0]: f"{answers[0]} {line.split(' ', 1)[1]}" for line, answers in said.items()}
    expect(done == due, f"the store and the answers differ in {set(done.items()) ^ set(due.items())}")
    moved = set()
    for transfer, source, target, amount in (line.split() for line, answers in said.items() if answers[0] == "moved"):
        moved |= {(transfer, source, -int(amount), target), (transfer, target, int(amount), source)}
    judge_entries(accounts, entries, moved)


def judge_entries(accounts, entries, moved):
    found, at, balances = set(), collections.Counter(), collections.Counter()
    for place in sorted(entries):
        account, number = place.split(":")
        amount, balance, transfer, other = entries[place].split()
        found.add((transfer, account, int(amount), other))
        at[account] += 1
        balances[account] += int(amount)
        expect((at[account], balances[account]) == (int(number), int(balance)), f"the entry {place} is {entries[place]}")
        expect(account == "outside" or int(balance) >= 0, f"{account} was below zero")
    expect(found == moved and len(entries) == len(moved), f"the entries and the answers differ in {found ^ moved}")
    expect(accounts == {account: f"{balances[account]} {at[account]}" for account in at}, f"the accounts are {accounts}")
    expect(sum(balances.values()) == 0, "the balances don't add up to zero")


def judge_words(language, store, entries, line):
    """A statement, and lines that are no transfers."""
    due = [f"{number} {entries[f'a:{number:010}']}" for number in (2, 3)]
    found = said_by(language, store, "statement", "a", 2, 2)
    expect(found == due, f"the statement is {found}, expected {due}")
    transfer, source, target, amount = line.split()
    wrong = [f"{transfer} {source} {target} {int(amount) + 1}", "n-1 a a 5", "n-2 a b 0", "n-3 a b -5", "n-4 a: b 5", "n-5 a b 1000000000000",
             "n-6 a b", "n-7 a b 5 6", "", "n-8 a b 99999999"]
    found = said_by(language, store, "transfer", text="".join(line + "\n" for line in wrong))
    due = [f"{transfer} differs", *(f"n-{number} invalid" for number in range(1, 8)), " invalid", "n-8 uncovered"]
    expect(found == due, f"lines that are no transfers were answered {found}")


# The judges themselves

def judges():
    """The judges find what is wrong."""
    one, two = ("1A", "k", "ann"), ("1A", "l", "bob")
    right = {one: [201, 201], two: [409]}
    judge_seats(right, {"1A": "ann"}, {one, two})
    for said, stored in (({one: [201], two: [201]}, {"1A": "ann"}), ({one: [201, 409], two: [409]}, {"1A": "ann"}), ({one: [409], two: [409]}, {}),
                         (right, {"1A": "bob"}), (right, {}), ({one: [201]}, {"1A": "ann"})):
        expect(is_refused(judge_seats, said, stored, {one, two}), f"{said} with {stored} was taken")
    for status, headers in ((201, {}), (503, {}), (504, {"Retry-After": "1"})):
        expect(is_refused(judge_answer, "it", 503, status, headers), f"{status} was taken")
    lines, done = [("w1", "took", "a"), ("w2", "took", "a"), ("w1", "late", "a"), ("w2", "did", "a")], {"a": "done by w2"}
    judge_jobs(lines, {"a"}, done, {"w2": "1"}, {})
    for wrong in (([*lines, ("w1", "did", "a")], {"a"}, done, {"w2": "1"}, {}), (lines, {"a"}, done, {"w1": "1", "w2": "1"}, {}),
                  (lines, {"a", "b"}, done, {"w2": "1"}, {}), (lines, {"a"}, done, {"w2": "1"}, {"1:a": ""}),
                  (lines[:1], {"a"}, done, {"w2": "1"}, {}), (lines + 2 * lines[:1], {"a"}, done, {"w2": "1"}, {})):
        expect(is_refused(judge_jobs, *wrong), f"{wrong} was taken")
    judges_of_ledgers()


def judges_of_ledgers():
    line, accounts = "t outside a 5", {"a": "5 1", "outside": "-5 1"}
    entries, done = {"a:0000000001": "5 5 t outside", "outside:0000000001": "-5 -5 t a"}, {"t": "moved outside a 5"}
    judge_ledger({line: ["moved"]}, {line}, accounts, entries, done)
    again = {**entries, "a:0000000002": "5 10 t outside", "outside:0000000002": "-5 -10 t a"}
    for said, kept, written, known in (
            ("moved", {**accounts, "a": "6 1"}, entries, done), ("moved", accounts, {"a:0000000001": "5 5 t outside"}, done),
            ("uncovered", accounts, entries, done), ("moved", {"a": "10 2", "outside": "-10 2"}, again, done), ("moved", accounts, entries, {}),
            ("moved", {}, {}, done)):
        expect(is_refused(judge_ledger, {line: [said]}, {line}, kept, written, known), f"{said} with {kept} was taken")
    for lines in (["a 5", "outside -4"], ["a -5", "outside 5"]):
        expect(is_refused(judge_balances, lines), f"{lines} was taken")


# Wrong programs, which the judges must find

# A language, a file of it, what stands there once, what stands there instead, and the run that must find it, in one of three tries.
WRONG = [
    ("Python", "seats.py", "    if transaction.get(place) is not None:", "    if False:", reservations),
    ("Python", "seats.py", "lambda transaction: reserve(transaction, seat, name)", """lambda transaction, gone=store.transact(taken): (
            f"409 {seat} {name}" if seat in gone else transaction.set(f"seat:{seat}", name) or f"201 {seat} {name}")""", reservations),
    ("Python", "seats.py", 'if asked != f"{seat} {name}":', "if False:", answers),
    ("Python", "seats.py", ", retry_after=1", "", answers),
    ("Python", "worker.py", "        transaction.delete(place)\n", "", jobs),
    ("Python", "worker.py", "        if transaction.get(job.place) is None:\n            raise Late\n", "", jobs),
    ("Python", "worker.py", 'key_of(begun, ""), 1', '"job;", 1', jobs),
    ("Python", "ledger.py", "if source != OUTSIDE and balance_of(transaction, source)[0] < amount:", "if False:", ledger),
    ("Python", "ledger.py", "    post(transaction, target, amount, transfer_id, source)\n", "", ledger),
    ("Python", "ledger.py", ' if asked == f"{source} {target} {amount}" else "differs"', "", ledger),
    ("JavaScript", "seats.mjs", "  if (await transaction.get(`seat:${seat}`))", "  if (false)", reservations),
    ("JavaScript", "seats.mjs", "new Answer(504,", "new Answer(503,", answers),
    ("JavaScript", "worker.mjs", "    await transaction.delete(place);\n", "", jobs),
    ("JavaScript", "worker.mjs", "    if (!(await transaction.get(job.place))) throw new Late();\n", "", jobs),
    ("JavaScript", "ledger.mjs", "  if (!isCovered)", "  if (false)", ledger),
    ("JavaScript", "ledger.mjs", "store.once(`transfer:${id}`, ", "store.once(`transfer:${id}:${Date.now()}`, ", ledger),
    ("Go", "seats/main.go", "\tif holder != nil {", "\tif holder != nil && false {", reservations),
    ("Go", "seats/main.go", "http.StatusGatewayTimeout", "http.StatusServiceUnavailable", answers),
    ("Go", "worker/main.go", "\tif err := t.Delete(due.Key); err != nil {\n\t\treturn nil, err\n\t}\n", "", jobs),
    ("Go", "worker/main.go", "\t\tif payload == nil {", "\t\tif payload == nil && false {", jobs),
    ("Go", "ledger/main.go", "balance < of.amount", "balance < 0", ledger),
    ("Go", "ledger/main.go", '"transfer:"+of.id, ', 'fmt.Sprint("transfer:", of.id, os.Getpid()), ', ledger),
    ("Java", "Seats.java", '        if (transaction.get("seat:" + seat) != null) {', "        if (false) {", reservations),
    ("Java", "Seats.java", "new Answer(504,", "new Answer(503,", answers),
    ("Java", "Worker.java", "            transaction.delete(place);\n", "", jobs),
    ("Java", "Worker.java", "                if (transaction.get(job.place()) == null) {", "                if (false) {", jobs),
    ("Java", "Ledger.java", " && Account.of(transaction, source).balance() < transfer.amount()", " && false", ledger),
    ("Java", "Ledger.java", "        post(transaction, target, transfer.amount(), transfer.id(), source);\n", "", ledger),
    ("Rust", "seats.rs", "    if transaction.get(&place)?.is_some() {", "    if false {", reservations),
    ("Rust", "seats.rs", "504 Gateway Timeout", "503 Service Unavailable", answers),
    ("Rust", "worker.rs", "        transaction.delete(&place)?;\n", "", jobs),
    ("Rust", "worker.rs", "            if transaction.get(&job.place)?.is_none() {", "            if false {", jobs),
    ("Rust", "ledger.rs", " && balance_of(transaction, source)?.0 < *amount", " && false", ledger),
    ("Rust", "ledger.rs", 'format!("transfer:{}", transfer.id)', 'format!("transfer:{}:{}", transfer.id, std::process::id())', ledger),
]


def wrong(language, file_name, right, instead, part):
    """A wrong form of the program, which the run must find. It stands in the place of the right one until then."""
    path = os.path.join(language.copy, language.place, "examples", file_name)
    with open(path, encoding="utf-8") as file:
        text = file.read()
    expect(text.count(right) == 1, f"{right!r} stands {text.count(right)} times in {file_name}")
    try:
        write(path, text.replace(right, instead))
        build(language)
        expect(any(is_refused(part, language) for _ in range(3)), f"{part.__name__} doesn't find {instead or 'that it lacks'} {right!r}")
    finally:
        write(path, text)


def write(path, text):
    with open(path, "w", encoding="utf-8") as file:
        file.write(text)


def wrong_forms(language):
    """All wrong forms of a language's programs, one after another."""
    return [judged(language, f"wrong: {file_name}", lambda: wrong(language, file_name, *form))
            for name, file_name, *form in WRONG if name == language.name]


# All languages at once

def build(language):
    found = shell(language.build or "true", os.path.join(language.copy, language.place), 15 * PATIENCE)
    expect(found[0] == 0, f"{language.build} ended with {found[0]}: {(found[1] + found[2])[-600:]}")


def play(language, parts):
    """These runs of a language, some of them at once."""
    begun = time.monotonic()
    with concurrent.futures.ThreadPoolExecutor(3) as threads:
        found = list(threads.map(lambda part: judged(language, part.__name__, lambda: part(language)), parts))
    print(f"  {language.name}: {len(parts)} runs in {time.monotonic() - begun:.0f} seconds", flush=True)
    return found


def judged(language, what, part):
    """A run, as a tally of its own."""
    tally = Tally(language.name)
    with tally.run(what):
        part()
    return tally


def add(tally, some):
    for found in some:
        tally.take(found)


class Starters(Harness):
    NAME = "starters"
    NEEDS = (PROGRAM,)

    def test_judges(self):
        with self.tally.run("judges"):
            judges()

    def test_starters(self):
        tally, there = self.tally, [language for language in LANGUAGES if language.is_there()]
        for language in LANGUAGES:
            if language not in there:
                missing(f"the examples for {language.name}", language.needs)
        with folder() as place, concurrent.futures.ThreadPoolExecutor(max(1, len(there))) as threads:
            there = [language.of(place) for language in there]
            add(tally, threads.map(lambda language: judged(language, "build", lambda: build(language)), there))
            for found in threads.map(lambda language: play(language, (jobs, answers, ledger, reservations, order)), there):
                add(tally, found)
            if len(there) > 1:
                add(tally, play(All(there), (jobs, ledger, reservations)))
            for found in threads.map(wrong_forms, there) if is_long() else ():
                add(tally, found)


if __name__ == "__main__":
    run_harness()
