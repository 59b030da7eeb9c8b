"""What else a server does while one client waits for it: scenes over a store of so many keys, each with the waits of a PING meanwhile, and the
CPU time and the syncs between two polls, which harness/polls.c measures."""

import array
import collections
import contextlib
import math
import multiprocessing
import os
import random
import select
import signal
import socket
import time

from preloaded import Shared, Syncs, environment
from servers import Failure, connect
from ssikvd_harness.frames import BEGIN, COMMIT, PING, PONG, frame
from ssikvd_harness.limits import MARKS_MAX
from stores import COMMIT_WRITES, Client, Store, before_all, map_keys, parts_of, scattered, sets

EACH_SECONDS = 0.001
SESSIONS, FLOODING = 128, 60
# The largest RANGE: so many pairs of the largest values; and one of values of a quarter of that. Some is answered within so many seconds.
PAIRS, LARGE_VALUE, MIDDLE_VALUE, ANSWERED_WITHIN = 128, 16_384, 4_096, 30
QUEUE, STEP = 1_000, 32
SMALL_COMMITS = 50
# Transactions that write one key each: at most so many leave lists of older versions, so many follow, and so many are pipelined.
SINGLE_WRITES, SAME_KEY, AT_ONCE = 20_000, 5_000, 20
REFILLED, FRONT = 8, 50_000    # how often keys are deleted and set again, and how many but for the first time
# In two scenes so many times as many keys are written. Of transactions of three requests a turn serves so many of a session.
TIMES, THREES = 4, 21
# So many clients read and so many write where a sync takes so long.
READERS, WRITERS, SYNC_MS = 16, 16, 1
# The C library joins its small free blocks where it is asked for as many bytes as such a reply has.
LONG_REPLY_PAIRS = 100
# So many clients write transactions of the most bytes. One key in so many is left where most were deleted.
LARGE_WRITERS, LEFT_ONE_IN = 24, 384
# How often everything is written again while a transaction stays open.
ROUNDS = 4
# Of a round, what these shares of its COMMITs stay below.
SHARES = {"round_longest_ms": 1, "round_most_ms": 0.999, "round_p99_ms": 0.99, "round_median_ms": 0.5}


# The client that sends PING

def ping(address, channel):
    """Sends PING each millisecond until it is told to end. Gives of each when it was sent, its wait, and how late the client itself was."""
    connection = connect(address, None)
    connection.setsockopt(socket.IPPROTO_TCP, socket.TCP_NODELAY, 1)
    channel.send("ready")
    sent, waits, late = (array.array("d") for _ in range(3))
    due, came, is_told = time.monotonic(), 0, False
    while not is_told or len(waits) < len(sent):
        now = time.monotonic()
        if now >= due and not is_told:
            connection.sendall(PING)
            sent.append(now)
            late.append(now - due)
            # What it was too late for is left out.
            due = max(due + EACH_SECONDS, now)
        ready, _, _ = select.select([connection, channel], [], [], 1.0 if is_told else max(0.0, due - now))
        if connection in ready:
            came += len(connection.recv(1 << 16))
            now = time.monotonic()
            while len(waits) < came // len(PONG):
                waits.append(now - sent[len(waits)])
        is_told = is_told or channel in ready
    channel.send((sent, waits, late))


class Pinger:
    """The process of that client."""

    def __init__(self, address):
        self.channel, other = multiprocessing.Pipe()
        self.process = multiprocessing.Process(target=ping, args=(address, other), daemon=True)
        self.process.start()
        self.channel.recv()

    def end(self):
        """When each PING was sent, its wait, and how late the client itself was, in seconds."""
        self.channel.send("end")
        if not self.channel.poll(60):
            raise Failure("a PING was not answered")
        found = self.channel.recv()
        self.process.join()
        return found

    def kill(self):
        if self.process.is_alive():
            self.process.kill()
        self.process.join()


# The CPU time between two polls

class Turns(Shared):
    """What the preloaded library shares: the turns of the program between two polls."""

    # Behind these stands what each turn with a sync took, of the first so many.
    NUMBERS, TURNS = 9, 131_072

    def __init__(self, library):
        super().__init__(library, "POLLS_CONTROL", self.NUMBERS + self.TURNS)

    def count(self):
        return self.get(0)

    def longest_ms(self):
        return round(self.get(1) / 1e6, 3)

    def all_ms(self):
        return round(self.get(2) / 1e6, 3)

    def system_ms(self):
        """Of the longest turn what was the system's."""
        return round(self.get(6) / 1e6, 3)

    def pages(self):
        """How many pages of memory the system provided in it."""
        return self.get(7)

    def most_syncs(self):
        return self.get(4)

    def is_idle(self):
        """Was there a poll that was to wait?"""
        return self.get(5) > 0

    def with_sync_ms(self):
        """What each turn with a sync took, one after the other."""
        return [self.get(self.NUMBERS + number) / 1e6 for number in range(self.get(8))]

    def begin(self):
        """What was measured is forgotten."""
        for number in range(self.NUMBERS):
            self.put(number, 0)

    def waste(self, milliseconds):
        """The program wastes so much CPU time in its next turn."""
        self.put(3, int(milliseconds * 1e6))


class Scene:
    """A server over a store of so many keys, whose turns are measured, with its clients, one of which sends PING. A sync takes at least so long."""

    def __init__(self, options, keys, commits, sync_ms=0):
        self.options, self.parts = options, []
        with contextlib.ExitStack() as stack:
            self.turns = Turns(options.library)
            stack.callback(self.turns.remove)
            libraries = [self.turns]
            if sync_ms:
                libraries.append(Syncs())
                stack.callback(libraries[-1].remove)
                libraries[-1].slow_down(sync_ms)
            self.store = Store(options, keys, commits, environment(*libraries))
            self.shared = stack.pop_all()

    def __enter__(self):
        self.pinger, self.watcher = Pinger(self.store.address), self.client()
        return self

    def __exit__(self, kind, *_):
        try:
            if kind is None:
                self.waits = self.pinger.end()
        finally:
            self.pinger.kill()
            self.store.__exit__()
            self.shared.close()

    def client(self):
        return Client(self.store.address)

    @contextlib.contextmanager
    def stopped(self):
        """The server is stopped within, so that it finds in one turn what came meanwhile."""
        os.kill(self.store.process.pid, signal.SIGSTOP)
        try:
            yield
        finally:
            os.kill(self.store.process.pid, signal.SIGCONT)

    def settle(self):
        """Waits until the turn that answered last has ended."""
        before = self.turns.count()
        while self.turns.count() < before + 2:
            self.watcher.ask(PING)

    def descriptors(self):
        """How many the server has open, each connection among them."""
        return len(os.listdir(f"/proc/{self.store.process.pid}/fd"))

    def wait_until_idle(self):
        """Waits for a poll that was to wait, since the figures began: the turns have freed what no transaction needs."""
        while not self.turns.is_idle():
            time.sleep(EACH_SECONDS)

    @contextlib.contextmanager
    def part(self, name):
        """What is done within is measured, and some time behind it. It may give further figures."""
        self.settle()
        self.turns.begin()
        self.turns.waste(self.options.wasted_ms)
        begun, load, more = time.monotonic(), round(os.getloadavg()[0], 1), {}
        yield more
        seconds = time.monotonic() - begun
        time.sleep(self.options.behind)
        self.settle()
        if not self.turns.count():
            raise Failure("the library that measures the turns isn't called")
        figures = {"cpu_longest_ms": self.turns.longest_ms(), "cpu_all_ms": self.turns.all_ms(), "turns": self.turns.count()}
        figures |= {"system_ms": self.turns.system_ms(), "new_pages": self.turns.pages(), "most_syncs": self.turns.most_syncs(), **more}
        self.parts.append((name, begun, time.monotonic(), {**figures, "seconds": round(seconds, 2), "load": load}))

    def rows(self):
        """The figures of each part, with the waits of the PINGs that were sent in it."""
        sent, waits, late = self.waits
        for name, begun, ended, figures in self.parts:
            chosen = [number for number, at in enumerate(sent) if begun <= at < ended]
            yield name, {**waits_ms(sorted(waits[it] for it in chosen)), "client_late_ms": rounded_ms(max((late[it] for it in chosen), default=0)), **figures}


def rounded_ms(seconds):
    return round(1e3 * seconds, 3)


def waits_ms(waits):
    places = {"median_ms": len(waits) // 2, "most_ms": min(len(waits) * 999 // 1000, len(waits) - 1), "longest_ms": -1}
    # None where the machine let no PING leave in all that time.
    return {"pings": len(waits), **{name: rounded_ms(waits[at]) if waits else None for name, at in places.items()}}


# Pieces of scenes

def in_commits(count, start=0):
    """Numbers from the start on, so many, as those of each commit."""
    return [range(at, min(at + COMMIT_WRITES, start + count)) for at in range(start, start + count, COMMIT_WRITES)]


def commit_all(client, requests):
    """A transaction of these requests, each with a reply of one line, pipelined."""
    client.ask_lines(BEGIN + b"".join(requests) + COMMIT, 2 + len(requests))


def set_all(client, key_of, count, start=0):
    for numbers in in_commits(count, start):
        commit_all(client, [sets([key_of(number)]) for number in numbers])


def delete_all(client, keys):
    for numbers in in_commits(len(keys)):
        commit_all(client, [frame(b"DEL", keys[number]) for number in numbers])


def commit_ahead(client, keys):
    """A transaction for each 64 of the keys, whose requests are made while the server has those of the one before."""
    lines = 0
    for some in parts_of(keys):
        requests = BEGIN + sets(some) + COMMIT
        if lines:
            client.ask_lines(b"", lines)
        client.socket.sendall(requests)
        lines = 2 + len(some)
    client.ask_lines(b"", lines)


def small_commits(client):
    """What an end left to the ends that follow."""
    for number in range(SMALL_COMMITS):
        commit_all(client, [sets([before_all(number)])])


def single_writes(client, keys):
    """A transaction for each of the keys, which writes it."""
    for at in range(0, len(keys), AT_ONCE):
        some = keys[at : at + AT_ONCE]
        client.ask_lines(b"".join(BEGIN + sets([key]) + COMMIT for key in some), 3 * len(some))


def opened(client):
    """A transaction is opened, and has read."""
    client.ask(BEGIN)
    client.ask(frame(b"GET", scattered(0)))


def bounds(number):
    """The least key of this part of 256 of the scattered ones, and the end of the part."""
    return b"%02x" % number, b"%02x" % (number + 1) if number < MARKS_MAX - 1 else b"g"


def marking(client, most_pairs, whose=0):
    """A transaction reads 256 ranges, which hold all scattered keys where these are few, and writes 64 keys that nobody else does."""
    client.ask(BEGIN)
    found = sum(len(client.ask(frame(b"RANGE", *bounds(number), b"%d" % most_pairs))) // 2 for number in range(MARKS_MAX))
    own = [b"own%02d-%02d" % (whose, number) for number in range(COMMIT_WRITES)]
    client.ask_lines(sets(own), len(own))
    return found


# The scenes: each does its work and gives what was measured

def quiet(options):
    """Nothing but the client that sends PING."""
    with Scene(options, options.keys, 8) as scene:
        with scene.part("nothing else"):
            time.sleep(options.seconds)
    return scene


def load(options):
    with Scene(options, 0, options.keys // COMMIT_WRITES + 8) as scene:
        with scene.part("a random load"):
            set_all(scene.client(), scattered, options.keys)
    return scene


def written_again(options):
    with Scene(options, options.keys, options.keys // COMMIT_WRITES + SMALL_COMMITS + 8) as scene:
        old, client = scene.client(), scene.client()
        opened(old)
        with scene.part("everything written again while an old transaction is open"):
            set_all(client, scattered, options.keys)
        with scene.part("the end of that transaction"):
            old.ask(COMMIT)
            small_commits(client)
    return scene


def old_commit(options):
    with Scene(options, options.keys, options.keys // COMMIT_WRITES + SMALL_COMMITS + 8) as scene:
        old, client = scene.client(), scene.client()
        marking(old, PAIRS)
        set_all(client, scattered, options.keys)
        with scene.part("the COMMIT of one with 256 ranges and 64 writes, after everything was written again"):
            old.ask(COMMIT)
            small_commits(client)
    return scene


def younger(options):
    with Scene(options, options.keys, 2 * (options.keys // COMMIT_WRITES) + SMALL_COMMITS + 8) as scene:
        old, young, client = scene.client(), scene.client(), scene.client()
        opened(old)
        set_all(client, scattered, options.keys)
        opened(young)
        set_all(client, scattered, options.keys)
        with scene.part("the end of the younger of two old ones"):
            young.ask(COMMIT)
            small_commits(client)
    return scene


def read_all(client, count):
    """Transactions read so many scattered keys, 64 each, and write a key of their own."""
    for numbers in in_commits(count):
        client.socket.sendall(BEGIN + b"".join(frame(b"GET", scattered(number)) for number in numbers) + sets([before_all(numbers[0])]) + COMMIT)
        for _ in range(len(numbers) + 3):
            client.reply()


def much_read(options):
    """The last reader of each key is kept while an older transaction is open. A younger one begins when half of them were the last."""
    with Scene(options, options.keys, 2 * (options.keys // COMMIT_WRITES) + SMALL_COMMITS + 8) as scene:
        old, young, client = scene.client(), scene.client(), scene.client()
        opened(old)
        read_all(client, options.keys)
        opened(young)
        read_all(client, options.keys // 2)
        with scene.part("the end of the older of two, after others have read everything"):
            old.ask(COMMIT)
            small_commits(client)
            scene.wait_until_idle()
    return scene


def same_key(options):
    """Many commits of one write each, made while an old transaction was open, leave as many lists of older versions at its end."""
    keys = [scattered(number) for number in range(min(options.keys, SINGLE_WRITES))]
    with Scene(options, 0, 2 * len(keys) + SAME_KEY + 8) as scene:
        old, client = scene.client(), scene.client()
        single_writes(client, keys)
        opened(old)
        single_writes(client, keys)
        with scene.part("one key written again and again, while many lists of older versions are left"):
            old.ask(COMMIT)
            single_writes(client, [b"same"] * SAME_KEY)
    return scene


def commits_ms(scene, client, keys):
    """Commits these keys in their order: what each turn with a COMMIT took."""
    before = len(scene.turns.with_sync_ms())
    commit_ahead(client, keys)
    scene.settle()
    return scene.turns.with_sync_ms()[before:]


def round_figures(scene, took_ms):
    """Of the turns of a round the longest, what all but one in a thousand and one in a hundred stay below, the median; and the memory of the server then."""
    ordered = sorted(took_ms)
    shares = {name: round(ordered[math.ceil(share * len(ordered)) - 1], 3) for name, share in SHARES.items()}
    return {**shares, "round_memory_mb": round(scene.store.resident_bytes() / 1e6, 1)}


def random_rounds(count, rounds):
    """So many scattered keys, in another random order each time."""
    for seed in range(rounds):
        numbers = list(range(count))
        random.Random(seed).shuffle(numbers)
        yield [scattered(number) for number in numbers]


def random_again(options):
    """A transaction that has read stays open while all is written again and again."""
    with Scene(options, options.keys, ROUNDS * (options.keys // COMMIT_WRITES + 1) + 8) as scene:
        old, client = scene.client(), scene.client()
        opened(old)
        with scene.part("everything written again four times, in random order, while a transaction stays open") as more:
            found = [round_figures(scene, commits_ms(scene, client, keys)) for keys in random_rounds(options.keys, ROUNDS)]
            more.update({name: [it[name] for it in found] for name in found[0]})
        old.ask(COMMIT)
    return scene


def queue_key(number):
    return b"q%015d" % number


def queue(options):
    with Scene(options, 0, (options.keys + QUEUE) // STEP + 64) as scene:
        old, client = scene.client(), scene.client()
        set_all(client, queue_key, QUEUE)
        opened(old)
        with scene.part("a queue with an old reader"):
            for first in range(0, options.keys - STEP, STEP):
                taken = client_takes(client)
                if taken != [queue_key(number) for number in range(first, first + STEP)]:
                    raise Failure(f"the queue gave {taken[:1]}")
                put = sets([queue_key(number) for number in range(first + QUEUE, first + QUEUE + STEP)])
                client.ask_lines(b"".join(frame(b"DEL", key) for key in taken) + put + COMMIT, 2 * STEP + 1)
    return scene


def client_takes(client):
    """A transaction is opened, and reads the first keys of the queue."""
    client.ask(BEGIN)
    return client.ask(frame(b"RANGE", b"q", b"r", b"%d" % STEP))[::2]


def half_deleted(options):
    lower = [key for key in map(scattered, range(options.keys)) if key < b"8"]
    with Scene(options, options.keys, len(lower) // COMMIT_WRITES + 8) as scene:
        client = scene.client()
        with scene.part("half of the keys deleted, and ranges over them"):
            delete_all(client, lower)
            for _ in range(20):
                client.ask(BEGIN)
                for number in range(MARKS_MAX // 2):
                    client.ask(frame(b"RANGE", bounds(number)[0], b"", b"%d" % (1 if number % 2 else PAIRS)))
                client.ask(COMMIT)
    return scene


def refilled(options):
    """While an older transaction that sees all keys is open, one begins once they are deleted. It looks for the first of them when all are set again. So
    do others, for each of whom the keys at the front were deleted and are set again once more."""
    keys = sorted(map_keys(scattered, 0, options.keys))
    front = keys[:FRONT]
    with Scene(options, options.keys, 2 * (options.keys // COMMIT_WRITES + REFILLED * (len(front) // COMMIT_WRITES + 1)) + 8) as scene:
        older, client, readers = scene.client(), scene.client(), [scene.client() for _ in range(REFILLED)]
        opened(older)
        for reader, again in zip(readers, [keys] + [front] * (REFILLED - 1)):
            delete_all(client, again)
            reader.ask(BEGIN)
            commit_ahead(client, again)
        with scene.part("ranges of 1 over keys that were deleted at the begin and are set again"):
            for reader, end in zip(readers, [b"g"] + [front[-1]] * (REFILLED - 1)):
                reader.socket.sendall(AT_ONCE * frame(b"RANGE", b"0", end, b"1"))
            if any(reader.reply() for reader in readers for _ in range(AT_ONCE)):
                raise Failure("a range isn't empty")
    return scene


def straddling(options):
    """One half of the keys are deleted before the begin, though they aren't there, and the other half written after it."""
    half = options.keys // 2
    with Scene(options, 0, options.keys // COMMIT_WRITES + SMALL_COMMITS + 8) as scene:
        older, old, client = scene.client(), scene.client(), scene.client()
        opened(older)
        delete_all(client, map_keys(scattered, 0, half))
        if marking(old, PAIRS):
            raise Failure("a range isn't empty")
        set_all(client, scattered, half, half)
        with scene.part("256 ranges over a run that straddles the begin"):
            old.ask(COMMIT)
            small_commits(client)
    return scene


def overlapping(options):
    """The same, where each range holds those that were read before it. A first commit after the begin writes a key that none holds, so that the
    numbers before the begin say of each block of keys that some might be less."""
    half = TIMES * options.keys // 2
    with Scene(options, 0, 2 * half // COMMIT_WRITES + SMALL_COMMITS + 8) as scene:
        older, old, client = scene.client(), scene.client(), scene.client()
        opened(older)
        delete_all(client, map_keys(scattered, 0, half))
        old.ask(BEGIN)
        for number in reversed(range(MARKS_MAX)):
            if old.ask(frame(b"RANGE", b"0%02x" % number, b"g", b"%d" % PAIRS)):
                raise Failure("a range isn't empty")
        old.ask(sets([b"own"]))
        commit_all(client, [sets([b"other"])])
        set_all(client, scattered, half, half)
        with scene.part("256 ranges, each within the next, over a run that straddles the begin"):
            old.ask(COMMIT)
            small_commits(client)
    return scene


def written_before(options):
    """Keys are deleted, though they aren't there, and an older transaction keeps that they were. Each transaction reads all of them after that."""
    keys = TIMES * options.keys
    with Scene(options, 0, keys // COMMIT_WRITES + 8) as scene:
        older, client = scene.client(), scene.client()
        opened(older)
        delete_all(client, map_keys(scattered, 0, keys))
        readers = [scene.client() for _ in range(FLOODING)]
        with scene.part("many COMMITs in one turn, of transactions that have read all that was written before their begin"):
            with scene.stopped():
                for reader in readers:
                    reader.socket.sendall(THREES * (BEGIN + frame(b"RANGE", b"0", b"g", b"1") + COMMIT))
            for reader in readers:
                for _ in range(THREES):
                    if [reader.reply() for _ in range(3)][1]:
                        raise Failure("a range isn't empty")
    return scene


def large_key(number):
    return b"large%03d" % number


def fill_large(client, value):
    for keys in (range(PAIRS // 2), range(PAIRS // 2, PAIRS)):
        commit_all(client, [frame(b"SET", large_key(number), b"x" * value) for number in keys])


def flood(address, seconds, value):
    """Clients that each ask for a RANGE of values of so many bytes, and for one more with each reply: for so long, and until one was answered."""
    request = frame(b"RANGE", b"large", b"larges", b"%d" % PAIRS)
    whole = len(b"*%d\r\n" % (2 * PAIRS)) + PAIRS * (len(frame(large_key(0), b"x" * value)) - len(b"*2\r\n"))
    poll, clients, due, buffer = select.epoll(), {}, {}, bytearray(1 << 20)
    for _ in range(FLOODING):
        client = Client(address)
        client.ask(BEGIN)
        client.socket.setblocking(False)
        clients[client.socket.fileno()], due[client.socket.fileno()] = client, whole
        poll.register(client.socket, select.EPOLLIN)
    for client in clients.values():
        client.socket.send(2 * request)
    begin, replies = time.monotonic(), 0
    while time.monotonic() < begin + (seconds if replies else seconds + ANSWERED_WITHIN):
        for number, _ in poll.poll(0.1):
            due[number] -= clients[number].socket.recv_into(buffer)
            if due[number] <= 0:
                due[number], replies = due[number] + whole, replies + 1
                clients[number].socket.send(request)
    for client in clients.values():
        client.socket.close()
    return replies


def flooded(options, value, what):
    with Scene(options, options.keys, 2 * (4 + PAIRS * (value + 512) // 512)) as scene:
        fill_large(scene.client(), value)
        with scene.part(what):
            replies = flood(scene.store.address, options.seconds, value)
        if not replies:
            raise Failure("no RANGE was answered")
    return scene


def largest_ranges(options):
    return flooded(options, LARGE_VALUE, "60 clients with the largest RANGEs")


def middle_ranges(options):
    return flooded(options, MIDDLE_VALUE, "60 clients with RANGEs of 128 values of 4,096 bytes")


def coming_and_going(options):
    with Scene(options, options.keys, 8) as scene:
        # The one that sends PING and the one that waits for turns are there too.
        others = SESSIONS - 2
        scene.settle()
        alone = scene.descriptors()
        with scene.part("128 connections coming and going"):
            end = time.monotonic() + options.seconds
            while time.monotonic() < end:
                some = [scene.client() for _ in range(others)]
                for client in some:
                    client.socket.sendall(PING)
                for client in some:
                    client.reply()
                    client.socket.close()
                # The server has seen all of them leave, so that no newcomer is one too many.
                while scene.descriptors() > alone:
                    scene.settle()
    return scene


def first_long_reply(options):
    """The turns free what an old transaction saw, in small blocks; then a client asks for a long reply. All was written by commits."""
    with Scene(options, 0, 2 * (options.keys // COMMIT_WRITES) + 16) as scene:
        old, client = scene.client(), scene.client()
        set_all(client, scattered, options.keys)
        opened(old)
        set_all(client, scattered, options.keys)
        with scene.part("idle turns, until what an old transaction saw is freed"):
            old.ask(COMMIT)
            scene.wait_until_idle()
        with scene.part("the first RANGE of 100 pairs after that"):
            client.ask(BEGIN)
            client.ask(frame(b"RANGE", b"0", b"g", b"%d" % LONG_REPLY_PAIRS))
            client.ask(COMMIT)
    return scene


class Session:
    """A client with one request at a time, whose transactions follow each other. It keeps how long each request waits."""

    def __init__(self, client, *requests):
        self.socket, self.requests = client.socket, collections.deque([BEGIN, *requests, COMMIT])
        self.waits, self.came = array.array("d"), b""

    def send(self):
        self.socket.sendall(self.requests[0])
        self.requests.rotate(-1)
        self.sent = time.monotonic()

    def receive(self):
        """A reply is one line, or two where it is a value."""
        self.came += self.socket.recv(1 << 16)
        if self.came.startswith(b"-"):
            raise Failure(f"refused: {self.came[:200]!r}")
        if self.came.endswith(b"\r\n") and self.came.count(b"\r\n") == (2 if self.came.startswith(b"$") else 1):
            self.waits.append(time.monotonic() - self.sent)
            self.came = b""
            self.send()


def sessions_go_on(sessions, seconds):
    """For so long each of them sends its next request once it has the reply to the one before."""
    poll, of = select.epoll(), {it.socket.fileno(): it for it in sessions}
    for number, session in of.items():
        poll.register(number, select.EPOLLIN)
        session.send()
    end = time.monotonic() + seconds
    while time.monotonic() < end:
        for number, _ in poll.poll(0.1):
            of[number].receive()


def beside_writers(options):
    """The bytes of requests and replies are few, so it is the syncs that anybody waits for."""
    with Scene(options, options.keys, options.keys // COMMIT_WRITES + 1000 * int(1 + options.seconds), SYNC_MS) as scene:
        readers = [Session(scene.client(), *(frame(b"GET", scattered(4 * number + it)) for it in range(4))) for number in range(READERS)]
        writers = [Session(scene.client(), sets([scattered(number)])) for number in range(WRITERS)]
        with scene.part("16 clients that read and 16 that write, where a sync takes 1 ms") as more:
            sessions_go_on(readers + writers, options.seconds)
            waits = sorted(wait for it in readers for wait in it.waits)
            if not waits or not any(it.waits for it in writers):
                raise Failure("nobody was answered")
            more |= {f"reader_{name}": value for name, value in waits_ms(waits).items() if name != "pings"}
    return scene


def write_at_once(scene, clients):
    """Each sends a whole transaction in one piece, and all of them stand ready in one turn."""
    with scene.stopped():
        for number, client in enumerate(clients):
            client.socket.sendall(BEGIN + sets([scattered(number)]) + COMMIT)
    for client in clients:
        for _ in range(3):
            client.reply()


def whole_transactions(options):
    """The first of each client isn't foreseen; from then on each takes turns."""
    with Scene(options, options.keys, options.keys // COMMIT_WRITES + 2 * FLOODING + 8) as scene:
        clients = [scene.client() for _ in range(FLOODING)]
        write_at_once(scene, clients)
        scene.turns.begin()
        scene.wait_until_idle()
        with scene.part("60 clients with whole transactions in one piece, all at once, after their first"):
            write_at_once(scene, clients)
    return scene


# Crowds: what many clients ask for in one turn

def all_commit(scene, clients):
    with scene.stopped():
        for client in clients:
            client.socket.sendall(COMMIT)
    for client in clients:
        client.reply()


def large_commits(options):
    with Scene(options, options.keys, LARGE_WRITERS * 2 * COMMIT_WRITES * LARGE_VALUE // 8_192) as scene:
        clients = [scene.client() for _ in range(LARGE_WRITERS)]
        for whose, client in enumerate(clients):
            client.ask(BEGIN)
            writes = [frame(b"SET", b"large%02d-%02d" % (whose, number), b"x" * LARGE_VALUE) for number in range(COMMIT_WRITES)]
            client.ask_lines(b"".join(writes), COMMIT_WRITES)
        with scene.part("24 COMMITs of 64 values of 16,384 bytes, all in one turn"):
            all_commit(scene, clients)
    return scene


def old_commits(options):
    with Scene(options, options.keys, options.keys // COMMIT_WRITES + FLOODING + 8) as scene:
        clients = [scene.client() for _ in range(FLOODING)]
        for whose, client in enumerate(clients):
            marking(client, PAIRS, whose)
        set_all(scene.client(), scattered, options.keys)
        with scene.part("60 COMMITs of ones with 256 ranges and 64 writes, after everything was written again, all in one turn"):
            all_commit(scene, clients)
    return scene


def few_are_left(options, client):
    """Of all keys, by rising order, one in so many stays."""
    keys = sorted(map(scattered, range(options.keys)))
    delete_all(client, [key for number, key in enumerate(keys) if number % LEFT_ONE_IN])


def ask_for_few(options, scene, clients, before):
    """Each asks in one piece for the pairs of the keys that were left, again and again, and all of them stand ready in one turn."""
    with scene.stopped():
        for client in clients:
            client.socket.sendall(before + THREES * frame(b"RANGE", b"0", b"g", b"%d" % PAIRS) + COMMIT)
    for client in clients:
        replies = [client.reply() for _ in range(before.count(BEGIN) + THREES + 1)]
        if len(replies[-2]) != 2 * min(PAIRS, -(-options.keys // LEFT_ONE_IN)):
            raise Failure("a range has other keys than were left")


def sparse_ranges(options):
    with Scene(options, options.keys, options.keys // COMMIT_WRITES + 8) as scene:
        few_are_left(options, scene.client())
        clients = [scene.client() for _ in range(FLOODING)]
        scene.settle()
        with scene.part("60 clients with 21 RANGEs of 128 over keys of which one in 384 is left, all in one turn"):
            ask_for_few(options, scene, clients, BEGIN)
    return scene


def hidden_ranges(options, part, is_older):
    """The readers began when few were left. The keys are there again, and none of these shows them; an older one may see what was deleted."""
    with Scene(options, options.keys, 2 * options.keys // COMMIT_WRITES + 16) as scene:
        if is_older:
            scene.client().ask(BEGIN)
        few_are_left(options, scene.client())
        clients = [scene.client() for _ in range(FLOODING)]
        for client in clients:
            client.ask(BEGIN)
        set_all(scene.client(), scattered, options.keys)
        scene.settle()
        with scene.part(part):
            ask_for_few(options, scene, clients, b"")
    return scene


def old_sparse_ranges(options):
    return hidden_ranges(options, "60 clients with 21 RANGEs of 128 of which each sees one key in 384, the others set again since, all in one turn", False)


def older_sparse_ranges(options):
    return hidden_ranges(options, "60 clients with such RANGEs next to an older transaction that sees values of the others, all in one turn", True)


SCENES = {
    "quiet": quiet, "load": load, "written_again": written_again, "old_commit": old_commit, "younger": younger, "much_read": much_read, "same_key": same_key,
    "queue": queue, "half_deleted": half_deleted, "refilled": refilled, "straddling": straddling, "overlapping": overlapping, "written_before": written_before,
    "largest_ranges": largest_ranges, "middle_ranges": middle_ranges, "coming_and_going": coming_and_going,
    "first_long_reply": first_long_reply, "beside_writers": beside_writers, "whole_transactions": whole_transactions,
}
CROWDS = {
    "large_commits": large_commits, "old_commits": old_commits, "sparse_ranges": sparse_ranges, "old_sparse_ranges": old_sparse_ranges,
    "older_sparse_ranges": older_sparse_ranges,
}
# One that lasts.
AGAIN = {"random_again": random_again}


def measured(options, name):
    """The rows of a scene: what was done, and its figures."""
    return list((SCENES | CROWDS | AGAIN)[name](options).rows())
