"""The examples of examples/clients against `serve`, under conflicts, and what other clients meet.

Transfers of many clients at once leave the sum as it was, at every moment that a reader sees. A BEGIN that is refused while 64 others are open is
tried again. A pool lends what is whole, to one at a time. A walk gives all pairs of one snapshot while others write. An addition with a key of its
own is made once, though a proxy cuts connections before and after its COMMIT, and the server is killed. Copies of the data file that are taken under
load are each a log with a beginning of the commits, which `check` opens and the exporter reads. Finally, what redis-py, redis-cli and redis-benchmark
meet, where they are installed.

`quick` does less of each.
"""
import contextlib
import io
import os
import random
import shutil
import socket
import subprocess
import sys
import threading
import time

from ssikvd_harness.arguments import is_long, run_harness
from ssikvd_harness.cases import Harness
from ssikvd_harness.connection import Connection
from ssikvd_harness.cutting import Cutting
from ssikvd_harness.deviations import Deviation, expect, missing, wait_for
from ssikvd_harness.examples import export, load, once, pool, simple_client, transfer, walk
from ssikvd_harness.frames import OK, frame
from ssikvd_harness.limits import OPEN_MAX
from ssikvd_harness.server import Server, check, folder, fresh
from ssikvd_harness.settings import PATIENCE, PROGRAM
from ssikvd_harness.threads import Threads


try:
    import over_redis
    import redis
except ImportError:
    over_redis = None

SECTORS = 131_072
COMMITS_MAX = 12_000    # of up to ten sectors each, so that they fit
CLIENTS = 6


@contextlib.contextmanager
def trial(tally, what):
    """One run, in which a refusal that an example did not look for is a deviation."""
    with tally.run(what):
        try:
            yield
        except (simple_client.Refused, simple_client.Lost, export.Damaged) as found:
            raise Deviation(f"{type(found).__name__}: {found}") from None


# Transfers

ACCOUNTS = [b"%d" % number for number in range(6)]
EACH = 100


def fill(store):
    for account in ACCOUNTS:
        store.ask("SET", b"account:" + account, EACH)


def transfers(tally, connect, name):
    """Many clients move money between few accounts; a reader always finds the same sum."""
    count = 400 if is_long() else 40
    tries, moved, is_done = [], [], threading.Event()

    def move(port, seed):
        chance, store = random.Random(seed), connect(port)
        for _ in range(count):
            source, target = chance.sample(ACCOUNTS, 2)
            amount = chance.randrange(1, 30)

            def work(store):
                tries.append(1)
                return transfer.transfer(store, source, target, amount)

            moved.append(store.transact(work))

    def read(port):
        store = connect(port)
        while not is_done.is_set():
            balances = [int(value) for _, value in store.transact(lambda store: list(walk.walk(store, b"account:")))]
            expect(sum(balances) == EACH * len(ACCOUNTS) and min(balances) >= 0, f"a reader found {balances}")

    with folder() as place, trial(tally, f"transfers by {name}"), Server(fresh(place)) as server:
        connect(server.port).transact(fill)
        movers, readers = Threads(), Threads()
        for seed in range(CLIENTS):
            movers.start(move, server.port, seed)
        readers.start(read, server.port)
        movers.end()
        is_done.set()
        readers.end()
        read_once = connect(server.port).transact(lambda store: list(walk.walk(store, b"account:")))
        expect(sum(int(value) for _, value in read_once) == EACH * len(ACCOUNTS), f"at the end they hold {read_once}")
        expect(len(moved) == CLIENTS * count and any(moved), "not all transfers ended")
        expect(len(tries) > len(moved), "no transfer met a conflict")
    print(f"  {name}: {len(moved)} transfers in {len(tries)} tries", flush=True)


def among_others(tally, connect, name):
    """A transaction whose BEGIN is refused, since 64 are open, retries until one of them has ended. It stays refused for a while."""
    with folder() as place, trial(tally, f"64 other transactions, {name}"), Server(fresh(place, 64)) as server:
        others, threads, done = [Connection(server.port) for _ in range(OPEN_MAX)], Threads(), []
        expect(all(other.ask(frame("BEGIN")) == OK for other in others), "64 transactions are too many")
        threads.start(lambda: done.append(connect(server.port).transact(lambda store: store.ask("SET", "a", "1"))))
        time.sleep(0.2)
        expect(not done and not threads.failures, f"it ended with {done or threads.failures} while 64 were open")
        others.pop().close()
        threads.end()
        expect(len(done) == 1, "it was not committed")
        for other in others:
            other.close()


# The pool

def pools(tally):
    """A pool lends a connection to one at a time, at most as many as its size, and none with a transaction open or a reply to come."""
    with folder() as place, trial(tally, "a pool"), Server(fresh(place, 1_024)) as server:
        made, lent, most, threads = [], [], [], Threads()

        def connect():
            made.append(simple_client.Client(server.port))
            return made[-1]

        def work():
            for _ in range(20):
                with lender.lend() as store:
                    lent.append(store)
                    most.append(len(lent))
                    expect(len(set(map(id, lent))) == len(lent), "a connection is lent to two")
                    store.ask("PING")
                    lent.remove(store)

        lender = pool.Pool(connect, 3)
        for _ in range(CLIENTS):
            threads.start(work)
        threads.end()
        expect(max(most) <= 3 >= len(made), f"{max(most)} were lent at once, of {len(made)}")
    with folder() as place, trial(tally, "what a pool takes back"), Server(fresh(place, 1_024)) as server:
        lender = pool.Pool(lambda: simple_client.Client(server.port), 1)
        with lender.lend() as first:
            first.ask("BEGIN")
        with lender.lend() as store:
            expect(store is first and store.ask("BEGIN") == b"OK", "a transaction was passed on")
        with contextlib.suppress(KeyError), lender.lend() as store:
            store.socket.sendall(frame("PING"))
            raise KeyError
        with lender.lend() as store:
            expect(store is not first and store.ask("BEGIN") == b"OK", "a connection was lent again with a reply to come")
            store.ask("ABORT")
            store.socket.shutdown(socket.SHUT_RDWR)
        with lender.lend() as store:
            expect(store.ask("BEGIN") == b"OK", "a lost connection was lent again")
    with folder() as place, trial(tally, "a pool over a cutting proxy"), Server(fresh(place)) as server:
        proxy, done = Cutting(server.port, random.Random(5), 0.3), []
        lender, threads = pool.Pool(lambda: simple_client.Client(proxy.own_port), 4), Threads()
        for name in range(CLIENTS):
            threads.start(lambda name: done.append(once.once(lender.transact, b"%d" % name, lambda store: once.add_one(store, b"counter"))), name)
        threads.end()
        proxy.close()
        found = simple_client.Client(server.port).transact(lambda store: store.ask("GET", b"counter"))
        expect(len(done) == CLIENTS == int(found or b"0"), f"the counter holds {found}, expected {CLIENTS}")


# Walks

def walks(tally):
    """A walk gives the pairs of its snapshot, with keys of all lengths at the ends of pages, while another client writes."""
    keys = [b"%05d" % n for n in range(300)] + [b"\xff" * n for n in range(1, 257)] + [b"a" * n for n in range(1, 257)]
    keys += [b"z" * 255 + bytes([n]) for n in range(256)]
    with folder() as place, trial(tally, "walks"), Server(fresh(place)) as server:
        reader, writer = simple_client.Client(server.port), simple_client.Client(server.port)
        load.load(writer, ((key, b"1") for key in keys))

        def while_others_write(store, prefix):
            found = []
            for pair in walk.walk(store, prefix):
                found.append(pair)
                if len(found) % 100 == 0:
                    writer.transact(lambda store: [store.ask("SET", key, b"2") for key in (found[0][0], b"00150x", b"zz")] and None)
            return found

        for prefix in (b"", b"0", b"a", b"z", b"\xff", b"\xff\xff", b"none"):
            before = {key: value for key, value in reader.transact(lambda store: list(walk.walk(store)))}
            due = [(key, before[key]) for key in sorted(before) if key.startswith(prefix)]
            found = reader.transact(lambda store: while_others_write(store, prefix))
            expect(found == due, f"a walk over {prefix!r} found {len(found)} pairs, expected {len(due)}")
    with folder() as place, trial(tally, "a walk that is too long"), Server(fresh(place)) as server:
        store = simple_client.Client(server.port)
        load.load(store, ((b"%06d" % n, b"") for n in range(32_767)))
        expect(len(store.transact(lambda store: list(walk.walk(store)))) == 32_767, "32,767 keys are not walked")
        load.load(store, [(b"1", b"")])
        try:
            store.transact(lambda store: list(walk.walk(store)))
            found = "nothing"
        except simple_client.Refused as refusal:
            found = str(refusal)
        expect(found == "FULL marks", f"a walk over 32,768 keys was refused {found}")


# Additions that are made once

def over_new_connection(port):
    """Runs a transaction over a connection of its own to the port that is asked for."""
    return lambda work: simple_client.Client(port()).transact(work)


def additions(tally):
    """Several clients add to one counter over a proxy that cuts connections. Each addition is made once."""
    count = 100 if is_long() else 12
    with folder() as place, trial(tally, "additions over lost connections"), Server(fresh(place)) as server:
        proxy = Cutting(server.port, random.Random(7), 0.5)
        threads = Threads()

        def add(name):
            for number in range(count):
                key = b"%d.%d" % (name, number)
                once.once(over_new_connection(lambda: proxy.own_port), key, lambda store: once.add_one(store, b"counter"))

        for name in range(4):
            threads.start(add, name)
        threads.end()
        proxy.close()
        found = simple_client.Client(server.port).transact(lambda store: store.ask("GET", b"counter"))
        expect(int(found or b"0") == 4 * count, f"the counter holds {found}, expected {4 * count}")
        expect(proxy.cuts > count // 2, f"only {proxy.cuts} connections were cut")
    print(f"  once: {4 * count} additions, {proxy.cuts} connections cut at a COMMIT", flush=True)


def additions_over_kills(tally):
    """One client adds while the server is killed and started again."""
    kills = 20 if is_long() else 4
    with folder() as place, trial(tally, "additions over kills"):
        data, ports, is_done, made = fresh(place), [None], threading.Event(), []

        def add():
            while not is_done.is_set():
                key = b"%d" % len(made)
                once.once(over_new_connection(lambda: ports[0]), key, lambda store: once.add_one(store, b"counter"))
                made.append(key)

        threads, chance = Threads(), random.Random(11)
        for kill in range(kills):
            with Server(data) as server:
                ports[0] = server.port
                if not kill:
                    threads.start(add)
                time.sleep(chance.uniform(0.05, 0.2))
        with Server(data) as server:
            ports[0] = server.port
            is_done.set()
            threads.end()
            found = simple_client.Client(server.port).transact(lambda store: store.ask("GET", b"counter"))
        expect(int(found or b"0") == len(made) > 0, f"the counter holds {found}, expected {len(made)}")


# Copies of the data file

def copies(tally):
    """Copies taken under load, read by `check` and by the exporter."""
    count, done, is_done = 60 if is_long() else 12, [0], threading.Event()

    def commit(port):
        store = simple_client.Client(port)
        while not is_done.is_set() and done[0] < COMMITS_MAX:
            number = done[0] + 1

            def work(store):
                store.ask("SET", b"last", number)
                store.ask("SET", b"%08d" % number, b"v" * (number * 37 % 4_096))
                store.ask("DEL", b"%08d" % (number // 2))

            store.transact(work)
            done[0] = number
            time.sleep(0.001)

    def due(last):
        gone = {number // 2 for number in range(1, last + 1)}
        pairs = {b"%08d" % n: b"v" * (n * 37 % 4_096) for n in range(1, last + 1) if n not in gone}
        return sorted({**pairs, **({b"last": b"%d" % last} if last else {})}.items())

    with folder() as place, trial(tally, "copies under load"), Server(fresh(place)) as server:
        threads, data, copy = Threads(), os.path.join(place, "data"), os.path.join(place, "copy")
        threads.start(commit, server.port)
        for number in range(count):
            wait_for(lambda before=number: done[0] > before or threads.failures, "nothing is committed")
            acknowledged = done[0]
            if number % 3:
                subprocess.run(["cp", data, copy], check=True)
            else:
                shutil.copyfile(data, copy)
            records, keys, _, sectors = check(copy)
            with open(copy, "rb") as file:
                found = export.map_of(file)
            expect(found == due(records), f"copy {number} has {records} records, and another map")
            expect((keys, sectors) == (len(found), SECTORS), f"check counts {keys} keys, the map has {len(found)}")
            expect(records >= acknowledged, f"copy {number} lacks commits that were acknowledged before it began")
        is_done.set()
        threads.end()
        expect(done[0] >= count, "too little was committed meanwhile")
        served = simple_client.Client(server.port).transact(lambda store: list(walk.walk(store)))
        with open(data, "rb") as file:
            pairs = export.map_of(file)
        expect(pairs == served, "the exporter's map is not that of the server")
    with folder() as place, trial(tally, "export and load"), Server(fresh(place)) as server:
        store, pairs = simple_client.Client(server.port), [*pairs, (b"\xfe\n", b"\xff"), (b"\xff", "\u2028\u00e9".encode())]
        load.load(store, (load.pair(export.FORMS["json"](*it)) for it in pairs))
        expect(store.transact(lambda store: list(walk.walk(store))) == pairs, "what was loaded is another map")
    with trial(tally, "export of other files"):
        for content in (b"", b"SSIKVLG0".ljust(512, b"\0"), b"SSIKVLG1".ljust(512, b"\0") + b"\1".ljust(512, b"\0")):
            try:
                found = export.map_of(io.BytesIO(content))
            except export.Damaged as damage:
                found = str(damage)
            expect(found in ("no log", "record 0"), f"{content[:8]!r} of {len(content)} bytes gave {found}")


def into_postgres(tally):
    """The exporter's lines, which PostgreSQL reads by COPY, with keys and values of any bytes."""
    sys.path.append(os.path.join(os.path.dirname(os.path.abspath(__file__)), "..", "bench"))
    import servers
    programs = servers.find_postgres(None)
    if programs is None:
        missing("COPY into PostgreSQL", "PostgreSQL")
        return
    with folder() as place, trial(tally, "COPY into PostgreSQL"), Server(fresh(place)) as server:
        chance, store = random.Random(3), simple_client.Client(server.port)
        load.load(store, ((chance.randbytes(chance.randrange(1, 257)), chance.randbytes(chance.randrange(0, 500))) for _ in range(500)))
        with open(os.path.join(place, "data"), "rb") as file:
            pairs = export.map_of(file)
        lines = "".join(export.FORMS["postgres"](*pair) + "\n" for pair in pairs)
        os.chmod(place, 0o755)    # it runs as another user
        with servers.Postgres(programs, place, 1, 1) as postgres:
            postgres.psql("CREATE TABLE pairs (key bytea PRIMARY KEY, value bytea NOT NULL)")
            words = [postgres.program("psql"), "-h", "127.0.0.1", "-p", str(postgres.port), "-U", "postgres", "-d", "postgres", "-q"]
            subprocess.run([*words, "-c", "COPY pairs (key, value) FROM STDIN"], input=lines.encode(), check=True, timeout=PATIENCE)
            found = postgres.psql("SELECT encode(key, 'hex') || ' ' || encode(value, 'hex') FROM pairs ORDER BY key").splitlines()
        expect([line.strip() for line in found] == [f"{key.hex()} {value.hex()}".strip() for key, value in pairs], "it holds other pairs")


# What other clients meet

def closed_at(port, request):
    """The reply to a request, and whether the server then ends the connection."""
    with socket.create_connection(("127.0.0.1", port), PATIENCE) as link:
        link.sendall(request)
        link.shutdown(socket.SHUT_WR)
        came = b""
        while piece := link.recv(1 << 16):
            came += piece
    return came


def refusals(tally):
    """HELLO, CLIENT and COMMAND are unknown; what is too long, a fifth part and an inline command cost the connection."""
    with folder() as place, Server(fresh(place, 64)) as server:
        store = simple_client.Client(server.port)
        for parts in (("HELLO", "3"), ("CLIENT", "SETNAME", "a"), ("CLIENT", "SETINFO", "LIB-NAME", "a"), ("COMMAND",), ("COMMAND", "DOCS"),
                      ("SELECT", "0"), ("MULTI",), ("EXEC",), ("AUTH", "a"), ("INFO",), ("QUIT",)):
            with trial(tally, " ".join(parts)):
                try:
                    found = store.ask(*parts)
                except simple_client.Refused as refusal:
                    found = str(refusal)
                expect(found == "ERR command" and store.ask("PING") == b"PONG", f"it was answered {found}")
        for name, request in (("an inline command", b"PING\r\n"), ("a fifth part", b"*5\r\n" + 5 * b"$1\r\na\r\n"),
                              ("HELLO with a password", frame("HELLO", "3", "AUTH", "user", "password")),
                              ("SET with an end", frame("SET", "k", "v", "EX", "10")),
                              ("a value over the bound", b"*3\r\n$3\r\nSET\r\n$1\r\na\r\n$999999\r\n" + bytes(4_000))):
            with trial(tally, name):
                found = closed_at(server.port, request + b"*1\r\n$4\r\nPING\r\n")
                expect(found == b"-ERR frame\r\n", f"it was answered {found}")


def said(words, stdin=b""):
    ran = subprocess.run(words, input=stdin, stdout=subprocess.PIPE, stderr=subprocess.STDOUT, timeout=PATIENCE)
    return ran.returncode, ran.stdout.decode(errors="replace")


def redis_tools(tally):
    if not shutil.which("redis-cli") or not shutil.which("redis-benchmark"):
        missing("redis-cli and redis-benchmark", "Debian's redis-tools")
        return
    with folder() as place, Server(fresh(place)) as server:
        at = ["-p", str(server.port)]
        with trial(tally, "redis-cli, one request a run"):
            found = [said(["redis-cli", *at, *line.split()]) for line in ("BEGIN", "SET a 1", "COMMIT")]
            expect([text.strip() for _, text in found] == ["OK", "ERR none", "ERR none"], f"it printed {found}")
        with trial(tally, "redis-cli over its input"):
            found = said(["redis-cli", *at], b"BEGIN\nSET a 1\nCOMMIT\nBEGIN\nGET a\nABORT\n")
            expect(found == (0, "OK\nOK\n1\nOK\n1\nOK\n"), f"it printed {found}")
        with trial(tally, "redis-cli --pipe"):
            requests = b"*1\r\n$5\r\nBEGIN\r\n*3\r\n$3\r\nSET\r\n$1\r\nb\r\n$1\r\n1\r\n*1\r\n$6\r\nCOMMIT\r\n"
            status, text = said(["redis-cli", *at, "--pipe"], requests)
            expect("ERR frame" in text and status == 1, f"it ended with {status}, {text!r}")
            found = simple_client.Client(server.port).transact(lambda store: store.ask("GET", "b"))
            expect(found == b"1", f"behind it b is {found}")
        with trial(tally, "redis-benchmark -t ping"):
            status, text = said(["redis-benchmark", *at, "-t", "ping", "-n", "100", "-q"])
            expect(status == 1 and "ERR frame" in text, f"it ended with {status}, {text!r}")
        with trial(tally, "redis-benchmark -t ping_mbulk"):
            status, text = said(["redis-benchmark", *at, "-t", "ping_mbulk", "-n", "1000", "-q"])
            expect(status == 0 and "requests per second" in text, f"it ended with {status}, {text!r}")


class Resending(over_redis.OverRedis if over_redis else object):
    """As it is where redis-py sends a request again, which it does by default from 6.0 on."""

    def __init__(self, port):
        super().__init__(port)
        self.redis = redis.Redis(port=port, single_connection_client=True, retry=redis.retry.Retry(redis.backoff.NoBackoff(), 3),
                                 retry_on_error=[redis.ConnectionError])


def commits_sent_once(tally):
    """Over a proxy that cuts each COMMIT, `over_redis.py` sends one, and raises. With redis-py's retrying the proxy sees more."""
    for kind in (over_redis.OverRedis, Resending):
        with folder() as place, Server(fresh(place)) as server, contextlib.closing(Cutting(server.port, random.Random(5), 1.0)) as proxy:
            with trial(tally, f"a COMMIT that is cut, {kind.__name__}"):
                try:
                    found = kind(proxy.own_port).transact(lambda store: store.ask("SET", "a", "1"))
                except redis.RedisError as error:
                    found = type(error)
                is_once = found == redis.ConnectionError and proxy.cuts == 1
                expect(is_once == (kind is over_redis.OverRedis), f"it sent {proxy.cuts} COMMITs and gave {found}")


def redis_py(tally):
    if over_redis is None:
        missing("over_redis.py, and what redis-py meets", "redis-py (Debian's python3-redis)")
        return
    transfers(tally, over_redis.OverRedis, "over_redis.py")
    among_others(tally, over_redis.OverRedis, "over_redis.py")
    commits_sent_once(tally)
    with folder() as place, Server(fresh(place)) as server:
        def value_of(key):
            return simple_client.Client(server.port).transact(lambda store: store.ask("GET", key))

        def pipeline(key, transaction):
            pipe = redis.Redis(port=server.port).pipeline(transaction=transaction)
            pipe.execute_command("BEGIN")
            pipe.execute_command("SET", key, "1")
            pipe.execute_command("COMMIT")
            try:
                return pipe.execute()
            except redis.ResponseError as refusal:
                return str(refusal)

        with trial(tally, "redis-py's default pipeline"):
            found = pipeline("p", True), value_of("p")
            expect("command" in found[0] and found[1] == b"1", f"it raised {found}")
        with trial(tally, "redis-py's pipeline without MULTI"):
            found = pipeline("q", False), value_of("q")
            expect(found == ([b"OK", True, 2], b"1") or found[0][-1] > 0 and found[1] == b"1", f"it gave {found}")
        with trial(tally, "redis-py's pool over several threads"):
            shared, threads = redis.Redis(port=server.port), Threads()
            met = []

            def one():
                for parts in (("BEGIN",), ("SET", "r", "1"), ("COMMIT",)) * 20:
                    try:
                        shared.execute_command(*parts)
                    except redis.ResponseError as refusal:
                        met.append(str(refusal))

            for _ in range(8):
                threads.start(one)
            threads.end()
            expect(met, "eight threads over one pool met no refusal")
        with trial(tally, "redis-py's refusals"):
            store = redis.Redis(port=server.port, single_connection_client=True)
            found = []
            for parts in (("GET", "a"), ("BEGIN",), ("BEGIN",)):
                try:
                    store.execute_command(*parts)
                except redis.ResponseError as refusal:
                    found.append(str(refusal))
            expect(found == ["none", "open"], f"their texts are {found}")
        with trial(tally, "redis-py's next request on a lost connection"):
            store.connection._sock.shutdown(socket.SHUT_RDWR)
            found = []
            for _ in range(2):
                try:
                    store.execute_command("GET", "a")
                except redis.RedisError as refusal:
                    found.append(str(refusal))
            expect(found[-1:] == ["none"], f"they are answered {found}")
        with trial(tally, "redis-py's DEL"):
            store = redis.Redis(port=server.port, single_connection_client=True)
            store.execute_command("BEGIN")
            try:
                found = store.execute_command("DEL", "p")
            except ValueError as error:
                found = str(error)
            expect("invalid literal" in str(found), f"it gave {found}")


class Clients(Harness):
    NAME = "clients"
    NEEDS = (PROGRAM,)
    PARTS = (pools, walks, additions, additions_over_kills, copies, refusals, redis_tools, redis_py)
    PARTS_OF_LONG = (into_postgres,)

    def test_transfers(self):
        transfers(self.tally, simple_client.Client, "simple_client.py")

    def test_among_others(self):
        among_others(self.tally, simple_client.Client, "simple_client.py")


if __name__ == "__main__":
    run_harness()
