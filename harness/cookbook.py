"""The recipes of docs/COOKBOOK.md, which stand among the examples of the client packages, against `serve` under conflicts.

Each recipe in Python is run by several clients at once, and a judge looks at what they leave. Each judge is also shown a wrong form of the recipe,
and must see it: a range that is read in another transaction, an index without its deletion, a queue that deletes nothing. The code that
the document shows must be that of the file. It prints how many tries a commit takes. Then the recipes of all languages are run.

`quick` does less of each. `--links` writes the document's links to the lines of the recipes in the other languages.
"""
import bisect
import concurrent.futures
import contextlib
import itertools
import os
import random
import re
import threading
import time

from ssikvd_harness import recipe_calls
from ssikvd_harness.arguments import is_long, run_harness
from ssikvd_harness.cases import Harness
from ssikvd_harness.deviations import Deviation, expect
from ssikvd_harness.examples import simple_client, walk
from ssikvd_harness.recipe_judges import (
    Client, booked, items_of, key, not_indexed, not_inverse, once, overlaps, recipes, torn, under, wrong_holds, wrong_takes)
from ssikvd_harness.server import Server, create, folder
from ssikvd_harness.settings import PATIENCE, PROGRAM, TOP

DOCUMENT = "docs/COOKBOOK.md"
SECTORS = 262_144
CLIENTS = 8
RECIPES = "clients/python/examples/recipes.py"


@contextlib.contextmanager
def trial(tally, what):
    """One run over a server of its own, in which a refusal that a recipe did not look for is a deviation. Yields the server's port."""
    with tally.run(what), folder() as place:
        data = os.path.join(place, "data")
        create(data, SECTORS)
        with Server(data) as server:
            try:
                yield server.port
            except (simple_client.Refused, simple_client.Lost) as found:
                raise Deviation(f"{type(found).__name__}: {found}") from None


def at_once(port, *works):
    """Runs each work in a transaction of its own, all of them begun before the first commits. What each gave; None where it was refused."""
    clients = [Client(port) for _ in works]
    for client in clients:
        client.ask("BEGIN")
    given = [work(client) for client, work in zip(clients, works)]
    return [result if is_committed(client) else None for client, result in zip(clients, given)]


def is_committed(client):
    try:
        client.ask("COMMIT")
    except simple_client.Refused as refusal:
        expect(str(refusal).startswith("CONFLICT"), f"COMMIT was refused {refusal}")
        return False
    return True


def crowd(port, play, count=CLIENTS, kind=Client):
    """Runs play(client, number) in this many threads, each with a connection. What each gave."""
    def one(number):
        return play(kind(port), number)

    with concurrent.futures.ThreadPoolExecutor(count) as pool:
        return list(pool.map(one, range(count), timeout=6 * PATIENCE))


class Counting(Client):
    """A client that counts the COMMITs that it sends."""

    commits = 0

    def ask(self, *parts):
        self.commits += parts[0] == "COMMIT"
        return super().ask(*parts)


# The document

def in_document(text):
    """The blocks of Python in a document."""
    return re.findall(r"^```python\n(.*?)^```$", text, re.M | re.S)


def of_other_code(text):
    """The blocks of a document that are not to be found in the recipes in Python."""
    return [block for block in in_document(text) if block not in read(RECIPES)]


def read(name):
    with open(os.path.join(TOP, name), encoding="utf-8") as file:
        return file.read()


def document(tally):
    with tally.run("the code in the document"):
        text = read(DOCUMENT)
        expect(not of_other_code(text), f"{DOCUMENT} has code that {RECIPES} has not: {of_other_code(text)[:1]}")
        expect(len(of_other_code(text.replace("transaction.set", "transaction.sets"))) > 5, "code that was changed isn't seen")
        parts = re.split(r"^# (.*)\n", read(RECIPES), flags=re.M)
        for name, code in zip(parts[1::2], parts[2::2]):
            name, is_shown = name.split(".")[0], any(block in code for block in in_document(text))
            expect(name == "The calls" or is_shown and f"\n## {name}\n" in text, f"{DOCUMENT} shows nothing of {name!r}")
        expect(text.count("\nThe same in [") == text.count("\n## "), "a recipe has no links to the other languages")
        expect(with_links(text) == text, "the links to the recipes in other languages are others: `cookbook.py --links` writes them")
        expect(with_links(text.replace("#L", "#L1")) == text, "a link to another line isn't seen")


def with_links(text):
    """The document with the links to each recipe's line in the other languages."""
    places = re.findall(r"^\| (\w+) \| \[[^]]*\]\((\.\./[^)]*)\)", text, re.M)[1:]

    def links(name):
        found = [f"[{language}]({place}#L{line_of(name, read(os.path.join('docs', place)))})" for language, place in places]
        return f"The same in {', '.join(found[:-1])} and {found[-1]}."

    parts = re.split(r"^(## .*\n)", text, flags=re.M)
    for at in range(1, len(parts), 2):
        parts[at + 1] = re.sub(r"^The same in \[.*\]\(.*\)\.$", lambda _, at=at: links(parts[at][3:-1]), parts[at + 1], flags=re.M)
    return "".join(parts)


def line_of(name, code):
    """The number of the line with the comment that names the recipe."""
    lines = [number for number, line in enumerate(code.splitlines(), 1) if re.match(rf" *// {name}\b", line)]
    expect(len(lines) == 1, f"the recipe {name!r} stands at the lines {lines}")
    return lines[0]


def write_links():
    with open(os.path.join(TOP, DOCUMENT), "r+", encoding="utf-8") as file:
        text = with_links(file.read())
        file.seek(0)
        file.write(text)
        file.truncate()


# Keys

def random_parts(chance):
    def part():
        if chance.random() < 0.5:
            return chance.choice((0, 1, -1, 255, 256, -256, 2 ** 63 - 1, -2 ** 63, chance.randrange(-10 ** 6, 10 ** 6)))
        return bytes(chance.choice((0, 1, 2, 97, 98, 254, 255)) for _ in range(chance.randrange(4)))

    return [part() for _ in range(chance.randrange(1, 4))]


def by_parts(parts):
    return [(not isinstance(part, int), part) for part in parts]


def wrongly_ordered(spell, lists):
    """Neighbours whose keys stand in another order than their parts."""
    lists = sorted(lists, key=by_parts)
    return [pair for pair in itertools.pairwise(lists) if pair[0] != pair[1] and not spell(*pair[0]) < spell(*pair[1])]


def wrongly_found(spell, lists, prefix):
    """Lists of parts that a range under the prefix holds and should not, or lacks."""
    spelled = sorted((spell(*parts), parts) for parts in lists)
    lo, hi = spell(*prefix), walk.end_of(spell(*prefix))
    found = [parts for _, parts in spelled[bisect.bisect_left(spelled, (lo,)):bisect.bisect_left(spelled, (hi,))]]
    return sorted(map(by_parts, found)) != sorted(by_parts(parts) for parts in lists if by_parts(parts[:len(prefix)]) == by_parts(prefix))


def joined(*parts):
    """A wrong spelling: decimals and texts with a separator between them."""
    return b"/".join(b"%d" % part if isinstance(part, int) else part for part in parts)


def keys(tally):
    chance = random.Random(5)
    lists = [random_parts(chance) for _ in range(20_000 if is_long() else 3_000)]
    with tally.run("keys of several parts"):
        for parts in lists:
            expect(recipes.parts_of(key(*parts)) == parts, f"{parts} come back as {recipes.parts_of(key(*parts))}")
        expect(not wrongly_ordered(key, lists), f"in the wrong order: {wrongly_ordered(key, lists)[:1]}")
        expect(wrongly_ordered(joined, [[9], [10], [2]]), "decimals in a wrong order aren't seen")
        prefixes = [parts for parts in lists[:300] if len(parts) < 3]
        expect(not any(wrongly_found(key, lists, prefix) for prefix in prefixes), "a range under a prefix holds others")
        expect(wrongly_found(joined, [[b"a", b"b"], [b"ab"]], [b"a"]), "a range that holds others isn't seen")
    with trial(tally, "keys of several parts in the store") as port:
        some = sorted({key(*parts) for parts in lists[:400]})
        client = Client(port)
        for at in range(0, len(some), 64):
            client.transact(lambda store: [store.ask("SET", it, b"") for it in some[at:at + 64]])
        expect([it for it, _ in client.transact(lambda store: list(walk.walk(store)))] == some, "the store has another order")


# Reservations

def book(room, start, end):
    return lambda store: recipes.book(store, room, start, end, "x") is None


def write_alone(room, start, end):
    """The wrong form: that nobody has it was read in a transaction before this one."""
    return lambda store: store.ask("SET", key("booking", room, end), f"{start} x")


TIMES = (("equal ends", (9, 11), (10, 11)), ("equal starts", (9, 10), (9, 12)), ("one within the other", (8, 15), (10, 11)),
         ("one after the other's start", (9, 11), (10, 12)), ("the other way round", (10, 12), (9, 11)))


def reservation(tally):
    for name, one, other in TIMES:
        with trial(tally, f"two bookings at once, {name}") as port:
            for others in (("a", 1, 2), ("a", 20, 21), ("b", 9, 12)):
                once(port, book(*others))
            found = at_once(port, book("a", *one), book("a", *other))
            expect(found == [True, None], f"two bookings at once, {name}: {found}")
            expect(once(port, book("a", *other)) is False, f"the second, {name}, was booked when it began again")
            expect(once(port, book("a", 12 if one[1] < 12 else 15, 20)), "what touches others was not booked")
            expect(not overlaps(booked(port)), f"double bookings: {overlaps(booked(port))}")
    with trial(tally, "the judge of bookings") as port:
        expect(once(port, lambda store: recipes.holder(store, "a", 9, 12)) is None, "an empty room is held")
        at_once(port, write_alone("a", 9, 11), write_alone("a", 10, 12))
        expect(overlaps(booked(port)), "two bookings without the range were not seen")
    right, sent = book_in_crowd(tally, True)
    wrong, _ = book_in_crowd(tally, False)
    print(f"  reservations: {right} booked in {sent} COMMITs; with the range in another transaction {wrong} were double", flush=True)


def book_in_crowd(tally, is_right):
    """Many clients book times of two rooms. How many bookings there are, how many are double, and the COMMITs that were sent."""
    count = 150 if is_long() else 25

    def play(client, number):
        chance, own = random.Random(number), 0
        for _ in range(count):
            start, room = chance.randrange(40 * count), chance.choice("ab")
            end = start + chance.randrange(1, 40)
            if is_right:
                own += client.transact(book(room, start, end))
            elif client.transact(lambda store: recipes.holder(store, room, start, end)) is None:
                client.transact(write_alone(room, start, end))
        return own, client.commits

    with trial(tally, "bookings of many clients" if is_right else "bookings without the range") as port:
        own, sent = map(sum, zip(*crowd(port, play, kind=Counting)))
        found = booked(port)
        if not is_right:
            return len(overlaps(found)), sent
        expect(not overlaps(found), f"{len(overlaps(found))} double bookings, first {overlaps(found)[:1]}")
        expect(own == len(found) > CLIENTS, f"{own} were reported, {len(found)} are there")
        return own, sent
    return 0, 0


# A unique index, and an index of many

def uniqueness(tally):
    with trial(tally, "one address for two users at once") as port:
        found = at_once(port, lambda store: recipes.register(store, "ann", "x"), lambda store: recipes.register(store, "bob", "x"))
        expect(found == [True, None], f"two users with one address: {found}")
        expect(not once(port, lambda store: recipes.register(store, "bob", "x")), "bob was given ann's address")
        expect(once(port, lambda store: recipes.register(store, "ann", "y")), "ann was refused another address")
        expect(once(port, lambda store: recipes.register(store, "bob", "x")), "bob was refused a free address")
        expect(not not_inverse(port), f"the index is wrong: {not_inverse(port)}")
        once(port, lambda store: [store.ask("SET", key("address", b"y"), b"bob"), store.ask("SET", key("user", b"bob"), b"y")])
        expect(not_inverse(port), "an address of two users isn't seen")
    with trial(tally, "addresses of many clients") as port:
        def play(client, number):
            chance = random.Random(number)
            for _ in range(100 if is_long() else 15):
                user, address = f"u{chance.randrange(6)}", f"a{chance.randrange(8)}"
                client.transact(lambda store: recipes.register(store, user, address))

        crowd(port, play)
        expect(not not_inverse(port), f"the index is wrong: {not_inverse(port)}")


def indexes(tally):
    states = [b"waiting", b"running", b"done", b"wait\0ing"]
    with trial(tally, "the judge of indexes") as port:
        once(port, lambda store: [recipes.put(store, b"t", state) for state in states])
        expect(once(port, lambda store: [recipes.with_state(store, it) for it in states]) == [[], [], [], ["t"]], "a task has two states")
        once(port, lambda store: store.ask("SET", key("by state", b"done", b"t"), b""))
        expect(once(port, not_indexed), "an entry that was not deleted isn't seen")
    with trial(tally, "an index while others write") as port:
        is_done = threading.Event()

        def play(client, number):
            chance = random.Random(number)
            if number == 0:
                found, looks = 0, 0
                while not is_done.is_set() or not looks:
                    found += bool(client.transact(not_indexed))
                    looks += 1
                return found
            for _ in range(100 if is_long() else 15):
                task, state = b"%d" % chance.randrange(20), chance.choice(states)
                client.transact(lambda store: recipes.put(store, task, state))
            if number == 1:
                is_done.set()
            return 0

        expect(not any(crowd(port, play, 5)), "a reader found an index that was not that of the tasks")
        expect(not once(port, not_indexed), "at the end the index is another")


# Holds

def held_seats(tally):
    with trial(tally, "holds, step by step") as port:
        def do(work, *arguments):
            return once(port, lambda store: work(store, *arguments))

        expect(do(recipes.hold, "1", "ann", 100, 10) and not do(recipes.hold, "1", "bob", 109, 10), "a held seat was held")
        expect(not do(recipes.buy, "1", "bob", 105) and not do(recipes.buy, "1", "ann", 110), "one without a hold bought")
        expect(do(recipes.hold, "1", "bob", 110, 10), "a hold whose time was over was kept")
        expect(do(recipes.sweep, 119) == 0 and do(recipes.buy, "1", "bob", 119), "a running hold was swept")
        expect(not do(recipes.hold, "1", "ann", 200, 10) and not do(wrong_holds), "a sold seat was held")
        do(recipes.hold, "2", "ann", 100, 10)
        found = at_once(port, lambda store: recipes.buy(store, "2", "ann", 105), lambda store: recipes.sweep(store, 110))
        expect(found == [True, None], f"a purchase and a sweep at once gave {found}")
        for seat in range(70):
            do(recipes.hold, f"many {seat}", "ann", 100, seat % 3)
        swept = [do(recipes.sweep, 200) for _ in range(4)]
        expect(swept == [32, 32, 6, 0] and not do(wrong_holds), f"sweeps dropped {swept}")
        do(recipes.hold, "3", "ann", 100, 10)
        do(lambda store: store.ask("DEL", key("hold", "3")))
        expect(do(wrong_holds), "a hold that went without its end isn't seen")
    with trial(tally, "holds of many clients") as port:
        clock = itertools.count(100)

        def play(client, number):
            chance, bought = random.Random(number), []
            for _ in range(100 if is_long() else 20):
                seat, now, who = str(chance.randrange(12)), next(clock), str(number)
                if number == 0:
                    client.transact(lambda store: recipes.sweep(store, now))
                    expect(not client.transact(wrong_holds), "holds and their ends don't fit")
                elif client.transact(lambda store: recipes.hold(store, seat, who, now, 12)):
                    later = next(clock)
                    bought += [seat] if client.transact(lambda store: recipes.buy(store, seat, who, later)) else []
            return bought

        bought = list(itertools.chain(*crowd(port, play)))
        expect(len(bought) == len(set(bought)) > 0, f"seats were sold twice: {sorted(bought)}")
        sold = {seat.decode() for (seat,), _ in once(port, under("sold"))}
        expect(sold == set(bought), f"reported are {sorted(bought)}, sold are {sorted(sold)}")


# Jobs

def queue(tally):
    with trial(tally, "a queue, step by step") as port:
        for number in range(5):
            once(port, lambda store: recipes.enqueue(store, b"%d" % number, number, 1))
        expect(at_once(port, recipes.take, recipes.take) == [b"0", None], "two clients took the head")
        puts = [lambda store, at=at: recipes.enqueue(store, b"%d" % at, at, 1) or True for at in (5, 6)]
        expect(at_once(port, *puts, recipes.take) == [True, True, b"1"], "puts and a take met")
        found = [once(port, recipes.take) for _ in range(6)]
        expect(found == [b"2", b"3", b"4", b"5", b"6", None], f"they were taken as {found}")
        expect(at_once(port, recipes.take, puts[0]) == [None, True], "a take from an empty queue and a put gave another reply")

        def put_behind(store):
            store.ask("GET", key("job", 5, 1))
            recipes.enqueue(store, b"7", 7, 1)
            return True

        expect(at_once(port, recipes.take, put_behind) == [b"5", True], "a take marked more than the head")
    for take in (recipes.take, "near", "kept"):
        jobs_in_crowd(tally, take)


def jobs_in_crowd(tally, take):
    """Producers and consumers at once. Where the heads are kept, which is the wrong form, jobs are taken twice."""
    count, is_over = 60 if is_long() else 12, threading.Event()

    def one(client):
        if take == "near":
            return recipes.take_near(client, 4)
        if take == "kept":
            return client.transact(lambda store: (store.ask("RANGE", *recipes.under("job"), 1) or [None, None])[1])
        return client.transact(take)

    def play(client, number):
        if number < 4:
            for turn in range(count):
                client.transact(lambda store: recipes.enqueue(store, b"%d.%d" % (number, turn), time.time_ns(), number))
            return []
        taken = []
        while len(taken) < 4 * count:
            job = one(client)
            if job is None and is_over.is_set():
                break
            taken += [job] if job is not None else []
        return taken

    with trial(tally, f"jobs of many clients, {take}") as port:
        with concurrent.futures.ThreadPoolExecutor(8) as pool:
            all_of_them = [pool.submit(play, Client(port), number) for number in range(8)]
            for future in all_of_them[:4]:
                future.result(6 * PATIENCE)
            is_over.set()
            taken = list(itertools.chain(*(future.result(6 * PATIENCE) for future in all_of_them[4:])))
        wrong = wrong_takes([b"%d.%d" % (number, turn) for number in range(4) for turn in range(count)], taken)
        expect(bool(wrong) == (take == "kept"), f"taken twice or not at all: {list(wrong)[:3]}")


# Counters

def counters(tally):
    with trial(tally, "a counter, step by step") as port:
        place = key("hits")
        expect(at_once(port, *[lambda store: recipes.add(store, place) or True] * 2) == [True, None], "an addition was lost")
        spread = [lambda store, number=number: recipes.add(store, key("hits", number)) or True for number in range(5)]
        expect(at_once(port, *spread) == [True] * 5, "writers of keys of their own met")
        expect(once(port, lambda store: recipes.total(store, "hits")) == 6, "the sum is another")
        read = [once(port, lambda store: int(store.ask("GET", place))) for _ in range(2)]
        for number in read:
            once(port, lambda store: store.ask("SET", place, number + 1))
        expect(once(port, lambda store: recipes.total(store, "hits")) != 8, "an addition that was lost isn't seen")


def table(tally):
    """How many COMMITs it takes, for 1, 2, 4 and 8 clients at once, to add to a counter and to take a job from a queue."""
    for name, fill, work in WORKS:
        cells = []
        for clients in (1, 2, 4, 8):
            count = 1_600 // clients if is_long() else 12
            with trial(tally, f"{name}, {clients} clients") as port:
                for at in range(0, clients * count if fill else 0, 64):
                    once(port, lambda store: [recipes.enqueue(store, b"", it, 0) for it in range(at, min(at + 64, clients * count))])
                begun = time.monotonic()
                sent = sum(crowd(port, lambda client, number: commits_of(client, lambda: work(client, number), count), clients, Counting))
                seconds = time.monotonic() - begun
                left = once(port, lambda store: recipes.total(store, "hits")) if not fill else clients * count - len(once(port, under("job")))
                expect(left == clients * count, f"{left} were done, expected {clients * count}")
                expect(sent >= left and (name != "a counter spread" or sent == left), f"{sent} COMMITs for {left}")
                cells.append(f"{sent / left:.2f} ({left / seconds:,.0f}/s)")
        print(f"  COMMITs for each of {name}, 1, 2, 4, 8 clients: {', '.join(cells)}", flush=True)


WORKS = (
    ("a counter in one key", False, lambda client, number: client.transact(lambda store: recipes.add(store, key("hits")))),
    ("a counter spread", False, lambda client, number: client.transact(lambda store: recipes.add(store, key("hits", number)))),
    ("the head of a queue", True, lambda client, number: client.transact(recipes.take)),
    ("one of its first 16 jobs", True, lambda client, number: recipes.take_near(client, 16)))


def commits_of(client, work, count):
    """How many COMMITs the client sends while it does the work so often."""
    for _ in range(count):
        work()
    return client.commits


# Batches

def batches(tally):
    with trial(tally, "batches of all lengths") as port:
        for version, count in enumerate((1, 61, 62, 63, 64, 124, 125, 300), 1):
            recipes.load(Client(port), "prices", version, items_of(version, count))
            found = once(port, lambda store: recipes.read(store, "prices"))
            expect(found == items_of(version, count), f"of {count} items {len(found)} are read")
        cleared = [once(port, lambda store: recipes.clear(store, "prices")) for _ in range(9)]
        expect(cleared == [*[64] * 7, 52, 0], f"{cleared} items were cleared")
        expect(once(port, lambda store: recipes.read(store, "prices")) == items_of(8, 300), "the current version was cleared")
        recipes.load(Client(port), "prices", 6, items_of(6, 124))
        expect(once(port, lambda store: recipes.current(store, "prices")) == 8, "an old version became the current one again")
    with trial(tally, "batches that are interrupted") as port:
        recipes.load(Client(port), "prices", 1, items_of(1, 300))
        for steps in range(6):
            for _ in range(steps):
                once(port, lambda store: recipes.step(store, "prices", steps + 2, items_of(steps + 2, 300)))
            found = once(port, lambda store: recipes.read(store, "prices"))
            expect(found == items_of(steps + 2 if steps == 5 else steps + 1, 300), f"behind {steps} steps {len(found)} items are read")
            recipes.load(Client(port), "prices", steps + 2, items_of(steps + 2, 300))
            expect(once(port, lambda store: recipes.read(store, "prices")) == items_of(steps + 2, 300), "it did not go on")
        once(port, lambda store: store.ask("SET", key("item", "prices", 7, b"00123"), b"6"))
        expect(torn(once(port, lambda store: recipes.read(store, "prices")), 300), "a version of two batches isn't seen")
    batches_in_crowd(tally)


def batches_in_crowd(tally):
    """Two clients load the same versions at once and clear the old ones, while others read."""
    versions, count, is_done = 12 if is_long() else 4, 300, threading.Event()

    def play(client, number):
        looks = 0
        while number > 1 and not (is_done.is_set() and looks):
            items = client.transact(lambda store: recipes.read(store, "prices"))
            expect(not torn(items, count), f"a reader found {len(items)} items that are no version")
            looks += 1
        for version in range(1, versions + 1) if number <= 1 else ():
            recipes.load(client, "prices", version, items_of(version, count))
            while client.transact(lambda store: recipes.clear(store, "prices")):
                pass
        if number <= 1:
            is_done.set()

    with trial(tally, "batches while others read") as port:
        crowd(port, play, 4)
        expect(once(port, lambda store: recipes.read(store, "prices")) == items_of(versions, count), "the last version isn't there")
        left = once(port, under("item", "prices"))
        expect(len(left) == count, f"{len(left)} items are left, of which {count} are current")


def batches_over_kills(tally):
    """The server is killed while a batch is loaded, and the loader starts again."""
    with tally.run("batches over kills"), folder() as place:
        data, chance, kills = os.path.join(place, "data"), random.Random(3), 0
        create(data, SECTORS)
        for version in range(1, 13):
            is_whole = False
            while not is_whole:
                with Server(data) as server:
                    items = once(server.port, lambda store: recipes.read(store, "prices"))
                    expect(not torn(items, 2_000), f"behind a kill there are {len(items)} items that are no version")
                    threading.Timer(chance.uniform(0, 0.05), server.process.kill).start()
                    with contextlib.suppress(simple_client.Lost, ConnectionError):
                        recipes.load(Client(server.port), "prices", version, items_of(version, 2_000))
                        is_whole = True
                    server.process.wait(PATIENCE)
                    kills += 1
        with Server(data) as server:
            expect(once(server.port, lambda store: recipes.read(store, "prices")) == items_of(12, 2_000), "the last version isn't there")
        print(f"  batches over kills: {kills} kills", flush=True)


def longest(tally):
    """The longest list that one transaction reads, and one item more."""
    with trial(tally, "the longest list") as port:
        for version, count in ((1, 32_639), (2, 32_640)):
            recipes.load(Client(port), "prices", version, items_of(version, count))
            try:
                found = len(once(port, lambda store: recipes.read(store, "prices")))
            except simple_client.Refused as refusal:
                found = str(refusal)
            expect(found == (count if version == 1 else "FULL marks"), f"a list of {count} items was answered {found}")


def options(parser):
    parser.add_argument("--links", action="store_true", help="write the document's links to the lines of the recipes in other languages")


def instead(asked):
    """Writes the links if asked to."""
    if not asked.links:
        return None
    write_links()
    return 0


class Cookbook(Harness):
    NAME = "cookbook"
    NEEDS = (PROGRAM,)
    PARTS = (document, keys, reservation, uniqueness, indexes, held_seats, queue, counters, table, batches, recipe_calls.in_languages)
    PARTS_OF_LONG = (longest, batches_over_kills)


if __name__ == "__main__":
    run_harness(options, instead)
