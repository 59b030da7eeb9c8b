"""The jobs of harness/packages.py: `harness.py ADDRESS JOB WORDS..` over `ssikvd`, `harness.py aio ADDRESS ..` over `ssikvd.aio`.

They are written as coroutines. Over the store for threads `Threads` runs them: nothing in them then suspends.
"""
import asyncio
import sys

import ssikvd
from ssikvd import aio


class Raised(Exception):
    """What a work of ours raises."""


class Transaction:
    """A transaction for threads, with the calls of one for asyncio."""

    def __init__(self, transaction):
        self.of = transaction

    async def get(self, key):
        return self.of.get(key)

    async def set(self, key, value):
        self.of.set(key, value)

    async def range(self, *bounds):
        for pair in self.of.range(*bounds):
            yield pair


class Threads:
    """A store for threads, with the calls of one for asyncio."""

    def __init__(self, store):
        self.store = store

    async def transact(self, work, deadline=None):
        return self.store.transact(lambda transaction: run(work(Transaction(transaction))), deadline)

    async def once(self, key, work):
        return self.store.once(key, lambda transaction: run(work(Transaction(transaction))))

    def close(self):
        self.store.close()

    @staticmethod
    async def connect(address, **options):
        return Threads(ssikvd.connect(address, **options))

    @staticmethod
    async def together(workers):
        return await asyncio.gather(*(asyncio.to_thread(run, worker) for worker in workers))


class Tasks:
    """The same for asyncio."""

    connect = staticmethod(aio.connect)

    @staticmethod
    async def together(workers):
        return await asyncio.gather(*workers)


def run(steps):
    """Runs a coroutine that never suspends."""
    try:
        steps.send(None)
    except StopIteration as ended:
        return ended.value


def shown(error):
    if isinstance(error, ssikvd.Conflict):
        return f"Conflict key {error.key.hex()}" if error.key is not None else f"Conflict pivot {error.pivot}"
    if isinstance(error, ssikvd.Full):
        return f"Full {error.limit}"
    return f"Refused {error.text}" if type(error) is ssikvd.Refused else type(error).__name__


async def attempt(steps):
    """What the steps give as text, or their error."""
    try:
        return str(await steps)
    except (ssikvd.Error, Raised) as error:
        return shown(error)


async def count(form, address, name, workers, times):
    store, tries = await form.connect(address, connections=4, deadline=60), []

    async def add(transaction):
        tries.append(1)
        await transaction.set(name, str(int(await transaction.get(name) or b"0") + 1))

    async def worker(number):
        for turn in range(int(times)):
            await store.once(f"{name}:{number}:{turn}", add)

    await form.together([worker(number) for number in range(int(workers))])
    found = await store.transact(lambda transaction: transaction.get(name))
    print(f"counter {(found or b'0').decode()} tries {len(tries)}")


async def reserve(form, address, room, workers, times):
    store = await form.connect(address, deadline=60)

    async def book(transaction, number, turn):
        start = (13 * number + 7 * turn) % 60
        end = start + 1 + (number + turn) % 5
        async for _, value in transaction.range(f"{room}:{start + 1:03}", f"{room};", 1):
            if int(value.split()[0]) < end:
                return "taken"
        await transaction.set(f"{room}:{end:03}", f"{start} {number} {turn}")
        return "booked"

    async def worker(number):
        for turn in range(int(times)):
            found = await store.once(f"by:{room}:{number}:{turn}", lambda transaction: book(transaction, number, turn))
            print(f"{number} {turn} {found.decode()}\n", end="")

    await form.together([worker(number) for number in range(int(workers))])


async def walk(form, address, pairs):
    store, at, number, total = await form.connect(address, deadline=60), b"\0", 0, 0

    async def some(transaction):
        return [pair async for pair in transaction.range(at, None, int(pairs))]

    while at is not None:
        found = await store.transact(some)
        for key, value in found:
            for byte in key + value:
                total = (31 * total + byte) % 1_000_000_007
        number += len(found)
        at = ssikvd.after(found[-1][0]) if len(found) == int(pairs) else None
    print(f"pairs {number} sum {total}")


async def errors(form, address):
    store, small = await form.connect(address), await form.connect(address, connections=1)
    kept = []

    async def overwritten(transaction):
        await transaction.set("k", "1")
        await store.transact(lambda other: other.set("k", "2"))

    async def pivot(transaction):
        await transaction.get("x")
        await transaction.set("y", "1")
        await store.transact(crossing)

    async def crossing(other):
        await other.get("y")
        await other.set("x", "1")

    async def writes(transaction):
        for number in range(65):
            await transaction.set(f"w{number}", "")

    async def marks(transaction):
        for number in range(257):
            await transaction.get(f"m{number}")

    async def connections(transaction):
        await small.transact(lambda other: other.get("k"), 0)

    async def zero_limit(transaction):
        async for _ in transaction.range("", None, 0):
            pass

    async def keep(transaction):
        kept.append(transaction)

    async def raised(transaction):
        await transaction.set("raised", "1")
        raise Raised

    for what, held, work in (
            ("overwritten", store, overwritten), ("pivot", store, pivot), ("writes", store, writes), ("marks", store, marks),
            ("connections", small, connections), ("empty key", store, lambda it: it.get("")),
            ("long key", store, lambda it: it.get("a" * 257)), ("long value", store, lambda it: it.set("a", "a" * 16_385)),
            ("zero limit", store, zero_limit)):
        print(f"{what}: {await attempt(held.transact(work, 0))}")
    await store.transact(keep)
    print("ended:", await attempt(kept[0].get("k")))
    print("raised:", await attempt(store.transact(raised)))
    print("after it:", "none" if await store.transact(lambda it: it.get("raised")) is None else "kept")
    store.close()
    print("closed:", await attempt(store.transact(keep)))


async def set_key(form, address, key, value, deadline, reply_timeout):
    async def steps():
        store = await form.connect(address, deadline=float(deadline), reply_timeout=float(reply_timeout))
        await store.transact(lambda transaction: transaction.set(key, value))
        return "done"

    print(await attempt(steps()))


async def once(form, address, key, deadline, reply_timeout):
    async def work(transaction):
        return "made"

    async def steps():
        store = await form.connect(address, deadline=float(deadline), reply_timeout=float(reply_timeout))
        return (await store.once(key, work)).decode()

    print(await attempt(steps()))


JOBS = {"count": count, "reserve": reserve, "walk": walk, "errors": errors, "set": set_key, "once": once}

if __name__ == "__main__":
    words = sys.argv[1:]
    form = Tasks if words[0] == "aio" else Threads
    address, job, *rest = words[1:] if form is Tasks else words
    asyncio.run(JOBS[job](form, address, *rest))
