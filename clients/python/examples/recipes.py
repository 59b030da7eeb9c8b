"""The recipes of docs/COOKBOOK.md: `recipes.py ADDRESS CALL WORDS..`. Without a call it takes calls from its input, one in each line.

Each function that takes a transaction is part of a work of `Store.transact`, and may run more than once. Names and values are texts.
"""
import os
import random
import sys
import time

import ssikvd

# Keys of several parts

INTEGER, TEXT = 1, 2


def key(*parts):
    """The key of these parts. Where two keys differ in a part, the first such part decides which is the lesser."""
    return b"".join(integer(part) if isinstance(part, int) else text(part) for part in parts)


def integer(number):
    """Eight bytes, the greatest first. With 2 ** 63 added, the negative ones come before zero."""
    return bytes([INTEGER]) + (number + 2 ** 63).to_bytes(8, "big")


def text(part):
    """The text and an end that is less than all that may follow. A zero byte in the text is written as 0, 255; the end is 0, 1."""
    data = part if isinstance(part, bytes) else part.encode()
    return bytes([TEXT]) + data.replace(b"\0", b"\0\xff") + b"\0\1"


def parts_of(key):
    """The parts of a key, its texts as bytes."""
    parts, at = [], 0
    while at < len(key):
        if key[at] == INTEGER:
            end = at + 9
            parts.append(int.from_bytes(key[at + 1:end], "big") - 2 ** 63)
        else:
            end = key.index(b"\0\1", at) + 2
            parts.append(key[at + 1:end - 2].replace(b"\0\xff", b"\0"))
        at = end
    return parts


def under(*parts):
    """The bounds of a range over all keys whose first parts are these."""
    return key(*parts), ssikvd.end_of_prefix(key(*parts))


# Reservations

def holder(transaction, room, start, end):
    """Who has the room at some moment from the start up to the end; None where nobody has."""
    _, end_of_room = under("booking", room)
    for _, value in transaction.range(key("booking", room, start + 1), end_of_room, 1):    # the first booking that ends after the start
        begin, who = value.decode().split(" ", 1)
        return who if int(begin) < end else None
    return None


def book(transaction, room, start, end, who):
    """Books the room, unless someone has it then. Gives who had it."""
    other = holder(transaction, room, start, end)
    if other is None:
        transaction.set(key("booking", room, end), f"{start} {who}")
    return other


# A unique address

def register(transaction, user, address):
    """Gives the user the address in place of the one before, unless another has it. Did it?"""
    if transaction.get(key("address", address)) not in (None, user.encode()):
        return False
    old = transaction.get(key("user", user))
    if old is not None:
        transaction.delete(key("address", old))
    transaction.set(key("address", address), user)
    transaction.set(key("user", user), address)
    return True


# An index

def put(transaction, task, state):
    """Writes the state of the task, and its entry in the index in place of the one before."""
    old = transaction.get(key("task", task))
    if old is not None:
        transaction.delete(key("by state", old, task))
    transaction.set(key("task", task), state)
    transaction.set(key("by state", state, task), b"")


def with_state(transaction, state):
    """The tasks in this state, by rising name."""
    return [parts_of(entry)[2].decode() for entry, _ in transaction.range(*under("by state", state))]


# Holds that expire. The store has no clock: each program passes its own, in whole seconds.

SWEPT_MAX = 32    # of two writes each, which makes the 64 of a transaction


def held(transaction, seat):
    """When the hold of the seat ends, and whose it is; None where there is none, swept or not."""
    value = transaction.get(key("hold", seat))
    if value is None:
        return None
    ends, who = value.decode().split(" ", 1)
    return int(ends), who


def drop(transaction, seat, ends):
    transaction.delete(key("hold", seat))
    transaction.delete(key("ends", ends, seat))


def hold(transaction, seat, who, now, seconds):
    """Holds the seat, unless it is sold or held by someone. Did it?"""
    if transaction.get(key("sold", seat)) is not None:
        return False
    found = held(transaction, seat)
    if found:
        if found[0] > now:
            return False
        drop(transaction, seat, found[0])    # its time is over, and no sweep has come by
    transaction.set(key("hold", seat), f"{now + seconds} {who}")
    transaction.set(key("ends", now + seconds, seat), b"")
    return True


def buy(transaction, seat, who, now):
    """Sells the seat to the one that holds it. Did it?"""
    found = held(transaction, seat)
    if not found or found[0] <= now or found[1] != who:
        return False
    drop(transaction, seat, found[0])
    transaction.set(key("sold", seat), who)
    return True


def sweep(transaction, now):
    """Drops holds whose time is over, the oldest first, and gives how many. Where it is SWEPT_MAX, there may be more."""
    found = list(transaction.range(key("ends"), key("ends", now + 1), SWEPT_MAX))
    for entry, _ in found:
        _, ends, seat = parts_of(entry)
        drop(transaction, seat, ends)
    return len(found)


# A queue

def enqueue(transaction, job, at, producer):
    """Sets the job at the tail. No two jobs of one producer have the same time."""
    transaction.set(key("job", at, producer), job)


def take(transaction):
    """Deletes the job at the head and gives it; None where there is none."""
    for place, job in transaction.range(*under("job"), 1):
        transaction.delete(place)
        return job
    return None


def take_near(store, width):
    """Takes one of the first jobs by chance. It looks in a transaction of its own, so two clients meet only where they choose the same one."""
    while near := store.transact(lambda transaction: list(transaction.range(*under("job"), width))):
        place, _ = random.choice(near)
        job = store.transact(lambda transaction: remove(transaction, place))
        if job is not None:
            return job
    return None


def remove(transaction, place):
    """Deletes the job at this key and gives it; None where another took it."""
    job = transaction.get(place)
    if job is not None:
        transaction.delete(place)
    return job


# A counter with many writers

def add(transaction, place, amount=1):
    """Adds to the number at this key: that of the counter, or of the counter and a writer."""
    transaction.set(place, str(int(transaction.get(place) or b"0") + amount))


def total(transaction, counter):
    """The sum over the counter's key and those of its writers."""
    return sum(int(number) for _, number in transaction.range(*under(counter)))


# More than 64 writes. Versions are integers above 0, each greater than the one before.

STEP = 62    # with the mark of how far it is, and the current version, 64 writes


def current(transaction, name):
    """The version of the list that is read now; 0 where there is none."""
    return int(transaction.get(key("current", name)) or b"0")


def step(transaction, name, version, items):
    """Writes the next items of a version, and how far it is; at last also that it is the current one. Is there more to write?"""
    mark = key("written", name, version)
    done = int(transaction.get(mark) or b"0")
    for item, value in items[done:done + STEP]:
        transaction.set(key("item", name, version, item), value)
    transaction.set(mark, str(min(done + STEP, len(items))))
    if done + STEP < len(items):
        return True
    if version > current(transaction, name):
        transaction.set(key("current", name), str(version))
    return False


def load(store, name, version, items):
    """Writes a version in several transactions. If it is interrupted, run it again with the same items: it goes on where it was."""
    while store.transact(lambda transaction: step(transaction, name, version, items)):
        pass


def read(transaction, name):
    """The items of the current version and their values."""
    pairs = transaction.range(*under("item", name, current(transaction, name)))
    return [(parts_of(found)[3].decode(), value.decode()) for found, value in pairs]


def clear(transaction, name):
    """Deletes up to 64 items of versions before the current one, and gives how many."""
    found = list(transaction.range(key("item", name), key("item", name, current(transaction, name)), 64))
    for place, _ in found:
        transaction.delete(place)
    return len(found)


# The calls

def part(word):
    """A part of a key: an integer, bytes as 0x and hex digits, or a text."""
    if word.removeprefix("-").isdigit():
        return int(word)
    return bytes.fromhex(word[2:]) if word.startswith("0x") else word


def number(words, at, otherwise):
    return int(words[at]) if len(words) > at else otherwise


def job_of(found):
    return "none" if found is None else found.decode()


def answer(store, call, *words):
    """What a call gives, in one line."""
    def run(work, *arguments):
        return store.transact(lambda transaction: work(transaction, *arguments))

    now = int(time.time())
    match call:
        case "key":
            return key(*map(part, words)).hex()
        case "parts":
            return " ".join(str(each) if isinstance(each, int) else "0x" + each.hex() for each in parts_of(bytes.fromhex(words[0])))
        case "book":
            other = run(book, words[0], int(words[1]), int(words[2]), words[3])
            return "booked" if other is None else f"{other} has it"
        case "register":
            return "registered" if run(register, *words) else "another has it"
        case "put":
            return "done" if run(put, *words) is None else ""
        case "list":
            return " ".join(run(with_state, words[0]))
        case "hold":
            return "held" if run(hold, words[0], words[1], number(words, 3, now), int(words[2])) else "not free"
        case "buy":
            return "sold" if run(buy, words[0], words[1], number(words, 2, now)) else "not held"
        case "sweep":
            return f"{run(sweep, number(words, 0, now))} dropped"
        case "enqueue":
            at, producer = number(words, 1, time.time_ns()), number(words, 2, os.getpid())
            return "done" if run(enqueue, words[0], at, producer) is None else ""
        case "take":
            return job_of(run(take))
        case "take_near":
            return job_of(take_near(store, int(words[0])))
        case "add":
            return "done" if run(add, key(*map(part, words))) is None else ""
        case "total":
            return str(run(total, words[0]))
        case "load":
            load(store, words[0], int(words[1]), [tuple(word.split("=", 1)) for word in words[2:]])
            return "done"
        case "show":
            return " ".join(f"{item}={value}" for item, value in run(read, words[0]))
        case "clear":
            return f"{run(clear, words[0])} deleted"
    raise SystemExit(f"no call is {call}")


if __name__ == "__main__":
    with ssikvd.connect(sys.argv[1]) as opened:
        for line in [sys.argv[2:]] if len(sys.argv) > 2 else map(str.split, sys.stdin):
            print(answer(opened, *line), flush=True)
