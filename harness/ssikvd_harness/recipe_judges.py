"""What the recipes of docs/COOKBOOK.md leave in a store, and whether it is right: for those of Python in this process, and for all languages."""
import collections
import itertools
import os
import sys
from collections.abc import Callable, Iterable, Iterator, Sequence
from typing import Any

from .examples import simple_client, walk
from .settings import TOP

sys.path[1:1] = [os.path.join(TOP, "clients", "python", folder) for folder in ("examples", "src")]

import recipes    # noqa: E402

__all__ = ["Client", "Items", "booked", "items_of", "key", "not_indexed", "not_inverse", "once", "overlaps", "recipes", "torn", "under", "wrong_holds", "wrong_takes"]

key = recipes.key
Pair = tuple[list[Any], bytes]    # the parts of a key, and the value
Items = list[tuple[str, str]]


class Client(simple_client.Client):
    """One connection with the calls of a package's transaction, so that transactions of several clients may be put in any order."""

    def get(self, key: bytes) -> Any:
        return self.ask("GET", key)

    def set(self, key: bytes, value: bytes) -> None:
        self.ask("SET", key, value)

    def delete(self, key: bytes) -> None:
        self.ask("DEL", key)

    def range(self, lo: bytes | None, hi: bytes | None = None, limit: int = 1 << 31) -> Iterator[tuple[bytes, bytes]]:
        while lo is not None and limit:
            size = min(limit, walk.PAGE)
            page = self.ask("RANGE", lo, hi or b"", size)
            yield from zip(page[0::2], page[1::2])
            lo, limit = walk.least_above(page[-2]) if len(page) == 2 * size else None, limit - size


def once(port: int | None, work: Callable[[Any], Any]) -> Any:
    return Client(port).transact(work)


def under(*parts: Any) -> Callable[[Any], list[Pair]]:
    """A work that gives all pairs whose keys begin with these parts: the other parts, and the value."""
    def work(store: Any) -> list[Pair]:
        return [(recipes.parts_of(found)[len(parts):], value) for found, value in store.range(*recipes.under(*parts))]

    return work


def overlaps(bookings: Iterable[tuple[Any, int, int]]) -> list[Any]:
    """Neighbours of one room of which the second starts before the first ends, of (room, start, end)."""
    return [pair for pair in itertools.pairwise(sorted(bookings)) if pair[0][0] == pair[1][0] and pair[1][1] < pair[0][2]]


def booked(port: int | None) -> list[tuple[Any, int, int]]:
    return [(room, int(value.split()[0]), end) for (room, end), value in once(port, under("booking"))]


def not_inverse(port: int | None) -> set[tuple[Any, Any]]:
    """Users whose address isn't theirs, and addresses whose user has another."""
    def both(store: Any) -> tuple[list[Pair], list[Pair]]:
        return under("user")(store), under("address")(store)

    users, addresses = once(port, both)
    return {(user, address) for (user,), address in users} ^ {(user, address) for (address,), user in addresses}


def not_indexed(store: Any) -> set[tuple[Any, Any]]:
    """What stands in the tasks or in their index, and not in both."""
    return {(state, task) for (task,), state in under("task")(store)} ^ {(state, task) for (state, task), _ in under("by state")(store)}


def wrong_holds(store: Any) -> set[tuple[Any, int]]:
    """What of the holds and their ends doesn't fit, and seats that are held and sold."""
    held = {(seat, int(value.split()[0])) for (seat,), value in under("hold")(store)}
    ends = {(seat, end) for (end, seat), _ in under("ends")(store)}
    sold = {seat for (seat,), _ in under("sold")(store)}
    return (held ^ ends) | {(seat, end) for seat, end in held if seat in sold}


def wrong_takes(put: Iterable[str], taken: Iterable[str]) -> collections.Counter[str]:
    """Jobs that were taken twice, or not at all."""
    return collections.Counter(put) - collections.Counter(taken) + (collections.Counter(taken) - collections.Counter(put))


def items_of(version: int, count: int) -> Items:
    return [("%05d" % number, str(version)) for number in range(count)]


def torn(items: Sequence[tuple[str, str]], count: int) -> bool:
    """Isn't this a whole version?"""
    return items != (items_of(int(items[0][1]), count) if items else [])
