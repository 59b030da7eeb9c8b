"""A client of ssikvd, an ordered key-value store with strictly serializable transactions.

    with ssikvd.connect("127.0.0.1:7777") as store:
        store.transact(lambda transaction: transaction.set("greeting", "hello"))

For asyncio there is `ssikvd.aio`, with the same calls.
"""
from __future__ import annotations

import contextlib
import socket
import threading
import time
from typing import Any, Callable, Coroutine, Iterator, TypeVar

from . import _core
from ._protocol import (
    Conflict, Data, Error, Full, Invalid, Lost, Pages, Refused, Stopped, Unreachable, after, end_of_prefix)

__version__ = "0.2.0"
__all__ = [
    "Conflict", "Data", "Error", "Full", "Invalid", "Lost", "Refused", "Stopped", "Store", "Transaction", "Unreachable", "after",
    "connect", "end_of_prefix"]

Result = TypeVar("Result")


class _Blocking:
    """The calls that wait, for a thread. They never suspend."""

    turn, places = contextlib.nullcontext, threading.BoundedSemaphore

    async def open(self, host: str, port: int, seconds: float) -> socket.socket:
        stream = socket.create_connection((host, port), seconds)
        stream.setsockopt(socket.IPPROTO_TCP, socket.TCP_NODELAY, 1)
        return stream

    async def send(self, stream: socket.socket, data: bytes, seconds: float) -> None:
        stream.settimeout(seconds)
        stream.sendall(data)

    async def receive(self, stream: socket.socket, seconds: float) -> bytes:
        stream.settimeout(seconds)
        return stream.recv(1 << 16)

    async def acquire(self, places: threading.Semaphore, seconds: float) -> bool:
        return places.acquire(timeout=seconds)

    async def sleep(self, seconds: float) -> None:
        time.sleep(seconds)


def _run(steps: Coroutine[Any, Any, Result]) -> Result:
    """Runs a coroutine that never suspends."""
    try:
        steps.send(None)
    except StopIteration as ended:
        return ended.value
    raise RuntimeError("a call for threads has suspended")


class Transaction:
    """What the work of `transact` reads and writes, in one thread. Once it has ended, its calls raise Invalid."""

    def __init__(self, core: _core.Transaction) -> None:
        self._core = core

    def get(self, key: Data) -> bytes | None:
        """The value of the key; None where it isn't there. Raises Invalid, Full at the 257th new key, Unreachable."""
        return _run(self._core.get(key))

    def set(self, key: Data, value: Data) -> None:
        """Writes the key. Raises Invalid, Full at the 65th key that is written, Unreachable."""
        _run(self._core.set(key, value))

    def delete(self, key: Data) -> None:
        """Deletes the key, whether it is there or not. Raises what `set` raises."""
        _run(self._core.delete(key))

    def range(self, lo: Data = b"", hi: Data | None = None, limit: int | None = None) -> Iterator[tuple[bytes, bytes]]:
        """The pairs with lo <= key < hi by rising key, at most `limit`. They are asked page by page, as they are needed."""
        pages = Pages(lo, hi, limit)
        return (pair for page in iter(lambda: _run(self._core.page(pages)), []) for pair in page)


class Store:
    """A pool of connections, which several threads may share. `connect` makes one; at the end of a `with` it is closed."""

    def __init__(self, core: _core.Store) -> None:
        self._core = core

    def transact(self, work: Callable[[Transaction], Result], deadline: float | None = None) -> Result:
        """Runs work(transaction), commits, and gives what the work gave.

        The work may run more than once, so it does nothing but read and write through its transaction. What it raises aborts the
        transaction. No try begins after the deadline, in seconds; then the last try's Conflict, Full or Unreachable is raised. Raises
        also Stopped, and Lost.
        """
        return _run(self._core.transact(_blocking(work), deadline))

    def once(self, key: Data, work: Callable[[Transaction], Data | None], deadline: float | None = None) -> bytes:
        """Commits the work once for this key, however often it is called, and gives the bytes that the work gave then.

        The store keeps them as the value of the key. Raises what `transact` raises, and Lost where the outcome of a try isn't known.
        """
        return _run(self._core.once(key, _blocking(work), deadline))

    def close(self) -> None:
        """Closes the connections that are idle, and each other one at the end of its transaction."""
        self._core.close()

    def __enter__(self) -> Store:
        return self

    def __exit__(self, *_: object) -> None:
        self.close()


def _blocking(work: Callable[[Transaction], Result]) -> _core.Work[Result]:
    """The work as a coroutine that never suspends."""
    async def run(core: _core.Transaction) -> Result:
        return work(Transaction(core))

    return run


def connect(
        address: str, *, connections: int = 16, connect_timeout: float = 5, reply_timeout: float = 10, deadline: float = 30) -> Store:
    """A store, once the server at HOST:PORT has answered. It has at most so many connections, 1 to 64; times are in seconds.

    Raises Unreachable where no server answers, and Invalid.
    """
    core = _core.Store(_Blocking(), address, connections, connect_timeout, reply_timeout, deadline)
    _run(core.start())
    return Store(core)
