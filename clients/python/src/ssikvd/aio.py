"""The store for asyncio: that of `ssikvd`, with each call awaited. A store belongs to the event loop that made it.

    async with await aio.connect("127.0.0.1:7777") as store:
        await store.transact(work)    # async def work(transaction): await transaction.set("greeting", "hello")

Several tasks may call one transaction: their requests take turns.
"""
from __future__ import annotations

import asyncio
import contextlib
import socket

from ._core import Store, Transaction

__all__ = ["Store", "Transaction", "connect"]


class _Stream:
    """A connection of asyncio's."""

    def __init__(self, reader: asyncio.StreamReader, writer: asyncio.StreamWriter) -> None:
        self.reader, self.writer, self.close = reader, writer, writer.close


class _Suspending:
    """The calls that wait, for a task."""

    turn, places, sleep = asyncio.Lock, asyncio.Semaphore, staticmethod(asyncio.sleep)

    async def open(self, host: str, port: int, seconds: float) -> _Stream:
        async with asyncio.timeout(seconds):
            stream = _Stream(*await asyncio.open_connection(host, port))
        stream.writer.get_extra_info("socket").setsockopt(socket.IPPROTO_TCP, socket.TCP_NODELAY, 1)
        return stream

    async def send(self, stream: _Stream, data: bytes, seconds: float) -> None:
        stream.writer.write(data)
        async with asyncio.timeout(seconds):
            await stream.writer.drain()

    async def receive(self, stream: _Stream, seconds: float) -> bytes:
        async with asyncio.timeout(seconds):
            return await stream.reader.read(1 << 16)

    async def acquire(self, places: asyncio.Semaphore, seconds: float) -> bool:
        with contextlib.suppress(TimeoutError):
            async with asyncio.timeout(seconds):
                return await places.acquire()
        return False


async def connect(
        address: str, *, connections: int = 16, connect_timeout: float = 5, reply_timeout: float = 10, deadline: float = 30) -> Store:
    """A store, as `ssikvd.connect` makes it."""
    store = Store(_Suspending(), address, connections, connect_timeout, reply_timeout, deadline)
    await store.start()
    return store
