"""Sessions, transactions and the pool, written once for threads and for asyncio.

They are coroutines over a system, which has the calls that wait: `open`, `send`, `receive`, `places`, `acquire`, `turn`, `sleep`.
Over blocking calls such a coroutine never suspends, so the store for threads runs each to its end at once.
"""
from __future__ import annotations

import os
import time
from typing import Any, AsyncIterator, Awaitable, Callable, TypeVar

from ._protocol import (
    CONNECTIONS_MAX, Conflict, Data, Error, Full, Invalid, Limits, Lost, Pages, Refused, Tries, Unreachable, decode, encode, key_of,
    value_of)

Result = TypeVar("Result")


class Session:
    """One connection. It is whole while no reply is due; else it is of no more use. Requests take turns."""

    def __init__(self, system: Any, stream: Any, reply_timeout: float) -> None:
        self._system, self.stream, self._timeout = system, stream, reply_timeout
        self._turn, self.is_whole = system.turn(), True

    async def ask(self, *parts: bytes) -> Any:
        """Sends one request and gives its reply. Raises its refusal, or Unreachable."""
        async with self._turn:
            return await self._ask(*parts)

    async def commit(self) -> None:
        """Sends COMMIT. Raises its refusal, Unreachable before it is sent, or Lost where the outcome isn't known."""
        async with self._turn:
            self._need_whole()
            try:
                await self._ask(b"COMMIT")
            except Unreachable as error:
                raise Lost(f"no reply to COMMIT: {error}") from error
            except Refused as refusal:
                if refusal.text == "STORE fault":
                    raise Lost(refusal.text) from refusal
                raise

    def _need_whole(self) -> None:
        if not self.is_whole:
            raise Unreachable("the connection was lost")

    async def _ask(self, *parts: bytes) -> Any:
        self._need_whole()
        self.is_whole = False
        try:
            await self._system.send(self.stream, encode(*parts), self._timeout)
            reply = await self._reply()
        except OSError as error:
            raise Unreachable(str(error) or "no reply in time") from error
        self.is_whole = True
        if isinstance(reply, Refused):
            raise reply
        return reply

    async def _reply(self) -> Any:
        data, end = bytearray(), time.monotonic() + self._timeout
        while (found := decode(data)) is None:
            piece = await self._system.receive(self.stream, max(0.001, end - time.monotonic()))
            if not piece:
                raise Unreachable("the server closed the connection: it has ended, or 128 are open")
            data += piece
        return found[0]


class Transaction:
    """What the work of `transact` reads and writes. Once it has ended, its calls raise Invalid."""

    def __init__(self, session: Session) -> None:
        self._session: Session | None = session
        self._limits = Limits()

    async def _ask(self, *parts: bytes) -> Any:
        if self._session is None:
            raise Invalid("the transaction has ended")
        return await self._session.ask(*parts)

    async def get(self, key: Data) -> bytes | None:
        """The value of the key; None where it isn't there. Raises Invalid, Full at the 257th new key, Unreachable."""
        name = key_of(key)
        self._limits.read(name)
        return await self._ask(b"GET", name)

    async def set(self, key: Data, value: Data) -> None:
        """Writes the key. Raises Invalid, Full at the 65th key that is written, Unreachable."""
        name, data = key_of(key), value_of(value)
        self._limits.write(name)
        await self._ask(b"SET", name, data)

    async def delete(self, key: Data) -> None:
        """Deletes the key, whether it is there or not. Raises what `set` raises."""
        name = key_of(key)
        self._limits.write(name)
        await self._ask(b"DEL", name)

    def range(self, lo: Data = b"", hi: Data | None = None, limit: int | None = None) -> AsyncIterator[tuple[bytes, bytes]]:
        """The pairs with lo <= key < hi by rising key, at most `limit`. They are asked page by page, as they are needed."""
        return self._pairs(Pages(lo, hi, limit))

    async def _pairs(self, pages: Pages) -> AsyncIterator[tuple[bytes, bytes]]:
        while page := await self.page(pages):
            for pair in page:
                yield pair

    async def page(self, pages: Pages) -> list[tuple[bytes, bytes]]:
        """The next pairs of a range; none at its end."""
        request = pages.request()
        return pages.take(await self._ask(*request)) if request else []


Work = Callable[[Transaction], Awaitable[Result]]


class Store:
    """A pool of connections, each lent for one try of a transaction. `connect` makes one."""

    def __init__(
            self, system: Any, address: str, connections: int, connect_timeout: float, reply_timeout: float, deadline: float) -> None:
        host, _, port = address.rpartition(":")
        if not host or not port.isdecimal():
            raise Invalid(f"an address is HOST:PORT, this one is {address!r}")
        if not 1 <= connections <= CONNECTIONS_MAX:
            raise Invalid(f"a pool has 1 to {CONNECTIONS_MAX} connections")
        self._system, self._places, self._address = system, system.places(connections), (host.strip("[]"), int(port))
        self._connect_timeout, self._reply_timeout, self._deadline = connect_timeout, reply_timeout, deadline
        self._idle: list[Session] = []
        self._process, self._is_closed = os.getpid(), False

    async def start(self) -> None:
        """Opens the first connection, and has a PING answered."""
        session = await self._open()
        await session.ask(b"PING")
        self._idle.append(session)

    async def transact(self, work: Work[Result], deadline: float | None = None) -> Result:
        """Runs work(transaction), commits, and gives what the work gave.

        The work may run more than once, so it does nothing but read and write through its transaction. What it raises aborts the
        transaction. No try begins after the deadline, in seconds; then the last try's Conflict, Full or Unreachable is raised. Raises
        also Stopped, and Lost.
        """
        tries = Tries(self._deadline if deadline is None else deadline)
        while True:
            try:
                return await self._try(work, tries.left())
            except (Conflict, Unreachable, Full) as error:
                if isinstance(error, Full) and error.limit != "transactions":
                    raise
                await self._system.sleep(tries.wait(error))

    async def once(self, key: Data, work: Work[Data | None], deadline: float | None = None) -> bytes:
        """Commits the work once for this key, however often it is called, and gives the bytes that the work gave then.

        The store keeps them as the value of the key. Raises what `transact` raises, and Lost where the outcome of a try isn't known.
        """
        name, lost = key_of(key), None
        tries = Tries(self._deadline if deadline is None else deadline)

        async def unless_done(transaction: Transaction) -> bytes:
            found = await transaction.get(name)
            if found is None:
                found = value_of(await work(transaction) or b"")
                await transaction.set(name, found)
            return found

        while True:
            try:
                return await self.transact(unless_done, tries.left())
            except Lost as error:
                lost = error
                await self._system.sleep(tries.wait(error))
            except Exception as error:
                if lost is None:
                    raise
                raise Lost(f"{lost}; then {error}") from error

    async def _try(self, work: Work[Result], seconds: float) -> Result:
        session = await self._lend(seconds)
        transaction, is_open = Transaction(session), False
        try:
            await session.ask(b"BEGIN")
            is_open = True
            result = await work(transaction)
            is_open = False
            await session.commit()
            return result
        finally:
            transaction._session = None    # so that its calls raise Invalid
            await self._take_back(session, is_open)

    async def _lend(self, seconds: float) -> Session:
        if not await self._system.acquire(self._places, seconds):
            raise Full("FULL connections")
        try:
            if self._is_closed:
                raise Invalid("the store is closed")
            if self._process != os.getpid():    # after a fork the idle ones are the other process's
                self._process, self._idle = os.getpid(), []
            return self._idle.pop() if self._idle else await self._open()
        except BaseException:
            self._places.release()
            raise

    async def _open(self) -> Session:
        try:
            stream = await self._system.open(*self._address, self._connect_timeout)
        except OSError as error:
            raise Unreachable(str(error) or "no connection in time") from error
        return Session(self._system, stream, self._reply_timeout)

    async def _take_back(self, session: Session, is_open: bool) -> None:
        """Keeps the connection, once its transaction has ended. Closes it where a reply is due, and those that are idle with it."""
        try:
            if is_open:
                await session.ask(b"ABORT")
        except Error:    # it is lost, or the server has ended the transaction
            pass
        finally:
            if session.is_whole and not self._is_closed:
                self._idle.append(session)
            else:
                session.stream.close()
                self._close_idle()
            self._places.release()

    def _close_idle(self) -> None:
        while self._idle:
            self._idle.pop().stream.close()

    def close(self) -> None:
        """Closes the connections that are idle, and each other one at the end of its transaction."""
        self._is_closed = True
        self._close_idle()

    async def __aenter__(self) -> Store:
        return self

    async def __aexit__(self, *_: object) -> None:
        self.close()
