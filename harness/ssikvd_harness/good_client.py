"""A client that behaves, and is to be served while others don't."""
import threading
import time

from .connection import Connection
from .deviations import Deviation, expect
from .frames import FULL, OK, frame
from .lateness import Lateness
from .settings import PATIENCE

KEY, VALUE = b"\xff good", b"1"
PAUSE = 0.005


class GoodClient(threading.Thread):
    """Commits one key again and again, each request after the previous reply, and takes the time of each reply. `slowest` is without that by which
    the machine itself was late, `longest` with it. `syncs` is how many syncs a reply may have to wait for."""

    def __init__(self, port: int | None, lateness: Lateness, syncs: int) -> None:
        super().__init__(daemon=True)
        self.connection, self.lateness, self.syncs = Connection(port, 6 * PATIENCE), lateness, syncs
        self.turn, self.is_done = threading.Lock(), False
        self.commits, self.full, self.slowest, self.longest = 0, 0, 0.0, 0.0
        self.deviation: Exception | None = None

    def _ask(self, *parts: bytes | str) -> bytes | None:
        begun = self.lateness.now()
        reply = self.connection.ask(frame(*parts))
        took = time.monotonic() - begun.at
        self.longest = max(self.longest, took)
        if took > self.slowest:
            self.slowest = max(self.slowest, took - self.lateness.lost(begun, self.syncs))
        return reply

    def _transaction(self) -> None:
        reply = self._ask("BEGIN")
        if reply == FULL:
            self.full += 1
            return
        expect(reply == OK, f"BEGIN answered {reply!r}")
        expect(self._ask("GET", KEY) in (b"$-1\r\n", b"$1\r\n1\r\n"), "GET answered another value")
        expect(self._ask("SET", KEY, VALUE) == OK, "SET was refused")
        reply = self._ask("COMMIT") or b""
        expect(reply[:1] == b":", f"COMMIT answered {reply!r}")
        self.commits += 1

    def run(self) -> None:
        try:
            while not self.is_done:
                with self.turn:
                    self._transaction()
                time.sleep(PAUSE)
        except (Deviation, OSError) as found:
            self.deviation = found

    def since(self) -> tuple[int, int, float, float]:
        """What happened since it was asked last: commits, refusals for 64 others, the slowest reply, the longest one."""
        with self.turn:
            found = self.commits, self.full, self.slowest, self.longest
            self.commits, self.full, self.slowest, self.longest = 0, 0, 0.0, 0.0
        return found

    def wait_for_one(self, seconds: float) -> None:
        """Waits this long for the first transaction since it was asked last, where there was none yet."""
        end = time.monotonic() + seconds
        while not self.commits + self.full and not self.deviation and time.monotonic() < end:
            time.sleep(PAUSE)

    def end(self) -> None:
        self.is_done = True
        self.join()
        self.connection.close()
