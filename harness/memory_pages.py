"""A COMMIT that splits pages, with its n-th allocation refused, for each n.

The versions' keys stand in pages of some hundred keys. Eight commits of 64 keys fill one, and the ninth splits it. Where memory is refused in it, its
connection is closed and a new one finds the map as it was; it commits the same writes then. After that all keys are there, in order.
"""

from ssikvd_harness.arguments import run_harness
from ssikvd_harness.cases import Harness
from ssikvd_harness.deviations import expect
from ssikvd_harness.failing_calls import MEMORY, refusing_server
from ssikvd_harness.frames import frame
from ssikvd_harness.model import Store
from ssikvd_harness.session import Session

SECTORS = 4_096
KEYS = 64 * 9
N_MAX = 2_000


def key_of(number):
    """Keys that don't rise with their numbers, another for each below 65,536. They are long enough to take memory of their own."""
    return b"%05d" % (number * 7919 % 65536) + b"k" * 15


class Writer(Session):
    """A session that writes keys by their numbers, and reads all."""

    def write(self, numbers):
        for parts in ([b"BEGIN"], *([b"SET", key_of(number), b"%d" % number] for number in numbers)):
            self.ask(parts)

    def read_all(self):
        """Every key, in ranges of 100."""
        self.ask([b"BEGIN"])
        for low in range(0, 65_536, 5_000):
            self.ask([b"RANGE", b"%05d" % low, b"%05d" % (low + 5_000), b"128"])
        self.ask([b"ABORT"])


def commit_refused(server, store, allocations, n):
    """Commits the last 64 keys with the n-th allocation refused. Was there one so late?"""
    last = Writer(server, store, "last")
    last.write(range(KEYS - 64, KEYS))
    failed = allocations.failed
    allocations.fail(allocations.made + n)
    reply = last.connection.ask(frame("COMMIT"))
    was_refused = allocations.failed > failed
    allocations.pass_on()
    if reply is None:
        store.leave("last")
        again = Writer(server, store, "again")
        again.read_all()
        again.write(range(KEYS - 64, KEYS))
        again.ask([b"COMMIT"])
    else:
        due = store.request("last", [b"COMMIT"])
        expect(reply == due, f"COMMIT: {reply[:60]!r}, expected {due[:60]!r}")
    return was_refused


def one_run(n):
    store = Store(SECTORS)
    with refusing_server(SECTORS) as (server, refusals):
        first = Writer(server, store, "first")
        for start in range(0, KEYS - 64, 64):
            first.write(range(start, start + 64))
            first.ask([b"COMMIT"])
        was_refused = commit_refused(server, store, refusals.of(MEMORY), n)
        Writer(server, store, "after").read_all()
        expect(server.is_alive() and server.error_text() == b"", "the server ended, or wrote an error")
    return was_refused


class MemoryPages(Harness):
    NAME = "a COMMIT that splits pages, with each allocation refused"

    def test_memory_pages(self):
        for n in range(1, N_MAX):
            was_refused = False
            with self.tally.run(f"allocation {n}"):
                was_refused = one_run(n)
            if not was_refused:
                break


if __name__ == "__main__":
    run_harness()
