"""The store as its documents define it, in plain Python: what each request is answered.

It is written from docs/PROTOCOL.md, not from the code. It keeps everything and looks over all of it, so it is slow. The harnesses compare the
program with it.
"""
from collections.abc import Callable, Hashable, Sequence
from typing import Any

from .frames import OK, PONG, bulk, fault_of, pairs, refusal
from .limits import MARKS_MAX, OPEN_MAX, WRITES_MAX
from .log_format import Writes, apply, body_sectors, payload, sectors_used

Mark = tuple[str, bytes, bytes | None]    # a key, a range, or a range that is closed at both ends: its kind and its bounds


class Transaction:
    """A private copy of the map, what was written to it, and what was read."""

    COVERS: dict[str, Callable[[bytes, bytes, Any], object]] = {
        "key": lambda key, lo, _: lo == key,
        "range": lambda key, lo, hi: lo <= key and (not hi or key < hi),
        "closed": lambda key, lo, last: lo <= key <= last,
    }

    def __init__(self, begin: int, contents: dict[bytes, bytes]) -> None:
        self.begin, self.copy = begin, dict(contents)
        self.written: set[bytes] = set()
        self.marks: set[Mark] = set()

    def reads(self, key: bytes) -> bool:
        return any(self.COVERS[kind](key, lo, end) for kind, lo, end in self.marks)

    def mark(self, kind: str, lo: bytes, end: bytes | None) -> bool:
        """Is the mark there, or is there room for it?"""
        mark = kind, lo, end
        if mark not in self.marks and len(self.marks) == MARKS_MAX:
            return False
        self.marks.add(mark)
        return True

    def writes(self) -> Writes:
        return [(k, self.copy.get(k)) for k in sorted(self.written)]


class Record:
    """A committed transaction."""

    def __init__(self, transaction: Transaction, number: int) -> None:
        self.begin, self.number, self.written, self.reads = transaction.begin, number, set(transaction.written), transaction.reads

    def is_concurrent(self, other: "Record") -> bool:
        return self.begin < other.number and other.begin < self.number

    def reads_from_before(self, other: "Record") -> bool:
        """Has it read a key that another one, which is concurrent, writes?"""
        return other is not self and self.is_concurrent(other) and any(self.reads(k) for k in other.written)


class Store:
    """A map, its history, and the open transaction of each session."""

    def __init__(self, sectors: int = 4_096, log: Sequence[Writes] = ()) -> None:
        self.sectors, self.log, self.is_stopped = sectors, list(log), False
        self.contents: dict[bytes, bytes] = {}
        self.records: list[Record] = []
        self.open: dict[Hashable, Transaction] = {}
        self.last_fault: Writes | None = None
        for writes in self.log:
            apply(self.contents, writes)

    def leave(self, session: Hashable) -> None:
        self.open.pop(session, None)

    def request(self, session: Hashable, parts: Sequence[bytes], fails: bool = False) -> bytes:
        """The reply to a request, during which the device failed or not."""
        fault = fault_of(parts)
        if fault:
            return fault
        name, arguments = parts[0].upper(), parts[1:]
        if name == b"PING":
            return PONG
        if name == b"BEGIN":
            return self._begin(session)
        if session not in self.open:
            return refusal("ERR none")
        if name == b"COMMIT":
            return self._commit(session, fails)
        if name == b"ABORT":
            self.leave(session)
            return OK
        own: dict[bytes, Callable[..., bytes]] = {b"GET": self._get, b"RANGE": self._range, b"SET": self._write, b"DEL": self._write}
        return own[name](self.open[session], *arguments)

    def _begin(self, session: Hashable) -> bytes:
        if session in self.open:
            return refusal("ERR open")
        if self.is_stopped:
            return refusal("STORE stopped")
        if len(self.open) == OPEN_MAX:
            return refusal("FULL transactions")
        self.open[session] = Transaction(len(self.records), self.contents)
        return OK

    @staticmethod
    def _get(t: Transaction, key: bytes) -> bytes:
        if key not in t.written and not t.mark("key", key, None):
            return refusal("FULL marks")
        return bulk(t.copy.get(key))

    @staticmethod
    def _range(t: Transaction, lo: bytes, hi: bytes, limit: bytes) -> bytes:
        if hi and hi <= lo:
            return pairs([])
        found = sorted((k, v) for k, v in t.copy.items() if lo <= k and (not hi or k < hi))[:int(limit)]
        # A reply that reached its limit says nothing of the keys behind its last.
        marked = t.mark("closed", lo, found[-1][0]) if len(found) == int(limit) else t.mark("range", lo, hi)
        return pairs(found) if marked else refusal("FULL marks")

    @staticmethod
    def _write(t: Transaction, key: bytes, value: bytes | None = None) -> bytes:
        if key not in t.written and len(t.written) == WRITES_MAX:
            return refusal("FULL writes")
        t.written.add(key)
        if value is None:
            t.copy.pop(key, None)
        else:
            t.copy[key] = value
        return OK

    @staticmethod
    def _is_dangerous(source: Record, pivot: Record, target: Record) -> bool:
        """Is a pivot between these two, which may be one, dangerous? Where the target committed before it, and not after the source."""
        return target.number < pivot.number and target.number <= source.number

    def _conflict(self, record: Record) -> str | None:
        """The text of the conflict that committing this record would be, if it would be one."""
        overwritten = [k for r in self.records if r.number > record.begin for k in r.written if k in record.written]
        if overwritten:
            return "CONFLICT overwritten " + min(overwritten).hex()
        history = self.records + [record]
        for pivot in [record] + self.records:
            sources = [r for r in history if r.reads_from_before(pivot)]
            targets = [r for r in history if pivot.reads_from_before(r)]
            if any(self._is_dangerous(source, pivot, target) for source in sources for target in targets):
                return "CONFLICT pivot self" if pivot is record else "CONFLICT pivot %d" % pivot.number
        return None

    def _commit(self, session: Hashable, fails: bool) -> bytes:
        transaction = self.open.pop(session)
        if self.is_stopped:
            return refusal("STORE stopped")
        record = Record(transaction, len(self.records) + 1)
        conflict = self._conflict(record)
        if conflict:
            return refusal(conflict)
        writes = transaction.writes()
        if writes:
            if sectors_used(self.log) + body_sectors(payload(writes)) >= self.sectors:
                return refusal("FULL log")
            if fails:
                self.is_stopped, self.last_fault = True, writes
                return refusal("STORE fault")
            self.log.append(writes)
            apply(self.contents, writes)
        self.records.append(record)
        return b":%d\r\n" % record.number
