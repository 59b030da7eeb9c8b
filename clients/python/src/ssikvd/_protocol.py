"""Frames, errors and limits. Nothing here touches a socket."""
from __future__ import annotations

import random
import re
import time

KEY_MAX, VALUE_MAX, WRITES_MAX, MARKS_MAX, PAIRS_MAX, CONNECTIONS_MAX = 256, 16_384, 64, 256, 128, 64
LINE_MAX = 600

Data = bytes | str
"""A key or a value. A text is taken as its UTF-8."""


class Error(Exception):
    """What this package raises."""


class Invalid(Error):
    """A call that breaks a limit, or comes after the end of its transaction. Nothing was sent."""


class Unreachable(Error):
    """No connection, or one that was lost before COMMIT was sent. Nothing was written."""


class Lost(Error):
    """COMMIT was sent, and its outcome isn't known. `once` with the same key settles it."""


class Refused(Error):
    """A refusal of the server's, whose words are `text`."""

    def __init__(self, text: str) -> None:
        super().__init__(text)
        self.text = text


class Conflict(Refused):
    """COMMIT met other commits: `key` was overwritten by one, or else `pivot` is "self" or the number of one."""

    def __init__(self, text: str) -> None:
        super().__init__(text)
        kind, what = text.split()[1:]
        self.key: bytes | None = bytes.fromhex(what) if kind == "overwritten" else None
        self.pivot: str | int | None = None if kind == "overwritten" else what if what == "self" else int(what)


class Full(Refused):
    """There is no room: `limit` is transactions, writes, marks, log, numbers, or connections, which are the pool's."""

    def __init__(self, text: str) -> None:
        super().__init__(text)
        self.limit = text.split()[1]


class Stopped(Refused):
    """The store was stopped by a fault of its device. Nothing was written."""


def refusal(text: str) -> Refused:
    """The error of a refusal."""
    if re.fullmatch(r"CONFLICT (overwritten ([0-9a-f]{2})+|pivot (self|\d+))", text):
        return Conflict(text)
    if re.fullmatch(r"FULL \w+", text):
        return Full(text)
    return Stopped(text) if text == "STORE stopped" else Refused(text)


# Frames

Reply = bytes | int | None | Refused | list


def encode(*parts: bytes) -> bytes:
    """The request of these parts."""
    return b"*%d\r\n" % len(parts) + b"".join(b"$%d\r\n%s\r\n" % (len(part), part) for part in parts)


def decode(data: bytes | bytearray, at: int = 0) -> tuple[Reply, int] | None:
    """The reply at this place, and the place after it; None while it isn't whole. A list holds key, value, key, value."""
    end = data.find(b"\r\n", at, at + LINE_MAX)
    if end < 0 and len(data) < at + LINE_MAX:
        return None
    line, end = bytes(data[at:max(at, end)]), end + 2
    kind, text = line[:1], line[1:]
    if kind == b"+":
        return text, end
    if kind == b"-":
        return refusal(text.decode(errors="replace")), end
    if line == b"$-1":
        return None, end
    number = int(text) if re.fullmatch(rb"\d{1,19}", text) else -1
    if kind == b":" and number >= 0:
        return number, end
    if kind == b"$" and 0 <= number <= VALUE_MAX:
        return (bytes(data[end:end + number]), end + number + 2) if len(data) >= end + number + 2 else None
    if kind == b"*" and 0 <= number <= 2 * PAIRS_MAX:
        parts: list[Reply] = []
        for _ in range(number):
            found = decode(data, end)
            if found is None:
                return None
            parts.append(found[0])
            end = found[1]
        return parts, end
    raise Unreachable(f"this is no reply of ssikvd: {bytes(data[:60])!r}")


# Keys and limits

def key_of(key: Data, least: int = 1) -> bytes:
    """The bytes of a key, or with least 0 of a bound."""
    data = key.encode() if isinstance(key, str) else bytes(memoryview(key))
    if not least <= len(data) <= KEY_MAX:
        raise Invalid(f"a key has 1 to {KEY_MAX} bytes, this one has {len(data)}")
    return data


def value_of(value: Data) -> bytes:
    """The bytes of a value."""
    data = value.encode() if isinstance(value, str) else bytes(memoryview(value))
    if len(data) > VALUE_MAX:
        raise Invalid(f"a value has at most {VALUE_MAX} bytes, this one has {len(data)}")
    return data


def after(key: Data) -> bytes | None:
    """The least key above this one; None above the last of all."""
    data = key_of(key)
    return data + b"\0" if len(data) < KEY_MAX else end_of_prefix(data)


def end_of_prefix(prefix: Data) -> bytes | None:
    """The least key above all that begin with the prefix; None where there is none."""
    head = key_of(prefix, 0).rstrip(b"\xff")
    return head[:-1] + bytes([head[-1] + 1]) if head else None


class Limits:
    """The keys that a transaction has written, and those that it has read before that."""

    def __init__(self) -> None:
        self._written: set[bytes] = set()
        self._read: set[bytes] = set()

    def write(self, key: bytes) -> None:
        if key not in self._written and len(self._written) == WRITES_MAX:
            raise Full("FULL writes")
        self._written.add(key)

    def read(self, key: bytes) -> None:
        if key not in self._written and key not in self._read and len(self._read) == MARKS_MAX:
            raise Full("FULL marks")
        if key not in self._written:
            self._read.add(key)


class Pages:
    """A range that is read page by page: `request` is what to send next, until there is none."""

    def __init__(self, lo: Data, hi: Data | None, limit: int | None) -> None:
        if limit is not None and limit < 1:
            raise Invalid(f"a limit is at least 1, this one is {limit}")
        self._at: bytes | None = key_of(lo or b"\0")
        self._hi, self._left = key_of(hi or b"", 0), limit

    def request(self) -> tuple[bytes, ...] | None:
        """The parts of the next request; None at the end."""
        if self._at is None or self._left == 0 or (self._hi and self._at >= self._hi):
            return None
        return b"RANGE", self._at, self._hi, b"%d" % self._size()

    def _size(self) -> int:
        return PAIRS_MAX if self._left is None else min(self._left, PAIRS_MAX)

    def take(self, reply: list[bytes]) -> list[tuple[bytes, bytes]]:
        """The pairs of a page, which is the reply to the request."""
        found = list(zip(reply[0::2], reply[1::2]))
        self._at = after(found[-1][0]) if len(found) == self._size() else None
        self._left = None if self._left is None else self._left - len(found)
        return found


class Tries:
    """The tries of one call, none of which begins after its deadline."""

    def __init__(self, seconds: float) -> None:
        self._end, self._failed = time.monotonic() + seconds, 0

    def left(self) -> float:
        """The seconds until the deadline, at least 0."""
        return max(0.0, self._end - time.monotonic())

    def wait(self, error: Error) -> float:
        """The seconds to wait after this error, by chance, so that two don't meet again and again. Raises it where none are left."""
        seconds = random.uniform(0, 0.001 * 2 ** min(self._failed, 6))
        self._failed += 1
        if seconds >= self.left():
            raise error
        return seconds
