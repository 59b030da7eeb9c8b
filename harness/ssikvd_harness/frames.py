"""Frames of requests and of replies, written from docs/PROTOCOL.md and not from the code."""
from collections.abc import Iterable, Sequence

from .limits import KEY_MAX, PAIRS_MAX, VALUE_MAX


# Requests

def frame(*parts: bytes | str) -> bytes:
    """The request of these parts. Of bytes alone it is made fast, since the measurements of bench make theirs by it, too."""
    try:
        return b"*%d\r\n" % len(parts) + b"".join(b"$%d\r\n%b\r\n" % (len(part), part) for part in parts)
    except TypeError:    # a text isn't taken as bytes
        return frame(*(part if isinstance(part, bytes) else part.encode() for part in parts))


BEGIN, COMMIT, ABORT, PING = (frame(name) for name in (b"BEGIN", b"COMMIT", b"ABORT", b"PING"))


class Broken(Exception):
    """No request begins with these bytes."""


def _number(data: bytes, at: int, mark: int, least: int, most: int) -> tuple[int, int] | None:
    """The decimal after the mark at this place, and the place after its line end. None where it is not complete yet."""
    if at == len(data):
        return None
    if data[at] != mark:
        raise Broken
    end = at + 1
    while end < len(data) and data[end:end + 1].isdigit():
        end += 1
    digits = data[at + 1:end]
    if len(digits) > 1 and digits[0] == ord("0") or digits and int(digits) > most or digits == b"0" and least > 0:
        raise Broken
    rest = data[end:end + 2]
    if not digits and rest or not b"\r\n".startswith(rest):
        raise Broken
    return (int(digits), end + 2) if digits and rest == b"\r\n" else None


def decode(data: bytes) -> tuple[list[bytes], int] | None:
    """The request at the front and its length; None where the data is the beginning of a request. Raises Broken."""
    found = _number(data, 0, ord("*"), 1, 4)
    if found is None:
        return None
    count, at = found
    parts = []
    for _ in range(count):
        found = _number(data, at, ord("$"), 0, VALUE_MAX)
        if found is None:
            return None
        length, at = found
        end = data[at + length:at + length + 2]
        if not b"\r\n".startswith(end):
            raise Broken
        if len(end) < 2:
            return None
        parts.append(data[at:at + length])
        at += length + 2
    return parts, at


# Replies

def bulk(value: bytes | None) -> bytes:
    return b"$-1\r\n" if value is None else b"$%d\r\n%s\r\n" % (len(value), value)


def pairs(rows: Iterable[tuple[bytes, bytes]]) -> bytes:
    rows = list(rows)
    return b"*%d\r\n" % (2 * len(rows)) + b"".join(bulk(k) + bulk(v) for k, v in rows)


def refusal(text: str) -> bytes:
    return b"-" + text.encode() + b"\r\n"


OK, PONG, BROKEN_FRAME, FULL = b"+OK\r\n", b"+PONG\r\n", refusal("ERR frame"), refusal("FULL transactions")

def parts_of(reply: bytes) -> list[bytes]:
    """The bulks of an array."""
    end = reply.index(b"\r\n") + 2
    count, parts = int(reply[1:end - 2]), []
    for _ in range(count):
        start = reply.index(b"\r\n", end) + 2
        length = int(reply[end + 1:start - 2])
        parts.append(reply[start:start + length])
        end = start + length + 2
    return parts


PARTS = {b"BEGIN": 1, b"GET": 2, b"SET": 3, b"DEL": 2, b"RANGE": 4, b"COMMIT": 1, b"ABORT": 1, b"PING": 1}


def fault_of(parts: Sequence[bytes]) -> bytes | None:
    """The refusal for the form of a request, if there is one."""
    name = parts[0].upper()
    if name not in PARTS:
        return refusal("ERR command")
    if len(parts) != PARTS[name]:
        return refusal("ERR arguments")
    if name in (b"GET", b"SET", b"DEL", b"RANGE") and not 1 <= len(parts[1]) <= KEY_MAX:
        return refusal("ERR key")
    if name == b"RANGE":
        if len(parts[2]) > KEY_MAX:
            return refusal("ERR key")
        limit = parts[3]
        if not limit.isdigit() or limit[:1] == b"0" or len(limit) > 3 or int(limit) > PAIRS_MAX:
            return refusal("ERR limit")
    return None
