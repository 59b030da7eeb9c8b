"""The bytes of the log, written and read as docs/LOG_FORMAT.md has them, and not from the code."""
import hashlib
from collections.abc import Callable, Iterable, Iterator, Sequence

from .limits import KEY_MAX, VALUE_MAX, WRITES_MAX

Write = tuple[bytes, bytes | None]    # None is written where the key is deleted
Writes = Sequence[Write]

SECTOR = 512
HEAD, OLD_HEAD = (head.ljust(SECTOR, b"\0") for head in (b"SSIKVLG2", b"SSIKVLG1"))
BODY_MAX = 2_081


class NotALog(Exception):
    """What the device holds is no log."""


class OldFormat(Exception):
    """The device holds the head of format 1."""


class Damaged(Exception):
    """The record of this index isn't the one that it should be."""


# To write

def payload(writes: Writes) -> bytes:
    """The payload of a record."""
    out = len(writes).to_bytes(4, "big")
    for key, value in writes:
        out += len(key).to_bytes(2, "big") + key
        out += b"\0" if value is None else b"\1" + len(value).to_bytes(4, "big") + value
    return out


def body_sectors(content: bytes) -> int:
    return -(-(44 + len(content)) // SECTOR)


def sectors_used(log: Iterable[Writes]) -> int:
    """The sectors up to and with the last closed gate."""
    return 2 + sum(body_sectors(payload(w)) + 1 for w in log)


def records(log: Iterable[Writes]) -> Iterator[bytes]:
    """The sectors of each record, the open gate in front of its body."""
    digest = bytes(32)
    for index, writes in enumerate(log):
        content, place = payload(writes), index.to_bytes(8, "big")
        digest = hashlib.sha256(digest + place + content).digest()
        body = len(content).to_bytes(4, "big") + place + digest + content
        yield b"\1".ljust(SECTOR, b"\0") + body.ljust(SECTOR * body_sectors(content), b"\0")


def log_image(log: Iterable[Writes], sectors: int, head: bytes = HEAD) -> bytes:
    """The bytes of a device of this many sectors with a log of these write sets, of which nothing else was ever written. With the old head
    it is a log of format 1, as long as no value is longer than 4,096 bytes."""
    return b"".join((head, *records(log))).ljust(SECTOR * sectors, b"\0")


def write_log(path: str, log: Iterable[Writes], free_sectors: int = 0) -> None:
    """Writes a data file of these write sets, one after the other, with this many sectors after the last gate."""
    with open(path, "wb") as file:
        file.write(HEAD)
        for sectors in records(log):
            file.write(sectors)
        file.truncate(file.tell() + (1 + free_sectors) * SECTOR)


# To read

def _entry(content: bytes, at: int) -> tuple[Write, int]:
    """The write at this place of a payload, and the place after it. Raises ValueError or IndexError where there is none."""
    size, at = int.from_bytes(content[at:at + 2], "big"), at + 2
    key, at = content[at:at + size], at + size
    if not 1 <= len(key) == size <= KEY_MAX or content[at] > 1:
        raise ValueError
    if content[at] == 0:
        return (key, None), at + 1
    size, at = int.from_bytes(content[at + 1:at + 5], "big"), at + 5
    value = content[at:at + size]
    if len(value) != size or size > VALUE_MAX:
        raise ValueError
    return (key, value), at + size


def writes_of(content: bytes) -> list[Write] | None:
    """The writes of a payload. None where it has another form."""
    count, at = int.from_bytes(content[:4], "big"), 4
    writes: list[Write] = []
    try:
        for _ in range(count if count <= WRITES_MAX else 0):
            write, at = _entry(content, at)
            writes.append(write)
    except (ValueError, IndexError):
        return None
    keys = [key for key, _ in writes]
    return writes if writes and at == len(content) and keys == sorted(set(keys)) else None


Known = tuple[Sequence[Writes], int, bytes]    # of a log the write sets, the place of the closed gate, and the last digest
AT_FIRST: Known = ((), 1, bytes(32))


def read_log(sector: Callable[[int], bytes], sectors: int, known: Known = AT_FIRST) -> tuple[list[Writes], int, bytes]:
    """What the log of a device of this many sectors holds, of which `sector` gives each: the write sets, the place of the closed gate, and
    the last digest. Of a beginning all of this may be known. Raises NotALog, OldFormat, or Damaged with an index."""
    if sectors >= 2 and sector(0) == OLD_HEAD:
        raise OldFormat
    if sectors < 2 or sector(0) != HEAD:
        raise NotALog
    log, place, digest = list(known[0]), known[1], known[2]
    while sector(place)[0] == 1:
        if place + 2 >= sectors:
            raise Damaged(len(log))
        first = sector(place + 1)
        size = int.from_bytes(first[:4], "big")
        bodies = -(-(44 + size) // SECTOR)
        if bodies > BODY_MAX or place + bodies + 1 >= sectors:
            raise Damaged(len(log))
        body = first + b"".join(sector(place + 2 + i) for i in range(bodies - 1))
        index, content = len(log).to_bytes(8, "big"), body[44:44 + size]
        digest = hashlib.sha256(digest + index + content).digest()
        writes = writes_of(content)
        if body[4:44] != index + digest or writes is None or any(body[44 + size:]):
            raise Damaged(len(log))
        log.append(writes)
        place += bodies + 1
    return log, place, digest


def log_of(name: str) -> list[Writes]:
    """The write sets of a data file."""
    with open(name, "rb") as file:
        image = file.read()
    return read_log(lambda at: image[SECTOR * at:SECTOR * (at + 1)], len(image) // SECTOR)[0]


def apply(contents: dict[bytes, bytes], writes: Writes) -> None:
    """Writes to a map."""
    for key, value in writes:
        if value is None:
            contents.pop(key, None)
        else:
            contents[key] = value


def map_of(log: Iterable[Writes]) -> dict[bytes, bytes]:
    """The map that a log leads to."""
    contents: dict[bytes, bytes] = {}
    for writes in log:
        apply(contents, writes)
    return contents


def copy_of(log: Iterable[Writes]) -> list[Writes]:
    """The write sets that `compact` makes of a log."""
    rows = sorted(map_of(log).items())
    return [rows[at:at + WRITES_MAX] for at in range(0, len(rows), WRITES_MAX)]
