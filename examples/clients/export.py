"""Reads a copy of a data file and writes its map: `export.py json COPY`, or `export.py postgres COPY`.

`json` gives a line {"key": .., "value": ..} for each pair; one that is no UTF-8 is named "key_hex" or "value_hex". `postgres` gives what
`COPY pairs (key, value) FROM STDIN` reads into a table of two columns of type bytea. Written from docs/LOG_FORMAT.md alone.
"""
import hashlib
import json
import struct
import sys

SECTOR = 512
BODY_MAX = {b"SSIKVLG1".ljust(SECTOR, b"\0"): 545, b"SSIKVLG2".ljust(SECTOR, b"\0"): 2_081}    # for each head, the most sectors of a body


class Damaged(Exception):
    """This record is not what the format asks for."""


def records(file):
    """The payloads of the log, the first first."""
    body_max = BODY_MAX.get(file.read(SECTOR))
    if body_max is None:
        raise Damaged("no log")
    index, digest, gate = 0, bytes(32), file.read(SECTOR)
    while gate[:1] == b"\1":
        start = file.read(SECTOR)
        length = struct.unpack_from(">I", start)[0] if len(start) == SECTOR else 0
        sectors = -(-(44 + length) // SECTOR)
        body = start + (file.read(SECTOR * (sectors - 1)) if sectors <= body_max else b"")
        gate, payload = file.read(SECTOR), body[44:44 + length]
        digest = hashlib.sha256(digest + struct.pack(">Q", index) + payload).digest()
        due = struct.pack(">IQ", length, index) + digest + payload
        if len(gate) != SECTOR or body != due.ljust(SECTOR * sectors, b"\0"):
            raise Damaged(f"record {index}")
        yield payload
        index += 1


def writes(payload):
    """The writes of a payload: key and value, or None for a deletion."""
    at = 4
    for _ in range(struct.unpack_from(">I", payload)[0]):
        size = struct.unpack_from(">H", payload, at)[0]
        key, kept, at = payload[at + 2:at + 2 + size], payload[at + 2 + size], at + 3 + size
        length = struct.unpack_from(">I", payload, at)[0] if kept else 0
        at += 4 if kept else 0
        yield key, payload[at:at + length] if kept else None
        at += length


def map_of(file):
    """The map that the log's records leave, by rising key."""
    found = {}
    for payload in records(file):
        found.update(writes(payload))
    return [(key, found[key]) for key in sorted(found) if found[key] is not None]


def named(name, data):
    try:
        return name, data.decode()
    except UnicodeDecodeError:
        return name + "_hex", data.hex()


FORMS = {
    "json": lambda key, value: json.dumps(dict([named("key", key), named("value", value)]), ensure_ascii=False),
    "postgres": lambda key, value: rf"\\x{key.hex()}" + "\t" + rf"\\x{value.hex()}"}

if __name__ == "__main__":
    with open(sys.argv[2], "rb") as file:
        for key, value in map_of(file):
            print(FORMS[sys.argv[1]](key, value))
