"""Writes the lines of `export.py json` into a store, 64 pairs a transaction: `load.py PORT < LINES`."""
import itertools
import json
import sys

from simple_client import Client


def pair(line):
    """The key and the value of a line."""
    fields = json.loads(line)
    return tuple(fields[name].encode() if name in fields else bytes.fromhex(fields[name + "_hex"]) for name in ("key", "value"))


def load(store, pairs):
    """Writes the pairs. Where it is broken off, all pairs up to some place are there: begin again from the first."""
    pairs = iter(pairs)
    while some := list(itertools.islice(pairs, 64)):
        store.transact(lambda store: [store.ask("SET", key, value) for key, value in some])


if __name__ == "__main__":
    load(Client(int(sys.argv[1])), map(pair, sys.stdin))
