"""Adds 1 to a counter exactly once, though connections are lost: `once.py PORT COUNTER NAME`, NAME being new for each addition.

Where the connection is lost after a COMMIT was sent, nobody knows whether it was carried out. So the transaction also writes a key of its own, and
whoever begins again looks for it first. A lost transaction that is still under way wrote the same key, so of the two one commits.
"""
import random
import sys
import time

from simple_client import Client, Lost


def once(transact, name, work, tries=1_000):
    """Runs work(store) by `transact` until it is known to be committed, over as many connections as it takes. It commits once. Gives False
    where an earlier try had committed it."""
    def unless_done(store):
        if store.ask("GET", b"done:" + name) is not None:
            return False
        work(store)
        store.ask("SET", b"done:" + name, b"")
        return True

    for turn in range(tries):
        try:
            return transact(unless_done)
        except (Lost, ConnectionError, TimeoutError):
            time.sleep(random.uniform(0, 0.001 * 2 ** min(turn, 6)))
    raise Lost(f"{tries} connections, one after another")


def add_one(store, counter):
    store.ask("SET", counter, int(store.ask("GET", counter) or b"0") + 1)


if __name__ == "__main__":
    port, counter, name = int(sys.argv[1]), sys.argv[2].encode(), sys.argv[3].encode()
    is_new = once(lambda work: Client(port).transact(work), name, lambda store: add_one(store, counter))
    print("added" if is_new else "was added before")
