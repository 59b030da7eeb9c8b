"""A pool of connections: `pool.py PORT COUNTER WORKERS TIMES` lets several workers add to one counter, each addition once."""
import concurrent.futures
import contextlib
import sys
import threading

import once
from simple_client import Client, Lost, Refused


class Pool:
    """At most 64 connections, each lent for one transaction: `with pool.lend() as store: store.transact(work)`."""

    def __init__(self, connect, size=64):
        self.connect, self.free, self.places = connect, [], threading.BoundedSemaphore(size)

    @contextlib.contextmanager
    def lend(self):
        """Lends a connection, and waits for one where all are lent. It is lent again unless it is lost or may have a reply to come."""
        with self.places:
            store, is_whole = self.free.pop() if self.free else self.connect(), False
            try:
                yield store
                is_whole = True
            except Refused:
                is_whole = True
                raise
            finally:
                self._take_back(store, is_whole)

    def _take_back(self, store, is_whole):
        """Keeps the connection, with no transaction open, or closes it."""
        try:
            if is_whole:
                store.ask("ABORT")
        except Refused:    # ERR none: none was open
            pass
        except Lost:
            is_whole = False
        if is_whole:
            self.free.append(store)
        else:
            store.close()

    def transact(self, work):
        """Runs work(store) in a transaction over one of the connections, as `Client.transact` does."""
        with self.lend() as store:
            return store.transact(work)


def main(port, counter, workers, times):
    pool, tries = Pool(lambda: Client(port)), []

    def add(store):
        tries.append(1)
        once.add_one(store, counter)

    def play(worker):
        return sum(once.once(pool.transact, b"%s.%d.%d" % (counter, worker, turn), add) for turn in range(times))

    with concurrent.futures.ThreadPoolExecutor(workers) as threads:
        added = sum(threads.map(play, range(workers)))
    count = pool.transact(lambda store: store.ask("GET", counter))
    print(f"added {added}, counter {(count or b'0').decode()}\ntries {len(tries)}")


if __name__ == "__main__":
    main(int(sys.argv[1]), sys.argv[2].encode(), int(sys.argv[3]), int(sys.argv[4]))
