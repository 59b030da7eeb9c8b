"""Prints all pairs whose keys begin with a prefix, page by page, of one snapshot: `walk.py PORT [PREFIX]`."""
import sys

from simple_client import Client

PAGE, KEY_MAX = 128, 256


def least_above(key):
    """The least key above this one; None above the last of all."""
    if len(key) < KEY_MAX:
        return key + b"\0"
    return end_of(key)


def end_of(prefix):
    """The least key above all that begin with the prefix; None where there is none."""
    head = prefix.rstrip(b"\xff")
    return head[:-1] + bytes([head[-1] + 1]) if head else None


def walk(store, prefix=b""):
    """The pairs by rising key. Runs inside a transaction, which is refused `FULL marks` at the 257th page: from 32,768 keys on."""
    at, end = prefix or b"\0", end_of(prefix) or b""
    while at is not None:
        page = store.ask("RANGE", at, end, PAGE)
        yield from zip(page[0::2], page[1::2])
        at = least_above(page[-2]) if len(page) == 2 * PAGE else None


if __name__ == "__main__":
    prefix = sys.argv[2].encode() if len(sys.argv) > 2 else b""
    for key, value in Client(int(sys.argv[1])).transact(lambda store: list(walk(store, prefix))):
        print(key.decode(errors="backslashreplace"), value.decode(errors="backslashreplace"))
