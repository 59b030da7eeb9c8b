"""Moves money from one account to another: `transfer.py PORT FROM TO AMOUNT`. An account that is not there holds 0."""
import sys

from simple_client import Client


def balance(store, account):
    return int(store.ask("GET", b"account:" + account) or b"0")


def transfer(store, source, target, amount):
    """Moves the amount, unless the source holds less. Did it? Runs inside a transaction, perhaps more than once."""
    if balance(store, source) < amount:
        return False
    store.ask("SET", b"account:" + source, balance(store, source) - amount)
    store.ask("SET", b"account:" + target, balance(store, target) + amount)
    return True


if __name__ == "__main__":
    port, source, target, amount = int(sys.argv[1]), sys.argv[2].encode(), sys.argv[3].encode(), int(sys.argv[4])
    moved = Client(port).transact(lambda store: transfer(store, source, target, amount))
    print("moved" if moved else "too little there")
