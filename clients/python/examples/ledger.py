"""A ledger: accounts, transfers in double entry, no overdraft.

    ledger.py ADDRESS transfer                          makes a transfer of each line of its input, `ID FROM TO AMOUNT`;
                                                        prints `ID ANSWER` for each
    ledger.py ADDRESS balances                          prints `ACCOUNT BALANCE` of each account, all of one moment
    ledger.py ADDRESS statement ACCOUNT FIRST COUNT     prints so many entries from the first on,
                                                        each as `NUMBER AMOUNT BALANCE ID OTHER`

The answers: `moved`. `uncovered`: the account has less. `differs`: this ID was another transfer. `invalid`: a name, an amount, one
account twice. `later`: nothing was written. `unknown`: nobody knows. After `later` and `unknown` the status is 1. Give the same lines
again: what was moved isn't moved twice, and has the answer that it had.

Amounts are whole cents. Money comes from the account `outside` and goes there; it alone may be below zero. So all balances add up to
zero.

Keys: `account:NAME` holds the balance and how many entries there are, `entry:NAME:NUMBER` the amount, the balance behind it, the ID and
the other account, `transfer:ID` the answer and what was asked. A transfer writes five of them in one transaction.
Transfers of one account meet in its key, so that all but one of them begin again; those of other accounts don't. `balances` reads all
accounts in one transaction, which sees at most 32,767 of them; a statement costs what it prints, however long the account is.
"""
import re
import sys

import ssikvd

OUTSIDE = "outside"
NAME = re.compile(r"[A-Za-z0-9_-]{1,64}", re.ASCII)    # without a colon, so that no account's entries stand among those of another
AMOUNT = re.compile(r"[1-9][0-9]{0,11}", re.ASCII)


def balance_of(transaction, account):
    """The balance, and how many entries there are; zero of both for an account that nobody has used."""
    balance, entries = (transaction.get(f"account:{account}") or b"0 0").split()
    return int(balance), int(entries)


def post(transaction, account, amount, transfer_id, other):
    """Adds an entry to the account, below zero where money leaves it."""
    balance, entries = balance_of(transaction, account)
    transaction.set(f"account:{account}", f"{balance + amount} {entries + 1}")
    transaction.set(f"entry:{account}:{entries + 1:010}", f"{amount} {balance + amount} {transfer_id} {other}")


def move(transaction, transfer_id, source, target, amount):
    """Both entries, unless the source has less. Gives the answer, and what was asked."""
    if source != OUTSIDE and balance_of(transaction, source)[0] < amount:
        return f"uncovered {source} {target} {amount}"
    post(transaction, source, -amount, transfer_id, target)
    post(transaction, target, amount, transfer_id, source)
    return f"moved {source} {target} {amount}"


def is_transfer(transfer_id="", source="", target="", amount="", *more):
    """Are these the words of a transfer?"""
    names = (transfer_id, source, target)
    return all(NAME.fullmatch(name) for name in names) and AMOUNT.fullmatch(amount) and source != target and not more


def transfer(store, transfer_id, source, target, amount):
    """The answer to a transfer, made at most once however often it is asked for."""
    try:
        found = store.once(f"transfer:{transfer_id}", lambda transaction: move(transaction, transfer_id, source, target, int(amount)))
    except ssikvd.Lost:
        return "unknown"
    except (ssikvd.Conflict, ssikvd.Full, ssikvd.Stopped, ssikvd.Unreachable) as error:
        print(f"{transfer_id}: {error}", file=sys.stderr)
        return "later"
    answer, asked = found.decode().split(" ", 1)
    return answer if asked == f"{source} {target} {amount}" else "differs"


def transfers(store, lines):
    """Makes the transfers one after another. Are all of them settled?"""
    is_settled = True
    for line in lines:
        words = line.rstrip("\n").split(" ")
        answer = transfer(store, *words) if is_transfer(*words) else "invalid"
        print(words[0], answer, flush=True)
        is_settled = is_settled and answer not in ("later", "unknown")
    return is_settled


def balances(transaction):
    """Each account with its balance. They are of one snapshot, so they add up to zero beside any transfer."""
    pairs = transaction.range("account:", ssikvd.end_of_prefix("account:"))
    return [(key.decode().removeprefix("account:"), int(value.split()[0])) for key, value in pairs]


def statement(transaction, account, first, count):
    """So many entries of the account from the first, each with its number."""
    pairs = transaction.range(f"entry:{account}:{first:010}", ssikvd.end_of_prefix(f"entry:{account}:"), count)
    return [(int(key.decode().rsplit(":", 1)[1]), value.decode()) for key, value in pairs]


def main():
    address, what, *words = sys.argv[1:]
    with ssikvd.connect(address, connections=1) as store:
        if what == "transfer":
            return 0 if transfers(store, sys.stdin) else 1
        if what == "balances":
            rows = store.transact(balances)
        else:
            rows = store.transact(lambda transaction: statement(transaction, words[0], int(words[1]), int(words[2])))
        for row in rows:
            print(*row)
    return 0


if __name__ == "__main__":
    try:
        sys.exit(main())
    except ssikvd.Error as error:
        sys.exit(f"ledger: {error}")
