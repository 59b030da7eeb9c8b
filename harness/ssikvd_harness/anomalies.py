"""Which anomalies a history has: cycles of dependencies and of real time, by the names that Adya (1999) and Elle (Kingsbury and Alvaro, VLDB
2020) give them.

A history is a list of events as Jepsen writes them. An `invoke` stands before BEGIN was sent, and an `ok` after COMMIT was answered a number. A
`fail` has certainly not committed, and of an `info` the reply was lost. Its operations are `append`, `w` and `r`, each of a key; values are
unique for their key. Three kinds of dependency lead from one transaction to another that must stand after it, and so does real time:

    ww    it wrote a version of a key, and the other the next one
    wr    it wrote what the other read
    rw    it read a version of a key, and the other wrote the next one
    rt    its COMMIT was answered before the other's BEGIN was sent

The versions of a list are the prefixes of the longest one read. Those of a register stand by commit number, one life of the server after
another; one whose reply was lost has no known place among them. A transaction without a reply counts as committed where another read what it wrote.
"""
from __future__ import annotations

import heapq
from collections import defaultdict
from collections.abc import Callable, Hashable, Iterable, Iterator, Sequence
from typing import Any, TypeVar

Event = dict[str, Any]
Pair = tuple[Hashable, Any]    # a key and a value that was written to it
Step = tuple["Transaction", str, Any]    # of a cycle: the source of a dependency, its kind and its key
Node = TypeVar("Node", bound=Hashable)

DEPENDENCIES = ("ww", "wr", "rw")
LAST = (1 << 63, 0)    # the place of one whose commit number isn't known


class Transaction:
    """One transaction of a history: when it was begun and ended, how, and its operations with what they read."""

    def __init__(self, invoke: Event, end: Event | None) -> None:
        self.number: int = invoke["index"]
        self.process, self.begun = invoke["process"], self.number
        self.kind: str = end["type"] if end else "info"
        self.left: int | None = end["index"] if end else None    # when its process went on
        self.ended = self.left if self.kind == "ok" else None
        self.operations = end["value"] if end and self.kind == "ok" else invoke["value"]
        self.place: tuple[int, int] | None = (end["life"], end["commit"]) if end and self.kind == "ok" else None
        self.error = end.get("error") if end else None

    def __repr__(self) -> str:
        return f"T{self.number}"

    def written(self) -> list[Pair]:
        """Key and value of each write."""
        return [(key, value) for kind, key, value in self.operations if kind != "r"]

    def last_writes(self) -> dict[Hashable, Any]:
        """The last value that it wrote to each key."""
        return dict(self.written())


def transactions(events: Iterable[Event]) -> list[Transaction]:
    """The transactions of a history, by the order in which they began."""
    found: list[Transaction] = []
    open_ones: dict[Any, Event] = {}
    for event in events:
        if event["type"] == "invoke":
            open_ones[event["process"]] = event
        else:
            found.append(Transaction(open_ones.pop(event["process"]), event))
    found += [Transaction(event, None) for event in open_ones.values()]
    return sorted(found, key=lambda t: t.number)


class History:
    """Its committed transactions with their dependencies, and what is wrong before any cycle is looked for."""

    def __init__(self, form: str, events: Iterable[Event]) -> None:
        self.is_list = form == "list"
        self.all = transactions(events)
        self.writer = {pair: t for t in self.all for pair in t.written()}
        self.faults: list[tuple[str, str]] = []
        self.reads: list[tuple[Transaction, Hashable, Any]] = []
        self.edges: dict[str, dict[Transaction, dict[Transaction, Any]]] = {kind: defaultdict(dict) for kind in (*DEPENDENCIES, "rt")}
        for t in self.all:
            if t.kind == "ok":
                self._read_inside(t)
        seen = {pair for _, key, value in self.reads for pair in self._versions_read(key, value)}
        self.committed = [t for t in self.all if t.kind == "ok" or t.kind == "info" and any(pair in seen for pair in t.written())]
        for reader, key, value in self.reads:
            self._check_read(reader, key, value)
        self.chains = self._list_chains() if self.is_list else self._register_chains()
        self._link_versions()
        self._link_real_time()

    def _fault(self, name: str, text: str) -> None:
        self.faults.append((name, text))

    def _link(self, kind: str, source: Transaction, target: Transaction, key: Any = None) -> None:
        if source is not target:
            self.edges[kind][source].setdefault(target, key)

    def _versions_read(self, key: Hashable, value: Any) -> list[Pair]:
        return [(key, element) for element in value] if self.is_list else [(key, value)]

    # What each reads

    def _read_inside(self, t: Transaction) -> None:
        """Within a transaction a read gives what was read before, with its own writes. What it read of others is kept."""
        known: dict[Hashable, Any] = {}
        own: dict[Hashable, list[Any]] = defaultdict(list)
        for kind, key, value in t.operations:
            if kind == "r" and self.is_list:
                value, mine = value or [], own[key]
                before = value[:len(value) - len(mine)]
                if value[len(before):] != mine or key in known and known[key] != before:
                    self._fault("internal", f"{t!r} read {value} of {key}, where it knew {known.get(key)} and had appended {mine}")
                elif key not in known:
                    self.reads.append((t, key, before))
                known[key] = before
            elif kind == "r":
                if key in known and known[key] != value:
                    self._fault("internal", f"{t!r} read {value} of {key}, where it knew {known[key]}")
                elif key not in known:
                    self.reads.append((t, key, value))
                known[key] = value
            elif self.is_list:
                own[key].append(value)
            else:
                known[key] = value

    def _check_read(self, reader: Transaction, key: Hashable, value: Any) -> None:
        """What was read was written, by one that didn't fail, and was its last."""
        found = [pair for pair in self._versions_read(key, value) if pair[1] is not None]
        if len(set(found)) < len(found):
            self._fault("duplicate", f"{reader!r} read {value} of {key}")
        for pair in found:
            writer = self.writer.get(pair)
            if writer is None:
                self._fault("unwritten", f"{reader!r} read {pair[1]} of {key}, which nobody wrote")
            elif writer.kind == "fail":
                self._fault("G1a", f"{reader!r} read {pair[1]} of {key}, which {writer!r} wrote, and it failed")
        writer = self.writer.get(found[-1]) if found else None
        if writer and writer is not reader and writer.last_writes()[key] != found[-1][1]:
            self._fault("G1b", f"{reader!r} read {found[-1][1]} of {key}, over which {writer!r} itself wrote")

    # The versions of each key

    def _list_chains(self) -> dict[Hashable, tuple[list[Any], list[Any]]]:
        """The elements of each list, and those that were never read, which can only stand after them."""
        longest: dict[Hashable, list[Any]] = defaultdict(list)
        unread: dict[Hashable, list[Any]] = defaultdict(list)
        for _, key, value in self.reads:
            longest[key] = max(longest[key], value, key=len)
        for reader, key, value in self.reads:
            if longest[key][:len(value)] != value:
                self._fault("incompatible-order", f"{reader!r} read {value} of {key}, which is no prefix of {longest[key]}")
        for t in self.committed:
            for key, value in t.written():
                if value not in longest[key]:
                    unread[key].append(value)
        return {key: (longest[key], unread[key]) for key in {*longest, *unread}}

    def _register_chains(self) -> dict[Hashable, tuple[list[Any], list[Any]]]:
        """The values of each register by commit number."""
        chains: dict[Hashable, list[Any]] = defaultdict(list)
        for t in sorted((t for t in self.committed if t.place), key=lambda t: t.place or LAST):
            for key, value in t.last_writes().items():
                chains[key].append(value)
        return {key: (values, []) for key, values in chains.items()}

    def _link_versions(self) -> None:
        for key, (chain, unread) in self.chains.items():
            writers = [self.writer.get((key, value)) for value in chain]
            for one, other in zip(writers, writers[1:]):
                if one and other:
                    self._link("ww", one, other, key)
            last = writers[-1] if writers else None
            if last:
                for value in unread:
                    self._link("ww", last, self.writer[key, value], key)
        places = {(key, value): place for key, (chain, _) in self.chains.items() for place, value in enumerate(chain)}
        for reader, key, value in self.reads:
            self._link_read(reader, key, (value[-1] if value else None) if self.is_list else value, places)

    def _link_read(self, reader: Transaction, key: Hashable, version: Any, places: dict[Pair, int]) -> None:
        """From whoever wrote what was read, and to whoever wrote the next version. What isn't placed has no known next one."""
        chain, unread = self.chains.get(key, ([], []))
        writer = self.writer.get((key, version))
        if writer:
            self._link("wr", writer, reader, key)
        if version is not None and (key, version) not in places:
            return
        following = 0 if version is None else places[key, version] + 1
        for value in chain[following:following + 1] or unread:
            if (key, value) in self.writer:
                self._link("rw", reader, self.writer[key, value], key)

    def _link_real_time(self) -> None:
        """From each that ended to those that began since, without what follows from other such links."""
        events = [(t.begun, t, True) for t in self.committed] + [(t.ended, t, False) for t in self.committed if t.ended is not None]
        latest: set[Transaction] = set()
        before: dict[Transaction, set[Transaction]] = {}
        for _, t, is_begin in sorted(events, key=lambda event: event[0]):
            if is_begin:
                before[t] = set(latest)
                for earlier in latest:
                    self._link("rt", earlier, t)
            else:
                latest -= before[t]
                latest.add(t)

    # Cycles

    def after(self, kinds: Iterable[str], t: Transaction) -> list[tuple[Transaction, str, Any]]:
        return [(other, kind, key) for kind in kinds for other, key in self.edges[kind].get(t, {}).items()]

    def anomalies(self) -> list[tuple[str, str]]:
        """Name and text of each anomaly."""
        found = list(self.faults)
        for component in components(self.committed, lambda t: [other for other, _, _ in self.after(self.edges, t)]):
            if len(component) > 1:
                found += self._named(set(component))
        return found

    def _named(self, among: set[Transaction]) -> list[tuple[str, str]]:
        """The cycles among transactions that all lie in some: of dependencies alone, or else also of real time."""
        for kinds, suffix in (((), ""), (("rt",), "-realtime")):
            found = [
                (name + suffix, self._shown(cycle)) for name, cycle in (
                    ("G0", self._cycle(among, "ww", ("ww", *kinds))),
                    ("G1c", self._cycle(among, "wr", ("ww", "wr", *kinds))),
                    ("G-single", self._cycle(among, "rw", ("ww", "wr", *kinds)))) if cycle]
            several = None if found else self._cycle(among, "rw", (*DEPENDENCIES, *kinds))
            if several:
                found.append(("G2" + suffix, self._shown(several)))
            if found:
                return found
        return [("cycle", f"among {sorted(t.number for t in among)}")]

    def _cycle(self, among: set[Transaction], first: str, kinds: tuple[str, ...]) -> list[Step] | None:
        """A shortest cycle that begins with this kind and goes on by these."""
        best: list[Step] | None = None
        for t in sorted(among, key=lambda t: t.number):
            for target, key in self.edges[first].get(t, {}).items():
                way = self._way(among, target, t, kinds) if target in among else None
                if way is not None and (best is None or len(way) + 1 < len(best)):
                    best = [(t, first, key), *way]
        return best

    def _way(self, among: set[Transaction], start: Transaction, end: Transaction, kinds: tuple[str, ...]) -> list[Step] | None:
        """A shortest way from one to another: each step's source, kind and key."""
        came: dict[Transaction, Step | None] = {start: None}
        now = [start]
        while now and end not in came:
            following: list[Transaction] = []
            for t in now:
                for other, kind, key in self.after(kinds, t):
                    if other in among and other not in came:
                        came[other] = t, kind, key
                        following.append(other)
            now = following
        if end not in came:
            return None
        way: list[Step] = []
        step = came[end]
        while step:
            way.append(step)
            step = came[step[0]]
        return way[::-1]

    @staticmethod
    def _shown(cycle: Sequence[Step]) -> str:
        steps = [f"{t!r} -{kind}{'' if key is None else f' {key}'}-> " for t, kind, key in cycle]
        return "".join(steps) + repr(cycle[0][0])

    # The serial order

    def serial_order(self) -> list[Transaction] | None:
        """The committed ones so that each dependency and real time rise, and else by commit number. None where there is a cycle."""
        waits = {t: 0 for t in self.committed}
        for t in self.committed:
            for other, _, _ in self.after(self.edges, t):
                waits[other] += 1
        order: list[Transaction] = []
        free: list[tuple[tuple[int, int], int, Transaction]] = []

        def add(t: Transaction) -> None:
            heapq.heappush(free, (t.place or LAST, t.number, t))

        for t in self.committed:
            if not waits[t]:
                add(t)
        while free:
            order.append(heapq.heappop(free)[2])
            for other, _, _ in self.after(self.edges, order[-1]):
                waits[other] -= 1
                if not waits[other]:
                    add(other)
        return order if len(order) == len(self.committed) else None

    def deviation(self, order: Sequence[Transaction]) -> str | None:
        """What is wrong with a serial order, looked for without any dependency. Each committed transaction stands in it once, none behind one that
        began when it had ended, and run one at a time they read what they read. None where all is right. Registers to which one of unknown place
        has written are left out."""
        if sorted(t.number for t in order) != sorted(t.number for t in self.committed):
            return "it has other transactions than have committed"
        soonest = LAST[0]
        for t in reversed(order):
            if soonest < t.begun:
                return f"one that had ended when {t!r} began stands behind it"
            soonest = min(soonest, LAST[0] if t.ended is None else t.ended)
        unknown = set() if self.is_list else {key for t in self.committed if not t.place for key, _ in t.written()}
        contents: dict[Hashable, Any] = {}
        for t in order:
            for kind, key, value in t.operations:
                before = contents.get(key, [] if self.is_list else None)
                if kind == "append":
                    contents[key] = [*before, value]
                elif kind == "w":
                    contents[key] = value
                elif t.kind == "ok" and key not in unknown and (value or None) != (before or None):
                    return f"{t!r} read {value} of {key}, where the order gives {before}"
        return None


def components(nodes: Iterable[Node], after: Callable[[Node], Iterable[Node]]) -> list[list[Node]]:
    """The strongly connected components of a graph (Tarjan 1972)."""
    number: dict[Node, int] = {}
    low: dict[Node, int] = {}
    stack: list[Node] = []
    on_stack: set[Node] = set()
    found: list[list[Node]] = []
    for root in nodes:
        if root in number:
            continue
        work: list[tuple[Node, Iterator[Node] | None]] = [(root, None)]
        while work:
            node, rest = work.pop()
            if rest is None:
                number[node] = low[node] = len(number)
                stack.append(node)
                on_stack.add(node)
                rest = iter(after(node))
            for other in rest:
                if other not in number:
                    work += [(node, rest), (other, None)]
                    break
                if other in on_stack:
                    low[node] = min(low[node], low[other])
            else:
                if low[node] == number[node]:
                    found.append([])
                    while node in on_stack:
                        found[-1].append(stack.pop())
                        on_stack.remove(found[-1][-1])
                if work:
                    low[work[-1][0]] = min(low[work[-1][0]], low[node])
    return found
