#!/usr/bin/env python3
"""Draws the pictures of the documents: `draw.py` writes them next to itself, `draw.py --check` looks whether they are as they would be drawn.

The crates come from crates.txt, the examples from the folder examples, by its picture.py, and the figures from bench/results, by bench/page.py. Text stays
text, and room for it is counted in DejaVu Sans.
"""
import argparse
import math
import os
import sys

HERE = os.path.dirname(os.path.abspath(__file__))
sys.path += [os.path.join(HERE, "..", "..", name) for name in ("bench", "examples")]

import page                                                                              # noqa: E402
from picture import AMBER, BLUE, GREEN, INK, RED, SOFT, Picture, play_picture, width_of  # noqa: E402


def widest(texts, size=13, weight="normal"):
    return max(width_of(text, size, weight) for text in texts)


# The crates as layers

def product_crates():
    """The crates of the product with those of the repository that they stand on: those above the first empty line of crates.txt."""
    found = {}
    with open(os.path.join(HERE, "..", "..", "crates.txt"), encoding="utf-8") as file:
        for line in file.read().split("\n\n")[0].splitlines():
            if line and not line.startswith("#"):
                name, _, rest = line.partition(":")
                found[name.split()[0]] = rest.split()
    return {name: [low for low in lows if low in found] for name, lows in found.items()}


BOX, BOX_HEIGHT, GAP, STEP = 132, 34, 22, 74


def gap_of(node):
    """How wide a place of a row is: that of a crate, or of an arrow that passes."""
    return BOX + GAP if isinstance(node, str) else GAP


def rows_of(stands_on, place):
    """The rows with their crates, and with a place for each arrow that passes between the crates of a row; and the ways of the arrows."""
    rows = {}
    for name in stands_on:
        rows.setdefault(place[name], []).append(name)
    ways = []
    for name, lows in stands_on.items():
        for low in lows:
            passed = [(name, low, row) for row in range(place[name] - 1, place[low], -1)]
            for node in passed:
                rows[node[2]].append(node)
            ways.append([name, *passed, low])
    return rows, ways


def least_moved(wanted, gaps):
    """Places in this order that are no nearer to each other than the gaps ask for, and as near as possible to the wanted ones."""
    starts = [sum(gaps[:number]) + gaps[number] / 2 for number in range(len(gaps))]
    blocks = []
    for want, start in zip(wanted, starts):
        blocks.append([want - start, 1])
        while len(blocks) > 1 and blocks[-2][0] > blocks[-1][0]:
            (low, many), (high, more) = blocks[-2], blocks.pop()
            blocks[-1] = [(low * many + high * more) / (many + more), many + more]
    moved = [at for at, many in blocks for _ in range(many)]
    return [at + start for at, start in zip(moved, starts)]


def laid_out(rows, ways):
    """Where each crate, and each arrow that passes, stands in its row: near to what it is joined to."""
    joined = {node: [] for row in rows.values() for node in row}
    for way in ways:
        for one, other in zip(way, way[1:]):
            joined[one].append(other)
            joined[other].append(one)
    x = {node: number * (BOX + GAP) for row in rows.values() for number, node in enumerate(row)}
    for turn in range(60):
        for level in sorted(rows, reverse=turn % 2 == 0):
            wanted = {node: sum(x[other] for other in joined[node]) / len(joined[node]) for node in rows[level]}
            if turn < 20:
                rows[level].sort(key=wanted.get)
            row = rows[level]
            x.update(zip(row, least_moved([wanted[node] for node in row], [gap_of(node) for node in row])))
    least = min(at - gap_of(node) / 2 for node, at in x.items())
    return {node: at - least + 20 for node, at in x.items()}


def crates():
    stands_on = product_crates()

    def below(name):
        return set(stands_on[name]).union(*(below(low) for low in stands_on[name])) if stands_on[name] else set()

    def level(name):
        return 1 + max((level(low) for low in stands_on[name]), default=-1)

    # What stands on a crate through another is left out. A crate that stands on none is drawn right below those that stand on it.
    direct = {name: [low for low in lows if not any(low in below(other) for other in lows)] for name, lows in stands_on.items()}
    users = {name: [level(other) for other, lows in direct.items() if name in lows] for name in stands_on}
    place = {name: level(name) if stands_on[name] else min(users[name]) - 1 for name in stands_on}
    rows, ways = rows_of(direct, place)
    x = laid_out(rows, ways)
    legend = "An arrow leads from a crate to one that it uses; what follows from other arrows is left out."
    width = max(math.ceil(max(at + gap_of(node) / 2 for node, at in x.items())) + 20, math.ceil(widest([legend])) + 40)
    picture = Picture("The crates as layers", width, len(rows) * STEP + 44)
    y = {level: picture.height - 48 - (level - min(rows)) * STEP for level in rows}
    for way in ways:
        points = [(x[way[0]], y[place[way[0]]] + BOX_HEIGHT / 2)]
        for node in way[1:-1]:
            points += [(x[node], y[node[2]] - BOX_HEIGHT / 2), (x[node], y[node[2]] + BOX_HEIGHT / 2)]
        points.append((x[way[-1]], y[place[way[-1]]] - BOX_HEIGHT / 2))
        for number, (one, other) in enumerate(zip(points, points[1:]), 2):
            picture.line(*one, *other, SOFT, number == len(points))
    for name in stands_on:
        at, row = x[name], y[place[name]]
        picture.box(at - BOX / 2, row - BOX_HEIGHT / 2, BOX, BOX_HEIGHT)
        picture.text(at, row + 5, name, "middle", weight="bold")
    picture.text(20, picture.height - 8, legend, fill=SOFT)
    return picture


# The way of one COMMIT

WAY = [
    ("client", "sends the frame of COMMIT", None),
    ("event_loop", "the poll reports that the socket is ready", None),
    ("stream_driver", "reads the bytes into the session's inbox", None),
    ("resp", "finds a whole frame; its parts are the command COMMIT", "ERR frame; the session ends"),
    ("engine", "looks for the session's transaction", "ERR none; STORE stopped, which ends it"),
    ("pivot_check", "checks for conflicts with what committed since its BEGIN", "CONFLICT; the transaction has ended"),
    ("commit_log", "checks that the log has room, if something was written", "FULL log; the transaction has ended"),
    ("engine", "allocates all memory that the rest needs", "none, where it is refused; the session is closed"),
    ("commit_log", "body, closed gate, sync; open gate, sync", "STORE fault; the store stops"),
    ("versions", "installs the writes; pivot_check notes the record", None),
    ("resp", "writes the commit number into the session's output", None),
    ("stream_driver", "writes the output to the socket", None),
]


def commit():
    row = 40
    aside = 165 + math.ceil(widest([what for _, what, ends in WAY if ends])) + 60
    picture = Picture("The way of one COMMIT", aside + math.ceil(widest([ends for _, _, ends in WAY if ends])) + 20, len(WAY) * row + 60)
    picture.text(20, 24, "One call after the other, in one thread", weight="bold")
    picture.text(aside, 24, "or the reply is", fill=RED, weight="bold")
    for number, (crate, what, ends) in enumerate(WAY):
        y = 40 + number * row
        is_disk = "sync" in what
        picture.box(20, y, 130, 28, "#dfeaf4" if not is_disk else "#f6e3c4")
        picture.text(85, y + 19, crate, "middle", weight="bold")
        picture.text(165, y + 19, what)
        if number + 1 < len(WAY):
            picture.line(85, y + 28, 85, y + row, SOFT, True)
        if ends:
            picture.line(aside - 50, y + 14, aside - 10, y + 14, RED, False, 1, "4 3")
            picture.text(aside, y + 19, ends, fill=RED)
    legend = "An arrow leads to the next call. Only the amber box calls the device; it is skipped if nothing was written."
    picture.text(20, picture.height - 10, legend, fill=SOFT)
    return picture


# The sectors of an append

STEPS = [
    ("before the call", ["open", "body", "closed", "?", "?", "?"], [], "the log ends at sector p"),
    ("write the body", ["open", "body", "closed", "body", "body", "?"], [3, 4], "a crash: the old log"),
    ("write a closed gate after it", ["open", "body", "closed", "body", "body", "closed"], [3, 4, 5], "a crash: the old log"),
    ("sync", ["open", "body", "closed", "body", "body", "closed"], [], "a crash: the old log"),
    ("write the open gate at p", ["open", "body", "open", "body", "body", "closed"], [2], "a crash: the old log, or the new one"),
    ("sync, and the append answers", ["open", "body", "open", "body", "body", "closed"], [], "a crash: the new log"),
]
FILLS = {"open": "#cfe8d8", "closed": "#f3d5d0", "body": "#dfeaf4", "?": "white"}


def append():
    cell, row = 84, 52
    left = 36 + math.ceil(widest([f"0. {what}" for what, _, _, _ in STEPS]))
    picture = Picture("An append, sector by sector", left + 6 * cell + 260, len(STEPS) * row + 80)
    for number, name in enumerate(("gate", "body", "gate p", "p + 1", "p + 2", "p + 3")):
        picture.text(left + cell * (number + 0.5), 26, name, "middle", SOFT)
    for number, (what, sectors, pending, crash) in enumerate(STEPS):
        y = 40 + number * row
        picture.text(20, y + 22, f"{number}. {what}" if number else what)
        for at, content in enumerate(sectors):
            loose = at in pending
            picture.box(left + cell * at + 3, y, cell - 6, 34, FILLS[content], RED if loose else SOFT, "5 3" if loose else "")
            picture.text(left + cell * (at + 0.5), y + 22, content, "middle")
        picture.text(left + 6 * cell + 14, y + 22, crash, fill=SOFT)
    picture.text(20, picture.height - 14, "Dashed: not durable yet. A crash may leave any bytes there. A reader stops at the first closed gate.", fill=SOFT)
    return picture


# Examples

EXAMPLES = {
    "write_skew": "Write skew: each reads the key that the other writes",
    "phantom": "A phantom: each reads the range that the other adds a key to",
    "read_only_anomaly": "The read-only anomaly: what session 3 read leaves no place for session 1"}


def example(name):
    place = os.path.join(HERE, "..", "..", "examples", name)
    return play_picture(EXAMPLES[name], place + ".play", place + ".out")


# Figures, of the results in bench/results

# The rows of each chart: what was measured, against whom, and whom as the chart says it.
POSTGRES, DEVICE = "PostgreSQL SERIALIZABLE", "the device, two syncs"
CHARTS = {
    "requests": [
        ("PING, 1 connection", "C epoll echo", "an echo server in C"),
        ("PING, 16 connections", "C epoll echo", "an echo server in C"),
        ("PING, 64 connections", "C epoll echo", "an echo server in C"),
        ("32 pipelined PINGs, 16 connections", "Redis", "Redis"),
        ("BEGIN, 4 GET, COMMIT, 16 connections, one request at a time", POSTGRES, "PostgreSQL"),
        ("BEGIN, 4 GET, COMMIT, 16 connections, pipelined", POSTGRES, "PostgreSQL"),
        ("BEGIN, 4 GET, COMMIT, 16 connections, pipelined", "Redis, MULTI and EXEC", "Redis, MULTI and EXEC"),
        ("BEGIN, RANGE of 64, COMMIT, 16 connections, one request at a time", POSTGRES, "PostgreSQL"),
        ("BEGIN, RANGE of 64, COMMIT, 16 connections, pipelined", POSTGRES, "PostgreSQL")],
    "commits": [
        ("BEGIN, SET, COMMIT, 16 connections, one request at a time", DEVICE, "two syncs of the device"),
        ("BEGIN, SET, COMMIT, 1 connection, pipelined", DEVICE, "two syncs of the device"),
        ("BEGIN, SET, COMMIT, 1 connection, one request at a time", DEVICE, "two syncs of the device"),
        ("BEGIN, SET, COMMIT, 1 connection, one request at a time", "PostgreSQL, durable", "PostgreSQL"),
        ("BEGIN, SET, COMMIT, 16 connections, one request at a time", "PostgreSQL, durable", "PostgreSQL"),
        ("BEGIN, GET, SET of one of 16 keys, COMMIT, 16 connections, one request at a time", "PostgreSQL, durable", "PostgreSQL")]}
GRID = "#d5dde4"
COLORS = {"ssikvd": BLUE, "postgres": AMBER, "redis": RED, "etcd": GREEN}
LINES = (BLUE, AMBER, RED, GREEN, "#7a4fa3", "#3f8f95", "#8a6a4a", "#5b7083")


def bars(chart, title):
    found = page.rows()
    rows = [(what, beside, found[what, peer]) for what, peer, beside in CHARTS[chart] if (what, peer) in found]
    most = math.ceil(max(max(row["ratio"], row["middle_half"][1]) for _, _, row in rows))
    left, width, row_height = 36 + math.ceil(widest([what for what, _, _ in rows], 12)), 400, 44
    scale, step = width / most, 0.5 if most <= 4 else 1
    picture = Picture(title, left + width + 70, len(rows) * row_height + 96)
    picture.text(20, 26, title, weight="bold")
    bottom = 46 + len(rows) * row_height
    for mark in range(int(most / step) + 1):
        x = left + scale * mark * step
        picture.line(x, 42, x, bottom, INK if mark * step == 1 else GRID, False, 1)
        picture.text(x, bottom + 16, f"{mark * step:g}", "middle", SOFT)
    for number, (what, beside, row) in enumerate(rows):
        y, ratio, (low, high) = 50 + number * row_height, row["ratio"], row["middle_half"]
        picture.text(20, y + 13, what, size=12)
        picture.text(20, y + 28, "against " + beside, fill=SOFT, size=11)
        picture.box(left, y + 4, scale * ratio, 20, BLUE if ratio >= 1 else AMBER, "none")
        picture.line(left + scale * low, y + 14, left + scale * high, y + 14, INK, False, 2)
        for edge in (low, high):
            picture.line(left + scale * edge, y + 8, left + scale * edge, y + 20, INK, False, 2)
        picture.text(left + scale * max(high, ratio) + 10, y + 19, f"{ratio:.2f}")
    legend = "A bar: the median of ssikvd's rate divided by the other's; more is better, and amber is below 1. Black: the interquartile range."
    picture.text(20, bottom + 36, legend, fill=SOFT, size=11)
    return picture


def spread_out(wanted, least):
    """Places as near to the wanted ones as may be, in their order, with so much between two."""
    places = sorted(range(len(wanted)), key=lambda number: wanted[number])
    found = [wanted[number] for number in places]
    for _ in range(200):
        for number in range(1, len(found)):
            lack = least - (found[number] - found[number - 1])
            if lack > 0.01:
                found[number - 1] -= lack / 2
                found[number] += lack / 2
    return {number: round(place, 1) for number, place in zip(places, found)}


class Panel:
    """A chart of lines on two logarithmic axes, whose names stand at their ends, in their order."""

    def __init__(self, picture, left, top, width, height, xs, low, high):
        self.picture, self.left, self.top, self.width, self.height = picture, left, top, width, height
        self.xs, self.low, self.high, self.lines = xs, math.log10(low) - 0.1, math.log10(high) + 0.1, []

    def x(self, value):
        first, last = math.log(self.xs[0]), math.log(self.xs[-1])
        return round(self.left + self.width * (math.log(value) - first) / (last - first), 1)

    def y(self, value):
        return round(self.top + self.height * (1 - (math.log10(value) - self.low) / (self.high - self.low)), 1)

    def axes(self, title, unit="", said=lambda value: f"{value:,.10g}"):
        bottom = self.top + self.height
        self.picture.text(self.left, self.top - 12, title, size=12, weight="bold")
        for exponent in range(math.ceil(self.low), math.floor(self.high) + 1):
            y = self.y(10 ** exponent)
            self.picture.line(self.left, y, self.left + self.width, y, GRID, False, 1)
            self.picture.text(self.left - 8, y + 4, said(10 ** exponent) + unit, "end", SOFT, 11)
        for value in self.xs:
            self.picture.line(self.x(value), self.top, self.x(value), bottom, GRID, False, 1)
            self.picture.text(self.x(value), bottom + 16, f"{value:,}", "middle", SOFT, 11)

    def add(self, name, points, color):
        """A line through pairs of a place and a figure."""
        self.lines.append((name, points, color))
        for (x1, y1), (x2, y2) in zip(points, points[1:]):
            self.picture.line(self.x(x1), self.y(y1), self.x(x2), self.y(y2), color, False, 2)
        for x, y in points:
            self.picture.dot(self.x(x), self.y(y), color)

    def names(self, size=11):
        places = spread_out([self.y(points[-1][1]) for _, points, _ in self.lines], size + 4)
        for number, (name, points, color) in enumerate(self.lines):
            x, y = self.x(points[-1][0]), self.y(points[-1][1])
            self.picture.line(x + 5, y, self.left + self.width + 14, places[number], color, False, 1, "2 3")
            self.picture.text(self.left + self.width + 18, places[number] + 4, name, fill=color, size=size)


def throughput():
    """Transactions a second over the number of connections, those that read and those that write, pipelined and one request at a time."""
    found = page.throughput()
    xs = sorted({connections for _, _, _, connections in found})
    rates = [it["rate"] for it in found.values()]
    width, height, gap = 300, 220, 110
    picture = Picture("Throughput over connections", 2 * (width + gap) + 124, 2 * (height + 84) + 66)
    picture.text(20, 26, "Transactions a second over the number of connections", weight="bold")
    for down, how in enumerate((page.PIPELINED, page.ONE)):
        for right, work in enumerate(("read", "write")):
            panel = Panel(picture, 76 + right * (width + gap + 30), 76 + down * (height + 84), width, height, xs, min(rates), max(rates))
            panel.axes(f"{page.WORKS[work]}, {how}")
            for server, color in COLORS.items():
                points = [(x, found[work, how, server, x]["rate"]) for x in xs if (work, how, server, x) in found]
                if points:
                    panel.add(page.SERVERS[server], points, color)
            panel.names()
    legend = "Both axes are logarithmic; medians. The names are in the order of the lines at their right ends. To etcd a transaction is one request."
    picture.text(20, picture.height - 16, legend, fill=SOFT, size=11)
    return picture


# The lines of the picture of growth: the row and its figure, its unit in ms, and its name.
GROWING = (
    ("fill", "us_per_key", 1e-3, "load, for each key"), ("insert", "commit_of_1_us", 1e-3, "COMMIT of one new key"), ("read", "get_us", 1e-3, "GET"),
    ("read", "range_100_us", 1e-3, "RANGE of 100"), ("deleted", "range_1_us", 1e-3, "RANGE of 1 over N deleted keys"),
    ("old_end", "old_end_ms", 1, "end of a transaction that saw N older versions"), ("start", "start_ms", 1, "opening a log of N keys"))


def growth():
    """What requests cost over the size of the store."""
    found = []
    for row, figure, unit, name in GROWING:
        of = page.scaled("opening" if row == "start" else "growth", row, figure)
        found.append((name, [(size, of[size] * unit) for size in sorted(of)]))
    found = [(name, points) for name, points in found if points]
    xs = sorted({x for _, points in found for x, _ in points})
    times = [y for _, points in found for _, y in points]
    room = widest([name for name, _ in found], 11)
    picture = Picture("The cost over the size of the store", 90 + 420 + 40 + math.ceil(room), 460)
    picture.text(20, 26, "Time over the number of keys N", weight="bold")
    panel = Panel(picture, 90, 60, 420, 340, xs, min(times), max(times))
    panel.axes("", " ms")
    for (name, points), color in zip(found, LINES):
        panel.add(name, points, color)
    panel.names()
    picture.text(20, picture.height - 16, "Both axes are logarithmic. The names are in the order of the lines at their right ends.", fill=SOFT, size=11)
    return picture


def pauses():
    """The longest CPU time between two polls of each scene, on a logarithmic axis, a bar for each number of keys."""
    found = page.pauses()
    sizes = sorted({size for of_scene in found.values() for size in of_scene})
    times = [figures["cpu_longest_ms"] for of_scene in found.values() for figures in of_scene.values()]
    low, high = math.floor(math.log10(min(times))), math.ceil(math.log10(max(times)))
    left, width, bar, row = 36 + math.ceil(widest(found, 12)), 400, 14, 16 * len(sizes) + 14
    scale, bottom = width / (high - low), 96 + row * len(found)
    picture = Picture("The longest pauses", left + width + 80, bottom + 46)
    picture.text(20, 26, "The longest CPU time between two polls", weight="bold")
    x = 20
    for number, size in enumerate(sizes):
        picture.box(x, 40, 12, 12, (BLUE, AMBER, RED)[number % 3], "none")
        picture.text(x + 18, 51, f"{size:,} keys", fill=SOFT)
        x += 18 + width_of(f"{size:,} keys") + 24
    for exponent in range(low, high + 1):
        x = left + scale * (exponent - low)
        picture.line(x, 72, x, bottom, GRID, False, 1)
        picture.text(x, bottom + 16, f"{10 ** exponent:,g} ms", "middle", SOFT)
    for number, (what, of_scene) in enumerate(found.items()):
        y = 82 + row * number
        picture.text(20, y + bar * len(of_scene) / 2 + 5, what, size=12)
        for place, (size, figures) in enumerate(sorted(of_scene.items())):
            at, length = y + (bar + 2) * place, max(2, round(scale * (math.log10(figures["cpu_longest_ms"]) - low), 1))
            picture.box(left, at, length, bar, (BLUE, AMBER, RED)[sizes.index(size) % 3], "none")
            picture.text(left + length + 6, at + bar - 2, page.shown(figures["cpu_longest_ms"]), size=11)
    picture.text(20, bottom + 36, "Less is better: nobody else is served for that long. The bars of a scene are in the order of the legend.", fill=SOFT, size=11)
    return picture


PICTURES = {
    "crates": crates, "commit": commit, "append": append, **{name: lambda name=name: example(name) for name in EXAMPLES},
    "throughput": throughput, "requests": lambda: bars("requests", "Requests and reads, against other programs"),
    "commits": lambda: bars("commits", "Commits that write, against the device and PostgreSQL"), "growth": growth, "pauses": pauses}


def main():
    parser = argparse.ArgumentParser(description=__doc__, formatter_class=argparse.RawDescriptionHelpFormatter)
    parser.add_argument("--check", action="store_true", help="write nothing; status 1 where a picture isn't as it would be drawn")
    options, stale = parser.parse_args(), []
    for name, draw in PICTURES.items():
        path, svg = os.path.join(HERE, name + ".svg"), draw().svg()
        if not options.check:
            with open(path, "w", encoding="utf-8") as file:
                file.write(svg)
        elif not os.path.exists(path) or open(path, encoding="utf-8").read() != svg:
            stale.append(name)
    if stale:
        print(f"not as docs/pictures/draw.py draws them: {', '.join(stale)}")
    return 1 if stale else 0


if __name__ == "__main__":
    sys.exit(main())
