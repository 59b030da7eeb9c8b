#!/usr/bin/env python3
"""Draws what happened as one SVG: sessions as lanes, transactions as bars, what each read and wrote, dependencies as arrows, the serial order.

    picture.py play SCRIPT OUTPUT
    picture.py history list|register FILE [FIRST [COUNT [TITLE]]]

It prints the SVG. An arrow starts at the transaction that must come first in a serial order; a dashed one is one of a refused transaction, as it
would be had it committed. Of a script the refused transaction names its conflict, and the bars the parts that they play in it: X, P and Y of
docs/PROTOCOL.md.
"""
import argparse
import json
import math
import os
import sys
from xml.sax.saxutils import escape

HERE = os.path.dirname(os.path.abspath(__file__))
INK, SOFT, PALE = "#1b2a3a", "#5b7083", "#eef3f7"
BLUE, GREEN, AMBER, RED = "#2f6fab", "#3c8a5a", "#c98a1b", "#b5483a"
STYLE = "font-family: sans-serif; font-size: 13px; fill: " + INK
# How wide the signs from space to ~ are in DejaVu Sans, in thousandths of the size: it is among the widest fonts that browsers take for sans-serif.
WIDTHS = (
    318, 401, 460, 838, 636, 950, 780, 275, 390, 390, 500, 838, 318, 361, 318, 337, 636, 636, 636, 636, 636, 636, 636,
    636, 636, 636, 337, 337, 838, 838, 838, 531, 1000, 684, 686, 698, 770, 632, 575, 775, 752, 295, 295, 656, 557, 863,
    748, 787, 603, 787, 695, 635, 611, 732, 684, 989, 685, 611, 685, 390, 337, 390, 838, 500, 500, 613, 635, 550, 635,
    615, 352, 635, 634, 278, 278, 579, 278, 974, 634, 612, 635, 635, 411, 521, 392, 634, 592, 818, 592, 592, 525, 636,
    337, 636, 838)


def width_of(text, size=13, weight="normal"):
    """How wide a text is drawn at most."""
    return sum(WIDTHS[ord(sign) - 32] if " " <= sign <= "~" else 1000 for sign in text) * size * (1.13 if weight == "bold" else 1) / 1000


class Picture:
    """An SVG, drawn piece by piece. Text stays text."""

    def __init__(self, title, width, height):
        self.title, self.width, self.height, self.parts, self.heads = title, width, height, [], []
        # Where words stand, and what is filled.
        self.words, self.filled = [], []

    def box(self, x, y, width, height, fill=PALE, line=SOFT, dashes=""):
        dashed = f' stroke-dasharray="{dashes}"' if dashes else ""
        self.filled.append((x, y, x + width, y + height))
        self.parts.append(
            f'<rect x="{x:g}" y="{y:g}" width="{width:g}" height="{height:g}" rx="4" fill="{fill}" stroke="{line}"{dashed}/>')

    def text(self, x, y, text, anchor="start", fill=INK, size=13, weight="normal", family=""):
        of_family = f' font-family="{family}"' if family else ""
        width = width_of(text, size, weight)
        left = x - {"start": 0, "middle": width / 2, "end": width}[anchor]
        self.words.append((left, y - 0.76 * size, left + width, y + 0.24 * size, text))
        self.parts.append(
            f'<text x="{x:g}" y="{y:g}" text-anchor="{anchor}" fill="{fill}" font-size="{size}" font-weight="{weight}"{of_family}>'
            f'{escape(text)}</text>')

    def line(self, x1, y1, x2, y2, color=SOFT, arrow=False, width=1.5, dashes=""):
        """A line, whose head is soft, or of its own color where that is asked for."""
        name = "arrow" if arrow is True else arrow
        if arrow not in (True, False) and (name, color) not in self.heads:
            self.heads.append((name, color))
        end = f' marker-end="url(#{name})"' if arrow else ""
        dashed = f' stroke-dasharray="{dashes}"' if dashes else ""
        self.parts.append(
            f'<line x1="{x1:g}" y1="{y1:g}" x2="{x2:g}" y2="{y2:g}" stroke="{color}" stroke-width="{width:g}"{dashed}{end}/>')

    def dot(self, x, y, color):
        self.parts.append(f'<circle cx="{x:g}" cy="{y:g}" r="3" fill="{color}"/>')

    def svg(self):
        head = (
            f'<svg xmlns="http://www.w3.org/2000/svg" viewBox="0 0 {self.width:g} {self.height:g}" width="{self.width:g}" '
            f'height="{self.height:g}" style="{STYLE}" role="img">')
        markers = "".join(
            f'<marker id="{name}" viewBox="0 0 8 8" refX="7" refY="4" markerWidth="7" markerHeight="7" orient="auto">'
            f'<path d="M0 0 L8 4 L0 8 z" fill="{color}"/></marker>' for name, color in [("arrow", SOFT), *self.heads])
        # A card of its own, so that a dark page doesn't hide dark words.
        paper = '<rect width="100%" height="100%" rx="6" fill="white"/>'
        return "\n".join([head, f"<title>{escape(self.title)}</title>", f"<defs>{markers}</defs>", paper, *self.parts, "</svg>"]) + "\n"


# What is drawn

class Cell:
    """One request of a transaction: where it stands, its words and what it was answered."""

    def __init__(self, at, asked, answered, kind, covers=None, key=None):
        self.at, self.asked, self.answered, self.kind, self.key = at, asked, answered, kind, key
        self.covers = covers or (lambda _: False)


class Bar:
    """One transaction."""

    def __init__(self, lane, start):
        self.lane, self.start, self.end, self.cells, self.outcome, self.number, self.role = lane, start, start, [], "open", None, ""

    def is_committed(self):
        return self.number is not None

    def is_refused(self):
        return self.outcome.startswith("refused")

    def counts(self):
        return self.is_committed() or self.is_refused()

    def name(self):
        return f"session {self.lane}"

    def read_of(self, key):
        """The first read whose mark covers a key."""
        return next((cell for cell in self.cells if cell.covers(key)), None)

    def write_of(self, key):
        """The last write of a key."""
        return next((cell for cell in reversed(self.cells) if cell.kind == "write" and cell.key == key), None)

    def is_concurrent(self, other):
        return self.start < other.end and other.start < self.end


class Arrow:
    """A dependency: its kind and key, and from which cell of which bar it leads to which."""

    def __init__(self, kind, key, source, target):
        self.kind, self.key, self.source, self.target = kind, key, source, target
        self.start = source.write_of(key) if kind in ("ww", "wr") else source.read_of(key)
        self.end = target.read_of(key) if kind == "wr" else target.write_of(key)

    def is_kept(self):
        """Is it one between two that committed?"""
        return self.source.is_committed() and self.target.is_committed()


class Scene:
    """Bars with their arrows, the committed ones in serial order, and what is said below."""

    def __init__(self, title, bars, arrows, order, notes, strays=()):
        self.title, self.bars, self.arrows, self.order, self.notes, self.strays = title, bars, arrows, order, notes, strays


# A script

def marks(words, answered):
    """What a read marks, as docs/PROTOCOL.md says: a key, a range, or one that ends with the last key of its reply."""
    if words[0].upper() == "GET":
        return lambda key: key == words[1]
    low, high, limit = words[1], "" if words[2] == '""' else words[2], int(words[3])
    found = answered.split(" ")[2::2][::2]
    if len(found) == limit:
        return lambda key: low <= key <= found[-1]
    return lambda key: low <= key and (not high or key < high)


def in_short(answered):
    """A reply in as few words as a cell has room for."""
    if answered in ("$-1", "*0"):
        return "none"
    if answered[:1] == "$":
        return answered.partition(" ")[2] or '""'
    if answered[:1] == "*":
        found = answered.split(" ")[2::2]
        return " ".join(f"{key}={value}" for key, value in zip(found[::2], found[1::2]))
    return {"+OK": "", "+PONG": "PONG"}.get(answered, answered.lstrip(":-"))


def cell_of(at, words, answered, bar):
    """One line of a script. What a transaction has written it doesn't mark."""
    name = words[0].upper()
    shown = " ".join([name, *words[1:3]])
    if answered[:1] == "-":
        return Cell(at, shown, in_short(answered), "refused")
    if name in ("SET", "DEL"):
        return Cell(at, shown, in_short(answered), "write", key=words[1])
    if name == "RANGE" or name == "GET" and not bar.write_of(words[1]):
        return Cell(at, shown, in_short(answered), "read", marks(words, answered))
    return Cell(at, shown, in_short(answered), "other")


def bars_of_play(script, output):
    """The transactions of a script, and the cells that stand outside of them."""
    bars, strays, open_ones = [], [], {}
    for at, (line, printed) in enumerate(zip(script, output, strict=True)):
        (lane, *words), answered = line.split(), printed.split(" ", 1)[1]
        name, bar = words[0].upper(), open_ones.get(lane)
        if name == "BEGIN" and answered == "+OK":
            bar = open_ones[lane] = Bar(lane, at)
            bars.append(bar)
        if not bar:
            strays.append((lane, Cell(at, " ".join([name, *words[1:3]]), in_short(answered), "refused")))
            continue
        bar.cells.append(cell_of(at, words, answered, bar))
        bar.end = at
        if name in ("COMMIT", "ABORT") and not answered.startswith("-ERR"):
            end_bar(open_ones.pop(lane), answered)
    return bars, strays


def end_bar(bar, answered):
    """How a transaction ended."""
    if answered[:1] == ":":
        bar.number = int(answered[1:])
        bar.outcome = f"commit {bar.number}"
        bar.cells[-1].answered = ""
    elif answered[:1] == "-":
        bar.outcome, bar.cells[-1].answered = "refused: " + refusal_in_words(answered[1:]), "refused"
    else:
        bar.outcome = "aborted"


def refusal_in_words(text):
    """A refusal without its first word, with the key that it names as text."""
    words = text.removeprefix("CONFLICT ").split(" ")
    if words[0] == "overwritten":
        words[1] = bytes.fromhex(words[1]).decode(errors="replace")
    return " ".join(words)


def dependencies(bars):
    """Every dependency between two that committed, and every one that a refused transaction would have had."""
    keys = sorted({cell.key for bar in bars for cell in bar.cells if cell.kind == "write"})
    found = []
    for one in bars:
        for other in bars:
            if may_depend(one, other):
                found += [Arrow(kind, key, one, other) for key in keys for kind in kinds_between(one, other, key)]
    return found


def may_depend(one, other):
    """Could one depend on the other: both committed, or one did and was there when the other was refused?"""
    if one is other or not one.counts() or not other.counts():
        return False
    return all(bar.is_committed() or rest.is_committed() and rest.end < bar.end for bar, rest in ((one, other), (other, one)))


def kinds_between(one, other, key):
    """The kinds of dependency that lead from one to another by a key."""
    if one.write_of(key) and other.write_of(key) and one.end < other.end:
        yield "ww"
    if one.write_of(key) and other.read_of(key) and one.end < other.start:
        yield "wr"
    if one.read_of(key) and other.write_of(key) and one.start < other.end:
        yield "rw"


def nearest(arrows):
    """Of several writers of a key those that the one before or the one after is: the others follow from them."""
    def is_nearer(other, arrow):
        if (other.kind, other.key) != (arrow.kind, arrow.key):
            return False
        if arrow.kind == "rw":
            return other.source is arrow.source and other.target.end < arrow.target.end
        return other.target is arrow.target and other.source.end > arrow.source.end

    return [arrow for arrow in arrows if not any(is_nearer(other, arrow) for other in arrows)]


def order_of(bars, arrows):
    """The committed ones by their places: right before the first that overwrote what one read and committed before it, else by commit."""
    committed = [bar for bar in bars if bar.is_committed()]

    def place(bar):
        over = [arrow.target.number for arrow in arrows if arrow.kind == "rw" and arrow.source is bar and arrow.target.is_committed()
                and arrow.target.number < bar.number]
        return (min(over), 0, bar.number) if over else (bar.number, 1, 0)

    return sorted(committed, key=place)


def dangerous(bars, arrows, refused):
    """The two arrows of the structure for which a commit was refused: from X to P and from P to Y. None where it was for another reason."""
    words = refused.outcome.split(" ")
    if words[1] != "pivot":
        return None
    pivot = refused if words[2] == "self" else next(bar for bar in bars if bar.number == int(words[2]))
    between = [arrow for arrow in arrows if arrow.kind == "rw" and arrow.source.is_concurrent(arrow.target)]
    for first in between:
        for second in between:
            source, target = first.source, second.target
            if first.target is pivot is second.source and refused in (source, pivot) and target.end < pivot.end and target.end <= source.end:
                return first, second
    return None


def since(bar, arrows):
    """Who wrote what a refused one was to write."""
    words = bar.outcome.split(" ")
    others = [arrow.source.name() for arrow in arrows if arrow.kind == "ww" and arrow.target is bar and arrow.key == words[-1]]
    return f", which {others[0]} committed since it began" if others and words[1] == "overwritten" else ""


def scene_of_play(title, script, output):
    bars, strays = bars_of_play(script, output)
    arrows, notes = dependencies(bars), []
    shown = nearest(arrows)
    for bar in bars:
        structure = dangerous(bars, arrows, bar) if bar.is_refused() else None
        if structure:
            first, second = structure
            shown += [arrow for arrow in structure if arrow not in shown]
            parts = [("X", first.source), ("P", first.target), ("Y", second.target)]
            for letter, of in parts:
                of.role += f" = {letter}" if of.role else letter
            notes.append(f"{bar.name()} was {bar.outcome}, since X -rw {first.key}→ P -rw {second.key}→ Y would be a dangerous structure.")
        elif bar.is_refused():
            notes.append(f"{bar.name()} was {bar.outcome}{since(bar, arrows)}.")
    return Scene(title, bars, shown, order_of(bars, arrows), notes, strays)


# A history

def scene_of_history(title, form, events, first, count):
    """Some transactions of a history, with the dependencies that the checker finds in the whole of it."""
    sys.path.append(os.path.join(HERE, "..", "harness"))
    from ssikvd_harness.anomalies import DEPENDENCIES, History
    history = History(form, events)
    chosen = history.all[first:first + count]
    bars = {t: bar_of(t, history) for t in chosen}
    spread(bars)
    arrows = [
        Arrow(kind, str(key), bars[source], bars[target]) for kind in DEPENDENCIES for source in chosen
        for target, key in history.edges[kind].get(source, {}).items() if target in bars]
    order = [bars[t] for t in history.serial_order() or () if t in bars]
    notes = [f"{name}: {text}" for name, text in history.anomalies()]
    return Scene(title, list(bars.values()), arrows, order, notes)


def bar_of(t, history):
    """A transaction of a history. Its cells have no place yet."""
    bar = Bar(str(t.process), 0)
    asked = [("BEGIN", "", "other", None)]
    for kind, key, value in t.operations:
        shown = "none" if value in (None, []) and t.kind == "ok" else "" if value is None else str(value).replace(" ", "")
        asked.append((f"r {key}", shown, "read", str(key)) if kind == "r" else (f"{kind} {key} {value}", "", "write", str(key)))
    asked.append(("COMMIT", {"ok": "", "fail": "refused", "info": "lost"}[t.kind], "other", None))
    for words, answered, kind, key in asked:
        bar.cells.append(Cell(0, words, answered, kind, (lambda other, key=key: other == key) if kind == "read" else None, key))
    bar.outcome = {"ok": "commit", "fail": "refused", "info": "reply lost"}[t.kind]
    bar.role = repr(t)
    if t in history.committed:
        bar.number = t.place[1] if t.place else t.number
        bar.outcome += f" {t.place[1]}" if t.place else ", and seen"
    elif t.error:
        bar.outcome = "refused: " + refusal_in_words(t.error) if t.error.startswith("CONFLICT") else "connection lost"
    return bar


def spread(bars):
    """Gives each transaction the columns that it needs, by the order in which they began and ended."""
    ends = [(t.begun, bar, True) for t, bar in bars.items()]
    ends += [(t.begun + 10 ** 9 if t.left is None else t.left, bar, False) for t, bar in bars.items()]
    at = -1.0
    for _, bar, is_begin in sorted(ends, key=lambda end: (end[0], end[2])):
        at += 1.0
        if is_begin:
            bar.start = at
        else:
            at = bar.end = max(at, bar.start + len(bar.cells) - 1)
            for number, cell in enumerate(bar.cells):
                cell.at = bar.start + (bar.end - bar.start) * number / (len(bar.cells) - 1)


# Drawing

COLORS = {"ww": AMBER, "wr": GREEN, "rw": RED}
SAID = {"ww": "ww: wrote what the other overwrote", "wr": "wr: wrote what the other read", "rw": "rw: read what the other overwrote"}
CELL_COLORS = {"read": BLUE, "write": GREEN, "other": INK, "refused": RED}
LEFT, TOP, BAR, GAP, LETTER, LEGEND = 96, 64, 42, 62, 6.7, 18


class Stage:
    """Where things stand on a picture of a scene."""

    def __init__(self, scene):
        cells = [cell for bar in scene.bars for cell in bar.cells] + [cell for _, cell in scene.strays]
        self.scene, self.lanes = scene, sorted({bar.lane for bar in scene.bars} | {lane for lane, _ in scene.strays}, key=lambda lane: int(lane))
        self.step = max(58.0, LETTER * max(max(len(cell.asked), len(cell.answered)) for cell in cells) + 12)
        self.width = max(640.0, LEFT + self.step * (1 + max(cell.at for cell in cells)) + 20)
        self.bottom = TOP + len(self.lanes) * (BAR + GAP) - GAP
        self.taken = []

    def x(self, at):
        return LEFT + self.step * (at + 0.5)

    def y(self, lane):
        return TOP + self.lanes.index(lane) * (BAR + GAP)

    def ends(self, arrow):
        """From where to where an arrow is drawn: from edge to edge of the bars."""
        start, end = self.y(arrow.source.lane), self.y(arrow.target.lane)
        x1, x2 = self.x(arrow.start.at), self.x(arrow.end.at)
        if start == end:
            return x1, start, x2, end
        return (x1, start + BAR, x2, end) if start < end else (x1, start, x2, end + BAR)

    def is_free(self, box):
        return not any(overlap(box, other) for other in self.taken)

    def label_place(self, ends, width):
        """The first place along an arrow at which its label meets no other."""
        x1, y1, x2, y2 = ends
        for part in (0.3, 0.7, 0.5, 0.2, 0.8, 0.4, 0.6):
            x, y = x1 + part * (x2 - x1), y1 + part * (y2 - y1)
            box = x - width / 2, y - 8, x + width / 2, y + 8
            if self.is_free(box):
                break
        self.taken.append(box)
        return x, y

    def head_place(self, bar, width):
        """Where the words of a bar stand: at its left above it, or where else no arrow crosses them."""
        left, right, y = self.x(bar.start) - self.step / 2 + 3, self.x(bar.end) + self.step / 2 - 3, self.y(bar.lane)
        places = [(left, y - 5), (right - width, y - 5), (left, y + BAR + 13), (right - width, y + BAR + 13)]
        for x, y in places:
            box = x, y - 11, x + width, y + 3
            if self.is_free(box) and not any(crosses(self.ends(arrow), box) for arrow in self.scene.arrows):
                break
        else:
            x, y = places[0]
        self.taken.append((x, y - 11, x + width, y + 3))
        return x, y


def overlap(box, other):
    return box[0] < other[2] and other[0] < box[2] and box[1] < other[3] and other[1] < box[3]


def crosses(ends, box):
    """Does a line meet a box? It is looked at in small steps."""
    x1, y1, x2, y2 = ends
    points = ((x1 + (x2 - x1) * part / 200, y1 + (y2 - y1) * part / 200) for part in range(201))
    return any(box[0] - 3 <= x <= box[2] + 3 and box[1] - 1 <= y <= box[3] + 1 for x, y in points)


def draw_bar(picture, stage, bar):
    x, y = stage.x(bar.start) - stage.step / 2 + 2, stage.y(bar.lane)
    width = stage.x(bar.end) + stage.step / 2 - 2 - x
    if bar.is_committed():
        picture.box(x, y, width, BAR, "#e6eff7", BLUE)
    else:
        picture.box(x, y, width, BAR, "#fbeeea" if bar.is_refused() else PALE, RED if bar.is_refused() else SOFT, "5 3")
    color = RED if bar.is_refused() else BLUE if bar.is_committed() else SOFT
    text = f"{bar.role}, {bar.outcome}" if bar.role else bar.outcome
    picture.text(*stage.head_place(bar, LETTER * len(text)), text, fill=color, size=11, weight="bold")
    for cell in bar.cells:
        draw_cell(picture, stage, bar.lane, cell)


def draw_cell(picture, stage, lane, cell):
    x, y = stage.x(cell.at), stage.y(lane)
    picture.text(x, y + (18 if cell.answered else 26), cell.asked, "middle", CELL_COLORS[cell.kind], 11, "bold", "monospace")
    if cell.answered:
        picture.text(x, y + 34, cell.answered, "middle", RED if "refused" in (cell.answered, cell.kind) else SOFT, 11, "normal", "monospace")


def draw_arrow(picture, stage, arrow):
    """The line of a dependency, below the bars."""
    picture.line(*stage.ends(arrow), COLORS[arrow.kind], False, 1.8, "" if arrow.is_kept() else "6 4")


def draw_head(picture, stage, arrow):
    """The head of an arrow, above the bars, and its label."""
    color, text, (x1, y1, x2, y2) = COLORS[arrow.kind], f"{arrow.kind} {arrow.key}", stage.ends(arrow)
    part = 1 / max(1.0, math.hypot(x2 - x1, y2 - y1))
    picture.line(round(x2 - part * (x2 - x1), 1), round(y2 - part * (y2 - y1), 1), x2, y2, color, arrow.kind, 1.8)
    width = LETTER * len(text) + 6
    x, y = stage.label_place((x1, y1, x2, y2), width)
    picture.box(x - width / 2, y - 8, width, 16, "white", "none")
    picture.text(x, y + 4, text, "middle", color, 11, "bold")


def draw_below(picture, stage, y):
    """The serial order, the notes, and what the arrows mean."""
    scene = stage.scene
    picture.text(20, y + 19, "Serial order", weight="bold")
    x = LEFT + 20
    if not scene.order:
        picture.text(x, y + 19, "none", fill=RED)
    for number, bar in enumerate(scene.order):
        text = f"{bar.name()}, {bar.outcome}"
        width = LETTER * len(text) + 16
        if number:
            picture.line(x, y + 14, x + 24, y + 14, SOFT, True)
            x += 26
        picture.box(x, y, width, 28, "#e6eff7", BLUE)
        picture.text(x + width / 2, y + 18, text, "middle", size=11)
        x += width + 2
    for number, note in enumerate(scene.notes):
        picture.text(20, y + 52 + 18 * number, note[0].upper() + note[1:], fill=RED, size=12)
    x, y = 20, y + 52 + 18 * len(scene.notes) + 4
    for kind in sorted({arrow.kind for arrow in scene.arrows}):
        picture.line(x, y - 4, x + 26, y - 4, COLORS[kind], kind, 1.8)
        picture.text(x + 32, y, SAID[kind], fill=SOFT, size=11)
        x += 44 + 6.2 * len(SAID[kind])
    if not all(arrow.is_kept() for arrow in scene.arrows):
        picture.text(x, y, "dashed: if the refused one had committed", fill=SOFT, size=11)
        x += 6.2 * 44
    if scene.arrows:
        picture.text(20, y + LEGEND, "An arrow starts at the transaction that must come first in a serial order.", fill=SOFT, size=11)
    return max(x, 0)


def drawn(scene, stage=None):
    """The picture of a scene."""
    stage = stage or Stage(scene)
    height = stage.bottom + 44 + 52 + 18 * len(scene.notes) + 20 + (LEGEND if scene.arrows else 0)
    picture = Picture(scene.title, stage.width, height)
    picture.text(20, 28, scene.title, weight="bold", size=14)
    for lane in stage.lanes:
        y = stage.y(lane) + BAR / 2
        picture.line(LEFT, y, stage.width - 20, y, "#d5dde4", False, 1)
        picture.text(20, y + 5, f"session {lane}", weight="bold")
    for arrow in scene.arrows:
        draw_arrow(picture, stage, arrow)
    for bar in scene.bars:
        draw_bar(picture, stage, bar)
    for lane, cell in scene.strays:
        picture.box(stage.x(cell.at) - stage.step / 2 + 2, stage.y(lane), stage.step - 4, BAR, "white", "#d5dde4")
        draw_cell(picture, stage, lane, cell)
    for arrow in scene.arrows:
        draw_head(picture, stage, arrow)
    picture.width = max(picture.width, draw_below(picture, stage, stage.bottom + 30) + 10)
    return picture


# The command

def lines_of(name):
    with open(name, encoding="utf-8") as file:
        return file.read().splitlines()


def play_picture(title, script, output):
    """The picture of a script and its output, which are named by files."""
    return drawn(scene_of_play(title, lines_of(script), lines_of(output)))


def history_picture(form, name, first, count, title):
    """The picture of some transactions of a history in lines of JSON."""
    return drawn(scene_of_history(title, form, [json.loads(line) for line in lines_of(name)], first, count))


def parser():
    asked = argparse.ArgumentParser(description=__doc__, formatter_class=argparse.RawDescriptionHelpFormatter)
    kinds = asked.add_subparsers(required=True, metavar="play | history")
    play = kinds.add_parser("play", help="a script, and what `ssikvd play` printed for it")
    play.add_argument("script", metavar="SCRIPT")
    play.add_argument("output", metavar="OUTPUT")
    play.set_defaults(draw=lambda it: play_picture(
        os.path.basename(it.script).removesuffix(".play").replace("_", " ").capitalize(), it.script, it.output))
    history = kinds.add_parser("history", help="some transactions of a history that harness/histories.py wrote")
    history.add_argument("form", choices=("list", "register"))
    history.add_argument("file", metavar="FILE")
    history.add_argument("first", nargs="?", type=int, default=0, metavar="FIRST", help="the number of the first transaction (%(default)s)")
    history.add_argument("count", nargs="?", type=int, default=6, metavar="COUNT", help="how many are drawn (%(default)s)")
    history.add_argument("title", nargs="?", default="A history", metavar="TITLE")
    history.set_defaults(draw=lambda it: history_picture(it.form, it.file, it.first, it.count, it.title))
    return asked


def main():
    asked = parser().parse_args()
    sys.stdout.write(asked.draw(asked).svg())


if __name__ == "__main__":
    main()
