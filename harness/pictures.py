"""What examples/picture.py draws of scripts and histories, and that it is right.

Of random scripts, answered by the model: where a commit was refused for a pivot, the picture names a dangerous structure with the refused one in it.
Where it was overwritten, an arrow leads to it from whoever wrote that key. Each dependency between two that committed rises in the serial order
that is drawn. Each picture is XML, and on those of the documents no label stands on another. So it is of the examples. Where one refused commit of
theirs is said to have been answered a number, a dependency doesn't rise, and that is seen.

Of the pictures that docs/pictures/draw.py draws, no words stand on others, on a bar or over the edge, as wide as DejaVu Sans draws them, and each has
a light card of its own behind it. No arrow between the crates passes behind one.

`quick` draws 60 scripts, `long` 1,000.
"""
import os
import sys
import xml.etree.ElementTree as xml

from ssikvd_harness.arguments import is_long, run_harness
from ssikvd_harness.cases import Harness
from ssikvd_harness.deviations import Deviation, expect
from ssikvd_harness.rows import EXAMPLES, example_files
from ssikvd_harness.settings import TOP
from histories import FORMS, RecentStore, model_history
from random_scripts import by_model, script_of

sys.path += [os.path.join(TOP, "examples"), os.path.join(TOP, "docs", "pictures")]

import draw         # noqa: E402
import picture      # noqa: E402

DRAWN = ("write_skew", "phantom", "read_only_anomaly")
# On these words stand in boxes; on the others a box is a bar.
BOXED = ("crates", "commit", "append")


def parse(drawn):
    """The picture is XML, with a title and nothing that is fetched."""
    text = drawn.svg()
    root = xml.fromstring(text)
    expect(root[0].text == drawn.title and "href" not in text, "a picture has no title, or fetches something")


def ends_of(arrow):
    return arrow.kind, arrow.key, arrow.source, arrow.target


def drawn_arrows(scene):
    return {ends_of(arrow) for arrow in scene.arrows}


def expect_right(scene):
    """What a picture of a script says is so."""
    places = {bar: number for number, bar in enumerate(scene.order)}
    expect(set(places) == {bar for bar in scene.bars if bar.is_committed()}, "the serial order has others than have committed")
    arrows = picture.dependencies(scene.bars)
    for arrow in arrows:
        rises = not arrow.is_kept() or places[arrow.source] < places[arrow.target]
        expect(rises and arrow.start and arrow.end, f"{arrow.source.outcome} -{arrow.kind} {arrow.key}-> {arrow.target.outcome} is wrong")
    for bar in scene.bars:
        if bar.outcome.startswith("refused: pivot"):
            structure = picture.dangerous(scene.bars, arrows, bar)
            expect(structure and drawn_arrows(scene).issuperset(map(ends_of, structure)), f"{bar.outcome}: no structure is named")
        if bar.outcome.startswith("refused: overwritten"):
            key = bar.outcome.split(" ")[-1]
            over = [arrow for arrow in scene.arrows if arrow.target is bar and (arrow.kind, arrow.key) == ("ww", key)]
            expect(over and over[0].source.is_concurrent(bar), f"{bar.outcome}: nobody has written it")


def random_script(number):
    """The picture of a random script is right. How many it shows that were refused."""
    lines = script_of(number)
    scene = picture.scene_of_play(str(number), lines, by_model(lines))
    expect_right(scene)
    if scene.bars:
        parse(picture.drawn(scene))
    return sum(bar.is_refused() for bar in scene.bars)


def example(name):
    """The picture of an example is right."""
    scene = picture.scene_of_play(name, *(content.decode().splitlines() for content in example_files(name)))
    expect_right(scene)
    stage = picture.Stage(scene)
    shown = picture.drawn(scene, stage)
    parse(shown)
    if name in DRAWN:
        labels(name, shown, stage)


def labels(name, shown, stage):
    """No label stands on another, and all lie within the picture."""
    for number, box in enumerate(stage.taken):
        expect(0 <= box[0] and box[2] <= shown.width and 0 <= box[1] and box[3] <= shown.height, f"{name}: a label lies outside")
        expect(not any(picture.overlap(box, other) for other in stage.taken[:number]), f"{name}: two labels overlap")


def words_of(name, shown):
    """The words of a picture stand apart from one another and from bars, and lie on its card."""
    text = shown.svg()
    expect('fill="white"' in text and text.index('fill="white"') < text.index("<text"), f"{name} has no card behind it")
    for number, (left, top, right, bottom, said) in enumerate(shown.words):
        box = left, top, right, bottom
        expect(0 <= left and right <= shown.width and 0 <= top and bottom <= shown.height, f"{name}: '{said}' goes over the edge")
        on = [other[4] for other in shown.words[:number] if picture.overlap(box, other)]
        expect(not on, f"{name}: '{said}' stands on '{on[:1]}'")
        expect(name in BOXED or not any(picture.overlap(box, bar) for bar in shown.filled), f"{name}: '{said}' stands on a bar")


def on_a_bar():
    """Words on a bar, and over the edge, are seen."""
    for x in (30, 190):
        shown = picture.Picture("planted", 200, 60)
        shown.box(20, 20, 80, 20)
        shown.text(x, 34, "words")
        try:
            words_of("planted", shown)
        except Deviation:
            continue
        raise Deviation("words that stand on a bar or over the edge aren't seen")


def apart(name, shown):
    """No line of a picture passes behind a box."""
    parts = list(xml.fromstring(shown.svg()))
    numbers = [{key: float(part.get(key)) for key in ("x", "y", "width", "height", "x1", "y1", "x2", "y2") if part.get(key, "%")[-1] != "%"} for part in parts]
    boxes = [it for it in numbers if "width" in it and "x" in it]
    for line in (it for it in numbers if "x1" in it):
        for part in range(1, 100):
            x, y = (line[axis + "1"] + (line[axis + "2"] - line[axis + "1"]) * part / 100 for axis in "xy")
            on = any(box["x"] < x < box["x"] + box["width"] and box["y"] < y < box["y"] + box["height"] for box in boxes)
            expect(not on, f"{name}: a line passes behind a box at {x:.0f}, {y:.0f}")


def behind_a_box():
    """A line that passes behind a box is seen."""
    shown = picture.Picture("planted", 200, 60)
    shown.line(100, 0, 110, 60)
    shown.box(80, 20, 80, 20)
    try:
        apart("planted", shown)
    except Deviation:
        return
    raise Deviation("a line that passes behind a box isn't seen")


def falsified(name):
    """The picture of an example is wrong where its refused commit is said to have been answered the next number."""
    script, output = (content.decode().splitlines() for content in example_files(name))
    number = 1 + sum(" :" in line for line in output)
    output = [line.split(" ")[0] + f" :{number}" if "CONFLICT" in line else line for line in output]
    try:
        expect_right(picture.scene_of_play(name, script, output))
    except Deviation:
        return
    raise Deviation(f"{name}: nothing is wrong though the refused one has committed")


class Pictures(Harness):
    NAME = "pictures"
    NEEDS = ()

    def test_pictures(self):
        tally, refused = self.tally, 0
        for name in EXAMPLES:
            with tally.run(name):
                example(name)
        for name in DRAWN:
            with tally.run(f"{name}, falsified"):
                falsified(name)
        for name in draw.PICTURES:
            if name not in draw.EXAMPLES:
                with tally.run(f"the words of {name}"):
                    words_of(name, draw.PICTURES[name]())
        with tally.run("words on a bar, planted"):
            on_a_bar()
        with tally.run("the arrows of crates"):
            apart("crates", draw.PICTURES["crates"]())
        with tally.run("a line behind a box, planted"):
            behind_a_box()
        for number in range(1_000 if is_long() else 60):
            with tally.run(f"script {number}"):
                refused += random_script(number)
        for form in FORMS:
            with tally.run(f"a history, {form}"):
                events = model_history(RecentStore(), form, 1, 60)
                parse(picture.drawn(picture.scene_of_history("A history", form, events, 5, 8)))
        tally.more = f"; {refused} refused commits drawn"


if __name__ == "__main__":
    run_harness()
