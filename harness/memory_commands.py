"""Memory refused to the commands that end by themselves: `play` on the worked examples, `create`, `check` and `compact`.

Each command is run with its n-th allocation refused, n = 1, 2, 3 .. until a run meets no refusal; and again with all from the n-th on.
A run ends with status 3 and `ssikvd: out of memory`, after a beginning of the right output, or as if nothing had been refused.
"""
import os

from ssikvd_harness.arguments import run_harness
from ssikvd_harness.cases import Harness
from ssikvd_harness.deviations import expect
from ssikvd_harness.failing_calls import ALL, MEMORY, Refusals
from ssikvd_harness.log_format import log_image, sectors_used
from ssikvd_harness.rows import ROWS, model_agrees, script_of
from ssikvd_harness.server import OUT_OF_MEMORY, check, create, folder, run

CALLS_MAX, ERRORS_MAX = 10_000, 10


class Counts:
    """How the runs ended."""

    def __init__(self):
        self.ended, self.went_on = 0, 0

    def judge(self, found, due):
        """Did the command run out of memory, after a beginning of the expected output? It may also have gone on."""
        status, out, err = found
        if (status, out, err) == (0, due, b""):
            self.went_on += 1
            return False
        expect((status, err) == (3, OUT_OF_MEMORY), f"status {status}, error output {err!r}")
        expect(due.startswith(out), f"wrote {out[-60:]!r}, which is no beginning of what is expected")
        self.ended += 1
        return True


def one_run(counts, n, is_lasting, words, stdin, due, before, after):
    """The command with its n-th allocation refused. Was there one?"""
    with folder() as place:
        refusals = Refusals(place)
        refusals.of(MEMORY).fail(n, ALL if is_lasting else n)
        if before:
            before(place)
        found = run(words(place), stdin, refusals.environment())
        has_met = refusals.of(MEMORY).failed > 0
        if has_met:
            has_ended = counts.judge(found, due)
        else:
            expect(found == (0, due, b""), f"with no refusal: {found}")
            has_ended = False
        if after:
            after(place, has_ended)
        return has_met


def refuse_in_turn(tally, counts, name, is_lasting, words, stdin, due, before=None, after=None):
    """Runs the command with the n-th allocation refused, for each n until none was, or until it was wrong too often."""
    at_first = tally.count()
    for n in range(1, CALLS_MAX):
        has_met = True
        with tally.run(f"{name} at allocation {n}"):
            has_met = one_run(counts, n, is_lasting, words, stdin, due, before, after)
        if not has_met or tally.count() - at_first >= ERRORS_MAX:
            return
    raise SystemExit(f"{name}: {CALLS_MAX} allocations are too many for it")


def play(tally, counts, is_lasting):
    for name, row in ROWS.items():
        script, due = script_of(row)
        with tally.run(f"the model on {name}"):
            expect(model_agrees(row), "the model gives another reply")
        refuse_in_turn(tally, counts, f"play {name}", is_lasting, lambda _: ["play"], script, due)


LOG = [[(b"a", b"1"), (b"b", bytes(2_000))], [(b"a", None)], [(b"%03d" % i, b"v" * i) for i in range(64)]]


def check_command(tally, counts, is_lasting):
    """`check` of a log of three records."""
    image = log_image(LOG, 40)
    due = f"records 3 keys 65 sectors {sectors_used(LOG)} of 40\n".encode()

    def data(place):
        return os.path.join(place, "data")

    def before(place):
        with open(data(place), "wb") as file:
            file.write(image)

    def after(place, _):
        with open(data(place), "rb") as file:
            expect(file.read() == image, "the data file was changed")

    refuse_in_turn(tally, counts, "check", is_lasting, lambda place: ["check", "--data", data(place)], b"", due, before, after)


def create_command(tally, counts, is_lasting):
    """`create` of a file of 16 sectors, which where it is made is whole."""
    def data(place):
        return os.path.join(place, "data")

    def after(place, has_ended):
        if os.path.exists(data(place)):
            expect(check(data(place)) == (0, 0, 2, 16), "the file that was made is not an empty log")
        else:
            expect(has_ended, "no file was made")
            create(data(place), 16)

    words = ["--sectors", "16"]
    refuse_in_turn(tally, counts, "create", is_lasting, lambda place: ["create", "--data", data(place), *words], b"", b"", None, after)


def compact_command(tally, counts, is_lasting):
    """`compact` of a log of three records: the old file stays, and the new one is not there, no log, or the whole copy."""
    image, kept = log_image(LOG, 40), [(b"%03d" % i, b"v" * i) for i in range(64)] + [(b"b", bytes(2_000))]
    copy = log_image([kept[:64], kept[64:]], 40)
    due = f"records 2 keys 65 sectors {sectors_used([kept[:64], kept[64:]])} of 40\n".encode()

    def before(place):
        with open(os.path.join(place, "old"), "wb") as file:
            file.write(image)

    def after(place, has_ended):
        with open(os.path.join(place, "old"), "rb") as file:
            expect(file.read() == image, "the old file was changed")
        new = os.path.join(place, "new")
        if not os.path.exists(new):
            expect(has_ended, "no file was made")
            return
        with open(new, "rb") as file:
            made = file.read()
        expect(made == copy or has_ended and made[:512] == bytes(512), "the new file is neither no log nor the whole copy")

    def words(place):
        return ["compact", "--from", os.path.join(place, "old"), "--to", os.path.join(place, "new")]

    refuse_in_turn(tally, counts, "compact", is_lasting, words, b"", due, before, after)


class MemoryCommands(Harness):
    def test_memory_commands(self):
        for is_lasting, what in ((False, "the n-th allocation refused"), (True, "the n-th and all later ones refused")):
            tally, counts = self.begin(f"commands, {what}"), Counts()
            play(tally, counts, is_lasting)
            check_command(tally, counts, is_lasting)
            create_command(tally, counts, is_lasting)
            compact_command(tally, counts, is_lasting)
            tally.more = f"; {counts.ended} ended with status 3, {counts.went_on} went on"


if __name__ == "__main__":
    run_harness()
