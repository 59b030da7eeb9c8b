"""Links that the service's user plants, and the tools of dist/ that root runs over that user's folder.

`ssikvd-used` writes its state and its metrics, `ssikvd-compact` its lock, its new file and the old one in folders that the service's user owns, and
`ssikvd-ship` and `ssikvd-restore` may be given such folders. That user, or whoever has taken over the server, makes each of these names a link to a file of root's, to a name that isn't there, to another folder or to
a pipe, or a second name of a file of root's, and does so again and again while the tool runs. Whatever the tool says, nothing outside is written,
made, removed or given another owner or mode. Links of root's own, as an operator makes them, are followed as before. Tools with a planted fault must
be reported.

It has to be run as root.
"""
import contextlib
import functools
import itertools
import os
import shutil
import signal
import stat
import tempfile
import time

from ssikvd_harness.arguments import is_long, run_harness
from ssikvd_harness.cases import Harness, leave_out
from ssikvd_harness.deviations import Deviation, expect
from ssikvd_harness.server import check, create, folder
from ssikvd_harness.settings import PROGRAM
from ssikvd_harness.tools import DIST, ENVIRONMENT, tool

USER = 12_345
TOOLS = ("ssikvd-used", "ssikvd-verify", "ssikvd-follow", "ssikvd-compact", "ssikvd-probe", "ssikvd-stat", "ssikvd-ship", "ssikvd-restore")


def picture(place):
    """What stands in a folder: of each name its kind, its mode, its owner, its file, and its content."""
    found = {}
    for at, folders, files in os.walk(place):
        for name in [".", *folders, *files]:
            path = os.path.join(at, name)
            now = os.lstat(path)
            content = None
            if stat.S_ISREG(now.st_mode):
                with open(path, "rb") as file:
                    content = file.read()
            found[path] = (now.st_mode, now.st_uid, now.st_gid, now.st_ino, content)
    return found


class Place:
    """A folder of root's with files of root's, a folder of the service's user with a data file, and the tools, which that user may run."""

    def __init__(self, place, changes=()):
        os.chmod(place, 0o755)
        self.tools, self.outside, self.service = (os.path.join(place, name) for name in ("tools", "outside", "service"))
        for name in (self.tools, self.outside, self.service):
            os.mkdir(name, 0o755)
        shutil.copy(PROGRAM, os.path.join(self.tools, "ssikvd"))
        for name in TOOLS:
            shutil.copy(os.path.join(DIST, name), self.tools)
        for name, old, new in changes:
            self._change(os.path.join(self.tools, name), old, new)
        self.victim, self.fresh = os.path.join(self.outside, "victim.conf"), os.path.join(self.outside, "fresh")
        self._write(self.victim, "a file of root's\n", 0o600)
        self.other = os.path.join(self.outside, "other.data")
        create(self.other, 64)
        self.data, self.state = os.path.join(self.service, "shop.data"), os.path.join(self.service, "shop.used")
        create(self.data, 64)
        os.mkdir(os.path.join(self.service, "metrics"))
        self.metrics = os.path.join(self.service, "metrics", "shop.prom")
        for name in (self.service, self.data, os.path.dirname(self.metrics)):
            os.chown(name, USER, USER)
        os.chmod(self.data, 0o600)
        self.before = picture(self.outside)
        self.environment = {**ENVIRONMENT, "PATH": self.tools + ":" + os.environ["PATH"], "SSIKVD": os.path.join(self.tools, "ssikvd")}

    @staticmethod
    def _write(name, text, mode):
        with open(name, "w", encoding="utf-8") as file:
            file.write(text)
        os.chmod(name, mode)

    @staticmethod
    def _change(name, old, new):
        with open(name, encoding="utf-8") as file:
            text = file.read()
        if old not in text:
            raise SystemExit(f"planted_links: {name} has no {old!r}")
        with open(name, "w", encoding="utf-8") as file:
            file.write(text.replace(old, new))

    def plant(self, name, kind):
        """Makes a name what its user could make it."""
        if os.path.isdir(name) and not os.path.islink(name):
            shutil.rmtree(name)
        with contextlib.suppress(FileNotFoundError):
            os.remove(name)
        if kind == "a second name":
            os.link(self.victim, name)
        elif kind == "a pipe":
            os.mkfifo(name)
            os.chown(name, USER, USER)
        else:
            os.symlink({"a link": self.victim, "a link to nothing": self.fresh, "a link to a folder": self.outside,
                        "a link to another store": self.other}[kind], name)
            os.lchown(name, USER, USER)

    def used(self):
        return tool("ssikvd-used", "--state", self.state, "--metrics", self.metrics, self.data, environment=self.environment)

    def probe(self):
        return tool("ssikvd-probe", "--metrics", self.metrics, "127.0.0.1:1", environment=self.environment)

    def stat(self):
        return tool("ssikvd-stat", "--state", self.state, "--metrics", self.metrics, "--data", self.data, "--listen", "127.0.0.1:1",
                    environment=self.environment)

    def ship(self, copy, metrics):
        return tool("ssikvd-ship", "--metrics", metrics, self.data, copy, environment=self.environment)

    def restore(self, data, copy):
        return tool("ssikvd-restore", "--data", data, copy, environment=self.environment)

    def judge_outside(self, found):
        """Nothing outside has changed."""
        now = picture(self.outside)
        changed = sorted(name for name in {*now, *self.before} if now.get(name) != self.before.get(name))
        expect(not changed, f"{[os.path.relpath(name, self.outside) for name in changed]} changed outside; it answered {found}")
        expect("Traceback" not in found[2], f"it ended with {found[2]}")

    def compact(self, data=None):
        return tool("ssikvd-compact", "--wait", "0.1", "--stop", "true", "--start", "true", data or self.data, environment=self.environment)

    def judge(self, found):
        """Nothing outside has changed, and what went wrong was reported."""
        self.judge_outside(found)
        expect((found[0] == 0) == (not found[2]), f"it ended with {found}")

    def judge_raced(self, found):
        """The same of a compaction that somebody works against: it may have copied all of it again, and said so."""
        self.judge_outside(found)
        expect((found[0] == 0) == (not found[2] or found[2].endswith("all of it is copied again\n")), f"it ended with {found}")


@contextlib.contextmanager
def place_of(changes=()):
    """Such a place, in memory where that is possible: it is names and rights that are judged, and no sync."""
    if os.path.isdir("/dev/shm"):
        tempfile.tempdir = "/dev/shm"
    with folder() as place:
        yield Place(place, changes)


@contextlib.contextmanager
def planter(place, name):
    """Makes this name a link to a file of root's, and removes it, again and again meanwhile, as the user would."""
    child = os.fork()
    if not child:
        with contextlib.suppress(BaseException):
            os.setgroups([])
            os.setresgid(USER, USER, USER)
            os.setresuid(USER, USER, USER)
            while True:
                with contextlib.suppress(OSError):
                    os.symlink(place.victim, name + ".planted")
                    os.replace(name + ".planted", name)
                with contextlib.suppress(OSError):
                    os.remove(name)
                time.sleep(0.000_2)
        os._exit(0)
    try:
        yield
    finally:
        os.kill(child, signal.SIGKILL)
        os.waitpid(child, 0)


KINDS = ("a link", "a link to nothing", "a link to a folder", "a second name", "a pipe")


def judge_used(name, kind, changes=()):
    with place_of(changes) as place:
        word, dot, end = name.partition(".")
        place.plant({"state": place.state, "metrics": place.metrics}[word] + dot + end, kind)
        found = place.used()
        place.judge(found)
        expect(found[0] == 0 and stat.S_ISREG(os.lstat(place.state).st_mode), f"it answered {found}")


def used(tally):
    for name in ("state", "state.tmp", "metrics", "metrics.tmp"):
        for kind in KINDS:
            with tally.run(f"ssikvd-used, where {name} is {kind}"):
                judge_used(name, kind)
    with tally.run("ssikvd-used, where the folder of the metrics is a link"), place_of() as place:
        place.plant(os.path.dirname(place.metrics), "a link to a folder")
        found = place.used()
        place.judge(found)
        expect(found[0] == 3 and "a link of another user" in found[2], f"it answered {found}")
    with tally.run("ssikvd-used, where no folder for metrics is there"), place_of() as place:
        os.rmdir(os.path.dirname(place.metrics))
        found = place.used()
        expect(found[0] == 0 and "no metrics in" in found[2] and found[2].count("\n") == 1, f"it answered {found}")
    with tally.run("ssikvd-used, where the data file is a pipe"), place_of() as place:
        place.plant(place.data, "a pipe")
        expect(place.used()[0] == 2, "it took a pipe for a log")
    with tally.run("ssikvd-used behind links of root's"), place_of() as place:
        for name in (place.data, os.path.dirname(place.metrics)):
            os.rename(name, name + ".real")
            os.symlink(os.path.basename(name) + ".real", name)
        expect(place.used() == (0, "", "") and os.path.isfile(place.metrics), "it refused links of root's")
    with tally.run("ssikvd-used against a user who plants links"), place_of() as place:
        for name in (place.state, place.state + ".tmp"):
            with planter(place, name):
                for _ in range(60 if is_long() else 4):
                    place.judge(place.used())


def judge_other(ask, name, kind, changes=()):
    """Of the probe and of the figures: the metrics are written, in the place of what was planted."""
    with place_of(changes) as place:
        word, dot, end = name.partition(".")
        place.plant({"state": place.state, "metrics": place.metrics}[word] + dot + end, kind)
        found = getattr(place, ask)()
        place.judge_outside(found)
        expect(found[0] in (1, 2) and stat.S_ISREG(os.lstat(place.metrics).st_mode), f"it answered {found}")


def others(tally):
    for ask, names in (("probe", ("metrics", "metrics.tmp")), ("stat", ("state.tmp", "metrics", "metrics.tmp"))):
        for name, kind in itertools.product(names, KINDS):
            with tally.run(f"ssikvd-{ask}, where {name} is {kind}"):
                judge_other(ask, name, kind)
        with tally.run(f"ssikvd-{ask}, where the folder of the metrics is a link"), place_of() as place:
            place.plant(os.path.dirname(place.metrics), "a link to a folder")
            found = getattr(place, ask)()
            place.judge_outside(found)
            expect("a link of another user" in found[2], f"it answered {found}")


def judge_backup(what, kind, changes=()):
    """A backup and a restore, one of whose files is in a folder that is a link: what is to be written there is refused."""
    with place_of(changes) as place:
        linked, own = os.path.dirname(place.metrics), os.path.join(place.outside, "own")
        os.mkdir(own)
        place.before = picture(place.outside)
        place.plant(linked, kind)
        names = {"COPY": os.path.join(own, "copy"), "metrics": os.path.join(own, "text"), "DATA": os.path.join(own, "data"), "backup": place.other}
        names[what] = os.path.join(linked, "other.data" if what == "backup" else "made")
        found = place.ship(names["COPY"], names["metrics"]) if what in ("COPY", "metrics") else place.restore(names["DATA"], names["backup"])
        for name in ("copy", "copy.lock", "text"):
            with contextlib.suppress(FileNotFoundError):
                os.remove(os.path.join(own, name))
        place.judge_outside(found)
        expect(found[0] == (0 if what == "metrics" else 2) and "metrics is a link of another user" in found[2], f"it answered {found}")


def backups(tally):
    for what in ("COPY", "metrics", "DATA", "backup"):
        with tally.run(f"ssikvd-{'ship' if what in ('COPY', 'metrics') else 'restore'}, where the folder of the {what} is a link"):
            judge_backup(what, "a link to a folder")
    with tally.run("ssikvd-ship and ssikvd-restore behind links of root's"), place_of() as place:
        linked = os.path.dirname(place.metrics)
        os.rename(linked, linked + ".real")
        os.symlink(os.path.basename(linked) + ".real", linked)
        copy, data = (os.path.join(linked, name) for name in ("copy", "data"))
        os.symlink("copy.real", copy)
        os.symlink(os.path.join(linked, "data.real"), data)
        found = place.ship(copy, place.metrics), place.restore(data, copy)
        expect([answer[0] for answer in found] == [0, 0] and not found[0][2] + found[1][2], f"they answered {found}")
        due = ["copy", "copy.real", "copy.real.lock", "data", "data.lock", "data.real", "shop.prom"]
        expect(sorted(os.listdir(linked + ".real")) == due, f"they left {sorted(os.listdir(linked + '.real'))}")
    with tally.run("ssikvd-ship of links that lead in a circle"), place_of() as place:
        os.symlink("circle", os.path.join(place.outside, "circle"))
        place.before = picture(place.outside)
        found = place.ship(os.path.join(place.outside, "circle"), place.metrics)
        place.judge_outside(found)
        expect(found[0] == 2 and "Too many levels" in found[2], f"it answered {found}")


def judge_compact(name, kind, changes=()):
    with place_of(changes) as place:
        place.plant(place.data + name, kind)
        found = place.compact()
        place.judge(found)
        if name == ".lock":
            expect(found[0] == 2 and "no plain file" in found[2], f"it answered {found}")
        elif kind != "a pipe" and name:
            expect(found[0] == 0 and stat.S_ISREG(os.lstat(place.data).st_mode), f"it answered {found}")
            now = os.lstat(place.data)
            expect((now.st_uid, stat.S_IMODE(now.st_mode)) == (USER, 0o600), "another owner or mode")
            check(place.data)


def compact(tally):
    for name, kinds in ((".new", KINDS), (".new.state", KINDS), (".new.state.tmp", KINDS), (".old", KINDS), (".lock", (*KINDS[:3], "a pipe")), ("", ("a link", "a link to another store", "a pipe"))):
        for kind in kinds:
            with tally.run(f"ssikvd-compact, where DATA{name} is {kind}"):
                judge_compact(name, kind)
    with tally.run("ssikvd-compact, where the folder is a link"), place_of() as place:
        place.plant(os.path.join(place.service, "metrics"), "a link to a folder")
        found = place.compact(os.path.join(place.service, "metrics", "other.data"))
        place.judge(found)
        expect(found[0] != 0, f"it compacted another store: {found}")
    with tally.run("ssikvd-compact in a folder where others may make names"), place_of() as place:
        os.chmod(place.outside, 0o777)
        place.before = picture(place.outside)
        found = place.compact(place.other)
        place.judge(found)
        expect(found[0] == 2 and "others than root" in found[2], f"it answered {found}")
    with tally.run("ssikvd-compact behind a link of root's"), place_of() as place:
        os.mkdir(place.service + "/real")
        os.chown(place.service + "/real", USER, USER)
        os.rename(place.data, place.service + "/real/shop.data")
        os.symlink("real/shop.data", place.data)
        found = place.compact()
        expect(found[0] == 0 and sorted(os.listdir(place.service + "/real")) == ["shop.data", "shop.data.old"], f"it answered {found}")
        expect(os.path.islink(place.data) and os.lstat(place.service + "/real/shop.data").st_uid == USER, "it left another file")
    with tally.run("ssikvd-compact against a user who plants links"), place_of() as place:
        for name in (".new", ".new.state", ".new.state.tmp", ".lock", ".old"):
            with planter(place, place.data + name):
                for _ in range(30 if is_long() else 2):
                    place.judge_raced(place.compact())


WRONG = {
    "state that is written through a link": (judge_used, "state.tmp", "a link", [(
        "ssikvd-used", "    with within_folder(name) as (folder, word):\n        new = word + \".tmp\"\n",
        "    with open(name + \".tmp\", \"w\") as file:\n        file.write(text)\n    os.replace(name + \".tmp\", name)\n    return\n"
        "    with within_folder(name) as (folder, word):\n        new = word + \".tmp\"\n")]),
    "a temporary file that isn't fresh": (judge_used, "metrics.tmp", "a second name", [
        ("ssikvd-used", " | os.O_CREAT | os.O_EXCL", " | os.O_CREAT")]),
    "a probe that writes through links": (functools.partial(judge_other, "probe"), "metrics.tmp", "a link", [(
        "ssikvd-probe", "neighbour(\"ssikvd-used\").write(name, text)", "open(name + \".tmp\", \"w\").write(text)")]),
    "a backup through a link among the folders": (judge_backup, "COPY", "a link to a folder", [(
        "ssikvd-ship", "with used.within_folder(path, True) as (folder, self.name):", "for folder, self.name in [(None, os.path.basename(path))]:"), (
        "ssikvd-ship", 'os.open(".", os.O_RDONLY | os.O_DIRECTORY, dir_fd=folder)', "os.open(os.path.dirname(path), os.O_RDONLY | os.O_DIRECTORY)")]),
    "a compaction with root's rights": (judge_compact, ".lock", "a link to nothing", [
        ("ssikvd-compact", "who=$(owner) || exit 2", "who=''"), ("ssikvd-compact", '    if [ -L "$lock" ] ||', "    if false &&")]),
    "another store, compacted with root's rights": (
        judge_compact, "", "a link to another store", [("ssikvd-compact", "who=$(owner) || exit 2", "who=''")]),
}


def show_that_they_fail(tally):
    for name, (judge, where, kind, changes) in WRONG.items():
        with tally.run(f"{name} is reported"):
            try:
                judge(where, kind, changes)
            except Deviation as found:
                expect("changed outside" in str(found), f"it was reported by {found}")
                continue
            raise Deviation(f"{name} was not reported")


class PlantedLinks(Harness):
    NAME = "planted_links"
    NEEDS = (PROGRAM,)
    PARTS = (used, others, backups, compact, show_that_they_fail)

    @classmethod
    def setUpClass(cls):
        super().setUpClass()
        if os.getuid() or not shutil.which("setpriv"):
            leave_out("links that a user plants", "root, or setpriv")


if __name__ == "__main__":
    run_harness()
