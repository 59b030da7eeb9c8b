"""Mistakes of whoever runs a tool of dist/, and a machine in a poor state: nothing is lost, and a line says what is wrong.

State, metrics and copies are named that are the data file itself, by its name, another spelling, a hard link or a link, or what belongs to it: they
are refused, and nothing is written. Numbers and addresses are none. Names of files have blanks, line breaks, dashes in front and bytes that are no
UTF-8. Folders, pipes, empty files and files of others stand where a file is expected. The standard streams are full or closed, a tool is interrupted,
no file may grow. Two runs write one file at once. What root makes in a folder of the server's user is that user's. No tool ends by an exception of
Python.
"""
import contextlib
import fcntl
import functools
import itertools
import json
import os
import shlex
import shutil
import signal
import stat
import subprocess
import threading
import time
import unittest.mock

from ssikvd_harness.arguments import run_harness
from ssikvd_harness.cases import Harness, leave_out
from ssikvd_harness.cutting import Scripted
from ssikvd_harness.deviations import Deviation, expect, wait_for
from ssikvd_harness.frames import pairs
from ssikvd_harness.limits import KEY_MAX
from ssikvd_harness.log_format import SECTOR, log_of, write_log
from ssikvd_harness.server import check, create, folder
from ssikvd_harness.settings import PATIENCE, PROGRAM, bytes_of
from ssikvd_harness.tools import DIST, ENVIRONMENT, in_memory, lacking, loaded, tool, within
from ssikvd_harness.units import judge_metrics

NOBODY = "127.0.0.1:1"    # an address where no server is
LOG = [[(b"key %d" % number, b"value")] for number in range(5)]
USER = 12_345
STRICT = {**ENVIRONMENT, "PYTHONIOENCODING": "utf-8:strict"}    # as in most locales


def picture(place):
    """What stands in a folder: of each name its file, and the content of that."""
    found = {}
    for name in os.listdir(place):
        path = os.path.join(place, name)
        now = os.lstat(path)
        found[name] = (now.st_ino, now.st_mode, now.st_uid, bytes_of(path) if stat.S_ISREG(now.st_mode) else None)
    return found


@contextlib.contextmanager
def store():
    """A folder with a data file, and its name."""
    with folder() as place:
        data = os.path.join(place, "data")
        write_log(data, LOG, 100)
        yield place, data


def expect_line(found, status, text):
    """It ended with this status, and a line with this text; by no exception."""
    expect(found[0] == status and text in found[1] + found[2] and "Traceback" not in found[2], f"it answered {found}, expected {status, text}")


# Files that would be replaced

def writers(data, copy):
    """The tools that replace a file, each with its option behind the other words, and with the status of a refusal."""
    return {
        "ssikvd-used --metrics": (["ssikvd-used", data], 2), "ssikvd-used --state": (["ssikvd-used", data], 2),
        "ssikvd-stat --metrics": (["ssikvd-stat", "--data", data, "--listen", NOBODY, "--interval", "0", "--backup", copy], 2),
        "ssikvd-stat --state": (["ssikvd-stat", "--data", data, "--listen", NOBODY], 2),
        "ssikvd-ship --metrics": (["ssikvd-ship", data, copy], 2), "ssikvd-probe --metrics": (["ssikvd-probe", "--data", data, NOBODY], 3),
        "ssikvd-follow --state": (["ssikvd-follow", data, copy], 2), "ssikvd-watch --state": (["ssikvd-watch", data], 2)}


def other_names(place, data):
    """Names that lead to the data file, or that tools use next to it, each with the text of its refusal."""
    os.link(data, os.path.join(place, "hard"))
    os.symlink("data", os.path.join(place, "link"))
    os.symlink(".", os.path.join(place, "here"))
    itself, belongs = "it is the data file itself: name another file", "it belongs to the data file: name another file"
    yield from ((os.path.join(place, name), itself) for name in ("data", "hard", "link", "./data", "here/data", f"../{os.path.basename(place)}/data"))
    yield from ((data + more, belongs) for more in (".lock", ".old", ".new", ".before-restore"))


@functools.cache
def module_of(name):
    return loaded(name)


def play(name, *words):
    """Runs a tool in this process, which is faster. It may not wait for long, as for the writer of a pipe."""
    def late(*_):
        raise Deviation(f"{name} {words} waits")

    before = signal.signal(signal.SIGALRM, late)
    signal.setitimer(signal.ITIMER_REAL, PATIENCE)
    try:
        return within(module_of(name), words)
    finally:
        signal.setitimer(signal.ITIMER_REAL, 0)
        signal.signal(signal.SIGALRM, before)


def refused(place, words, status, text):
    """It refuses, and changes nothing."""
    before = picture(place)
    found = play(*words)
    expect_line(found, status, text)
    expect(picture(place) == before, f"it changed {sorted(name for name, it in picture(place).items() if before.get(name) != it)}; it answered {found}")


def replaced(tally):
    with store() as (place, data):
        copy = os.path.join(place, "copy")
        write_log(copy, LOG[:2], 103)
        open(data + ".lock", "w", encoding="ascii").close()
        names = [*other_names(place, data)]
        for writer, (words, status) in writers(data, copy).items():
            for name, text in names:
                with tally.run(f"{writer} {os.path.relpath(name, place)}"):
                    refused(place, [*words, writer.split()[1], name], status, text)
            with tally.run(f"{writer} FILE, where FILE.tmp is the data file"):
                os.rename(data, data + ".tmp")
                refused(place, [{data: data + ".tmp"}.get(word, word) for word in words] + [writer.split()[1], data], status, "data file itself")
                os.rename(data + ".tmp", data)
            with tally.run(f"{writer} of another data file"):
                write_log(os.path.join(place, "third"), LOG, 7)
                refused(place, [*words, writer.split()[1], os.path.join(place, "third")], status, "it is a data file: name another file")
            if os.geteuid() == 0:
                with tally.run(f"{writer} of a device"):
                    with contextlib.suppress(FileExistsError):
                        os.mknod(os.path.join(place, "null"), 0o666 | stat.S_IFCHR, os.makedev(1, 3))
                    refused(place, [*words, writer.split()[1], os.path.join(place, "null")], status, "it is a device: name another file")
        os.remove(os.path.join(place, "third"))
        copies(tally, place, data, copy)
        both(tally, place, data)


def copies(tally, place, data, copy):
    for more, text in (("", "it is the copy itself"), (".lock", "it belongs to the copy"), (".new", "it belongs"), (".old.2", "it belongs")):
        with tally.run(f"ssikvd-ship with metrics in COPY{more}"):
            refused(place, ["ssikvd-ship", "--metrics", copy + more, data, copy], 2, f"{text}")
    with tally.run("ssikvd-ship with metrics in a copy that isn't there yet"):
        refused(place, ["ssikvd-ship", "--metrics", copy + "2", data, os.path.join(place, "here", "copy2")], 2, "it is the copy itself")
    with tally.run("ssikvd-stat with metrics in the backup"):
        words = ["ssikvd-stat", "--data", data, "--listen", NOBODY, "--interval", "0"]
        refused(place, [*words, "--backup", copy, "--metrics", copy], 2, "it is the backup itself")
    for name in ("data", "hard", "link", "here/data"):
        with tally.run(f"ssikvd-stat of the data file as its own backup, as {name}"):
            refused(place, [*words, "--backup", os.path.join(place, name)], 2, "it is the data file itself: name a backup")
    with tally.run("ssikvd-follow with its state in the copy"):
        refused(place, ["ssikvd-follow", "--state", copy, data, copy], 2, "it is the copy itself")


def both(tally, place, data):
    """Two files of one name."""
    one = os.path.join(place, "one")
    for state, metrics in ((one, one), (one, os.path.join(place, "here", "one")), (one + ".tmp", one), (one, one + ".tmp")):
        for words in (["ssikvd-used", data], ["ssikvd-stat", "--data", data, "--listen", NOBODY]):
            with tally.run(f"{words[0]} with state and metrics in {os.path.relpath(state, place)} and {os.path.relpath(metrics, place)}"):
                refused(place, [*words, "--state", state, "--metrics", metrics], 2, "it is the file of --state itself: name another file")
    with tally.run("ssikvd-probe with metrics in the state"):
        refused(place, ["ssikvd-probe", "--data", data, "--state", one, "--metrics", one, NOBODY], 3, "it is the state itself")
    with tally.run("files of their own"):
        found = tool("ssikvd-used", "--state", one, "--metrics", one + ".prom", data)
        expect(found == (0, "", "") and tool("ssikvd-used", "--state", one, "--metrics", one + ".prom", data) == found, f"it answered {found}")


# Numbers and addresses

NO_NUMBERS = ("nan", "-1", "x", "", "1e", "0x1")
NO_ADDRESSES = ("127.0.0.1", "7777", ":7777", "127.0.0.1:", "127.0.0.1:x", "127.0.0.1:70000", "127.0.0.1:-1", "127.0.0.1:²", "a..b:7777", 80 * "a" + ":7777")


def numbers(tally):
    with store() as (place, data):
        runs = [("ssikvd-stat", "--interval", 2, ["--data", data, "--listen", NOBODY]), ("ssikvd-restore", "--wait", 2, ["--data", data + "2", data]),
                *(("ssikvd-probe", option, 3, [NOBODY]) for option in ("--timeout", "--warning", "--wait", "--used"))]
        for name, option, status, words in runs:
            with tally.run(f"{name} {option} of what is no number"):
                for text in NO_NUMBERS:
                    expect_line(play(name, f"{option}={text}", *words), status, f"argument {option}: {text!r} is not a number")
        for text in ("inf", "1e30"):
            with tally.run(f"a number as large as {text}"):
                expect_line(play("ssikvd-probe", "--timeout", text, NOBODY), 2, "Connection refused")
        with tally.run("a process that can't be"):
            expect_line(play("ssikvd-probe", "--process", 20 * "9", "--wait", "60", NOBODY), 2, "Connection refused")
        for name, status, words in (("ssikvd-load", 2, [data]), ("ssikvd-export", 2, []), ("ssikvd-probe", 3, [])):
            with tally.run(f"{name} at what is no address"):
                for text in NO_ADDRESSES:
                    expect_line(play(name, text, *words), status, f"{text!r} is not ADDRESS:PORT, such as 127.0.0.1:7777")
        expect(sorted(os.listdir(place)) == ["data"], f"they left {os.listdir(place)}")


# Lines that can't be read

BAD_LINES = (b"{", b"7", b"[]", b"null", b'"writes"', b"{}", b'{"key": "a"}', b'{"key": null, "value": "b"}', b'{"key": 7, "value": "b"}', b'{"writes": 7}',
             b'{"key_hex": "zz", "value": "b"}', b'{"writes": [7]}', b'{"writes": null}', b"\xff\xfe", b"[" * 100_000, b'{"key": "\\ud800", "value": ""}')


def lines(tally):
    """A line that `ssikvd-load` can't read is named, and those before it are written."""
    with store() as (place, data):
        name = os.path.join(place, "lines")
        for bad in BAD_LINES:
            with tally.run(f"the line {bad[:40]!r}"), contextlib.closing(Scripted({"COMMIT": [b":1\r\n"]})) as server:
                with open(name, "wb") as file:
                    file.write(b'{"writes": [{"key": "a", "value": "b"}]}\n\n' + bad + b"\n")
                found = tool("ssikvd-load", f"127.0.0.1:{server.port}", name)
                due = "ssikvd-load: line 3 is none of ssikvd-export or ssikvd-salvage, after 1 transactions\n"
                expect(found == (2, "", due) and server.asked["COMMIT"] == 1, f"it answered {found}")
        with tally.run("lines of both kinds"), contextlib.closing(Scripted({"COMMIT": [b":1\r\n"]})) as server:
            with open(name, "wb") as file:
                file.write(b'{"key": "\xc3\xbc", "value_hex": "ff"}\n' * 65 + b'{"writes": [{"key": "a", "value": null}]}\n')
            with open(name, "rb") as file:
                words = [os.path.join(DIST, "ssikvd-load"), f"127.0.0.1:{server.port}", "-"]
                ran = subprocess.run(words, stdin=file, capture_output=True, text=True, env={**ENVIRONMENT, "PYTHONIOENCODING": "latin-1"}, timeout=PATIENCE)
            expect((ran.returncode, ran.stdout) == (0, "3 transactions\n") and server.asked["DEL"] == 1, f"it answered {ran}")
        with tally.run("a key that is too long"), contextlib.closing(Scripted({"SET": [b"-ERR key\r\n"]})) as server:
            with open(name, "w", encoding="ascii") as file:
                print(json.dumps({"key": "k" * (KEY_MAX + 1), "value": ""}), file=file)
            expect_line(tool("ssikvd-load", f"127.0.0.1:{server.port}", name), 2, "the store answered")


# Names

NAMES = (b"a b", b"a\nb", b"-a", b"--help", b"a\xffb", b"\xfc", "ü".encode(), b"a'b\"c$d`e\\f", b"*", b"a;b", b"x" * 240)


def names(tally):
    """A data file of any name is read, copied and restored, and the metrics of it are UTF-8."""
    with tally.run("a unit whose name has a quote"):
        with unittest.mock.patch("sys.argv", ["ssikvd-restore", "a'b; c", "copy"]):
            asked = module_of("ssikvd-restore").words()
        expect([shlex.split(text)[2:] for text in (asked.stop, asked.start)] == 2 * [["ssikvd@a'b; c.service"]], f"it calls {asked.stop} and {asked.start}")
    for name in NAMES:
        with tally.run(f"a data file of the name {name!r}"), folder() as place:
            here = functools.partial(run_here, place)
            path = os.path.join(place, os.fsdecode(name))
            write_log(path, LOG, 100)
            word = name if not name.startswith(b"-") else b"./" + name
            for words in (["ssikvd-verify", word], ["ssikvd-used", word]):
                found = here(words)
                expect(found == (0, word + b": records 5 sectors 12 of 112\n", b""), f"{words} answered {found}")
            here(["ssikvd-used", "--state", "state", "--metrics", "used.prom", word], due=0)
            here(["ssikvd-ship", "--metrics", "ship.prom", word, b"./copy" + name[:200]], due=0)
            here(["ssikvd-stat", "--data", word, "--listen", NOBODY, "--state", "stat", "--metrics", "stat.prom"], due=1)
            here(["ssikvd-restore", "--data", b"./restored" + name[:200], word], due=0)
            here(["ssikvd-salvage", "--from", "2", word, b"./lines" + name[:200]], due=0)
            here(["ssikvd-follow", "--state", "follow", word], due=0)
            here(["ssikvd-why", "--data", word], due=0)
            here(["ssikvd-verify", word + b".absent"], due=2)
            for text in ("used.prom", "ship.prom", "stat.prom"):
                judge_metrics(bytes_of(os.path.join(place, text)).decode())
            copied = os.path.join(place, os.fsdecode(b"copy" + name[:200]))
            expect(log_of(copied) == log_of(path) and not any(it.endswith(".tmp") for it in os.listdir(place)), f"they left {os.listdir(place)}")


def run_here(place, words, due=None):
    """Runs a tool in this folder, in a locale of UTF-8. It ends with the status that is expected, if one is, and by no exception."""
    ran = subprocess.run(words, cwd=place, env=STRICT, stdin=subprocess.DEVNULL, capture_output=True, timeout=PATIENCE)
    found = ran.returncode, ran.stdout, ran.stderr
    expect(due in (None, ran.returncode) and b"Traceback" not in ran.stderr, f"{words} answered {found}, expected {due}")
    return found


# What stands where a file is expected

def make_foreign(kind, name):
    """Makes what doesn't belong under this name."""
    if kind == "a folder":
        os.mkdir(name)
    elif kind == "a pipe":
        os.mkfifo(name)
    else:
        with open(name, "wb") as file:
            file.write(FOREIGN[kind])


PLACE = {"place": 1, "records": 0, "last": 0, "digest": 64 * "0"}
FOREIGN = {
    "a folder": None, "a pipe": None, "an empty file": b"", "zeros": bytes(4 * SECTOR), "a list": b"[1]", "a number": b"7", "null": b"null",
    "brackets": b"[" * 100_000, "bytes": b"\xff\xfe", "a state of others": b'{"data": 3, "new": 4}', "a state of other texts": b'{"data": {"place": "x"}}',
    "a state of no digest": json.dumps({"data": {**PLACE, "digest": "zz"}}).encode(), "a negative state": json.dumps({"data": {**PLACE, "place": -5}}).encode()}


def foreign(tally):
    with store() as (place, data):
        other, new = os.path.join(place, "other"), os.path.join(place, "new")
        write_log(new, [], 100)
        for kind in FOREIGN:
            runs = {
                "ssikvd-verify X": (2, ["ssikvd-verify", "--past-cache", other]), "ssikvd-used X": (2, ["ssikvd-used", other]),
                "ssikvd-ship X COPY": (2, ["ssikvd-ship", other, other + ".copy"]), "ssikvd-ship DATA X": (2, ["ssikvd-ship", data, other]),
                "ssikvd-restore of X": (2, ["ssikvd-restore", "--data", other + ".data", other]),
                "ssikvd-salvage X": (2, ["ssikvd-salvage", "--from", "0", other, other + ".lines"]),
                "ssikvd-follow X": (2, ["ssikvd-follow", "--state", other + ".state", other]),
                "ssikvd-follow --state X": (2, ["ssikvd-follow", "--state", other, data, new]),
                "ssikvd-stat --data X": (2, ["ssikvd-stat", "--data", other, "--listen", NOBODY, "--interval", "0"]),
                "ssikvd-stat --backup X": (1, ["ssikvd-stat", "--data", data, "--backup", other, "--listen", NOBODY, "--interval", "0"]),
                "ssikvd-probe --data X": (2, ["ssikvd-probe", "--data", other, NOBODY]),
                "ssikvd-probe --state X": (2, ["ssikvd-probe", "--data", data, "--state", other, NOBODY]),
                "ssikvd-why --data X": (1, ["ssikvd-why", "--data", other]),
                "ssikvd-stat --state X": (2 if kind == "a folder" else 1, ["ssikvd-stat", "--data", data, "--state", other, "--listen", NOBODY]),
                "ssikvd-used --state X": (3 if kind == "a folder" else 0, ["ssikvd-used", "--state", other, data])}
            make_foreign(kind, other)
            for what, (status, words) in runs.items():
                with tally.run(f"{what}, where X is {kind}"):
                    found = play(*words)
                    expect(found[0] == status, f"it answered {found}, expected {status}")
                    expect(status in (0, 1) or "probe --state" in what or "/other" in found[1] + found[2], f"it names another file: {found}")
            for name in set(os.listdir(place)) - {"data", "new"}:
                path = os.path.join(place, name)
                (shutil.rmtree if os.path.isdir(path) else os.remove)(path)
        with tally.run("none of these wrote to the data file"):
            expect(log_of(data) == LOG, "it has other records")
        for words in (["ssikvd-ship", data], ["ssikvd-restore", data, "--data"]):
            for name in ("", "folder/", "folder/.", "folder/.."):
                with tally.run(f"{words[0]}, which is to write to {name!r}"):
                    os.makedirs(os.path.join(place, "folder"), exist_ok=True)
                    expect_line(play(*words, os.path.join(place, name)), 2, "Is a directory")
                    expect(not os.listdir(os.path.join(place, "folder")) and len(os.listdir(place)) == 3, f"it left {os.listdir(place)}")


# Streams

def to_print(place, data, port):
    """The tools that print something here, with the status where that can't be written."""
    text = os.path.join(place, "text")
    with open(text, "w", encoding="ascii") as file:
        file.write('{"key": "a", "value": "b"}\n')
    return {
        "ssikvd-load": ([f"127.0.0.1:{port}", text], 2), "ssikvd-why": (["--data", data], 2), "ssikvd-export": ([f"127.0.0.1:{port}"], 2),
        "ssikvd-watch": (["--state", text + ".state", "--within", "1000000000", "--above", "1", text + ".data"], 2)}


@contextlib.contextmanager
def grown(name):
    """A record more is in this file after each half of a second, so that a watch finds that it grows. No watch has looked at it before."""
    is_over = threading.Event()

    def grow():
        for number in itertools.count(6):
            if is_over.wait(0.5):
                return
            write_log(name + ".next", [[(b"%d" % each, b"value")] for each in range(number)], 1_000 - 2 * number)
            with open(name, "r+b") as file:
                file.write(bytes_of(name + ".next"))

    write_log(name, [[(b"%d" % each, b"value")] for each in range(5)], 1_000)
    with contextlib.suppress(FileNotFoundError):
        os.remove(name.removesuffix(".data") + ".state")
    thread = threading.Thread(target=grow, daemon=True)
    thread.start()
    try:
        yield
    finally:
        is_over.set()
        thread.join()


def streams(tally):
    pair = pairs([(b"a", b"b")])
    with store() as (place, data), contextlib.closing(Scripted({"RANGE": [pair], "COMMIT": [b":1\r\n"]})) as server:
        for name, (words, due) in to_print(place, data, server.port).items():
            no_room, is_export = f"{name}: standard output: No space left on device\n", name == "ssikvd-export"

            def printed(what, run, *due, is_watch=name == "ssikvd-watch", name=name):
                with tally.run(f"{name} {what}"), grown(os.path.join(place, "text.data")) if is_watch else contextlib.nullcontext():
                    found = run()
                    expect((found[0], found[2]) == due, f"it answered {found}, expected {due}")

            if is_export:
                server.answers[b"COMMIT"] = [b":%d\r\n" % number for number in range(1, 1_000)]    # nobody else commits
            printed("where the output has no room", functools.partial(into, ">/dev/full", name, *words), due, no_room)
            printed("whose reader has gone", functools.partial(to_nobody, name, *words), due, f"{name}: standard output: Broken pipe\n")
            for closed in (">&-", "<&- >&-", "<&- >&- 2>&-"):
                text = "ssikvd-export: standard output: it is closed\n" if is_export and "2>" not in closed else ""
                printed(closed, functools.partial(into, closed, name, *words), 2 * is_export, text)
            if name != "ssikvd-why":
                printed("refuses, and can't say so", functools.partial(into, ">/dev/full 2>/dev/full", name, "--no-such-option"), 2, "")
                printed("--help, where the output has no room", functools.partial(into, ">/dev/full", name, "--help"), due, no_room)


def into(where, *words):
    """Runs a tool with its streams like this, in the words of a shell."""
    return tool("sh", "-c", f'exec "$@" {where}', "sh", *words)


def to_nobody(*words):
    """Runs a tool whose output nobody reads."""
    reader, writer = os.pipe()
    os.close(reader)
    try:
        ran = subprocess.run(words, stdin=subprocess.DEVNULL, stdout=writer, stderr=subprocess.PIPE, text=True, env=ENVIRONMENT, timeout=PATIENCE)
    finally:
        os.close(writer)
    return ran.returncode, "", ran.stderr


def errors(tally):
    """Where the standard error has no room, or is closed, the status is the same, and a line of an error isn't printed in the place of others."""
    with store() as (place, data):
        absent, lost = os.path.join(place, "absent"), os.path.join(place, "no", "folder")
        runs = (
            (2, "ssikvd-verify", absent), (2, "ssikvd-used", absent), (3, "ssikvd-used", "--state", lost, data), (2, "ssikvd-ship", absent, absent + "2"),
            (2, "ssikvd-restore", "--data", absent, absent + "2"), (2, "ssikvd-probe", "--metrics", lost, NOBODY), (2, "ssikvd-export", NOBODY),
            (2, "ssikvd-load", NOBODY, data), (2, "ssikvd-stat", "--data", absent, "--listen", NOBODY), (2, "ssikvd-salvage", "--from", "9", data, absent),
            (2, "ssikvd-follow", "--state", absent, absent + "2"))
        for status, *words in runs:
            for where in ("2>/dev/full", "2>&-"):
                with tally.run(f"{' '.join(map(os.path.basename, words))} {where}"):
                    found, due = into(where, *words), tool(*words)
                    expect(found[0] == due[0] == status and due[2], f"it answered {found}, expected {status}; with an error output {due}")
                    expect(found[1] == due[1] or words[0] == "ssikvd-used", f"it printed {found[1]!r} in the place of {due[1]!r}")
        with tally.run("ssikvd-watch goes on where its error output has no room"):
            words = ["sh", "-c", 'exec "$@" 2>/dev/full', "sh", "ssikvd-watch", "--state", absent + ".state", absent]
            with subprocess.Popen(words, env=ENVIRONMENT, stdin=subprocess.DEVNULL, stdout=subprocess.DEVNULL) as process:
                with contextlib.suppress(subprocess.TimeoutExpired):
                    process.wait(1.5)
                ended = process.poll()
                process.kill()
            expect(ended is None, f"it ended with {ended}")


# Signals

def interrupts(tally):
    """An interrupt ends a tool as it ends a program that knows of none, without a word, and nothing half-written is left."""
    with store() as (place, data):
        runs = {
            "ssikvd-watch": ["--state", os.path.join(place, "state"), data], "ssikvd-probe": ["--wait", "60", NOBODY],
            "ssikvd-stat": ["--data", data, "--listen", NOBODY, "--interval", "60"]}
        for name, words in runs.items():
            with tally.run(f"{name} that is interrupted"):
                process = subprocess.Popen([name, *words], env=ENVIRONMENT, stdin=subprocess.DEVNULL, stdout=subprocess.PIPE, stderr=subprocess.PIPE)
                try:
                    wait_for(lambda: is_asleep(process.pid), "it doesn't wait")
                    process.send_signal(signal.SIGINT)
                    out, err = process.communicate(timeout=PATIENCE)
                finally:
                    process.kill()
                expect((process.returncode, out, err) == (-signal.SIGINT, b"", b""), f"it ended with {process.returncode}: {err}")
        expect(os.listdir(place) == ["data"], f"they left {os.listdir(place)}")


def is_asleep(process):
    """Does it wait for time to pass?"""
    with open(f"/proc/{process}/syscall", encoding="ascii") as file, open(f"/proc/{process}/wchan", encoding="ascii") as place:
        return "nanosleep" in place.read() or file.read().split()[0] in ("230", "35")


# Disks without room

def without_room(tally):
    """No file may grow: it is named, and what couldn't be written isn't left."""
    with store() as (place, data):
        made = os.path.join(place, "made")
        runs = {
            "ssikvd-salvage": ["--from", "2", data, made], "ssikvd-follow": ["--state", made, data], "ssikvd-ship": [data, made],
            "ssikvd-restore": ["--data", made, data], "ssikvd-stat": ["--state", made, "--data", data, "--listen", NOBODY]}
        for name, words in runs.items():
            with tally.run(f"{name} where no file may grow"):
                found = tool("sh", "-c", 'ulimit -f 0; exec "$@"', "sh", name, *words)
                expect_line(found, 2, "File too large")
                expect("made" in found[2] and set(os.listdir(place)) <= {"data", "made.lock"}, f"it left {os.listdir(place)}: {found}")
                with contextlib.suppress(FileNotFoundError):
                    os.remove(made + ".lock")
        with tally.run("ssikvd-salvage, once there is room"):
            expect(tool("ssikvd-salvage", "--from", "2", data, made) == (0, "3 records\n", ""), "what it left before is in its way")


# Two at once

TEXTS = [letter * 20_000 + "\n" for letter in "ab"]


def at_once(tally):
    """Two runs write one file at once: whoever reads it finds one text or the other, and neither run fails."""
    used = loaded("ssikvd-used")
    with tally.run("two runs that write one file"), in_memory() as place:
        name = os.path.join(place, "metrics")
        used.write(name, TEXTS[0])
        judge_at_once(used, name)
        expect(os.listdir(place) == ["metrics"], f"they left {os.listdir(place)}")
    with tally.run("a lock that isn't taken is reported"), in_memory() as place:
        used.lock = lambda file: True
        name = os.path.join(place, "metrics")
        with contextlib.suppress(Deviation):
            for _ in range(20):
                used.write(name, TEXTS[0])
                judge_at_once(used, name)
            raise SystemExit("mistakes: two runs at once without a lock were not reported")
    with tally.run("what another run left, and what one holds for long"), in_memory() as place:
        used = loaded("ssikvd-used")
        used.PATIENCE, name = 0.3, os.path.join(place, "metrics")
        with open(name + ".tmp", "w", encoding="ascii") as left:
            used.write(name, TEXTS[0])
            fcntl.flock(left, fcntl.LOCK_EX)
            with open(name + ".tmp", "w", encoding="ascii") as held:
                fcntl.flock(held, fcntl.LOCK_EX)
                begun = time.monotonic()
                used.write(name, TEXTS[1])
        expect(time.monotonic() - begun >= 0.3 and bytes_of(name).decode() == TEXTS[1] and os.listdir(place) == ["metrics"], f"they left {os.listdir(place)}")


def judge_at_once(used, name):
    """Two processes write this file for a moment, one text each, and it is read meanwhile."""
    end, processes = time.monotonic() + 0.5, []
    for text in TEXTS:
        processes.append(os.fork())
        if not processes[-1]:
            status = 1
            with contextlib.suppress(BaseException):
                while time.monotonic() < end:
                    used.write(name, text)
                status = 0
            os._exit(status)
    broken = 0
    while time.monotonic() < end:
        broken += bytes_of(name).decode() not in TEXTS
    failed = sum(os.waitpid(process, 0)[1] != 0 for process in processes)
    expect(not broken and not failed, "a run failed, or the file wasn't whole")


# Owners

def as_user(*words):
    """Runs a tool as the server's user."""
    return tool("setpriv", "--reuid", str(USER), "--regid", str(USER), "--clear-groups", *words)


def owners(tally):
    """What root makes in the folder of the server's user, that user goes on with."""
    lacks = "root" if os.geteuid() else lacking([("setpriv", "util-linux")])
    if lacks:
        leave_out("files that root makes", lacks)
    with store() as (place, data):
        os.chmod(place, 0o755)
        theirs, own = os.path.join(place, "theirs"), os.path.join(place, "own")
        for name in (theirs, own):
            os.mkdir(name)
        os.chown(theirs, USER, USER)
        os.chown(data, USER, USER)
        copy = os.path.join(theirs, "copy")
        with tally.run("a backup that root begins, and the user goes on with"):
            expect(tool("ssikvd-ship", "--records", "2", data, copy)[0] == 0, "it failed")
            expect({os.stat(name).st_uid for name in (copy, copy + ".lock")} == {USER}, "it is root's")
            found = as_user("ssikvd-ship", data, copy)
            expect(found == (0, "records 5 sectors 12 of 112\n", "") and log_of(copy) == LOG, f"it answered {found}")
        with tally.run("a backup that root makes in a folder of its own stays root's"):
            expect(tool("ssikvd-ship", data, os.path.join(own, "copy"))[0] == 0, "it failed")
            expect({os.stat(os.path.join(own, name)).st_uid for name in os.listdir(own)} == {0}, "it is another user's")
        with tally.run("a backup of root's file in a folder of another user stays root's"):
            os.chown(data, 0, 0)
            expect(tool("ssikvd-ship", data, copy + "2")[0] == 0 and os.stat(copy + "2").st_uid == 0, "that user may read it")
            os.chown(data, USER, USER)
        with tally.run("a lock that another user made is left as it is"):
            open(os.path.join(theirs, "victim"), "w", encoding="ascii").close()
            os.link(os.path.join(theirs, "victim"), copy + "3.lock")
            expect(tool("ssikvd-ship", data, copy + "3")[0] == 0 and os.stat(copy + "3.lock").st_uid == 0, "it got another owner")
        with tally.run("a first start by root, in the user's folder"):
            made = os.path.join(theirs, "made")
            found = tool("ssikvd-before", made, "64")
            now = os.stat(made)
            expect(found == (0, "", "") and (now.st_uid, now.st_gid, stat.S_IMODE(now.st_mode)) == (USER, USER, 0o600), f"it answered {found}: {now}")
            found = as_user("ssikvd-before", made, "64")
            expect(found == (0, "", ""), f"as the user it answered {found}")
        with tally.run("ssikvd-compact of root's file, by the owner of the folder"):
            shutil.copy(data, os.path.join(theirs, "roots"))
            words = ["--stop", f"echo >>{theirs}/stopped", "--start", "true", os.path.join(theirs, "roots")]
            for found in (as_user("ssikvd-compact", *words), tool("ssikvd-compact", *words)):
                expect_line(found, 2, "belongs to another user")
            expect(not {"stopped", "roots.new", "roots.lock"} & set(os.listdir(theirs)), f"the server was stopped for it: {os.listdir(theirs)}")
        with tally.run("ssikvd-why of a missing file, run by root"):
            missing = os.path.join(theirs, "missing")
            found = tool("ssikvd-why", "--data", missing)
            cure = found[1].strip().partition("; cure: ")[2]
            expect(found[0] == 1 and cure.startswith(f"setpriv --reuid {USER} "), f"it answered {found}")
            expect(tool("sh", "-c", cure.replace("ssikvd create", f"{PROGRAM} create").replace("4194304", "64"))[0] == 0, f"{cure} failed")
            expect(os.stat(missing).st_uid == USER, "it is root's")


# Compaction

def compactions(tally):
    """A compaction that can't say what it does does it."""
    for where in (">/dev/full", ">&-", "<&- >&-", ">/dev/full 2>/dev/full", "<&- >&- 2>&-"):
        with tally.run(f"ssikvd-compact {where}"), folder() as place:
            data = os.path.join(place, "data")
            create(data, 64)
            with open(data, "r+b") as file:
                file.write(b"".join(log_bytes()))
            found = into(where, "ssikvd-compact", "--sectors", "128", "--stop", "true", "--start", f"echo >>{place}/started", data)
            expect(found[0] == 0 and check(data) == (1, 5, 4, 128), f"it answered {found}, and left {check(data)}")
            expect(sorted(os.listdir(place)) == ["data", "data.lock", "data.old", "started"], f"it left {os.listdir(place)}")


def overlapping(tally):
    """A compaction that waited for another one, which has put another file in the place, waits for one of that file as well."""
    with tally.run("ssikvd-compact of a file that is replaced while it waits"), folder() as place:
        data, words = os.path.join(place, "data"), ["ssikvd-compact", "--part", "prepare", os.path.join(place, "data")]
        create(data, 64)
        with open(data, "rb") as first:
            fcntl.flock(first, fcntl.LOCK_EX)
            with subprocess.Popen(words, env=ENVIRONMENT, stdin=subprocess.DEVNULL, stdout=subprocess.PIPE, stderr=subprocess.STDOUT) as process:
                wait_for(lambda: waiters(first), "it doesn't wait")
                create(data + ".next", 64)
                with open(data + ".next", "rb") as second:
                    fcntl.flock(second, fcntl.LOCK_EX)
                    os.rename(data + ".next", data)
                    fcntl.flock(first, fcntl.LOCK_UN)
                    wait_for(lambda: waiters(second) or process.poll() is not None, "it doesn't wait for the other file")
                    expect(process.poll() is None and not os.path.exists(data + ".new"), "it went on next to a compaction of the file that is there now")
                out, _ = process.communicate(timeout=PATIENCE)
            expect(process.returncode == 0 and os.path.exists(data + ".new"), f"it ended with {process.returncode}: {out}")


def waiters(file):
    """How many wait for the lock of an open file."""
    with open("/proc/locks", encoding="ascii") as rows:
        return sum("->" in row and row.split()[-3].endswith(f":{os.fstat(file.fileno()).st_ino}") for row in rows)


BAD_WORDS = (("--above", "08"), ("--above", "-1"), ("--sectors", "010"), ("--sectors", 20 * "9"), ("--within", "1e3"), ("--above", "5.5"))


def words_of_compactions(tally):
    with folder() as place:
        data = os.path.join(place, "data")
        create(data, 64)
        for option, text in BAD_WORDS:
            with tally.run(f"ssikvd-compact {option} {text}"):
                expect_line(tool("ssikvd-compact", option, text, "--stop", "true", "--start", "true", data), 1, "usage: ")
        for words in (["ssikvd-compact", "--stop", "true", "--start", "true", data + "\n"], ["ssikvd-before", data + "\n", "64"]):
            with tally.run(f"{words[0]} of a name that ends with a line break"):
                expect_line(tool(*words), 1, "usage: ")
        with tally.run("ssikvd-compact with its state in the data file"):
            expect_line(tool("ssikvd-compact", "--state", data, "--stop", "true", "--start", "true", data), 2, "it is the data file itself: name another file")
        expect(os.listdir(place) == ["data"], f"they left {os.listdir(place)}")


def log_bytes():
    """The sectors of the log that stand in front of its closed gate."""
    with store() as (_, data):
        yield bytes_of(data)[:12 * SECTOR]


class Mistakes(Harness):
    NAME = "mistakes"
    NEEDS = (PROGRAM,)
    PARTS = (replaced, numbers, lines, names, foreign, streams, errors, interrupts, without_room, at_once, owners, compactions,
             overlapping, words_of_compactions)


if __name__ == "__main__":
    run_harness()
