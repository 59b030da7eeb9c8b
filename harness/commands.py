"""The commands as processes: each text and status, each bound of a number, and each fault, as they stand in this file.

Also that a line leaves in one write, which a reader of a pipe sees as a whole: the writes on the output and the error output are written
down by the library of trace.c, and a server's first line is read from a pipe, once, of 30 servers.

`quick` leaves out the files and scripts that are large.
"""
import errno
import os
import pty
import re
import shutil
import socket
import subprocess

from ssikvd_harness.arguments import is_long, run_harness
from ssikvd_harness.cases import Harness
from ssikvd_harness.connection import Connection
from ssikvd_harness.deviations import expect
from ssikvd_harness.failing_calls import DEVICE, LATE, OPENING, POLL, Refusals
from ssikvd_harness.frames import OK, frame
from ssikvd_harness.limits import KEY_MAX, LARGEST_REPLY, SESSIONS_MAX, VALUE_MAX, WRITES_MAX
from ssikvd_harness.log_format import OLD_HEAD, SECTOR, body_sectors, log_image, payload, sectors_used
from ssikvd_harness.model import Store
from ssikvd_harness.rows import EXAMPLES, example_files, request_of, shown
from ssikvd_harness.server import DEVICE_FAULT, FILE_FAULT, OUT_OF_MEMORY, Server, check, create, folder, free_port, run
from ssikvd_harness.settings import HARNESS, PATIENCE, PROGRAM, SHIM, TOP, TRACER, bytes_of
from ssikvd_harness.tracing import Trace, printed

with open(os.path.join(HARNESS, "../crates/command_line/src/commands.rt"), encoding="utf-8") as source:
    VERSION = re.search(r'VERSION: &str = "(.*)"', source.read())[1]
MORE = "\nFor more information, try '--help'.\n"
OF_PROGRAM = "\nUsage: ssikvd <COMMAND>\n"
OF_CREATE = "\nUsage: ssikvd create --data <FILE> --sectors <N>\n"
OF_SERVE = "\nUsage: ssikvd serve --data <FILE> --listen <ADDR:PORT>\n"
OF_CHECK = "\nUsage: ssikvd check --data <FILE>\n"
OF_COMPACT = "\nUsage: ssikvd compact [OPTIONS] --from <FILE> --to <FILE>\n"
OF_PLAY = "\nUsage: ssikvd play [OPTIONS]\n"

HELP = """An ordered store whose transactions are serializable
""" + OF_PROGRAM + """
Commands:
  create   Makes a data file and formats it
  serve    Serves a data file
  check    Opens a data file and counts what it holds
  compact  Copies the map of a data file into a new data file
  play     Runs the lines of standard input over a device in memory
  help     Print this message or the help of the given subcommand(s)

Options:
  -h, --help     Print help
  -V, --version  Print version

Examples:
  ssikvd create --data shop.data --sectors 1024
  ssikvd serve --data shop.data --listen 127.0.0.1:7777
  ssikvd check --data shop.data
  ssikvd compact --from shop.data --to shop.new --sectors 2048
  printf '1 BEGIN\\n1 SET a 22\\n1 COMMIT\\n' | ssikvd play

Exit status:
  0  the command did its work, or printed help or the version
  1  the command line was refused
  2  a line of a script was refused
  3  memory, a file, the log or a socket failed
"""
HELP_OF_CREATE = "Makes a data file and formats it\n" + OF_CREATE + """
Options:
      --data <FILE>  The file, which must not exist
      --sectors <N>  How many sectors of 512 bytes, 2 to 4194304
  -h, --help         Print help

Example:
  ssikvd create --data shop.data --sectors 1024
"""
HELP_OF_SERVE = "Serves a data file\n" + OF_SERVE + """
Options:
      --data <FILE>         The file
      --listen <ADDR:PORT>  The numeric address and port, as 127.0.0.1:7777 or [::1]:7777
  -h, --help                Print help

One server for a file: the program does not stop a second one, which would write over commits.
There is no authentication and no TLS: whoever can connect reads and writes everything.

Example:
  ssikvd serve --data shop.data --listen 127.0.0.1:7777
"""
HELP_OF_CHECK = "Opens a data file and counts what it holds\n" + OF_CHECK + """
Options:
      --data <FILE>  The file
  -h, --help         Print help

It prints one line: records R keys K sectors U of N, where U of the N sectors are used.

Example:
  ssikvd check --data shop.data
"""
HELP_OF_COMPACT = "Copies the map of a data file into a new data file\n" + OF_COMPACT + """
Options:
      --from <FILE>  The file, which is only read
      --to <FILE>    The new file, which must not exist
      --sectors <N>  At least how many sectors of 512 bytes, 2 to 4194304 [default: as many as the old file, or as the map needs if that is more]
  -h, --help         Print help

Stop the server first: what it commits meanwhile may be missing from the new file.
The new file never has fewer sectors than the old one.

Example:
  ssikvd compact --from shop.data --to shop.new --sectors 2048
"""
HELP_OF_PLAY = "Runs the lines of standard input over a device in memory\n" + OF_PLAY + """
Options:
      --sectors <N>  How many sectors of 512 bytes, 2 to 65536 [default: 4096]
  -h, --help         Print help

A line is a session's number and one request of it.

Example:
  printf '1 BEGIN\\n1 SET a 22\\n1 COMMIT\\n' | ssikvd play
"""
HELPS = {
    "--version": f"ssikvd {VERSION}\n", "-V": f"ssikvd {VERSION}\n", "help": HELP, "--help": HELP, "-h": HELP,
    **{form.format(command): text
       for command, text in (("create", HELP_OF_CREATE), ("serve", HELP_OF_SERVE), ("check", HELP_OF_CHECK), ("compact", HELP_OF_COMPACT),
                             ("play", HELP_OF_PLAY))
       for form in ("help {}", "{} --help", "{} -h")}}


def out_of_range(value, most):
    return f"error: invalid value '{value}' for '--sectors <N>': {value} is not in 2..={most}\n" + MORE


def no_number(value, why):
    return f"error: invalid value '{value}' for '--sectors <N>': {why}\n" + MORE


def unexpected(word, usage):
    return f"error: unexpected argument '{word}' found\n" + usage + MORE


def required(usage, *options):
    return "error: the following required arguments were not provided:\n" + "".join(f"  {o}\n" for o in options) + usage + MORE


REFUSED = {
    "": "error: 'ssikvd' requires a subcommand but one was not provided\n  [subcommands: create, serve, check, compact, play, help]\n"
        + OF_PROGRAM + MORE,
    "bogus": "error: unrecognized subcommand 'bogus'\n" + OF_PROGRAM + MORE,
    "help bogus": "error: unrecognized subcommand 'bogus'\n" + OF_PROGRAM + MORE,
    "Create": "error: unrecognized subcommand 'Create'\n\n  tip: a similar subcommand exists: 'create'\n" + OF_PROGRAM + MORE,
    "check --version": unexpected("--version", OF_CHECK),
    "create": required(OF_CREATE, "--data <FILE>", "--sectors <N>"),
    "create --data DATA --sectors 0": out_of_range(0, 4_194_304),
    "create --data DATA --sectors 1": out_of_range(1, 4_194_304),
    "create --data DATA --sectors 4194305": out_of_range(4_194_305, 4_194_304),
    "create --data DATA --sectors 18446744073709551615": out_of_range(2 ** 64 - 1, 4_194_304),
    "create --data DATA --sectors 18446744073709551616": no_number(2 ** 64, "number too large to fit in target type"),
    "create --data DATA --sectors 2x": no_number("2x", "invalid digit found in string"),
    "create --data DATA --sectors 2.0": no_number("2.0", "invalid digit found in string"),
    "create --data DATA --sectors 0x10": no_number("0x10", "invalid digit found in string"),
    "create --data DATA --sectors=": no_number("", "cannot parse integer from empty string"),
    "create --data DATA --sectors": "error: a value is required for '--sectors <N>' but none was supplied\n" + MORE,
    "create --data DATA --sectors 2 --bogus": unexpected("--bogus", OF_CREATE),
    "create --data DATA --data DATA --sectors 2": "error: the argument '--data <FILE>' cannot be used multiple times\n" + OF_CREATE + MORE,
    "serve": required(OF_SERVE, "--data <FILE>", "--listen <ADDR:PORT>"),
    "check": required(OF_CHECK, "--data <FILE>"),
    "check --data": "error: a value is required for '--data <FILE>' but none was supplied\n" + MORE,
    "check --data DATA more": unexpected("more", OF_CHECK),
    "compact": required("\nUsage: ssikvd compact --from <FILE> --to <FILE>\n", "--from <FILE>", "--to <FILE>"),
    "compact --from DATA --to DATA --sectors 1": out_of_range(1, 4_194_304),
    "compact --from DATA --to DATA --sectors 4194305": out_of_range(4_194_305, 4_194_304),
    "play --sectors 1": out_of_range(1, 65_536),
    "play --sectors 65537": out_of_range(65_537, 65_536),
    "play --sectors -2": unexpected("-2", OF_PLAY),
    "play more": unexpected("more", OF_PLAY),
}
NO_TEXT = ([b"\xff"], [b"check", b"--data", b"\xff\xfe"], [b"create", b"--data", b"a\xc3", b"--sectors", b"8"])


def words_of(line, data):
    return [data if word == "DATA" else word for word in line.split()]


def expect_found(found, status, out="", err=""):
    out, err = (text if isinstance(text, bytes) else text.encode() for text in (out, err))
    ends = [(code, first[-300:], second[-300:]) for code, first, second in (found, (status, out, err))]
    expect(found == (status, out, err), f"it ended with {ends[0]}, expected {ends[1]}")


def command_lines(tally):
    with folder() as place:
        data = os.path.join(place, "data")
        for line, text in HELPS.items():
            with tally.run(line):
                expect_found(run(words_of(line, data)), 0, text)
        for line, text in REFUSED.items():
            with tally.run(f"the words {line!r}"):
                expect_found(run(words_of(line, data)), 1, "", text)
        for words in NO_TEXT:
            with tally.run(f"{words}"):
                expect_found(run(words), 1, "", "error: invalid data\n")
        with tally.run("what refused lines left behind"):
            expect(os.listdir(place) == [], f"{os.listdir(place)}")


# Data files

def create_at_bounds(tally):
    sizes = {"2": 2, "3": 3, "00002": 2, "+5": 5, "1000": 1_000, **({"4194304": 4_194_304} if is_long() else {})}
    for text, sectors in sizes.items():
        with folder() as place, tally.run(f"create of {text} sectors"):
            data = os.path.join(place, "data")
            if os.statvfs(place).f_bavail * os.statvfs(place).f_frsize < 3 * SECTOR * sectors:
                print(f"  create of {text} sectors: not run, for want of room on the disk")
                continue
            expect_found(run(["create", "--data", data, "--sectors", text], seconds=300), 0)
            with open(data, "rb") as file:
                expect(os.path.getsize(data) == SECTOR * sectors, f"the file has {os.path.getsize(data)} bytes")
                expect(file.read(SECTOR * min(sectors, 1_000)) == log_image([], min(sectors, 1_000)), "the file is no empty log")
            expect_found(run(["check", "--data", data]), 0, f"records 0 keys 0 sectors 2 of {sectors}\n")


LOG = [[(b"a", b"1"), (b"b", bytes(2_000))], [(b"a", None)]]
IMAGE = log_image(LOG, 16)


def with_byte(image, at, value):
    return image[:at] + bytes([value]) + image[at + 1:]


PLACE_OF_SECOND = SECTOR * (1 + body_sectors(payload(LOG[0])) + 1)
FILES = {
    "a log": (IMAGE, None),
    "an empty log": (log_image([], 2), None),
    "a full log": (log_image([[(b"a", b"1")]], 4), None),
    "no byte": (b"", "not a log"),
    "one sector": (IMAGE[:SECTOR], "not a log"),
    "an old log": (log_image([[(b"a", b"1")]], 4, OLD_HEAD), "old format"),
    "an old head and nothing behind it": (OLD_HEAD, "not a log"),
    "another head": (with_byte(IMAGE, 7, ord("3")), "not a log"),
    "a head with a byte behind it": (with_byte(IMAGE, 511, 1), "not a log"),
    "bytes of something else": (b"\x7fELF".ljust(16 * SECTOR, b"x"), "not a log"),
    "513 bytes": (IMAGE[:SECTOR + 1], "file fault"),
    "a byte too few": (IMAGE[:-1], "file fault"),
    "a damaged length": (with_byte(IMAGE, 2 * SECTOR, 1), "damaged record 0"),
    "a damaged index": (with_byte(IMAGE, 2 * SECTOR + 11, 1), "damaged record 0"),
    "a damaged digest": (with_byte(IMAGE, 2 * SECTOR + 12, IMAGE[2 * SECTOR + 12] ^ 1), "damaged record 0"),
    "a damaged payload": (with_byte(IMAGE, 2 * SECTOR + 60, IMAGE[2 * SECTOR + 60] ^ 1), "damaged record 0"),
    "a byte behind a payload": (with_byte(IMAGE, PLACE_OF_SECOND - 1, 1), "damaged record 0"),
    "a second record that is damaged": (with_byte(IMAGE, PLACE_OF_SECOND + SECTOR + 44, 9), "damaged record 1"),
    "a gate too many": (with_byte(IMAGE, SECTOR * (sectors_used(LOG) - 1), 1), "damaged record 2"),
    "a file cut behind a gate": (IMAGE[:2 * SECTOR], "damaged record 0"),
}
COUNTS = {"a log": (2, 1, LOG, 16), "an empty log": (0, 0, [], 2), "a full log": (1, 1, [[(b"a", b"1")]], 4)}


def line_of(name):
    """What `check` prints for a log."""
    records, keys, log, sectors = COUNTS[name]
    return f"records {records} keys {keys} sectors {sectors_used(log)} of {sectors}\n"


def data_files(tally):
    """`check` and `serve` of each file, which neither changes."""
    for name, (image, fault) in FILES.items():
        with folder() as place:
            data = os.path.join(place, "data")
            with open(data, "wb") as file:
                file.write(image)
            with tally.run(f"check of {name}"):
                if fault:
                    expect_found(run(["check", "--data", data]), 3, "", f"ssikvd: {fault}\n")
                else:
                    expect_found(run(["check", "--data", data]), 0, line_of(name))
            with tally.run(f"serve of {name}"):
                if fault:
                    expect_found(run(["serve", "--data", data, "--listen", "127.0.0.1:0"]), 3, "", f"ssikvd: {fault}\n")
                else:
                    with Server(data) as server:
                        expect(server.is_listening(), f"no server: {server.error_text()!r}")
            with tally.run(f"{name} behind it"), open(data, "rb") as file:
                expect(file.read() == image, "the file was changed")


def read_only_copies(tally):
    """`check` of files that a user may read and not write, in a folder that he can't list: it answers him as their owner. `serve` doesn't open them."""
    other = {"user": 12_345, "group": 12_345, "extra_groups": []} if os.getuid() == 0 else {}
    for name in ("a log", "an old log", "a damaged digest", "a byte too few"):
        image, fault = FILES[name]
        with folder() as place:
            data, program = os.path.join(place, "data"), os.path.join(place, "ssikvd")
            with open(data, "wb") as file:
                file.write(image)
            shutil.copy(PROGRAM, program)
            os.chmod(program, 0o755)
            os.chmod(data, 0o444)
            os.chmod(place, 0o311)
            for words, text in ((["check", "--data", data], fault), (["serve", "--data", data, "--listen", "127.0.0.1:0"], "file fault")):
                with tally.run(f"{words[0]} of {name} that may only be read"):
                    ran = subprocess.run([program, *words], capture_output=True, timeout=PATIENCE, **other)
                    found = ran.returncode, ran.stdout, ran.stderr
                    expect_found(found, *((3, "", f"ssikvd: {text}\n") if text else (0, line_of(name))))
            os.chmod(place, 0o755)
            expect(bytes_of(data) == image and sorted(os.listdir(place)) == ["data", "ssikvd"], "a file was changed or made")


MANY = [[(b"k%02d" % i, b"1")] for i in range(1, 66)]
TWO = [[write for [write] in MANY[:64]], [write for [write] in MANY[64:]]]
PUT_AND_GONE = [[(b"a", b"1")], [(b"a", None)]]
FULL = [[(b"a", b"1")]]
COMPACTED = {
    "an old log of no key": (log_image(PUT_AND_GONE, 8, OLD_HEAD), (), [], "records 0 keys 0 sectors 2 of 8\n"),
    "an old log of many keys": (log_image(MANY, 200, OLD_HEAD), (), TWO, "records 2 keys 65 sectors 7 of 200\n"),
    "a log of this format": (log_image(MANY, 200), (), TWO, "records 2 keys 65 sectors 7 of 200\n"),
    "a full log": (log_image(FULL, 4), (), FULL, "records 1 keys 1 sectors 4 of 4\n"),
    "a full log with more room": (log_image(FULL, 4), ("--sectors", "100"), FULL, "records 1 keys 1 sectors 4 of 100\n"),
    "room for fewer than there were": (log_image(FULL, 40), ("--sectors", "4"), FULL, "records 1 keys 1 sectors 4 of 40\n")}
NOT_COMPACTED = {
    "too little room": (log_image(FULL, 4), ("--sectors", "3"), "log full"),
    "no log": (bytes(4 * SECTOR), (), "not a log"),
    "an old log that is damaged": (with_byte(log_image(FULL, 4, OLD_HEAD), 2 * SECTOR + 44, 9), (), "damaged record 0"),
    "an old log with a value too long": (log_image([[(b"a", bytes(4_097))]], 40, OLD_HEAD), (), "damaged record 0"),
    "half a sector": (IMAGE[:SECTOR + 256], (), "file fault")}


def compactions(tally):
    """`compact` of each file, which it never changes, and what then stands in the new one."""
    for name, (image, words, log, line) in COMPACTED.items():
        with folder() as place, tally.run(f"compact of {name}"):
            data, new = os.path.join(place, "data"), os.path.join(place, "new")
            with open(data, "wb") as file:
                file.write(image)
            expect_found(run(["compact", "--from", data, "--to", new, *words]), 0, line)
            expect(bytes_of(data) == image, "the old file was changed")
            expect(bytes_of(new) == log_image(log, int(line.split()[-1])), "the new file is another")
            expect_found(run(["check", "--data", new]), 0, line)
            again = bytes_of(new)
            expect_found(run(["compact", "--from", data, "--to", new]), 3, "", "ssikvd: file fault\n")
            expect_found(run(["compact", "--from", new, "--to", new]), 3, "", "ssikvd: file fault\n")
            expect(bytes_of(new) == again, "the new file was changed")
    for name, (image, words, fault) in NOT_COMPACTED.items():
        with folder() as place, tally.run(f"compact of {name}"):
            data = os.path.join(place, "data")
            with open(data, "wb") as file:
                file.write(image)
            found = run(["compact", "--from", data, "--to", os.path.join(place, "new"), *words])
            expect_found(found, 3, "", f"ssikvd: {fault}\n")
            expect(bytes_of(data) == image and os.listdir(place) == ["data"], "it left something behind")
    with folder() as place, tally.run("a full log compacted and served again"):
        data, new = os.path.join(place, "data"), os.path.join(place, "new")
        create(data, 4)
        steps = (("BEGIN", "SET a 1", "COMMIT", "BEGIN", "SET a 2", "COMMIT"), [b"+OK", b"+OK", b":1", b"+OK", b"+OK", b"-FULL log"])
        expect(asked(data, steps[0]) == steps[1], "the log is not full")
        expect_found(run(["compact", "--from", data, "--to", new, "--sectors", "16"]), 0, "records 1 keys 1 sectors 4 of 16\n")
        os.replace(new, data)
        expect(asked(data, ("BEGIN", "GET a", "SET a 2", "COMMIT")) == [b"+OK", b"$1\r\n1", b"+OK", b":1"], "it is not served again")
        expect_found(run(["check", "--data", data]), 0, "records 2 keys 1 sectors 6 of 16\n")


# Of the two records of LOG_FORMAT.md's example the sector of the body, its length and index, and its payload.
WORKED_BODIES = ((2, "0000000d0000000000000000", "00000001000161010000000131"), (4, "000000080000000000000001", "0000000100016100"))


def worked_log(tally):
    """The example of LOG_FORMAT.md: its bytes, and the line of `check`."""
    with folder() as place, tally.run("the example of LOG_FORMAT.md"):
        data = os.path.join(place, "data")
        create(data, 8)
        expect(asked(data, ("BEGIN", "SET a 1", "COMMIT", "BEGIN", "DEL a", "COMMIT"))[2::3] == [b":1", b":2"], "another reply")
        expect_found(run(["check", "--data", data]), 0, "records 2 keys 0 sectors 6 of 8\n")
        sectors = [bytes_of(data)[at:at + SECTOR] for at in range(0, 8 * SECTOR, SECTOR)]
        for at, front, content in WORKED_BODIES:
            expect(sectors[at].startswith(bytes.fromhex(front)) and sectors[at][44:].startswith(bytes.fromhex(content)), f"sector {at} is another")
        expect([sectors[at][0] for at in (1, 3, 5)] == [1, 1, 0], "another gate")


COPYING = b"ssikvd: the map is read, the copy is being written\r\n"


def on_a_terminal(words, environment):
    """The status of a command whose error output is a terminal, and what it prints there."""
    ours, terminal = pty.openpty()
    with subprocess.Popen([PROGRAM, *words], stdin=subprocess.DEVNULL, stdout=subprocess.PIPE, stderr=terminal, env=environment) as process:
        os.close(terminal)
        process.communicate(timeout=PATIENCE)
        printed = b""
        while (piece := read_terminal(ours)):
            printed += piece
        os.close(ours)
        return process.returncode, printed


def read_terminal(terminal):
    """What a terminal shows next, and nothing once all who had it have closed it."""
    try:
        return os.read(terminal, 4_096)
    except OSError:
        return b""


def late_copies(tally):
    """`compact` reports that the copy is being written where its error output is a terminal and reading took a second, and only there. One that reads at
    once may have taken a second where the machine stood still, and is run again."""
    for is_late, is_terminal in ((True, True), (False, True), (True, False)):
        with tally.run(f"compact that reads {'late' if is_late else 'at once'}, {'on' if is_terminal else 'without'} a terminal"):
            found = [copied(is_late, is_terminal)]
            while not is_late and len(found) < 3 and found[-1] == (0, COPYING):
                found.append(copied(is_late, is_terminal))
            expect(found[-1] == (0, COPYING if is_late and is_terminal else b""), f"it answered {found}")


def copied(is_late, is_terminal):
    """The status of a `compact`, and what it prints."""
    with folder() as place:
        data, refusals = os.path.join(place, "data"), Refusals(place)
        with open(data, "wb") as file:
            file.write(IMAGE)
        if is_late:
            refusals.of(DEVICE).fail(2, error=LATE)
        words = ["compact", "--from", data, "--to", os.path.join(place, "new")]
        found = on_a_terminal(words, refusals.environment()) if is_terminal else run(words, environment=refusals.environment())[::2]
        expect(refusals.of(DEVICE).failed == is_late, "no call was late")
        return found


# By the command, how many of its calls on files have the text of their error: its openings and its writes of zeros, and the syncs before
# the calls of its log.
FILE_CALLS = {
    "create --data NEW --sectors 16": (3, 2), "check --data DATA": (1, 0), "compact --from DATA --to NEW": (4, 2)}


def failing_calls(line, kind, error):
    """How the command ends where its n-th call of a kind fails, for n = 1, 2, 3 .. until a run meets no failure."""
    found, has_met = [], True
    while has_met:
        with folder() as place:
            data, new, refusals = os.path.join(place, "data"), os.path.join(place, "new"), Refusals(place)
            with open(data, "wb") as file:
                file.write(IMAGE)
            refusals.of(kind).fail(len(found) + 1, error=error)
            status, out, text = run([{"DATA": data, "NEW": new}.get(word, word) for word in line.split()], environment=refusals.environment())
            has_met = refusals.of(kind).failed > 0
            expect((status, out) == (3, b"") if has_met else status == 0, f"call {len(found) + 1}: it answered {(status, out, text)}")
            expect(text == DEVICE_FAULT or not has_met or not os.path.exists(new), f"call {len(found) + 1}: it left a new file")
            found += [text] if has_met else []
    return found


def failing_files(tally):
    """Each opening, read, write and sync of a file fails: the command ends with the text of its error, or with the device's where it is a call of the log's."""
    for line, (files, syncs) in FILE_CALLS.items():
        for error, text in ((errno.EIO, FILE_FAULT), (errno.ENOMEM, OUT_OF_MEMORY)):
            with tally.run(f"{line} whose openings and writes fail with {error}"):
                found = failing_calls(line, OPENING, error)
                # The first opens the null device, and nothing looks at its error.
                expect(found == [FILE_FAULT] + [text] * files, f"they end with {found}")
            with tally.run(f"{line} whose calls of the device fail with {error}"):
                found = failing_calls(line, DEVICE, error)
                expect(set(found) - {text} == {DEVICE_FAULT} and found.count(text) == syncs, f"they end with {found}")


def asked(data, lines):
    """What a server over this file answers to these lines."""
    with Server(data) as server, Connection(server.port) as client:
        return [client.ask(frame(*line.split(" ")))[:-2] for line in lines]


def names(tally):
    """Names of no file, and texts that aren't addresses."""
    with folder() as place, socket.socket() as other:
        data, missing = os.path.join(place, "data"), os.path.join(place, "missing")
        with open(data, "wb") as file:
            file.write(IMAGE)
        other.bind(("127.0.0.1", 0))
        other.listen()
        taken = "127.0.0.1:%d" % other.getsockname()[1]
        for name in (missing, place, os.path.join(missing, "data"), os.path.join(data, "data"), ""):
            with tally.run(f"check of {name!r}"):
                expect_found(run(["check", "--data", name]), 3, "", "ssikvd: file fault\n")
            with tally.run(f"compact of {name!r}"):
                expect_found(run(["compact", "--from", name, "--to", missing]), 3, "", "ssikvd: file fault\n")
            with tally.run(f"serve of {name!r}"):
                expect_found(run(["serve", "--data", name, "--listen", "127.0.0.1:0"]), 3, "", "ssikvd: file fault\n")
        pipe = os.path.join(place, "pipe")
        os.mkfifo(pipe)
        for words in (["check", "--data", pipe], ["serve", "--data", pipe, "--listen", "127.0.0.1:0"]):
            with tally.run(f"{words[0]} of a pipe"):
                expect_found(run(words), 3, "", "ssikvd: device fault\n")
        os.remove(pipe)
        for name in (data, place, os.path.join(missing, "data"), ""):
            with tally.run(f"create of {name!r}"):
                expect_found(run(["create", "--data", name, "--sectors", "8"]), 3, "", "ssikvd: file fault\n")
        for address in ("127.0.0.1", "localhost:7777", ":7777", "", "127.0.0.1:65536", "127.0.0.1:-1", "127.0.0:1", "::1:0", "1"):
            for name in (data, missing):
                with tally.run(f"serve at {address!r}"):
                    expect_found(run(["serve", "--data", name, "--listen", address]), 3, "", "ssikvd: listen fault\n")
        for address in (taken, "203.0.113.1:0"):
            with tally.run(f"serve at {address}"):
                expect_found(run(["serve", "--data", data, "--listen", address]), 3, "", "ssikvd: listen fault\n")
        with tally.run("serve of a missing file at a taken address"):
            expect_found(run(["serve", "--data", missing, "--listen", taken]), 3, "", "ssikvd: file fault\n")
        with tally.run("the files behind it"), open(data, "rb") as file:
            expect(os.listdir(place) == ["data"] and file.read() == IMAGE, "a file was changed or made")


def file_in_folder(tally):
    """A file named by itself, in the folder where the program runs."""
    with folder() as place, tally.run("create of a name without a folder"):
        words = [PROGRAM, "create", "--data", "data", "--sectors", "8"]
        ran = subprocess.run(words, cwd=place, capture_output=True, timeout=PATIENCE)
        expect_found((ran.returncode, ran.stdout, ran.stderr), 0)
        expect(check(os.path.join(place, "data")) == (0, 0, 2, 8), "it is no empty log")


# Output that fails

def closed_pipe():
    """The writing end of a pipe that nobody reads."""
    reader, writer = os.pipe()
    os.close(reader)
    return writer


def failing_output(tally):
    """An output that takes nothing is a fault, but not of a command that prints nothing; one of errors changes no status."""
    with folder() as place:
        data = os.path.join(place, "data")
        with open(data, "wb") as file:
            file.write(IMAGE)
        commands = ("help", "create --help", "check --data DATA", "serve --data DATA --listen 127.0.0.1:0", "play")
        for line in commands:
            for name, opened in (("a full device", lambda: os.open("/dev/full", os.O_WRONLY)), ("a closed pipe", closed_pipe)):
                with tally.run(f"{line} into {name}"):
                    found = run_into(words_of(line, data), opened(), subprocess.PIPE)
                    expect(found == (3, None, b"ssikvd: file fault\n"), f"it ended with {found}")
        for line, status in (("bogus", 1), ("check --data missing", 3), ("play", 2)):
            with tally.run(f"{line} with its error output into a full device"):
                found = run_into(words_of(line, data), subprocess.PIPE, os.open("/dev/full", os.O_WRONLY), b"bad\n")
                expect(found == (status, b"", None), f"it ended with {found}")
        with tally.run("create with its output into a full device"):
            made = os.path.join(place, "made")
            found = run_into(["create", "--data", made, "--sectors", "8"], os.open("/dev/full", os.O_WRONLY), subprocess.PIPE)
            expect(found == (0, None, b"") and check(made) == (0, 0, 2, 8), f"it ended with {found}")
        with tally.run("the data file behind it"), open(data, "rb") as file:
            expect(file.read() == IMAGE, "the file was changed")


def run_into(words, out, err, stdin=b"1 BEGIN\n"):
    """A command whose output or error output is such a descriptor, which is closed here."""
    try:
        ran = subprocess.run([PROGRAM, *words], input=stdin, stdout=out, stderr=err, timeout=PATIENCE)
    finally:
        for descriptor in (out, err):
            if descriptor >= 0:
                os.close(descriptor)
    return ran.returncode, ran.stdout, ran.stderr


# Scripts

BAD_LINES = (
    b"\x00", b" 1 PING", b"1 PING ", b" ", b"01 PING", b"1000000 PING", b"-1 PING", b"+1 PING", b"1", b"PING", b"x PING", b"1 a b c d e",
    b"1x PING", b"1\tPING", b"\xff PING", b"99999999999999999999 PING")
LINES = {
    b"": b"", b"\n": b"", b"\n\n\n": b"", b"1 PING": b"1 +PONG\n", b"1   PING\n": b"1 +PONG\n", b"0 PING\n": b"0 +PONG\n",
    b"999999 PING\n": b"999999 +PONG\n", b"1 BEGIN\r\n": b"1 -ERR command\n", b"1 \xff\xfe\n": b"1 -ERR command\n",
    b"1 PING\0\n": b"1 -ERR command\n", b'1 ""\n': b"1 -ERR command\n",
    b'1 begin\n1 SET a ""\n1 GET a\n1 GET ""\n': b"1 +OK\n1 +OK\n1 $0 \n1 -ERR key\n",
    b"1 a b c d\n": b"1 -ERR command\n", b"1 BEGIN\n\n1 BEGIN": b"1 +OK\n1 -ERR open\n",
    b"1 SET k " + b"v" * (VALUE_MAX + 1) + b"\n2 PING\n": b"1 -ERR frame\n2 +PONG\n",
    b"1 BEGIN\n1 SET " + b"k" * (KEY_MAX + 1) + b" v\n": b"1 +OK\n1 -ERR key\n"}


def played(tally, name, script, sectors=4_096, words=()):
    """A script, whose lines are right, prints what the model answers."""
    store, due = Store(sectors), []
    for line in script:
        label, parts = request_of(line)
        due.append(label.encode() + b" " + shown(store.request(label, parts)) + b"\n")
    with tally.run(f"play of {name}"):
        found = run(["play", *words], "".join(line + "\n" for line in script).encode(), seconds=120)
        expect(found[0] == 0 and found[2] == b"", f"it ended with {found[0]}, {found[2]!r}")
        lines = found[1].splitlines(keepends=True)
        wrong = next((i for i, (a, b) in enumerate(zip(lines, due)) if a != b), min(len(lines), len(due)))
        expect(lines == due, f"line {wrong + 1} of {len(due)}: {lines[wrong:wrong + 1]!r:.100}, expected {due[wrong:wrong + 1]!r:.100}")
    return due


def largest_pairs(label="1"):
    for half in range(2):
        yield f"{label} BEGIN"
        for i in range(64 * half, 64 * half + 64):
            yield f"{label} SET {i:03}{'k' * (KEY_MAX - 3)} {'v' * VALUE_MAX}"
        yield f"{label} COMMIT"


def filling(body):
    """A transaction whose record has this many body sectors."""
    count = max(1, min(WRITES_MAX, body // 8))
    lines, left = ["1 BEGIN"], SECTOR * body - 44 - 4 - count * (2 + 2 + 1 + 4)
    for i in range(count):
        size = min(VALUE_MAX, left // (count - i))
        left -= size
        lines.append(f"1 SET {i:02} {'v' * size}")
    return [*lines, "1 COMMIT"]


def log_of_default_size():
    """A script at whose end a log of 4,096 sectors is full: a record that leaves one sector is taken, a larger one isn't."""
    script, place = [], 1
    while place + 500 + 2 < 4_096:
        script += filling(499)
        place += 500
    return [*script, *filling(4_096 - place - 1), *filling(4_096 - place - 2), *filling(1), "1 BEGIN", "1 COMMIT"]


def scripts(tally):
    for name in EXAMPLES:
        script, due = example_files(name)
        with tally.run(f"play of the example {name}"):
            expect_found(run(["play"], script), 0, due)
    with tally.run("the program's stored run, which is an example"):
        stored = []
        for name in ("stdin", "stdout"):
            with open(os.path.join(TOP, "crates", "ssikvd", name), "rb") as file:
                stored.append(file.read())
        expect(tuple(stored) == example_files("snapshot_is_kept"), "crates/ssikvd/stdin and stdout are not the example snapshot_is_kept")
    for script, due in LINES.items():
        with tally.run(f"play of {script[:40]!r}"):
            expect_found(run(["play"], script), 0, due)
    for line in BAD_LINES:
        for before in (b"", b"\n\n", b"1 PING\n\n2 PING\n"):
            with tally.run(f"play of {before + line!r}"):
                number, pongs = before.count(b"\n") + 1, before.replace(b"\n\n", b"\n").strip(b"\n").replace(b"PING", b"+PONG")
                for end in (b"", b"\n1 PING\n"):
                    expect_found(run(["play"], before + line + end), 2, pongs + b"\n" * bool(pongs), f"line {number}: bad line\n")
    crowd = b"".join(b"%d PING\n" % label for label in range(SESSIONS_MAX))
    pongs = crowd.replace(b"PING", b"+PONG")
    with tally.run("play of 128 labels"):
        expect_found(run(["play"], crowd + b"7 PING\n"), 0, pongs + b"7 +PONG\n")
    with tally.run("play of 129 labels"):
        expect_found(run(["play"], crowd + b"\n128 PING\n7 PING\n"), 2, pongs, f"line {SESSIONS_MAX + 2}: crowded\n")
    for sectors, last in ((2, "-FULL log"), (3, "-FULL log"), (4, ":1"), (65_536, ":1")):
        with tally.run(f"play over {sectors} sectors"):
            found = run(["play", "--sectors", str(sectors)], b"1 BEGIN\n1 SET a 1\n1 COMMIT\n")
            expect_found(found, 0, f"1 +OK\n1 +OK\n1 {last}\n")
    due = played(
        tally, "the largest reply", [*largest_pairs(), "2 BEGIN", '2 RANGE 0 "" 128', f"2 GET 000{'k' * (KEY_MAX - 3)}", "2 COMMIT"], 8_192,
        ["--sectors", "8192"])
    with tally.run("the length of the largest reply"):
        expect(len(due[-3]) == LARGEST_REPLY - 2 * 2 * 128 + 1, f"it has {len(due[-3])} bytes")
    for sectors, last in ((36, ":1"), (35, "-FULL log")):
        due = played(tally, f"the largest value over {sectors} sectors", ["1 BEGIN", f"1 SET a {'v' * VALUE_MAX}", "1 COMMIT"], sectors,
                     ["--sectors", str(sectors)])
        expect(due[-1] == f"1 {last}\n".encode(), "the model answers something else")
    played(tally, "a log of 4,096 sectors up to its end", log_of_default_size())
    short = ["1 BEGIN", "1 SET a 1", "2 PING", '1 RANGE a "" 5', "1 ABORT", "1 GET a"]
    played(tally, "a long script", short * (100_000 if is_long() else 5_000))


# Servers

def servers(tally):
    with folder() as place:
        data = os.path.join(place, "data")
        with open(data, "wb") as file:
            file.write(IMAGE)
        for host, text in (("127.0.0.1", "127.0.0.1"), ("0.0.0.0", "0.0.0.0"), ("[::1]", "[::1]")):
            port = free_port()
            with tally.run(f"serve at a port of {host}"), Server(data, listen=f"{host}:{port}") as server:
                ended = server.status() if not server.line else None
                if host == "[::1]" and ended == 3 and server.error_text() == b"ssikvd: listen fault\n":
                    continue    # a machine without it
                expect(server.line == f"listening {text}:{port}\n".encode(), f"it printed {server.line!r}")
    full_log(tally)
    refused_poll(tally, errno.EBADF, b"ssikvd: poll fault\n")
    refused_poll(tally, errno.ENOMEM, OUT_OF_MEMORY)


def full_log(tally):
    """A server over a full log reads, commits what writes nothing, and refuses what writes."""
    with folder() as place, tally.run("serve of a full log"):
        data, log = os.path.join(place, "data"), [[(b"a", b"1")]]
        image, store = log_image(log, 4), Store(4, log)
        with open(data, "wb") as file:
            file.write(image)
        with Server(data) as server, Connection(server.port) as client:
            for line in (
                    "1 BEGIN", "1 GET a", "1 COMMIT", "1 BEGIN", "1 SET a 2", "1 GET a", "1 COMMIT", "1 COMMIT", "1 BEGIN", "1 DEL a",
                    "1 COMMIT", "1 BEGIN", '1 RANGE a "" 5', "1 COMMIT"):
                _, parts = request_of(line)
                due, found = store.request("1", parts), client.ask(frame(*parts))
                expect(found == due, f"{line} was answered {found!r}, expected {due!r}")
        expect(server.line.startswith(b"listening "), f"it printed {server.line!r}")
        with open(data, "rb") as file:
            expect(file.read() == image, "the file was changed")


def refused_poll(tally, error, text):
    """A poll that a signal cuts short changes nothing; one that fails ends the server, with its error's text, and what was committed stands."""
    with folder() as place, tally.run(f"serve with a poll that is refused with {error}"):
        data, refusals = os.path.join(place, "data"), Refusals(place)
        create(data, 8)
        with Server(data, environment=refusals.environment()) as server, Connection(server.port) as client:
            polls, lines = refusals.of(POLL), ("BEGIN", "SET a 1", "COMMIT")
            polls.fail(polls.made + 2, polls.made + 20, errno.EINTR)
            replies = [client.ask(frame(*line.split(" "))) for line in lines]
            expect(replies == [b"+OK\r\n", b"+OK\r\n", b":1\r\n"], f"with polls that were cut short it answered {replies}")
            polls.fail_all(error)
            client.send(frame("PING"))
            found = server.status(), server.error_text()
            expect(found == (3, text), f"it ended with {found}")
        expect(check(data) == (1, 1, 4, 8), "the commit is not there")


# Lines in one write

LONGEST_LINE = 4_096


def expect_lines(pieces, out, what):
    """What was printed left in whole lines."""
    expect(b"".join(pieces) == out, f"{what}: the writes are {pieces}, but {out!r} came")
    lines = out.splitlines(keepends=True)
    if not lines:
        return
    cut = [piece for piece in pieces if not piece.endswith(b"\n") and max(map(len, lines)) <= LONGEST_LINE]
    text = f"{what}: {len(lines)} lines left in {len(pieces)} writes, one of which is {(cut or pieces)[0][-60:]!r}"
    expect(not cut and len(pieces) <= len(lines), text)


def whole_lines(tally):
    """Each line that the program prints leaves in one write."""
    script = b'1 BEGIN\n1 SET a 1\n2 PING\n1 GET a\n1 RANGE a "" 5\n1 COMMIT\n1 GET a\n'
    with folder() as place:
        data = os.path.join(place, "data")
        with open(data, "wb") as file:
            file.write(IMAGE)
        crowd = b"".join(b"%d PING\n" % label for label in range(SESSIONS_MAX + 1))
        lines = ["help", "create --help", "check --data DATA", "check --data missing", "bogus", "create --data DATA --sectors 1",
                 "serve --data DATA --listen 1"]
        runs = [*((line, b"") for line in lines), *(("play", stdin) for stdin in (script, script + b"bad\n", crowd))]
        for number, (line, stdin) in enumerate(runs):
            trace = Trace(place, f"trace{number}")
            with tally.run(f"the writes of {line}, {len(stdin)} bytes of input"):
                _, out, err = run(words_of(line, data), stdin, trace.environment())
                calls = trace.calls()
                expect_lines(printed(calls, 1), out, "output")
                expect_lines(printed(calls, 2), err, "error output")
        trace = Trace(place, "serve")
        with tally.run("the writes of serve"), Server(data, trace.environment()) as server:
            expect(server.is_listening(), f"no server: {server.error_text()!r}")
            with Connection(server.port) as client:
                expect(client.ask(frame("BEGIN")) == OK, "BEGIN was refused")
            expect_lines(printed(trace.calls(), 1), server.line, "output")
        for again in range(30):
            with tally.run(f"the pipe of serve, {again}"), Server(data) as server:
                expect(server.is_listening(), f"no server: {server.error_text()!r}")
                expect(len(server.pieces) == 1, f"its first line came in {len(server.pieces)} pieces")


class Commands(Harness):
    NEEDS = (PROGRAM, SHIM, TRACER)

    def play(self, name, *parts):
        """Plays parts that are counted in a tally of their own."""
        tally = self.begin(name)
        for part in parts:
            part(tally)

    def test_command_lines(self):
        self.play("command lines", command_lines)

    def test_data_files_and_addresses(self):
        self.play(
            "data files and addresses", create_at_bounds, data_files, read_only_copies, worked_log, compactions, late_copies, failing_files, names,
            file_in_folder)

    def test_failing_output(self):
        self.play("output that fails", failing_output)

    def test_scripts(self):
        self.play("scripts", scripts)

    def test_servers(self):
        self.play("servers", servers)

    def test_whole_lines(self):
        self.play("lines in one write", whole_lines)


if __name__ == "__main__":
    run_harness()
