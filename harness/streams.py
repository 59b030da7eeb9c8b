"""Each command with each of its standard streams closed, each pair of them, and all three.

A file that is opened then may get the descriptor of a closed stream, and what the program prints may land in it. So after each run the data file must
be byte for byte what it should be. A command does what it does with all streams open, of which a closed one shows nothing: what it writes there goes
nowhere, and is no fault. A server serves a commit, which is there once it was killed. The faults of the commands, and a store that stops, are played
as well, since their texts could land in the file too.

`long` plays each five times.
"""
import errno
import os
import socket
from itertools import combinations

from ssikvd_harness.arguments import is_long, run_harness
from ssikvd_harness.cases import Harness
from ssikvd_harness.connection import Connection
from ssikvd_harness.deviations import Deviation, expect
from ssikvd_harness.failing_calls import ALL, DEVICE, Refusals
from ssikvd_harness.frames import OK, frame, refusal
from ssikvd_harness.log_format import SECTOR, log_image, sectors_used
from ssikvd_harness.server import STORE_STOPPED, Server, check, folder, free_port, run

STREAMS = ("input", "output", "error output")
CLOSED = [frozenset(chosen) for count in range(4) for chosen in combinations(range(3), count)]
TIMES_OF_LONG = 5
SECTORS = 16
LOG = [[(b"a", b"1"), (b"b", bytes(2_000))], [(b"a", None)]]
MORE = [(b"c", b"3")]
EMPTY, IMAGE, LONGER = (log_image(log, SECTORS) for log in ([], LOG, LOG + [MORE]))
DAMAGED = IMAGE[:2 * SECTOR + 12] + bytes([IMAGE[2 * SECTOR + 12] ^ 1]) + IMAGE[2 * SECTOR + 13:]
COUNTS = b"records 2 keys 1 sectors %d of %d\n" % (sectors_used(LOG), SECTORS)
SCRIPT, PLAYED = b"1 BEGIN\n1 SET a 1\n1 COMMIT\n", b"1 +OK\n1 +OK\n1 :1\n"
CALLS_OF_COMMIT = 5    # body, gate, sync, gate, sync


def shown(closed):
    return " and ".join(STREAMS[stream] for stream in sorted(closed)) + " closed" if closed else "all open"


def expect_end(found, closed, status, out, err):
    """It ended with this status and these texts, as far as the streams are open."""
    due = (status, b"" if 1 in closed else out, b"" if 2 in closed else err)
    expect(found == due, f"it ended with {found}, expected {due}")


def expect_file(data, image):
    """The data file, byte for byte."""
    with open(data, "rb") as file:
        found = file.read()
    at = next((i for i, (a, b) in enumerate(zip(found, image)) if a != b), min(len(found), len(image)))
    expect(found == image, f"from byte {at} on the data file holds {found[at:at + 40]!r}, expected {image[at:at + 40]!r}")


def with_file(image):
    """What runs a command over a data file that holds this, which it must not change."""
    def command(words, out, err, status=0):
        def play(place, closed):
            data = os.path.join(place, "data")
            with open(data, "wb") as file:
                file.write(image)
            try:
                expect_end(run([word.replace("DATA", data) for word in words], closed=closed), closed, status, out, err)
            finally:
                expect_file(data, image)

        return play

    return command


def create(place, closed):
    data = os.path.join(place, "data")
    expect_end(run(["create", "--data", data, "--sectors", str(SECTORS)], closed=closed), closed, 0, b"", b"")
    expect_file(data, EMPTY)


def play(place, closed):
    expect_end(run(["play"], SCRIPT, closed=closed), closed, 0, b"" if 0 in closed else PLAYED, b"")
    expect(os.listdir(place) == [], "it made a file")


def help_text(_, closed):
    due = run(["help"])
    expect(due[0] == 0 and due[1].startswith(b"An ordered store") and not due[2], f"with all open: {due}")
    expect_end(run(["help"], closed=closed), closed, *due)


def taken_address(place, closed):
    """A server at an address that another one listens at."""
    with socket.socket() as other:
        other.bind(("127.0.0.1", 0))
        other.listen()
        words = ["serve", "--data", "DATA", "--listen", "127.0.0.1:%d" % other.getsockname()[1]]
        with_file(IMAGE)(words, b"", b"ssikvd: listen fault\n", 3)(place, closed)


# Servers

def server_over(data, closed, environment=None):
    with open(data, "wb") as file:
        file.write(IMAGE)
    address = "127.0.0.1:%d" % (free_port() if 1 in closed else 0)
    return Server(data, environment, listen=address, closed=closed)


def expect_served(server):
    """It didn't end before it listened."""
    if server.port is None:
        raise Deviation(f"it ended with {(server.status(), server.line, server.error_text())}")


def commit(server, due):
    with Connection(server.port) as client:
        for request, reply in ((frame("BEGIN"), OK), (frame("SET", *MORE[0]), OK), (frame("COMMIT"), due)):
            found = client.ask(request)
            expect(found == reply, f"{request!r} was answered {found!r}, expected {reply!r}")


def serve(place, closed):
    """A server that is killed after its commit."""
    data = os.path.join(place, "data")
    with server_over(data, closed) as server:
        expect_served(server)
        commit(server, b":1\r\n")
        texts = server.error_text()
    expect(texts == b"", f"it wrote {texts!r}")
    expect_file(data, LONGER)
    expect(check(data)[0] == 3, "the commit isn't found")


def stop(first):
    """What stops the store: the calls of a commit, from this one on, fail."""
    def play(place, closed):
        data, refusals = os.path.join(place, "data"), Refusals(place)
        calls = refusals.of(DEVICE)
        with server_over(data, closed, refusals.environment()) as server:
            expect_served(server)
            calls.fail(calls.made + first, ALL, errno.EIO)
            commit(server, refusal("STORE fault"))
            commit_after(server)
            texts = server.error_text()
        expect(texts == (b"" if 2 in closed else STORE_STOPPED), f"it wrote {texts!r}")
        expect_file(data, LONGER if first == CALLS_OF_COMMIT else IMAGE)
        expect(check(data)[0] == (3 if first == CALLS_OF_COMMIT else 2), "another number of records is found")

    return play


def commit_after(server):
    """The turn after the one in which the store stopped, and one more."""
    with Connection(server.port) as client:
        for _ in range(2):
            found = client.ask(frame("BEGIN"))
            expect(found == refusal("STORE stopped"), f"BEGIN was answered {found!r}")


COMMANDS = {
    "create": create,
    "check": with_file(IMAGE)(["check", "--data", "DATA"], COUNTS, b""),
    "play": play,
    "help": help_text,
    "create over a file": with_file(IMAGE)(["create", "--data", "DATA", "--sectors", "16"], b"", b"ssikvd: file fault\n", 3),
    "check of a damaged log": with_file(DAMAGED)(["check", "--data", "DATA"], b"", b"ssikvd: damaged record 0\n", 3),
    "check of no log": with_file(bytes(SECTOR))(["check", "--data", "DATA"], b"", b"ssikvd: not a log\n", 3),
    "serve of a damaged log": with_file(DAMAGED)(
        ["serve", "--data", "DATA", "--listen", "127.0.0.1:0"], b"", b"ssikvd: damaged record 0\n", 3),
    "serve at a taken address": taken_address,
    "serve": serve,
    "serve, whose store stops at a write": stop(1),
    "serve, whose store stops at the last sync": stop(CALLS_OF_COMMIT),
}


class Streams(Harness):
    NAME = "closed streams"

    def test_streams(self):
        for _ in range(TIMES_OF_LONG if is_long() else 1):
            for closed in CLOSED:
                for name, command in COMMANDS.items():
                    with folder() as place, self.tally.run(f"{name}, {shown(closed)}"):
                        command(place, closed)


if __name__ == "__main__":
    run_harness()
