"""The table of frames in docs/PROTOCOL.md, row by row, by the model and by `serve`.

Each row names bytes and says what they are. A client sends them and no more: a proper prefix of a request is answered nothing, broken bytes are
answered `-ERR frame`, and a request gets one other reply. The model says how many parts and bytes a request has. A row that says anything else
is a deviation, so no row stands there untried. False rows show that both would notice. Then the table of replies: requests whose replies
are its bytes, in its order.
"""
import os
import re
import socket

from ssikvd_harness.arguments import run_harness
from ssikvd_harness.cases import Harness
from ssikvd_harness.connection import Connection
from ssikvd_harness.deviations import expect
from ssikvd_harness.frames import BROKEN_FRAME, Broken, decode, frame
from ssikvd_harness.limits import FRAME_MAX, VALUE_MAX
from ssikvd_harness.server import Server, folder, fresh
from ssikvd_harness.settings import PROGRAM, TOP

DOCUMENT = os.path.join(TOP, "docs", "PROTOCOL.md")
COUNTS = {"one": 1, "two": 2, "three": 3, "four": 4}
# Rows that are false; each must be refused, by the model and by the program.
FALSE_ROWS = (
    (b"*1\r\n$4097", "broken"), (b"*1\r\n$16385", "a proper prefix of a request"), (b"*1\r\n$5\r\nBEGIN\r\n", "broken"),
    (b"*1\r\n$5\r\nBEGIN\r\n", "a proper prefix of a request"), (b"*1\r\n$5\r\nBEGIN", "a request of one part, 13 bytes"))


def bytes_of(text):
    """The bytes that a cell of the table shows."""
    return b"" if text == "(none)" else text.strip("`").replace("\\r", "\r").replace("\\n", "\n").encode()


def rows():
    """The bytes of the table, each with what the document says of it."""
    with open(DOCUMENT, encoding="utf-8") as file:
        table = re.search(r"^\| Bytes \| What they are \|\n\|---\|---\|\n((?:\|.*\n)+)", file.read(), re.M)
    expect(table, "PROTOCOL.md has no table of frames")
    for line in table[1].splitlines():
        cell, said = (text.strip() for text in line.strip("| ").split(" | "))
        for text in cell.split(", "):
            yield bytes_of(text), said


def by_model(data):
    """What the model says of bytes, in the table's words."""
    try:
        found = decode(data)
    except Broken:
        return "broken"
    if found is None:
        return "a proper prefix of a request"
    parts, length = found
    expect(length == len(data), f"{data!r}: the request ends at {length}")
    return f"{len(parts)} parts, {length} bytes"


def in_numbers(said):
    """What the document says, with the numbers as the model gives them."""
    asked = re.fullmatch(r"a request of (\w+)(?: empty)? parts?, (\d+) bytes", said)
    return f"{COUNTS[asked[1]]} parts, {asked[2]} bytes" if asked else said.split(":")[0]


def by_program(port, data):
    """What the program makes of bytes after which the client sends no more: by what comes until the connection is closed."""
    with Connection(port) as client:
        client.send(data)
        client.socket.shutdown(socket.SHUT_WR)
        replies = client.rest()
    if replies in (b"", BROKEN_FRAME):
        return "broken" if replies else "a proper prefix of a request"
    expect(replies.count(b"\r\n") == 1, f"{data!r}: answered {replies!r}")
    return "a request"


def agree(port, data, said):
    """The model and the program say of bytes what the document does."""
    due = in_numbers(said)
    found = by_model(data)
    expect(found == due, f"{data!r} is {found}, PROTOCOL.md says {said}")
    found = by_program(port, data)
    expect(found == (due if due in ("broken", "a proper prefix of a request") else "a request"), f"{data!r} was taken as {found}, expected {due}")


def is_refused(port, data, said):
    """Do both contradict a false row?"""
    due = in_numbers(said)
    kind = due if due in ("broken", "a proper prefix of a request") else "a request"
    return by_model(data) != due and by_program(port, data) != kind


# What is asked for each row of the table of replies, in the seventh transaction that commits.
WRITES = (("a", "1"), ("b", "22"), ("v", "ab"), ("w", ""))
ASKED = {
    "done": [("SET", *write) for write in WRITES],
    "a value": [("GET", "v"), ("GET", "w"), ("GET", "x")],
    "pairs": [("RANGE", "a", "c", "10"), ("RANGE", "x", "y", "10")],
    "a refusal": [("BEGIN",)],
    "a number": [("COMMIT",)],
}


def reply_rows():
    """The rows of the table of replies: the form, and the bytes that it names."""
    with open(DOCUMENT, encoding="utf-8") as file:
        table = re.search(r"^\| Form \| Bytes \|\n\|---\|---\|\n((?:\|.*\n)+)", file.read(), re.M)
    expect(table, "PROTOCOL.md has no table of replies")
    rows = [line.strip("| ").split(" | ") for line in table[1].splitlines()]
    return {form: [bytes_of(text) for text in re.findall(r"`[^`]*`", cell)] for form, cell in rows}


def replies(port):
    """The replies of the program by form, each once where they are alike."""
    found = {}
    with Connection(port) as client:
        for _ in range(6):
            expect([client.ask(frame(name)) for name in ("BEGIN", "COMMIT")][0] == b"+OK\r\n", "BEGIN was refused")
        client.ask(frame("BEGIN"))
        for form, requests in ASKED.items():
            found[form] = list(dict.fromkeys(client.ask(frame(*request)) for request in requests))
    return found


def agree_on_replies(port):
    due, found = reply_rows(), replies(port)
    due["a refusal"] = [bytes.replace(text, b"text", b"ERR open") for text in due.get("a refusal", [])]
    expect(found == due, f"the replies are {found}, PROTOCOL.md says {due}")


def largest_frame():
    """The largest frame has as many bytes as the document says, and so has a value."""
    largest = frame(*[bytes(VALUE_MAX)] * 4)
    with open(DOCUMENT, encoding="utf-8") as file:
        text = file.read()
    expect(len(largest) == FRAME_MAX and f"The largest frame has {FRAME_MAX:,} bytes" in text, f"the largest frame has {len(largest)} bytes")
    expect(f"L from 0 to {VALUE_MAX:,}" in text, "a value has another bound")


class Frames(Harness):
    NAME = "frames"
    NEEDS = (PROGRAM,)

    def test_frames(self):
        with folder() as place, Server(fresh(place, 16)) as server:
            expect(server.is_listening(), f"no server: {server.error_text()!r}")
            for content, said in rows():
                with self.tally.run(f"{content!r}"):
                    agree(server.port, content, said)
            for content, said in FALSE_ROWS:
                with self.tally.run(f"the false row {content!r}"):
                    expect(is_refused(server.port, content, said), f"{content!r} is taken for {said}")
            with self.tally.run("the replies"):
                agree_on_replies(server.port)

    def test_bounds(self):
        with self.tally.run("the bounds"):
            largest_frame()


if __name__ == "__main__":
    run_harness()
