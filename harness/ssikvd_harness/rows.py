"""Worked examples, read from the folder examples: each line is a session's label with a request, and the reply as `play` prints it."""
import os

from .model import Store
from .settings import TOP, bytes_of

Row = list[tuple[str, str]]    # each line with its reply
FOLDER = os.path.join(TOP, "examples")
EXAMPLES = sorted(name.removesuffix(".play") for name in os.listdir(FOLDER) if name.endswith(".play"))


def example_files(name: str) -> tuple[bytes, bytes]:
    """What `play` reads of an example, and what it prints."""
    return bytes_of(os.path.join(FOLDER, f"{name}.play")), bytes_of(os.path.join(FOLDER, f"{name}.out"))


def example(name: str) -> Row:
    """An example of the folder, line by line."""
    script, due = (content.decode().splitlines() for content in example_files(name))
    return [(line, reply.split(" ", 1)[1]) for line, reply in zip(script, due, strict=True)]


ROWS = {
    name: example(name) for name in (
        "first_committer_wins", "write_skew", "reader_finds_a_committed_pivot", "sixty_four_writes", "deleted_key", "range_over_own_writes")}


def request_of(line: str) -> tuple[str, list[bytes]]:
    """The label and the parts of a line."""
    label, *words = line.split(" ")
    return label, [b"" if word == '""' else word.encode() for word in words]


def shown(reply: bytes) -> bytes:
    """A reply on one line, as `play` prints it."""
    return reply[:-2].replace(b"\r\n", b" ")


def script_of(row: Row) -> tuple[bytes, bytes]:
    """The lines that `play` reads, and those that it prints."""
    lines = "".join(line + "\n" for line, _ in row)
    due = "".join(f"{line.split(' ')[0]} {reply}\n" for line, reply in row)
    return lines.encode(), due.encode()


def model_agrees(row: Row) -> bool:
    """Does the model give the row's replies?"""
    store = Store()
    return all(shown(store.request(*request_of(line))) == reply.encode() for line, reply in row)
