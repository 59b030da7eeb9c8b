"""The calls of the program that fail: which ones, the library of refuse.c reads in a file that a harness shares with it."""
import contextlib
import errno
import mmap
import os
import struct
from collections.abc import Iterator

from .server import Server, create, folder
from .settings import SHIM

ALL = 2 ** 64 - 1
NOTHING = 2 ** 32
LATE = 2 ** 33

KINDS = range(7)
MEMORY, DEVICE, RECEIVE, SEND, ACCEPT, POLL, OPENING = KINDS


class Calls:
    """The calls of one kind that a process makes: how many there were, and which fail."""

    SIZE = 40

    def __init__(self, shared: mmap.mmap, kind: int) -> None:
        self.shared, self.place = shared, self.SIZE * kind
        self.pass_on()

    def _get(self, at: int) -> int:
        number: int = struct.unpack_from("=Q", self.shared, self.place + 8 * at)[0]
        return number

    def _put(self, at: int, number: int) -> None:
        struct.pack_into("=Q", self.shared, self.place + 8 * at, number)

    @property
    def made(self) -> int:
        return self._get(0)

    @property
    def failed(self) -> int:
        return self._get(1)

    def fail(self, first: int, last: int | None = None, error: int = errno.ENOMEM) -> None:
        """The calls from the first to the last, counted from 1, fail with this error; where it is 0 they move one byte, where it is
        NOTHING none, and where it is LATE all, but 1.2 seconds late."""
        self._put(3, 0)
        self._put(2, first)
        self._put(4, error)
        self._put(3, last or first)

    def fail_all(self, error: int = errno.ENOMEM) -> None:
        self.fail(1, ALL, error)

    def pass_on(self) -> None:
        self._put(3, 0)


class Refusals:
    """The calls of a process, by kind, which the shim shares."""

    def __init__(self, folder_name: str) -> None:
        self.name = os.path.join(folder_name, "refusals")
        self.held_at = Calls.SIZE * len(KINDS)
        size = self.held_at + 16
        with open(self.name, "wb") as file:
            file.write(bytes(size))
        with open(self.name, "r+b") as file:
            self.shared = mmap.mmap(file.fileno(), size)
        self.kinds = [Calls(self.shared, kind) for kind in KINDS]

    def of(self, kind: int) -> Calls:
        return self.kinds[kind]

    def held(self) -> int:
        """How many bytes of memory the process holds."""
        return self._signed(self.held_at)

    def most(self) -> int:
        """How many it held at most."""
        return self._signed(self.held_at + 8)

    def _signed(self, place: int) -> int:
        number: int = struct.unpack_from("=q", self.shared, place)[0]
        return number

    def environment(self) -> dict[str, str]:
        return {**os.environ, "LD_PRELOAD": SHIM, "REFUSE_CONTROL": self.name}


@contextlib.contextmanager
def refusing_server(sectors: int) -> Iterator[tuple[Server, Refusals]]:
    """A server over a new file of this many sectors, and those of its calls that may fail."""
    with folder() as place:
        data, refusals = os.path.join(place, "data"), Refusals(place)
        create(data, sectors)
        with Server(data, refusals.environment()) as server:
            yield server, refusals
