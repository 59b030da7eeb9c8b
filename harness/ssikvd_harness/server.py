"""The program from outside: its commands, and a running `serve`."""
from __future__ import annotations

import contextlib
import os
import random
import select
import shutil
import socket
import subprocess
import tempfile
import time
from collections.abc import Callable, Iterable, Iterator, Sequence
from typing import IO

from . import settings
from .deviations import expect
from .settings import PATIENCE

OUT_OF_MEMORY = b"ssikvd: out of memory\n"
DEVICE_FAULT = b"ssikvd: device fault\n"
FILE_FAULT = b"ssikvd: file fault\n"
STORE_STOPPED = b"ssikvd: store stopped\n"
Environment = dict[str, str]
Ended = tuple[int, bytes, bytes]    # of a command the status, the output and the error output


@contextlib.contextmanager
def folder(place: str | None = None) -> Iterator[str]:
    """A folder that is removed at the end, in this place or where temporary files are."""
    name = tempfile.mkdtemp(prefix="ssikvd-harness-", dir=place)
    try:
        yield name
    finally:
        shutil.rmtree(name, ignore_errors=True)


def run(words: Sequence[str | bytes], stdin: bytes = b"", environment: Environment | None = None, closed: Iterable[int] = (),
        seconds: float = PATIENCE) -> Ended:
    """A command that ends by itself, some of whose standard streams may be closed: its status, output and error output."""
    ran = subprocess.run(
        [settings.PROGRAM, *words], input=stdin, capture_output=True, env=environment, timeout=seconds, preexec_fn=closing(closed))
    return ran.returncode, ran.stdout, ran.stderr


def closing(descriptors: Iterable[int]) -> Callable[[], None] | None:
    """What closes these descriptors in a new process, before the program runs in it."""
    def close() -> None:
        for descriptor in descriptors:
            os.close(descriptor)

    return close if descriptors else None


LEAST_PORT = 10_000


def ports_of_nobody() -> list[int]:
    """The ports that the system gives to no connection by itself, without those that are often taken."""
    with open("/proc/sys/net/ipv4/ip_local_port_range", encoding="ascii") as file:
        first, last = map(int, file.read().split())
    return [*range(LEAST_PORT, first), *range(last + 1, 65_536)]


def free_port() -> int:
    """A port of 127.0.0.1 that nothing listens at now, and that no connection takes before a server does, where there are such ports."""
    ports = ports_of_nobody()
    for port in (*random.SystemRandom().sample(ports, min(len(ports), 100)), 0):
        with socket.socket() as probe, contextlib.suppress(OSError):
            probe.bind(("127.0.0.1", port))
            found: int = probe.getsockname()[1]
            return found
    raise OSError("no port is free")


def memory_of(process: int, name: str) -> int:
    """A line of the status of a process, in bytes, such as VmHWM."""
    with open(f"/proc/{process}/status", encoding="ascii") as file:
        return next(1_024 * int(line.split()[1]) for line in file if line.startswith(name + ":"))


def processor_seconds_of(process: int) -> float:
    """The CPU time of a process, without that of its children."""
    with open(f"/proc/{process}/stat", encoding="ascii") as file:
        fields = file.read().rsplit(")", 1)[1].split()
    return (int(fields[11]) + int(fields[12])) / os.sysconf("SC_CLK_TCK")


def create(data: str, sectors: int) -> None:
    found = run(["create", "--data", data, "--sectors", str(sectors)], seconds=6 * PATIENCE)
    expect(found == (0, b"", b""), f"create answered {found}")


def fresh(place: str, sectors: int = 131_072) -> str:
    """A new data file in this folder, of 64 MiB where nothing else is said."""
    data = os.path.join(place, "data")
    create(data, sectors)
    return data


def check(data: str) -> tuple[int, ...]:
    """The counts that `check` prints: records, keys, sectors used, sectors."""
    status, out, err = run(["check", "--data", data])
    words = out.decode(errors="replace").split()
    fits = len(words) == 8 and words[0::2] == ["records", "keys", "sectors", "of"] and all(w.isdigit() for w in words[1::2])
    expect(status == 0 and not err and fits, f"check answered {(status, out, err)}")
    return tuple(int(w) for w in words[1::2])


def first_line(output: IO[bytes], pieces: list[bytes], seconds: float = PATIENCE) -> bytes:
    """The first line that a process prints, of which each piece that was read is kept; less where it ends, or where the time is over."""
    end = time.monotonic() + seconds
    while not pieces or not pieces[-1].endswith(b"\n"):
        ready, _, _ = select.select([output], [], [], max(0.0, end - time.monotonic()))
        piece = os.read(output.fileno(), 4_096) if ready else b""
        if not piece:
            break
        pieces.append(piece)
    return b"".join(pieces)


def address_of(line: bytes) -> str | None:
    """The address at which a server listens that printed this line first; None where it says none."""
    words = line.decode(errors="replace").split()
    return words[1] if line.endswith(b"\n") and len(words) == 2 and words[0] == "listening" else None


class Server:
    """A running `serve`. It is ended by its own handle. Standard streams of its may be closed; where its output is, the address must
    name a port."""

    def __init__(self, data: str, environment: Environment | None = None, limit: Callable[[], None] | None = None,
                 listen: str = "127.0.0.1:0", closed: Iterable[int] = ()) -> None:
        words = [settings.PROGRAM, "serve", "--data", data, "--listen", listen]
        close = closing(closed)

        def before() -> None:
            for change in (limit, close):
                if change:
                    change()

        self.errors = tempfile.TemporaryFile()
        self.process = subprocess.Popen(
            words, stdin=subprocess.DEVNULL, stdout=subprocess.PIPE, stderr=self.errors, env=environment,
            preexec_fn=before if limit or close else None)
        assert self.process.stdout
        self.output = self.process.stdout
        self.pieces: list[bytes] = []
        self.line = first_line(self.output, self.pieces)
        self.port = int(self.line.rsplit(b":", 1)[1]) if self.is_listening() else None
        if 1 in closed:
            self.port = self._port_that_answers(int(listen.rsplit(":", 1)[1]))

    def _port_that_answers(self, port: int) -> int | None:
        """This port, once a client is served; None where the server has ended."""
        end = time.monotonic() + PATIENCE
        while self.is_alive() and time.monotonic() < end:
            with socket.socket() as probe, contextlib.suppress(OSError):
                probe.settimeout(PATIENCE)
                probe.connect(("127.0.0.1", port))
                probe.sendall(b"*1\r\n$4\r\nPING\r\n")
                if probe.recv(100) == b"+PONG\r\n":
                    return port
            time.sleep(0.01)
        return None

    def is_listening(self) -> bool:
        return self.line.startswith(b"listening 127.0.0.1:") and self.line.endswith(b"\n")

    def is_alive(self) -> bool:
        return self.process.poll() is None

    def status(self) -> int | None:
        """The exit status of a server that ended by itself."""
        try:
            return self.process.wait(PATIENCE)
        except subprocess.TimeoutExpired:
            return None

    def error_text(self) -> bytes:
        self.errors.seek(0)
        return self.errors.read()

    def memory(self, name: str) -> int:
        """A line of the process's status, in bytes, such as VmHWM."""
        return memory_of(self.process.pid, name)

    def descriptors(self) -> int:
        """How many descriptors the process has."""
        return len(os.listdir(f"/proc/{self.process.pid}/fd"))

    def processor_seconds(self) -> float:
        return processor_seconds_of(self.process.pid)

    def kill(self) -> None:
        if self.is_alive():
            self.process.kill()
        self.process.wait()
        self.output.close()
        self.errors.close()

    def __enter__(self) -> Server:
        return self

    def __exit__(self, *_: object) -> None:
        self.kill()
