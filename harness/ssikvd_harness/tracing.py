"""The system's calls of a process, as the library of trace.c writes them down."""
import os
import struct
from collections.abc import Iterable
from dataclasses import dataclass

from .settings import TRACER, bytes_of

OPEN, WRITE, WRITE_AT, READ_AT, SYNC, SYNC_DATA, CLOSE, REMOVE, TRUNCATE, SEND, ADVISE, RECEIVE, MEMORY, SYNC_NAMES = range(14)
NAMES = ("open", "write", "write at", "read at", "sync", "sync of data", "close", "remove", "truncate", "send", "advise", "receive",
         "memory", "sync of names")


@dataclass(frozen=True)
class Call:
    """A call: its kind, descriptor, place and result, and the bytes that it moved out, or its path. `SYNC_NAMES` is the sync of a directory,
    which a reader of the calls tells from that of a file."""

    kind: int
    file: int
    at: int
    result: int
    data: bytes

    def __str__(self) -> str:
        return f"{NAMES[self.kind]} {self.at} {self.data[:24]!r}, which gave {self.result}"


class Trace:
    """The calls of the processes that run in its environment."""

    HEAD = struct.Struct("=5q")

    def __init__(self, place: str, name: str = "trace", skips_sync: bool = False, traces_memory: bool = False) -> None:
        self.name, self.skips_sync, self.traces_memory = os.path.join(place, name), skips_sync, traces_memory

    def environment(self) -> dict[str, str]:
        more = {"TRACE_SKIP": "fdatasync"} if self.skips_sync else {}
        more |= {"TRACE_MEMORY": "1"} if self.traces_memory else {}
        return {**os.environ, "LD_PRELOAD": TRACER, "TRACE_LOG": self.name, **more}

    def calls(self) -> list[Call]:
        """All calls so far, in their order."""
        content = bytes_of(self.name)
        calls, at = [], 0
        while at < len(content):
            kind, file, place, result, size = self.HEAD.unpack_from(content, at)
            at += self.HEAD.size
            calls.append(Call(kind, file, place, result, content[at:at + size]))
            at += size
        return calls


def printed(calls: Iterable[Call], file: int) -> list[bytes]:
    """What was written on a descriptor, call by call."""
    return [call.data for call in calls if call.kind == WRITE and call.file == file]
