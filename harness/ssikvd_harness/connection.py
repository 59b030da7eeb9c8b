"""Connections to the program."""
from __future__ import annotations

import socket
import struct

from .deviations import Deviation, expect
from .settings import PATIENCE


class Connection:
    """A client. Whole replies are taken out of what came in."""

    def __init__(self, port: int | None, timeout: float = PATIENCE, receive_buffer: int | None = None) -> None:
        expect(port is not None, "no server listens")
        self.socket = socket.socket()
        self.socket.settimeout(timeout)
        if receive_buffer:
            self.socket.setsockopt(socket.SOL_SOCKET, socket.SO_RCVBUF, receive_buffer)
        self.socket.connect(("127.0.0.1", port))
        self.socket.setsockopt(socket.IPPROTO_TCP, socket.TCP_NODELAY, 1)
        self.came = bytearray()
        self.is_closed = False

    def send(self, data: bytes) -> None:
        """Sends it whole, unless the connection is closed."""
        try:
            self.socket.sendall(data)
        except (BrokenPipeError, ConnectionResetError):
            self.is_closed = True

    def _more(self) -> bool:
        """Did more bytes come? None will where the connection is closed."""
        try:
            piece = self.socket.recv(1 << 16)
        except (ConnectionResetError, BrokenPipeError):
            piece = b""
        except socket.timeout:
            raise Deviation(f"no reply in time, after {bytes(self.came[:60])!r}") from None
        self.came += piece
        self.is_closed = not piece
        return bool(piece)

    def _line_end(self, at: int) -> int | None:
        """The place after the line that begins here; None where it was cut off."""
        while True:
            end = self.came.find(b"\r\n", at)
            if end >= 0:
                return end + 2
            if not self._more():
                return None

    def _bulk_end(self, at: int) -> int | None:
        end = self._line_end(at)
        if end is None:
            return None
        expect(self.came[at] == ord("$"), f"no bulk: {bytes(self.came[at:at + 20])!r}")
        length = int(self.came[at + 1:end - 2])
        if length >= 0:
            end += length + 2
        while len(self.came) < end:
            if not self._more():
                return None
        return end

    def reply(self) -> bytes | None:
        """The next reply's bytes; None where the connection was closed before a byte of it."""
        end = self._line_end(0)
        if end is not None and self.came[:1] == b"*":
            for _ in range(int(self.came[1:end - 2])):
                end = self._bulk_end(end)
                if end is None:
                    break
        elif end is not None and self.came[:1] == b"$":
            end = self._bulk_end(0)
        if end is None:
            expect(not self.came, f"closed within a reply: {bytes(self.came[:60])!r}")
            return None
        reply = bytes(self.came[:end])
        del self.came[:end]
        return reply

    def ask(self, request: bytes) -> bytes | None:
        """Sends a request and waits for its reply."""
        self.send(request)
        return self.reply()

    def rest(self) -> bytes:
        """All that comes until the connection is closed."""
        while self._more():
            pass
        rest = bytes(self.came)
        self.came.clear()
        return rest

    def reset(self) -> None:
        """Closes the connection at once, so that the other side finds it reset."""
        self.socket.setsockopt(socket.SOL_SOCKET, socket.SO_LINGER, struct.pack("ii", 1, 0))
        self.socket.close()

    def close(self) -> None:
        self.socket.close()

    def __enter__(self) -> Connection:
        return self

    def __exit__(self, *_: object) -> None:
        self.close()
