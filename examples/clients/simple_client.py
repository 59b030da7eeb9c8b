"""A client of ssikvd over one connection, with nothing but Python's own library."""
import contextlib
import random
import socket
import time


class Refused(Exception):
    """The server refused a request; the text says why."""


class Again(Refused):
    """COMMIT met a conflict, or 64 transactions are open. Nothing was written: begin again."""


class Lost(Exception):
    """The connection is gone, and its transaction with it. What became of a COMMIT under way is unknown."""


class Client:
    def __init__(self, port, host="127.0.0.1", timeout=30):
        self.socket = socket.create_connection((host, port), timeout)
        self.socket.setsockopt(socket.IPPROTO_TCP, socket.TCP_NODELAY, 1)
        self.replies = self.socket.makefile("rb")

    def ask(self, *parts):
        """Sends one request and gives its reply: bytes, None, a number, or a list of bytes."""
        parts = [part if isinstance(part, bytes) else str(part).encode() for part in parts]
        try:
            self.socket.sendall(b"*%d\r\n" % len(parts) + b"".join(b"$%d\r\n%s\r\n" % (len(part), part) for part in parts))
            return self._reply()
        except OSError as error:
            raise Lost(str(error)) from None

    def _reply(self):
        line = self.replies.readline()
        kind, text = line[:1], line[1:-2]
        if not line.endswith(b"\r\n"):
            raise Lost("the server closed the connection")
        if kind == b"-":
            raise (Again if text.startswith(b"CONFLICT") or text == b"FULL transactions" else Refused)(text.decode())
        if kind == b"*":
            return [self._reply() for _ in range(int(text))]
        if kind == b"$" and text != b"-1":
            data = self.replies.read(int(text) + 2)
            if len(data) < int(text) + 2:
                raise Lost("the server closed the connection")
            return data[:-2]
        return {b":": int, b"$": lambda none: None}.get(kind, bytes)(text)

    def close(self):
        self.replies.close()
        self.socket.close()

    def transact(self, work, tries=1_000):
        """Runs work(self) in a transaction until COMMIT is answered a number, and gives what the work gave."""
        for turn in range(tries):
            try:
                self.ask("BEGIN")
                result = work(self)
                self.ask("COMMIT")
                return result
            except Again:
                time.sleep(random.uniform(0, 0.001 * 2 ** min(turn, 6)))    # so that two do not meet again and again
            except BaseException:
                with contextlib.suppress(Refused, Lost):
                    self.ask("ABORT")
                raise
        raise Again(f"{tries} times in a row")
