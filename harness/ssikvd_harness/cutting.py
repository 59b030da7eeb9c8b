"""What stands between a client and a server, or in the place of one: proxies that cut connections, and answers by a script."""
import collections
import contextlib
import random
import socket
import threading
import time
from collections.abc import Iterator, Mapping, Sequence
from typing import Any

from .connection import Connection
from .deviations import Deviation
from .frames import OK, PONG, bulk, decode, pairs, refusal


def requests_of(client: socket.socket) -> Iterator[tuple[bytes, bytes]]:
    """The requests that come from a client, with their names."""
    came = b""
    while piece := client.recv(1 << 16):
        came += piece
        while found := decode(came):
            yield found[0][0], came[:found[1]]
            came = came[found[1]:]


class Cutting:
    """A proxy that cuts connections: before a COMMIT is passed on, or after it, before its reply comes back."""

    def __init__(self, port: int | None, chance: random.Random, share: float) -> None:
        self.port, self.chance, self.share, self.cuts = port, chance, share, 0
        self.listener = socket.create_server(("127.0.0.1", 0))
        self.own_port: int = self.listener.getsockname()[1]
        threading.Thread(target=self._accept, daemon=True).start()

    def _accept(self) -> None:
        while True:
            try:
                client, _ = self.listener.accept()
            except OSError:
                return
            threading.Thread(target=self._carry, args=(client,), daemon=True).start()

    def _carry(self, client: socket.socket) -> None:
        try:
            with client, socket.create_connection(("127.0.0.1", self.port or 0)) as server:
                while True:
                    request = client.recv(1 << 16)
                    is_cut = b"COMMIT" in request and self.chance.random() < self.share
                    self.cuts += is_cut
                    if not request or is_cut and self.chance.random() < 0.3:
                        return
                    server.sendall(request)
                    if is_cut and self.chance.random() < 0.5:
                        return    # at once, so that the COMMIT may still be under way
                    reply = server.recv(1 << 16)
                    if is_cut or not reply:
                        return
                    client.sendall(reply)
        except OSError:
            pass

    def close(self) -> None:
        self.listener.close()


class Proxy(Cutting):
    """Passes on one request after another, and cuts some connections: before a COMMIT is passed on, after it, or amid a transaction."""

    def __init__(self, port: int | None, share: float) -> None:
        super().__init__(port, random.Random(7), share)
        self.firsts: set[bytes] = set()
        self.names: collections.Counter[bytes] = collections.Counter()
        self.refusals: collections.Counter[bytes] = collections.Counter()
        self.counting = threading.Lock()
        self.most = float("inf")    # so many COMMITs are passed on, and further ones wait until there may be more

    def _carry(self, client: socket.socket) -> None:
        with contextlib.suppress(OSError, Deviation), client, Connection(self.port) as server:
            before = None
            for name, request in requests_of(client):
                if before is None:
                    self.firsts.add(name)
                if not self._pass_on(name, request, before, client, server):
                    return
                before = name

    def _pass_on(self, name: bytes, request: bytes, before: bytes | None, client: socket.socket, server: Connection) -> bool:
        """Passes on a request and its reply. Is the connection still whole? A transaction that only reads one key is left alone."""
        is_cut = name == b"COMMIT" and before == b"SET" and self.chance.random() < self.share
        with self.counting:
            self.names[name] += 1
            self.cuts += is_cut
        while name == b"COMMIT" and self.names[name] > self.most:
            time.sleep(0.002)
        if is_cut and self.chance.random() < 0.3:
            return False
        server.send(request)
        if is_cut and self.chance.random() < 0.5:
            return False    # at once, so that the COMMIT may still be under way
        reply = server.reply()
        if is_cut or reply is None:
            return False
        with self.counting:
            self.refusals[reply] += reply[:1] == b"-"
        client.sendall(reply)
        return not (name == before == b"GET" and self.chance.random() < self.share / 3)


CLOSE, SILENCE = object(), object()
PIVOT = refusal("CONFLICT pivot 7")
USUAL = {b"PING": PONG, b"BEGIN": OK, b"GET": bulk(None), b"SET": OK, b"DEL": OK, b"RANGE": pairs([]), b"COMMIT": b":1\r\n", b"ABORT": OK}


class Scripted:
    """Answers each request by the next answer for its name, the last one again and again; a name without answers as the store would.

    An answer is bytes, a list of pieces, CLOSE for a closed connection, SILENCE for none. What was asked is counted by its name."""

    def __init__(self, answers: Mapping[str, Sequence[Any]]) -> None:
        self.answers = {name.encode(): list(given) for name, given in answers.items()}
        self.asked: collections.Counter[str] = collections.Counter()
        self.listener = socket.create_server(("127.0.0.1", 0), backlog=64)
        self.port: int = self.listener.getsockname()[1]
        self.open: list[socket.socket] = []
        threading.Thread(target=self._accept, daemon=True).start()

    def _accept(self) -> None:
        with contextlib.suppress(OSError):
            while True:
                self.open.append(self.listener.accept()[0])
                threading.Thread(target=self._serve, args=(self.open[-1],), daemon=True).start()

    def _serve(self, stream: socket.socket) -> None:
        with contextlib.suppress(OSError), stream:
            stream.setsockopt(socket.IPPROTO_TCP, socket.TCP_NODELAY, 1)
            for name, _ in requests_of(stream):
                self.asked[name.decode()] += 1
                given = self.answers.get(name)
                answer = USUAL[name] if not given else given.pop(0) if len(given) > 1 else given[0]
                if answer is CLOSE:
                    return
                for piece in [] if answer is SILENCE else answer if isinstance(answer, list) else [answer]:
                    stream.sendall(piece)
                    time.sleep(0.001 if isinstance(answer, list) else 0)

    def close(self) -> None:
        self.listener.close()
        for stream in self.open:
            stream.close()
