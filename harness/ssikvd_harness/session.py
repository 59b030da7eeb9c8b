"""A connection whose replies are compared with the model."""
from collections.abc import Hashable, Sequence

from .connection import Connection
from .deviations import expect
from .frames import frame
from .model import Store
from .server import Server


class Session:
    """A connection to a server, and the session of the model that asks the same."""

    def __init__(self, server: Server, store: Store, name: Hashable) -> None:
        self.connection, self.store, self.name = Connection(server.port), store, name

    def ask(self, parts: Sequence[bytes]) -> bytes:
        """The reply to a request, which is the model's."""
        reply = self.connection.ask(frame(*parts)) or b"closed"
        due, shown = self.store.request(self.name, parts), b" ".join(part[:8] for part in parts)
        expect(reply == due, f"{shown!r}: {reply[:60]!r}, expected {due[:60]!r}")
        return reply
