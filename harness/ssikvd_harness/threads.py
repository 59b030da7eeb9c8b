"""Threads whose failures are reported."""
import threading
from collections.abc import Callable
from typing import Any

from .deviations import expect
from .settings import PATIENCE


class Threads:
    """Threads whose failures are reported at the end."""

    def __init__(self) -> None:
        self.threads: list[threading.Thread] = []
        self.failures: list[str] = []

    def start(self, work: Callable[..., object], *arguments: Any) -> None:
        def play() -> None:
            try:
                work(*arguments)
            except Exception as found:    # what went wrong is told by the harness
                self.failures.append(f"{type(found).__name__}: {found}")

        self.threads.append(threading.Thread(target=play, daemon=True))
        self.threads[-1].start()

    def end(self, seconds: float = 6 * PATIENCE) -> None:
        for thread in self.threads:
            thread.join(seconds)
        expect(not self.failures, f"{len(self.failures)} failed, first {self.failures[:1]}")
        expect(not any(thread.is_alive() for thread in self.threads), "some did not end")
