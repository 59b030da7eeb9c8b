"""Programs in other languages: commands of a shell, the client packages of the folder clients, and a run of such a client over a proxy."""
from __future__ import annotations

import copy as copies
import os
import re
import signal
import subprocess
import time
from collections.abc import Callable
from typing import Any, Protocol

from .connection import Connection
from .cutting import Proxy
from .deviations import expect
from .frames import FULL, OK, frame
from .limits import OPEN_MAX
from .server import Server, fresh
from .settings import OUT, PATIENCE, TOP

CLIENTS = os.path.join(TOP, "clients")
WORKERS = 8
ENVIRONMENT = {**os.environ, "GOCACHE": os.path.join(OUT, "go"), "PYTHONDONTWRITEBYTECODE": "1"}


def shell(command: str, place: str, seconds: float = 15 * PATIENCE) -> tuple[int, str, str]:
    """What the command printed in this folder, and its status."""
    ran = subprocess.run(["bash", "-c", command], cwd=place, env=ENVIRONMENT, capture_output=True, text=True, timeout=seconds)
    return ran.returncode, ran.stdout, ran.stderr


class Package:
    """A package: its folder, what ends with status 0 where its language is there, and its commands, which are run in a copy of its folder.

    The version is a file and a pattern. `first` runs the file of that name that the package's README shows first."""

    copy: str    # the folder of the copy

    def __init__(self, name: str, place: str, probe: str, needs: str, version: tuple[str, str], sources: str, run: str, test: str | None = None,
                 first: str | None = None, build: str | None = None) -> None:
        self.name, self.place, self.probe, self.needs, self.version, self.sources = name, place, probe, needs, version, sources
        self.run, self.test, self.first, self.build = run, test, first, build

    def is_there(self) -> bool:
        return shell(self.probe, TOP)[0] == 0

    def job(self, port: int | None, *words: str) -> subprocess.Popen[str]:
        """The program doing a job, as a process. It is a group of its own, with its workers, where those are processes."""
        command = f"exec env {self.run} 127.0.0.1:{port} " + " ".join(words)
        return subprocess.Popen(["bash", "-c", command], cwd=os.path.join(self.copy, self.place), env={**os.environ, "PYTHONDONTWRITEBYTECODE": "1"},
                                stdout=subprocess.PIPE, stderr=subprocess.PIPE, text=True, start_new_session=True)

    def of(self, copy: str) -> Package:
        """The same package in another copy."""
        other = copies.copy(self)
        other.copy = copy
        return other

    def start(self, copy: str, port: int | None, times: int) -> subprocess.Popen[str]:
        return self.job(port, "count", "visits", str(WORKERS), str(times))


PACKAGES = [
    Package("Python", "python", "python3 -c 'import asyncio; asyncio.timeout'", "Python 3.11", ("pyproject.toml", r'^version = "(.*)"$'),
            r"src/ssikvd/\w+\.py", "PYTHONPATH=src python3 harness.py", "PYTHONPATH=src python3 -m unittest discover -s tests",
            "PYTHONPATH=src python3 first.py"),
    Package("Python, asyncio", "python", "python3 -c 'import asyncio; asyncio.timeout'", "Python 3.11",
            ("src/ssikvd/__init__.py", r'^__version__ = "(.*)"$'), r"src/ssikvd/\w+\.py", "PYTHONPATH=src python3 harness.py aio"),
    Package("JavaScript", "javascript", "node -e 'process.exit(parseInt(process.versions.node) < 18 ? 1 : 0)'", "Node.js 18",
            ("package.json", r'^  "version": "(.*)",$'), r"\w+(?<!harness)\.(js|d\.ts)", "node harness.js", "node --test tests/", "node first.mjs"),
    Package("Ruby", "ruby", "ruby -e 'exit RUBY_VERSION >= \"3.1\"'", "Ruby 3.1", ("lib/ssikvd/version.rb", r'^  VERSION = "(.*)"$'),
            r"lib/.*\.rb", "ruby -Ilib harness.rb", "ruby -Ilib test/frames_test.rb", "ruby -Ilib first.rb"),
    Package("PHP", "php", "php -r 'exit(PHP_VERSION_ID >= 80100 && extension_loaded(\"pcntl\") ? 0 : 1);'", "PHP 8.1 with pcntl",
            ("composer.json", r'^    "version": "(.*)",$'), r"(src/\w+|autoload)\.php", "php harness.php", "php tests/frames.php",
            "mkdir -p vendor && cp -r autoload.php src vendor && php first.php"),
    Package("Rust", "rust", "cargo --version", "cargo (Debian's cargo)", ("Cargo.toml", r'^version = "(.*)"$'), r"src/\w+\.rs",
            "target/release/examples/jobs", "cargo test --quiet --offline --lib && cargo test --quiet --offline --doc",
            "mkdir -p examples && cp first.rs examples/ && cargo run --release --quiet --offline --example first # first.rs",
            "cargo build --release --quiet --offline --example jobs"),
    Package("C", "c", "cc --version", "a C compiler as cc", ("ssikvd.h", r'^#define SSIKVD_VERSION "(.*)"$'), r"ssikvd\.c", "out/jobs",
            "cc -std=c11 -o out/test_frames test_frames.c -lpthread && out/test_frames",
            "cc -std=c11 -o out/first first.c ssikvd.c -lpthread && out/first # first.c",
            "mkdir -p out && cc -std=c11 -O2 -Wall -Wextra -o out/jobs jobs.c ssikvd.c -lpthread"),
    Package("Go", "go", "go version", "Go (Debian's golang-go)", ("ssikvd.go", r'^const Version = "(.*)"$'), r"(?!\w+_test)\w+\.go", "out/jobs", "go test .",
            "mkdir -p first && cp main.go first/ && rm main.go && go run ./first # main.go", "go build -o out/jobs ./jobs"),
    Package("Java", "java", "javac --version", "a JDK", ("pom.xml", r"^  <version>(.*)</version>$"), r"src/main/java/ssikvd/\w+\.java",
            "java -cp out ssikvd.Jobs", "java -cp out ssikvd.FramesTest", "java -cp out First.java",
            "javac -d out src/main/java/ssikvd/*.java src/test/java/ssikvd/*.java"),
]


class Client(Protocol):
    """What a run is of: a package, or an example client."""

    name: str

    def start(self, place: str, port: int | None, times: int) -> subprocess.Popen[str]:
        """The client as a process, which adds this many times with each worker."""


def wait_for(holds: Callable[[], object], process: subprocess.Popen[Any]) -> None:
    """Waits until it holds, or the process has ended."""
    end = time.monotonic() + 3 * PATIENCE
    while not holds() and process.poll() is None and time.monotonic() < end:
        time.sleep(0.005)


class Run:
    """A run of one language's client, over a proxy."""

    def __init__(self, language: Client, built: str, place: str, share: float, times: int, sectors: int = 131_072) -> None:
        self.language, self.due, self.data = language, WORKERS * times, fresh(place, sectors)
        self.server = Server(self.data)
        self.process: Any = None    # once it is begun
        self.proxy = Proxy(self.server.port, share)
        self.begin = lambda: language.start(built, self.proxy.own_port, times)

    def among_others(self) -> None:
        """Begins while 64 transactions are open, and ends those once the client was refused."""
        others = [Connection(self.server.port) for _ in range(OPEN_MAX)]
        expect(all(other.ask(frame("BEGIN")) == OK for other in others), "64 transactions are too many")
        self.process = self.begin()
        wait_for(lambda: self.proxy.refusals[FULL] > WORKERS, self.process)
        for other in others:
            other.close()
        expect(self.proxy.refusals[FULL], f"the client met no {FULL!r}")

    def kill(self, commits: int) -> None:
        """Kills the server after this many COMMITs, and starts it again. The client doesn't come to its end before."""
        self.proxy.most = (commits + self.due) // 2
        try:
            wait_for(lambda: self.proxy.names[b"COMMIT"] >= commits, self.process)
            expect(self.process.poll() is None, "the client ended before the server was killed")
            self.server.kill()
        finally:
            self.proxy.most = float("inf")
        time.sleep(0.05)
        self.server = Server(self.data)
        self.proxy.port = self.server.port

    def result(self) -> Any:
        """How many additions the client made by the first try that it knows of, and in how many tries."""
        out, errors = self.process.communicate(timeout=6 * PATIENCE)
        found = re.fullmatch(r"added (\d+), counter (\d+)\ntries (\d+)\n", out)
        expect(found and self.process.returncode == 0, f"it ended with {self.process.returncode}, {out!r} {errors[-400:]!r}")
        added, counter, tries = (int(number) for number in (found.groups() if found else ()))
        expect(counter == self.due, f"the counter holds {counter}, expected {self.due}")
        expect(self.proxy.firsts == {b"BEGIN"}, f"connections begin with {self.proxy.firsts}")
        return added, tries

    def __enter__(self) -> Run:
        return self

    def __exit__(self, *_: object) -> None:
        if self.process and self.process.poll() is None:
            os.killpg(self.process.pid, signal.SIGKILL)    # its own group: with its workers, where those are processes
            self.process.communicate()
        self.proxy.close()
        self.server.kill()
