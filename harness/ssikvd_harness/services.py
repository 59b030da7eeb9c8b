"""The services of dist/, whose commands are run as systemd runs them: in their order, as their user, with `systemctl` answered by the harness."""
from __future__ import annotations

import contextlib
import os
import re
import shlex
import shutil
import signal
import subprocess
import threading
import time
from collections.abc import Callable, Iterable, Mapping, Sequence

from .deviations import expect
from .settings import PATIENCE, PROGRAM, text_of
from .tools import DIST
from .trials import write_script

Change = tuple[str, str, str]    # of a tool a text, and what is put in its place
KILLED, FAILED, LEFT_OUT, DONE = "signal", "exit-code", "exec-condition", "success"    # how a service ends, as systemd names it
ASKED = "asked"
SYSTEMCTL = f'#!/bin/sh\necho "$@" >>"${{0%/*}}/{ASKED}"\n'


class Unit:
    """A service of dist/ for an instance: its settings, and its commands by their kinds."""

    def __init__(self, name: str, instance: str, settings: Mapping[str, str]) -> None:
        text = text_of(os.path.join("dist", f"{name}@.service")).replace("%i", instance)
        words = [word for line in re.findall(r"(?m)^Environment=(.*)$", text) for word in line.split()]
        self.settings: dict[str, str] = {**dict(word.split("=", 1) for word in words), **settings}
        self.commands: dict[str, list[str]] = {}
        for kind, line in re.findall(r"(?m)^(Exec\w+)=(.*)$", text):
            self.commands.setdefault(kind, []).append(line)

    def words(self, line: str, process: int = 0) -> list[str]:
        """The words of a command, with the settings in their places."""
        values = {**self.settings, "MAINPID": str(process)}
        found = shlex.split(line.lstrip("+-"))
        return [re.sub(r"\$\$|\$\{(\w+)\}|\$(MAINPID)", lambda it: values[it[1] or it[2]] if it[1] or it[2] else "$", word) for word in found]


class Services:
    """The services of one data file. The server is one process, which `systemctl` stops and starts; that it ends otherwise is a deviation."""

    def __init__(self, place: str, instance: str, user: int, settings: Mapping[str, str], changes: Sequence[Change] = (),
                 before_stop: Callable[[], None] = lambda: None) -> None:
        self.place, self.instance, self.user, self.settings, self.before_stop = place, instance, user, settings, before_stop
        self.bin = os.path.join(place, "bin")
        os.mkdir(self.bin, 0o755)
        for name in os.listdir(DIST):
            if "." not in name:
                shutil.copy(os.path.join(DIST, name), self.bin)
        shutil.copy(PROGRAM, os.path.join(self.bin, "ssikvd"))
        write_script(os.path.join(self.bin, "systemctl"), SYSTEMCTL)
        for name, right, wrong in changes:
            self._change(os.path.join(self.bin, name), right, wrong)
        self.environment = {"PATH": self.bin + ":" + os.environ["PATH"], "PYTHONDONTWRITEBYTECODE": "1"}
        self.server: subprocess.Popen[bytes] | None = None
        self.lock, self.stopped_at, self.started_at, self.said = threading.RLock(), 0.0, 0.0, ""
        self.kill: dict[str, float] = {}
        self.took: dict[str, float] = {}     # how long each tool took last that did its work
        self.killed: dict[str, int] = {}     # how often each was killed
        self.under_way: threading.Thread | None = None    # a server that is killed and started again beside a service

    @staticmethod
    def _change(name: str, right: str, wrong: str) -> None:
        with open(name, encoding="utf-8") as file:
            text = file.read()
        expect(text.count(right) == 1, f"{right!r} stands {text.count(right)} times in {name}")
        write_script(name, text.replace(right, wrong))

    # Commands

    def started(self, words: Sequence[str], is_root: bool, settings: Mapping[str, str], output: int) -> subprocess.Popen[bytes]:
        """A command as a process that leads a group of its own."""
        as_user = [] if is_root else ["setpriv", f"--reuid={self.user}", f"--regid={self.user}", "--clear-groups", "--no-new-privs"]
        return subprocess.Popen([*as_user, *words], stdin=subprocess.DEVNULL, stdout=output, stderr=output, start_new_session=True,
                                env={**self.environment, **settings}, umask=0o077, cwd="/")

    def run(self, words: Sequence[str], is_root: bool = False, settings: Mapping[str, str] | None = None,
            kill_after: float | None = None) -> tuple[int, str]:
        """Runs a command to its end, or kills it with all that it started: its status, and what it said."""
        process = self.started(words, is_root, settings or {}, subprocess.PIPE)
        second: bytes
        try:
            first, second = process.communicate(timeout=6 * PATIENCE if kill_after is None else kill_after)
        except subprocess.TimeoutExpired:
            with contextlib.suppress(ProcessLookupError):
                os.killpg(process.pid, signal.SIGKILL)
            first, second = process.communicate()
            expect(kill_after is not None, f"{words} doesn't end")
        self.said += (first + second).decode(errors="replace")
        return process.returncode, (first + second).decode(errors="replace")

    def _command(self, unit: Unit, line: str, settings: Mapping[str, str]) -> int:
        """One command of a service: its status."""
        words = unit.words(line)
        if words[0] == "systemctl":
            return self.systemctl(words[1:])
        name, begun = words[words.index("--part") + 1] if "--part" in words else words[0], time.monotonic()
        kill_after = self.kill.pop(name, None)
        status = self.run(words, line.startswith("+"), {**unit.settings, **settings}, kill_after)[0]
        if status == 0:
            self.took[name] = time.monotonic() - begun
        if status < 0 and kill_after is not None:
            self.killed[name] = self.killed.get(name, 0) + 1
        asked = os.path.join(self.bin, ASKED)
        if os.path.exists(asked):
            with open(asked, encoding="ascii") as file:
                lines = file.read().splitlines()
            os.remove(asked)
            for of_it in lines:
                self.systemctl(of_it.split())
        return 0 if line.startswith("-") and status > 0 else status

    def play(self, name: str, kill: Mapping[str, float] | None = None) -> str:
        """Runs a service to its end, with those that it starts. Its result. `kill` has after how many seconds a tool is killed, or a part of
        `ssikvd-compact`."""
        self.kill, self.said = dict(kill or {}), ""
        return self._play(name)

    def _play(self, name: str) -> str:
        """One service, as systemd runs one of Type=oneshot."""
        unit, result = Unit(name, self.instance, self.settings), DONE
        for kind in ("ExecCondition", "ExecStartPre", "ExecStart"):
            for line in unit.commands.get(kind, []):
                status = self._command(unit, line, {})
                if status:
                    is_left_out = kind == "ExecCondition" and 0 < status < 255
                    result = LEFT_OUT if is_left_out else KILLED if status < 0 else FAILED
                    break
            if result != DONE:
                break
        for line in unit.commands.get("ExecStopPost", []):
            self._command(unit, line, {"SERVICE_RESULT": result})
        return result

    def systemctl(self, words: Sequence[str]) -> int:
        """What `systemctl` is asked for."""
        if self.under_way:
            self.under_way.join()
        verb, name = words[0], words[-1].removesuffix(".service").split("@")[0]
        if name != "ssikvd":
            expect(verb == "start", f"systemctl was asked for {words}")
            result = self._play(name)
            return 0 if result in (DONE, LEFT_OUT) else 1
        expect(verb in ("is-active", "reset-failed", "stop", "start"), f"systemctl was asked for {words}")
        if verb == "stop":
            self.stop()
        elif verb == "start" and not self.is_active():
            self.start()
        return 0 if verb != "is-active" or self.is_active() else 3

    # The server

    def is_active(self) -> bool:
        """Does the server run? One that ended without having been stopped or killed is a deviation."""
        with self.lock:
            expect(self.server is None or self.server.poll() is None, "the server has ended by itself")
            return self.server is not None

    def start(self) -> None:
        """Starts the server as its unit does."""
        unit = Unit("ssikvd", self.instance, self.settings)
        with self.lock:
            for line in unit.commands["ExecStartPre"]:
                status, said = self.run(unit.words(line), False, unit.settings)
                expect(status == 0, f"{line} ended with {status}: {said}")
            self.started_at = time.monotonic()
            with open(os.path.join(self.place, "journal"), "ab") as journal:
                self.server = self.started(unit.words(unit.commands["ExecStart"][0]), False, unit.settings, journal.fileno())
            with open(os.path.join(self.place, "pid"), "w", encoding="ascii") as file:
                file.write(str(self.server.pid))
            for line in unit.commands["ExecStartPost"]:
                status, said = self.run(unit.words(line, self.server.pid), False, unit.settings)
                expect(status == 0, f"the server doesn't serve: {said}")

    def stop(self) -> None:
        """Stops the server, which must have run until then."""
        with self.lock:
            self.before_stop()
            expect(self.is_active() and self.server, "no server runs that could be stopped")
            self.stopped_at = time.monotonic()
            self._end(signal.SIGTERM)

    def _end(self, number: int) -> None:
        assert self.server
        self.server.send_signal(number)
        self.server.wait(PATIENCE)
        self.server = None

    def kill_server(self) -> None:
        """Kills the server, which is started again as the unit's Restart= does."""
        with self.lock:
            if self.server:
                expect(self.is_active(), "no server runs")
                self._end(signal.SIGKILL)
                self.killed["ssikvd"] = self.killed.get("ssikvd", 0) + 1
                self.start()

    def end(self) -> None:
        """Ends what runs."""
        if self.server and self.server.poll() is None:
            self._end(signal.SIGKILL)

    def done(self, words: Iterable[str]) -> str:
        """A command of the user's that must end well: what it said."""
        status, said = self.run(list(words))
        expect(status == 0, f"{list(words)} ended with {status}: {said}")
        return said
