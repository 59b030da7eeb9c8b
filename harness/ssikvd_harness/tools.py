"""What the harnesses of the tools of dist/ are made with: a tool's run, a data file that is filled, what a document says."""
import contextlib
import io
import os
import shutil
import signal
import subprocess
import sys
import tempfile
from collections.abc import Iterable, Sequence
from importlib.machinery import SourceFileLoader
from importlib.util import module_from_spec, spec_from_loader
from types import ModuleType
from typing import Any

from .deviations import expect
from .examples import simple_client
from .server import Server, create, folder
from .settings import PATIENCE, PROGRAM, TOP, text_of

DIST = os.path.join(TOP, "dist")
ENVIRONMENT = {**os.environ, "PATH": DIST + ":" + os.environ["PATH"], "SSIKVD": PROGRAM, "PYTHONDONTWRITEBYTECODE": "1"}
SECTORS = 4_096
sys.dont_write_bytecode = True


def loaded(name: str) -> Any:
    """A tool as a module."""
    loader = SourceFileLoader(name.replace("-", "_"), os.path.join(DIST, name))
    spec = spec_from_loader(loader.name, loader)
    assert spec
    module = module_from_spec(spec)
    loader.exec_module(module)
    return module


def tool(*words: str, environment: dict[str, str] = ENVIRONMENT, seconds: float = PATIENCE) -> tuple[int, str, str]:
    """Runs a tool: its status, what it printed, and what it said on standard error."""
    ran = subprocess.run(words, capture_output=True, text=True, env=environment, timeout=seconds, stdin=subprocess.DEVNULL)
    return ran.returncode, ran.stdout, ran.stderr


def within(module: ModuleType, words: Sequence[str]) -> tuple[Any, str, str]:
    """The same of a tool that this process runs, which is faster than one of its own."""
    own, out, err = sys.argv, io.StringIO(), io.StringIO()
    handlers = {number: signal.getsignal(number) for number in (signal.SIGHUP, signal.SIGINT, signal.SIGTERM)}
    sys.argv = [str(module.__file__), *words]
    try:
        with contextlib.redirect_stdout(out), contextlib.redirect_stderr(err):
            status = module.main()
    except SystemExit as ended:
        status = ended.code
    finally:
        sys.argv = own
        for number, handler in handlers.items():
            if signal.getsignal(number) is not handler:
                signal.signal(number, handler)
    return status, out.getvalue(), err.getvalue()


def commit(port: int | None, number: int) -> None:
    """A transaction that overwrites one key, and writes another."""
    store = simple_client.Client(port)
    store.transact(lambda store: (store.ask("SET", "last", number), store.ask("SET", b"%06d" % (number % 40), b"v" * (number * 97 % 1_500))))
    store.socket.close()


def fill(data: str, count: int, sectors: int = SECTORS) -> None:
    """A data file with this many commits."""
    create(data, sectors)
    with Server(data) as server:
        for number in range(count):
            commit(server.port, number)


MEMORY, ROOM = "/dev/shm", 512 << 20    # where files are in memory, and how many bytes must be free there


def memory() -> str | None:
    """Where a folder may be in memory; None where there is no such place, or little room in it."""
    if not os.access(MEMORY, os.W_OK | os.X_OK):
        return None
    room = os.statvfs(MEMORY)
    return MEMORY if room.f_bavail * room.f_frsize >= ROOM else None


def in_memory() -> contextlib.AbstractContextManager[str]:
    """A folder in memory where that is possible, and else on the disk: the program is faster there, and no sync is judged. Folders that are made later
    are in memory, too."""
    tempfile.tempdir = memory() or tempfile.tempdir
    return folder()


def lacking(programs: Iterable[tuple[str, str | None]]) -> str | None:
    """The first of these programs that isn't here, with the package of Debian that has it where one is given."""
    for name, package in programs:
        if not shutil.which(name):
            return f"{name} (Debian's {package})" if package else name
    return None


def command(*words: str, seconds: float = 6 * PATIENCE) -> subprocess.CompletedProcess[bytes]:
    """A command of the system, which must end with status 0."""
    ran = subprocess.run(words, capture_output=True, timeout=seconds, check=False)
    expect(ran.returncode == 0, f"{words[0]} ended with {ran.returncode} {ran.stderr[-300:]!r}")
    return ran


def promtool() -> str | None:
    return os.environ.get("PROMTOOL") or shutil.which("promtool")


def operations() -> str:
    return text_of(os.path.join("docs", "OPERATIONS.md"))
