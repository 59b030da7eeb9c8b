"""A served file with `ssikvd-compact` over it, which ends at any of its steps, and what a crash leaves of what a tool writes."""
import contextlib
import os
import random
import shutil
import signal
import subprocess
from collections.abc import Iterator, Sequence

from .deviations import expect
from .log_format import SECTOR, apply, log_of, map_of
from .server import free_port
from .settings import PATIENCE, PROGRAM
from .tools import ENVIRONMENT, commit, tool

STEPS = ("ssikvd-used", "ssikvd-follow", "ssikvd", "realpath", "df", "dirname", "date", "flock", "sync", "rm", "chown", "chmod", "ln", "mv", "sh")
WRAPPER = """#!/bin/sh
n=$(($(/bin/cat "$STEPS") + 1))
echo $n >"$STEPS"
echo {name} "$@" >>"$STEPS.log"
[ $n != "$BEFORE" ] || kill -9 0
[ $n != "$FAILS" ] || exit 9
{real} "$@"
status=$?
[ $n != "$AFTER" ] || kill -9 0
exit $status
"""


class Recorder:
    """Writes and syncs of a process, taken in the place of the system's. What follows the copy's last closed gate is any bytes."""

    FEW = 8

    def __init__(self, image: bytes, size: int, place: int) -> None:
        self.settled = bytearray(image[:SECTOR * (place + 1)].ljust(size, b"\1"))
        self.unsettled: dict[int, bytes] = {}

    def images(self, chance: random.Random) -> Iterator[bytes]:
        """What a crash now may leave: of the sectors that aren't durable yet all old, all new, one of them otherwise, or each independently."""
        new, old = dict(self.unsettled), {at: bytes(self.settled[SECTOR * at:SECTOR * (at + 1)]) for at in self.unsettled}
        yield from (self._image(old), self._image(new))
        places = sorted(new)
        for at in {*places[:self.FEW], *places[-self.FEW:]}:
            yield from (self._image({**old, at: new[at]}), self._image({**new, at: old[at]}), self._image({**new, at: b"\1" * SECTOR}))
        for _ in range(3):
            yield self._image({at: chance.choice([old[at], new[at], chance.randbytes(SECTOR)]) for at in new})

    def _image(self, sectors: dict[int, bytes]) -> bytes:
        image = bytearray(self.settled)
        for at, content in sectors.items():
            image[SECTOR * at:SECTOR * (at + 1)] = content
        return bytes(image)

    def write(self, _: int, data: bytes, at: int) -> int:
        expect(at % SECTOR == 0 and len(data) % SECTOR == 0, "a write of no whole sectors")
        for i in range(len(data) // SECTOR):
            self.unsettled[at // SECTOR + i] = bytes(data[SECTOR * i:SECTOR * (i + 1)])
        return len(data)

    def sync(self, _: int) -> None:
        for at, new in self.unsettled.items():
            self.settled[SECTOR * at:SECTOR * (at + 1)] = new
        self.unsettled = {}


def write_script(name: str, text: str) -> None:
    """A script that can be run."""
    with open(name, "w", encoding="utf-8") as file:
        file.write(text)
    os.chmod(name, 0o755)


class Trial:
    """A served data file, and `ssikvd-compact` over it, each of whose steps is counted and may be the last."""

    def __init__(self, place: str, script: str) -> None:
        self.data, self.script, self.port = os.path.join(place, "data"), script, free_port()
        self.steps, self.pid = os.path.join(place, "steps"), os.path.join(place, "pid")
        self.bin = os.path.join(place, "bin")
        os.mkdir(self.bin)
        self.acknowledged = 0
        for name in STEPS:
            real = PROGRAM if name == "ssikvd" else shutil.which(name, path=ENVIRONMENT["PATH"])
            write_script(os.path.join(self.bin, name), WRAPPER.format(name=name, real=real))
        flock = shutil.which("flock")
        write_script(self.bin + "/starts", f"""#!/bin/sh
{flock} -n {self.data}.lock true || exit 0    # as systemctl start of a unit that runs
setsid {flock} -n -F -E 75 {self.data}.lock {PROGRAM} serve --data {self.data} --listen 127.0.0.1:{self.port} \\
    </dev/null >>{place}/out 2>&1 9>&- &
echo $! >{self.pid}
exec ssikvd-probe --wait 20 --process $! 127.0.0.1:{self.port} >/dev/null
""")
        write_script(self.bin + "/stops", f"#!/bin/sh\nkill -9 $(cat {self.pid})\n{flock} -w 10 {self.data}.lock true\n")

    def start(self) -> None:
        found = tool(self.bin + "/starts")
        expect(found[0] == 0, f"no server could be started: {found}")

    def stop(self) -> None:
        """Ends the server by its id, if there is one."""
        with contextlib.suppress(FileNotFoundError, ProcessLookupError):
            with open(self.pid, encoding="ascii") as file:
                process = int(file.read())
            with open(f"/proc/{process}/cmdline", "rb") as file:
                if self.data.encode() in file.read():
                    os.kill(process, signal.SIGKILL)
            tool("flock", "-w", "10", self.data + ".lock", "true")

    def commit(self, count: int = 1) -> None:
        for _ in range(count):
            commit(self.port, self.acknowledged)
            self.acknowledged += 1

    def run(self, before: int | str = "no", after: int | str = "no", fails: int | str = "no",
            words: Sequence[str] = ()) -> tuple[int, str, str, list[str]]:
        """Runs the script, killed with all that it started before or after this step, or with this step failing: its status, its output,
        and the commands that it ran."""
        with open(self.steps, "w", encoding="ascii") as file:
            file.write("0\n")
        open(self.steps + ".log", "w", encoding="ascii").close()
        environment = {**ENVIRONMENT, "PATH": self.bin + ":" + ENVIRONMENT["PATH"], "SSIKVD": "ssikvd", "STEPS": self.steps}
        environment.update(BEFORE=str(before), AFTER=str(after), FAILS=str(fails))
        words = [self.script, "--stop", self.bin + "/stops", "--start", self.bin + "/starts", *words, self.data]
        ran = subprocess.Popen(words, stdin=subprocess.DEVNULL, stdout=subprocess.PIPE, stderr=subprocess.PIPE, env=environment,
                               start_new_session=True, text=True)
        out, err = ran.communicate(timeout=3 * PATIENCE)
        with open(self.steps + ".log", encoding="utf-8") as file:
            return ran.returncode, out, err, file.read().splitlines()

    def contents(self) -> dict[bytes, bytes]:
        """The map of the file."""
        return map_of(log_of(self.data))

    def due(self) -> dict[bytes, bytes]:
        """The map after the acknowledged commits."""
        found: dict[bytes, bytes] = {}
        for number in range(self.acknowledged):
            apply(found, [(b"%06d" % (number % 40), b"v" * (number * 97 % 1_500)), (b"last", b"%d" % number)])
        return found
