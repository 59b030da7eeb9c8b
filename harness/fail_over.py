"""Fail-over between two machines, whose data file lies on a device that is replicated synchronously.

The machines are two network namespaces, with a link between them and one to the clients each. The device of the one that serves is a loop device over
the file of mirror.c, which answers a flush once both sides have what came before; ext4 on it holds the data file and the lock. The other side holds
what it was sent as a disk with a cache does: what wasn't flushed before the end is there in part, whole writes or torn ones. A run ends where the
serving machine is killed, or its link to the other is cut and it is killed later or not at all, while clients commit at both addresses. Then the
other takes over as docs/FAIL_OVER.md says: its disk is mounted, `ssikvd-before` looks at the data file, and a server starts under the lock, which
keeps a second one from starting. Each commit that was answered must be there, and nothing may be answered by the old machine that the new one lacks.
The next run is the other way round. Finally, devices with a planted fault are shown to the same judge.

It has no quick form. It needs root, FUSE, loop devices, `mkfs.ext4` and network namespaces, and says what it lacks.
"""
import argparse
import contextlib
import os
import random
import select
import shutil
import signal
import socket
import struct
import subprocess
import sys
import threading
import time

from ssikvd_harness.arguments import asked, run_harness
from ssikvd_harness.cases import Harness
from ssikvd_harness.deviations import Deviation, expect, wait_for
from ssikvd_harness.examples import simple_client
from ssikvd_harness.log_format import log_of, map_of
from ssikvd_harness.settings import OUT, PATIENCE, PROGRAM
from ssikvd_harness.tools import command, in_memory, lacking, tool
from power_cuts import torn, wait_for_file

MIRROR = os.path.join(OUT, "mirror")
REPLICA = "--replica"    # the other side of a device
IMAGE_SIZE, SECTORS, SERVED, COPIED = 32 << 20, 16_384, 7777, 7788
LIVES, CLIENTS = 12, 4


# The other side of a device

def serve_copy(address, image, seed):
    """Takes writes and flushes from a mirror into a file, until a line comes on standard input. What wasn't flushed is then there in part."""
    pending, chance = [], random.Random(seed)
    with socket.create_server((address, COPIED)) as waiting, open(image, "r+b", buffering=0) as file:
        print("waiting", flush=True)
        connection = waiting.accept()[0]
        with connection, connection.makefile("rb", buffering=0) as stream:
            while sys.stdin not in select.select([sys.stdin, stream], [], [])[0] and take(stream, connection, file, pending):
                pass
            sys.stdin.readline()
        for write in pending:
            if chance.random() < 0.5:
                for place, content in [write] if chance.random() < 0.5 else torn(chance, write):
                    os.pwrite(file.fileno(), content, place)
        os.fsync(file.fileno())
    print(len(pending), flush=True)


def take(stream, connection, file, pending):
    """One write or flush. Did it come whole?"""
    head = whole(stream, 16)
    place, size = struct.unpack("=2q", head) if head else (0, -1)
    content = whole(stream, size) if size > 0 else b""
    if size < 0 or content is None:
        return False
    if place >= 0:
        pending.append((place, content))
        return True
    for at, piece in pending:
        os.pwrite(file.fileno(), piece, at)
    pending.clear()
    os.fsync(file.fileno())
    with contextlib.suppress(OSError):
        connection.sendall(b"\1")
    return True


def whole(stream, size):
    """This many bytes, or None where the stream ends before, or somebody asks for the end."""
    found = bytearray()
    while len(found) < size:
        if sys.stdin in select.select([sys.stdin, stream], [], [])[0]:
            return None
        try:
            piece = stream.read(size - len(found))
        except OSError:
            return None
        if not piece:
            return None
        found += piece
    return bytes(found)


# Machines

class Machine:
    """A network namespace, an image, and what runs there."""

    def __init__(self, place, number):
        self.number, self.image, self.fuse, self.top = number, *(os.path.join(place, f"{name}{number}") for name in ("image", "fuse", "top"))
        self.address, self.link, self.processes, self.holder = f"10.77.{number}.2", f"10.77.9.{number}", [], None
        os.mkdir(self.fuse)
        os.mkdir(self.top)
        self.data = os.path.join(self.top, "shop.data")
        self.lock, self.outside = self.data + ".lock", f"machine{number}"

    def boot(self):
        """A new network, with a link to the clients."""
        self.holder = subprocess.Popen(["unshare", "--net", "sleep", "infinity"])
        self.processes = [self.holder]
        wait_for(lambda: os.readlink(f"/proc/{self.holder.pid}/ns/net") != os.readlink("/proc/self/ns/net"), "it has no network of its own")
        command("ip", "link", "add", self.outside, "type", "veth", "peer", "name", "clients", "netns", str(self.holder.pid))
        for words in (f"addr add 10.77.{self.number}.1/24 dev {self.outside}", f"link set {self.outside} up"):
            command("ip", *words.split())
        for words in ("link set lo up", f"addr add {self.address}/24 dev clients", "link set clients up"):
            self.do("ip", *words.split())

    def inside(self, *words):
        return ["nsenter", "-t", str(self.holder.pid), "--net", "--", *words]

    def do(self, *words):
        return command(*self.inside(*words))

    def start(self, *words, **how):
        self.processes.append(subprocess.Popen(self.inside(*words), **how))
        return self.processes[-1]

    def connect(self, other):
        """The link between two machines."""
        command("ip", "link", "add", "name", f"link{self.number}", "netns", str(self.holder.pid),
                "type", "veth", "peer", "name", f"link{other.number}", "netns", str(other.holder.pid))
        for machine in (self, other):
            machine.do("ip", "addr", "add", f"{machine.link}/24", "dev", f"link{machine.number}")
            machine.do("ip", "link", "set", f"link{machine.number}", "up")

    def cut(self):
        """Cuts the link between the machines."""
        self.do("ip", "link", "set", f"link{self.number}", "down")

    def mount(self, device):
        command("mount", "-t", "ext4", "-o", "loop", device, self.top)

    def serve(self):
        """Starts a server as the unit does, once the data file was looked at."""
        found = tool("ssikvd-before", self.data, str(SECTORS), seconds=3 * PATIENCE)
        expect(found[0] == 0, f"ssikvd-before answered {found}")
        server = self.start(*self.under_lock(), stdout=subprocess.PIPE, stderr=subprocess.DEVNULL)
        expect(server.stdout.readline().startswith(b"listening "), "no server starts")
        second = subprocess.run(self.inside(*self.under_lock(1)), capture_output=True, timeout=PATIENCE, check=False)
        expect(second.returncode == 75, f"a second server ended with {second.returncode}")

    def under_lock(self, more=0):
        return ["flock", "-n", "-F", "-E", "75", self.lock, PROGRAM, "serve", "--data", self.data, "--listen", f"{self.address}:{SERVED + more}"]

    def end(self):
        """Kills all that runs there, at once."""
        for process in reversed(self.processes):
            process.send_signal(signal.SIGKILL)
        for process in self.processes:
            process.wait(PATIENCE)
            if process.stdout:
                process.stdout.close()
        self.processes = []
        subprocess.run(["ip", "link", "delete", self.outside], capture_output=True, check=False)
        for place in (self.top, self.fuse):
            subprocess.run(["umount", "-l", place], capture_output=True, check=False)


class Copy:
    """The side of a device that doesn't serve."""

    def __init__(self, machine, seed):
        words = [sys.executable, os.path.abspath(__file__), REPLICA, machine.link, machine.image, str(seed)]
        self.process = machine.start(*words, stdin=subprocess.PIPE, stdout=subprocess.PIPE)
        expect(self.process.stdout.readline() == b"waiting\n", "no copy waits")

    def take_over(self):
        """It takes no more writes, and is a disk as a loss of power leaves it. How many writes weren't flushed?"""
        self.process.stdin.write(b"\n")
        self.process.stdin.close()
        return int(self.process.stdout.readline())


# Clients

class Writer(threading.Thread):
    """A client that writes one key after the other at whichever machine serves, and comes to the other where its connection is lost. It has the keys
    whose COMMIT was answered."""

    def __init__(self, number, life, addresses):
        super().__init__(daemon=True)
        self.number, self.life, self.addresses, self.is_over, self.acknowledged = number, life, addresses, threading.Event(), []

    def run(self):
        count = 0
        while not self.is_over.is_set():
            self.addresses = self.addresses[1:] + self.addresses[:1]
            with contextlib.suppress(OSError, simple_client.Lost, simple_client.Refused):
                store = simple_client.Client(SERVED, self.addresses[0], timeout=3)
                while not self.is_over.is_set():
                    count += 1
                    key = b"%d %d %06d" % (self.life, self.number, count)
                    store.transact(lambda store, key=key: store.ask("SET", key, "1"), tries=3)
                    self.acknowledged.append(key)
                    time.sleep(0.002)
            time.sleep(0.005)


@contextlib.contextmanager
def writers(life, addresses):
    """Clients at both addresses."""
    found = [Writer(number, life, addresses[number % 2:] + addresses[:number % 2]) for number in range(CLIENTS)]
    for writer in found:
        writer.start()
    try:
        yield found
    finally:
        for writer in found:
            writer.is_over.set()
        for writer in found:
            writer.join(2 * PATIENCE)


def count_of(load):
    return sum(len(writer.acknowledged) for writer in load)


def wait_until_served(load, count):
    before = count_of(load)
    wait_for(lambda: count_of(load) >= before + count, "clients aren't served", 3 * PATIENCE)


# Lives

KILLED, CUT, LEFT = "killed", "cut and killed", "cut and left alone"    # how a life of a serving machine ends


class Pair:
    """Two machines, and the commits that were answered by either."""

    def __init__(self, place, form=()):
        self.machines, self.form, self.acknowledged, self.unflushed = [Machine(place, number) for number in (1, 2)], form, [], 0
        image = self.machines[0].image
        with open(image, "wb") as file:
            file.truncate(IMAGE_SIZE)
        command("mkfs.ext4", "-q", "-F", "-b", "4096", "-E", "lazy_itable_init=0,lazy_journal_init=0", image)

    def live(self, life, end, chance):
        """One fail-over: the first machine serves with a copy at the second, ends, and the second takes over. Then they change places."""
        first, second = self.machines
        for machine in self.machines:
            machine.boot()
        try:
            first.connect(second)
            shutil.copyfile(first.image, second.image)
            copy = Copy(second, chance.random())
            device = first.start(MIRROR, first.image, second.link, str(COPIED), first.fuse, *self.form)
            wait_for_file(os.path.join(first.fuse, "disk"), device)
            first.mount(os.path.join(first.fuse, "disk"))
            first.serve()
            with writers(life, [first.address, second.address]) as load:
                wait_until_served(load, chance.randint(5, 30))
                time.sleep(chance.random() * 0.02)
                self.fail_over(copy, end, chance)
                wait_until_served(load, 10)
            self.acknowledged += [key for writer in load for key in writer.acknowledged]
            judge_kept(self.acknowledged, map_of(log_of(second.data)))
        finally:
            for machine in self.machines:
                machine.end()
        checked = subprocess.run(["e2fsck", "-fp", second.image], capture_output=True, timeout=6 * PATIENCE, check=False)
        expect(checked.returncode < 4, f"the file system is damaged: {checked.stdout[-200:]!r}")
        self.machines.reverse()

    def fail_over(self, copy, end, chance):
        """The first machine ends in one of the ways, and the second takes over."""
        first, second = self.machines
        if end != KILLED:
            first.cut()
            time.sleep(chance.random() * 0.1)
        if end != LEFT:
            first.end()
        self.unflushed += copy.take_over()
        second.mount(second.image)
        second.serve()


def judge_kept(acknowledged, found):
    """Each commit that was answered is in the map."""
    lost = [key for key in acknowledged if key not in found]
    expect(not lost, f"of {len(acknowledged)} commits {len(lost)} are lost, as {lost[:2]}")


def play(lives, seed, form=(), tally=None):
    """Plays this many fail-overs in a row. Returns the pair."""
    chance = random.Random(seed)
    with in_memory() as place:
        pair = Pair(place, form)
        for life in range(lives):
            end = (KILLED, CUT, LEFT)[life % 3]
            with tally.run(f"life {life} by seed {seed}, {end}") if tally else contextlib.nullcontext():
                pair.live(life, end, chance)
        return pair


WRONG = {"a device that answers before the copy does": "early", "a device that goes on without its copy": "alone"}


def is_seen(form):
    """Is a fault found within a few fail-overs?"""
    try:
        play(6, 1, (form,))
    except Deviation as found:
        return "are lost" in str(found)
    return False


def lacks():
    """What is missing for a run, or None."""
    for name in (MIRROR, "/dev/fuse", "/dev/loop-control"):
        if not os.path.exists(name):
            return name
    return lacking((name, None) for name in ("mkfs.ext4", "ip", "nsenter", "unshare")) or ("root" if os.geteuid() else None)


def options(parser):
    parser.add_argument("--lives", type=int, default=LIVES, help="how many fail-overs are played")
    parser.add_argument("--seed", type=int, default=58)
    parser.add_argument(REPLICA, nargs=3, metavar=("ADDRESS", "IMAGE", "SEED"), help=argparse.SUPPRESS)    # the other side of a device


def instead(asked):
    """Serves a copy if asked to."""
    if not asked.replica:
        return None
    serve_copy(*asked.replica)
    return 0


class FailOver(Harness):
    NAME = "fail_over"
    NEEDS = (PROGRAM,)

    def test_fail_over(self):
        self.leave_out_unless("fail_over", lacks)
        if not self.is_in_own_namespaces("SSIKVD_FAIL_OVER", "--propagation", "private"):
            return
        tally, words = self.tally, asked(options)
        pair = play(words.lives, words.seed, (), tally)
        print(f"  {len(pair.acknowledged)} commits answered, {pair.unflushed} writes that weren't flushed", flush=True)
        for name, form in WRONG.items():
            with tally.run(f"{name} is reported"):
                expect(is_seen(form), f"{name} was not reported")


if __name__ == "__main__":
    run_harness(options, instead)
