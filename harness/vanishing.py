"""Peers that vanish without a word are let go: the system asks each silent peer whether it is still there.

Each connection is asked to be probed after two minutes of silence, each half minute, and to end at the fourth probe without an answer; that is
read from the server's own sockets. Then peers in a network of their own take every place but one, and 63 of them a transaction. While they are
there, silent, each keeps its place. Then their network falls silent: after as long as the probes take each place and each transaction is free,
and none before. A connection whose probes the harness has switched off stays, as all did without them.

Both networks are the harness's own namespaces, for which it needs root; else that is left out. `quick` shortens the times on the server's
sockets to a thirtieth, `long` also waits for them in full, four minutes.
"""
import argparse
import contextlib
import ctypes
import errno
import os
import socket
import subprocess
import sys
import time

from ssikvd_harness.arguments import asked, is_long, run_harness
from ssikvd_harness.cases import Harness
from ssikvd_harness.connection import Connection
from ssikvd_harness.deviations import expect, wait_for
from ssikvd_harness.frames import ABORT, BEGIN, OK, PING, PONG
from ssikvd_harness.limits import OPEN_MAX, SESSIONS_MAX
from ssikvd_harness.server import Server, create, folder
from ssikvd_harness.settings import PATIENCE, PROGRAM
from ssikvd_harness.tools import command

SILENT, BETWEEN, PROBES = 120, 30, 4    # seconds before the first probe and between two, and how many go without an answer
SHORTER = 30
SECTORS = 64
NEAR, FAR, CARD = "10.77.0.1", "10.77.0.2", "02:00:00:00:00:02"    # two addresses, and the card of the second
PEERS = SESSIONS_MAX - 1    # beside the good client
OPTIONS = {"SO_KEEPALIVE": socket.SOL_SOCKET, "TCP_KEEPIDLE": socket.IPPROTO_TCP, "TCP_KEEPINTVL": socket.IPPROTO_TCP,
           "TCP_KEEPCNT": socket.IPPROTO_TCP, "TCP_NODELAY": socket.IPPROTO_TCP}
DUE = dict(zip(OPTIONS, (1, SILENT, BETWEEN, PROBES, 1)))
PIDFD_GETFD = 438
SLACK = 3.0    # seconds by which a place may be free earlier than the probes say, and for which the peer that isn't probed must stay
LATE = 1 / 8    # and the part of its time by which a timer of Linux may be late: that of the slots of its wheel, the coarser the longer it is


# The server's own sockets

def sockets_of(process):
    """A duplicate of each connected socket of a process, by the peer's address."""
    library, found = ctypes.CDLL(None, use_errno=True), {}
    pidfd = os.pidfd_open(process.pid)
    try:
        for name in os.listdir(f"/proc/{process.pid}/fd"):
            with contextlib.suppress(FileNotFoundError):
                if not os.readlink(f"/proc/{process.pid}/fd/{name}").startswith("socket:"):
                    continue
                descriptor = library.syscall(PIDFD_GETFD, pidfd, int(name), 0)
                if descriptor < 0 and ctypes.get_errno() == errno.EBADF:    # it was closed meanwhile
                    continue
                expect(descriptor >= 0, f"no duplicate of a descriptor: {os.strerror(ctypes.get_errno())}")
                one = socket.socket(fileno=descriptor)
                try:
                    found[one.getpeername()] = one
                except OSError:    # the one that listens
                    one.close()
    finally:
        os.close(pidfd)
    return found


def options_of(one):
    return {name: int(one.getsockopt(level, getattr(socket, name)) != 0) if name in ("SO_KEEPALIVE", "TCP_NODELAY")
            else one.getsockopt(level, getattr(socket, name)) for name, level in OPTIONS.items()}


def shorten(one, by):
    one.setsockopt(socket.IPPROTO_TCP, socket.TCP_KEEPIDLE, SILENT // by)
    one.setsockopt(socket.IPPROTO_TCP, socket.TCP_KEEPINTVL, BETWEEN // by)


def close_all(sockets):
    for one in sockets:
        one.close()


def each_is_asked(tally):
    """Each connection has its options from the first reply on."""
    with folder() as place, Served(place, "127.0.0.1:0") as served, tally.run("the options of each connection"):
        clients = [Connection(served.port) for _ in range(5)]
        for one in clients:
            expect(one.ask(PING) == PONG, "PING was refused")
        sockets = sockets_of(served.process)
        expect(len(sockets) == len(clients), f"{len(sockets)} connections are there")
        for one in sockets.values():
            expect(options_of(one) == DUE, f"a connection has {options_of(one)}")
        close_all([*sockets.values(), *clients])


# Two networks

class Served(Server):
    """A server at any address over a new file."""

    def __init__(self, place, listen):
        data = os.path.join(place, f"data{time.monotonic_ns()}")
        create(data, SECTORS)
        super().__init__(data, listen=listen)
        self.port = int(self.line.rsplit(b":", 1)[1])


class Peers:
    """Silent connections from a network of their own, in a process of its own."""

    def __init__(self):
        self.process = subprocess.Popen(
            ["unshare", "--net", sys.executable, os.path.abspath(__file__), "--peers"], stdin=subprocess.PIPE, stdout=subprocess.PIPE, text=True)
        self.tell("hello")
        command("ip", "link", "add", "near", "type", "veth", "peer", "name", "far", "address", CARD)
        command("ip", "link", "set", "far", "netns", str(self.process.pid))
        command("ip", "address", "add", f"{NEAR}/24", "dev", "near")
        command("ip", "link", "set", "near", "up")
        command("ip", "neighbour", "replace", FAR, "lladdr", CARD, "dev", "near", "nud", "permanent")
        self.tell("join")

    def tell(self, *words):
        print(*words, file=self.process.stdin, flush=True)
        answer = self.process.stdout.readline()
        expect(answer == "done\n", f"the peers refused {words}")

    def connect(self, port):
        """Every peer has a place, and as many as may a transaction, but for one."""
        self.tell("connect", port)

    def vanish(self):
        self.tell("vanish")

    def close(self):
        self.process.kill()
        self.process.wait()
        self.process.stdin.close()
        self.process.stdout.close()


def be_the_peers():
    """What the process of the peers does on command."""
    clients = []
    for line in sys.stdin:
        words = line.split()
        if words[0] == "join":
            command("ip", "address", "add", f"{FAR}/24", "dev", "far")
            command("ip", "link", "set", "far", "up")
        elif words[0] == "connect":
            for number in range(PEERS):
                clients.append(socket.create_connection((NEAR, int(words[1])), PATIENCE))
                request, due = (BEGIN, OK) if number < OPEN_MAX - 1 else (PING, PONG)
                clients[-1].sendall(request)
                expect(clients[-1].recv(100) == due, "another reply")
        elif words[0] == "vanish":    # what comes for this address is dropped
            command("ip", "address", "flush", "dev", "far")
        print("done", flush=True)


def is_served(port):
    """Has a new client a place?"""
    with Connection(port) as one:
        return one.ask(PING) == PONG


def open_transactions(port, count):
    """Can this many new clients begin?"""
    clients = [Connection(port) for _ in range(count)]
    replies = [one.ask(BEGIN) for one in clients]
    close_all(clients)
    return replies == [OK] * count


def wait_for_a_place(port, good, end):
    """When a new client was served; None where none was until then. The good client is answered all the while."""
    while time.monotonic() < end:
        if is_served(port):
            return time.monotonic()
        expect(good.ask(PING) == PONG, "the good client isn't answered")
        time.sleep(0.05)
    return None


def vanished(place, by):
    """Peers that vanish, where the times are this part of the real ones."""
    silent, last = SILENT / by, (SILENT + PROBES * BETWEEN) / by
    peers = Peers()
    try:
        with Served(place, "0.0.0.0:0") as served, Connection(served.port) as good:
            expect(good.ask(BEGIN) == OK, "BEGIN was refused")
            peers.connect(served.port)
            expect(not is_served(served.port), "there is a place beyond all that there are")
            sockets = sockets_of(served.process)
            silent_ones = {address: one for address, one in sockets.items() if address[0] == FAR}
            expect(len(silent_ones) == PEERS, f"{len(silent_ones)} peers have a connection")
            if by > 1:
                for one in sockets.values():
                    shorten(one, by)
            next(iter(silent_ones.values())).setsockopt(socket.SOL_SOCKET, socket.SO_KEEPALIVE, 0)
            close_all(sockets.values())
            there_are_kept(served, peers, good, last if by > 1 else 0.0)
            peers.vanish()
            begun = time.monotonic()
            found = wait_for_a_place(served.port, good, begun + last * (1 + LATE) + PATIENCE)
            expect(found, f"no place is free {last:.0f} seconds after {PEERS} peers vanished")
            # The last answer came at most so long before they vanished as lies between two probes of a peer that is there.
            took = found - begun
            expect(took >= last - silent - SLACK, f"a place was free after {took:.1f} seconds")
            wait_for(lambda: kept_of(served.process) <= 1, "more peers are kept than the one that isn't probed", silent / 4 + PATIENCE)
            time.sleep(SLACK)
            kept = kept_of(served.process)
            expect(kept == 1, f"{kept} peers are kept, of which one isn't probed")
            expect(good.ask(ABORT) == OK, "the good client's transaction was lost")
            expect(open_transactions(served.port, OPEN_MAX - 1), "their transactions aren't free")
            expect(served.error_text() == b"", f"it wrote {served.error_text()!r}")
            return took
    finally:
        peers.close()
        with contextlib.suppress(subprocess.CalledProcessError):
            command("ip", "link", "delete", "near")


def kept_of(process):
    """How many peers have a connection."""
    left = sockets_of(process)
    close_all(left.values())
    return sum(address[0] == FAR for address in left)


def there_are_kept(served, peers, good, seconds):
    """Silent peers that are there keep their places, though so much time goes by."""
    end = time.monotonic() + seconds
    while time.monotonic() < end:
        expect(good.ask(PING) == PONG, "the good client isn't answered")
        time.sleep(0.1)
    expect(peers.process.poll() is None, "the peers ended")
    expect(not is_served(served.port), "a silent peer that is there lost its place")


# All of it

def inside(tally):
    """What is done in a network of its own."""
    command("ip", "link", "set", "lo", "up")
    each_is_asked(tally)
    with folder() as place:
        for by in (SHORTER, 1) if is_long() else (SHORTER,):
            with tally.run(f"peers that vanish, the times divided by {by}"):
                tally.more += f"; a place was free {vanished(place, by):.1f} seconds after they vanished, with times divided by {by}"


def may_have_networks():
    """Can networks of its own be made here?"""
    words = ["unshare", "--net", "ip", "link", "add", "near", "type", "veth", "peer", "name", "far"]
    try:
        return subprocess.run(words, capture_output=True, timeout=PATIENCE, check=False).returncode == 0
    except OSError:
        return False


def options(parser):
    parser.add_argument("--peers", action="store_true", help=argparse.SUPPRESS)     # in the process of the peers
    parser.add_argument("--inside", action="store_true", help=argparse.SUPPRESS)    # in a network of its own


def instead(asked):
    """Is the process of the peers where that is asked for."""
    return be_the_peers() if asked.peers else None


class Vanishing(Harness):
    NAME = "vanished peers"
    NEEDS = (PROGRAM,)

    def test_vanishing(self):
        if asked(options).inside:
            inside(self.tally)
        elif may_have_networks():
            self.run_again(("unshare", "--net"), "--inside")
        else:
            each_is_asked(self.tally)
            self.tally.more = "; peers that vanish are left out, since no networks can be made here"


if __name__ == "__main__":
    run_harness(options, instead)
