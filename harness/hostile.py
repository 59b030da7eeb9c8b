"""Clients that don't behave, against `serve`, while a good client is served.

Half frames and silence, urgent bytes, broken frames with much before and after them, floods of pipelined requests, peers that acknowledge late or
don't read, transactions in one piece to one key, as many connections as there are and more, also all at once, resets within a reply, random bytes, and
every session at its limits at once.
The good client's slowest reply stays under a bound, the server doesn't end, what may be answered is the model's, and the memory of the process stays
under the bound that its limits give. No sync is judged, so the data is in memory. By how much the machine itself was late doesn't count, and a scene
with a reply above the bound is played once more. A server that is stopped for longer than a bound is reported.

`quick` does each once and small.
"""
import contextlib
import errno
import random
import select
import signal
import socket
import time

from ssikvd_harness.arguments import is_long, run_harness
from ssikvd_harness.cases import Harness
from ssikvd_harness.connection import Connection
from ssikvd_harness.deviations import Deviation, Tally, expect, wait_for
from ssikvd_harness.frames import ABORT, BEGIN, BROKEN_FRAME, COMMIT, FULL, OK, PING, PONG, Broken, decode, frame, pairs, refusal
from ssikvd_harness.good_client import KEY as GOOD_KEY, VALUE as GOOD_VALUE, GoodClient
from ssikvd_harness.lateness import STOOD_STILL, Lateness
from ssikvd_harness.limits import BUFFERED_MAX, INBOX_MAX, KEY_MAX, LARGEST_REPLY, MARKS_MAX, OPEN_MAX, OUTPUT_ROOM, SESSIONS_MAX, VALUE_MAX, WRITES_MAX
from ssikvd_harness.model import Store
from ssikvd_harness.server import Server, fresh
from ssikvd_harness.settings import PATIENCE
from ssikvd_harness.shrinking import shrunk
from ssikvd_harness.tools import in_memory

SECTORS = 262_144
SLOWEST_REPLY = 5.0
STOPPED = 2.0    # for how long a server is stopped, which is to be reported
ACKNOWLEDGED_LATE = 0.04    # how long Linux puts off an acknowledgement
REQUESTS_MAX = 64    # of a session in one turn
ENTRY = 144    # a written key or a mark: its vectors, and what the allocator adds to their two blocks
RECORD = 1_024    # what is kept of one commit of the good client while a transaction is open that began before it
KEYS = [b"%03d" % i + b"k" * (KEY_MAX - 3) for i in range(128)]
VALUE = b"v" * VALUE_MAX
LARGEST_RANGE = frame("RANGE", "0", "", "128")
SHRINKING_SECONDS = 20.0


class Siege:
    """A server, its good client, and how much is done to it."""

    def __init__(self, server, lateness, idle, alone, is_long_one):
        self.server, self.is_long = server, is_long_one
        self.idle, self.alone = idle, alone    # the memory of the server that idles, and how many descriptors it has with one client
        self.good = GoodClient(server.port, lateness, syncs_ahead(1))

    def times(self, few, many):
        return many if self.is_long else few

    def connect(self, **options):
        return Connection(self.server.port, **options)

    def join(self, **options):
        """A connection that is served. There may be no place until those that left have been taken out."""
        end = time.monotonic() + PATIENCE
        while True:
            client = self.connect(**options)
            if client.ask(PING) == PONG:
                return client
            client.close()
            expect(time.monotonic() < end, "no connection is served")
            time.sleep(0.01)

    def kept(self):
        """How many descriptors the server has besides those that it has with the good client alone."""
        return self.server.descriptors() - self.alone

    def wait_for_descriptors(self, least, most, text):
        """Waits until it has at least and at most so many of these."""
        with contextlib.suppress(Deviation):
            wait_for(lambda: least <= self.kept() <= most, text)
        expect(least <= self.kept() <= most, f"{self.kept()} descriptors are kept, {text}")


def syncs_ahead(commits):
    """How many syncs a reply may wait for where so many COMMITs come in one turn: what is left of a turn, and the next one, with two for each."""
    return 2 * 2 * commits


def fill(server):
    """128 of the largest pairs, which one reply holds, and the good client's key above them."""
    with Connection(server.port) as client:
        for half in (KEYS[:64], KEYS[64:]):
            client.send(BEGIN + b"".join(frame("SET", key, VALUE) for key in half) + COMMIT)
            replies = [client.reply() for _ in range(66)]
            expect(replies[:-1] == [OK] * 65 and replies[-1][:1] == b":", "filling was refused")
        client.send(BEGIN + LARGEST_RANGE)
        expect(client.reply() == OK and len(client.reply()) == LARGEST_REPLY, "the largest reply has another length")
        client.send(frame("SET", GOOD_KEY, GOOD_VALUE) + COMMIT)
        expect([client.reply(), client.reply()] == [OK, b":3\r\n"], "filling was refused")


@contextlib.contextmanager
def besieged(place, sectors, is_long_one):
    """A server over the map that the scenes ask for, and its good client, which isn't begun."""
    with Server(fresh(place, sectors)) as server, Lateness(server.process.pid, place) as lateness:
        expect(server.is_listening(), f"no server: {server.error_text()!r}")
        idle = server.memory("VmHWM")
        with Connection(server.port) as client:
            expect(client.ask(PING) == PONG, "a client is not served")
            alone = server.descriptors()
        fill(server)
        yield Siege(server, lateness, idle, alone, is_long_one)


# Frames

def half_a_frame(siege):
    """Every proper beginning of a frame, silence, and then the rest, with a transaction and without."""
    request, clients = frame("SET", "half", "a frame"), []
    for cut in range(1, len(request)):
        client = siege.join()
        due = OK if cut % 2 else refusal("ERR none")
        if cut % 2:
            expect(client.ask(BEGIN) == OK, "BEGIN was refused")
        client.send(request[:cut])
        clients.append((client, cut, due))
    time.sleep(siege.times(0.5, 5.0))
    ready, _, _ = select.select([client.socket for client, _, _ in clients], [], [], 0)
    expect(not ready, f"{len(ready)} of the half frames were answered, or their connections closed")
    for client, cut, due in clients:
        reply = client.ask(request[cut:])
        expect(reply == due, f"the frame cut at {cut} was answered {reply!r}")
        client.close()


def one_byte_at_a_time(siege):
    """A transaction whose bytes come one by one."""
    with siege.join() as client:
        for request, due in ((BEGIN, OK), (frame("SET", "slow", "1"), OK), (frame("GET", "slow"), b"$1\r\n1\r\n"), (ABORT, OK)):
            for byte in request:
                client.send(bytes([byte]))
                time.sleep(0.001)
            expect(client.reply() == due, "another reply")


def urgent_bytes(siege):
    """Requests with an urgent byte between them, at which a read ends early, all there before the server reads."""
    for _ in range(siege.times(3, 20)):
        with siege.join() as client:
            siege.server.process.send_signal(signal.SIGSTOP)
            client.send(PING)
            client.socket.send(b"u", socket.MSG_OOB)
            client.send(PING)
            siege.server.process.send_signal(signal.SIGCONT)
            expect([client.reply(), client.reply()] == [PONG, PONG], "another reply")


BROKEN = (b"*0", b"*5", b"*11", b"*1\n", b"PING\r\n", b"*1\r\n$%d" % (VALUE_MAX + 1), b"*1\r\n$-1", b"*1\r\n$00", b"*1\r\n$2\r\nabc")


def broken_frames(siege):
    """Bytes that begin no request, whole and one by one, in a transaction: one reply, and the end of the session, which is reported at once."""
    for data in (*BROKEN, *(PING + data for data in BROKEN)):
        due = OK + PONG * data.startswith(PING) + BROKEN_FRAME
        for size in (len(data), 1):
            with siege.join() as client:
                client.send(BEGIN)
                for at in range(0, len(data), size):
                    client.send(data[at:at + size])
                came = client.rest()
            expect(came == due, f"{data!r} in pieces of {size} was answered {came!r}")
    all_transactions_are_free(siege)


MEGABYTE = 1_000_000
SLOW_PIECE, PAUSE_OF_SLOW = 1 << 17, 0.0005


def exchange(siege, data, waits_for_end, receive_buffer=None):
    """All that comes for these bytes until the end. They are sent while it is read slowly, or before anything is read. A reset, and a send
    that fails, are deviations."""
    with siege.join(receive_buffer=receive_buffer) as client:
        left, came, piece = memoryview(data), bytearray(), b"more"
        client.socket.setblocking(False)
        quiet = time.monotonic() + PATIENCE
        while piece or left:
            may_read = piece and not (waits_for_end and left)
            expect(time.monotonic() < quiet, f"nothing moves, with {len(left):,} bytes to be sent and {len(came):,} read")
            ready, writable, _ = select.select([client.socket] * bool(may_read), [client.socket] * bool(left), [], 1.0)
            waits_for_end &= bool(ready or writable)    # where nothing can be sent it reads
            try:
                if writable:
                    left = left[client.socket.send(left[:1 << 16]):]
                if ready:
                    piece = client.socket.recv(SLOW_PIECE)
                    came += piece
                    time.sleep(PAUSE_OF_SLOW)
            except OSError as found:
                text = f"{type(found).__name__} behind {len(came):,} bytes that came, with {len(left):,} left to be sent"
                raise Deviation(f"{text}; the last were {bytes(came[-20:])!r}") from None
            if ready or writable:
                quiet = time.monotonic() + PATIENCE
    return bytes(came)


def expect_all(came, due):
    expect(came == due, f"received {len(came):,} bytes, ending in {came[-20:]!r}, expected {len(due):,}, ending in {due[-20:]!r}")


def broken_frame_behind_much(siege):
    """Megabytes of requests, a broken frame, and much after it: every reply comes, then the refusal, and the end, which is no reset."""
    write, replies = frame("SET", "much", VALUE), pairs([(key, VALUE) for key in KEYS])
    for megabytes, ranges, behind, receive_buffer in (
            (siege.times(10, 25), 10, 100_000, 4_096), (1, 3, 0, 4_096), (1, 3, 10, 4_096), (1, 3, 5_000, 4_096), (1, 3, 100_000, None),
            (1, 1, siege.times(2, 30) * MEGABYTE, 4_096)):
        sets = megabytes * MEGABYTE // len(write)
        requests = BEGIN + write * sets + LARGEST_RANGE * ranges + PING
        came = exchange(siege, requests + b"*0" + b"x" * behind, False, receive_buffer)
        expect_all(came, OK + OK * sets + replies * ranges + PONG + BROKEN_FRAME)
    all_transactions_are_free(siege)


def value_above_the_bound(siege):
    """A value of a length above the bound, which is sent whole, before anything is read and while it is."""
    for size in (VALUE_MAX + 1, 100_000, MEGABYTE, siege.times(5, 30) * MEGABYTE):
        for reads_late in (False, True):
            came = exchange(siege, BEGIN + frame("SET", "above", b"v" * size), reads_late)
            expect_all(came, OK + BROKEN_FRAME)
    all_transactions_are_free(siege)


LINGERING_MAX = 64    # how many connections behind a broken frame are kept


def are_reset(clients):
    """Of each of these, whose server has ended: was what it sent reset, since the connection is closed?"""
    for client in clients:
        client.send(b"x")
    return [client.is_closed for client in clients]


def held_behind_broken_frames(siege):
    """Peers that hold on after their broken frame: they take no place, and few descriptors. The oldest are closed, and the others when they
    end."""
    siege.wait_for_descriptors(0, 0, "though all have left")
    clients = take_every_place(siege)
    for client in clients:
        client.send(BEGIN + b"*0")
        came = client.rest()
        expect(came == OK + BROKEN_FRAME, f"a broken frame was answered {came!r}")
        client.is_closed = False    # until what it sends is reset
    all_transactions_are_free(siege)
    siege.wait_for_descriptors(LINGERING_MAX, LINGERING_MAX, f"of {len(clients)}")
    due = [True] * (len(clients) - LINGERING_MAX) + [False] * LINGERING_MAX
    wait_for(lambda: are_reset(clients)[:-LINGERING_MAX] == due[:-LINGERING_MAX], "the oldest aren't closed")
    expect(are_reset(clients) == due, "others than the oldest were closed")
    expect(siege.kept() == LINGERING_MAX, f"{siege.kept()} descriptors of {len(clients)} are kept after that")
    close_all(clients)
    siege.wait_for_descriptors(0, 0, "though their peers have ended")


LINGERING_BYTES, IN_BUFFERS = 1 << 26, 1 << 24    # how many bytes are dropped behind a broken frame, and how many more the system may hold


def without_end_behind_a_broken_frame(siege):
    """A peer that sends without end after its broken frame is cut off once this many bytes were dropped, and not before."""
    with siege.join() as client:
        client.send(b"*0")
        came, sent, piece = client.rest(), 0, b"x" * (1 << 16)
        expect(came == BROKEN_FRAME, f"a broken frame was answered {came!r}")
        try:
            while sent < 2 * LINGERING_BYTES:
                sent += client.socket.send(piece)
        except ConnectionError:
            pass
    expect(LINGERING_BYTES <= sent <= LINGERING_BYTES + IN_BUFFERS, f"{sent:,} bytes went behind a broken frame")


# Floods

def flood(siege, request, due, times, fills_first):
    """Connections that each send all at once, and read as replies come, or only once nothing more can be sent."""
    clients = [siege.join() for _ in range(siege.times(4, 16))]
    left = {client.socket: memoryview(request * times) for client in clients}
    wanted, reads = memoryview(due * times), not fills_first
    owed = {client.socket: wanted for client in clients}
    for sock in left:
        sock.setblocking(False)
    while any(owed.values()):
        readers = [sock for sock in owed if reads and owed[sock]]
        ready, writable, _ = select.select(readers, [sock for sock in left if left[sock]], [], 1.0 if not reads else PATIENCE)
        if not ready and not writable:
            expect(not reads, "the flood stands still")
            reads = True
        for sock in writable:
            left[sock] = left[sock][sock.send(left[sock][:1 << 16]):]
        for sock in ready:
            piece = sock.recv(1 << 20)
            expect(piece and piece == owed[sock][:len(piece)], f"the flood was answered {piece[:60]!r}")
            owed[sock] = owed[sock][len(piece):]
    close_all(clients)


def flood_of_transactions(siege):
    """Pipelined transactions, read as their replies come."""
    request = BEGIN + frame("SET", "flood", "1") + frame("GET", "flood") + frame("RANGE", "flood", "floof", "5") + frame("FOO") + ABORT
    due = OK + OK + b"$1\r\n1\r\n" + b"*2\r\n$5\r\nflood\r\n$1\r\n1\r\n" + refusal("ERR command") + OK
    flood(siege, request, due, siege.times(300, 3_000), False)


def replies_of_two_turns(siege):
    """128 requests at once, which are served in two turns: what the second sends doesn't wait until the peer acknowledges what the first
    sent, which a peer that is told to puts off for 40 ms (TCP_NODELAY). Where the machine does much else it's tried again."""
    with siege.join() as client:
        for is_last in (False, False, False, True):
            few = sorted(two_turns(client) for _ in range(siege.times(15, 101)))[:siege.times(4, 25)][-1]
            expect(few < ACKNOWLEDGED_LATE / 2 or not is_last, f"three of four batches took {1_000 * few:.0f} ms or more")
            if few < ACKNOWLEDGED_LATE / 2:
                return


def two_turns(client):
    """How long the replies of two turns took."""
    client.socket.setsockopt(socket.IPPROTO_TCP, socket.TCP_QUICKACK, 0)
    begun = time.monotonic()
    client.send(2 * REQUESTS_MAX * PING)
    expect(all(client.reply() == PONG for _ in range(2 * REQUESTS_MAX)), "another reply")
    return time.monotonic() - begun


def flood_before_reading(siege):
    """The largest replies, asked for until nothing moves any more, before the first of them is read."""
    due = OK + pairs([(key, VALUE) for key in KEYS]) + OK
    flood(siege, BEGIN + LARGEST_RANGE + ABORT, due, siege.times(12, 60), True)


def flood_of_commits(siege):
    """Pipelined commits, each of a key of the connection's own."""
    clients = [siege.join() for _ in range(siege.times(2, 8))]
    times = siege.times(50, 500)
    for number, client in enumerate(clients):
        client.send((BEGIN + frame("SET", f"commits {number}", "1") + COMMIT) * times)
    for client in clients:
        for _ in range(times):
            replies = [client.reply(), client.reply(), client.reply() or b""]
            expect(replies[:2] == [OK, OK] and replies[2][:1] == b":", f"a commit was answered {replies}")
    close_all(clients)
    with siege.join() as client:  # the map is to be as it was
        deletes = b"".join(frame("DEL", f"commits {number}") for number in range(len(clients)))
        client.send(BEGIN + deletes + COMMIT)
        replies = [client.reply() for _ in range(len(clients) + 2)]
        expect(replies[:-1] == [OK] * (len(clients) + 1) and replies[-1][:1] == b":", "a DEL was refused")


def whole_transactions(siege):
    """Each place sends transactions to one key, each in one piece. Each is served whole, so that none meets another, or too many that are open."""
    clients, times = take_every_place(siege), siege.times(5, 50)
    for _ in range(times):
        for client in clients:
            client.send(BEGIN + frame("SET", "whole", "1") + COMMIT)
        for client in clients:
            replies = [client.reply(), client.reply(), client.reply() or b""]
            expect(replies[:2] == [OK, OK] and replies[2][:1] == b":", f"a transaction in one piece was answered {replies}")
    close_all(clients)
    with siege.join() as client:  # the map is to be as it was
        client.send(BEGIN + frame("DEL", "whole") + COMMIT)
        expect([client.reply(), client.reply()] == [OK, OK] and client.reply()[:1] == b":", "a DEL was refused")


# Peers that don't read, and peers that reset

def never_reads(siege):
    """As many peers as may have transactions, apart from the good client's, ask for the largest ranges and read nothing."""
    clients = [siege.join(receive_buffer=4_096) for _ in range(OPEN_MAX - 1)]
    for client in clients:
        client.send(BEGIN + LARGEST_RANGE * 50)
    time.sleep(siege.times(2.0, 20.0))
    close_all(clients)


LATE_REPLIES = 8    # 17 MB, which is more than the buffers of a connection hold


def reads_late(siege):
    """A peer that asks for the largest ranges, and for more where nothing can be written to it, before it reads: it's answered still."""
    due = pairs([(key, VALUE) for key in KEYS])
    with siege.join(receive_buffer=4_096) as client:
        client.send(BEGIN + LARGEST_RANGE * LATE_REPLIES)
        for _ in range(20):
            time.sleep(0.1)
            client.send(PING)
        expect(client.reply() == OK, "another reply")
        for _ in range(LATE_REPLIES):
            expect(client.reply() == due, "another reply")


def resets(siege):
    """Peers that ask for the largest ranges, read a piece, and reset the connection."""
    for _ in range(siege.times(100, 2_000)):
        client = siege.join(receive_buffer=4_096)
        client.send(BEGIN + frame("SET", "reset", "1") + LARGEST_RANGE * 3)
        expect(client.socket.recv(1_000).startswith(OK[:1]), "no reply")
        client.reset()
    all_transactions_are_free(siege)


def take_every_place(siege):
    """127 connections that are served, apart from the good client's. Those that left before are waited for."""
    return [siege.join() for _ in range(SESSIONS_MAX - 1)]


def close_all(clients):
    for client in clients:
        client.close()


def all_transactions_are_free(siege):
    """64 transactions may begin, and no more. The good client, which has none open, waits meanwhile."""
    clients = take_every_place(siege)
    with siege.good.turn:
        replies = [client.ask(BEGIN) for client in clients]
        aborted = [client.ask(ABORT) for client in clients[:OPEN_MAX]]
    close_all(clients)
    expect(replies == [OK] * OPEN_MAX + [FULL] * (len(clients) - OPEN_MAX), f"{replies.count(OK)} transactions could begin")
    expect(aborted == [OK] * OPEN_MAX, "an ABORT was refused")


# Too many

def two_hundred_connections(siege):
    """128 sessions, the good client's among them, are served; the other connections are closed without a byte."""
    clients = take_every_place(siege)
    others = [siege.connect() for _ in range(200 - len(clients))]
    replies = [client.ask(PING) for client in others]
    expect(replies == [None] * len(others), f"{replies.count(PONG)} connections too many are served")
    replies = [client.ask(PING) for client in clients]
    expect(replies == [PONG] * len(clients), f"of the first {len(clients)} connections {replies.count(PONG)} are still served")
    time.sleep(siege.times(0.5, 5.0))
    close_all(clients + others)
    all_transactions_are_free(siege)


BURST = 400


def burst(siege):
    """400 connections while the server is stopped: once it goes on, each is served or closed without a byte, soon."""
    all_transactions_are_free(siege)
    for _ in range(siege.times(1, 10)):
        siege.wait_for_descriptors(0, 0, "though all have left")
        siege.server.process.send_signal(signal.SIGSTOP)
        clients = [socket.socket() for _ in range(BURST)]
        try:
            for client in clients:
                client.setblocking(False)
                expect(client.connect_ex(("127.0.0.1", siege.server.port)) in (0, errno.EINPROGRESS), "no connection can be made")
            time.sleep(0.1)
        finally:
            siege.server.process.send_signal(signal.SIGCONT)
        judge_burst(clients)


def judge_burst(clients):
    """Each asks as soon as it is connected; some are served and the others closed."""
    asking, waiting, answers, end = set(clients), set(clients), [], time.monotonic() + PATIENCE
    while waiting and time.monotonic() < end:
        ready, writable, _ = select.select(list(waiting), list(asking), [], 0.1)
        for client in writable:
            asking.discard(client)
            with contextlib.suppress(OSError):    # what is closed is told by the read
                client.send(PING)
        for client in ready:
            waiting.discard(client)
            asking.discard(client)
            try:
                answers.append(client.recv(100))
            except ConnectionError:
                answers.append(b"")
    close_all(clients)
    served = answers.count(PONG)
    expect(not waiting, f"{len(waiting)} of {len(clients)} hang; {served} were served")
    expect(served + answers.count(b"") == len(clients) and served == SESSIONS_MAX - 1, f"{served} of {len(clients)} were served")


# Bytes that are no frames

def random_request(chance):
    """A request that changes nothing for good: a command with keys and values of its own, or something like one."""
    key = b"random" + bytes(chance.randrange(256) for _ in range(chance.choice((0, 1, 4, 250, 251))))
    value = bytes(chance.randrange(256) for _ in range(chance.choice((0, 1, 100, VALUE_MAX))))
    return chance.choice((
        [b"BEGIN"], [b"begin"], [b"PING"], [b"ABORT"], [b"GET", key], [b"GET", b""], [b"SET", key, value], [b"DEL", key],
        [b"RANGE", key, b"randon", b"%d" % chance.randrange(140)], [b"RANGE", key, b"", b"5"], [value[:20] or b"FOO"], [b"", b"", b""]))


def random_stream(chance):
    """Requests, of which some are cut, changed in a byte, or followed by bytes of any kind."""
    stream = bytearray(b"".join(frame(*random_request(chance)) for _ in range(chance.randrange(1, 8))))
    kind = chance.randrange(5)
    if kind == 0:
        del stream[chance.randrange(len(stream)):]
    elif kind == 1:
        stream[chance.randrange(len(stream))] = chance.randrange(256)
    elif kind == 2:
        stream[chance.randrange(len(stream))] ^= 1 << chance.randrange(8)
    elif kind == 3:
        stream += bytes(chance.randrange(256) for _ in range(chance.randrange(1, 3_000)))
    else:
        stream[:] = bytes(chance.choice(b"*$0123456789\r\n\r\nABEGIN") for _ in range(chance.randrange(1, 200)))
    return bytes(stream)


def replies_due(stream, store):
    """What the model answers to a stream of a session, and whether it goes on to the stream's end."""
    out = b""
    while True:
        try:
            found = decode(stream)
        except Broken:
            return out + BROKEN_FRAME, False
        if found is None:
            return out, True
        parts, used = found
        if parts[0].upper() == b"COMMIT":
            return None, True
        out, stream = out + store.request("random", parts), stream[used:]


def stream_due(stream):
    """What a stream of a session is answered over the map of `fill`, and whether the session goes on to its end. None where it commits."""
    store = Store()
    store.contents = {**dict.fromkeys(KEYS, VALUE), GOOD_KEY: GOOD_VALUE}
    return replies_due(stream, store)


def expect_answered(siege, stream, cut, due, goes_on):
    """A stream, sent in two pieces, is answered to the byte."""
    with siege.join() as client:
        client.send(stream[:cut])
        client.send(stream[cut:])
        if goes_on and not client.is_closed:
            client.socket.shutdown(socket.SHUT_WR)
        came = client.rest()
    expect(came == due, f"{stream[:200]!r}: {came[-200:]!r}, expected {due[-200:]!r}")


def play_stream(siege, octets, cut=None):
    """Were these bytes sent, in two pieces, and answered as the model does? Not where they commit."""
    stream = bytes(octets)
    due, goes_on = stream_due(stream)
    if due is not None:
        expect_answered(siege, stream, len(stream) // 2 if cut is None else cut, due, goes_on)
    return due is not None


def pieces_of(stream):
    """The whole requests of a stream, and what follows them."""
    pieces = []
    with contextlib.suppress(Broken):
        while found := decode(stream):
            pieces.append(stream[:found[1]])
            stream = stream[found[1]:]
    return [*pieces, stream]


def shrunk_stream(siege, stream):
    """The few requests of a stream that is answered otherwise, and of these the few bytes; None where it is answered correctly now."""
    few = shrunk(pieces_of(stream), lambda some: play_stream(siege, b"".join(some)), SHRINKING_SECONDS)
    return few and bytes(shrunk(b"".join(few), lambda some: play_stream(siege, some), SHRINKING_SECONDS) or b"".join(few))


def random_bytes(siege, seed=20_081):
    """Streams of random bytes, each answered as the model does to the byte, in pieces of any size. One that isn't is shrunk."""
    chance = random.Random(seed)
    for _ in range(siege.times(300, 10_000)):
        stream = random_stream(chance)
        cut = chance.randrange(len(stream) + 1)
        try:
            play_stream(siege, stream, cut)
        except Deviation as found:
            few = shrunk_stream(siege, stream)
            raise Deviation(f"{few!r} is enough of the {len(stream)} bytes with which {found}" if few else f"{found}") from None


# Memory

def every_session_at_its_limits(siege):
    """Each session has had the largest reply; as many as may have transactions then write and mark all they may, and read no more."""
    clients = take_every_place(siege)
    for client in clients:
        client.send(BEGIN + LARGEST_RANGE + ABORT)
        sizes = [len(client.reply() or b"") for _ in range(3)]
        expect(sizes == [len(OK), LARGEST_REPLY, len(OK)], f"replies of {sizes} bytes")
    for number, client in enumerate(clients[:OPEN_MAX - 1]):
        writes = [frame("SET", b"%02d" % i + b"w" * (KEY_MAX - 2), b"%03d" % number + b"w" * (VALUE_MAX - 3)) for i in range(WRITES_MAX)]
        expect(client.ask(BEGIN) == OK, "BEGIN was refused")
        for write in writes:
            expect(client.ask(write) == OK, "SET was refused")
        for i in range(MARKS_MAX - 1):
            lo = b"x%03d" % i + b"l" * (KEY_MAX - 4)
            expect(client.ask(frame("RANGE", lo, lo[:-1] + b"m", "1")) == b"*0\r\n", "RANGE was refused")
    for client in clients:
        client.send(LARGEST_RANGE + frame("SET", b"w", b"w" * VALUE_MAX) * (INBOX_MAX // VALUE_MAX))
    time.sleep(siege.times(1.0, 5.0))
    close_all(clients)


def memory_bound(idle, commits):
    """What the limits let the process take, by part: bytes, and what each entry of a transaction and each kept record take besides."""
    pair = KEY_MAX + VALUE_MAX
    entries = OPEN_MAX * (WRITES_MAX + MARKS_MAX)
    return {
        "idle server": idle,
        f"{SESSIONS_MAX} inboxes": SESSIONS_MAX * INBOX_MAX,
        f"{SESSIONS_MAX} streams": SESSIONS_MAX * BUFFERED_MAX,
        f"{SESSIONS_MAX} outputs, and the largest reply in each": SESSIONS_MAX * (OUTPUT_ROOM + LARGEST_REPLY),
        f"keys and values of {OPEN_MAX} transactions": OPEN_MAX * (WRITES_MAX * pair + MARKS_MAX * 2 * KEY_MAX),
        "the map": len(KEYS) * pair,
        f"{entries} entries": entries * ENTRY,
        f"records of {commits} commits kept for open transactions": commits * RECORD,
    }


def judge_memory(tally, peak, idle, commits):
    parts = memory_bound(idle, commits)
    bound, by_limits = sum(parts.values()), sum(list(parts.values())[:6])
    print("  memory, in bytes: " + "; ".join(f"{name} {size:,}" for name, size in parts.items()))
    print(f"  memory: measured peak {peak:,}, bound {bound:,}, which is {100 * peak / bound:.1f} %; the first six parts alone are "
          f"{by_limits:,}, which is {100 * peak / by_limits:.1f} %")
    with tally.run("memory"):
        expect(peak <= bound, f"the process had {peak:,} bytes, which is above the bound")


SCENES = (
    half_a_frame, one_byte_at_a_time, urgent_bytes, broken_frames, broken_frame_behind_much, value_above_the_bound,
    held_behind_broken_frames, without_end_behind_a_broken_frame, flood_of_transactions, replies_of_two_turns, flood_before_reading,
    flood_of_commits, whole_transactions, never_reads, reads_late, resets, two_hundred_connections, burst, random_bytes, every_session_at_its_limits)


# How many COMMITs may come in one turn, apart from the good client's, in the quick and the long form; none in all other scenes.
COMMITS_OF_ONE = REQUESTS_MAX // 3 + 1    # of transactions of three requests each
COMMITS_AT_ONCE = {flood_of_commits: (2 * COMMITS_OF_ONE, 8 * COMMITS_OF_ONE), whole_transactions: (SESSIONS_MAX, SESSIONS_MAX)}


def play(tally, siege, scene, bound=SLOWEST_REPLY):
    """One scene, and how the good client fared in it. It is played once more where a reply took longer than the bound. Returns its commits."""
    name = scene.__name__.replace("_", " ")
    commits, slowest = play_once(tally, siege, scene, name)
    if slowest >= bound:
        more, slowest = play_once(tally, siege, scene, f"{name}, once more")
        commits += more
    with tally.run(f"the good client during {name}"):
        expect(siege.server.is_alive(), "the server ended")
        expect(siege.good.deviation is None, f"{siege.good.deviation}")
        expect(slowest < bound, f"its slowest reply took {slowest:.2f} seconds, twice")
    return commits


def play_once(tally, siege, scene, name):
    """How many transactions the good client commits meanwhile or is refused, at least one, and its slowest reply."""
    begun = time.monotonic()
    siege.good.since()
    siege.good.syncs = syncs_ahead(1 + siege.times(*COMMITS_AT_ONCE.get(scene, (0, 0))))
    with tally.run(name):
        scene(siege)
    siege.good.wait_for_one(6 * PATIENCE)
    commits, full, slowest, longest = siege.good.since()
    with tally.run(f"the good client is served during {name}"):
        expect(commits + full > 0 or siege.good.deviation, "it isn't")
    late = f" besides {1_000 * (longest - slowest):.1f} ms of the machine" * (longest > slowest + STOOD_STILL)
    print(f"  {name}: {time.monotonic() - begun:.1f} s; the good client: {commits} commits, {full} times full, slowest reply "
          f"{1_000 * slowest:.1f} ms{late}; peak {siege.server.memory('VmHWM'):,} bytes", flush=True)
    return commits, slowest


# What the judge must find

def stopped_server(siege):
    """The server stands still, and the machine doesn't."""
    siege.server.process.send_signal(signal.SIGSTOP)
    try:
        time.sleep(siege.times(STOPPED, 1.5 * SLOWEST_REPLY))
    finally:
        siege.server.process.send_signal(signal.SIGCONT)


def judge_stopped(tally, siege):
    """A server that is stopped for longer than the bound is reported, except where the machine stands still at the same time."""
    for is_last in (False, False, True):
        found = Tally("a server that is stopped")
        play(found, siege, stopped_server, siege.times(STOPPED / 2, SLOWEST_REPLY))
        if found.deviations or is_last:
            break
    with tally.run(f"{found.name} is reported"):
        texts = list(found.deviations)
        expect(len(texts) == 1 and "its slowest reply took" in texts[0], f"it is said that {texts}")


def judge_lateness(tally, siege, place):
    """What the machine itself is late counts as that: sleeps that take longer, and syncs, of which so many are waited for."""
    with tally.run("a machine that is late"), Lateness(siege.server.process.pid, place, lambda seconds: time.sleep(seconds + 2 * STOOD_STILL)) as late:
        begun = late.now()
        wait_for(lambda: late.lost(begun, 0) > 4 * STOOD_STILL, "sleeps that overrun aren't counted")
        wait_for(lambda: late.syncs, "there are no syncs")
        late.syncs.append((time.monotonic(), 1.0))
        due = late.lost(begun, 0)
        expect(due >= 1.0 and late.lost(begun, 1_000) >= due + 1_000 / len(late.syncs), "a sync that takes long isn't counted")


class Hostile(Harness):
    NAME = "hostile clients"

    def test_hostile(self):
        tally = self.tally
        with in_memory() as place, besieged(place, SECTORS, is_long()) as siege:
            siege.good.start()
            commits = [play(tally, siege, scene) for scene in SCENES][-1]
            judge_stopped(tally, siege)
            judge_lateness(tally, siege, place)
            siege.good.end()
            judge_memory(tally, siege.server.memory("VmHWM"), siege.idle, commits)
            with tally.run("its error output"):
                expect(siege.server.error_text() == b"", f"it wrote {siege.server.error_text()!r}")


if __name__ == "__main__":
    run_harness()
