"""What one connection meets while others keep the server busy, and the rates of large replies: plain clients in Python."""

import contextlib
import multiprocessing
import os
import select
import subprocess
import time

from servers import PROGRAMS, Failure, connect
from ssikvd_harness.frames import ABORT, BEGIN, COMMIT, PING, frame

FLOODING, WAVE, BUSY_SECONDS = 60, 8, 3.0
BURST, WRITERS = 10_000, 63
VALUE_OF_RANGE, PAIRS_OF_RANGE = 4_096, 128


def exchange(connection, request, length):
    """A request, and the reply, of which the length is known."""
    connection.sendall(request)
    came = bytearray()
    while len(came) < length:
        piece = connection.recv(1 << 20)
        if not piece:
            raise Failure("the connection was closed")
        came += piece
    return came


def fill_large(ssikvd):
    """Pairs for the largest RANGE."""
    keys = [b"large%03d" % i for i in range(PAIRS_OF_RANGE)]
    with connect(ssikvd.address) as connection:
        for part in (keys[:64], keys[64:]):
            batch = BEGIN + b"".join(frame(b"SET", key, b"x" * VALUE_OF_RANGE) for key in part) + COMMIT
            reply = exchange(connection, batch, 5 + 5 * len(part) + 4)
            if not reply.startswith(b"+OK") or b"-" in reply:
                raise Failure(f"large values were answered {bytes(reply[-80:])!r}")
    ssikvd.committed += 2


def range_request(pairs):
    return frame(b"RANGE", b"large", b"largf", b"%d" % pairs)


def flood(address, seconds):
    """Connections that each have some of the largest RANGE under way all the time."""
    wave = BEGIN + range_request(PAIRS_OF_RANGE) * WAVE + ABORT
    connections = [connect(address) for _ in range(FLOODING)]
    poll, buffer, due, end = select.epoll(), bytearray(1 << 20), {}, time.monotonic() + seconds
    for connection in connections:
        connection.setblocking(False)
        connection.send(wave * 4)
        poll.register(connection.fileno(), select.EPOLLIN)
        due[connection.fileno()] = connection
    taken = {number: 0 for number in due}
    while time.monotonic() < end:
        for number, _ in poll.poll(0.1):
            with contextlib.suppress(BlockingIOError):
                taken[number] += due[number].recv_into(buffer)
                if taken[number] > WAVE * PAIRS_OF_RANGE * VALUE_OF_RANGE:
                    taken[number] = 0
                    due[number].send(wave)


def burst(address, seconds):
    """A connection that pipelines so many requests, again and again."""
    request, answer = PING * BURST, 7 * BURST
    with connect(address) as connection:
        connection.setblocking(False)
        poll, end = select.poll(), time.monotonic() + seconds
        poll.register(connection, select.POLLIN | select.POLLOUT)
        while time.monotonic() < end:
            to_send, to_come = memoryview(request), answer
            while to_come > 0:
                poll.modify(connection, select.POLLIN | (select.POLLOUT if to_send else 0))
                poll.poll(1000)
                with contextlib.suppress(BlockingIOError):
                    to_send = to_send[connection.send(to_send):]
                with contextlib.suppress(BlockingIOError):
                    to_come -= len(connection.recv(1 << 20))


def times_of_pings(ssikvd):
    """How long each PING of one connection takes, in ms, for some seconds."""
    times, end = [], time.monotonic() + BUSY_SECONDS
    with connect(ssikvd.address) as connection:
        while time.monotonic() < end:
            start = time.monotonic()
            exchange(connection, PING, 7)
            times.append(1000 * (time.monotonic() - start))
    return sorted(times)


def pings_beside(ssikvd, what, other):
    """The figures of PING while a process keeps the server busy."""
    other.start()
    time.sleep(0.5)
    times = times_of_pings(ssikvd)
    other.join()
    for name, value in (("99th of 100", times[len(times) * 99 // 100]), ("longest", times[-1])):
        text = f"{value:.2f} ms; median {times[len(times) // 2]:.2f} ms, {len(times)} PINGs"
        yield {"what": f"PING next to {what}, {name}", "figure": value, "unit": "ms", "text": text}


def pings_beside_ranges(ssikvd):
    what = f"{FLOODING} connections that pipeline RANGE of {PAIRS_OF_RANGE} values of {VALUE_OF_RANGE} bytes"
    yield from pings_beside(ssikvd, what, multiprocessing.Process(target=flood, args=(ssikvd.address, BUSY_SECONDS + 1)))


def pings_beside_burst(ssikvd):
    what = f"one connection that pipelines {BURST:,} requests"
    yield from pings_beside(ssikvd, what, multiprocessing.Process(target=burst, args=(ssikvd.address, BUSY_SECONDS + 1)))


class Writers:
    """Connections that commit without pause, of the load generator. It has the shape of a process."""

    def __init__(self, options, ssikvd):
        self.options, self.ssikvd = options, ssikvd

    def start(self):
        words = [os.path.join(PROGRAMS, "load"), "--server", "resp", "--address", self.ssikvd.address, "--work", "write", "--connections", str(WRITERS)]
        words += ["--seconds", str(BUSY_SECONDS + 1), "--keys", str(self.options.keys), "--value-bytes", str(self.options.value_bytes)]
        self.process = subprocess.Popen(words, stdout=subprocess.PIPE, text=True)

    def join(self):
        line, _ = self.process.communicate()
        if self.process.returncode:
            raise Failure("the connections that commit failed")
        self.ssikvd.committed += int(dict(it.split("=") for it in line.split())["committed"])


def pings_beside_writers(options, ssikvd):
    yield from pings_beside(ssikvd, f"{WRITERS} connections that commit without pause", Writers(options, ssikvd))


def rates_of_large_ranges(options, ssikvd):
    """Rates of one connection's RANGE of large values."""
    with connect(ssikvd.address) as connection:
        for pairs in (64, 128):
            request = range_request(pairs)
            exchange(connection, BEGIN, 5)
            length = len(b"*%d\r\n" % (2 * pairs)) + pairs * (len(frame(b"large000", b"x" * VALUE_OF_RANGE)) - 4)
            end, count = time.monotonic() + options.seconds, 0
            while time.monotonic() < end:
                exchange(connection, request, length)
                count += 1
            exchange(connection, ABORT, 5)
            rate = count / options.seconds
            yield {"what": f"RANGE of {pairs} values of {VALUE_OF_RANGE} bytes, one connection", "figure": rate, "unit": "a second", "text": f"{rate:,.0f} a second"}


def busy_figures(options, ssikvd):
    """All of these figures."""
    fill_large(ssikvd)
    yield from pings_beside_ranges(ssikvd)
    yield from pings_beside_burst(ssikvd)
    yield from pings_beside_writers(options, ssikvd)
    yield from rates_of_large_ranges(options, ssikvd)
