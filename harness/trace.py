"""The order of the system's calls, and what a crash between any two of them leaves.

A library that is preloaded writes down what the program does to the data file and its directory, and what it sends. `create` must write
zeros, sync file and directory, and format; an opening syncs the directory and the file, drops the system's copies of its pages, then reads,
and writes nothing, all before `listening` is printed; a COMMIT that writes makes the calls of docs/LOG_FORMAT.md and no other, and its reply
is sent after them; all other requests make none.

From the calls the file is built up again. After each call a crash may leave each sector that was written since the last sync, and no other, with any
bytes. Of these images are taken: all written, none, each one alone, all but one, and one with zeros or ones. A reader of the log's format, in plain
Python, must find in each a beginning of the commits with every one that was answered.

That the two can fail is shown each time: with a library that answers for syncs that it doesn't make, and by calls that are dropped or moved
in what was written down. `long` plays more and larger transactions.
"""
import os
import random
import struct
from dataclasses import replace

from ssikvd_harness.arguments import is_long, run_harness
from ssikvd_harness.cases import Harness
from ssikvd_harness.connection import Connection
from ssikvd_harness.deviations import Deviation, expect
from ssikvd_harness.frames import PONG, frame
from ssikvd_harness.limits import KEY_MAX, VALUE_MAX, WRITES_MAX
from ssikvd_harness.log_format import AT_FIRST, HEAD, SECTOR, Damaged, NotALog, body_sectors, log_image, payload, read_log
from ssikvd_harness.model import Store
from ssikvd_harness.server import Server, folder, run
from ssikvd_harness.settings import PROGRAM, TRACER
from ssikvd_harness.tracing import ADVISE, CLOSE, OPEN, READ_AT, REMOVE, SEND, SYNC, SYNC_DATA, SYNC_NAMES, WRITE, WRITE_AT, Trace

SECTORS_OF_CREATE = 40
ZEROS, ONES = bytes(SECTOR), b"\1" * SECTOR
CLOSED_GATE, OPEN_GATE = ZEROS, b"\1".ljust(SECTOR, b"\0")
MOST_SINGLES = 24    # of more sectors that are unsettled, so many are taken alone


# What is done

def small_steps():
    """Transactions of several sessions: a conflict, one that writes nothing, deletions, values of several sectors, and a full log."""
    steps = ["1 BEGIN", "2 BEGIN", "1 SET a 1", "1 COMMIT", "2 SET a 2", "2 COMMIT", "1 BEGIN", "1 GET a", "1 COMMIT", "1 PING"]
    steps = [(line.split()[0], [word.encode() for word in line.split()[1:]]) for line in steps]
    for writes in ([(b"b", b"v" * 2_000), (b"a", None)], [(b"%02d" % i, b"w") for i in range(WRITES_MAX)], [(b"c", b"w" * VALUE_MAX)],
                   [(b"d", b"")], [(b"e", b"v" * 463)], [(b"e", b"v" * 464)], [(b"full", b"v" * VALUE_MAX)], [(b"f", b"1")]):
        steps += transaction("3", writes)
    return steps


def random_steps(chance, count):
    """Transactions of random writes."""
    for _ in range(count):
        keys = {b"%02d" % chance.randrange(90) for _ in range(chance.choice((1, 1, 2, 5, WRITES_MAX)))}
        yield from transaction("1", [(key, chance.choice((None, b"", b"x" * chance.randrange(2_000)))) for key in sorted(keys)])


def transaction(label, writes):
    asked = [[b"DEL", key] if value is None else [b"SET", key, value] for key, value in writes]
    return [(label, parts) for parts in ([b"BEGIN"], *asked, [b"COMMIT"])]


LARGEST = [(b"%02d" % i + b"k" * (KEY_MAX - 2), b"v" * VALUE_MAX) for i in range(WRITES_MAX)]


class Answered:
    """What a server was asked: each reply, and the writes that it committed, or None."""

    def __init__(self, log, sectors):
        self.before, self.sectors, self.store, self.replies = list(log), sectors, Store(sectors, log), []

    def ask(self, connections, label, parts):
        count = len(self.store.log)
        due = self.store.request(label, parts)
        found = connections[label].ask(frame(*parts))
        expect(found == due, f"{label} {parts[:2]!r} was answered {found!r}, expected {due!r}")
        self.replies.append((due, self.store.log[-1] if len(self.store.log) > count else None))


def serve(data, trace, log, sectors, steps, named=None):
    """Serves these requests, one after the other, and kills the server. The file may be named in another way."""
    answered = Answered(log, sectors)
    with Server(named or data, trace.environment()) as server:
        expect(server.is_listening(), f"no server: {server.error_text()!r}")
        connections = {label: Connection(server.port) for label in {label for label, _ in steps}}
        for label, parts in steps:
            answered.ask(connections, label, parts)
        with Connection(server.port) as last:    # what was sent before its reply has been written down
            expect(last.ask(frame("PING")) == PONG, "PING was refused")
        server.process.kill()
        server.process.wait()
        for connection in connections.values():
            connection.close()
    return answered


# The calls on the data file

WHOLE_FILE = struct.pack("=2q", 0, 0)    # the place and the length of an advice


def own_calls(calls, data):
    """The calls on the file, those on its directory after its opening, and what is sent."""
    files, found = {}, []
    for call in calls:
        if call.kind == OPEN and call.result >= 0:
            files[call.result] = os.path.realpath(call.data.decode())
        name = files.get(call.file if call.kind != OPEN else call.result)
        if name == data or call.kind == SEND or call.kind == REMOVE and os.path.realpath(call.data.decode()) == data:
            found.append(call)
        elif name == os.path.dirname(data) and call.kind in (SYNC, SYNC_DATA):
            found.append(replace(call, kind=SYNC_NAMES))
        if call.kind == CLOSE:
            files.pop(call.file, None)
    expect(any(call.kind == OPEN for call in found), "the data file isn't opened by a call that is seen")
    return found


def sector_writes(call):
    """The sectors that a call writes, each with its bytes."""
    whole = call.at % SECTOR == 0 and len(call.data) % SECTOR == 0 and call.result == len(call.data)
    expect(call.kind == WRITE_AT and whole, f"a call that writes no whole sectors: {call}")
    at = call.at // SECTOR
    return [(at + i, call.data[SECTOR * i:SECTOR * (i + 1)]) for i in range(len(call.data) // SECTOR)]


def steps_of(calls):
    """What these calls do to the file: sectors that are written, and syncs."""
    steps = []
    for call in calls:
        if call.kind in (SYNC, SYNC_DATA):
            expect(call.result == 0, "a sync failed")
            steps.append("sync")
        else:
            steps += sector_writes(call)
    return steps


def shown(steps):
    return ", ".join(step if step == "sync" else f"{step[0]}: {step[1][:4].hex()}.." for step in steps) or "nothing"


def expect_steps(found, due, what):
    expect(found == due, f"{what}: it does {shown(found)[:200]}, expected {shown(due)[:200]}")


def due_steps(log, writes):
    """The steps of a COMMIT of these writes after this log."""
    image = log_image([*log, writes], place_behind([*log, writes]) + 1)
    at, end = place_behind(log), place_behind([*log, writes])
    body = [(i, image[SECTOR * i:SECTOR * (i + 1)]) for i in range(at + 1, end)]
    return [*body, (end, CLOSED_GATE), "sync", (at, OPEN_GATE), "sync"]


def place_behind(log):
    """The place of the closed gate."""
    return 1 + sum(body_sectors(payload(writes)) + 1 for writes in log)


# Their order

def judge_create(calls, data):
    """Zeros all over, both synced, and the format."""
    own = own_calls(calls, data)
    expect(own[0].kind == OPEN and own[0].at & os.O_EXCL, "the file isn't opened as a new one")
    writes = [call for call in own if call.kind == WRITE]
    content = b"".join(call.data for call in writes)
    expect(content == bytes(SECTOR * SECTORS_OF_CREATE), f"{len(content)} bytes are written, or not all are zeros")
    rest = [call for call in own[1:] if call.kind not in (WRITE, CLOSE)]
    expect(own[1:len(writes) + 1] == writes, "there is another call between those that write zeros")
    syncs = [call.kind for call in rest[:2] if call.result == 0]
    expect(syncs == [SYNC, SYNC_NAMES], f"behind the zeros file and directory aren't synced: {rest[:2]}")
    expect_steps(steps_of(rest[2:]), [(1, CLOSED_GATE), "sync", (0, HEAD), "sync"], "the format")
    return rest[2:]


def behind_opening(calls, data):
    """What follows an opening, which syncs the directory and the file, drops the copies of its pages, reads, and listens only then."""
    own = [call for call in own_calls(calls, data) if call.kind != CLOSE]
    expect(own[0].kind == OPEN and not own[0].at & (os.O_CREAT | os.O_TRUNC), "the file is opened as a new one")
    reads = [i for i, call in enumerate(own) if call.kind == READ_AT]
    kinds = [call.kind for call in own[1:4] if call.result == 0]
    due = [SYNC_NAMES, SYNC_DATA, ADVISE]
    expect(reads == list(range(4, 4 + len(reads))) and reads and kinds == due, f"an opening isn't two syncs, an advice, and reads: {own[1:5]}")
    expect(own[3].at == os.POSIX_FADV_DONTNEED and own[3].data == WHOLE_FILE, "the advice isn't to drop the copies of the whole file")
    listening = [i for i, call in enumerate(calls) if call.kind == WRITE and call.data.startswith(b"listening ")]
    last = max(i for i, call in enumerate(calls) if call.kind == READ_AT)
    expect(len(listening) == 1 and last < listening[0], "the server listens before the file is read")
    return own[4 + len(reads):]


def judge_order(calls, data, answered):
    """An opening, and then the calls of each request before its reply."""
    log, since, sent, replies = list(answered.before), [], b"", list(answered.replies)
    for call in behind_opening(calls, data):
        if call.kind != SEND:
            since.append(call)
            continue
        if not replies:
            expect(call.data == PONG and not since, "more is done than was asked for")
            continue
        if not sent:
            writes = replies[0][1]
            expect_steps(steps_of(since), due_steps(log, writes) if writes else [], f"before the reply {replies[0][0][:20]!r}")
            log, since = log + [writes] * bool(writes), []
        expect(not since, "calls between the pieces of a reply")
        sent += call.data
        expect(replies[0][0].startswith(sent), f"{sent[:20]!r} is sent, expected {replies[0][0][:20]!r}")
        if sent == replies[0][0]:
            sent = b""
            replies.pop(0)
    expect(not replies and not since and not sent, f"{len(replies)} replies are not sent")


# Crashes

class Crashes:
    """The file as the calls leave it, and all that is found in the images of crashes."""

    def __init__(self, image, sectors):
        self.settled = {i: image[SECTOR * i:SECTOR * (i + 1)] for i in range(len(image) // SECTOR)}
        self.sectors, self.unsettled, self.known, self.images = sectors, {}, AT_FIRST, 0

    def apply(self, call):
        if call.kind in (SYNC, SYNC_DATA):
            self.settled.update(self.unsettled)
            self.unsettled = {}
            self._learn()
        elif call.kind == WRITE_AT:
            self.unsettled.update(sector_writes(call))
        else:
            expect(call.kind in (OPEN, READ_AT, CLOSE, ADVISE, SYNC_NAMES), f"a call that no log needs: {call}")

    def _learn(self):
        """What is durable of the log is not read again."""
        try:
            self.known = read_log(lambda at: self.settled.get(at, ZEROS), self.sectors, self.known)
        except (NotALog, Damaged):
            self.known = AT_FIRST

    def _images(self):
        """What a crash now may leave of the sectors that aren't durable yet: all as they are in one of two forms, but for one."""
        new, old = self.unsettled, {at: self.settled.get(at, ZEROS) for at in self.unsettled}
        places, few = list(new), MOST_SINGLES // 2
        yield new, None, b""
        yield old, None, b""
        for at in places[:few] + places[max(few, len(places) - few):]:
            yield old, at, new[at]
            yield new, at, old[at]
            for fill in (ZEROS, ONES):
                yield old, at, fill
                yield new, at, fill

    def judge(self, allowed):
        """Each image is read as one of these logs, or not as a log where None is among them."""
        known = self.known if all(at >= self.known[1] for at in self.unsettled) else AT_FIRST
        for form, place, content in self._images():
            self.images += 1
            try:
                found = read_log(
                    lambda at: content if at == place else form[at] if at in form else self.settled.get(at, ZEROS), self.sectors, known)[0]
            except NotALog:
                found = None
            except Damaged as damage:
                raise Deviation(f"a crash leaves a damaged record {damage}") from None
            if found not in allowed:
                count = "no log" if found is None else f"{len(found)} records"
                raise Deviation(f"a crash leaves {count}, allowed are {[log and len(log) for log in allowed]}")


def judge_crashes(calls, data, answered):
    """After each call a crash leaves the commits that were answered, or these and the one that was asked for."""
    crashes = Crashes(log_image(answered.before, answered.sectors), answered.sectors)
    replies = [(len(due), writes) for due, writes in answered.replies]
    log, left, at = list(answered.before), 0, -1
    crashes.judge([log])
    for call in own_calls(calls, data):
        if call.kind == SEND and left == 0 and at + 1 == len(replies):
            continue    # the reply behind all
        if call.kind == SEND:
            if left == 0:    # the reply of the next request begins
                at += 1
                left, writes = replies[at]
                log += [writes] * bool(writes)
            left -= len(call.data)
        else:
            crashes.apply(call)
        asked = replies[at + 1][1] if at + 1 < len(replies) else None
        crashes.judge([log, log + [asked]] if asked else [log])
    return crashes.images


def judge_crashes_of_create(calls):
    """Once the zeros and the name are durable a crash leaves no log or an empty one, and the second once all is done."""
    crashes = Crashes(bytes(SECTOR * SECTORS_OF_CREATE), SECTORS_OF_CREATE)
    crashes.judge([None])
    for call in calls:
        crashes.apply(call)
        crashes.judge([None, []])
    crashes.judge([[]])
    return crashes.images


# That they can fail

def is_reported(judge, *arguments):
    try:
        judge(*arguments)
    except Deviation:
        return True
    return False


def behind_commits(calls, data, answered):
    """Of each COMMIT that wrote: the places of its calls and of its reply's first piece."""
    found, since, sent, replies = [], [], 0, list(answered.replies)
    places = {id(call): place for place, call in enumerate(calls)}
    for call in own_calls(calls, data):
        if not replies:
            break
        if call.kind == SYNC_NAMES:
            continue    # told anew from the call that was written down
        place = places[id(call)]
        if call.kind == SEND:
            if sent == 0 and replies[0][1]:
                found.append((since, place))
            sent, since = sent + len(call.data), []
            if sent == len(replies[0][0]):
                sent = 0
                replies.pop(0)
        elif call.kind in (WRITE_AT, SYNC, SYNC_DATA):
            since.append(place)
    return found


def changed(calls, data, answered):
    """Calls of another order: a sync is dropped, a write is dropped, a reply is sent before the last sync, the gate opens first."""
    for places, reply in behind_commits(calls, data, answered):
        syncs = [i for i in places if calls[i].kind != WRITE_AT]
        for i in syncs:
            yield "a sync that isn't made", calls[:i] + calls[i + 1:]
        first, last = places[0], places[-1]
        yield "a body that isn't written", calls[:first] + calls[first + 1:]
        yield "a reply before the last sync", calls[:last] + [calls[reply]] + calls[last:reply] + calls[reply + 1:]
        gate = last - 1
        yield "a gate that opens before the body", calls[:first] + [calls[gate]] + calls[first:gate] + calls[gate + 1:]


def changed_openings(calls, data):
    """Calls of another opening: a sync or the advice is left out, the advice comes before the sync of the file, or `listening` comes first."""
    advised = next(at for at, call in enumerate(calls) if call.kind == ADVISE)
    places = [at for at, call in enumerate(calls[:advised + 1]) if call.kind in (SYNC, SYNC_DATA, ADVISE)][-3:]
    for name, place in zip(("the directory's sync", "the file's sync", "the advice"), places):
        yield f"{name} left out of the opening", calls[:place] + calls[place + 1:]
    sync, advice = places[1:]
    first_sector = replace(calls[advice], data=struct.pack("=2q", 0, SECTOR))
    yield "an advice for the first sector alone", calls[:advice] + [first_sector] + calls[advice + 1:]
    yield "an advice before the sync", calls[:sync] + [calls[advice]] + calls[sync:advice] + calls[advice + 1:]
    line = next(i for i, call in enumerate(calls) if call.kind == WRITE and call.data.startswith(b"listening "))
    yield "a server that listens before it has synced", calls[:places[0]] + [calls[line]] + calls[places[0]:line] + calls[line + 1:]


def show_that_they_fail(tally, calls, data, answered):
    for what, others in changed_openings(calls, data):
        with tally.run(f"{what}, which judge order is to report"):
            expect(is_reported(judge_order, others, data, answered), f"{what} isn't reported")
    for what, others in changed(calls, data, answered):
        for judge in (judge_order, judge_crashes):
            with tally.run(f"{what}, which {judge.__name__.replace('_', ' ')} is to report"):
                expect(is_reported(judge, others, data, answered), f"{what} isn't reported by {judge.__name__.replace('_', ' ')}")


# All of it

def make(tally, place, data, named=None):
    """Creates the file, which may be named in another way. How many images of crashes were there?"""
    trace, images = Trace(place, f"create {os.path.basename(data)}"), 0
    with tally.run("create"):
        found = run(["create", "--data", named or data, "--sectors", str(SECTORS_OF_CREATE)], environment=trace.environment())
        expect(found == (0, b"", b""), f"create answered {found}")
        own = judge_create(trace.calls(), data)
        images = judge_crashes_of_create(own)
    return images


def one_server(tally, place, data, log, sectors, steps, name, named=None):
    """A server: the order of its calls, and what crashes leave. The log behind it, and how many images there were."""
    trace, answered, images = Trace(place, name), None, 0
    with tally.run(f"{name}, its replies"):
        answered = serve(data, trace, log, sectors, steps, named)
    if answered is None:
        return log, 0
    calls = trace.calls()
    with tally.run(f"{name}, the order of calls"):
        judge_order(calls, data, answered)
    with tally.run(f"{name}, crashes"):
        images = judge_crashes(calls, data, answered)
    if len(calls) < 2_000:
        show_that_they_fail(tally, calls, data, answered)
    return answered.store.log, images


def by_bare_name(tally, place):
    """A file that is made and served by its name alone: the folder that is synced is the one that it stands in."""
    data, before = os.path.join(place, "bare"), os.getcwd()
    os.chdir(place)
    try:
        images = make(tally, place, data, "bare")
        return images + one_server(tally, place, data, [], SECTORS_OF_CREATE, small_steps()[:20], "server by a bare name", "bare")[1]
    finally:
        os.chdir(before)


def folders_synced(calls):
    """The folders that are synced before the first read of a file at a place, in their order."""
    files, found = {}, []
    for call in calls:
        if call.kind == READ_AT:
            break
        if call.kind == OPEN and call.result >= 0:
            files[call.result] = os.path.realpath(call.data.decode())
        elif call.kind in (SYNC, SYNC_DATA) and call.result == 0 and os.path.isdir(files.get(call.file, "")):
            found.append(files[call.file])
    return found


def by_link(tally, place):
    """A file behind a link in another folder: the folders of the link and of the file are synced. A tool that synced the link's alone is
    reported."""
    links, there = os.path.join(place, "links"), os.path.join(place, "there")
    data, link = os.path.join(there, "data"), os.path.join(links, "link")
    os.mkdir(links)
    os.mkdir(there)
    os.symlink(os.path.join("..", "there", "data"), link)
    with open(data, "wb") as file:
        file.write(log_image([], SECTORS_OF_CREATE))
    images = one_server(tally, place, data, [], SECTORS_OF_CREATE, small_steps()[:20], "server behind a link", link)[1]
    calls = Trace(place, "server behind a link").calls()
    with tally.run("a server behind a link, the folders"):
        expect(folders_synced(calls) == [links, there], f"synced are {folders_synced(calls)}")
    return images


def without_syncs(tally, place, data, sectors, steps):
    """A server whose syncs of the file succeed and aren't made: both must report it."""
    trace = Trace(place, "without syncs", skips_sync=True)
    with tally.run("a server whose syncs aren't made"):
        answered = serve(data, trace, [], sectors, steps)
        for judge in (judge_order, judge_crashes):
            expect(is_reported(judge, trace.calls(), data, answered), f"{judge.__name__} doesn't report that no sync is made")


class Traced(Harness):
    NAME = "order of calls, and crashes"
    NEEDS = (PROGRAM, TRACER)

    def test_trace(self):
        tally, chance = self.tally, random.Random(2_008)
        with folder() as place:
            place = os.path.realpath(place)
            data = os.path.join(place, "data")
            images = make(tally, place, data)
            log, more = one_server(tally, place, data, [], SECTORS_OF_CREATE, small_steps(), "first server")
            images += more
            _, more = one_server(tally, place, data, log, SECTORS_OF_CREATE, transaction("1", [(b"g", b"2")]), "second server")
            images += more
            images += by_bare_name(tally, place) + by_link(tally, place)
            lying = os.path.join(place, "lying")
            with open(lying, "wb") as file:
                file.write(log_image([], SECTORS_OF_CREATE))
            without_syncs(tally, place, lying, SECTORS_OF_CREATE, small_steps()[:20])
            sectors = 8_192 if is_long() else 1_200
            large = os.path.join(place, "large")
            with open(large, "wb") as file:
                file.write(log_image([], sectors))
            steps = [*random_steps(chance, 60 if is_long() else 6), *transaction("1", LARGEST), *transaction("1", [(b"a", b"1")])]
            images += one_server(tally, place, large, [], sectors, steps, "large transactions")[1]
        tally.more = f"; {images} images of crashes"


if __name__ == "__main__":
    run_harness()
