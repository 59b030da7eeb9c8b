"""What ten libraries for RESP do where the reply to a COMMIT is lost, and how a refusal arrives: the table of docs/CLIENTS.md.

A proxy cuts the first connection after a COMMIT was answered and before its reply is passed on. It counts the COMMITs that come, and the
commits that were made. Each library is tried as it is by default and with its resending switched off, request by request and with a
transaction sent whole. The programs in the folder `resending` send the lines of their input, and print what they are given for each.

A library that isn't installed is left out, and a line says so.
"""
import contextlib
import os
import re
import shutil
import subprocess

from ssikvd_harness.arguments import run_harness
from ssikvd_harness.cases import Harness
from ssikvd_harness.connection import Connection
from ssikvd_harness.cutting import Proxy
from ssikvd_harness.deviations import Deviation, expect, missing
from ssikvd_harness.frames import frame
from ssikvd_harness.languages import shell
from ssikvd_harness.server import Server, folder, fresh
from ssikvd_harness.settings import HARNESS, PATIENCE, PROGRAM, text_of

GO = "GO111MODULE=off GOPATH=/usr/share/gocode"
LIBRARIES = {    # the package, what builds the program, what runs it
    "redis-py": ("python3-redis", "/usr/bin/python3 -c 'import redis'", "/usr/bin/python3 redis_py.py"),
    "hiredis": ("libhiredis-dev", "cc -o hiredis hiredis.c -lhiredis", "./hiredis"),
    "ruby-redis": ("ruby-redis", "ruby -e 'require \"redis\"'", "ruby ruby_redis.rb"),
    "phpredis": ("php-redis", "php -r 'exit((int) !extension_loaded(\"redis\"));'", "php phpredis.php"),
    "predis": ("php-predis", "php -r 'require \"Predis/autoload.php\";'", "php predis.php"),
    "redigo": ("golang-github-gomodule-redigo-dev", f"{GO} go build -o redigo redigo.go", "./redigo"),
    "go-redis": ("golang-gopkg-redis.v5-dev", f"{GO} go build -o go_redis go_redis.go", "./go_redis"),
    "Redis.pm": ("libredis-perl", "perl -MRedis -e 1", "perl redis_pm.pl"),
    "lua-redis": ("lua-redis", "lua5.1 -e 'require \"redis\"'", "lua5.1 lua_redis.lua"),
    "node-redis": ("node-redis", "NODE_PATH=/usr/share/nodejs node -e 'require(\"redis\")'", "NODE_PATH=/usr/share/nodejs node node_redis.js"),
}
NUMBER = re.compile(rb":(\d+)\r\n")
WHOLE = "BEGIN\nSET a 1\nCOMMIT\n"
LAST_REPLY, ALL_REPLIES, CONFLICT = range(3)
COLUMNS = 7
TRIED = re.compile(r"(\S+) \d+(?:\.\d+)+")    # a library with its version; a row of any other isn't compared
ARRIVALS = {"raised": "exception", "dies": "exception", "rejects": "exception", "error": "error", "reply of type error": "error reply",
            "gave false": "`false`", 'gave "': "string"}


class OneCut(Proxy):
    """Cuts the first connection once a COMMIT was answered, with its reply alone held back or with every reply; or lets another commit
    come before that COMMIT."""

    def __init__(self, port, what):
        super().__init__(port, 0.0)
        self.what = what

    def _pass_on(self, name, request, before, client, server):
        is_first = not self.names[b"COMMIT"]
        self.names[name] += 1
        if is_first and name == b"COMMIT" and self.what == CONFLICT:
            commit_one(self.port, b"a")
        server.send(request)
        reply = server.reply()
        if is_first and name == b"COMMIT" and self.what in (LAST_REPLY, ALL_REPLIES) or reply is None:
            return False
        if not (is_first and self.what == ALL_REPLIES):
            client.sendall(reply)
        return True


def commit_one(port, key):
    """Commits one write, and gives its number."""
    with Connection(port) as link:
        for parts in (("BEGIN",), ("SET", key, "0")):
            link.ask(frame(*parts))
        found = NUMBER.fullmatch(link.ask(frame("COMMIT")) or b"")
        expect(found, "a lone COMMIT was refused")
        return int(found[1])


class Library:
    """One library: its row of the document's table, and its program."""

    def __init__(self, name, place):
        self.name, self.place = name, place
        self.package, self.build, self.command = LIBRARIES[name]

    def tell(self, mode, form, what, lines):
        """What the program printed, how many COMMITs came from it, and how many commits were made."""
        with folder() as data, Server(fresh(data, 64)) as server, contextlib.closing(OneCut(server.port, what)) as proxy:
            words = f"exec env {self.command} {proxy.own_port} {mode} {form}"
            ran = subprocess.run(["bash", "-c", words], cwd=self.place, input=lines, capture_output=True, text=True, timeout=PATIENCE)
            expect(ran.stdout, f"it printed nothing, and {ran.stderr[-300:]}")
            commits = commit_one(server.port, b"z") - 1 - (what == CONFLICT)
            return ran.stdout.splitlines(), proxy.names[b"COMMIT"], commits

    def sends_again(self, mode):
        """Does it send a request again, or a batch? And does it reconnect for the next request?"""
        each, requests, commits = self.tell(mode, "each", LAST_REPLY, WHOLE + "GET a\n")
        expect(commits == 1, f"COMMIT was sent {requests} times and made {commits} commits")
        _, batches, made = self.tell(mode, "whole", ALL_REPLIES, WHOLE)
        expect(made == batches, f"a batch that was sent {batches} times made {made} commits")
        return requests > 1 or batches > 1, "none" in each[-1] or each[-1] == "gave false"

    def arrivals(self):
        """How a refusal of its own and one of another's doing arrive."""
        lone, _, _ = self.tell("as-is", "each", None, "GET a\n")
        conflict, _, commits = self.tell("as-is", "each", CONFLICT, WHOLE)
        expect(commits == 0, f"{commits} commits were made despite a conflict")
        return arrival(lone[-1]), arrival(conflict[-1])


def arrival(line):
    """The document's words for what a program printed of a refusal."""
    for start, words in ARRIVALS.items():
        if line.startswith(start):
            return words
    raise Deviation(f"a refusal arrived as {line!r}")


def rows():
    """The rows of the document's table of libraries that were tried: the cells behind the name, by the name without its version."""
    cells = [[cell.strip() for cell in line.split("|")[1:-1]] for line in text_of("docs/CLIENTS.md").splitlines() if line.startswith("|")]
    return {TRIED.fullmatch(row[0])[1]: row[1:] for row in cells if len(row) == COLUMNS and TRIED.fullmatch(row[0])}


def compare(tally, library, row):
    """Is the row what was seen?"""
    def yes(found):
        return "yes" if found else "no"

    with tally.run(f"{library.name}, as it is by default"):
        again, anew = library.sends_again("as-is")
        expect([yes(again), yes(anew)] == row[:2], f"it sends again: {yes(again)}, reconnects: {yes(anew)}; docs/CLIENTS.md has {row[:2]}")
    with tally.run(f"{library.name}, switched off"):
        again, _ = library.sends_again("off")
        expect(not again, "it sends again though that is switched off")
    with tally.run(f"{library.name}, refusals"):
        found = list(library.arrivals())
        expect(found == row[3:5], f"refusals arrive as {found}; docs/CLIENTS.md has {row[3:5]}")


class Resending(Harness):
    NAME = "resending"
    NEEDS = (PROGRAM,)

    def test_resending(self):
        due = rows()
        with folder() as place:
            programs = os.path.join(place, "resending")
            shutil.copytree(os.path.join(HARNESS, "resending"), programs)
            for name in LIBRARIES:
                library = Library(name, programs)
                if shell(library.build, programs)[0]:
                    missing(name, f"Debian's {library.package}")
                    continue
                with self.tally.run(f"{name}: its row"):
                    expect(name in due, "docs/CLIENTS.md has no row for it")
                    compare(self.tally, library, due[name])


if __name__ == "__main__":
    run_harness()
