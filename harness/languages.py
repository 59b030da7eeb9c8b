"""The example clients in seven languages against `serve`: workers add to one counter, and each addition is made once.

The commands that build and run them are those of the table of docs/CLIENTS.md. Their connections pass through a proxy that cuts some before a COMMIT
is passed on, some after it and before its reply comes back, and some amid a transaction. At first 64 other transactions are open, so that BEGIN is
refused. Halfway the server is killed and started again. The proxy looks at the first request of each connection, which is a BEGIN: not HELLO, and not
a request that a library sends again by itself.

`quick` does all of this in one run for each language, `long` also each thing alone, with more additions. A language that isn't installed
is left out, and a line says so.
"""
import contextlib
import os
import shutil
import subprocess

from ssikvd_harness.arguments import is_long, run_harness
from ssikvd_harness.cases import Harness
from ssikvd_harness.deviations import expect, missing
from ssikvd_harness.languages import ENVIRONMENT, WORKERS, Run, shell
from ssikvd_harness.server import folder
from ssikvd_harness.settings import HARNESS, PROGRAM, TOP

DOCUMENT = os.path.join(TOP, "docs", "CLIENTS.md")
EXAMPLES = os.path.join(TOP, "examples", "clients")
AS_TYPED = "7777 visits 8 15"
PROBES = {    # what ends with status 0 where the language and its library are there
    "Python": "python3 -c 0",
    "Go": "GO111MODULE=off GOPATH=/usr/share/gocode go list github.com/gomodule/redigo/redis",
    "JavaScript": "NODE_PATH=/usr/share/nodejs node -e 'require(\"redis\"), require(\"generic-pool\")'",
    "Java": "javac -version && javap -cp /usr/share/java/netty-codec-redis.jar io.netty.handler.codec.redis.RedisDecoder",
    "C": "echo '#include <hiredis/hiredis.h>' | cc -fsyntax-only -x c -",
    "PHP": "php -r 'exit(extension_loaded(\"redis\") && extension_loaded(\"pcntl\") ? 0 : 1);'",
    "Ruby": "ruby -e 'require \"redis\"; require \"connection_pool\"'",
}


class Language:
    """A row of the document's table."""

    def __init__(self, name, packages, build, run):
        self.name, self.packages, self.build, self.run = name, packages, build.strip("`"), run.strip("`")

    def is_there(self):
        return shell(PROBES[self.name], HARNESS)[0] == 0

    def start(self, place, port, times):
        """The client as a process, which adds this many times with each worker."""
        command = self.run.removesuffix(AS_TYPED) + f"{port} visits {WORKERS} {times}"
        return subprocess.Popen(["bash", "-c", "exec env " + command], cwd=place, env=ENVIRONMENT, stdout=subprocess.PIPE,
                                stderr=subprocess.PIPE, text=True, start_new_session=True)


def languages():
    """The languages of the document's table, in its order."""
    with open(DOCUMENT, encoding="utf-8") as file:
        rows = [[cell.strip() for cell in line.split("|")[1:-1]] for line in file if line.endswith(AS_TYPED + "` |\n")]
    found = [Language(*row) for row in rows]
    expect([one.name for one in found] == list(PROBES), f"docs/CLIENTS.md has a table of {[one.name for one in found]}")
    return found


@contextlib.contextmanager
def run_of(tally, language, what, built, share, times):
    with folder() as place, tally.run(f"{language.name}: {what}"), Run(language, built, place, share, times) as run:
        yield run


def all_at_once(tally, language, built):
    """Conflicts, 64 other transactions, connections that are cut, and a kill."""
    with run_of(tally, language, "all at once", built, 0.15, 12) as run:
        run.among_others()
        run.kill(run.due // 2)
        _, tries = run.result()
        expect(run.proxy.cuts > 5, f"only {run.proxy.cuts} connections were cut")
        print(f"  {language.name}: {run.due} additions in {tries} tries, {run.proxy.cuts} connections cut at a COMMIT, one kill", flush=True)


def conflicts(tally, language, built):
    with run_of(tally, language, "conflicts", built, 0.0, 100) as run:
        run.process = run.begin()
        added, tries = run.result()
        expect(added == run.due < tries, f"{added} were added in {tries} tries")
        run.process = run.begin()
        added_again, _ = run.result()
        expect(added_again == 0, f"the same program with the same name added {added_again} more")
        print(f"  {language.name}: {tries / added:.1f} tries for each commit, with {WORKERS} writers of one key", flush=True)


def cuts(tally, language, built):
    with run_of(tally, language, "cut connections", built, 0.4, 40) as run:
        run.process = run.begin()
        run.result()
        expect(run.proxy.cuts > run.due // 4, f"only {run.proxy.cuts} connections were cut")
        print(f"  {language.name}: {run.due} additions, {run.proxy.cuts} connections cut at a COMMIT", flush=True)


def kills(tally, language, built):
    with run_of(tally, language, "kills", built, 0.0, 100) as run:
        run.process = run.begin()
        for number in range(1, 6):
            run.kill(number * run.due // 6)
        run.result()


class Languages(Harness):
    NAME = "languages"
    NEEDS = (PROGRAM,)

    def test_languages(self):
        for language in languages():
            if not language.is_there():
                missing(f"the client in {language.name}", f"Debian's {language.packages}")
                continue
            with folder() as place:
                built = os.path.join(place, "clients")
                shutil.copytree(EXAMPLES, built)
                with self.tally.run(f"{language.name}: build"):
                    found = shell(language.build, built)
                    expect(found[0] == 0, f"{language.build} ended with {found}")
                for part in (all_at_once, *((conflicts, cuts, kills) if is_long() else ())):
                    part(self.tally, language, built)


if __name__ == "__main__":
    run_harness()
