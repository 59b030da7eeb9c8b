"""Numbers of 64 bits that a library shares which is preloaded into a program: both sides read and write them at any moment."""

import mmap
import os
import struct
import subprocess
import tempfile

from servers import HERE, PROGRAMS


def build(name):
    """The library of this name. It is built where it isn't."""
    subprocess.run(["make", "-s", "-C", HERE, f"out/{name}.so"], check=True)
    return os.path.join(PROGRAMS, f"{name}.so")


class Shared:
    """So many numbers, in a file that the library finds by a variable of the environment."""

    def __init__(self, library, variable, count):
        self.library, self.variable = os.path.abspath(library), variable
        file, self.name = tempfile.mkstemp(prefix="ssikvd-shared-")
        # A server may run as another user.
        os.fchmod(file, 0o666)
        with open(file, "r+b") as opened:
            opened.write(bytes(8 * count))
            opened.flush()
            self.numbers = mmap.mmap(opened.fileno(), 8 * count)

    def get(self, number):
        return struct.unpack_from("=Q", self.numbers, 8 * number)[0]

    def put(self, number, value):
        struct.pack_into("=Q", self.numbers, 8 * number, value)

    def remove(self):
        self.numbers.close()
        os.remove(self.name)


def environment(*shared, more=()):
    """That of a program into which these libraries are preloaded, the first in front, and behind them more that share nothing."""
    libraries = [*(it.library for it in shared), *more]
    return {**os.environ, "LD_PRELOAD": " ".join(libraries), **{it.variable: it.name for it in shared}}


class Syncs(Shared):
    """The syncs of a program: how long each takes at least, how many there were, and what they took (`slow_sync.c`)."""

    def __init__(self, library=None):
        super().__init__(library or build("slow_sync"), "SLOW_SYNC", 3)

    def slow_down(self, milliseconds):
        """From now on each sync takes at least so long."""
        self.put(0, round(1e6 * milliseconds))

    def count(self):
        return self.get(1)

    def taken_ms(self):
        return self.get(2) / 1e6
