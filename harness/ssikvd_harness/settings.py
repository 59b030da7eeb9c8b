"""Where things are, and how long a harness waits. `SSIKVD` in the environment names another program, `PATIENCE` another time."""
import os

HARNESS = os.path.dirname(os.path.dirname(os.path.abspath(__file__)))
TOP = os.path.dirname(HARNESS)
OUT = os.path.join(HARNESS, "out")
# The built programs, by the variable of the environment that names another one, and the crate that leaves it.
PROGRAMS = {"SSIKVD": "ssikvd", "REFUSED_MEMORY": "test_refused_memory", "PLAIN_PLAY": "test_plain_play"}
PROGRAM, REFUSED_MEMORY, PLAIN_PLAY = (
    os.path.abspath(os.environ.get(name) or os.path.join(TOP, "crates", crate, "out", crate)) for name, crate in PROGRAMS.items())
SHIM = os.path.join(OUT, "refuse.so")
TRACER = os.path.join(OUT, "trace.so")
PATIENCE = float(os.environ.get("PATIENCE") or 20.0)    # seconds for a reply; more for a machine that does much else


def text_of(name: str) -> str:
    """The text of a file of the repository."""
    with open(os.path.join(TOP, name), encoding="utf-8") as file:
        return file.read()


def bytes_of(name: str) -> bytes:
    """The bytes of a file."""
    with open(name, "rb") as file:
        return file.read()
