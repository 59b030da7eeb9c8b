"""The frames of ../../frames.txt: `python3 -m unittest discover -s tests` with src on PYTHONPATH, or the package installed."""
import pathlib
import unittest

from ssikvd import Refused, Unreachable, after, end_of_prefix
from ssikvd._protocol import decode, encode

FRAMES = pathlib.Path(__file__).parents[2] / "frames.txt"


def bytes_of(word):
    return b"" if word == "-" else bytes.fromhex(word)


def rows(kind):
    """The rows of a kind: the words before `=`, and those after it."""
    lines = [line.split() for line in FRAMES.read_text().splitlines() if line.startswith(kind + " ")]
    return [(line[1:line.index("=")], line[line.index("=") + 1:]) if "=" in line else (line[1:], []) for line in lines]


def shown(reply):
    """A reply in the words of a row."""
    if isinstance(reply, Refused):
        return ["refused", reply.text.encode().hex()]
    if isinstance(reply, list):
        return ["pairs", *(part.hex() or "-" for part in reply)]
    return ["none"] if reply is None else ["number", str(reply)] if isinstance(reply, int) else [reply.hex() or "-"]


class Frames(unittest.TestCase):
    def test_requests(self):
        for parts, frame in rows("request"):
            self.assertEqual(encode(*map(bytes_of, parts)), bytes_of(frame[0]))

    def test_replies(self):
        for frame, due in rows("reply"):
            data = bytes_of(frame[0])
            reply, end = decode(data + b"+OK\r\n")
            self.assertEqual(end, len(data))
            self.assertEqual(shown(reply), due[1:] if due[0] in ("done", "value") else due)
            for length in range(len(data)):
                self.assertIsNone(decode(data[:length]))

    def test_bad_replies(self):
        for frame, _ in rows("bad"):
            with self.assertRaises(Unreachable):
                decode(bytes_of(frame[0]))
        with self.assertRaises(Unreachable):
            decode(b"+" + b"a" * 1_000)


class Keys(unittest.TestCase):
    def test_after(self):
        self.assertEqual(after("a"), b"a\0")
        self.assertEqual(after(b"a" * 256), b"a" * 255 + b"b")
        self.assertEqual(after(b"a" + b"\xff" * 255), b"b")
        self.assertIsNone(after(b"\xff" * 256))

    def test_end_of_prefix(self):
        self.assertEqual(end_of_prefix("user:"), b"user;")
        self.assertEqual(end_of_prefix(b"a\xff"), b"b")
        self.assertIsNone(end_of_prefix(b""))
        self.assertIsNone(end_of_prefix(b"\xff\xff"))


if __name__ == "__main__":
    unittest.main()
