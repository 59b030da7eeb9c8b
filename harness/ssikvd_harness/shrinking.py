"""Lists of operations with which something fails, and the few of them with which it still does."""
import time
from collections.abc import Callable, Sequence
from typing import Any

from .deviations import Deviation

SECONDS_MAX = 60.0
Play = Callable[[list[Any]], Any]    # plays a list of operations, and raises what is wrong


class Failed(Deviation):
    """A deviation, the operations that led there, what plays some of them again, and how they are shown."""

    def __init__(self, text: str, operations: Sequence[Any], play: Play, show: Callable[[list[Any]], Any] = list) -> None:
        super().__init__(text)
        self.operations, self.play, self.show = list(operations), play, show


def told(found: BaseException) -> str:
    return str(found) if isinstance(found, Deviation) else f"{type(found).__name__}: {found}"


def play_whole(operations: list[Any], play: Play, again: Play | None = None, show: Callable[[list[Any]], Any] = list) -> Any:
    """Plays a list of operations. Its deviation is reported with them, and with what plays some of them again."""
    try:
        return play(operations)
    except Exception as found:    # a wrong reply may also break what reads it
        raise Failed(told(found), operations, again or play, show) from None


def does_fail(operations: list[Any], play: Play) -> bool:
    try:
        play(operations)
    except Exception:
        return True
    return False


def shortest_beginning(operations: list[Any], play: Play, end: float) -> list[Any]:
    """The shortest beginning that fails, by bisection; a longer one where the time is over first."""
    least, most = 0, len(operations)
    while least + 1 < most and time.monotonic() < end:
        middle = (least + most) // 2
        if does_fail(operations[:middle], play):
            most = middle
        else:
            least = middle
    return operations[:most]


def without_pieces(operations: list[Any], play: Play, size: int, end: float) -> list[Any]:
    """The operations without those pieces of this size that aren't needed."""
    at = 0
    while at < len(operations) and time.monotonic() < end:
        fewer = operations[:at] + operations[at + size:]
        if fewer and does_fail(fewer, play):
            operations = fewer
        else:
            at += size
    return operations


def shrunk(operations: Sequence[Any], play: Play, seconds: float = SECONDS_MAX) -> list[Any] | None:
    """Fewer operations that fail: of those that are left each is needed, unless the time is over first. None where they didn't fail again."""
    end = time.monotonic() + seconds
    left = list(operations)
    if not does_fail(left, play):
        return None
    left = shortest_beginning(left, play, end)
    size, before = len(left), 0
    while (size > 1 or len(left) != before) and len(left) > 1 and time.monotonic() < end:
        size, before = max(1, size // 2), len(left)
        left = without_pieces(left, play, size, end)
    return left
