"""The processes that a program has started, and their ends."""

import contextlib
import os
import signal
from typing import Iterator, List


def children(process: int) -> List[int]:
    """The numbers of the processes that this one has started."""
    with open(f"/proc/{process}/task/{process}/children", encoding="ascii") as file:
        return [int(word) for word in file.read().split()]


def descendants(process: int) -> Iterator[int]:
    """The numbers of the processes that this one has started, and that these have started."""
    for child in children(process):
        yield child
        yield from descendants(child)


def on_processor(process: int) -> float:
    """The seconds of processor time that this process and those that it has started have taken, by
    all of their threads that there are."""
    found = 0
    for each in [process, *descendants(process)]:
        for thread in os.listdir(f"/proc/{each}/task"):
            with open(f"/proc/{each}/task/{thread}/schedstat", encoding="ascii") as file:
                found += int(file.read().split()[0])
    return found / 1e9


def kill(process: int) -> bool:
    """Ends a process at once. Answers whether it was there: one that has been listed may have ended
    since."""
    with contextlib.suppress(ProcessLookupError):
        os.kill(process, signal.SIGKILL)
        return True
    return False
