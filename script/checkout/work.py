"""What long work needs: room on the disk, a lock, a command that is followed and ended with the
script, and reports."""

from __future__ import annotations

import contextlib
import errno
import fcntl
import os
import signal
import subprocess
import sys
import tempfile
import time
from typing import Callable, Iterator, List

from refusals import Refusal

MIB = 1 << 20
# What is made sure of by writing it; more than that is only looked up.
WRITTEN = 64 * MIB
# So many seconds a command has to end after it was told to.
PATIENCE = 20

Say = Callable[[str], None]


def say(line: str) -> None:
    """Prints a line on standard error."""
    print(f"lrls: {line}", file=sys.stderr, flush=True)


def need_room(folder: str, size: int, what: str) -> None:
    """Makes a folder, and refuses where so many bytes can't be written there."""
    try:
        os.makedirs(folder, exist_ok=True)
        disk = os.statvfs(folder)
        if disk.f_bavail * disk.f_frsize < size:
            raise OSError(errno.ENOSPC, os.strerror(errno.ENOSPC))
        with tempfile.TemporaryFile(dir=folder) as file:
            os.posix_fallocate(file.fileno(), 0, min(size, WRITTEN))
    except OSError as error:
        raise Refusal(
            1,
            f"cannot write {size // MIB} MiB into {folder}: {error.strerror}",
            f"{what} is put there; make room, or clone the repository into another folder",
        ) from None


@contextlib.contextmanager
def locked(path: str, tell: Say = say) -> Iterator[None]:
    """Keeps other runs out of what this one does, and waits for one that is at it."""
    with open(path, "a", encoding="utf-8") as file:
        try:
            fcntl.flock(file, fcntl.LOCK_EX | fcntl.LOCK_NB)
        except BlockingIOError:
            tell("another run of this script is making the program; waiting for it")
            fcntl.flock(file, fcntl.LOCK_EX)
        yield


def end_by_signals() -> None:
    """Lets the signals that end a script end it as an exception does, so that nothing is left
    behind."""
    for number in (signal.SIGHUP, signal.SIGINT, signal.SIGTERM):
        signal.signal(number, lambda got, _: sys.exit(128 + got))


def ended(child: "subprocess.Popen[bytes]") -> None:
    """Ends a command and what it has started."""
    for number in (signal.SIGTERM, signal.SIGKILL):
        with contextlib.suppress(ProcessLookupError):
            os.killpg(child.pid, number)
        with contextlib.suppress(subprocess.TimeoutExpired):
            child.wait(PATIENCE)


def follow(words: List[str], folder: str, log: str, report: Callable[[], None]) -> int:
    """Runs a command in a folder, with what it prints in a log, and reports each second. Its
    status."""
    with open(log, "wb") as file:
        child = subprocess.Popen(
            words,
            cwd=folder,
            stdin=subprocess.DEVNULL,
            stdout=file,
            stderr=file,
            start_new_session=True,
        )
    try:
        while True:
            with contextlib.suppress(subprocess.TimeoutExpired):
                return child.wait(1)
            report()
    finally:
        ended(child)


def read(path: str) -> str:
    """The text of a file; nothing where there is none."""
    try:
        with open(path, encoding="utf-8", errors="replace") as file:
            return file.read()
    except OSError:
        return ""


class Clock:
    """How long the work has taken."""

    def __init__(self) -> None:
        self.begun = time.monotonic()

    def seconds(self) -> int:
        """The seconds since the beginning."""
        return int(time.monotonic() - self.begun)

    def minutes(self) -> int:
        """The whole minutes since the beginning."""
        return self.seconds() // 60
