"""What the tests share: the count of cases, and runs of the built program."""

import os
import subprocess
from typing import Any, Optional, Sequence, Tuple, Union

from tests.common.serving import PATIENCE, PROGRAM

# What a program has written on both streams, or none where it went elsewhere, and its status, or
# why it has none.
Ended = Tuple[Any, Any, Union[int, str]]


class Cases:
    """Counts the cases that passed, and prints those that failed."""

    def __init__(self) -> None:
        self.passed = 0
        self.failed = 0

    def count(self) -> int:
        """How many cases there were."""
        return self.passed + self.failed

    def check(self, name: str, awaited: object, ran: object) -> None:
        if awaited == ran:
            self.passed += 1
            return
        self.failed += 1
        print(f"failed: {name}\n  awaited {awaited}\n  ran     {ran}"[:2_000], flush=True)

    def end(self, least: int) -> None:
        """Fails where a case failed, or where there were fewer than there should be."""
        if self.count() < least:
            self.check("the number of cases", f"at least {least}", self.count())
        assert self.failed == 0, f"{self.failed} of {self.count()} checks failed"

    def run(
        self,
        name: str,
        words: Sequence[Union[str, bytes]],
        awaited: Tuple[Optional[bytes], str, int],
        **streams: Any,
    ) -> None:
        """Runs the program, and compares its standard output and error and its status with what is
        awaited."""
        out, err, status = awaited
        self.check(name, (out, err.encode(), status), outcome(words, **streams))


def outcome(words: Sequence[Union[str, bytes]], **streams: Any) -> Ended:
    """What the program writes on standard output and on standard error, and its status. A program
    that takes too long is ended."""
    if "input" not in streams:
        streams.setdefault("stdin", subprocess.DEVNULL)
    streams.setdefault("stdout", subprocess.PIPE)
    try:
        done = subprocess.run(
            [PROGRAM, *words], stderr=subprocess.PIPE, timeout=PATIENCE, check=False, **streams
        )
    except subprocess.TimeoutExpired as late:
        return late.stdout, late.stderr, f"not ended after {PATIENCE} seconds"
    return done.stdout, done.stderr, done.returncode


def placed(folder: str, name: str, content: bytes) -> str:
    """Writes a file, and returns its path."""
    path = os.path.join(folder, name)
    with open(path, "wb") as file:
        file.write(content)
    return path


def read(path: str) -> bytes:
    with open(path, "rb") as file:
        return file.read()
