"""What the tests of tests share: a few of many, and the first case that fails."""

import os
import signal
import subprocess
import time
from typing import List, Mapping, Optional, Sequence, TypeVar

import pytest

from tests import TOP

Row = TypeVar("Row")

DAY = 24 * 60 * 60
# The start is no case of a group.
START = "the start"


def some(rows: Sequence[Row], count: int, takes_all: bool) -> List[Row]:
    """As many of these, others each day, so that all have had their turn after some days; or all of
    them."""
    if takes_all or count >= len(rows):
        return list(rows)
    first = int(time.time() // DAY) * count
    return [rows[(first + place) % len(rows)] for place in range(count)]


def replaced(path: str, old: str, new: str) -> str:
    """The text of a file in which one thing is replaced, which stands there once
    (tests/wrong/test_words.py)."""
    with open(os.path.join(TOP, path), encoding="utf-8") as file:
        text = file.read()
    assert text.count(old) == 1, f"{path} doesn't have these words once: {old!r}"
    return text.replace(old, new)


def first_failed(words: Sequence[str], more: Mapping[str, str]) -> Optional[str]:
    """The first case that fails where these tests run with more in the environment; none where none
    does. The tests are ended then. Where they skip what they lack something for, so does this."""
    # A skip for want of what has to be there is no fault of a wrong copy.
    environment = {"LRLS_PATIENCE": "20", **os.environ, **more, "LRLS_REQUIRE": ""}
    skipped = None
    with subprocess.Popen(
        words,
        cwd=TOP,
        env=environment,
        stdout=subprocess.PIPE,
        stderr=subprocess.DEVNULL,
        text=True,
        start_new_session=True,
    ) as tests:
        assert tests.stdout
        for line in tests.stdout:
            mark, _, name = line.rstrip().partition(" ")
            if mark in ("failed:", "FAILED", "ERROR") and name != START:
                # With the programs that they have started.
                os.killpg(tests.pid, signal.SIGTERM)
                return name
            skipped = name if mark == "SKIPPED" else skipped
    if skipped:
        pytest.skip(skipped)
    return None
