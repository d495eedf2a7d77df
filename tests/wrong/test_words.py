"""Each wrong page and each wrong copy of `ide/` is one: what it replaces stands there once.
Needs nothing.
All of them: pytest tests/wrong/test_words.py
"""

import os
from typing import List, Tuple

from tests import TOP
from tests.wrong import test_ide, test_pages

# A name, a file, and the words that are replaced in it.
ROWS: List[Tuple[str, str, str]] = [
    *((name, page, old) for name, page, old, _, _ in test_pages.WRONG),
    *((name, os.path.join("ide", file), old) for name, file, old, _, _ in test_ide.WRONG),
]


def count(path: str, words: str) -> int:
    with open(os.path.join(TOP, path), encoding="utf-8") as file:
        return file.read().count(words)


def test_words() -> None:
    counts = {name: count(path, old) for name, path, old in ROWS}
    assert {name: there for name, there in counts.items() if there != 1} == {}


def test_names() -> None:
    names = [name for name, _, _ in ROWS]
    assert sorted(set(names)) == sorted(names)
