"""The sentences that the pages say twice, on two pages or on one: what is said once can't be mended
in one place and stay wrong in another.

A sentence ends at a full stop, a colon, a semicolon, or the end of a line or of a table's cell. Of
two that differ only in marks, capitals or what a link leads to, the second is found.
"""

import os
import re
from typing import Dict, Iterator, List, NamedTuple

from tests.common.cases import Cases
from tests.statements.specs import lines_of

# Shorter ones are mostly names, or words that a table repeats.
LEAST = 8

# The pages that are made from comments and contracts.
MADE = ("CLAUSES.md", "DEFINITIONS.md", "OTHER_DEFINITIONS.md")

LINK = re.compile(r"\[([^\]]*)\]\([^)]*\)")
BORDER = re.compile(r"(?<!\\)\|")
END = re.compile(r"(?<=[.!?:;])[\"')*_]*\s")
WORD = re.compile(r"[a-z0-9_]+(?:'[a-z]+)?")


class Sentence(NamedTuple):
    """A sentence's words, and the place that it stands at, as PAGE:LINE."""

    words: str
    place: str


def pages(top: str) -> List[str]:
    """The pages that are written by hand."""
    docs = sorted(name for name in os.listdir(os.path.join(top, "docs")) if name.endswith(".md"))
    return ["README.md", "CONTRIBUTING.md", *(f"docs/{name}" for name in docs if name not in MADE)]


def shown_lines(lines: List[str]) -> Iterator[int]:
    """The indexes of the lines outside of fenced blocks."""
    is_fenced = False
    for at, line in enumerate(lines):
        if line.startswith("```"):
            is_fenced = not is_fenced
        elif not is_fenced:
            yield at


def sentences_of(line: str) -> Iterator[str]:
    """The words of each sentence of a line that is long enough."""
    text = LINK.sub(r"\1", line)
    cells = BORDER.split(text) if text.startswith("|") else [text]
    for cell in cells:
        for sentence in END.split(cell):
            words = WORD.findall(sentence.lower())
            if len(words) >= LEAST:
                yield " ".join(words)


def sentences(top: str, page: str) -> Iterator[Sentence]:
    """The sentences of a page that are long enough."""
    lines = lines_of(os.path.join(top, page))
    for at in shown_lines(lines):
        for words in sentences_of(lines[at]):
            yield Sentence(words, f"{page}:{at + 1}")


def places_by_words(top: str) -> Dict[str, List[str]]:
    """Where each sentence stands."""
    found: Dict[str, List[str]] = {}
    for page in pages(top):
        for sentence in sentences(top, page):
            found.setdefault(sentence.words, []).append(sentence.place)
    return found


def said_twice(top: str) -> List[str]:
    """The sentences that stand twice, with their places."""
    found = places_by_words(top)
    return [f"{' and '.join(at)}: {words}" for words, at in found.items() if len(at) > 1]


def silent(top: str) -> List[str]:
    """The pages on which no sentence is found."""
    return [page for page in pages(top) if not any(sentences(top, page))]


def check(cases: Cases, top: str) -> None:
    """No sentence stands twice, and each page has some."""
    cases.check("no page says a sentence that stands elsewhere", [], said_twice(top))
    cases.check("sentences are found on each page", [], silent(top))
