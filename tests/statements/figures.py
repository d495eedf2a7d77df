"""The figures of README.md, "How fast it is", beside the tables of docs/PERFORMANCE.md that they
are taken from: none is further from them than the last digit that it has."""

import os
import re
from typing import Iterable, Iterator, List, NamedTuple, Tuple

from tests.common.cases import Cases
from tests.statements.specs import lines_of

EDITS = ("character", "item", "fault")
# The text that is one token is told by itself, and so are parentheses.
ONE_TOKEN, NESTED = "one token", "nested"
MIB, KIB = 1_000_000, 1_000


class Edit(NamedTuple):
    """A row of the table of edits: at the start, the middle and the end the time in ms, and its
    ratio to opening."""

    text: str
    size: int
    opening: float
    edit: str
    times: Tuple[float, ...]
    ratios: Tuple[float, ...]


class Peer(NamedTuple):
    """A row of the table with bison: the size, and the ratio of opening to its whole parse."""

    size: int
    ratio: float


def rows(top: str) -> List[List[str]]:
    lines = lines_of(os.path.join(top, "docs", "PERFORMANCE.md"))
    return [[cell.strip() for cell in it.strip("|").split("|")] for it in lines if it[:2] == "| "]


def edits(table: List[List[str]]) -> List[Edit]:
    found = [row for row in table if len(row) == 11 and row[3] in EDITS]
    numbers = [(row, [float(cell) for cell in row[4:10]]) for row in found]
    return [
        Edit(row[0], int(row[1]), float(row[2]), row[3], tuple(it[::2]), tuple(it[1::2]))
        for row, it in numbers
    ]


def peers(table: List[List[str]]) -> List[Peer]:
    return [Peer(int(row[1]), float(row[4])) for row in table if len(row) == 9 and row[1].isdigit()]


def unit(figure: str) -> float:
    """What the last digit of a figure stands for."""
    return 10.0 ** -len(figure.partition(".")[2])


def is_of(figures: Iterable[str], values: List[float]) -> bool:
    """Whether these figures are the least and the greatest of some values, or about all of them."""
    least, *more = figures
    greatest = more[0] if more else least
    return abs(float(least) - min(values)) < unit(least) and abs(
        float(greatest) - max(values)
    ) < unit(greatest)


def figures(top: str) -> Iterator[Tuple[str, str, List[float]]]:
    """For each figure a name, how README.md says it, and the values that it tells."""
    table = rows(top)
    there, others = edits(table), peers(table)
    large = [row for row in there if row.size > MIB]
    typed = [row for row in there if row.edit == "character" and row.text != ONE_TOKEN]
    both = [row for row in typed if row.size > MIB or row.size < KIB]
    yield "a character", r"typed anywhere takes ([\d.]+) to ([\d.]+) ms", [
        time for row in both for time in row.times
    ]
    yield "a character in one token", r"within one token of 1 MiB, ([\d.]+) ms", [
        time for row in large if row.text == ONE_TOKEN for time in row.times[:2]
    ]
    faults = [row for row in large if row.edit == "fault"]
    flat = [row for row in faults if row.text != NESTED]
    yield "a fault near the start", r"takes ([\d.]+) to ([\d.]+) of the time of opening", [
        row.ratios[0] for row in flat
    ]
    yield "a fault in the middle", r"in the middle about ([\d.]+);", [row.ratios[1] for row in flat]
    yield "a fault in parentheses", r"as deep as the text is long, ([\d.]+) to ([\d.]+)\.", [
        ratio for row in faults if row.text == NESTED for ratio in row.ratios[:2]
    ]
    yield "opening, in seconds", r"Opening 1 MiB takes ([\d.]+) to ([\d.]+) s", [
        row.opening / 1000 for row in large if row.text != ONE_TOKEN
    ]
    ratios = [row.ratio for row in others if row.size > 16 * KIB]
    yield "opening beside bison", r"s, (two) to (three and a half) times a parse", ratios


WORDS = {"two": "2.0", "three and a half": "3.5"}


def check(cases: Cases, top: str) -> None:
    """README.md has the figures of the tables."""
    page = " ".join(lines_of(os.path.join(top, "README.md")))
    for name, pattern, values in figures(top):
        found = re.findall(pattern, page)
        said = [found[0]] if found and isinstance(found[0], str) else list(*found[:1])
        said = [WORDS.get(word, word) for word in said]
        is_so = len(found) == 1 and bool(values) and is_of(said, values)
        shown = (said, min(values, default=0), max(values, default=0))
        cases.check(f"README.md, how fast it is: {name}", True, is_so or shown)
