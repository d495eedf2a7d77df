"""Whole sessions, written as transcripts: a line that begins with `> ` is a content that the
program reads, one that begins with `< ` a content that it writes. Other lines say nothing.
"""

from typing import Iterator, List, Tuple

from tests.program.transcripts import (
    counts,
    documents,
    encodings,
    logs,
    losses,
    mixtures,
    phases,
    views,
)


def sessions() -> Iterator[Tuple[str, str, str, int]]:
    """Each session: its name, its grammar file, its transcript, and the exit status."""
    for module in [phases, documents, logs, losses, views, counts, encodings, mixtures]:
        yield from module.sessions()


def contents(talk: str, mark: str) -> List[str]:
    """The contents that stand after this mark in a transcript."""
    return [line[len(mark) :] for line in talk.split("\n") if line.startswith(mark)]
