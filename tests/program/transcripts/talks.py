"""What the transcripts share. A session is its name, its grammar file, its transcript, and the exit
status."""

from typing import Dict, List, Tuple

from tests.program.grammar_files import SUMS

# How each session begins that is served.
BEGINNING = r"""
> {"jsonrpc":"2.0","id":1,"method":"initialize","params":{}}
< {"id":1,"jsonrpc":"2.0","result":{"capabilities":{"foldingRangeProvider":true,"positionEncoding":"utf-16","selectionRangeProvider":true,"textDocumentSync":{"change":2,"openClose":true}}}}
"""


def talked(
    test: str, talks: Dict[str, str], status: int, grammar: str = SUMS
) -> List[Tuple[str, str, str, int]]:
    """A session of each of these transcripts, which ends with this status."""
    return [(f"{test}: {name}", grammar, talk, status) for name, talk in talks.items()]


def served(
    test: str, talks: Dict[str, str], grammar: str = SUMS
) -> List[Tuple[str, str, str, int]]:
    """The same after an accepted `initialize`, up to the end of the input."""
    begun = {name: BEGINNING + talk for name, talk in talks.items()}
    return talked(test, begun, 1, grammar)


def filled(talks: Dict[str, str], text: str) -> Dict[str, str]:
    """The transcripts with this text in the place of each `@`."""
    return {name: talk.replace("@", text) for name, talk in talks.items()}


def each(talk: str, rows: List[str]) -> Dict[str, str]:
    """The transcript with each of these texts in the place of its `@`, under the text."""
    return {row: talk.replace("@", row) for row in rows}
