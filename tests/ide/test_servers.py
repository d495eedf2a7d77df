"""Tries `ide/lrls-ide` as an editor. Builds the programs where they aren't built.
One group of checks: pytest tests/ide/test_servers.py -k colours

LRLS_IDE in the environment is another server to test, with its first words.
"""

from pathlib import Path
from typing import Dict

import pytest

from tests.common.cases import Cases
from tests.ide.groups import GROUPS, Group

NAMES = [group.__name__ for group in GROUPS]

# How many checks a group has at least: one that has fewer has lost some.
LEAST: Dict[str, int] = {
    "colours": 323,
    "early": 12,
    "outline": 75,
    "deep_outline": 1,
    "completion": 985,
    "messages": 86,
    "hovers": 32,
    "unchanged": 240,
    "typed": 2560,
    "units": 3,
    "changes": 10,
    "refused": 64,
    "shown_behind": 1500,
    "faults_behind": 33,
    "fixes": 130,
    "followed": 1803,
    "grammar_texts": 443,
    "grammar_hints": 27,
    "grammar_limits": 6,
    "guessed_settings": 10,
    "rows": 1700,
    "nodes": 1600,
    "mended_nodes": 9,
    "looks_refused": 11,
    "typed_key_by_key": 3,
    "started": 4,
    "requests": 28,
    "limits": 8,
    "mistakes": 22,
    "settings": 50,
    "unread": 3,
    "edits": 3292,
    "cancelled": 31,
    "lost": 6,
    "registered": 4,
    "grammar": 18,
    "faulty_first": 6,
    "faulty_settings": 11,
    "cancels": 42,
    "refused_documents": 5,
    "long_work": 2,
    "coloured_words": 97,
    "named_symbols": 64,
    "offered_items": 11,
}


@pytest.mark.usefixtures("programs")
@pytest.mark.parametrize("group", GROUPS, ids=NAMES)
def test_group(group: Group, cases: Cases, tmp_path: Path) -> None:
    group(cases, str(tmp_path))
    cases.end(LEAST[group.__name__])


def test_no_group_is_left_out() -> None:
    assert sorted(LEAST) == sorted(NAMES)
