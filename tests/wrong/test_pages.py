"""Shows that what tests/program tries of the pages can fail: runs it on copies of the repository
that have one page with one thing wrong. A few of them, others each day; all of them with --all.
Needs Python 3.8 and the program.
One of them: pytest tests/wrong/test_pages.py -k "a status of lrls.1"
"""

import os
import sys
from pathlib import Path
from typing import Tuple

import pytest

from tests import TOP
from tests.common import serving
from tests.wrong.trying import first_failed, replaced, some

# How many pages the gate tries.
FEW = 4

# A name, the page, the words that are replaced, those in their place, and the group of
# tests/program that has to see it.
Row = Tuple[str, str, str, str, str]
WRONG = [
    (
        "the size of a text",
        "README.md",
        "| 1,048,576 bytes of",
        "| 2,097,152 bytes of",
        "other_pages",
    ),
    ("how many documents there are", "README.md", "| 64, lost", "| 65, lost", "other_pages"),
    (
        "a tree",
        "README.md",
        "(Atom LP (Sum (Atom NUM)) RP)",
        "(Atom LP (Atom NUM) RP)",
        "other_pages",
    ),
    (
        "a conflict",
        "README.md",
        "item: Sum = Sum . PLUS Sum, end",
        "item: Sum = Sum PLUS . Sum, end",
        "other_pages",
    ),
    ("another grammar", "README.md", 'token LP = "("\n', 'token LP = "["\n', "other_pages"),
    (
        "a link that leads nowhere",
        "README.md",
        "](docs/GRAMMARS.md)",
        "](docs/GRAMMAR.md)",
        "statements",
    ),
    (
        "a page that isn't there",
        "README.md",
        "editors/README.md, docs/IDE.md.",
        "editors/README.md, docs/IDES.md.",
        "statements",
    ),
    ("the code of an error", "docs/PROTOCOL.md", "| -32803 | `", "| -32804 | `", "other_pages"),
    (
        "the text of an error",
        "docs/PROTOCOL.md",
        "`document not open` |",
        "`no such document` |",
        "other_pages",
    ),
    (
        "an error that is left out",
        "docs/PROTOCOL.md",
        "| -32002 | `server not initialized` |\n",
        "",
        "other_pages",
    ),
    (
        "an answer of the exchange",
        "docs/PROTOCOL.md",
        '[],"uri":"a:x","version":2}',
        '[],"uri":"a:x","version":1}',
        "other_pages",
    ),
    (
        "a status of PROTOCOL.md",
        "docs/PROTOCOL.md",
        "`lrls: cannot read PATH` | 1 |",
        "`lrls: cannot read PATH` | 2 |",
        "other_pages",
    ),
    (
        "the text of a fault",
        "docs/PROTOCOL.md",
        "`lrls: text too large` |",
        "`lrls: text is too large` |",
        "other_pages",
    ),
    ("a fault of frames", "docs/PROTOCOL.md", ", 6 truncated,", ", 7 truncated,", "other_pages"),
    (
        "a fault of a grammar file",
        "docs/PROTOCOL.md",
        "`G7 second start`",
        "`G7 two starts`",
        "other_pages",
    ),
    ("a cause of a bad pattern", "docs/PROTOCOL.md", "`P5` matches", "`P6` matches", "other_pages"),
    (
        "the size of a header",
        "docs/PROTOCOL.md",
        "has 4,096 bytes",
        "has 8,192 bytes",
        "other_pages",
    ),
    ("a status of lrls.1", "man/lrls.1", "\n.It 2\n", "\n.It 3\n", "other_pages"),
    (
        "a fault of lrls.1",
        "man/lrls.1",
        "unexpected end; expected PLUS, RP",
        "unexpected end; expected RP",
        "other_pages",
    ),
    (
        "a command of lrls.1",
        "man/lrls.1",
        "\n.Cm parse\n.Ar grammar\n.Ar text\n",
        "\n.Cm parse\n.Ar text\n.Ar grammar\n",
        "other_pages",
    ),
    ("an example of lrls.1", "man/lrls.1", '0:2-0:3  "+"', '0:2-0:4  "+"', "manual_pages"),
    ("a limit of lrgrammar.5", "man/lrgrammar.5", "\n256 rules", "\n512 rules", "other_pages"),
    (
        "a flag of lrls-ide.1",
        "man/lrls-ide.1",
        ".It Fl -grammars Ar folder",
        ".It Fl -server Ar folder",
        "other_pages",
    ),
    (
        "a command of the help",
        "script/help",
        "    parse GRAMMAR TEXT ",
        "    parse TEXT GRAMMAR ",
        "other_pages",
    ),
    (
        "a method of IDE.md",
        "docs/IDE.md",
        "| `textDocument/hover` |",
        "| `textDocument/hovers` |",
        "other_pages",
    ),
    (
        "a limit of GRAMMARS.md",
        "docs/GRAMMARS.md",
        "| 4,096 states",
        "| 4,095 states",
        "other_pages",
    ),
    (
        "a message of GRAMMARS.md",
        "docs/GRAMMARS.md",
        "| `over 8192 table states` |",
        "| `over 8192 tables` |",
        "page",
    ),
    ("a number of THEOREM.md", "docs/THEOREM.md", "it has these ", "it has these 1", "statements"),
    (
        "a meaning",
        "docs/DEFINITIONS.md",
        "its folds, or selections",
        "its faults, or selections",
        "statements",
    ),
    (
        "a method of PROTOCOL.md",
        "docs/PROTOCOL.md",
        "| `textDocument/selectionRange` | the",
        "| `textDocument/selectionRanges` | the",
        "other_pages",
    ),
    ("a count of lr/stats", "docs/PROTOCOL.md", '"built":U', '"made":U', "other_pages"),
    (
        "the greatest id",
        "docs/PROTOCOL.md",
        "to 2,147,483,647.",
        "to 2,147,483,648.",
        "other_pages",
    ),
    (
        "a log message",
        "docs/PROTOCOL.md",
        "`didOpen: too many documents`",
        "`didOpen: too many files`",
        "other_pages",
    ),
    (
        "a status without exit",
        "docs/PROTOCOL.md",
        "`serve` exits with 1 if",
        "`serve` exits with 2 if",
        "other_pages",
    ),
    ("how many crates", "CHANGELOG.md", " is made of ", " is made of 1", "statements"),
    ("how many rooms", "CHANGELOG.md", " rooms (docs/", "teen rooms (docs/", "statements"),
    (
        "how many are excepted",
        "docs/THEOREM.md",
        " are excepted, by name",
        "teen are excepted, by name",
        "statements",
    ),
    ("a word of THEOREM.md", "docs/THEOREM.md", "| `outgrows` |", "| `outgrow` |", "statements"),
    (
        "a clause of THEOREM.md",
        "docs/THEOREM.md",
        "`ensures fresh { Every",
        "`ensures fresh { Any",
        "statements",
    ),
    (
        "a crate of PROVED.md",
        "docs/PROVED.md",
        "| `serving` | `serve` |",
        "| `served` | `serve` |",
        "statements",
    ),
    (
        "a crate of ARCHITECTURE.md",
        "docs/ARCHITECTURE.md",
        "| [`runs`](",
        "| [`frames`](",
        "statements",
    ),
    ("a crate of GATE.md", "docs/GATE.md", "| `item_sets` | ", "| `items` | ", "statements"),
    (
        "a figure of opening",
        "README.md",
        "takes 0.03 to 0.11 s",
        "takes 0.01 to 0.05 s",
        "statements",
    ),
    ("a figure of faults", "README.md", "takes 0.3 to 0.5 of", "takes 0.1 to 0.3 of", "statements"),
    (
        "a figure beside bison",
        "README.md",
        " s, two to three and a half times",
        " s, one to three and a half times",
        "statements",
    ),
    ("a command of README.md", "README.md", "`./lrls package`", "`./lrls pack`", "statements"),
    ("a grammar of README.md", "README.md", "JSON, TOML, INI,", "JSON, TOML,", "statements"),
    (
        "a word for Neovim",
        "README.md",
        "`lrls.add({ name",
        "`lrls.added({ name",
        "statements",
    ),
    ("a limit of the page", "docs/IDE.md", "at most 1 GiB", "at most 2 GiB", "statements"),
    (
        "a file that isn't there",
        "CONTRIBUTING.md",
        "`crates/views/src/foldable.rt`",
        "`crates/views/src/folded.rt`",
        "statements",
    ),
]


def pytest_generate_tests(metafunc: pytest.Metafunc) -> None:
    takes_all = metafunc.config.getoption("--all") or metafunc.config.getoption("-k")
    chosen = some(WRONG, FEW, bool(takes_all))
    metafunc.parametrize("row", chosen, ids=[row[0] for row in chosen])


def copied(folder: str, page: str, text: str) -> str:
    """A copy of the repository, of links but for this page, which has another text."""
    top, above = os.path.join(folder, "top"), os.path.dirname(page)
    for inner in ("", above) if above else ("",):
        os.mkdir(os.path.join(top, inner))
        for name in os.listdir(os.path.join(TOP, inner)):
            path = os.path.join(inner, name)
            if path not in (above, page):
                os.symlink(os.path.join(TOP, path), os.path.join(top, path))
    with open(os.path.join(top, page), "w", encoding="utf-8") as file:
        file.write(text)
    return top


@pytest.mark.usefixtures("programs")
def test_page(row: Row, tmp_path: Path) -> None:
    _, page, old, new, group = row
    top = copied(str(tmp_path), page, replaced(page, old, new))
    words = [sys.executable, os.path.join(top, "tests", "program", "run"), group]
    failed = first_failed(words, {"LRLS_PROGRAM": serving.PROGRAM})
    assert failed is not None, "all passed"
