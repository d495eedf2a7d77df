"""The numbers on the pages that can be counted: of definitions, of files, of lines, of words, of
crates. Each one that a page gives is compared, and one that nothing counts is refused, so that no
page has an old one."""

import os
import re
from typing import Dict, Iterator, List, NamedTuple, Tuple

from tests.common.cases import Cases
from tests.statements import definitions as definitions_page
from tests.statements.specs import Definitions, files_of, lines_of, words_of_run

PAGES = (
    "README.md",
    "CHANGELOG.md",
    "CONTRIBUTING.md",
    "docs/ARCHITECTURE.md",
    "docs/THEOREM.md",
    "docs/PROVED.md",
    "docs/GATE.md",
)

# A number of something that is counted.
NUMBER = re.compile(r"(?<![\d,.])(\d[\d,]*) (?:more )?(?:definitions|files|lines|words|crates)\b")

# What CONTRIBUTING.md asks for, which no count has to meet.
RULES = {
    "CONTRIBUTING.md": (
        "1,500 lines or 100 functions",
        "30 lines of less than 100 columns",
        "40 lines, one loop each",
    )
}

# What a proof that isn't written looks like.
HOLE = re.compile(r"\?|\{!")
# How the pages write small numbers.
NAMED = "no one two three four five six seven eight nine ten eleven twelve".split()


class Counts(NamedTuple):
    """What there is, by what follows the number on a page."""

    by_words: Dict[str, int]

    def wrong(self, page: str, text: str) -> Iterator[str]:
        """The numbers of a page that aren't so."""
        for found in NUMBER.finditer(text):
            here = text[found.start() :]
            if here.startswith(RULES.get(page, ())):
                continue
            known = [
                count
                for words, count in self.by_words.items()
                if here[len(found[1]) :].startswith(words)
            ]
            if known != [int(found[1].replace(",", ""))]:
                yield f"{page}: {here[:60].splitlines()[0]!r} for {known}"


def edits(top: str, folder: str) -> int:
    """How many edits the crates have in folders of this name."""
    crates = os.path.join(top, "crates")
    folders = [os.path.join(crates, crate, folder) for crate in os.listdir(crates)]
    return sum(
        name.endswith(".edit") for it in folders if os.path.isdir(it) for name in os.listdir(it)
    )


def crates_before(top: str, words: str) -> List[str]:
    """The crates that stand before these words in crates.txt."""
    text = "\n".join(lines_of(os.path.join(top, "crates.txt")))
    return re.findall(r"^(\w+):", text.split(words)[0], re.M)


def lines_in(top: str, folder: str) -> int:
    """The lines of the program's crates in these folders."""
    crates = set(crates_before(top, "# What tests share"))
    paths = files_of(top, folder, ".rt") + files_of(top, folder, ".antt")
    of_program = [
        path
        for path in paths
        if os.path.relpath(path, os.path.join(top, "crates")).split(os.sep)[0] in crates
    ]
    return sum(len(lines_of(path)) - 1 for path in of_program)


def holes(top: str) -> int:
    """The lines that look like a proof that isn't written."""
    return sum(
        bool(HOLE.search(line))
        for path in files_of(top, "crates", ".antt")
        for line in lines_of(path)
    )


def counts(top: str) -> Counts:
    definitions = Definitions(top)
    rest = definitions.rest(words_of_run(top, definitions))
    meaning = definitions_page.of_file(definitions, dict.fromkeys(rest))
    main = os.path.join(top, "crates", "lrls", "src", "main.rt")
    return Counts(
        {
            " definitions in ": len(rest),
            " files of `specs/`": len({key[:2] for key in rest}),
            " lines without comments": definitions.lines(rest),
            " definitions more": len(meaning),
            " lines (marked with a ◦)": definitions.lines(meaning),
            " lines. std's standard streams": len(lines_of(main)) - 1,
            " files `must-fail/*.edit`": edits(top, "must-fail"),
            " files `wrong-definitions/*.edit`": edits(top, "wrong-definitions"),
            " crates, in ": len(crates_before(top, "# The editor's server")),
            " lines of code": lines_in(top, "src"),
            " lines of definitions": lines_in(top, "specs"),
        }
    )


def said(text: str, pattern: str) -> List[str]:
    """The numbers, or the words for them, that stand so on a page."""
    return re.findall(pattern, text)


def pages(top: str) -> Iterator[Tuple[str, str]]:
    for page in PAGES:
        yield page, "\n".join(lines_of(os.path.join(top, page)))


def check(cases: Cases, top: str) -> None:
    """Each number on the pages is the one that is counted."""
    there = counts(top)
    text = dict(pages(top))
    for page in PAGES:
        cases.check(
            f"{page} gives the numbers that are counted", [], list(there.wrong(page, text[page]))
        )
    theorem = text["docs/THEOREM.md"]
    under_run = str(there.by_words[" definitions in "])
    cases.check(
        "docs/THEOREM.md says how many definitions are marked",
        [under_run],
        said(theorem, r"it has these (\d+),"),
    )
    hole = NAMED[holes(top)]
    cases.check(
        "docs/THEOREM.md says how many lines its search for holes prints",
        [hole],
        said(theorem, r"prints (\w+) lines of comments"),
    )
    rooms = re.findall(r"^### (\d)\. ", text["docs/ARCHITECTURE.md"], re.M)
    cases.check(
        "docs/ARCHITECTURE.md says how many rooms it has",
        [NAMED[len(rooms)]],
        said(text["docs/ARCHITECTURE.md"], r"in (\w+) rooms"),
    )
    # The editor's server has the last room, and stands on the program.
    cases.check(
        "CHANGELOG.md says how many rooms the program has",
        [NAMED[len(rooms) - 1]],
        said(text["CHANGELOG.md"], r"in (\w+) rooms"),
    )
