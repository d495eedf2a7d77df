"""Real files, which nobody here wrote, as bench/mending and bench/outlines take them: of packages
that tests/corpora names, those of 1 KB to 300 KB."""

import argparse
import os
import random
import sys
from typing import List, NamedTuple, Sequence, Tuple

sys.path.append(os.path.dirname(os.path.dirname(os.path.abspath(__file__))))

from tests.corpora.languages import LANGUAGES, read

LEAST_BYTES, MOST_BYTES = 1_000, 300_000


class Subject(NamedTuple):
    """A language: its name, those of tests/corpora that have files of it, and what stands before,
    between and behind texts of it that are joined."""

    name: str
    sources: Sequence[str]
    before: str = ""
    between: str = "\n"
    behind: str = "\n"


SUBJECTS = {
    "lua": Subject("Lua", ["lua"], "do ", "\nend\ndo ", "\nend\n"),
    "json": Subject("JSON", ["json"], "[", ",", "]"),
    "c": Subject("C", ["c"]),
    "toml": Subject("TOML", ["toml"]),
    "css": Subject("CSS", ["css"]),
    "sql": Subject("SQL", ["sql", "sql-postgresql"]),
}


def files(subject: Subject, options: argparse.Namespace) -> List[Tuple[str, str]]:
    """The files of a language, each with the name of tests/corpora that has it."""
    found = [
        (source, path)
        for source in subject.sources
        for path in LANGUAGES[source].files(options.root or ["/"])
        if LEAST_BYTES <= os.path.getsize(path) <= MOST_BYTES
    ]
    if len(found) > options.most:
        found = sorted(random.Random(options.seed).sample(found, options.most))
    return found


def texts_in(source: str, path: str) -> List[str]:
    """The texts that are made of a file."""
    text = read(path)
    if text is None:
        return []
    made_of = [made_text for _, made_text in LANGUAGES[source].edited(path, text)]
    return [one for one in made_of if LEAST_BYTES <= len(one.encode()) <= MOST_BYTES]


def arguments(page: str, *flags: str) -> argparse.Namespace:
    """What a script with this page is asked for, which has these options besides."""
    parser = argparse.ArgumentParser(description=page.split("\n\n", maxsplit=1)[0])
    add = parser.add_argument
    add("--root", action="append", metavar="FOLDER", help="where packages were unpacked (/)")
    most = "the greatest count of files of a language (200)"
    add("--most", type=int, default=200, metavar="N", help=most)
    texts = "so many texts with faults of a language at least, where none is refused (1500)"
    add("--texts", type=int, default=1500, metavar="N", help=texts)
    add("--seed", type=int, default=1, metavar="S", help="of the random choices (1)")
    for flag in ["--markdown", *flags]:
        add(flag, action="store_true")
    add("languages", nargs="*", metavar="LANGUAGE", help="among " + ", ".join(SUBJECTS))
    options = parser.parse_args()
    unknown = [name for name in options.languages if name not in SUBJECTS]
    if unknown:
        parser.error(f"no such language: {', '.join(unknown)}; there are {', '.join(SUBJECTS)}")
    return options
