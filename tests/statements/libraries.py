"""The libraries that the crates stand on: those that are promised, each in its place, and those
that the pages trust. A crate stands on a library where crates.txt lists it and its files name it.
"""

from tests.common.cases import Cases
import os
import re
from typing import Dict, List, Set

# Which crate stands on each library that the product is to be built on, and what for.
PROMISED = {
    "serde_json": ["replies", "rpc"],  # JSON that is written and read
    "smallvec": ["trees"],  # the children of nodes
    "indexmap": ["grammar_file"],  # names, numbered in file order
    "clap": ["commands"],  # the words of the command line
    "thiserror": ["commands"],  # the fault that the program prints
}

LINE = re.compile(r"^(\w+):(.*)$", re.M)
QUOTED = re.compile(r"`(\w+)`")
COMMENT = re.compile(r"//[^\n]*")
GHOST = re.compile(r"\bRattle\.(\w+)\.")
NAMED = re.compile(r"(?<![\w:])(\w+)::")


def page(top: str, name: str) -> str:
    with open(os.path.join(top, name), encoding="utf-8") as file:
        return file.read()


def listed(top: str) -> Dict[str, List[str]]:
    """The libraries that crates.txt lists for each crate."""
    return {crate: below.split() for crate, below in LINE.findall(page(top, "crates.txt"))}


def sources(top: str, crate: str, folders: List[str]) -> List[str]:
    """The texts of a crate's files in these folders, without the comments of its code."""
    found = []
    for folder in folders:
        for path, _, names in os.walk(os.path.join(top, "crates", crate, folder)):
            found += [
                COMMENT.sub("", page(path, name))
                for name in names
                if name.endswith((".rt", ".antt"))
            ]
    return found


def used(top: str) -> Dict[str, List[str]]:
    """The libraries of each crate that its code names."""
    texts = {crate: "\n".join(sources(top, crate, ["src"])) for crate in listed(top)}
    return {
        crate: [it for it in below if it in NAMED.findall(texts[crate])]
        for crate, below in listed(top).items()
    }


def idle(top: str) -> List[str]:
    """The kit's libraries that crates.txt lists for a crate none of whose files names them."""
    below = listed(top)
    found = []
    for crate, libraries in below.items():
        text = "\n".join(sources(top, crate, ["src", "specs", "proofs"]))
        names = {*NAMED.findall(text), *GHOST.findall(text)}
        found += [
            f"{crate}: {library}"
            for library in libraries
            if library not in below and library not in names
        ]
    return found


def missing(below: Dict[str, List[str]]) -> List[str]:
    """The promised libraries on which a crate doesn't stand that is to stand on them."""
    return [
        f"{crate}: {library}"
        for library, users in PROMISED.items()
        for crate in users
        if library not in below.get(crate, [])
    ]


def foreign(below: Dict[str, List[str]]) -> Set[str]:
    """The kit's libraries on which some crate stands."""
    return {library for libraries in below.values() for library in libraries} - set(below)


def trusted(text: str, begin: str) -> Set[str]:
    """The libraries in backquotes in the paragraph in which these words stand."""
    paragraphs = [it for it in text.split("\n\n") if begin in it]
    lines = [line for it in paragraphs for line in it.split("\n") if begin in line]
    return {name for line in lines for name in QUOTED.findall(line)}


def check(cases: Cases, top: str) -> None:
    """Each promised library is in its place, and the pages trust those that some crate stands on,
    and no others."""
    below = listed(top)
    cases.check("each promised library is used where it is promised", [], missing(used(top)))
    cases.check("each of the kit's libraries that crates.txt lists is used", [], idle(top))
    said = trusted(page(top, "docs/PROVED.md"), "the contracts of the kit's crates") - set(below)
    cases.check(
        "docs/PROVED.md trusts the libraries of crates.txt", sorted(foreign(below)), sorted(said)
    )
    said = trusted(page(top, "docs/THEOREM.md"), "of the ported crates") - set(below)
    cases.check(
        "docs/THEOREM.md trusts libraries of crates.txt alone",
        [],
        sorted(said - foreign(below) - {"run"}),
    )
