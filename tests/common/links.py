"""Links of Markdown pages, and where they lead; the files that pages name in backquotes."""

import os
import re
from typing import Iterator, List, Set

LINK = re.compile(r"\[[^\]]*\]\(([^)\s]+)\)")
HEADING = re.compile(r"^#+ +(.*)$", re.MULTILINE)
CODE = re.compile(r"`([^`\n]+)`")
FOLDERS = ("bench", "crates", "docs", "editors", "grammars", "ide", "man", "script", "tests")
FILE = re.compile(rf"(?:{'|'.join(FOLDERS)})/[\w./-]*|[A-Z]+\.md|crates\.txt")
PAGE = re.compile(r"(?<![\w./-])(?:docs|editors)/\w+\.md\b")
FENCE = re.compile(r"^```.*?^```", re.MULTILINE | re.DOTALL)


def pages_below(folder: str) -> List[str]:
    """The paths of the pages in a folder."""
    found = [os.path.join(where, name) for where, _, names in os.walk(folder) for name in names]
    return sorted(path for path in found if path.endswith(".md"))


def pages_of(top: str) -> Iterator[str]:
    """The paths of the pages of the repository."""
    yield from (os.path.join(top, name) for name in sorted(os.listdir(top)) if name.endswith(".md"))
    for folder in ("docs", "editors"):
        yield from pages_below(os.path.join(top, folder))


def anchors(text: str) -> Set[str]:
    """The names by which the sections of a page can be linked to."""
    plain = (
        re.sub(r"[^\w\- ]", "", heading.lower()) for heading in HEADING.findall(FENCE.sub("", text))
    )
    return {name.strip().replace(" ", "-") for name in plain}


def read(path: str) -> str:
    with open(path, encoding="utf-8") as file:
        return file.read()


def dead(path: str) -> Iterator[str]:
    """The links of a page that lead to no file, or to no section of a page."""
    folder = os.path.dirname(path)
    for target in LINK.findall(FENCE.sub("", read(path))):
        if "://" in target:
            continue
        name, _, section = target.partition("#")
        file = os.path.join(folder, name) if name else path
        if not os.path.exists(file) or section and section not in anchors(read(file)):
            yield target


def missing_files(path: str, top: str) -> List[str]:
    """The files and folders that a page names in backquotes, and the pages that it names, and that
    aren't in the repository."""
    text = FENCE.sub("", read(path))
    named = (code.strip().split(" ")[0] for code in CODE.findall(text))
    files = [*filter(FILE.fullmatch, named), *PAGE.findall(text)]
    return [name for name in files if not os.path.exists(os.path.join(top, name))]
