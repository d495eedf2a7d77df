"""The manual pages: the examples that they show are run, and `man` and `mandoc`, where they are
installed, find nothing wrong with them. They have to be where LRLS_REQUIRE names their packages."""

import os
import re
import shutil
import subprocess
from typing import Any, Iterator, List, Tuple

from tests.common.needs import required
from tests.program.pages import Block, Page

INSTALLED = "/usr/share/lrls/grammars/"
# What formats a page, by its Debian package.
FORMATTERS = {"man-db": ["man", "--warnings", "-l"], "mandoc": ["mandoc", "-T", "lint"]}
# What `mandoc` says of a page that isn't installed yet.
NOT_INSTALLED = "referenced manual not found"


def examples(path: str) -> List[List[str]]:
    """The lines of each literal display of a page."""
    with open(path, encoding="utf-8") as file:
        found = re.findall(r"^\.Bd -literal.*\n((?:.*\n)*?)\.Ed$", file.read(), re.M)
    return [display.replace("\\e", "\\").splitlines() for display in found]


def complaints(path: str) -> List[str]:
    """What the programs that format a page say of it, or that one isn't there that has to be."""
    said = ""
    for package, words in FORMATTERS.items():
        if shutil.which(words[0]):
            ran = subprocess.run(
                [*words, path],
                capture_output=True,
                text=True,
                check=False,
                env={**os.environ, "MANWIDTH": "80"},
            )
            said += ran.stderr + (ran.stdout if words[0] == "mandoc" else "")
        elif package in required():
            said += f"{package} isn't installed, and is required\n"
    return [line for line in said.splitlines() if NOT_INSTALLED not in line]


def cases(program: str, top: str, folder: str) -> Iterator[Tuple[Any, ...]]:
    """What is awaited of each page, and what was found, under a name."""
    page = Page(program, top, folder)
    for name in sorted(os.listdir(os.path.join(top, "man"))):
        yield f"manual {name}: its form", [], complaints(os.path.join(top, "man", name))
    for name in ("lrls.1", "lrgrammar.5"):
        path = os.path.join(top, "man", name)
        shown = examples(path)
        yield f"manual {name}: has an example", 1, len(shown)
        for lines in shown:
            if lines[0].startswith("$ "):
                block = Block(0, ["console"])
                block.lines = [line.replace(INSTALLED, "grammars/") for line in lines]
                yield from page.console(block)
            else:
                yield from page.sound(f"manual {name}: its example", "\n".join([*lines, ""]))
