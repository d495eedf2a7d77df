"""The pages of an installation: copies of the repository's, in which no link leads to what isn't
installed."""

from __future__ import annotations

import os
import re
import shutil

from sources import Checkout

PAGES = ("README.md", "CHANGELOG.md")
FOLDER = "docs"
# Folders of share/lrls that pages name, as they name them in a checkout.
NAMED = ("editors", "grammars", "ide")
LINK = re.compile(r"!?\[([^\]]*)\]\(([^)\s]+)\)")
TITLE = re.compile(r"(# .*\n)")
HEAD = (
    "\n*This is an installed copy. What it says of `crates/`, `tests/`, `bench/`, `script/`, `.ci/` "
    "and CONTRIBUTING.md is in the repository, and `./lrls` is the command `lrls` here.*\n"
)


def place_pages(checkout: Checkout, share: str) -> None:
    """Lays out the pages in share/doc/lrls, with what they name of share/lrls by links."""
    target = os.path.join(share, "doc", "lrls")
    shutil.rmtree(target, ignore_errors=True)
    os.makedirs(os.path.join(target, FOLDER))
    for name in NAMED:
        if os.path.isdir(os.path.join(share, "lrls", name)):
            os.symlink(f"../../lrls/{name}", os.path.join(target, name))
    os.symlink("../doc/lrls/docs", os.path.join(share, "lrls", FOLDER))
    names = [*PAGES, *(f"{FOLDER}/{name}" for name in sorted(os.listdir(checkout.path(FOLDER))))]
    for name in filter(lambda name: os.path.isfile(checkout.path(name)), names):
        shutil.copyfile(checkout.path(name), os.path.join(target, name))
    for name in filter(lambda name: name.endswith(".md"), names):
        mend(os.path.join(target, name))


def mend(path: str) -> None:
    """Takes the links out of a page that lead nowhere, and leaves their words; says at its head
    that it is a copy."""
    with open(path, encoding="utf-8", newline="") as file:
        text = file.read()
    folder = os.path.dirname(path)

    def mended(link: "re.Match[str]") -> str:
        words, target = link.groups()
        is_elsewhere = "://" in target or target.startswith("#")
        leads = is_elsewhere or os.path.exists(os.path.join(folder, target.partition("#")[0]))
        return link.group() if leads else words

    text = LINK.sub(mended, text)
    if os.path.basename(path) != "CHANGELOG.md":
        text = TITLE.sub(lambda title: title.group() + HEAD, text, count=1)
    with open(path, "w", encoding="utf-8", newline="") as file:
        file.write(text)
