"""Tries in headless Chromium what the pictures of the page of `ide/lrls-playground` show, and draws
them anew with --pictures: docs/playground*.png.
Needs Python 3.11 and the Debian packages that tests/playground/browser.py names; for pictures with
few colours imagemagick.
"""

from typing import Iterator

import pytest

from tests.common.cases import Cases
from tests.playground.browser import Browser
from tests.playground.chromium import Chromium
from tests.playground.program import Playground

SONGS = """lrgrammar 2
token RBRACE = "}"
token LBRACE = "{"
token PLAYLIST = "playlist"
token NAME = [a-z]+
token TIME = [0-9]+ ":" [0-5] [0-9]
token STRING = "\\"" [^"\\n]* "\\""
skip SPACE = [ \\t\\r\\n]+
skip COMMENT = "#" [^\\n]*
start File
fold Playlist
File = Playlist*
Playlist = PLAYLIST STRING LBRACE Song* RBRACE
Song = STRING TIME NAME*
"""
MORNING = """playlist "Morning" {
    "Sunrise" 4:05
    "Coffee" 2:31 loud  # twice
}

playlist "Noon" {
    "Lunch"
}
"""
HEAD = """lrgrammar 2
token IF = "if"
token ELSE = "else"
token NAME = [a-z]+
skip SPACE = [ \\t\\r\\n]+
start S
"""
CONFLICT = f"""{HEAD}S = IF NAME S
S = IF NAME S ELSE S
S = NAME
"""
MENDED = f"""{HEAD}S = Open
S = Closed
Open = IF NAME S
Open = IF NAME Closed ELSE Open
Closed = IF NAME Closed ELSE Closed
Closed = NAME
"""
# Pictures of the page of a width and a height, light or dark; a narrower page has tabs.
SIZES = [
    ("playground-wide.png", 1920, 1080, True),
    ("playground-narrow.png", 390, 844, False),
]
NARROW = 800


@pytest.fixture(scope="module")
def page(programs: None) -> Iterator[Browser]:
    with Playground() as playground, Chromium(playground.address) as found:
        found.is_wide(1280, 800)
        found.waits(lambda: ("while", "t-keyword") in found.colours("text"))
        yield found


def drawn(page: Browser, name: str, draws: bool) -> None:
    """Draws the page, without a cursor that blinks."""
    page.run("document.activeElement.blur()")
    if draws:
        page.picture(name)


def test_first(cases: Cases, page: Browser, draws: bool) -> None:
    page.editor("text", "code.setCursor({ line: 7, ch: 18 })")
    cases.check("the tree at the cursor", True, page.shows("tree", "NAME words"))
    drawn(page, "playground.png", draws)
    cases.end(1)


def test_fault(cases: Cases, page: Browser, draws: bool) -> None:
    page.put("grammar", SONGS)
    page.put("text", MORNING)
    page.editor("text", "code.setCursor({ line: 6, ch: 11 })")
    cases.check("a fault", True, page.shows("text-fault", '8:1: unexpected "}"; expected TIME'))
    cases.check("the tree before it", True, page.shows("tree", 'STRING "Lunch"'))
    page.waits(lambda: ("playlist", "t-keyword") in page.colours("text"))
    drawn(page, "playground-fault.png", draws)
    cases.end(2)


def test_conflict(cases: Cases, page: Browser, draws: bool) -> None:
    page.put("grammar", MENDED)
    page.put("text", "if a if b c else d")
    page.editor("text", "code.setCursor({ line: 0, ch: 12 })")
    cases.check("no fault", True, page.shows("text-fault", "no fault"))
    cases.check("the tree", True, page.shows("tree", "ELSE else"))
    page.waits(lambda: ("if", "t-keyword") in page.colours("text"))
    page.editor("grammar", "code.scrollTo(0, 0)")
    drawn(page, "playground-mended.png", draws)
    page.put("grammar", CONFLICT)
    cases.check("a conflict", True, page.shows("grammar-fault", "conflict on ELSE"))
    page.waits(lambda: page.all_of("#conflict .box"))
    drawn(page, "playground-conflict.png", draws)
    cases.end(3)


@pytest.mark.parametrize("name, width, height, is_dark", SIZES)
def test_sizes(
    cases: Cases, page: Browser, draws: bool, name: str, width: int, height: int, is_dark: bool
) -> None:
    """The page in other sizes, and in dark colours."""
    page.is_wide(width, height)
    page.is_dark(is_dark)
    page.choose("script")
    cases.check("the language", True, page.shows("shown", "script is in place"))
    if width <= NARROW:
        page.click("tab-tree")
    else:
        page.waits(lambda: ("while", "t-keyword") in page.colours("text"))
    page.editor("text", "code.setCursor({ line: 7, ch: 18 })")
    cases.check("the tree at the cursor", True, page.shows("tree", "NAME words"))
    wide = lambda: page.run("return document.documentElement.scrollWidth")
    cases.check("the width", width, page.comes(width, wide))
    drawn(page, name, draws)
    cases.end(3)
