"""Tries in headless browsers that the page of `ide/lrls-playground` loses nothing: what is typed,
what the menu replaces, and the form of files.
Needs Python 3.11 and the Debian packages that tests/playground/browser.py names.
One of them: pytest tests/playground/test_kept.py -k reload
"""

from pathlib import Path
from typing import Iterator, Tuple

import pytest

from tests.common.cases import Cases
from tests.playground.browser import Begins, Browser
from tests.playground.program import Playground

OWN = """lrgrammar 2
token X = "x"
skip WS = [ \\n]+
start S
S = X*
"""
TEXT = "x x x"
SAVED = """
const original = (window.original ??= URL.createObjectURL);
const saved = (window.saved = []);
URL.createObjectURL = (blob) => {
  blob.arrayBuffer().then((it) => saved.push([...new Uint8Array(it)]));
  return original(blob);
};
HTMLAnchorElement.prototype.click = () => {};
"""


@pytest.fixture(scope="module")
def opened(programs: None, browser: Begins) -> Iterator[Tuple[Playground, Browser]]:
    with Playground() as playground, browser(playground.address) as page:
        yield playground, page


@pytest.fixture
def page(opened: Tuple[Playground, Browser]) -> Browser:
    """The page as a new tab has it, with a grammar and a text of one's own."""
    _, found = opened
    found.driver.get("about:blank")
    found.driver.switch_to.new_window("tab")
    found.driver.get(found.address)
    found.waits(lambda: ("while", "t-keyword") in found.colours("text"))
    found.put("grammar", OWN)
    found.put("text", TEXT)
    found.shows("made", "scanned 5 of 5 tokens")
    return found


def both(page: Browser) -> Tuple[str, str]:
    return page.value("grammar"), page.value("text")


def stays(cases: Cases, page: Browser, name: str) -> None:
    """What was typed comes to be there, and is looked at."""
    cases.check(f"both texts {name}", (OWN, TEXT), page.comes((OWN, TEXT), lambda: both(page)))
    cases.check(f"the text is looked at {name}", True, page.shows("tree", "X x"))


def test_reload(cases: Cases, page: Browser) -> None:
    page.type("text", "x ")
    awaited = (OWN, f"x {TEXT}")
    page.comes(awaited, lambda: both(page))
    page.driver.refresh()
    cases.check("what was typed just before", awaited, page.comes(awaited, lambda: both(page)))
    page.put("text", TEXT)
    page.shows("made", "5 tokens")
    page.driver.refresh()
    stays(cases, page, "after a reload")
    page.driver.get("about:blank")
    page.driver.back()
    stays(cases, page, "after going back")
    page.put("grammar", OWN + "S = \n")
    page.shows("grammar-fault", "conflict")
    page.driver.refresh()
    cases.check("a faulty grammar after a reload", True, page.shows("grammar-fault", "conflict"))
    told = "no fault; by the grammar before line 6 was changed"
    cases.check("by which grammar the text is looked at then", True, page.shows("text-fault", told))
    cases.end(7)


def test_tabs(cases: Cases, page: Browser) -> None:
    first = page.driver.current_window_handle
    page.driver.switch_to.new_window("tab")
    page.driver.get(page.address)
    cases.check("a new tab has its own texts", True, page.shows("tree", "Program"))
    groups = lambda: page.all_of("#menu optgroup option")
    cases.check("the menu offers what other tabs had", True, page.waits(groups))
    other = page.driver.current_window_handle
    page.put("text", "let other = 1;")
    page.driver.switch_to.window(first)
    page.driver.refresh()
    stays(cases, page, "beside another tab")
    page.driver.close()
    page.driver.switch_to.window(other)
    page.driver.refresh()
    page.shows("tree", "Program")
    key = lambda: page.run(
        "return [...document.querySelectorAll('#menu optgroup option')].find((it) =>"
        " JSON.parse(localStorage.getItem(it.value))?.text === arguments[0])?.value",
        TEXT,
    )
    page.waits(key)
    page.choose(key() or "")
    stays(cases, page, "of a tab that was closed")
    cases.end(6)


def test_half_characters(cases: Cases, page: Browser) -> None:
    """Half of a pair of units, which the server can't read, becomes a mark for it."""
    page.editor("text", "code.setValue('x \\ud800 x')")
    cases.check("the text", "x \ufffd x", page.comes("x \ufffd x", lambda: page.value("text")))
    cases.check("its fault", True, page.shows("text-fault", '1:3: unexpected "\ufffd"'))
    cases.check("the page is open", True, page.run("return document.getElementById('lost').hidden"))
    cases.end(3)


def test_menu(cases: Cases, page: Browser) -> None:
    for language in ("json", "toml"):
        page.choose(language)
        page.waits(lambda: language in page.text("shown"))
    cases.check("another language", True, page.shows("tree", "Document"))
    page.editor("grammar", "code.undo(); code.undo()")
    page.editor("text", "code.undo(); code.undo()")
    stays(cases, page, "after two undos in each")
    page.choose("json")
    page.waits(lambda: "json" in page.text("shown"))
    page.choose("toml")
    page.waits(lambda: "toml" in page.text("shown"))
    page.click("undo")
    cases.check("taken back once", True, page.shows("tree", "LBRACE"))
    page.click("undo")
    stays(cases, page, "taken back twice")
    page.run("document.getElementById('menu').focus()")
    page.press("\ue015")
    page.waits(lambda: "in place of both" in page.text("shown"))
    cases.check("an arrow key in the menu", False, both(page) == (OWN, TEXT))
    page.click("undo")
    stays(cases, page, "after an arrow key in the menu")
    cases.end(9)


def test_empty(cases: Cases, page: Browser) -> None:
    page.click("empty")
    empty = ("lrgrammar 2\n", "")
    cases.check("both texts are empty", empty, page.comes(empty, lambda: both(page)))
    told = "not looked at: there is no grammar without a fault yet"
    cases.check("no grammar looks at the text", True, page.shows("text-fault", told))
    cases.check("no old tree is shown", "hidden", visibility(page, "#tree > *"))
    page.editor("grammar", "code.undo()")
    page.editor("text", "code.undo()")
    stays(cases, page, "after an undo in each")
    cases.end(5)


def visibility(page: Browser, selector: str) -> object:
    script = (
        "const it = document.querySelector(arguments[0]);"
        "return it && getComputedStyle(it).visibility"
    )
    return page.comes("hidden", lambda: page.run(script, selector))


def test_link(cases: Cases, page: Browser) -> None:
    page.lets_copy()
    page.click("copy")
    cases.check("it is told", True, page.shows("shown", "The link is copied"))
    link = page.run("return navigator.clipboard.readText()")
    cases.check("a link to this page", page.address + "#", link[: len(page.address) + 1])
    page.driver.switch_to.new_window("tab")
    page.driver.get(link)
    stays(cases, page, "by the link")
    address = lambda: page.driver.current_url
    cases.check("the address has no texts", page.address, page.comes(page.address, address))
    page.put("text", "x")
    page.driver.refresh()
    cases.check("a reload after it", (OWN, "x"), page.comes((OWN, "x"), lambda: both(page)))
    cases.end(6)


def loaded(page: Browser, part: str, path: Path, content: bytes) -> None:
    """Loads a file."""
    path.write_bytes(content)
    page.driver.find_element("id", f"{part}-file").send_keys(str(path))


def saved(page: Browser, part: str) -> object:
    """The bytes of the file that is saved."""
    page.run(SAVED)
    page.click(f"save-{part}")
    page.waits(lambda: page.run("return window.saved.length"))
    return bytes(page.run("return window.saved[0]") or [])


def test_files(cases: Cases, page: Browser, tmp_path: Path) -> None:
    rows = [
        ("line feeds", b"x x\nx\n"),
        ("carriage returns and line feeds", b"x x\r\nx\r\n"),
        ("carriage returns", b"x x\rx\r"),
        ("a byte order mark", b"\xef\xbb\xbfx\nx"),
        ("no line break", b"x"),
    ]
    for name, content in rows:
        loaded(page, "text", tmp_path / "some.txt", content)
        page.shows("shown", "some.txt is loaded")
        cases.check(f"a saved file with {name}", content, saved(page, "text"))
        page.editor("text", "code.undo()")
    loaded(page, "text", tmp_path / "latin.txt", "x \u00e9".encode("latin-1"))
    told = "latin.txt isn't UTF-8, so it wasn't loaded"
    cases.check("a file that isn't UTF-8 is told", True, page.shows("shown", told))
    stays(cases, page, "after a file that isn't UTF-8")
    loaded(page, "grammar", tmp_path / "latin.lr", OWN.encode() + b"# \xe9\n")
    cases.check("such a grammar is told", True, page.shows("shown", "latin.lr isn't UTF-8"))
    stays(cases, page, "after a grammar that isn't UTF-8")
    loaded(page, "text", tmp_path / "mixed.txt", b"x\r\nx\r\nx\n")
    cases.check("breaks of two kinds are told", True, page.shows("shown", "of more than one kind"))
    page.click("undo")
    stays(cases, page, "after a file that was loaded and taken back")
    loaded(page, "grammar", tmp_path / "own.lr", OWN.encode())
    title = lambda: page.driver.title
    cases.check(
        "the title", "own.lr, some.txt - lrls", page.comes("own.lr, some.txt - lrls", title)
    )
    cases.end(15)
