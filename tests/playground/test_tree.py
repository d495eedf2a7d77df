"""Tries in headless browsers the tree of the page of `ide/lrls-playground`: flat lists, pages of
parts, the way to the cursor, keys and roles.
Needs Python 3.11 and the Debian packages that tests/playground/browser.py names.
One of them: pytest tests/playground/test_tree.py -k keys
"""

import json
import os
import subprocess
import time
from pathlib import Path
from typing import Any, Iterator, List

import pytest

from tests import TOP
from tests.common.cases import Cases
from tests.playground.browser import Begins, Browser
from tests.playground.program import Playground

G0 = os.path.join(TOP, "grammars", "g0.lr")
DOWN, UP, RIGHT, LEFT = "\ue015", "\ue013", "\ue014", "\ue012"
HOME, ENTER = "\ue011", "\ue007"
LINES = 1_000
DEEP = 2_000
# Keys in the tree of `1+(2)`, and the line that has the focus then.
ROWS = [
    (DOWN, "Atom \u203a NUM 1"),
    (DOWN, "PLUS +"),
    (DOWN, "Atom"),
    (RIGHT, "Atom"),
    (RIGHT, "LP ("),
    (DOWN, "Sum \u203a Atom \u203a NUM 2"),
    (LEFT, "Atom"),
    (LEFT, "Atom"),
    (UP, "PLUS +"),
    (LEFT, "Sum"),
    (LEFT, "Sum"),
]
# Counts what the page asks, once for each message of the socket.
COUNTED = """
window.asked = [];
const send = WebSocket.prototype.send;
WebSocket.prototype.send = function (data) {
  const { message } = JSON.parse(data);
  if (message?.id !== undefined) window.asked.push(message.method);
  return send.call(this, data);
};
"""


@pytest.fixture(scope="module")
def page(programs: None, browser: Begins) -> Iterator[Browser]:
    with Playground() as playground, browser(playground.address) as found:
        found.waits(lambda: ("while", "t-keyword") in found.colours("text"))
        yield found


def shown(page: Browser) -> List[str]:
    """The lines of the tree, each with its level."""
    script = (
        "return [...document.querySelectorAll('#tree [role=treeitem]')]"
        ".map((it) => [it.ariaLevel, it.textContent])"
    )
    return [
        "  " * (int(level) - 1) + text.strip("\u25be\u25b8") for level, text in page.run(script)
    ]


def here(page: Browser) -> Any:
    """The name of the line at the cursor."""
    return page.run(
        "return document.querySelector('#tree [aria-selected=true] .names')?.textContent"
    )


def with_sums(page: Browser, text: str) -> None:
    """The text is this sum, and its tree is there."""
    with open(G0, encoding="utf-8") as file:
        page.put("grammar", file.read())
    page.shows("grammar-fault", "no fault")
    page.run("for (const it of document.querySelectorAll('#tree > *')) it.dataset.old = true")
    page.put("text", text)
    page.waits(lambda: page.run("return !document.querySelector('#tree [data-old]')"))
    page.shows("text-fault", "no fault")
    page.waits(lambda: shown(page)[0].startswith("Sum") if shown(page) else False)


def rests(page: Browser) -> None:
    """Waits until the page has asked nothing for a second. From `COUNTED` on."""
    asked = lambda: page.run("return window.asked.length")

    def is_quiet() -> bool:
        before = asked()
        time.sleep(1)
        return bool(asked() == before)

    page.waits(is_quiet)


def is_in_view(page: Browser, selector: str) -> bool:
    """Whether a part of the tree comes to be seen."""
    return page.waits(lambda: sees(page, selector))


def sees(page: Browser, selector: str) -> Any:
    """Whether a part of the tree is seen."""
    return page.run(
        "const place = (selector) => document.querySelector(selector).getBoundingClientRect();"
        "const [it, view] = [place(arguments[0]), place('#tree')];"
        "const isWide = it.left < view.left || it.right > view.right;"
        "return !isWide && it.top >= view.top && it.bottom <= view.bottom",
        selector,
    )


def opened_whole(page: Browser) -> None:
    """Opens each node of the tree, each once the parts of those before are there."""
    lacks_parts = (
        "const rows = [...document.querySelectorAll('#tree [role=treeitem]')];"
        "const level = (at) => Number(rows[at]?.ariaLevel ?? 0);"
        "return rows.some((it, at) => it.ariaExpanded === 'true' && level(at + 1) <= level(at))"
    )
    script = (
        "const it = document.querySelector('#tree [aria-expanded=false] .fold');"
        "it?.click(); return Boolean(it)"
    )
    while page.run(script):
        page.waits(lambda: not page.run(lacks_parts))


def show_of(grammar: str, text: str, folder: Path) -> List[str]:
    """The lines of `lrls show`, without the places."""
    path = folder / "text"
    path.write_text(text, encoding="utf-8")
    words = [os.path.join(TOP, "lrls"), "show", grammar, str(path)]
    out = subprocess.run(words, capture_output=True, text=True, check=True).stdout
    found = []
    for line in out.splitlines():
        name, *more = line.replace(" > ", " \u203a ").rsplit("  ", 2)
        is_token = len(more) == 2 and more[1].startswith('"')
        found.append(
            f"{name} {json.loads(more[1])}" if is_token else line.replace(" > ", " \u203a ")
        )
    return found


def test_flat(cases: Cases, page: Browser, tmp_path: Path) -> None:
    for text in ("1", "1+2+3", "(1+2)+(3)+4", "((1))"):
        with_sums(page, text)
        opened_whole(page)
        awaited = show_of(G0, text, tmp_path)
        cases.check(f"the lines of {text}", awaited, page.comes(awaited, lambda: shown(page)))
    cases.end(4)


def is_narrow(page: Browser, width: int) -> bool:
    """Whether the tree comes to be less wide than so many pixels."""
    script = "return document.getElementById('tree').scrollWidth"
    return page.waits(lambda: page.run(script) < width)


def test_long_list(cases: Cases, page: Browser) -> None:
    """A sum of a thousand lines is one list, by page; each move of the cursor asks once."""
    with_sums(page, "1 +\n" * LINES + "2")
    cases.check("a page of parts", True, page.shows("tree", f"of {2 * LINES + 1:,}"))
    page.run(COUNTED)
    rests(page)
    for line in (10, 500, 501, 998, 0):
        page.run("window.asked.length = 0")
        page.editor("text", "code.setCursor({ line: arguments[0], ch: 0 })", line)
        page.shows("tree", "NUM 1")
        selected = "#tree [aria-selected=true]"
        place = lambda: page.run(f"return document.querySelector('{selected}')?.ariaPosInSet")
        awaited = str(2 * line + 1)
        cases.check(f"the line of the cursor at {line}", awaited, page.comes(awaited, place))
        cases.check(f"it is in view at {line}", True, is_in_view(page, f"{selected} .names"))
        rests(page)
        asked = page.run("return window.asked.filter((it) => it === 'lrls/nodes').length")
        cases.check(f"questions for the move to {line}", 1, asked)
    cases.check("the width of the tree in pixels", True, is_narrow(page, 600))
    count = page.run("return document.querySelectorAll('#tree [role=treeitem]').length")
    cases.check("lines that are drawn", True, count <= 104)
    page.editor("text", "code.focus()")
    for _ in range(120):
        page.press(DOWN)
        page.editor("text", "code.execCommand('goLineUp')")
    rests(page)
    cases.check(
        "many moves leave the page open",
        True,
        page.run("return document.getElementById('lost').hidden"),
    )
    cases.end(19)


def test_pages(cases: Cases, page: Browser) -> None:
    """The parts of a long node are turned by page."""
    with_sums(page, "1 +\n" * LINES + "2")
    page.editor("text", "code.setCursor({ line: 0, ch: 0 })")
    names = lambda: page.all_of("#tree [role=treeitem]")
    cases.check(
        "the next page", True, page.waits(lambda: any("101 to 200" in it for it in names()))
    )
    turn = "[...document.querySelectorAll('#tree .page')].at(-1).click()"
    page.run(turn)
    cases.check(
        "the page behind", True, page.waits(lambda: any("201 to 300" in it for it in names()))
    )
    cases.check(
        "the page before", True, page.waits(lambda: any("1 to 100" in it for it in names()))
    )
    for first in range(301, 702, 100):
        page.run(turn)
        page.waits(lambda: f"{first} to {first + 99}" in names()[-1])
    cases.check("part 700", True, page.waits(lambda: "800" in names()[-1]))
    cases.end(4)


def test_deep(cases: Cases, page: Browser) -> None:
    """Of a deep way the middle isn't told, and the width stays bounded."""
    with_sums(page, "(" * DEEP + "1" + ")" * DEEP)
    page.editor("text", "code.setCursor({ line: 0, ch: arguments[0] })", DEEP)
    cases.check(
        "the token of the cursor",
        "Sum \u203a Atom \u203a NUM",
        page.comes("Sum \u203a Atom \u203a NUM", lambda: here(page)),
    )
    cases.check("levels that aren't told", True, page.shows("tree", "levels further in"))
    cases.check("the width of the tree in pixels", True, is_narrow(page, 700))
    cases.end(3)


def focused(page: Browser) -> Any:
    """The line that has the focus."""
    return page.run("return document.activeElement.textContent.replace(/^[\u25be\u25b8]/, '')")


def is_opening(page: Browser) -> Any:
    """Whether the line with the focus is open, and its parts aren't there yet."""
    return page.run(
        "const [it, next] = [document.activeElement, document.activeElement.nextElementSibling];"
        "return it.ariaExpanded === 'true' && !(Number(next?.ariaLevel) > Number(it.ariaLevel))"
    )


def test_keys(cases: Cases, page: Browser) -> None:
    """Arrows open, close and go; Enter goes to the text."""
    page.driver.refresh()
    page.shows("tree", "Sum")
    with_sums(page, "1+(2)")
    page.editor("text", "code.setCursor({ line: 0, ch: 0 })")
    page.shows("tree", "NUM 1")
    focus = "document.querySelector('#tree [tabindex=\"0\"]').focus(); return true"
    page.waits(lambda: page.run(focus))
    page.press(HOME)
    cases.check("the first line", "Sum", page.comes("Sum", lambda: focused(page)))
    for key, awaited in ROWS:
        page.waits(lambda: page.run("return document.activeElement.role") == "treeitem")
        page.press(key)
        cases.check(
            f"the line after a key to {awaited}",
            awaited,
            page.comes(awaited, lambda: focused(page)),
        )
        page.waits(lambda: not is_opening(page))
    closed = lambda: page.run("return document.activeElement.ariaExpanded")
    cases.check("left has closed the tree", "false", page.comes("false", closed))
    page.press(RIGHT)
    page.waits(lambda: not is_opening(page))
    page.press(DOWN)
    page.press(DOWN)
    page.comes("PLUS +", lambda: focused(page))
    page.press(ENTER)
    at = lambda: page.editor("text", "return [code.hasFocus(), code.getCursor().ch]")
    cases.check("Enter goes to the text", [True, 1], page.comes([True, 1], at))
    cases.end(14)


def test_roles(cases: Cases, page: Browser) -> None:
    """The tree says what it is to those who don't see it."""
    with_sums(page, "1+(2)")
    page.editor("text", "code.setCursor({ line: 0, ch: 0 })")
    page.shows("tree", "NUM 1")

    def count(role: str) -> int:
        return [kind for kind, _ in page.roles()].count(role)

    cases.check("a tree", 1, page.comes(1, lambda: count("tree")))
    cases.check("its lines", 4, page.comes(4, lambda: count("treeitem")))
    script = (
        "const it = document.querySelectorAll('#tree [role=treeitem]')[2];"
        "return [it.ariaLevel, it.ariaSetSize, it.ariaPosInSet]"
    )
    place = ["2", "3", "2"]
    cases.check("the place of a line", place, page.comes(place, lambda: page.run(script)))
    reached = "return document.querySelectorAll('#tree [tabindex=\"0\"]').length"
    cases.check("lines that Tab comes to", 1, page.comes(1, lambda: page.run(reached)))
    cases.end(4)
