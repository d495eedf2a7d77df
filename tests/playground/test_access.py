"""Tries in headless browsers who can use the page of `ide/lrls-playground`: with the keyboard
alone, on narrow and wide screens, in light and dark, and by what it says of its parts.
Needs Python 3.11 and the Debian packages that tests/playground/browser.py names.
One of them: pytest tests/playground/test_access.py -k keyboard
"""

from typing import Any, Iterator, List, Tuple

import pytest

from tests.common.cases import Cases
from tests.playground.browser import Begins, Browser
from tests.playground.program import Playground

TAB, ESCAPE, SHIFT, RIGHT = "\ue004", "\ue00c", "\ue008", "\ue014"
CONTROL, END, ENTER = "\ue009", "\ue010", "\ue007"
CONTROLS = ["menu", "empty", "copy", "load-grammar", "save-grammar", "load-text", "save-text"]
TASKS = """lrgrammar 2
token TASK = "task"
token DONE = "done"
token DUE = "due"
token DATE = [0-9] [0-9] "." [0-9] [0-9]
token NUMBER = [0-9]+
token TEXT = "\\"" [^"\\n]* "\\""
token NAME = [a-z]+
token COLON = ":"
token COMMA = ","
token LBRACE = "{"
token RBRACE = "}"
skip SPACE = [ \\t\\r\\n]+
skip COMMENT = "#" [^\\n]*
start File
fold Block
File = Task*
Task = TASK NAME Title? Body
Title = TEXT
Body = COLON Entry
Body = Block
Block = LBRACE Entry* RBRACE
Entry = DONE
Entry = DUE Day
Entry = NAME COLON Value
Entry = Task
Day = DATE
Value = NUMBER
Value = Names
Names = NAME
Names = Names COMMA NAME
"""
# The least contrast of texts with what is behind them, and those of the page that have less.
LEAST = 4.5
FAINT = """
const parts = (colour) => colour.match(/[\\d.]+/g).map(Number);
const light = (colour) => {
  const line = (it) => (it <= 0.04045 ? it / 12.92 : ((it + 0.055) / 1.055) ** 2.4);
  const [r, g, b] = parts(colour).map((it) => line(it / 255));
  return 0.2126 * r + 0.7152 * g + 0.0722 * b;
};
const behind = (element) => {
  for (let it = element; it; it = it.parentElement) {
    const colour = getComputedStyle(it).backgroundColor;
    if ((parts(colour)[3] ?? 1) > 0) return colour;
  }
  return "rgb(255, 255, 255)";
};
const contrast = (element) => {
  const lights = [getComputedStyle(element).color, behind(element)].map(light);
  return (Math.max(...lights) + 0.05) / (Math.min(...lights) + 0.05);
};
const hasText = (it) => [...it.childNodes].some((node) => node.nodeType === 3 && node.data.trim());
const isShown = (it) => it.checkVisibility({ visibilityProperty: true });
const shown = [...document.querySelectorAll("body *")].filter((it) => hasText(it) && isShown(it));
const told = (it) => `${it.className || it.id || it.tagName}: ${it.textContent.slice(0, 20)}`;
window.looked = shown.length;
return shown.filter((it) => contrast(it) < arguments[0]).map((it) => `${told(it)} ${contrast(it)}`);
"""


@pytest.fixture(scope="module")
def page(programs: None, browser: Begins) -> Iterator[Browser]:
    with Playground() as playground, browser(playground.address) as found:
        found.waits(lambda: ("while", "t-keyword") in found.colours("text"))
        found.shows("tree", "Program")
        yield found


def at(page: Browser) -> Any:
    """Where the focus is: the id of an element, or of the part of the page that it is in."""
    script = "const it = document.activeElement; return it.id || it.closest('[id]')?.id || ''"
    return page.run(script)


def comes_to(page: Browser, awaited: str) -> object:
    """Where the focus is, once it is there, or at last."""
    return page.comes(awaited, lambda: at(page))


def test_keyboard(cases: Cases, page: Browser) -> None:
    """Tab comes to each control, into both editors, and by Escape out of them."""
    page.run("document.activeElement.blur()")
    reached: List[Any] = []
    while reached == CONTROLS[: len(reached)] and len(reached) < len(CONTROLS):
        page.press(TAB)
        reached.append(comes_to(page, CONTROLS[len(reached)]))
    cases.check("the controls", CONTROLS, reached)
    for awaited in ("grammar", "text"):
        page.press(TAB)
        cases.check(f"the editor of the {awaited}", awaited, comes_to(page, awaited))
        page.press("a")
        page.press(TAB)
        page.waits(lambda: page.value(awaited).startswith("a\t"))
        cases.check(f"Tab in the editor of the {awaited}", awaited, at(page))
        page.press(ESCAPE)
    for awaited in ("tree", "tokens"):
        page.press(TAB)
        cases.check(f"the {awaited}", awaited, comes_to(page, awaited))
    for awaited in ("tree", "text"):
        page.press(SHIFT + TAB)
        cases.check(f"back in the {awaited}", awaited, comes_to(page, awaited))
    page.press(ESCAPE)
    page.press(SHIFT + TAB)
    cases.check("back in the grammar", "grammar", comes_to(page, "grammar"))
    cases.end(10)


def with_focus(page: Browser, part: str) -> None:
    """The row of a part that Tab comes to has the focus."""
    script = (
        "const it = document.querySelector(`#${arguments[0]} [tabindex='0']`); it?.focus();"
        "return it !== null && it === document.activeElement"
    )
    page.waits(lambda: page.run(script, part))


def test_focus(cases: Cases, page: Browser) -> None:
    """What is drawn anew keeps the focus, also where nothing is left to have it for a while."""
    page.choose("script")
    page.shows("shown", "script is in place")
    tokens = lambda: len(page.all_of("#tokens tr"))
    for part in ("tree", "tokens"):
        page.put("text", "let old = 1;")
        page.shows("tree", "NAME old")
        with_focus(page, part)
        for text, told, count in (("?", "no tree", 1), ("", "Program", 0), ("x;", "NAME x", 2)):
            page.put("text", text)
            page.waits(lambda: told in page.text("tree") and tokens() == count)
            cases.check(f"in the {part} of {text!r}", part, comes_to(page, part))
    cases.end(6)


def test_focus_of_conflict(cases: Cases, page: Browser) -> None:
    """The focus stays at a move of a conflict that is drawn anew, and is in the grammar then."""
    page.choose("script")
    page.shows("shown", "script is in place")
    sound = page.value("grammar")
    page.put("grammar", sound + "Statement = Expression SEMICOLON Block*\n")
    page.waits(lambda: len(page.all_of("#conflict .item")) == 2)
    focused = lambda: page.run("return document.activeElement.textContent")
    last = "const it = [...document.querySelectorAll('#conflict .item')].at(-1);"
    awaited = page.run(f"{last} it.focus(); it.dataset.old = true; return it.textContent")
    page.put("grammar", page.value("grammar") + "\n")
    page.waits(lambda: page.run("return !document.querySelector('#conflict [data-old]')"))
    cases.check("in a conflict", awaited, page.comes(awaited, focused))
    page.put("grammar", sound)
    page.waits(lambda: not page.all_of("#conflict *"))
    cases.check("once it is mended", "grammar", comes_to(page, "grammar"))
    cases.end(2)


def test_language(cases: Cases, page: Browser) -> None:
    """A language of thirty lines is written from nothing, by keys alone."""
    page.driver.refresh()
    page.shows("tree", "Program")
    page.press(TAB * 2)
    comes_to(page, "empty")
    page.press(ENTER)
    page.shows("shown", "Both texts are empty")
    # Behind the controls there is the one that takes it back.
    page.press(TAB * (len(CONTROLS) - 1))
    comes_to(page, "undo")
    page.press(TAB)
    cases.check("the focus is in the grammar", "grammar", comes_to(page, "grammar"))
    page.press(CONTROL + END)
    page.type("grammar", TASKS.split("\n", 1)[1])
    cases.check("the grammar", TASKS, page.comes(TASKS, lambda: page.value("grammar")))
    cases.check("it has no fault", True, page.shows("grammar-fault", "no fault"))
    page.press(ESCAPE + TAB)
    cases.check("the focus is in the text", "text", comes_to(page, "text"))
    page.type("text", 'task tea "green" { due 01.12 done cups: 3 who: ann, bob }')
    cases.check("the text", True, page.shows("text-fault", "no fault"))
    page.press(ESCAPE + TAB)
    cases.check("the tree", True, page.shows("tree", "RBRACE }"))
    cases.check("the focus is there", "tree", comes_to(page, "tree"))
    cases.end(7)


def test_narrow(cases: Cases, page: Browser) -> None:
    """A narrow page has one column with tabs, and no part of it is cut off."""
    page.is_wide(390, 844)
    sections = (
        "return [...document.querySelectorAll('section')]"
        ".filter((it) => it.checkVisibility()).map((it) => it.id)"
    )
    cases.check(
        "one part", ["panel-grammar"], page.comes(["panel-grammar"], lambda: page.run(sections))
    )
    page.run("document.getElementById('tab-grammar').focus()")
    for name in ("text", "tree", "tokens", "grammar"):
        page.press(RIGHT)
        panel = f"panel-{name}"
        cases.check(f"the tab of {name}", [panel], page.comes([panel], lambda: page.run(sections)))
        box = (
            "const it = document.getElementById(arguments[0]).getBoundingClientRect();"
            "return [it.left, it.right]"
        )
        sides = lambda: page.run(box, panel)
        cases.check(f"the width of {name}", [0, 390], page.comes([0, 390], sides))
        high = "return document.getElementById(arguments[0]).clientHeight"
        is_high = page.waits(lambda: page.run(high, panel) > 300)
        cases.check(f"the height of {name}", True, is_high)
    wide = lambda: page.run("return document.documentElement.scrollWidth")
    cases.check("nothing stands beside the page", 390, page.comes(390, wide))
    for width, height in ((1280, 800), (1920, 1080)):
        page.is_wide(width, height)
        cases.check(f"parts at {width}", 4, page.comes(4, lambda: len(page.run(sections))))
        cases.check(f"the width at {width}", width, page.comes(width, wide))
        text = (
            "const it = document.querySelector('#tokens td:last-child').getBoundingClientRect();"
            "return innerWidth - it.left"
        )
        has_room = page.waits(lambda: page.run(text) > 100)
        cases.check(f"room for a token's text at {width}", True, has_room)
    cases.end(20)


def is_judged_by(page: Browser, is_old: bool) -> bool:
    """Whether the text comes to be looked at by an older grammar than the one there, or by it."""
    script = "return document.body.classList.contains('old')"
    return page.waits(lambda: page.run(script) == is_old)


def paper(page: Browser) -> Any:
    """The colour behind the text."""
    return page.run(
        "return getComputedStyle(document.querySelector('#text .CodeMirror')).backgroundColor"
    )


def test_contrast(cases: Cases, page: Browser) -> None:
    """Each text has enough contrast, in light and dark, while a grammar is sound and while not."""
    page.is_wide(1280, 800)
    page.choose("script")
    page.shows("shown", "script is in place")
    page.shows("tree", "Program")
    page.editor("text", "code.setCursor({ line: 7, ch: 18 })")
    page.shows("tree", "NAME words")
    sound = page.value("grammar")
    faulty = sound.replace("start Program", "start Pro gram")
    torn = sound + "Statement = Expression SEMICOLON Block*\n"
    faint = lambda: page.run(FAINT, LEAST)
    looked = lambda: faint() is not None and page.run("return window.looked") > 100
    for state, grammar in (("sound", sound), ("faulty", faulty), ("torn", torn)):
        page.put("grammar", grammar)
        page.shows(
            "grammar-fault", {"sound": "no fault", "faulty": "50:", "torn": "conflict"}[state]
        )
        is_judged_by(page, state != "sound")
        for is_dark in (False, True):
            page.is_dark(is_dark)
            name = f"{state}, {'dark' if is_dark else 'light'}"
            cases.check(f"faint texts, {name}", [], page.comes([], faint))
            cases.check(f"texts that were looked at, {name}", True, page.waits(looked))
    page.put("grammar", sound)
    page.put("text", "let ?")
    page.shows("text-fault", "which begins no token")
    cases.check("by the grammar that is there", True, is_judged_by(page, False))
    for is_dark in (False, True):
        page.is_dark(is_dark)
        cases.check(f"faint texts of a fault, {is_dark}", [], page.comes([], faint))
    is_dim = page.waits(lambda: sum(map(int, paper(page)[4:-1].split(","))) < 120)
    cases.check("the paper in dark", True, is_dim)
    page.is_dark(False)
    light = "rgb(255, 255, 255)"
    cases.check("the paper in light", light, page.comes(light, lambda: paper(page)))
    cases.end(17)


def named(page: Browser) -> List[Tuple[str, str]]:
    """The kind and the name of each control."""
    kinds = ("button", "combobox", "textbox", "tree", "tab", "region")
    return [(kind, name) for kind, name in page.roles() if kind in kinds]


def test_labels(cases: Cases, page: Browser) -> None:
    """Each control has a name that says what it does, and the title says which files these are."""
    texts = lambda: sorted(name for kind, name in named(page) if kind == "textbox")
    awaited = [f"{name}; Escape, then Tab leaves it" for name in ("grammar", "text")]
    cases.check("the editors", awaited, page.comes(awaited, texts))
    nameless = lambda: [kind for kind, name in named(page) if not name]
    cases.check("controls without a name", [], page.comes([], nameless))
    names = [name for kind, name in named(page) if kind == "button"]
    cases.check("names that occur twice", len(names), len(set(names)))
    page.choose("json")
    title = lambda: page.driver.title
    awaited_title = "json.lr, json.json - lrls"
    cases.check("the title", awaited_title, page.comes(awaited_title, title))
    cases.end(4)
