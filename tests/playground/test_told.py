"""Tries in headless browsers what the page of `ide/lrls-playground` tells: by which grammar a text
is looked at, conflicts, first mistakes, and messages that go when their cause does.
Needs Python 3.11 and the Debian packages that tests/playground/browser.py names.
One of them: pytest tests/playground/test_told.py -k mistakes
"""

from typing import Any, Iterator

import pytest

from tests.common.cases import Cases
from tests.playground.browser import Begins, Browser
from tests.playground.program import Playground

LISTS = """lrgrammar 2
token WORD = [a-z]+
token COMMA = ","
skip WS = [ \\n]+
start List
List = WORD More*
More = COMMA WORD
"""
# Before both moves of its conflict come ten symbols.
LONG = """lrgrammar 2
token FIRST_KEYWORD = "first"
token SECOND_KEYWORD = "second"
token NUM = [0-9]+
token PLUS = "+"
skip WS = [ ]+
start Whole
Whole = Pair Pair Pair Pair Pair Sum
Pair = FIRST_KEYWORD SECOND_KEYWORD
Sum = NUM
Sum = Sum PLUS Sum
"""
CUT = """
const view = document.getElementById("conflict").getBoundingClientRect();
const parts = [...document.querySelectorAll("#conflict .box, #conflict .told, #conflict .item")];
return parts.filter((part) => {
  const it = part.getBoundingClientRect();
  const isWide = it.left < view.left || it.right > view.right;
  return isWide || it.top < view.top || it.bottom > view.bottom;
}).map((it) => it.textContent);
"""
# What a line added to a grammar is told, from its beginning.
MISTAKES = [
    ("More=COMMA", '"=" needs a blank on both sides'),
    ("More -> COMMA", 'a production is written with "="'),
    ("More : COMMA", 'a production is written with "="'),
    ("More = COMMA | WORD", "a production has no |"),
    ('More = ","', "a production has names alone"),
    ("token X = [0-9]{4}", "the pattern can't go on like this"),
    ('token X = "a" []', "the class has no characters"),
    ("token X = [z-a]", "the range is the wrong way round"),
    ('token X = "a" ""', "the literal has no characters"),
    ("token X = [0-9]*", "the pattern matches the empty text"),
]


@pytest.fixture(scope="module")
def page(programs: None, browser: Begins) -> Iterator[Browser]:
    with Playground() as playground, browser(playground.address) as found:
        found.is_wide(1280, 800)
        found.waits(lambda: ("while", "t-keyword") in found.colours("text"))
        yield found


def with_lists(page: Browser) -> None:
    page.put("grammar", LISTS)
    page.put("text", "a, b")
    page.waits(lambda: ("a", "t-variable") in page.colours("text"))
    page.shows("tree", "WORD a")
    page.shows("text-fault", "no fault")
    page.comes([""] * 3, lambda: page.all_of(".note"))


def colour(page: Browser, selector: str) -> Any:
    script = (
        "const it = document.querySelector(arguments[0]); return it && getComputedStyle(it).color"
    )
    return page.run(script, selector)


def test_grey(cases: Cases, page: Browser) -> None:
    """While a grammar has a fault, the last one without a fault is named where it counts."""
    with_lists(page)
    seen = lambda: [colour(page, "#text .t-variable"), colour(page, "#text-fault")]
    before = seen()
    page.put("grammar", LISTS.replace("start List", "begin List"))
    told = "by the grammar before line 5 was changed"
    cases.check("said of a sound text", True, page.shows("text-fault", f"no fault; {told}"))
    notes = lambda: page.all_of(".note")
    cases.check("said of text, tree and tokens", [told] * 3, page.comes([told] * 3, notes))
    others = lambda: [a is not None and a != b for a, b in zip(seen(), before)]
    others_awaited = [True, True]
    cases.check("neither coloured nor green", others_awaited, page.comes(others_awaited, others))
    greys = lambda: {colour(page, it) for it in ("#tree .names", "#tokens td", "#text .t-variable")}
    is_grey = page.waits(lambda: len(greys()) == 1 and None not in greys())
    cases.check("tree and tokens are as grey", True, is_grey)
    page.put("text", "a b")
    awaited = '1:3: unexpected "b"; expected "," or the end of the text; ' + told
    cases.check("said of a fault", True, page.shows("text-fault", awaited))
    page.put("grammar", "\n".join(LISTS.split("\n")[:3]))
    gone = "by the grammar before what stood behind line 3 was removed"
    cases.check("said where lines were removed", True, page.shows("text-fault", gone))
    page.put("grammar", "")
    gone = "by the grammar before line 1 was changed"
    cases.check("said of an empty grammar", True, page.shows("text-fault", gone))
    page.put("grammar", LISTS)
    mended, fault = awaited.partition("; by")[0], lambda: page.text("text-fault")
    cases.check("nothing of it when mended", mended, page.comes(mended, fault))
    cases.check("no notes when mended", [""] * 3, page.comes([""] * 3, notes))
    cases.end(9)


def test_conflict(cases: Cases, page: Browser) -> None:
    """Both moves of a conflict behind a long front are seen at 1280 pixels, whole."""
    page.put("grammar", LONG)
    cases.check("a conflict", True, page.shows("grammar-fault", "conflict on PLUS"))
    boxes = lambda: page.all_of("#conflict .boxes")
    awaited = ["\u2026PairSumPLUSSumPLUS", "\u2026PairSumPLUS", "\u2026PairSumPLUSSumPLUSSum"]
    cases.check("the moves without the front", awaited, page.comes(awaited, boxes))
    cases.check("what of it is cut off", [], page.comes([], lambda: page.run(CUT)))
    page.run("document.querySelector('#conflict .item').click()")
    line = lambda: page.editor("grammar", "return code.getCursor().line")
    cases.check("a click goes to its line", 10, page.comes(10, line))
    page.put("grammar", LONG.replace("Sum PLUS Sum", "Sum PLUS NUM"))
    cases.check("its picture goes", True, page.waits(lambda: not page.all_of("#conflict *")))
    cases.end(5)


def test_mistakes(cases: Cases, page: Browser) -> None:
    """The first mistakes of those who know another form of grammars are named in words."""
    for line, awaited in MISTAKES:
        # What was said of the line before may be the same.
        page.put("grammar", LISTS)
        page.shows("grammar-fault", "no fault")
        page.put("grammar", f"{LISTS}{line}\n")
        cases.check(f"what is said of {line!r}", True, page.shows("grammar-fault", awaited))
    page.put("grammar", LISTS.replace("lrgrammar 2", "lrgrammar 1"))
    told = 'behind a name need "lrgrammar 2" as the first line'
    cases.check("marks under version 1", True, page.shows("grammar-fault", told))
    cases.check("the place of a mark", True, page.shows("grammar-fault", "6:13: "))
    cases.end(12)


def test_settings(cases: Cases, page: Browser) -> None:
    """The settings of a language of the menu go with its grammar, and no longer."""
    page.choose("script")
    page.shows("shown", "script is in place")
    page.put("text", "let 1;")
    cases.check("words of the settings", True, page.shows("text-fault", "expected a name"))
    with_lists(page)
    cases.check("another grammar", True, page.shows("text-fault", "no fault"))
    shown = lambda: page.text("shown")
    cases.check("nothing is told of them", "", page.comes("", shown))
    cases.check(
        "the guess counts", True, page.waits(lambda: ("a", "t-variable") in page.colours("text"))
    )
    page.editor("grammar", "code.undo()")
    page.put("text", "let 1;")
    cases.check("words after an undo", True, page.shows("text-fault", "expected a name"))
    cases.end(5)


def test_messages(cases: Cases, page: Browser) -> None:
    """A text that is too large is told where it stands, until it is shorter."""
    with_lists(page)
    page.editor("text", "code.setValue('a, '.repeat(400000) + 'a')")
    told = "more than 1,048,576 bytes: it isn't looked at until it is shorter"
    cases.check("a text that is too large", True, page.shows("text-fault", told))
    cases.check("it isn't called faultless", False, "no fault" in page.text("text-fault"))
    page.put("text", "a, a")
    cases.check("one that is short again", True, page.shows("text-fault", "no fault"))
    cases.check("no message is left", "", page.comes("", lambda: page.text("shown")))
    cases.end(4)
