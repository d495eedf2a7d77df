"""Tries the page of `ide/lrls-playground` in headless browsers.
Needs Python 3.11 and the Debian packages that tests/playground/browser.py names.
All of it: pytest tests/playground/test_page.py

A grammar is typed in, a conflict met and mended, a text of 100 KB typed into, and the tree clicked;
fifty pages are opened and closed. LRLS_PLAYGROUND in the environment is another program to test.
"""

import time

import pytest

from tests.common import processes
from tests.common.cases import Cases
from tests.playground.browser import SECONDS, Begins, Browser
from tests.playground.program import Playground

PAGES = 50
# So often keys are typed at most, until they are there in time.
TIMES = 10
# So long it is waited for what is shown of a large text, which takes the server some seconds.
LONG = 5 * SECONDS
SUMS = """lrgrammar 2
token NUM = [0-9]+
token PLUS = "+"
skip WS = [ ]+
start Sum
Sum = NUM
Sum = Sum PLUS Sum
"""


def starts(cases: Cases, page: Browser) -> None:
    """The page begins with a language of the menu, coloured, with folds, tree and tokens."""
    cases.check(
        "the text has colours",
        True,
        page.waits(lambda: ("while", "t-keyword") in page.colours("text")),
    )
    cases.check(
        "the grammar has colours",
        True,
        page.waits(lambda: ("token", "t-keyword") in page.colours("grammar")),
    )
    for part in ("text-fault", "grammar-fault"):
        cases.check(f"no fault in {part}", True, page.shows(part, "no fault"))
    cases.check(
        "what was made",
        True,
        page.shows("made", "scanned 286 of 286 tokens, built 491 of 491 nodes"),
    )
    cases.check(
        "what may follow", True, page.shows("follow", 'what may follow: "("  "["  "let"  "fn"')
    )
    folds = lambda: page.run(
        "return document.querySelectorAll('#text .CodeMirror-foldgutter-open').length"
    )
    cases.check("folds", 7, page.comes(7, folds))


def follows(cases: Cases, page: Browser) -> None:
    """The tree follows the cursor, opens and closes by clicks, and marks the text of a node."""
    page.editor("text", "code.setCursor({ line: 7, ch: 18 })")
    cases.check("the tree follows the cursor", True, page.shows("tree", "NAME words"))
    here = lambda: page.all_of("#tree .here .names")
    awaited = ["Program \u203a Statement*", "Postfix \u203a Place \u203a NAME"]
    cases.check(
        "the nodes around the cursor",
        awaited,
        page.comes(awaited, lambda: [*here()[:1], *here()[-1:]]),
    )
    row = lambda: page.run("return document.querySelector('#tokens tr.here')?.textContent")
    cases.check("the tokens follow it", True, page.waits(lambda: row() == "8:17NAMEwords"))
    page.run(
        "[...document.querySelectorAll('#tree .names')]"
        ".find((it) => it.textContent === 'Block').click()"
    )
    marks = "code.getAllMarks().filter((it) => it.className === 'mark-node').map((it) => it.find())"
    marked = lambda: page.editor(
        "text", f"return {marks}.map(({{ from, to }}) => [from.line, to.line])"
    )
    cases.check("a click marks the text of a node", [[1, 18]], page.comes([[1, 18]], marked))
    cases.check(
        "the tree follows the click", ["LBRACE"], page.comes(["LBRACE"], lambda: here()[-1:])
    )
    count = lambda: page.run("return document.querySelectorAll('#tree [role=treeitem]').length")
    before = count()
    fold = "document.querySelectorAll('#tree .fold')[arguments[0]].click()"
    page.run(fold, 0)
    cases.check("a click closes the tree", True, page.waits(lambda: count() == 1))
    page.run(fold, 0)
    cases.check("a click opens it", True, page.waits(lambda: count() == before))


def faulty(cases: Cases, page: Browser) -> None:
    """A fault while typing, what may follow there, and its mending."""
    page.editor("text", "code.setCursor({ line: 2, ch: 19 })")
    page.type("text", " let")
    cases.check("a fault", True, page.shows("text-fault", '4:5: unexpected "let"; expected a name'))
    marked = lambda: page.run("return document.querySelector('#text .mark-fault')?.textContent")
    cases.check("a fault is marked", "let", page.comes("let", marked))
    cases.check(
        "what may follow in the fault", True, page.shows("follow", "what may follow: a name")
    )
    cases.check("the tree before a fault", True, page.shows("tree", "Program"))
    page.type("text", "\ue003" * 4)
    cases.check("a mended fault", True, page.shows("text-fault", "no fault"))
    cases.check(
        "few tokens for a key", True, page.shows("made", "the last edit scanned 2 of 286 tokens")
    )


def writes_grammar(cases: Cases, page: Browser) -> None:
    """A grammar is typed in; its conflict is drawn, and goes when it is mended."""
    page.editor("text", "code.setValue('')")
    page.editor("grammar", "code.setValue('')")
    page.type("grammar", "lrgrammar 2\nS = A | B")
    cases.check(
        "a mistake while typing", True, page.shows("grammar-fault", '2:7: unexpected "|"; expected')
    )
    page.editor("grammar", "code.setValue('')")
    page.type("grammar", SUMS)
    cases.check(
        "a conflict", True, page.shows("grammar-fault", "conflict on PLUS after Sum PLUS Sum")
    )
    drawn = lambda: "|".join(page.all_of("#conflict .told, #conflict .box, #conflict .item"))
    reduction = (
        "reduce: Sum PLUS Sum becomes Sum|Sum|PLUS|item: Sum = Sum PLUS Sum ., PLUS  (line 7)"
    )
    shift = (
        "shift: PLUS goes on with Sum|Sum|PLUS|Sum|PLUS|Sum|"
        "item: Sum = Sum . PLUS Sum, end  (line 7)"
    )
    cases.check(
        "the moves are drawn",
        (True, True),
        page.comes((True, True), lambda: (reduction in drawn(), shift in drawn())),
    )
    page.editor("grammar", "code.setCursor({ line: 6, ch: 18 })")
    page.type("grammar", "\ue003" * 3 + "NUM")
    cases.check("a mended conflict", True, page.shows("grammar-fault", "no fault"))
    cases.check("its picture is gone", "", page.comes("", lambda: page.text("conflict")))
    page.type("text", "1 + 2 +")
    cases.check(
        "the new grammar counts",
        True,
        page.shows("text-fault", "1:8: unexpected end of the text; expected NUM"),
    )


def ten_keys(page: Browser, count: int) -> float:
    """The seconds until ten more keys are there, after which so many were typed into the name in
    line 2002."""
    begun = time.monotonic()
    page.type("text", "abcdefghij")
    page.waits(
        lambda: page.editor("text", "return code.getLine(2002)").count("abcdefghij") * 10 >= count
    )
    return time.monotonic() - begun


def large_text(cases: Cases, page: Browser) -> None:
    """A text of 100 KB takes keys, each of which makes little."""
    page.choose("script")
    cases.check("another language of the menu", True, page.shows("text-fault", "no fault"))
    page.waits(lambda: "fn count" in page.editor("text", "return code.getValue()"))
    page.editor("text", "code.setValue(code.getValue().repeat(135))")
    size = page.editor("text", "return code.getValue().length")
    cases.check("a text of 100 KB", True, size > 100_000)
    cases.check("its tokens", True, page.shows("made", f"{135 * 286:,} tokens", LONG))
    page.editor("text", "code.setCursor({ line: 2002, ch: 16 })")
    line = page.editor("text", "return code.getLine(2002)")
    times = (ten_keys(page, 10 * (number + 1)) for number in range(TIMES))
    seconds = next((time for time in times if time < 2), None)
    cases.check("ten keys are there within two seconds", True, seconds is not None)
    cases.check("the last key made little", True, page.shows("made", "the last edit scanned 1 of "))
    cases.check(
        "its colours",
        True,
        page.waits(lambda: any("abcdefghij" in word for word, _ in page.colours("text")), LONG),
    )
    cases.check("the tree there", True, page.shows("tree", "abcdefghij", LONG))
    print(
        f"a text of {size:,} characters: ten keys in {seconds or 2:.2f} s; "
        f"line {line.strip()!r}: {page.text('made')}"
    )


def many_pages(cases: Cases, page: Browser, playground: Playground) -> None:
    """Fifty pages, one after the other; then no process is left, nor a folder."""
    for number in range(PAGES):
        page.driver.get(page.address)
        has_colours = page.waits(lambda: ("while", "t-keyword") in page.colours("text"))
        cases.check(f"page {number} shows its text", True, has_colours)
        if not has_colours:
            break
    page.driver.get("about:blank")
    cases.check(f"processes and folders after {PAGES} pages", (0, 0), playground.settles())


def loses(cases: Cases, page: Browser, playground: Playground) -> None:
    """A core that dies is started again; where the program ends, what was typed stays."""
    page.shows("made", "scanned 286 of 286 tokens")
    (of_page,) = processes.children(playground.process.pid)
    for core in processes.children(of_page):
        processes.kill(core)
    cases.check("the end of a core is shown", True, page.shows("shown", "nothing was lost"))
    page.editor("text", "code.setValue('let kept = 1;')")
    cases.check("a new core looks at the text", True, page.shows("tree", "NAME kept"))
    playground.process.terminate()
    cases.check(
        "the end of the program is shown",
        True,
        page.shows("lost", "What is in the editors is still there"),
    )
    cases.check("the text is there", "let kept = 1;", page.editor("text", "return code.getValue()"))


@pytest.mark.usefixtures("programs")
def test_page(cases: Cases, browser: Begins) -> None:
    with Playground() as playground, browser(playground.address) as page:
        starts(cases, page)
        follows(cases, page)
        faulty(cases, page)
        writes_grammar(cases, page)
        large_text(cases, page)
        cases.check("nothing is logged in the browser", [], page.logged())
        many_pages(cases, page, playground)
        page.driver.get(page.address)
        page.waits(lambda: ("while", "t-keyword") in page.colours("text"))
        loses(cases, page, playground)
    cases.end(35 + PAGES)
