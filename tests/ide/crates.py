"""What is tried of `lrls-ide` in many languages and units: what is said after random edits, colours
in each unit and since each result, and requests that are refused in each phase."""

import random
from typing import Any, Dict, List, Optional, Tuple

from tests.common.cases import Cases
from tests.ide.client import (
    CAPABILITIES,
    Client,
    Message,
    coloured,
    place,
    with_edits,
)
from tests.ide.random_edits import Edited
from tests.ide.samples import sample

URI, FRESH = "a:edited", "a:fresh"
EDITS = 400
COLOURS = "textDocument/semanticTokens/full"
CHANGES = "textDocument/semanticTokens/full/delta"
LINES = "textDocument/semanticTokens/range"
# What is asked about a whole document, and about a place of one.
OF_TEXTS = ["textDocument/documentSymbol"]
OF_PLACES = ["textDocument/completion", "textDocument/hover", "textDocument/documentHighlight"]
# For each language its sample, and what edits put into it.
WIDE = ["é", "\U0001f600"]
LANGUAGES: Dict[str, Tuple[str, List[str]]] = {
    "script": (
        "script.txt",
        ["{", "}", ";", "x", " ", "\n", "\r\n", '"', "/*", "*/", *WIDE, "let x = 1;"],
    ),
    "json": (
        "json.json",
        ["{", "}", "[", "]", ",", '"', "\n", " ", "\r", *WIDE, "7", '"a": 1'],
    ),
    "lua": ("lua.lua", ["end", "(", ")", "--[[", "]]", "x", " ", "\n", '"', "é", "if x then"]),
    "css": (
        "css.css",
        ["{", "}", ";", ":", "/*", "*/", "x", " ", "\n", "\U0001f600", "a { b: c; }"],
    ),
    "toml": ("toml.toml", ["=", "[", "]", '"""', '"', "#", "x", " ", "\n", "é", "a = 1"]),
    "c": ("c.c", ["{", "}", ";", "/*", "*/", "x", " ", "\n", '"', "\U0001f600", "int x;"]),
    "sql": ("sql.sql", ["(", ")", ";", "--", "'", "x", " ", "\n", "é", "SELECT 1;"]),
    "lr": ("lr.lr", ["token", "=", '"', "x", " ", "\n", "é", "S = A"]),
}


def lines_of(client: Client, uri: str, first: int, last: int) -> Any:
    """The colours of some lines."""
    span = {"start": {"line": first, "character": 0}, "end": {"line": last, "character": 0}}
    return client.ask(LINES, uri, range=span)


def about(uri: str, diagnostics: List[Message]) -> List[Message]:
    """Diagnostics of another document as those of this one, which their related information
    names."""
    for diagnostic in diagnostics:
        for related in diagnostic.get("relatedInformation", []):
            related["location"]["uri"] = uri
    return diagnostics


class Trial:
    """A client with a text that is edited at random, and one that opens it anew each time."""

    def __init__(self, cases: Cases, language: str) -> None:
        name, pieces = LANGUAGES[language]
        self.cases, self.language = cases, language
        self.choice = random.Random(len(name))
        self.edited = Edited(self.choice, sample(name), pieces)
        # The colours that were told last, and the name of that result.
        self.data: List[int] = []
        self.result = ""

    def look(self, client: Client, fresh: Client, version: int) -> None:
        """Compares what is said of the text with what is said of it by a server that has just
        opened it."""
        name = f"{self.language}, after edit {version}"
        published = client.published(URI, version)
        fresh.open(FRESH, self.edited.text)
        self.cases.check(f"{name}: the fault", about(URI, fresh.published(FRESH)), published)
        whole = fresh.ask(COLOURS, FRESH)
        self.cases.check(f"{name}: the colours", whole["data"], self.colours(client))
        first = self.choice.randint(0, self.edited.text.count("\n"))
        both = [lines_of(it, uri, first, first + 3) for it, uri in ((client, URI), (fresh, FRESH))]
        self.cases.check(f"{name}: the colours of some lines", both[1], both[0])
        rows = [row for row in coloured(whole, client.types()) if first <= row[0] <= first + 3]
        found = coloured(both[0], client.types())
        self.cases.check(f"{name}: they are those of these lines", rows, found)
        self.ask(name, client, fresh)
        fresh.close(FRESH)

    def colours(self, client: Client) -> List[int]:
        """The colours of the text, by what has changed of them since they were asked for last."""
        answer = client.ask(CHANGES, URI, previousResultId=self.result)
        self.result = answer["resultId"]
        self.data = with_edits(self.data, answer["edits"]) if "edits" in answer else answer["data"]
        return self.data

    def ask(self, name: str, client: Client, fresh: Client) -> None:
        """Compares what else is asked, about the text and about a place of it."""
        at = place(self.edited.text, self.choice.randint(0, len(self.edited.text)))
        for method in OF_TEXTS:
            self.cases.check(f"{name}: {method}", fresh.ask(method, FRESH), client.ask(method, URI))
        for method in OF_PLACES:
            awaited = fresh.ask(method, FRESH, position=at)
            self.cases.check(
                f"{name}: {method} at {at}", awaited, client.ask(method, URI, position=at)
            )

    def run(self) -> None:
        """All edits, with a look after each tenth."""
        with Client(self.language) as client, Client(self.language) as fresh:
            client.open(URI, self.edited.text)
            for version in range(2, EDITS + 2):
                client.change(URI, version, self.edited.edit())
                if version % 10 == 0:
                    self.look(client, fresh, version)


def typed(cases: Cases, _: str) -> None:
    """Random edits in eight languages: all that is said is what a fresh server says; colours by
    their changes."""
    for language in LANGUAGES:
        Trial(cases, language).run()


def units(cases: Cases, _: str) -> None:
    """Places and lengths in each unit, on a line with wide characters and in a comment of several
    lines."""
    text = '"é\U0001f600" /* é\n\n\U0001f600 */ x'
    # In each unit the widths of the string and of both parts of the comment.
    for unit, (string, first, second) in (
        ("utf-8", (8, 5, 7)),
        ("utf-16", (5, 4, 5)),
        ("utf-32", (4, 4, 4)),
    ):
        awaited = [
            (0, 0, string, "string"),
            (0, string + 1, first, "comment"),
            (2, 0, second, "comment"),
            (2, second + 1, 1, "variable"),
        ]
        general = {"positionEncodings": [unit]}
        with Client("script", capabilities={**CAPABILITIES, "general": general}) as client:
            client.open(URI, text)
            found = coloured(client.ask(COLOURS, URI), client.types())
            cases.check(f"colours in {unit}", awaited, found)


def changes(cases: Cases, _: str) -> None:
    """What has changed of colours, since the last result of the same document alone."""
    other = "a:other"
    with Client("g0") as client:
        client.open(URI, "1+2")
        client.open(other, "7")
        whole = client.ask(COLOURS, URI)
        same = client.ask(CHANGES, URI, previousResultId=whole["resultId"])
        cases.check("nothing has changed", [], same["edits"])
        is_another = same["resultId"] != whole["resultId"]
        cases.check("each result has a name of its own", True, is_another)
        client.change(URI, 2, {"range": {"start": place("", 0), "end": place("", 0)}, "text": "\n"})
        told = client.ask(CHANGES, URI, previousResultId=same["resultId"])
        cases.check("one line down", 1, len(told["edits"]))
        applied = with_edits(whole["data"], told["edits"])
        cases.check("one line down, applied", client.ask(COLOURS, URI)["data"], applied)
        for name in (whole["resultId"], "", "x", "1" * 1000):
            answer = client.ask(CHANGES, URI, previousResultId=name)
            cases.check(f"since {name[:9]!r}", False, "edits" in answer)
        last = client.ask(COLOURS, URI)["resultId"]
        answer = client.ask(CHANGES, other, previousResultId=last)
        cases.check("since a result of another document", False, "edits" in answer)
        cases.check("since no result", -32602, client.ask(CHANGES, URI)["code"])


def code(answer: Message) -> Optional[int]:
    """The code of an error, or none where an answer is none."""
    found: Optional[int] = answer.get("error", {}).get("code")
    return found


def bad_params(cases: Cases, client: Client) -> None:
    """Parameters that don't name a document."""
    given: List[object] = [None, [], {}, {"textDocument": 5}, {"textDocument": {"uri": 5}}]
    for method in (COLOURS, CHANGES, LINES, *OF_TEXTS, *OF_PLACES):
        for params in given:
            cases.check(f"{method} with {params}", -32602, code(client.request(method, params)))


def bad_places(cases: Cases, client: Client, ask: Message) -> None:
    """Ranges and positions that are none, or lie behind the end."""
    below, far = {"line": -1, "character": 0}, {"line": 2_147_483_647, "character": 2_147_483_647}
    spans = (None, 1, {"start": place("", 0)}, {"start": below, "end": place("", 0)})
    for span in spans:
        cases.check(f"a range {span}", -32602, code(client.request(LINES, {**ask, "range": span})))
    for method in OF_PLACES:
        for at in (None, 1, {"line": 0}, below, {"line": 0, "character": 1.5}):
            refusal = code(client.request(method, {**ask, "position": at}))
            cases.check(f"{method} at {at}", -32602, refusal)
        answer = client.request(method, {**ask, "position": far})
        cases.check(f"{method} behind the end", None, code(answer))
    answer = client.request(LINES, {**ask, "range": {"start": far, "end": far}})
    cases.check("a range behind the end", {"data": []}, answer.get("result"))
    swapped = {"start": {"line": 1, "character": 0}, "end": {"line": 0, "character": 0}}
    found = client.ask(LINES, URI, range=swapped)["data"]
    cases.check("a range with its ends exchanged", client.ask(COLOURS, URI)["data"], found)


def refused(cases: Cases, _: str) -> None:
    """Each request gets one reply, in each phase, whatever its parameters are."""
    ask = {"textDocument": {"uri": URI}}
    with Client("g0", initialize=False) as client:
        cases.check("before initialize", -32002, code(client.request(COLOURS, ask)))
        client.request("initialize", {"capabilities": {}})
        bad_params(cases, client)
        client.open(URI, "1+")
        bad_places(cases, client, ask)
        answer = client.request(COLOURS, {"textDocument": {"uri": "a:none"}})
        cases.check("a document that isn't open", -32602, code(answer))
        client.change(URI, 2, {"text": 5})
        cases.check("a document that is lost", -32803, code(client.request(COLOURS, ask)))
        answer = client.request("textDocument/none", ask)
        cases.check("a method that nobody knows", -32601, code(answer))
        client.request("shutdown", None)
        cases.check("after shutdown", -32600, code(client.request(COLOURS, ask)))


GROUPS = [typed, units, changes, refused]
