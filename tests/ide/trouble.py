"""What tests/ide tries of `lrls-ide` where something goes wrong: cancelled requests, messages that
it refuses, long lines, and long work."""

from typing import Any, Callable, Dict, List, Optional

from tests.common import processes
from tests.common.cases import Cases
from tests.common.serving import framed
from tests.ide.client import Client

URI = "a:text"
OTHER = "a:other"
CANCELLED = -32800
# A room for how much longer work may take than other work of the same size: far below what the
# square of the size would take.
ROOM = 20


def sent_together(client: Client, method: str, params: object) -> Optional[int]:
    """Sends a request and its cancellation in one write. The code of the answer, if it has one."""
    client.number += 1
    request = {"jsonrpc": "2.0", "id": client.number, "method": method, "params": params}
    cancel = {"jsonrpc": "2.0", "method": "$/cancelRequest", "params": {"id": client.number}}
    client.write(framed(request) + framed(cancel))
    code: Optional[int] = client.answer(client.number).get("error", {}).get("code")
    return code


def cancels(cases: Cases, _: str) -> None:
    """Each request that is cancelled is answered, and what it had begun leaves nothing behind."""
    place: Dict[str, Any] = {"textDocument": {"uri": URI}, "position": {"line": 0, "character": 0}}
    methods = ("completion", "hover", "documentSymbol", "semanticTokens/full", "documentHighlight")
    with Client("script") as client:
        client.open(URI, "")
        for turn in range(8):
            for method in methods:
                code = sent_together(client, f"textDocument/{method}", place)
                cases.check(f"{method}, cancelled, turn {turn}", CANCELLED, code)
        offered = client.request("textDocument/completion", place)["result"]["items"]
        cases.check(
            "what is offered after that", True, "let" in [item["label"] for item in offered]
        )
        client.open(URI, "let x = # ", 2)
        place["position"]["character"] = 10
        offered = client.request("textDocument/completion", place)["result"]["items"]
        cases.check("nothing is offered in a comment", [], offered)


def refused_documents(cases: Cases, _: str) -> None:
    """What is refused doesn't count: neither a 65th document, nor a change of none."""
    with Client("script") as client:
        for number in range(64):
            client.open(f"a:{number}", "let old = 1;")
        client.open(URI, "let old = 1;")
        cases.check("a 65th document is shown", True, "is the 65th document" in client.shown())
        client.close(URI)
        client.close("a:0")
        client.open(URI, "let fresh = 1;")
        names = [symbol["name"] for symbol in client.ask("textDocument/documentSymbol", URI)]
        cases.check("a refused document is opened again", ["fresh"], names)
        at = {"line": 0, "character": 13}
        client.change(URI, 2, {"range": {"start": at, "end": at}, "text": "2"})
        names = [symbol["name"] for symbol in client.ask("textDocument/documentSymbol", URI)]
        cases.check("and changed", ["fresh"], names)
        client.close("a:1")
        client.change(OTHER, 1, {"text": "let no = 1;"})
        client.open(OTHER, "let yes = 1;")
        names = [symbol["name"] for symbol in client.ask("textDocument/documentSymbol", OTHER)]
        cases.check("a change before its opening", ["yes"], names)
        hover = client.ask("textDocument/hover", OTHER, position={"line": 0, "character": 4})
        cases.check("and a hover after it", True, "contents" in hover)


def timed(client: Client, uri: str) -> float:
    """How much of a processor's time the outline takes, which doesn't depend on what else runs."""
    begun = processes.on_processor(client.process.pid)
    client.outline(uri)
    return processes.on_processor(client.process.pid) - begun


def long_work(cases: Cases, _: str) -> None:
    """A character that isn't ASCII makes no long line slow, and keys between two outlines none of
    them."""
    pairs = ", ".join(f'"key{number}": {number}' for number in range(1500))
    with Client("json") as client:
        client.open(URI, f'{{"a": 1, {pairs}}}')
        client.open(OTHER, f'{{"é": 1, {pairs}}}')
        times = [timed(client, uri) for uri in (URI, URI, OTHER, OTHER)]
        cases.check("an é in a long line", True, min(times[2:]) < ROOM * min(times[:2]))
    lines = "".join(f"fn f{number}(a) {{\n    return a;\n}}\n" for number in range(400))
    with Client("script") as client:
        client.open(URI, lines)
        before = min(timed(client, URI) for _ in range(3))
        for number in range(1000):
            at = {"line": 0, "character": 3}
            client.change(URI, 2 + number, {"range": {"start": at, "end": at}, "text": "x"})
            client.published(URI, 2 + number)
        cases.check("an outline after a thousand keys", True, timed(client, URI) < ROOM * before)


GROUPS: List[Callable[[Cases, str], None]] = [cancels, refused_documents, long_work]
