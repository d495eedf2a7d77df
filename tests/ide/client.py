"""A client of `lrls-ide`, and a text as such a client keeps it."""

import json
import os
import re
import shlex
import subprocess
import threading
import time
from typing import Any, Callable, Dict, Iterator, List, Mapping, Optional, Sequence, Tuple

from tests import TOP
from tests.common.serving import IS_QUICK, PATIENCE, framed, made, received

# LRLS_IDE names another one in its place.
OTHER = shlex.split(os.environ.get("LRLS_IDE", ""))
# What editors start, and what that runs where LRLS_QUICK asks for the program that is made without a
# proof.
SCRIPT = OTHER or [os.path.join(TOP, "ide", "lrls-ide")]
QUICK = [made("lrls-ide"), "--grammars", os.path.join(TOP, "grammars")]
# The words that start the server that is tested.
IDE = QUICK if IS_QUICK and not OTHER else SCRIPT
# A message, or a part of one, as JSON has it.
Message = Dict[str, Any]
# The lines and characters of the start and of the end of a range.
Span = Tuple[int, int, int, int]
# A line, a character, a width and a type of colours.
Coloured = Tuple[int, int, int, str]
# Of a symbol its depth, its kind, its name, its range, and its name's range.
Entry = Tuple[int, int, str, Span, Span]

CAPABILITIES: Message = {
    "textDocument": {
        "documentSymbol": {"hierarchicalDocumentSymbolSupport": True},
        "publishDiagnostics": {"relatedInformation": True},
        "semanticTokens": {"requests": {"full": {"delta": True}, "range": True}},
    },
    "workspace": {"semanticTokens": {"refreshSupport": True}},
}


class Client:
    """An editor's side of one `lrls-ide`. What is sent unasked is kept in `notes`."""

    def __init__(
        self,
        *words: str,
        capabilities: Mapping[str, object] = CAPABILITIES,
        initialize: bool = True,
        folder: Optional[str] = None,
    ) -> None:
        self.process = subprocess.Popen(
            [*IDE, *words],
            stdin=subprocess.PIPE,
            stdout=subprocess.PIPE,
            stderr=subprocess.PIPE,
            bufsize=0,
            cwd=folder,
        )
        assert self.process.stdin and self.process.stdout
        self.input = self.process.stdin
        self.output = os.fdopen(os.dup(self.process.stdout.fileno()), "rb", buffering=1 << 16)
        self.number = 0
        self.notes: List[Message] = []
        self.waits_since: Optional[float] = None
        threading.Thread(target=self.watch, daemon=True).start()
        self.greeting: Message = {}
        if initialize:
            self.greeting = self.request("initialize", {"capabilities": capabilities})
            self.notify("initialized", {})

    def __enter__(self) -> "Client":
        return self

    def __exit__(self, *_: object) -> None:
        self.input.close()
        self.process.wait(timeout=PATIENCE)

    def watch(self) -> None:
        """Kills a server that hasn't replied for too long. What waits for its reply then meets the
        end of its output."""
        while self.process.poll() is None:
            since = self.waits_since
            if since is not None and time.monotonic() - since > PATIENCE:
                self.process.kill()
            time.sleep(1)

    def send(self, message: Mapping[str, object]) -> None:
        whole: Message = {"jsonrpc": "2.0", **message}
        self.write(framed(whole))

    def write(self, frames: bytes) -> None:
        """Writes all of these bytes: the pipe may take them in parts."""
        view = memoryview(frames)
        while view:
            view = view[self.input.write(view) :]

    def receive(self) -> Message:
        self.waits_since = time.monotonic()
        message: Message = json.loads(received(self.output))
        self.waits_since = None
        return message

    def notify(self, method: str, params: object) -> None:
        self.send({"method": method, "params": params})

    def begin(self, method: str, params: object) -> int:
        """Sends a request, and returns its id."""
        self.number += 1
        self.send({"id": self.number, "method": method, "params": params})
        return self.number

    def answer(self, number: int) -> Message:
        """The answer to the request of this id."""
        while True:
            message = self.receive()
            if "method" not in message and message.get("id") == number:
                return message
            self.notes.append(message)

    def request(self, method: str, params: object) -> Message:
        return self.answer(self.begin(method, params))

    def ask(self, method: str, uri: str, **more: object) -> Any:
        """The result of a request about a document, or its error."""
        params: Message = {"textDocument": {"uri": uri}, **more}
        answer = self.request(method, params)
        return answer["result"] if "result" in answer else answer["error"]

    def open(self, uri: str, text: str, version: int = 1) -> None:
        document = {"uri": uri, "languageId": "text", "version": version, "text": text}
        self.notify("textDocument/didOpen", {"textDocument": document})

    def change(self, uri: str, version: int, *changes: Mapping[str, object]) -> None:
        document = {"uri": uri, "version": version}
        params = {"textDocument": document, "contentChanges": list(changes)}
        self.notify("textDocument/didChange", params)

    def close(self, uri: str) -> None:
        self.notify("textDocument/didClose", {"textDocument": {"uri": uri}})

    def awaits(self, is_it: Callable[[Message], bool], seconds: float = PATIENCE) -> Message:
        """The first message, of those that came and come, of which this is so. It is taken away."""
        end, at = time.monotonic() + seconds, 0
        while True:
            for index in range(at, len(self.notes)):
                if is_it(self.notes[index]):
                    return self.notes.pop(index)
            if time.monotonic() > end:
                raise TimeoutError("no such message came")
            at = len(self.notes)
            self.notes.append(self.receive())

    def shown(self) -> str:
        """The next message that is shown."""
        found = self.awaits(lambda it: it.get("method") == "window/showMessage")
        return str(found["params"]["message"])

    def published(self, uri: str, version: Optional[int] = 1) -> List[Message]:
        """The next diagnostics of a version of a document, or with None those without a version."""

        def is_it(message: Message) -> bool:
            params = message.get("params", {})
            is_published = message.get("method") == "textDocument/publishDiagnostics"
            return is_published and (params["uri"], params.get("version")) == (uri, version)

        found: List[Message] = self.awaits(is_it)["params"]["diagnostics"]
        return found

    def ask_at(self, method: str, uri: str, at: Mapping[str, int]) -> Any:
        """The result of `textDocument/method` about a place of a document, or its error."""
        return self.ask(f"textDocument/{method}", uri, position=at)

    def outline(self, uri: str) -> Any:
        """The symbols of a document, or an error."""
        return self.ask("textDocument/documentSymbol", uri)

    def colours(self, uri: str) -> Any:
        """The colours of a document, or an error."""
        return self.ask("textDocument/semanticTokens/full", uri)

    def colours_of(self, uri: str, span: Mapping[str, object]) -> Any:
        """The colours of a range of a document, or an error."""
        return self.ask("textDocument/semanticTokens/range", uri, range=span)

    def types(self) -> List[str]:
        """The names of the types of colours, by their numbers."""
        provider = self.greeting["result"]["capabilities"]["semanticTokensProvider"]
        return list(provider["legend"]["tokenTypes"])

    def leave(self) -> int:
        """Ends the server by `shutdown` and `exit`. Answers its status."""
        self.request("shutdown", None)
        self.send({"method": "exit"})
        return self.process.wait(timeout=PATIENCE)


def place(text: str, offset: int) -> Dict[str, int]:
    """The position of an offset, in UTF-16."""
    breaks = [found.end() for found in re.finditer("\r\n|\r|\n", text) if found.end() <= offset]
    line = text[breaks[-1] if breaks else 0 : offset]
    return {"line": len(breaks), "character": len(line.encode("utf-16-le")) // 2}


def change(text: str, start: int, end: int, new: str) -> Tuple[Dict[str, object], str]:
    """A change between two offsets, and the text after it."""
    span = {"start": place(text, start), "end": place(text, end)}
    changed: Dict[str, object] = {"range": span, "text": new}
    return changed, text[:start] + new + text[end:]


def coloured(answer: Message, types: Sequence[str]) -> List[Coloured]:
    """Colours as rows of a line, a character, a width and a type."""
    found: List[Coloured] = []
    line, character = 0, 0
    data = answer["data"]
    for at in range(0, len(data), 5):
        lines, characters, width, kind, modifiers = data[at : at + 5]
        line, character = line + lines, characters + (0 if lines else character)
        found.append((line, character, width, types[kind] + "!" * modifiers))
    return found


def with_edits(data: Sequence[int], edits: Sequence[Message]) -> List[int]:
    """The numbers of colours after the edits of an answer."""
    found = list(data)
    for edit in sorted(edits, key=lambda it: -int(it["start"])):
        found[edit["start"] : edit["start"] + edit["deleteCount"]] = edit.get("data", [])
    return found


def numbers(span: Message) -> Span:
    """The four numbers of a range."""
    start, end = span["start"], span["end"]
    return start["line"], start["character"], end["line"], end["character"]


def outlined(symbols: Sequence[Message], depth: int = 0) -> Iterator[Entry]:
    """An outline as lines."""
    for symbol in symbols:
        ranges = numbers(symbol["range"]), numbers(symbol["selectionRange"])
        yield depth, symbol["kind"], symbol["name"], *ranges
        yield from outlined(symbol.get("children", []), depth + 1)
