"""A session, and what each of its messages is answered."""

from typing import Any, Dict, Iterator, List, Optional, Sequence, Tuple, Union

from tests.common.serving import framed

URI = "a:x"


def change(first: int, last: int, text: str) -> Dict[str, Union[Dict[str, Dict[str, int]], str]]:
    ends = {"start": {"line": 0, "character": first}, "end": {"line": 0, "character": last}}
    return {"range": ends, "text": text}


def published(version: int, diagnostics: List[Any]) -> Dict[str, Union[Dict[str, Any], str]]:
    reported = {"diagnostics": diagnostics, "uri": URI, "version": version}
    return {"jsonrpc": "2.0", "method": "textDocument/publishDiagnostics", "params": reported}


EMPTY_RANGE = {"end": {"character": 0, "line": 0}, "start": {"character": 0, "line": 0}}
SESSION: List[Tuple[Any, Any]] = [
    (
        {"jsonrpc": "2.0", "id": 1, "method": "initialize", "params": {}},
        {
            "id": 1,
            "jsonrpc": "2.0",
            "result": {
                "capabilities": {
                    "foldingRangeProvider": True,
                    "positionEncoding": "utf-16",
                    "selectionRangeProvider": True,
                    "textDocumentSync": {"change": 2, "openClose": True},
                }
            },
        },
    ),
    (
        {
            "jsonrpc": "2.0",
            "method": "textDocument/didOpen",
            "params": {"textDocument": {"uri": URI, "languageId": "g", "version": 1, "text": ""}},
        },
        published(
            1,
            [
                {
                    "message": "unexpected end; expected NUM, LP",
                    "range": EMPTY_RANGE,
                    "severity": 1,
                    "source": "lrls",
                }
            ],
        ),
    ),
    (
        {
            "jsonrpc": "2.0",
            "method": "textDocument/didChange",
            "params": {
                "textDocument": {"uri": URI, "version": 2},
                "contentChanges": [change(0, 0, "12"), change(0, 1, "")],
            },
        },
        published(2, []),
    ),
    (
        {"jsonrpc": "2.0", "id": 2, "method": "lr/text", "params": {"textDocument": {"uri": URI}}},
        {"id": 2, "jsonrpc": "2.0", "result": {"text": "2", "version": 2}},
    ),
    (
        {"jsonrpc": "2.0", "id": 3, "method": "shutdown"},
        {"id": 3, "jsonrpc": "2.0", "result": None},
    ),
    ({"jsonrpc": "2.0", "method": "exit"}, None),
]


def written(messages: List[Any]) -> bytes:
    return b"".join(framed(message) for message in messages)


LOSS = "document lost: no memory"


def note(method: str, params: Dict[str, Any]) -> Dict[str, Any]:
    return {"jsonrpc": "2.0", "method": method, "params": params}


def opened(text: str) -> Dict[str, Union[Dict[str, Dict[str, Union[int, str]]], str]]:
    document = {"uri": URI, "languageId": "g", "version": 1, "text": text}
    return note("textDocument/didOpen", {"textDocument": document})


def edited(
    version: int, *changes: Dict[str, Any]
) -> Dict[str, Union[Dict[str, Union[Dict[str, Union[int, str]], List[Any]]], str]]:
    document = {"uri": URI, "version": version}
    return note(
        "textDocument/didChange", {"textDocument": document, "contentChanges": list(changes)}
    )


def asked(method: str, params: Optional[Dict[str, List[Dict[str, int]]]] = None) -> Dict[str, Any]:
    about: Dict[str, Any] = {"textDocument": {"uri": URI}, **(params or {})}
    return {"jsonrpc": "2.0", "id": 4, "method": method, "params": about}


def replied(result: Any) -> Dict[str, Union[int, str]]:
    return {"id": 4, "jsonrpc": "2.0", "result": result}


def talk(*messages: Tuple[Any, ...]) -> Sequence[Tuple[Any, ...]]:
    """A session: these messages, each with what it is answered, between `initialize` and
    `shutdown`."""
    return [SESSION[0], *messages, *SESSION[-2:]]


def input_of(session: Sequence[Tuple[Any, ...]]) -> bytes:
    """The bytes that the program reads of a session."""
    return b"".join(framed(message) for message, _ in session)


def closed() -> Tuple[Dict[str, Union[Dict[str, Any], str]], Dict[str, Union[Dict[str, Any], str]]]:
    """The message that closes the document, and what it is answered."""
    document = {"textDocument": {"uri": URI}}
    return note("textDocument/didClose", document), note(
        "textDocument/publishDiagnostics", {"diagnostics": [], "uri": URI}
    )


def lost(cause: str) -> List[Dict[str, Union[Dict[str, Union[int, str]], str]]]:
    """What is sent where the document is lost, by the log message of the cause."""
    return [
        note("textDocument/publishDiagnostics", {"diagnostics": [], "uri": URI}),
        note("window/logMessage", {"message": cause, "type": 1}),
    ]


def refused(message: Dict[str, Any], cause: str) -> Dict[str, Any]:
    """The reply to a request about the lost document."""
    return {"error": {"code": -32803, "message": cause}, "id": message["id"], "jsonrpc": "2.0"}


def answers(answer: Optional[Dict[str, Union[int, str]]]) -> List[Dict[str, Union[int, str]]]:
    """The messages that an answer is: none, one, or all of a list."""
    return answer if isinstance(answer, list) else [] if answer is None else [answer]


def after_loss(session: Sequence[Tuple[Any, ...]]) -> Iterator[Dict[str, Any]]:
    """What is sent in the rest of a session, before which the document was lost for want of memory,
    until it is opened or closed."""
    is_lost = True
    for message, answer in session:
        is_about = "textDocument" in message.get("params", {})
        if message["method"] in ("textDocument/didOpen", "textDocument/didClose"):
            is_lost = False
        if is_lost and message["method"] == "textDocument/didChange":
            continue
        yield from [refused(message, LOSS)] if is_lost and is_about else answers(answer)


def outputs(session: Sequence[Tuple[Any, ...]]) -> Iterator[bytes]:
    """What a session may write where memory is refused: first all answers, then those where one of
    its changes has lost the document. Fronts of these are written where the program ends."""
    yield written([it for _, answer in session for it in answers(answer)])
    for place, (message, _) in enumerate(session):
        if message["method"] == "textDocument/didChange":
            before = [it for _, answer in session[:place] for it in answers(answer)]
            yield written([*before, *lost(LOSS), *after_loss(session[place + 1 :])])
