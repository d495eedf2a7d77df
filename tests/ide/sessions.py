"""What `lrls-ide` does from its start to its end: how it is started, its phases and statuses, the
limits, what is said of a grammar and of settings, and messages that it can't read."""

import os
import shutil
import subprocess
from typing import Any, Callable, Dict, List, Mapping, Tuple

from tests import TOP
from tests.common.cases import Cases
from tests.common.serving import PATIENCE, framed
from tests.ide import random_edits, tables
from tests.ide.client import IDE, SCRIPT, Client, Message
from tests.ide.samples import SAMPLES, sample, written
from tests.ide.written import look

URI = "a:text"
METHODS = (
    "semanticTokens/full",
    "semanticTokens/full/delta",
    "semanticTokens/range",
    "documentSymbol",
    "completion",
    "hover",
    "documentHighlight",
    "codeAction",
)
START = {"line": 0, "character": 0}
# Inputs that end the server, the status, and what it says.
INPUTS = [
    ("nothing", b"", 1, b""),
    ("no frame", b"hello\r\n\r\n", 1, b"lrls: frame fault F1\n"),
    ("too long a frame", b"Content-Length: 99999999\r\n\r\n", 1, b"lrls: frame fault F4\n"),
    ("exit alone", framed({"jsonrpc": "2.0", "method": "exit"}), 1, b""),
]
# Settings of the script language that are faulty, and what is said of them.
FAULTY_SETTINGS = [
    ("[colours]\nLET = 'keywrd'", '"keywrd" is none of namespace, type'),
    ("[colours]\nLETS = 'keyword'", "LETS is no token rule"),
    ("colour = 1", "no such setting; the settings are"),
    ("[[symbols]]\nnode = 'X'\nname = 'NAME'\nkind = 'Function'", "X is no nonterminal"),
    (
        "[[symbols]]\nnode = 'Statement'\nname = 'NAME'\nkind = 'function'",
        '"function" is none of File',
    ),
    ("[[symbols]]\nnode = 'Statement'", "has `node`, `name` and `kind`"),
    ("comment = 1", "has to be a str"),
    ("= 1", "at line 1, column 1"),
]


def started(cases: Cases, _: str) -> None:
    """What editors start runs the program that is there, and finds a language by its name; where
    that program was made without a proof, a log message says so."""
    words = [*IDE, "--settings", "script"]
    awaited = subprocess.run(words, capture_output=True, timeout=PATIENCE, check=False).stdout
    ran = subprocess.run([*SCRIPT, *words[-2:]], capture_output=True, timeout=PATIENCE, check=False)
    cases.check("settings of a language by its name", (awaited, b"", 0), outputs(ran))
    told = subprocess.run(
        [*SCRIPT, "--version"], capture_output=True, timeout=PATIENCE, check=False
    )
    version = told.stdout.decode().splitlines()
    cases.check("the version", "lrls-ide", version[0].split()[0])
    hello = framed({"jsonrpc": "2.0", "id": 0, "method": "initialize", "params": {}})
    session = subprocess.run(
        [*SCRIPT, "g0"], input=hello, capture_output=True, timeout=PATIENCE, check=False
    )
    is_proved = version[-1].startswith("proved")
    logs = session.stdout.count(b"the proofs of this commit weren't repeated on this machine")
    cases.check("an unproved program is told", int(not is_proved), logs)
    cases.check("its name", True, b'"serverInfo":{"name":"lrls-ide g0"}' in session.stdout)


def outputs(ran: "subprocess.CompletedProcess[bytes]") -> Tuple[bytes, bytes, int]:
    """What a command has written, and its status."""
    return ran.stdout, ran.stderr, ran.returncode


def at(character: int) -> Dict[str, int]:
    """A place in the first line."""
    return {"line": 0, "character": character}


def typed(first: int, end: int, text: str) -> Message:
    """A change in the first line."""
    return {"range": {"start": at(first), "end": at(end)}, "text": text}


def text_of(client: Client, uri: str = URI) -> Any:
    """The core's text of a document, or the code of its error."""
    found = client.ask("lr/text", uri)
    return found.get("text", found.get("code"))


def bad_params(cases: Cases, client: Client) -> None:
    """Parameters of a document that isn't open, and of none."""
    ask: Message = {"textDocument": {"uri": URI}}
    span = {"start": START, "end": START}
    closed = {**ask, "position": START, "range": span, "previousResultId": "none"}
    given: List[object] = [closed, None, {"textDocument": 5}]
    texts = ("document not open", "invalid params", "invalid params")
    awaited = [{"code": -32602, "message": text} for text in texts]
    for method in METHODS:
        answers = [client.request(f"textDocument/{method}", params) for params in given]
        found = [answer.get("error") for answer in answers]
        cases.check(f"bad params of {method}", awaited, found)


def bad_places(cases: Cases, client: Client) -> None:
    """Places that are none, and one behind the end."""
    ask: Message = {"textDocument": {"uri": URI}}
    for method in (
        "hover",
        "completion",
        "documentHighlight",
        "semanticTokens/range",
        "codeAction",
    ):
        params = {**ask, "position": {"line": -1}, "range": 1}
        answer = client.request(f"textDocument/{method}", params)
        cases.check(f"a bad place for {method}", -32602, answer.get("error", {}).get("code"))
    far = {"line": 2_000_000_000, "character": 2_000_000_000}
    answer = client.request("textDocument/completion", {**ask, "position": far})
    cases.check("a place behind the end", False, "error" in answer)


def requests(cases: Cases, folder: str) -> None:
    """The phases, errors and statuses, and messages that fit nothing."""
    ask = {"textDocument": {"uri": URI}}
    with Client("g0", initialize=False) as client:
        refused = client.request("textDocument/hover", ask)["error"]
        cases.check("before initialize", -32002, refused["code"])
        client.greeting = client.request("initialize", {"capabilities": {}})
        refused = client.request("initialize", {})["error"]
        cases.check("a second initialize", -32600, refused["code"])
        bad_params(cases, client)
        client.open(URI, "1+")
        bad_places(cases, client)
        cases.check("an outline without a hierarchy", [], client.outline(URI))
        cases.check("after shutdown", ({"result": None}, -32600), ended(client, ask))
        client.send({"method": "exit"})
        cases.check("the status after shutdown", 0, client.process.wait(timeout=PATIENCE))
    with Client("g0") as client:
        client.send({"method": "exit"})
        cases.check("the status without shutdown", 1, client.process.wait(timeout=PATIENCE))
    inputs(cases)
    command_lines(cases, folder)


def inputs(cases: Cases) -> None:
    """Inputs that end the server, each with its status and its words."""
    for name, given, status, told in INPUTS:
        ran = subprocess.run(
            [*IDE, "g0"], input=given, capture_output=True, timeout=PATIENCE, check=False
        )
        cases.check(f"{name} as input", (status, True), (ran.returncode, told in ran.stderr))


def ended(client: Client, ask: Mapping[str, object]) -> Tuple[Dict[str, object], int]:
    """What is answered to `shutdown`, and to a question after it."""
    answer = client.request("shutdown", None)
    code = client.request("textDocument/hover", ask)["error"]["code"]
    return {"result": answer.get("result", "missing")}, code


def command_lines(cases: Cases, folder: str) -> None:
    """Words that the program refuses, each with a line that says why."""
    broken = written(os.path.join(folder, "broken.lr"), "lrgrammar 1\nS = X\n")
    usage = "usage: lrls-ide [--grammars FOLDER] [--settings] LANGUAGE\n"
    named = os.path.join(TOP, "grammars", "nothing.lr")
    rows: List[Tuple[List[str], int, str]] = [
        (["nothing"], 1, f"lrls: cannot read {named}\n"),
        (["./nothing"], 1, "lrls: cannot read ./nothing\n"),
        ([], 2, usage),
        (["g0", "g0"], 2, usage),
        (["--nothing", "g0"], 2, usage),
        (["--settings", broken], 2, "lrls: line 0: G7 no start\n"),
    ]
    for words, status, told in rows:
        ran = printed_by(words)
        cases.check(f"words {words}", (status, told), (ran.returncode, ran.stderr))


def printed_by(words: List[str]) -> "subprocess.CompletedProcess[str]":
    """What the server prints with these words."""
    return subprocess.run(
        [*IDE, *words], capture_output=True, text=True, timeout=PATIENCE, check=False
    )


def limits(cases: Cases, _: str) -> None:
    """Lost documents are shown, and stay lost until they are opened again; 64 documents leave room
    for offers."""
    with Client("g0") as client:
        client.open(URI, "1" * 1_048_570)
        client.published(URI)
        client.change(URI, 2, typed(1_048_570, 1_048_570, "2" * 20))
        cases.check(
            "too large a text is shown", True, "more than 1,048,576 bytes" in client.shown()
        )
        hovered = client.ask_at("hover", URI, at(1_048_570))
        cases.check("a lost document is asked about", -32803, hovered["code"])
        client.change(URI, 3, typed(2, 1_048_590, "+1"))
        cases.check("a shorter text is lost too", -32803, text_of(client))
        client.close(URI)
        client.open(URI, "11+1", 4)
        cases.check("a text that is opened again is back", "11+1", text_of(client))
        document = {"uri": URI, "version": 5}
        params = {"textDocument": document, "contentChanges": 5}
        client.notify("textDocument/didChange", params)
        is_told = "close it, and open it again" in client.shown()
        cases.check("a malformed change is shown", True, is_told)
        client.close(URI)
        client.open(URI, "1+", 6)
        offered = lambda: [it["label"] for it in client.ask_at("completion", URI, at(2))["items"]]
        cases.check("with one document there are offers", ["("], offered())
        for number in range(63):
            client.open(f"a:{number}", "1")
        cases.check("with 64 documents there are offers too", ["("], offered())
        client.open("a:more", "1")
        logged = "didOpen: too many documents"
        client.awaits(lambda it: bool(it.get("params", {}).get("message") == logged))
        cases.check("all of the 64 are there", "1", text_of(client, "a:62"))


def mistakes(cases: Cases, folder: str) -> None:
    """What is said of the first mistakes of those who know another form of grammars."""
    marks = 'the marks *, + and ? behind a name need "lrgrammar 2"'
    rows = [("lrgrammar 2", *row) for row in tables.MISTAKES]
    rows.append(("lrgrammar 1", "S = A B* C", marks))
    for first, line, awaited in rows:
        path = written(os.path.join(folder, "mistaken.lr"), f"{first}\n{line}\n")
        with Client(path) as client:
            shown = client.shown()
            cases.check(
                f"what is said of {line!r}", awaited, awaited if awaited in shown else shown
            )


def settings(cases: Cases, folder: str) -> None:
    """The guess for each grammar is written as settings that say the same; faulty ones are told,
    and new ones count at once."""
    for language in SAMPLES:
        guessed_settings(cases, folder, language)
    script = os.path.join(folder, "script.lr")
    for text, told in FAULTY_SETTINGS:
        written(os.path.join(folder, "script.toml"), text)
        with Client(script) as client:
            cases.check(f"settings with {text!r}", True, told in client.shown())
    written(os.path.join(folder, "script.toml"), "[words]\nNAME = 'a name'\n")
    with Client(script) as client:
        client.open(URI, "let ")
        cases.check("settings before", "a name", client.published(URI)[0]["message"][-6:])
        written(os.path.join(folder, "script.toml"), "[words]\nNAME = 'an identifier'\n")
        look(client)
        message = client.published(URI)[0]["message"]
        cases.check("settings after", "expected an identifier", message[-22:])


def guessed_settings(cases: Cases, folder: str, language: str) -> None:
    """The guess for a grammar, and the same written and read."""
    path = os.path.join(folder, language + ".lr")
    shutil.copy(os.path.join(TOP, "grammars", language + ".lr"), path)
    guessed = all_of(path, sample(SAMPLES[language]))
    ran = printed_by(["--settings", path])
    cases.check(f"the guess for {language}", (0, ""), (ran.returncode, ran.stderr))
    settings_file = written(os.path.join(folder, language + ".toml"), ran.stdout)
    read = all_of(settings_file, sample(SAMPLES[language]))
    cases.check(f"the guess for {language}, written and read", guessed, read)


def all_of(language: str, text: str) -> Tuple[List[int], List[Message]]:
    """The colours and the outline of a text by a language."""
    with Client(language) as client:
        client.open(URI, text)
        return client.colours(URI)["data"], client.outline(URI)


def deep_change(uri: str) -> bytes:
    """A change of a whole text that has too deep a member besides, in its frame."""
    document = '{"uri":"%s","version":2}' % uri
    deep = "[" * 300 + "]" * 300
    params = f'{{"textDocument":{document},"contentChanges":[{{"text":"2"}}],"deep":{deep}}}'
    content = f'{{"jsonrpc":"2.0","method":"textDocument/didChange","params":{params}}}'.encode()
    return b"Content-Length: %d\r\n\r\n%s" % (len(content), content)


def unread(cases: Cases, _: str) -> None:
    """A change that the core can't read changes nothing: neither the text, nor what is open after
    the close."""
    with Client("g0") as client:
        client.open(URI, "1+1")
        client.open("a:other", "1")
        client.write(deep_change(URI))
        client.change(URI, 3, typed(0, 0, "5"))
        cases.check("a change after one that isn't read", "51+1", text_of(client))
        client.write(deep_change(URI))
        client.close(URI)
        cases.check("a closed document", -32602, text_of(client))
        cases.check("the other document", "1", text_of(client, "a:other"))


def edits(cases: Cases, folder: str) -> None:
    random_edits.run(cases, folder)


GROUPS: List[Callable[[Cases, str], None]] = [
    *(started, requests, limits, mistakes, settings, unread, edits),
]
