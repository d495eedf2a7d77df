"""What tests/ide tries of `lrls-ide` where its files are written while it runs, where requests are
cancelled together with others, and where documents are lost."""

import os
import shutil
from typing import Any, Dict, List

from tests import TOP
from tests.common.cases import Cases
from tests.common.serving import framed
from tests.ide.client import CAPABILITIES, Client
from tests.ide.samples import written

URI = "a:text"
SUMS = """lrgrammar 1
token NUM = [0-9]+
token PLUS = "+"
skip WS = [ \\n]+
start Sum
Sum = NUM
Sum = Sum PLUS NUM
"""
AMBIGUOUS = SUMS.replace("Sum PLUS NUM", "Sum PLUS Sum")
CANCELLED = -32800
# Rows of settings of the script language that are faulty, and what is said of them.
FAULTY_SYMBOLS = [
    ("node = ['Statement']\nname = 'NAME'\nkind = 'Function'", "node has to be a text"),
    ("node = 'Statement'\nname = [['NAME']]\nkind = 'Function'", "name has to be a text"),
    ("node = 'Statement'\nname = 'NAME'\nkind = ['Function']", "kind has to be a text"),
    (
        "node = 'Statement'\nname = 'NAME'\nkind = 'Function'\nwith = ['FN']",
        "with has to be a text",
    ),
    ("node = ['Statement']", "has `node`, `name` and `kind`"),
    ("name = [['NAME']]", "has `node`, `name` and `kind`"),
    ("kind = 1.5", "has `node`, `name` and `kind`"),
]
WATCHING: Dict[str, Any] = {
    **CAPABILITIES,
    "workspace": {
        "semanticTokens": {"refreshSupport": True},
        "didChangeWatchedFiles": {"dynamicRegistration": True},
    },
}


def look(client: Client) -> None:
    """Has the server look at its files: it does before each message."""
    client.notify("workspace/didChangeWatchedFiles", {"changes": []})


def insertion(character: int, text: str) -> Dict[str, Any]:
    """A change that puts a text into the first line."""
    at = {"line": 0, "character": character}
    return {"range": {"start": at, "end": at}, "text": text}


def code_of(answer: Dict[str, Any]) -> Any:
    """The code of an error that is answered, or none."""
    return answer.get("error", {}).get("code")


def sent_at_once(client: Client, messages: List[Dict[str, Any]]) -> None:
    """Sends messages in one write."""
    frames = b"".join(framed({"jsonrpc": "2.0", **message}) for message in messages)
    client.write(frames)


def cancelled(cases: Cases, _: str) -> None:
    """A request that is cancelled in what was read with it is answered so, and no other one is."""
    about = {"textDocument": {"uri": URI}, "position": {"line": 0, "character": 0}}
    methods = ("textDocument/completion", "textDocument/hover", "lr/text", "lr/stats")
    with Client("script") as client:
        client.open(URI, "let x = 1;")
        client.published(URI)
        for number, method in enumerate(methods):
            names: List[Any] = [f"r{number}", 1000 + number]
            for name in names:
                ask = {"id": name, "method": method, "params": about}
                cancel = {"method": "$/cancelRequest", "params": {"id": name}}
                sent_at_once(client, [ask, cancel])
                cases.check(f"{method} as {name}", CANCELLED, code_of(client.answer(name)))
                sent_at_once(client, [cancel, ask])
                cases.check(f"{method} after its cancel", None, code_of(client.answer(name)))
                other = {"method": "$/cancelRequest", "params": {"id": f"{name}"}}
                sent_at_once(client, [{**ask, "id": 77}, other])
                cases.check(f"{method} as 77", None, code_of(client.answer(77)))
        misfits: List[Any] = [None, [], {}, {"id": None}, {"id": 1.5}, {"id": []}]
        for params in misfits:
            ask = {"id": 5, "method": "lr/text", "params": about}
            sent_at_once(client, [ask, {"method": "$/cancelRequest", "params": params}])
            cases.check(f"cancelled by {params}", None, code_of(client.answer(5)))
        shutdown = {"id": 6, "method": "shutdown"}
        sent_at_once(client, [shutdown, {"method": "$/cancelRequest", "params": {"id": 6}}])
        cases.check("shutdown isn't cancelled", None, code_of(client.answer(6)))


def lost(cases: Cases, _: str) -> None:
    """A document that is lost or refused is told, by its name, with what to do."""
    with Client("g0") as client:
        client.open("file:///a/b%20c.g0", "1" * 1_048_570)
        client.change("file:///a/b%20c.g0", 2, insertion(0, "2" * 20))
        shown = client.shown()
        cases.check("too large", True, "b c.g0 has more than 1,048,576 bytes" in shown)
        cases.check("what to do", True, "open it again" in shown)
        client.open(URI, "1")
        document = {"uri": URI, "version": 4}
        client.notify("textDocument/didChange", {"textDocument": document, "contentChanges": 5})
        cases.check("a malformed change", True, "malformed message" in client.shown())
        for number in range(62):
            client.open(f"a:{number}", "1")
        client.open("a:b/more.g0", "1")
        cases.check("too many", True, "more.g0 is the 65th document" in client.shown())
        client.close("a:0")
        client.open("a:b/more.g0", "1+1")
        cases.check("there is room", "1+1", client.ask("lr/text", "a:b/more.g0")["text"])
        told = [it for it in client.notes if it.get("method") == "window/showMessage"]
        cases.check("nothing else is told", [], told)


def registered(cases: Cases, folder: str) -> None:
    """The editor is asked once to watch both files, where it can, and its reply is ignored."""
    path = written_grammar(folder, SUMS)
    with Client(path, capabilities=WATCHING) as client:
        look(client)
        call = client.awaits(lambda it: it.get("method") == "client/registerCapability")
        watchers = call["params"]["registrations"][0]["registerOptions"]["watchers"]
        awaited = [path, path.replace(".lr", ".toml")]
        cases.check("the files", awaited, [one["globPattern"] for one in watchers])
        client.send({"id": call["id"], "result": None})
        look(client)
        client.open(URI, "1+")
        client.published(URI)
        again = [it for it in client.notes if it.get("method") == "client/registerCapability"]
        cases.check("once", [], again)
        errors = [it for it in client.notes if "error" in it]
        cases.check("its reply is ignored", [], errors)
    with Client(path) as client:
        client.open(URI, "1")
        client.published(URI)
        calls = [it for it in client.notes if "id" in it and "method" in it]
        cases.check("an editor that can't isn't asked", [], calls)


def written_grammar(folder: str, text: str) -> str:
    """Writes a grammar file, and returns its path."""
    path = os.path.join(folder, "sums.lr")
    written(path, text)
    return path


def faulty_grammars(cases: Cases, client: Client, folder: str) -> None:
    """Faults that are written: shown, published, and the last good grammar goes on."""
    uri = f"file://{folder}/sums.lr"
    written_grammar(folder, SUMS.replace("NUM\n", "NUM | X\n", 1).replace("= NUM | X", "= |"))
    look(client)
    cases.check("a fault is shown", True, "sums.lr:6: G2 bad line" in client.shown())
    (found,) = client.published(uri, None)
    cases.check("a fault in its line", (5, 0), place_of(found))
    cases.check("the last grammar goes on", "1+2+3", client.ask("lr/text", URI)["text"])
    written_grammar(folder, SUMS.replace("[0-9]+", "[9-0]+"))
    look(client)
    cases.check("a pattern's fault", True, "P3: the range is the wrong way round" in client.shown())
    (found,) = client.published(uri, None)
    cases.check("at its place", (1, 13), place_of(found))
    written_grammar(folder, AMBIGUOUS)
    look(client)
    moves = "conflict on PLUS after Sum PLUS Sum: reduce in Sum = Sum PLUS Sum . or shift in Sum ="
    cases.check("a conflict is shown", True, moves in client.shown())
    (found,) = client.published(uri, None)
    lines = [one["location"]["range"]["start"]["line"] for one in found["relatedInformation"]]
    cases.check("a conflict in its line", (6, [6, 6]), (found["range"]["start"]["line"], lines))


def place_of(diagnostic: Dict[str, Any]) -> Any:
    """Where a diagnostic begins."""
    start = diagnostic["range"]["start"]
    return start["line"], start["character"]


def grammar(cases: Cases, folder: str) -> None:
    """A grammar that is written counts from the next message on, and the documents stay open."""
    path = written_grammar(folder, SUMS)
    uri = f"file://{folder}/sums.lr"
    with Client(path) as client:
        client.open(URI, "1+2")
        client.open("a:other", "1+")
        client.open("a:closed", "1")
        client.close("a:closed")
        client.change(URI, 2, insertion(3, "+3"))
        client.published(URI, 2)
        before = client.ask("textDocument/semanticTokens/full", URI)
        faulty_grammars(cases, client, folder)
        written_grammar(folder, SUMS.replace("[0-9]+", "[0-9]").replace('"+"', '"-"'))
        cases.check("the text is the same", {"text": "1+2+3", "version": 2}, text_of(client))
        (found,) = client.published(URI, 2)
        awaited = 'unexpected "+", which begins no token; expected "-" or the end of the text'
        cases.check("the new grammar counts", awaited, found["message"])
        cases.check("in each document", 1, len(client.published("a:other")))
        cases.check("the fault is gone", [], client.published(uri, None))
        cases.check("its mending is shown", True, "the grammar is mended" in client.shown())
        refresh = client.awaits(lambda it: it.get("method") == "workspace/semanticTokens/refresh")
        cases.check("colours are asked for again", True, "id" in refresh)
        cases.check("a closed one stays closed", -32602, client.ask("lr/text", "a:closed")["code"])
        after = client.ask(
            "textDocument/semanticTokens/full/delta", URI, previousResultId=before["resultId"]
        )
        cases.check("no change since colours of before", True, "data" in after)
        cases.check("a new name", True, after["resultId"] != before["resultId"])
        os.remove(path)
        look(client)
        cases.check("a file that is gone", True, "can't be read" in client.shown())
        cases.check("the status", 0, client.leave())


def text_of(client: Client) -> Any:
    return client.ask("lr/text", URI)


def faulty_first(cases: Cases, folder: str) -> None:
    """A server is there before its grammar is sound: each text has no tokens until it is."""
    path = written_grammar(folder, AMBIGUOUS)
    with Client(path) as client:
        encoding = client.greeting["result"]["capabilities"]["positionEncoding"]
        cases.check("a faulty grammar has an answer to initialize", "utf-16", encoding)
        client.open(URI, "1+2+")
        cases.check("nothing is published", [], client.published(URI))
        shown = client.shown()
        cases.check("a conflict from the beginning is shown", True, "conflict on PLUS" in shown)
        cases.check("nor coloured", [], client.ask("textDocument/semanticTokens/full", URI)["data"])
        written_grammar(folder, SUMS)
        look(client)
        (found,) = client.published(URI)
        awaited = "unexpected end of the text; expected NUM"
        cases.check("a grammar that is mended", awaited, found["message"])
        cases.check("the status then", 0, client.leave())


def faulty_settings(cases: Cases, folder: str) -> None:
    """Settings that are written count from the next message on; a mistake in them is told, and they
    are guessed until it is mended."""
    shutil.copy(os.path.join(TOP, "grammars", "script.lr"), os.path.join(folder, "script.lr"))
    settings = os.path.join(folder, "script.toml")
    with Client(os.path.join(folder, "script.lr")) as client:
        client.open(URI, "let ")
        client.published(URI)
        for row, told in FAULTY_SYMBOLS:
            written(settings, f"[[symbols]]\n{row}\n")
            look(client)
            shown = client.shown()
            words = [told, "[[symbols]] number 1", "guessed"]
            cases.check(f"while it runs: {row!r}", words, [it for it in words if it in shown])
        with open(settings, "wb") as file:
            file.write(b"\xff")
        look(client)
        cases.check("no text", True, "is not UTF-8" in client.shown())
        written(settings, "[words]\nNAME = 'an identifier'\n[colours]\nNAME = 'class'\n")
        look(client)
        message = client.awaits(lambda it: "an identifier" in str(it.get("params", {})))
        cases.check("mended while it runs", URI, message["params"]["uri"])
        refresh = client.awaits(lambda it: it.get("method") == "workspace/semanticTokens/refresh")
        cases.check("colours are asked for again", True, "id" in refresh)
        client.open(URI, "x", 2)
        data = client.colours(URI)["data"]
        cases.check("new colours", "class", client.types()[data[3]])


GROUPS = [cancelled, lost, registered, grammar, faulty_first, faulty_settings]
