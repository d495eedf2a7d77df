"""What docs/PROTOCOL.md says of the server besides its tables of errors and faults: its methods,
what `lr/stats` answers, its limits, its log messages, and the status without `exit`.

`cases` needs the built program. What the page says is read from it, and compared with what the
program does, or with the rows of tests/program that say what it does.
"""

import json
import os
import re
import subprocess
from typing import Any, Iterator, List, Set, Tuple

from tests.common.cases import read
from tests.common.serving import PATIENCE, SUMS, Session
from tests.program import messages, pages, transcripts

# What a case is named, what is awaited, and what was found.
Case = Tuple[str, object, object]

URI = "a:text"
METHOD = re.compile(r'"((?:textDocument|lr)/\w+|initialize|shutdown|exit)"')
LOGGED = re.compile(r'"method":"window/logMessage","params":\{"message":"([^"]*)"')
# A loss is logged with its cause, and stands in the table of errors.
LOST = "document lost: "


def text_of(top: str) -> str:
    return read(os.path.join(top, "docs", "PROTOCOL.md")).decode()


def rows_of(text: str) -> List[List[str]]:
    """The rows of the table of methods."""
    heads = {
        tuple(part.rows[0]): part.rows[1:]
        for part in pages.parts(text)
        if isinstance(part, pages.Table)
    }
    return heads[("Method", "Parameters", "Answer")]


def methods(top: str, text: str) -> Iterator[Case]:
    """The methods of the table are those that the sources name."""
    source = read(os.path.join(top, "crates", "rpc", "src", "reading.rt")).decode()
    shown = [method for row in rows_of(text) for method in pages.codes(row[0])]
    yield "PROTOCOL.md: its methods", sorted(METHOD.findall(source)), sorted(shown)


def answered(text: str) -> Iterator[Case]:
    """What `lr/stats` answers, and each method but those that answer nothing."""
    session = Session(SUMS)
    session.open(URI, 1, "1+2")
    for row in rows_of(text):
        for method in pages.codes(row[0]):
            if method.startswith("lr/") or method.endswith("Range"):
                found = json.loads(session.ask(method, URI, positions=[]))
                yield f"PROTOCOL.md: {method} is answered", True, "result" in found
    stats = list(json.loads(session.ask("lr/stats", URI))["result"])
    shown = [re.findall(r'"(\w+)":[A-Z]', row[2]) for row in rows_of(text) if "stats" in row[0]]
    yield "PROTOCOL.md: the names of lr/stats", [stats], shown
    session.close()


def ranges(text: str) -> Iterator[Case]:
    """At most how many ranges a selection has."""
    depth = 100
    session = Session(SUMS)
    session.open(URI, 1, "(" * depth + "1" + ")" * depth)
    place = {"line": 0, "character": depth}
    answer = session.ask("textDocument/selectionRange", URI, positions=[place])
    around: Any = json.loads(answer)["result"][0]
    count = 0
    while around:
        count, around = count + 1, around.get("parent")
    session.close()
    yield "PROTOCOL.md: ranges of a selection", [str(count)], re.findall(r", at most (\d+) ", text)


def ids(text: str) -> Iterator[Case]:
    """The least and the greatest id, and what the one beyond gets."""
    found = re.findall(r"whole number from (-[\d,]+) to ([\d,]+)\.", text)
    yield "PROTOCOL.md: names the ids", 1, len(found)
    session = Session(SUMS)
    for least, greatest in found:
        for number, by in ((least, -1), (greatest, 1)):
            there = int(number.replace(",", ""))
            for sent, awaited in ((there, there), (there + by, None)):
                message = {"jsonrpc": "2.0", "id": sent, "method": "lr/none"}
                answer = json.loads(session.send(message))
                code = -32601 if awaited is not None else -32600
                ran = (answer["id"], answer["error"]["code"])
                yield f"PROTOCOL.md: the id {sent}", (awaited, code), ran
    session.close()


def logged() -> Set[str]:
    """The log messages that the rows of messages and the transcripts await, without losses."""
    contents = [
        reply for _, _, talk in messages.sessions() for _, replies in talk for reply in replies
    ]
    for _, _, talk, _ in transcripts.sessions():
        contents += transcripts.contents(talk, "< ")
    found = {text for content in contents for text in LOGGED.findall(content)}
    return {text for text in found if not text.startswith(LOST)}


def log_messages(text: str) -> Iterator[Case]:
    told = re.findall(r"Other log messages: (.*)\.$", text, re.M)
    shown = {message for line in told for message in pages.codes(line)}
    yield "PROTOCOL.md: the log messages", logged(), shown


def statuses(program: str, text: str) -> Iterator[Case]:
    """The status where the input ends without `exit`."""
    ran = subprocess.run([program, "serve", SUMS], input=b"", timeout=PATIENCE, check=False)
    shown = re.findall(r"exits with (\d) if its input ends without", text)
    yield "PROTOCOL.md: the status without exit", [str(ran.returncode)], shown


def cases(program: str, top: str) -> Iterator[Case]:
    """What is awaited of the page, and what was found, under a name."""
    text = text_of(top)
    yield from methods(top, text)
    yield from answered(text)
    yield from ranges(text)
    yield from ids(text)
    yield from log_messages(text)
    yield from statuses(program, text)
