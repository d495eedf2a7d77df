"""The groups of checks of `lrls-ide`, which tests/ide/test_servers.py runs.

What is awaited is written out in tests/ide/tables.py, or comes from another program: from
tests/oracles/trees what may follow at a place, from `lrls serve` what has to pass unchanged, and
from a fresh start what is said after edits and after its files were written.
"""

import os
from typing import Callable, Dict, List, Sequence, Tuple

from tests import TOP
from tests.common import serving
from tests.common.cases import Cases
from tests.common.serving import received
from tests.ide import behind, crates, faulty, followed, grammar_texts, languages
from tests.ide import looked_at, sessions, tables, trouble
from tests.ide import written as written_files
from tests.ide.client import (
    Client,
    Coloured,
    Entry,
    Message,
    coloured,
    numbers,
    outlined,
    place,
)
from tests.ide.offers import Offers
from tests.ide.samples import SAMPLES, sample

URI = "a:text"
# Contents that are no requests.
NO_REQUESTS = (
    b"{",
    b"[]",
    b'{"jsonrpc":"2.0","id":1.5,"method":"lr/text"}',
    b'{"jsonrpc":"2.0","id":3}',
    b"\xff",
)

Group = Callable[[Cases, str], None]


def lines(first: int, last: int) -> Message:
    """The range of the lines from the first up to the last one."""
    return {"start": {"line": first, "character": 0}, "end": {"line": last, "character": 0}}


def drawn(text: str, colours: Sequence[Coloured]) -> List[str]:
    """A picture of colours: for each line of a text a letter for each unit that has a colour."""
    lines = [[" "] * (len(line.encode("utf-16-le")) // 2) for line in text.split("\n")]
    letters = {name: letter for letter, name in tables.LETTERS.items()}
    for line, character, width, kind in colours:
        for unit in range(character, character + width):
            lines[line][unit] = letters[kind] if lines[line][unit] == " " else "!"
    return ["".join(line).rstrip() for line in lines]


def colours(cases: Cases, _: str) -> None:
    """The colours of three samples, worked out by hand; of each sample, a part of them is what the
    whole has there."""
    for language, name in SAMPLES.items():
        text = sample(name)
        with Client(language) as client:
            client.open(URI, text)
            whole = coloured(client.colours(URI), client.types())
            cases.check(f"colours: {name} has some", True, len(whole) > 5)
            if name in tables.COLOURS:
                picture = tables.COLOURS[name].split("\n")[2:-1:2]
                cases.check(f"colours: {name}", picture, drawn(text, whole)[: len(picture)])
            for first in range(0, text.count("\n"), 7):
                where = f"lines {first} to {first + 3} of {name}"
                part = coloured(client.colours_of(URI, lines(first, first + 3)), client.types())
                cases.check(f"colours: {where}", [], [row for row in part if row not in whole])
                missing = [row for row in whole if first <= row[0] < first + 3 and row not in part]
                cases.check(f"colours: all of {where}", [], missing)


def early(cases: Cases, _: str) -> None:
    """Colours of some lines that are asked for before all tokens of a text are read, are those that
    the whole has there."""
    with Client("script") as client:
        text = sample("script.txt") * 100
        count = text.count("\n")
        whole: List[Coloured] = []
        near = [(0, 5), (0, 0), (1400, 1500), (1412, 1413)]
        for version, (first, last) in enumerate(
            [*near, (count - 1, count), (count + 5, count + 9)]
        ):
            client.open(URI, text, 1 + version)
            client.published(URI, 1 + version)
            part = coloured(client.colours_of(URI, lines(first, last)), client.types())
            whole = whole or coloured(client.colours(URI), client.types())
            extra = [row for row in part if row not in whole]
            cases.check(f"early: lines {first} to {last}", [], extra)
            missing = [row for row in whole if first <= row[0] < last and row not in part]
            cases.check(f"early: all of lines {first} to {last}", [], missing)


def outline(cases: Cases, _: str) -> None:
    """The outlines of three samples, worked out by hand; with a fault put in, the same; and as a
    plain list."""
    for name, awaited in tables.OUTLINES.items():
        text = sample(name)
        with Client(name.split(".")[0]) as client:
            client.open(URI, text)
            cases.check(f"outline: {name}", awaited, list(outlined(client.outline(URI))))
            for at in range(0, text.count("\n"), 3):
                faulty_outline(cases, client, name, text, at, awaited)
        with Client(name.split(".")[0], capabilities={}) as client:
            client.open(URI, text)
            places = [(it["kind"], it["name"], it["location"]) for it in client.outline(URI)]
            rows = [(kind, named, numbers(at["range"]), at["uri"]) for kind, named, at in places]
            listed = [(row[1], row[2], row[3], URI) for row in awaited]
            cases.check(f"a plain list: {name}", listed, rows)


def deep_outline(cases: Cases, _: str) -> None:
    """A symbol that lies in more than 64 others is shown as if it lay in 64."""
    count = 70
    text = "".join(f'{{"k{number}":' for number in range(count)) + "0" + "}" * count
    with Client("json") as client:
        client.open(URI, text)
        rows = [(row[0], row[2]) for row in outlined(client.outline(URI))]
        awaited = [(min(number, 64), f"k{number}") for number in range(count)]
        cases.check("an outline of 70 levels", awaited, rows)


def faulty_outline(
    cases: Cases, client: Client, name: str, text: str, line: int, awaited: Sequence[Entry]
) -> None:
    """The outline with a character that is no token at the beginning of a line: by a change, opened
    anew, and with the character taken away."""
    offset = len("".join(text.splitlines(keepends=True)[:line]))
    version = 2 * line + 2
    at = {"line": line, "character": 0}
    names = lambda symbols: [row[:3] for row in outlined(symbols)]
    client.change(URI, version, {"range": {"start": at, "end": at}, "text": "\x00"})
    found = names(client.outline(URI))
    has_fault = bool(client.published(URI, version))
    where = f"{name} with a fault in line {line}"
    cases.check(f"outline: {where}", [row[:3] for row in awaited] if has_fault else found, found)
    client.open("a:anew", text[:offset] + "\x00" + text[offset:])
    cases.check(f"outline: {where}, opened anew", found, names(client.outline("a:anew")))
    client.close("a:anew")
    typed = {"start": at, "end": {"line": line, "character": 1}}
    client.change(URI, version + 1, {"range": typed, "text": ""})
    mended = names(client.outline(URI))
    cases.check(f"outline: {where}, mended", mended, [row[:3] for row in awaited])


def completion(cases: Cases, _: str) -> None:
    """What is offered at the end of each prefix of two samples and of some of a third one that has no
    fault before its last word, and at each place of rows."""
    for name, step in (("script.txt", 1), ("json.json", 1), ("toml.toml", 5)):
        language, text = name.split(".")[0], sample(name)
        offers = Offers(language)
        offers.expected(offers.kinds(text) or ())
        with Client(language) as client:
            for size in range(0, len(text) + 1, step):
                if offers.is_behind_fault(text[:size]):
                    continue
                client.open(URI, text[:size], size)
                found = client.ask_at("completion", URI, place(text, size))["items"]
                labels = [item["label"] for item in found]
                is_inside = offers.takes_letters(text[:size])
                awaited = [] if is_inside else offers.at_end(text[:size])
                cases.check(f"offered after {size} characters of {name}", awaited, labels)
    for language, marked, awaited in tables.OFFERS:
        with Client(language) as client:
            at = marked.index("|")
            text = marked.replace("|", "")
            client.open(URI, text)
            found = client.ask_at("completion", URI, place(text, at))["items"]
            labels = [item["label"] for item in found]
            cases.check(f"offered in {language} at {marked!r}", awaited, labels)
            typed = [(item["textEdit"]["newText"], text[at - len_of(item) : at]) for item in found]
            taken = [new.startswith(old) for new, old in typed]
            cases.check(f"what is typed of it in {marked!r}", [True] * len(awaited), taken)


def len_of(item: Message) -> int:
    """How many characters an offer replaces."""
    span = numbers(item["textEdit"]["range"])
    return span[3] - span[1]


def messages(cases: Cases, _: str) -> None:
    """The messages of faults, and what is told where the cursor rests on one."""
    for language, text, message, related in tables.MESSAGES:
        with Client(language) as client:
            client.open(URI, text)
            found, *_behind = client.published(URI)
            name, said = f"{language}: {text!r}", found["message"]
            begun = said[: len(message)] if message.endswith(" ") else said
            cases.check(f"message of {name}", message, begun)
            told = found.get("relatedInformation", [{"message": ""}])[0]["message"]
            awaited = f"expected here: {related}" if related else ""
            cases.check(f"related to the fault of {name}", awaited, told[: len(related or "") + 15])
            hovered = client.ask_at("hover", URI, found["range"]["start"])
            plain = hovered["contents"]["value"].replace("\\", "")
            there = (hovered["range"], "Expected here:" in plain)
            cases.check(f"hover at the fault of {name}", (found["range"], True), there)
            for word in (related or "").split(", "):
                cases.check(f"hover at the fault of {name} names {word}", True, word in plain)


def hovers(cases: Cases, _: str) -> None:
    """What is told of tokens, in the form that the editor names first, and nothing of blanks; and
    the other brackets of nodes."""
    for given, form in tables.FORMS:
        hover = {} if given is None else {"contentFormat": given}
        with Client("script", capabilities={"textDocument": {"hover": hover}}) as client:
            for version, (marked, awaited) in enumerate(tables.HOVERS):
                text, at = marked.replace("|", ""), marked.index("|")
                client.open(URI, text, version)
                found = client.ask_at("hover", URI, place(text, at))["contents"]
                told = awaited if form == "markdown" else awaited.replace("**", "")
                said = (found["kind"], found["value"].replace("\\", "")[: len(told)])
                cases.check(f"hover at {marked!r} in {given}", (form, told), said)
            blank = client.ask_at("hover", URI, {"line": 0, "character": 3})
            cases.check(f"hover on a blank, {given}", None, blank)
    for marked, ranges in tables.BRACKETS:
        with Client("script") as client:
            text = marked.replace("|", "")
            client.open(URI, text)
            found = client.ask_at("documentHighlight", URI, place(text, marked.index("|")))
            there = [numbers(one["range"]) for one in found]
            cases.check(f"brackets at {marked!r}", ranges, there)


def core_and_server(language: str, name: str) -> Tuple[serving.Session, Client]:
    """The core alone and the server, both with a sample open."""
    core = serving.Session(os.path.join(TOP, "grammars", language + ".lr"))
    core.open(URI, 1, sample(name))
    client = Client(language)
    client.open(URI, sample(name))
    client.published(URI)
    return core, client


def unchanged(cases: Cases, _: str) -> None:
    """What the core knows passes as the core says it, byte for byte but for the messages of
    faults."""
    plain = ("lr/text", "lr/tokens", "lr/tree", "lr/stats", "lr/none")
    rows: List[Tuple[str, Dict[str, object]]] = [
        ("textDocument/foldingRange", {}),
        ("textDocument/selectionRange", {"positions": [{"line": 0, "character": 1}]}),
    ]
    rows += [(method, {}) for method in plain]
    for language, name in SAMPLES.items():
        core, client = core_and_server(language, name)
        with client:
            for method, more in rows:
                params: Message = {"textDocument": {"uri": URI}, **more}
                request = {"jsonrpc": "2.0", "id": 7, "method": method, "params": params}
                client.send(request)
                cases.check(f"{method} of {name}", core.send(request), received(client.output))
            for content in NO_REQUESTS:
                frame = b"Content-Length: %d\r\n\r\n%s" % (len(content), content)
                core.write(frame)
                client.write(frame)
                cases.check(f"{content!r} in {language}", core.receive(), received(client.output))
        core.end()


GROUPS: List[Group] = [
    *(colours, early, outline, deep_outline, completion, messages, hovers, unchanged),
    *behind.GROUPS,
    *crates.GROUPS,
    *faulty.GROUPS,
    *followed.GROUPS,
    *grammar_texts.GROUPS,
    *looked_at.GROUPS,
    *sessions.GROUPS,
    *written_files.GROUPS,
    *trouble.GROUPS,
    *languages.GROUPS,
]
