"""What is told of the text of a grammar file, beside what `lrls check` prints of the same file."""

import os
import random
import re
import subprocess
from typing import Any, Dict, List, Tuple

from tests import TOP
from tests.common import serving
from tests.common.cases import Cases
from tests.common.serving import PATIENCE
from tests.ide.client import IDE, Client

INVALID_PARAMS = -32602
# So often each grammar is spoiled.
TIMES = 12
LINE = re.compile(r"lrls: line (\d+): (.*)")
CONFLICT = "lrls: conflict on "
ITEM = re.compile(r"item: (\S+) = (.*), (\S+)")
FIRST = "lrgrammar 1\ntoken A = [a-z]\ntoken B = [0-9]\nstart S\n"
# A grammar, and what stands in its place in the diagnostic: the line, the first character, and what
# to write instead.
HINTS: List[Tuple[str, int, int, Any]] = [
    (FIRST + "S = A\nS=B\n", 5, 0, '"=" needs a blank on both sides, as in: S = A'),
    (
        FIRST + "S = A | B\n",
        4,
        0,
        "a production has no |: write a production for each choice, as in: S = A, and below it: S = B",
    ),
    (
        FIRST + "S = A*\n",
        4,
        0,
        'the marks *, + and ? behind a name need "lrgrammar 2" as the first line',
    ),
    (FIRST + "S = A\n# \U0001f600\ntoken C = [z-a]\n", 6, 11, "the range is the wrong way round"),
    (
        FIRST + "S = A\ntoken C = \"\U0001f600\" ''\n",
        5,
        15,
        'the pattern can\'t go on like this: it has literals "if", classes [a-z], groups (..), '
        "and |, *, + and ?",
    ),
    (FIRST + "S = A C\n", 4, 0, None),
    ("", 0, 0, None),
]

# Grammars with conflicts: of a sum, an if and a list, of a production of itself, and of marks.
CONFLICTS = [
    'lrgrammar 1\ntoken N = [0-9]+\ntoken P = "+"\nstart S\nS = N\nS = S P S\n',
    'lrgrammar 1\ntoken I = "if"\ntoken E = "else"\ntoken N = [a-z]+\nstart S\n'
    "S = I N S\nS = I N S E S\nS = N\n",
    FIRST + "S = L B\nS = A\nL =\nL = A\nL = L A\nL = A L\n",
    FIRST + "S = A\nS = S\n",
    FIRST.replace("1", "2", 1) + "S = A* A* B?\n",
    FIRST.replace("1", "2", 1) + "S = A? A\n",
]


def spoiled(source: random.Random, text: str) -> str:
    """A grammar with one line left out, written twice, or with a character that is another one."""
    lines = text.split("\n")
    at = source.randrange(len(lines))
    line = lines[at]
    change = source.randrange(4)
    if change == 0:
        return "\n".join(lines[:at] + lines[at + 1 :])
    if change == 1:
        return "\n".join(lines[: at + 1] + lines[at:])
    if change == 2 and line:
        column = source.randrange(len(line))
        other = source.choice('="|*[]() \U0001f600\u00e9x')
        return "\n".join(
            [*lines[:at], line[:column] + other + line[column + 1 :], *lines[at + 1 :]]
        )
    words = line.split(" ")
    source.shuffle(words)
    return "\n".join([*lines[:at], " ".join(words), *lines[at + 1 :]])


def printed(text: str, folder: str) -> Tuple[int, str]:
    """The status of `lrls check` on a file with this text, and what it prints of its faults."""
    path = os.path.join(folder, "checked.lr")
    with open(path, "w", encoding="utf-8", newline="") as file:
        file.write(text)
    words = [serving.PROGRAM, "check", path]
    found = subprocess.run(words, capture_output=True, text=True, timeout=PATIENCE, check=False)
    return found.returncode, found.stderr.strip()


def moves(lines: List[str]) -> List[Dict[str, Any]]:
    """The two items that `lrls check` prints of a conflict, with what they call for."""
    found = []
    for line in lines:
        item = ITEM.fullmatch(line)
        assert item, line
        right = item[2].split()
        dot = right.index(".")
        symbols = right[:dot] + right[dot + 1 :]
        called = "reduce" if dot == len(symbols) else "shift"
        found.append(
            {"move": called, "left": item[1], "symbols": symbols, "dot": dot, "look": item[3]}
        )
    return found


def expected(text: str, said: str) -> Dict[str, Any]:
    """What of a fault stands in what `lrls check` prints of it."""
    lines = said.split("\n")
    of_line = LINE.fullmatch(lines[0])
    if of_line:
        number = max(int(of_line[1]) - 1, 0)
        line = re.sub("\r$", "", (text.split("\n") + [""] * number)[number])
        end = {"line": number, "character": len(line.encode("utf-16-le")) // 2}
        return {"said": of_line[2], "line": number, "end": end, "conflict": None}
    assert lines[0].startswith(CONFLICT), said
    token, after = lines[0][len(CONFLICT) :], lines[1].split()[1:]
    conflict = {"token": token, "after": after, "moves": moves(lines[2:4])}
    return {"said": f"conflict on {token} ", "conflict": conflict}


def told(fault: Dict[str, Any], awaited: Dict[str, Any]) -> Dict[str, Any]:
    """The same of a fault that is told."""
    said = awaited["said"]
    found = {"said": said if fault["message"].startswith(said) else fault["message"]}
    conflict = fault["conflict"]
    if not awaited["conflict"]:
        start, end = fault["range"]["start"], fault["range"]["end"]
        return {**found, "line": start["line"], "end": end, "conflict": conflict}
    bare = [{name: it[name] for name in it if name != "line"} for it in conflict["moves"]]
    return {**found, "conflict": {**conflict, "moves": bare}}


def line_of(text: str, move: Dict[str, Any]) -> int:
    """The line of a move's production; of a marked name's the first line that uses it, and of the
    added start's that of the start."""
    lines = [line.split() for line in text.split("\n")]
    written = [move["left"], "=", *move["symbols"]]
    if written in lines:
        return lines.index(written)
    if move["left"] == "(start)":
        return next(number for number, words in enumerate(lines) if words[:1] == ["start"])
    return next(number for number, words in enumerate(lines) if move["left"] in words[2:])


def told_of(client: Client, text: str) -> Dict[str, Any]:
    """What is told of a grammar file's text."""
    found: Dict[str, Any] = client.request("lrls/grammar", {"text": text})["result"]
    return found


def check_text(cases: Cases, client: Client, name: str, text: str, folder: str) -> None:
    """What is told of a text, and what `lrls check` prints of it."""
    result = told_of(client, text)
    status, said = printed(text, folder)
    if status == 0:
        cases.check(f"{name}: no fault", None, result["fault"])
        return
    awaited = expected(text, said)
    cases.check(f"{name}: {awaited['said']}", awaited, told(result["fault"], awaited))
    cases.check(f"{name}: no settings", None, result["settings"])
    for move in (result["fault"]["conflict"] or {"moves": []})["moves"]:
        cases.check(f"{name}: the line of {move['left']}", line_of(text, move), move["line"])


def grammar_texts(cases: Cases, folder: str) -> None:
    """Of each grammar, and of copies that are spoiled, what `lrls check` says is told."""
    source = random.Random(7)
    grammars = os.path.join(TOP, "grammars")
    names = sorted(name for name in os.listdir(grammars) if name.endswith(".lr"))
    with Client("g0") as client:
        for number, text in enumerate(CONFLICTS):
            check_text(cases, client, f"conflict {number}", text, folder)
        for name in names:
            with open(os.path.join(grammars, name), encoding="utf-8") as file:
                text = file.read()
            check_text(cases, client, name, text, folder)
            for number in range(TIMES):
                check_text(cases, client, f"{name} {number}", spoiled(source, text), folder)


def grammar_hints(cases: Cases, _: str) -> None:
    """Where a fault is in its line, and what to write instead; what stays as it was."""
    with Client("g0") as client:
        client.open("a:text", "a + ")
        for text, line, character, hint in HINTS:
            fault = told_of(client, text)["fault"]
            start = {"line": line, "character": character}
            cases.check(f"start of {fault['message']}", start, fault["range"]["start"])
            cases.check(f"hint of {fault['message']}", hint, fault["hint"])
            said = fault["message"]
            cases.check(f"the end of {said}", True, said.endswith(hint or ""))
        for params in ({}, {"text": 5}, {"text": None}, [], "text"):
            error = client.request("lrls/grammar", params)["error"]
            cases.check(f"parameters {params}", INVALID_PARAMS, error["code"])
        text = client.ask("lr/text", "a:text")["text"]
        cases.check("the document", "a + ", text)


def grammar_limits(cases: Cases, folder: str) -> None:
    """A grammar that passes a limit is told so, as `lrls check` says it by another word."""
    many = " ".join(["A"] * 300)
    rows = [
        (FIRST.replace("[a-z]", f'"{"a" * 4096}"') + "S = A\n", "over 4096 ", "more than 4,096"),
        (f"{FIRST}S = {many}\n", "passed: symbols", "G11 limit passed: symbols"),
        (FIRST + "# no line\n" * 9000 + "S = A\n", "passed: file", "G11 limit passed: file"),
    ]
    with Client("g0") as client:
        for text, checked, awaited in rows:
            status, said = printed(text, folder)
            cases.check(f"{checked} of check", (2, True), (status, checked in said))
            told_words = told_of(client, text)["fault"]["message"]
            cases.check(f"{checked}", True, awaited in told_words or told_words)


def guessed_settings(cases: Cases, _: str) -> None:
    """The settings that are told of a grammar are those that `--settings` writes, but for its name."""
    grammars = os.path.join(TOP, "grammars")
    with Client("g0") as client:
        for name in ("g0", "script", "sql", "lr", "css"):
            with open(os.path.join(grammars, f"{name}.lr"), encoding="utf-8") as file:
                result = told_of(client, file.read())
            path = os.path.join(grammars, f"{name}.lr")
            words = [*IDE, "--settings", path]
            written = subprocess.run(words, capture_output=True, text=True, check=True).stdout
            awaited = written.replace(f'grammar = "{name}.lr"\n', "", 1)
            cases.check(f"the row of {name}", True, written != awaited)
            cases.check(f"settings of {name}", awaited, result["settings"])


GROUPS = [grammar_texts, grammar_hints, grammar_limits, guessed_settings]
