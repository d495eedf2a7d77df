"""What is said of a text behind its first fault, and what mends its faults: the diagnostics, the
fixes taken in turn, and the outline and the folds while one types."""

import random
from typing import Callable, Dict, List, Sequence, Tuple

from tests.common.cases import Cases
from tests.ide.client import Client, Message, numbers, outlined, place
from tests.ide.samples import SAMPLES, sample

URI = "a:text"
ALL = {"start": {"line": 0, "character": 0}, "end": {"line": 1 << 30, "character": 0}}
# A language, a text, and of each of its diagnostics the line and character, what its message begins
# with, and the condition of those behind the first.
Row = Tuple[str, str, Sequence[Tuple[int, int, str, str]]]
# A token as `lr/tokens` has it.
Token = Tuple[str, int, int, int, int]
BEHIND: List[Row] = [
    ("script", "let x = 1;\n", []),
    ("script", "let x = 1\n", [(1, 0, "unexpected end of the text; expected", "")]),
    (
        "script",
        "let = 1;\nlet y = 2;\nlet z = 3;\nlet a = 4;\nlet b = (5;\nlet c = 6;\n",
        [
            (0, 4, 'unexpected "="; expected a name', ""),
            (4, 10, 'unexpected ";"; expected ")"', "if a name is put in at 1:4"),
        ],
    ),
    (
        "script",
        "fn f(a {\n    print(a)\n}\nlet x = 1;\nlet z = 1 2;\n",
        [
            (0, 7, 'unexpected "{"; expected "," or ")"', ""),
            (2, 0, 'unexpected "}"; expected ";"', 'if ")" is put in at 1:7'),
            (4, 10, 'unexpected "2"; expected ";"', 'if ";" is put in at 2:13'),
        ],
    ),
    # One bad line blinds nothing behind it.
    (
        "script",
        "let x = 1;\n? ? ? ? ? ? ?\nlet y = 2;\nlet z = 3;\nlet a = 4;\nlet b = 5;\nlet c = 6;\n"
        "let d = 7;\nlet e = 8;\nlet = 9;\n",
        [
            (1, 0, 'unexpected "?", which begins no token', ""),
            (9, 4, 'unexpected "="; expected a name', 'if "? ? ? ? ? ? ?" is left out at 2:1'),
        ],
    ),
    (
        "json",
        '{"a": 1, "b": [1, 2, 3, 4 5], "c": 1, "d": 2, "e" 3}',
        [
            (0, 26, 'unexpected "5"; expected "," or "]"', ""),
            (0, 50, 'unexpected "3"; expected ":"', 'if "," is put in at 1:26'),
        ],
    ),
    # Of what is as cheap, leaving out a separator comes last.
    (
        "json",
        "[1,, " + "2, " * 20 + "3 4]",
        [
            (0, 3, 'unexpected ","; expected', ""),
            (0, 67, 'unexpected "4"; expected "," or "]"', "if a number is put in at 1:4"),
        ],
    ),
    (
        "lua",
        "local x = \nlocal y = (1\nprint(y)\nlocal z = 1\nlocal a = 2\nlocal c = 3\n"
        "local d = 4\nif a then b() \n",
        [
            (1, 0, 'unexpected "local"; expected', ""),
            (2, 0, 'unexpected "print"; expected ")"', "if a number is put in at 1:10"),
            (8, 0, "unexpected end of the text; expected", 'if ")" is put in at 2:13'),
        ],
    ),
]
# How many faults are planted in each sample, one at a time.
PLANTED = 12
FUNCTION = "fn added(first, second) {\n    let sum = first + second;\n    return sum * 2;\n}\n"


def conditions(diagnostic: Message) -> str:
    """The condition of a diagnostic behind the first, or nothing."""
    told = diagnostic.get("relatedInformation", [])
    return next((str(it["message"]) for it in told if it["message"].startswith("if ")), "")


def faults_behind(cases: Cases, _: str) -> None:
    """The diagnostics of texts with several faults, worked out by hand."""
    for language, text, rows in BEHIND:
        with Client(language) as client:
            client.open(URI, text)
            found = client.published(URI)
            cases.check(f"faults of {text!r}", len(rows), len(found))
            for (line, character, message, condition), it in zip(rows, found):
                start = it["range"]["start"]
                there = (start["line"], start["character"], it["message"][: len(message)])
                cases.check(f"a fault of {text!r}", (line, character, message), there)
                told = conditions(it)
                cases.check(f"its condition in {text!r}", condition, told[: len(condition)])


def fixes_of(client: Client, span: Message) -> List[Message]:
    """What mends the faults at a range."""
    context: Message = {"diagnostics": []}
    found: List[Message] = client.ask("textDocument/codeAction", URI, range=span, context=context)
    return found


def edited(client: Client, version: int, fix: Message) -> None:
    """Takes a fix, as an editor does: its edits from the last to the first."""
    edits = fix["edit"]["changes"][URI]
    later_first = sorted(edits, key=lambda it: numbers(it["range"]), reverse=True)
    changes = [{"range": it["range"], "text": it["newText"]} for it in later_first]
    client.change(URI, version, *changes)


def planted(choice: random.Random, text: str, rows: Sequence[Token]) -> str:
    """A text with a token left out, put in a second time, or exchanged with the next one."""
    lines = text.split("\n")
    starts = [sum(len(line) + 1 for line in lines[:number]) for number in range(len(lines))]
    spans = [(starts[row[1]] + row[2], starts[row[3]] + row[4]) for row in rows]
    spans = [(start, end) for start, end in spans if text[start:end].strip()]
    at = choice.randrange(len(spans) - 1)
    (start, end), (next_start, next_end) = spans[at : at + 2]
    token, other = text[start:end], text[next_start:next_end]
    kinds: Dict[int, Callable[[], str]] = {
        0: lambda: text[:start] + text[end:],
        1: lambda: f"{text[:end]} {token} {text[end:]}",
        2: lambda: text[:start] + other + text[end:next_start] + token + text[next_end:],
    }
    return kinds[choice.randrange(3)]()


def fixes(cases: Cases, _: str) -> None:
    """Faults planted in the samples of all languages: the first diagnostic is the core's, each fix
    takes its fault away, and a few of them in turn make the text whole."""
    choice = random.Random(1)
    whole = count = 0
    for language, name in SAMPLES.items():
        text = sample(name)
        if not text.isascii():
            continue
        with Client(language) as client:
            client.open(URI, text, 0)
            client.published(URI, 0)
            rows = client.ask("lr/tokens", URI)
            version = 1
            for _planted in range(PLANTED):
                version, is_whole, has_fault = mended(
                    cases, client, language, planted(choice, text, rows), version
                )
                count += has_fault
                whole += has_fault and is_whole
    cases.check("faulty texts were tried", True, count > 100)
    cases.check(f"{whole} of {count} texts are whole after their fixes", True, whole >= 0.9 * count)


def mended(
    cases: Cases, client: Client, language: str, text: str, version: int
) -> Tuple[int, bool, bool]:
    """Takes the preferred fix of the first fault until there is none. Returns the next version,
    whether the text is whole, and whether it had a fault."""
    client.change(URI, version, {"text": text})
    found = client.published(URI, version)
    has_fault = bool(found)
    for _step in range(8):
        if not found:
            break
        place = found[0]["range"]
        preferred = [it for it in fixes_of(client, place) if it["isPreferred"]]
        preferred = [it for it in preferred if it["diagnostics"][0]["range"] == place]
        if not preferred:
            break
        version += 1
        edited(client, version, preferred[0])
        found = client.published(URI, version)
        is_later = not found or numbers(found[0]["range"]) > numbers(place)
        cases.check(f"{preferred[0]['title']} in {language} mends {text!r}"[:200], True, is_later)
    return version + 1, not found, has_fault


def typed_key_by_key(cases: Cases, _: str) -> None:
    """A function that is typed between others, key by key: of these no fold vanishes, and no symbol
    but for some keys the one behind it, which what is typed may go on with."""
    text = "".join(f"fn f{number}(a) {{\n    return a;\n}}\n" for number in range(6))
    at = text.index("fn f3")
    text = f"{text[:at]}\n{text[at:]}"
    others, vanished, taken, unfolded = {"f0", "f1", "f2", "f4", "f5"}, 0, 0, 0
    with Client("script") as client:
        client.open(URI, text, 0)
        client.published(URI, 0)
        for count, key in enumerate(FUNCTION, 1):
            end = place(text[:at] + FUNCTION[: count - 1], at + count - 1)
            client.change(URI, count, {"range": {"start": end, "end": end}, "text": key})
            client.published(URI, count)
            names = {row[2] for row in outlined(client.outline(URI))}
            vanished += len(others - names)
            taken += "f3" not in names
            folds = client.ask("textDocument/foldingRange", URI)
            unfolded += max(0, 6 - len(folds))
    cases.check(f"symbols that vanish for a key of {len(FUNCTION)}", 0, vanished)
    cases.check(f"folds that vanish for a key of {len(FUNCTION)}", 0, unfolded)
    cases.check(f"keys that take the next symbol: {taken}", True, taken <= 16)


GROUPS = [faults_behind, fixes, typed_key_by_key]
