"""Texts, and what `parse` prints of them: sums, marked words, and grammar files by lr.lr."""

import os
import random
from typing import Iterator, Tuple, Union

from tests import TOP
from tests.common.cases import Cases, outcome, placed, read
from tests.common.serving import SUMS
from tests.program import grammar_files, grammar_texts, marked
from tests.program.grammar_checks import checked
from tests.program.samples import by_trees

# What is printed of `1+2`.
SUM = "(Sum (Sum (Atom NUM)) PLUS (Atom NUM))\n"

# Texts of sums, and what is printed of them.
TEXTS = {
    "a sum": (b"1+2", SUM, "", 0),
    "a fault": (b"1 2", "0:2-0:3: unexpected NUM; expected PLUS, end\n", "", 1),
    "an empty text": (b"", "0:0-0:0: unexpected end; expected NUM, LP\n", "", 1),
    "a fault after a break": (
        b"1\rX\n2",
        "1:0-1:1: unexpected invalid; expected PLUS, end\n",
        "",
        1,
    ),
    "a fault after two units": (
        "1+\U0001f600".encode(),
        "0:2-0:4: unexpected invalid; expected NUM, LP\n",
        "",
        1,
    ),
    "the largest text": (b"1" * 1_048_576, "(Sum (Atom NUM))\n", "", 0),
    "too large a text": (b"1" * 1_048_577, "", "lrls: text too large\n", 1),
    "no UTF-8": (b"1+\xff", "", "lrls: text is not UTF-8\n", 1),
    "a surrogate": (b"1+\xed\xa0\x80", "", "lrls: text is not UTF-8\n", 1),
    "no UTF-8, and too large": (b"1" * 1_048_577 + b"\xff", "", "lrls: text is not UTF-8\n", 1),
}


def is_read(folder: str, text: str) -> bool:
    """Whether the lines and names of a grammar file are accepted, whatever its tables are."""
    _, err, status = checked(folder, text)
    return status == 0 or err.startswith(("lrls: conflict on ", "lrls: over "))


def changed_grammars(count: int) -> Iterator[str]:
    """The sample of grammars/lr.lr with one to three random changes, so many times."""
    sample = read(os.path.join(TOP, "grammars", "samples", "lr.lr")).decode()
    choice = random.Random(1)
    pieces = [
        *' \t\r\n#="[]()|*+?^\\-',
        "\r\n",
        "X",
        "= ",
        "token ",
        "start",
        "S =",
        '"a"',
        "[a-z]",
        "X* ",
        "\\n",
        "\\u{41}",
    ]
    for _ in range(count):
        text = sample
        for _ in range(choice.randint(1, 3)):
            at = choice.randrange(len(text))
            text = text[:at] + choice.choice(["", *pieces]) + text[at + choice.randint(0, 1) :]
        yield text


def grammars_as_texts(cases: Cases, folder: str) -> None:
    """grammars/lr.lr reads every grammar file that is accepted, and marks the faults of form."""
    form = read(os.path.join(TOP, "grammars", "lr.lr")).decode()
    rows = [
        *[text for text, _ in [*grammar_files.SOUND, *grammar_files.CONFLICTS]],
        *grammar_files.READ,
    ]
    for text in rows:
        out, err, status = parsed(folder, form, text)
        cases.check(
            f"by lr.lr: {text[:60]!r}", (True, "", 0), (out.startswith("(File "), err, status)
        )
    for text, fault in grammar_files.FAULTY:
        is_of_form = any(f": {cause} " in fault for cause in ("G1", "G2", "G6"))
        _, err, status = parsed(folder, form, text)
        cases.check(f"by lr.lr, with {fault}: {text[:60]!r}", ("", int(is_of_form)), (err, status))
    for text, fault in grammar_texts.FAULTS:
        cases.check(f"by lr.lr: {text!r}", (fault + "\n", "", 1), parsed(folder, form, text))
    files = [
        f"grammars/{name}"
        for name in os.listdir(os.path.join(TOP, "grammars"))
        if name.endswith(".lr")
    ]
    for name in [*files, "grammars/samples/lr.lr"]:
        text = read(os.path.join(TOP, name)).decode()
        cases.check(f"the grammar {name}", ("", 0), checked(folder, text)[1:])
        cases.check(f"by lr.lr: {name}", ("", 0), parsed(folder, form, text)[1:])
    accepted = [text for text in changed_grammars(1_000) if is_read(folder, text)]
    cases.check("changed grammars that are accepted", True, len(accepted) > 50)
    for text in accepted:
        cases.check(f"by lr.lr, changed: {text!r}", ("", 0), parsed(folder, form, text)[1:])


def texts(cases: Cases, folder: str) -> None:
    for name, (text, out, err, status) in TEXTS.items():
        path = placed(folder, "text", text)
        cases.run(f"text: {name}", ["parse", SUMS, path], (out.encode(), err, status))


def parsed(folder: str, grammar: str, text: str) -> Tuple[str, str, Union[int, str]]:
    """What the program prints of a text by a grammar file, on both streams, and its status."""
    words = [placed(folder, "grammar", grammar.encode()), placed(folder, "text", text.encode())]
    out, err, status = outcome(["parse", *words])
    return out.decode(), err.decode(), status


def marked_words(cases: Cases, folder: str) -> None:
    for production, text, printed, status in marked.ROWS:
        ran = parsed(folder, f"{marked.HEAD}{production}\n", text)
        cases.check(f"{text!r} by {production}", (printed + "\n", "", status), ran)
    ran = parsed(folder, f"lrgrammar 2\n{marked.JSON_RULES}{marked.JSON_WITH_MARKS}", marked.OBJECT)
    cases.check("the tree of an object", (marked.TREE_OF_OBJECT + "\n", "", 0), ran)
    for rules, with_marks, by_hand, text in marked.PAIRS:
        trees = []
        for kind, grammar in [
            ("marks", f"lrgrammar 2\n{rules}{with_marks}"),
            ("by hand", f"lrgrammar 1\n{rules}{by_hand}"),
        ]:
            files = [
                placed(folder, f"{kind}.lr", grammar.encode()),
                placed(folder, "pair.txt", text.encode()),
            ]
            trees.append(by_trees(*files).decode())
            cases.check(f"{kind}: {text[:20]!r}", (trees[-1], "", 0), parsed(folder, grammar, text))
        cases.check(
            f"tests/oracles/trees with marks and by hand: {text[:20]!r}",
            marked.with_marked_names(trees[1]),
            trees[0],
        )
