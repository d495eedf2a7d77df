"""Grammar files, and what `check` prints of them: the rows here and in grammar_files.py, reports of
conflicts, sizes, and a file that is cut anywhere."""

import os
import subprocess
from typing import Optional, Tuple, Union

from tests import TOP
from tests.common.cases import Cases, outcome, placed, read
from tests.common.serving import PATIENCE, SUMS
from tests.oracles import conflicts
from tests.program import grammar_files, marked

# The rest of a grammar that is faulty in the lines before it.
GOOD = 'token X = "x"\nstart S\nS = X\n'

# Grammar files, and what is printed of them: on standard output, on standard error, and the status.
GRAMMARS = {
    "sound": ("lrgrammar 1\n" + GOOD, "ok\n", "", 0),
    "comments, blanks and the ends of lines": (
        'lrgrammar 1\r\n\n # a comment\n\ttoken  X  =  "x" \r\nstart S\nfold S\nfold S\nS = X',
        "ok\n",
        "",
        0,
    ),
    "unreachable names": (
        "lrgrammar 1\n" + GOOD + 'token Y = "y"\nskip Z = "z"\nT = Y\n',
        "note: unreachable Y\nnote: unreachable T\nok\n",
        "",
        0,
    ),
    "unreachable names beside marked words": (
        marked.HEAD + "S = A*\nT = B?\n",
        "note: unreachable B\nnote: unreachable T\nok\n",
        "",
        0,
    ),
    "marked words, and no unreachable name": (marked.HEAD + "S = A* T?\nT = B+\n", "ok\n", "", 0),
    "no first line": (GOOD, "", "lrls: line 1: G1 first line\n", 2),
    "another version": ("lrgrammar 9\n" + GOOD, "", "lrls: line 1: G1 first line\n", 2),
    "an empty file": ("", "", "lrls: line 1: G1 first line\n", 2),
    "a bad line": ("lrgrammar 1\nwhat is this\n" + GOOD, "", "lrls: line 2: G2 bad line\n", 2),
    "a name of two rules": (
        "lrgrammar 1\n" + GOOD + 'token X = "y"\n',
        "",
        "lrls: line 5: G3 defined twice: X\n",
        2,
    ),
    "a production twice": (
        "lrgrammar 1\n" + GOOD + "S = X\n",
        "",
        "lrls: line 5: G3 defined twice: S\n",
        2,
    ),
    "an undefined name": (
        "lrgrammar 1\n" + GOOD + "S = X Y\n",
        "",
        "lrls: line 5: G4 undefined: Y\n",
        2,
    ),
    "a reserved name": (
        "lrgrammar 1\n" + GOOD + "S = X end\n",
        "",
        "lrls: line 5: G5 reserved: end\n",
        2,
    ),
    "a bad pattern": (
        "lrgrammar 1\n" + GOOD + 'token Y = "a"**\n',
        "",
        "lrls: line 5: G6 bad pattern at 4: P1\n",
        2,
    ),
    "an empty class": (
        "lrgrammar 1\n" + GOOD + "token Y = []\n",
        "",
        "lrls: line 5: G6 bad pattern at 0: P2\n",
        2,
    ),
    "a reversed range": (
        "lrgrammar 1\n" + GOOD + "token Y = [z-a]\n",
        "",
        "lrls: line 5: G6 bad pattern at 1: P3\n",
        2,
    ),
    "an empty literal": (
        "lrgrammar 1\n" + GOOD + 'token Y = "a" ""\n',
        "",
        "lrls: line 5: G6 bad pattern at 4: P4\n",
        2,
    ),
    "a pattern of the empty text": (
        "lrgrammar 1\n" + GOOD + "token Y = [0-9]*\n",
        "",
        "lrls: line 5: G6 bad pattern at 0: P5\n",
        2,
    ),
    "no start": ('lrgrammar 1\ntoken X = "x"\nS = X\n', "", "lrls: line 0: G7 no start\n", 2),
    "a second start": (
        "lrgrammar 1\n" + GOOD + "start S\n",
        "",
        "lrls: line 5: G7 second start\n",
        2,
    ),
    "a fold that is no nonterminal": (
        "lrgrammar 1\n" + GOOD + "fold X\n",
        "",
        "lrls: line 5: G8 not a nonterminal: X\n",
        2,
    ),
    "an unproductive nonterminal": (
        'lrgrammar 1\ntoken X = "x"\nstart A\nA = A X\n',
        "",
        "lrls: line 4: G9 unproductive: A\n",
        2,
    ),
    "a skip token in a production": (
        "lrgrammar 1\n" + GOOD + 'skip Y = "y"\nS = X Y\n',
        "",
        "lrls: line 6: G10 skip token in a production: Y\n",
        2,
    ),
    "too large a file": (
        "lrgrammar 1\n" + GOOD + "#" * 65_536,
        "",
        "lrls: line 0: G11 limit passed: file\n",
        2,
    ),
    "too many symbols": (
        "lrgrammar 1\n" + GOOD + "S = X" + " X" * 16 + "\n",
        "",
        "lrls: line 5: G11 limit passed: symbols\n",
        2,
    ),
    "too many tokens": (
        "lrgrammar 1\n" + GOOD + "".join(f'token T{k} = "t{k}"\n' for k in range(256)),
        "",
        "lrls: line 260: G11 limit passed: tokens\n",
        2,
    ),
    "too many nonterminals": (
        "lrgrammar 1\n" + GOOD + "".join(f"A{k} = X\n" for k in range(256)),
        "",
        "lrls: line 260: G11 limit passed: nonterminals\n",
        2,
    ),
    "too many states of the automaton": (
        "lrgrammar 1\n" + GOOD + 'token Y = [ab]* "a"' + " [ab]" * 12 + "\n",
        "",
        "lrls: over 4096 automaton states\n",
        2,
    ),
}


def grammars(cases: Cases, folder: str) -> None:
    for name, (text, out, err, status) in GRAMMARS.items():
        path = placed(folder, "grammar", text.encode())
        cases.run(f"grammar: {name}", ["check", path], (out.encode(), err, status))


def checked(folder: str, grammar: str) -> Tuple[str, str, Union[int, str]]:
    """What the program prints of a grammar file, on both streams, and its status."""
    words = ["check", placed(folder, "grammar", grammar.encode())]
    out, err, status = outcome(words)
    return out.decode(), err.decode(), status


def conflict(
    cases: Cases,
    name: str,
    grammar: str,
    token: Optional[str],
    printed: Tuple[str, str, Union[int, str]],
) -> None:
    """What is printed of a grammar file is a true report of a conflict, on this token where one is
    given."""
    out, err, status = printed
    wrong = conflicts.untrue(grammar, err, token)
    cases.check(name, ("", True, 2), (out, wrong == "" or f"{wrong}: {err}", status))


def conflict_rows(cases: Cases, folder: str) -> None:
    for text in grammar_files.READ:
        conflict(cases, f"read: {text[:60]!r}", text, None, checked(folder, text))
    for text, token in grammar_files.CONFLICTS:
        conflict(cases, f"conflict on {token} of {text[:60]!r}", text, token, checked(folder, text))


def grammar_rows(cases: Cases, folder: str) -> None:
    for text, unreachable in grammar_files.SOUND:
        notes = "".join(f"note: unreachable {name}\n" for name in unreachable)
        cases.check(f"sound: {text[:60]!r}", (notes + "ok\n", "", 0), checked(folder, text))
    for text, fault in grammar_files.FAULTY:
        cases.check(f"{fault} of {text[:60]!r}", ("", f"lrls: {fault}\n", 2), checked(folder, text))
    for pattern, fault in grammar_files.PATTERNS:
        reported = f"lrls: line 3: G6 bad pattern at {fault}\n"
        ran = checked(folder, f"lrgrammar 1\n# names\ntoken X = {pattern}\n")
        cases.check(f"{fault} of {pattern}", ("", reported, 2), ran)


def sizes(cases: Cases, folder: str) -> None:
    """`lrls sizes` counts sets of items as `lrls` does: it refuses the first grammar file with more
    than 8,192 of them."""
    for sides, sets in [(537, 8192), (538, 8207)]:
        path = placed(folder, "grammar", grammar_files.long_sides(sides).encode())
        counted = subprocess.run(
            [os.path.join(TOP, "tests", "oracles", "sizes"), path],
            capture_output=True,
            timeout=PATIENCE,
            check=False,
        )
        numbers = counted.stdout.decode().split("\n")[2].split()[:4]
        cases.check(f"sizes of {sides} sides", ["135", "1", str(sides), str(sets)], numbers)
        _, err, _ = checked(folder, grammar_files.long_sides(sides))
        cases.check(f"sets of {sides} sides", sets > 8192, err == "lrls: over 8192 table states\n")


def prefixes(cases: Cases, folder: str) -> None:
    """A grammar file that is cut anywhere."""
    whole = read(SUMS).decode()
    cases.check(
        "the pieces of a grammar file", whole, "".join(piece for piece, _ in grammar_files.PREFIXES)
    )
    for prefix, printed in grammar_files.prefixes():
        name = f"the first {len(prefix)} bytes of a grammar file"
        if printed is None:
            conflict(cases, name, prefix, "PLUS", checked(folder, prefix))
            continue
        out, err, status = ("", printed, 2) if printed.startswith("lrls: ") else (printed, "", 0)
        cases.check(name, (out, err, status), checked(folder, prefix))
