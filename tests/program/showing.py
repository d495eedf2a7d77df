"""What `lrls show` prints: rows that were written by hand, and for each sample of grammars/ its
tree and its text from what is shown.

The trees beside the samples were made by tests/oracles/trees, so that nothing here is compared with
the program's own words.
"""

import os
import re
import subprocess
import sys
from typing import Any, Callable, List, Optional, Tuple

from tests import TOP
from tests.common.cases import Cases
from tests.common.serving import PATIENCE, PROGRAM

SHOW = os.path.join(TOP, "script", "show")
UNUSUAL = """lrgrammar 2
token WIDE = [\\u{10000}-\\u{10FFFF}]+
token NAME = [a-z]+
token QUOTED = "'" [^']* "'"
skip SPACE = [ \\t\\r\\n]+
skip = NAME
start File
File = Part*
Part = WIDE
Part = skip
Part = QUOTED
"""
SUM = """Sum
  Atom > NUM  0:0-0:1  "1"
  PLUS  0:1-0:2  "+"
  Atom > NUM  1:1-1:2  "2"
"""
NESTED = """Sum > Atom
  LP  0:0-0:1  "("
  Sum
    Atom > NUM  0:1-0:2  "1"
    PLUS  0:2-0:3  "+"
    Atom > NUM  0:3-0:4  "2"
    PLUS  0:4-0:5  "+"
    Atom > NUM  0:5-0:6  "3"
  RP  0:6-0:7  ")"
"""
NODES = """Sum
  Sum
    Atom
      NUM  0:0-0:1  "1"
  PLUS  0:1-0:2  "+"
  Atom
    NUM  0:2-0:3  "2"
"""
NO_TREE = "There is no tree. These are the tokens; > marks the one at the fault:\n"
AT_THE_END = "There is no tree. These are the tokens; the fault is behind the last one:\n"
LISTS = """File > Part*
  Part > WIDE  0:0-0:4  "\U0001f600\U0001f600"
  Part > skip > NAME  0:5-0:6  "a"
  Part > QUOTED  1:0-2:3  "'\\"\\\\\\r\\n\\u{7F}é'"
"""
LONG = "1" * 70
DEEP = "(" * 50 + "1" + ")" * 50

# The options, the grammar (of grammars/, or the text of one), the text, what is printed, and the
# status.
ROWS: List[Any] = [
    ([], "g0", "1+\r\n 2", SUM, 0),
    ([], "g0", "(1+2+3)", NESTED, 0),
    (["--nodes"], "g0", "1+2", NODES, 0),
    (
        ["--tokens"],
        "g0",
        "1 +2",
        'NUM  0:0-0:1  "1"\nWS  0:1-0:2  " "\nPLUS  0:2-0:3  "+"\nNUM  0:3-0:4  "2"\n',
        0,
    ),
    ([], "g0", LONG, f'Sum > Atom > NUM  0:0-0:70  "{LONG[:60]}" and 10 more\n', 0),
    ([], UNUSUAL, "\U0001f600\U0001f600 a\n'\"\\\r\n\x7fé'", LISTS, 0),
    ([], UNUSUAL, "", "File > Part*\n", 0),
    (["--tokens"], UNUSUAL, "", "", 0),
    (
        [],
        "g0",
        "",
        "0:0-0:0: unexpected end; expected NUM, LP\nThere is no tree, and no token.\n",
        1,
    ),
    (
        [],
        "g0",
        "1\r\n\U0001f6002",
        "1:0-1:2: unexpected invalid; expected PLUS, end\n"
        f'{NO_TREE}  NUM  0:0-0:1  "1"\n  WS  0:1-1:0  "\\r\\n"\n> invalid  1:0-1:2  "\U0001f600"\n  NUM  1:2-1:3  "2"\n',
        1,
    ),
    (
        ["--nodes"],
        "g0",
        "1+",
        f'0:2-0:2: unexpected end; expected NUM, LP\n{AT_THE_END}  NUM  0:0-0:1  "1"\n  PLUS  0:1-0:2  "+"\n',
        1,
    ),
]

# What is refused: the options, the grammar, the bytes of the text, standard error, and the status.
REFUSED: List[Any] = [
    ([], "lrgrammar 1\nstart\n", b"1", "lrls: line 2: G2 bad line\n", 2),
    ([], "g0", b"\xff", "lrls: text is not UTF-8\n", 1),
    ([], "g0", b"1" * 1_048_577, "lrls: text too large\n", 1),
]
TOKEN = re.compile(r'(\w+)  \d+:\d+-\d+:\d+  "(.*)"( and \d+ more)?$')
# The blanks of a line, the level where it is a number, and the rest.
LINE = re.compile(r"( *)(?:\((\d+)\) )?(.*)")
ESCAPE = re.compile(r"\\(u\{([0-9A-F]+)\}|.)")


def shown(*words: str, given: Optional[bytes] = None) -> Tuple[str, str, int]:
    """What `lrls show` prints on both streams, and its status."""
    ran = subprocess.run(
        [sys.executable, SHOW, PROGRAM, *words],
        input=given,
        capture_output=True,
        timeout=PATIENCE,
        check=False,
    )
    return ran.stdout.decode(), ran.stderr.decode(), ran.returncode


def tree_of(printed: str) -> str:
    """The text of the tree that the lines of `--nodes` are."""
    open_nodes, tree = 0, ""
    for line in printed.splitlines():
        found = LINE.match(line)
        assert found
        blanks, number, name = found.groups()
        level, token = int(number or len(blanks) // 2), TOKEN.search(line)
        tree += ")" * (open_nodes - level) + (" " if tree else "")
        tree += token.group(1) if token else "(" + name
        open_nodes = level + (token is None)
    return tree + ")" * open_nodes


def unescaped(literal: str) -> str:
    """The text of a literal."""
    letters = {"n": "\n", "r": "\r", "t": "\t"}
    return ESCAPE.sub(
        lambda found: chr(int(found[2], 16)) if found[2] else letters.get(found[1], found[1]),
        literal,
    )


def are_in_turn(pieces: List[str], text: str) -> bool:
    """Whether a text is these pieces, of which the longest ones have only their beginning."""
    wanted = "".join(re.escape(piece) + (".*" if len(piece) == 60 else "") for piece in pieces)
    return re.fullmatch(wanted, text, re.DOTALL) is not None


def names_of(printed: str) -> List[str]:
    """The names of the tokens, in order."""
    found = map(TOKEN.search, printed.splitlines())
    return [token.group(1) for token in found if token]


def of_sample(cases: Cases, grammar: str, sample: str, tree: str) -> None:
    """What is shown of a sample is its tree, the tokens of its tree, and its text, but for what is
    left out of long tokens."""
    out, err, status = shown("--nodes", grammar, sample)
    cases.check(f"show: the tree of {sample}", (tree, "", 0), (tree_of(out), err, status))
    names = names_of(out)
    out, err, status = shown(grammar, sample)
    cases.check(
        f"show: the tokens of the tree of {sample}", (names, "", 0), (names_of(out), err, status)
    )
    out, err, status = shown("--tokens", grammar, sample)
    with open(sample, encoding="utf-8", newline="") as file:
        pieces = [unescaped(TOKEN.findall(line)[0][1]) for line in out.splitlines()]
        cases.check(
            f"show: the text of {sample}",
            (True, "", 0),
            (are_in_turn(pieces, file.read()), err, status),
        )


def rows(cases: Cases, place: Callable[..., Any]) -> None:
    for options, grammar, text, awaited, status in ROWS:
        path = (
            os.path.join(TOP, "grammars", f"{grammar}.lr")
            if grammar == "g0"
            else place("grammar", grammar.encode())
        )
        name = f"show {options} of {text[:20]!r}"
        cases.check(
            name, (awaited, "", status), shown(*options, path, place("text", text.encode()))
        )
    for options, grammar, text, err, status in REFUSED:
        path = (
            os.path.join(TOP, "grammars", f"{grammar}.lr")
            if grammar == "g0"
            else place("grammar", grammar.encode())
        )
        cases.check(
            f"show of {text[:20]!r}", ("", err, status), shown(*options, path, place("text", text))
        )


def words(cases: Cases, place: Callable[..., Any]) -> None:
    """Words, files that can't be read, and pipes in place of files."""
    sums, text = os.path.join(TOP, "grammars", "g0.lr"), place("text", b"1")
    one = 'Sum > Atom > NUM  0:0-0:1  "1"\n'
    for given in [["nothing", text], [sums, "nothing"], [TOP, text]]:
        path = "nothing" if "nothing" in given else TOP
        cases.check(f"show {given}", ("", f"lrls: cannot read {path}\n", 1), shown(*given))
    calls: List[List[str]] = [
        [],
        [sums],
        [sums, text, text],
        ["--what", sums, text],
        ["--tokens", "--nodes", sums, text],
    ]
    for given in calls:
        out, err, status = shown(*given)
        cases.check(
            f"show {given}", ("", True, 2), (out, err.startswith("usage: lrls show "), status)
        )
    cases.check("show of standard input", (one, "", 0), shown(sums, "/dev/stdin", given=b"1"))
    with open(sums, "rb") as file:
        cases.check(
            "show by standard input", (one, "", 0), shown("/dev/stdin", text, given=file.read())
        )


def large(cases: Cases, place: Callable[..., Any]) -> None:
    """A text of many tokens, one that nests deeply, and a reader that leaves."""
    sums, ones = os.path.join(TOP, "grammars", "g0.lr"), place("ones", b"1+" * 24_999 + b"1")
    out, err, status = shown(sums, ones)
    cases.check("show: 49,999 tokens", (50_000, "", 0), (out.count("\n"), err, status))
    cases.check(
        "show: the last of them", '  Atom > NUM  0:49998-0:49999  "1"', out.splitlines()[-1]
    )
    out, err, status = shown(sums, place("deep", DEEP.encode()))
    cases.check("show: 50 levels", (151, "", 0), (out.count("\n"), err, status))
    cases.check(
        "show: the deepest",
        f'{"  " * 40}(50) Sum > Atom > NUM  0:50-0:51  "1"',
        out.splitlines()[100],
    )
    piped = f'"{sys.executable}" "{SHOW}" "{PROGRAM}" "{sums}" "{ones}" | head -n 1'
    ran = subprocess.run(["sh", "-c", piped], capture_output=True, timeout=PATIENCE, check=False)
    cases.check("show: a reader that leaves", (b"Sum\n", b""), (ran.stdout, ran.stderr))


def run(cases: Cases, place: Callable[..., Any], samples: List[Tuple[str, str, str]]) -> None:
    """Runs the rows. `place` writes a file of this name, and `samples` are paths: a grammar, a text
    and the text's tree."""
    rows(cases, place)
    words(cases, place)
    large(cases, place)
    for grammar, sample, tree in samples:
        with open(tree, encoding="utf-8") as file:
            of_sample(cases, grammar, sample, file.read().strip())
