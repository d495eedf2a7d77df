"""Refuses the allocations of the built program one after the other, once alone and once with all
that come after it.

A refused allocation has to end the program with `lrls: no memory`, lose the document in whose
change it was, or be done without; and all that was written before has to be right. A library that
is loaded before all others refuses them, and counts how many there are. Of a row with more of them
than its `most`, only some are refused: the first and the last ones, others between them at even
distances, and every eighth of the last 200, among which are those of a session's changes.
tests/program runs this as its group `refusals`, bench/refusals by itself; on four processors it
takes about a minute. Needs a C compiler, and a system with LD_PRELOAD and glibc.
"""

import concurrent.futures
import os
import shutil
import subprocess
from typing import Any, Dict, Iterator, List, NamedTuple, Optional, Sequence, Tuple, Union

from tests.common.cases import placed, read
from tests.common.serving import PATIENCE, PROGRAM, SUMS
from tests.program.marked import HEAD
from tests.program.one_session import (
    EMPTY_RANGE,
    SESSION,
    asked,
    change,
    closed,
    edited,
    input_of,
    lost,
    opened,
    outputs,
    published,
    refused,
    replied,
    talk,
)

LISTS = """lrgrammar 1
token STR = "\\"" [^"\\n\\r]* "\\""
token W = [a-z]+
skip WS = [ \\n]+
start L
L =
L = L Item
Item = W
Item = STR
"""
LIBRARY = """
#include <errno.h>
#include <stdio.h>
#include <stdlib.h>
static long count, first = -1, all;
static int refuses(void) {
    if (first < 0) {
        first = getenv("REFUSED") ? atol(getenv("REFUSED")) : 0;
        all = getenv("REFUSED_ON") != 0;
    }
    count++;
    if (first == 0 || (count != first && !(all && count > first))) return 0;
    errno = ENOMEM;
    return 1;
}
extern void *__libc_malloc(size_t), *__libc_calloc(size_t, size_t), *__libc_realloc(void *, size_t);
void *malloc(size_t size) { return refuses() ? 0 : __libc_malloc(size); }
void *calloc(size_t count, size_t size) { return refuses() ? 0 : __libc_calloc(count, size); }
void *realloc(void *old, size_t size) { return refuses() ? 0 : __libc_realloc(old, size); }
__attribute__((destructor)) static void count_them(void) {
    long counted = count;
    FILE *file = getenv("COUNTED") ? fopen(getenv("COUNTED"), "w") : 0;
    if (file) {
        fprintf(file, "%ld", counted);
        fclose(file);
    }
}
"""
SMALL, WIDE, LARGE = 1_000, 900, 24


def library(folder: str) -> Optional[str]:
    """The path of the library, or none where there is no C compiler."""
    if shutil.which("cc") is None:
        return None
    path = os.path.join(folder, "refuse.so")
    source = placed(folder, "refuse.c", LIBRARY.encode())
    subprocess.run(["cc", "-O1", "-shared", "-fPIC", "-o", path, source], check=True)
    return path


def quotes() -> Sequence[Tuple[Any, ...]]:
    """A session in which a quotation mark makes all tokens after it other ones."""
    quote: Dict[str, Any] = {"message": "unexpected invalid; expected STR, W, end"}
    quote["range"] = {"end": {"character": 1, "line": 0}, "start": {"character": 0, "line": 0}}
    quote.update(severity=1, source="lrls")
    return talk(
        (opened("ab cd"), published(1, [])),
        (edited(2, change(0, 0, '"')), published(2, [quote])),
        (edited(3, change(6, 6, '"')), published(3, [])),
        (edited(4, change(6, 7, "")), published(4, [quote])),
        (asked("lr/text"), replied({"text": '"ab cd', "version": 4})),
    )


def grown(numbers: int, place: int) -> Sequence[Tuple[Any, ...]]:
    """A session that opens a sum of so many numbers, changes it at a place, and changes it back."""
    text = "1+" * (numbers - 1) + "1"
    return talk(
        (opened(text), published(1, [])),
        (edited(2, change(place, place, "2+3+")), published(2, [])),
        (edited(3, change(place, place + 4, "")), published(3, [])),
        (asked("lr/text"), replied({"text": text, "version": 3})),
    )


def tree_of_sum(numbers: int) -> bytes:
    """What `lrls parse` prints of a sum of so many numbers."""
    first = "(Sum " * numbers + "(Atom NUM))"
    return (first + " PLUS (Atom NUM))" * (numbers - 1) + "\n").encode()


class Row(NamedTuple):
    """A program that is run, what may come of it where memory is refused, and how many of its
    allocations are refused."""

    name: str
    words: List[str]
    text: bytes
    outputs: List[bytes]
    error: bytes
    status: int
    most: int


# What two numbers in parentheses over three lines are answered: tokens, tree, folds, and the
# selections of the first number.
PARENTHESES = "(\n1+2)"
TOKENS = [
    ["LP", 0, 0, 0, 1],
    ["WS", 0, 1, 1, 0],
    ["NUM", 1, 0, 1, 1],
    ["PLUS", 1, 1, 1, 2],
    ["NUM", 1, 2, 1, 3],
    ["RP", 1, 3, 1, 4],
]
TREE = "(Sum (Atom LP (Sum (Sum (Atom NUM)) PLUS (Atom NUM)) RP))"


def between(
    first: Tuple[int, int],
    last: Tuple[int, int],
    parent: Optional[Dict[str, Any]] = None,
) -> Dict[str, Any]:
    """A selection between two places, each a line and a character, within another one."""
    ends = [{"character": character, "line": line} for line, character in (last, first)]
    return {**({"parent": parent} if parent else {}), "range": {"end": ends[0], "start": ends[1]}}


def views() -> Sequence[Tuple[Any, ...]]:
    """A session that asks for each view of a text, with its faults, and closes it."""
    around = between((1, 0), (1, 1), between((1, 0), (1, 3), between((0, 0), (1, 4))))
    counts = {"branches": 6, "built": 6, "edit": 0, "nodes": 6, "scanned": 6, "tokens": 6}
    fault = {
        "message": "unexpected end; expected NUM, LP",
        "range": EMPTY_RANGE,
        "severity": 1,
        "source": "lrls",
    }
    return talk(
        (opened(PARENTHESES), published(1, [])),
        (asked("lr/tokens"), replied(TOKENS)),
        (asked("lr/tree"), replied(TREE)),
        (asked("lr/stats"), replied(counts)),
        (asked("textDocument/foldingRange"), replied([{"endLine": 1, "startLine": 0}])),
        (
            asked("textDocument/selectionRange", {"positions": [{"line": 1, "character": 0}] * 3}),
            replied([around] * 3),
        ),
        (edited(2, {"text": ""}), published(2, [fault])),
        (asked("lr/tree"), replied(None)),
        closed(),
        (opened("1"), published(1, [])),
        closed(),
    )


def compacted(numbers: int, kept: int) -> Sequence[Tuple[Any, ...]]:
    """A session in which a sum of so many numbers is cut down to the first of them. The number
    before the cut has looked at what was there, so it is scanned anew, with its two nodes. The
    nodes of the others are given up, since there may be twice as many as the trees have and 1,024
    more."""
    text, rest = "1+" * (numbers - 1) + "1", "1+" * (kept - 1) + "1"
    branches = 2 * kept
    counts = {
        "branches": branches,
        "built": 2,
        "edit": 1,
        "nodes": branches,
        "scanned": 1,
        "tokens": 2 * kept - 1,
    }
    return talk(
        (opened(text), published(1, [])),
        (edited(2, change(len(rest), len(text), "")), published(2, [])),
        (asked("lr/stats"), replied(counts)),
        (asked("lr/text"), replied({"text": rest, "version": 2})),
    )


def apart() -> Sequence[Tuple[Any, ...]]:
    """A session with messages of several changes, at places apart and at one place."""
    text = "+".join("1" * 60)
    ends = [change(118, 119, "23"), change(60, 61, "45"), change(0, 1, "67"), change(0, 2, "8")]
    after = "8" + text[1:60] + "45" + text[61:118] + "23"
    return talk(
        (opened(text), published(1, [])),
        (edited(2, *ends), published(2, [])),
        (edited(3, change(0, 0, "9+"), change(2, 3, "(7)"), change(40, 40, "6")), published(3, [])),
        (asked("lr/text"), replied({"text": inserted("9+(7)" + after[1:], 40, "6"), "version": 3})),
    )


def inserted(text: str, place: int, more: str) -> str:
    return text[:place] + more + text[place:]


def full() -> Sequence[Tuple[Any, ...]]:
    """A text with room for one digit: one is typed in, another is one too many, and the text is
    opened anew."""
    at_first = change(0, 0, "1")
    again = asked("textDocument/foldingRange")
    cause = "document lost: too large"
    return talk(
        (opened("1" * 1_048_575), published(1, [])),
        (edited(2, at_first), published(2, [])),
        (edited(3, at_first), lost(cause)),
        (again, refused(again, cause)),
        (opened("1"), published(1, [])),
        (asked("lr/text"), replied({"text": "1", "version": 1})),
    )


ONE = "lrgrammar 1\n"
GOOD = 'token X = "x"\nstart S\nS = X\n'
CONFLICT = b"lrls: conflict on end\nafter: X\nitem: S = X ., end\nitem: T = X ., end\n"

# Grammar files: what is printed of each on standard output and on standard error, and the status.
GRAMMARS = {
    "a name that is defined twice": (
        ONE + GOOD + 'token X = "y"\n',
        b"",
        b"lrls: line 5: G3 defined twice: X\n",
        2,
    ),
    "a name that isn't defined": (
        ONE + GOOD + "S = X Y\n",
        b"",
        b"lrls: line 5: G4 undefined: Y\n",
        2,
    ),
    "a reserved name": (ONE + GOOD + "S = X end\n", b"", b"lrls: line 5: G5 reserved: end\n", 2),
    "a start that is a token": (
        ONE + 'token X = "x"\nstart X\nS = X\n',
        b"",
        b"lrls: line 3: G8 not a nonterminal: X\n",
        2,
    ),
    "a nonterminal without a text": (
        ONE + 'token X = "x"\nstart A\nA = A X\n',
        b"",
        b"lrls: line 4: G9 unproductive: A\n",
        2,
    ),
    "a skip token in a production": (
        ONE + "skip W = [ ]+\nstart S\nS = W\n",
        b"",
        b"lrls: line 4: G10 skip token in a production: W\n",
        2,
    ),
    "a conflict": (ONE + 'token X = "x"\nstart S\nS = X\nS = T\nT = X\n', b"", CONFLICT, 2),
    "notes": (
        ONE + GOOD + 'token Y = "y"\nT = Y\n',
        b"note: unreachable Y\nnote: unreachable T\nok\n",
        b"",
        0,
    ),
    "marked words": (HEAD + "S = A* T?\nT = B+\n", b"ok\n", b"", 0),
}


def checks(folder: str) -> Iterator[Row]:
    """The runs of `check`."""
    yield Row("check", ["check", SUMS], b"", [b"ok\n"], b"", 0, SMALL)
    for name, (text, out, error, status) in GRAMMARS.items():
        path = placed(folder, f"grammar of {name}", text.encode())
        yield Row(f"check of {name}", ["check", path], b"", [out], error, status, SMALL)


def parses(folder: str) -> Iterator[Row]:
    """The runs of `parse`."""
    fault = b"0:2-0:3: unexpected NUM; expected PLUS, end\n"
    for name, text, printed, status, most in [
        ("a sum", b"1+2", tree_of_sum(2), 0, SMALL),
        ("a fault", b"1 2", fault, 1, SMALL),
        ("a text of 1 MiB", b"1" * 1_048_576, tree_of_sum(1), 0, LARGE),
        ("a sum of 524,288 numbers", b"1+" * 524_287 + b"1", tree_of_sum(524_288), 0, LARGE),
    ]:
        path = placed(folder, f"text {name}", text)
        yield Row(f"parse of {name}", ["parse", SUMS, path], b"", [printed], b"", status, most)


def sessions(folder: str) -> Iterator[Row]:
    """The runs of `serve`."""
    lists = placed(folder, "lists.lr", LISTS.encode())
    sessions: List[Tuple[str, str, Sequence[Any], int]] = [
        ("a session", SUMS, SESSION, SMALL),
        ("quotation marks", lists, quotes(), SMALL),
        ("each view, and a text that is closed", SUMS, views(), SMALL),
        ("nodes that are given up", SUMS, compacted(1_000, 100), SMALL),
        ("changes apart", SUMS, apart(), SMALL),
        ("a text with room for one digit", SUMS, full(), WIDE),
        ("a sum of 20,001 numbers", SUMS, grown(20_001, 20_000), LARGE),
        ("a sum of 524,286 numbers", SUMS, grown(524_286, 524_288), LARGE),
    ]
    for name, grammar, session, most in sessions:
        yield Row(name, ["serve", grammar], input_of(session), list(outputs(session)), b"", 0, most)


def rows(folder: str) -> Iterator[Row]:
    yield from checks(folder)
    yield from parses(folder)
    yield from sessions(folder)


def places(count: int, most: int) -> List[int]:
    """The numbers of the allocations that are refused, of so many, and the one after the last:
    nothing is refused then."""
    if count <= most:
        return list(range(1, count + 2))
    third = most // 3
    between = range(third + 1, count - third, max(1, (count - 2 * third) // third))
    near_end = range(max(1, count - 200), count - third, 8)
    return sorted({*range(1, third + 1), *between, *near_end, *range(count - third + 1, count + 2)})


def run(words: List[str], path: str, **names: Any) -> Tuple[bytes, bytes, Union[int, str]]:
    """What the program prints on both streams and its status, with these names in its environment.
    Its input is a file, since how many bytes a pipe has when it is read differs from run to run,
    and so do the allocations."""
    environment = {**os.environ, **names}
    try:
        with open(path, "rb") as stdin:
            done = subprocess.run(
                [PROGRAM, *words],
                stdin=stdin,
                capture_output=True,
                env=environment,
                timeout=PATIENCE,
                check=False,
            )
    except subprocess.TimeoutExpired:
        return b"", b"", f"not ended after {PATIENCE} seconds"
    return done.stdout, done.stderr, done.returncode


def end_of(ended: Tuple[bytes, bytes, Union[int, str]], row: "Row") -> str:
    """How a run ended: for want of memory, with a lost document, as ever, or else what was wrong."""
    out, err, code = ended
    if (err, code) == (row.error, row.status) and out in row.outputs:
        return "as ever" if out == row.outputs[0] else "lost"
    if (err, code) == (b"lrls: no memory\n", 1) and any(
        output.startswith(out) for output in row.outputs
    ):
        return "no memory"
    return f"wrong: status {code}, standard error {err[:200]!r}, {len(out)} bytes of output, at its end {out[-60:]!r}"


def refuse(loaded: str, folder: str, row: "Row") -> Tuple[int, List[Tuple[int, bool, str]]]:
    """The ends of a row's runs: for each the number of the refused allocation, whether all later
    ones were refused, and the end."""
    counted = os.path.join(folder, "counted")
    path = placed(folder, "input", row.text)
    whole = run(row.words, path, LD_PRELOAD=loaded, COUNTED=counted)
    if end_of(whole, row) != "as ever" or not os.path.exists(counted):
        return 0, [(0, False, f"nothing refused: {end_of(whole, row)}")]
    count = int(read(counted))
    os.remove(counted)

    def one(task: Tuple[int, bool]) -> Tuple[int, bool, str]:
        place, on = task
        names = {"REFUSED_ON": "1"} if on else {}
        return (
            place,
            on,
            end_of(run(row.words, path, LD_PRELOAD=loaded, REFUSED=str(place), **names), row),
        )

    tasks = [(place, on) for on in (False, True) for place in places(count, row.most)]
    with concurrent.futures.ThreadPoolExecutor(os.cpu_count()) as pool:
        return count, list(pool.map(one, tasks))


def results(folder: str) -> Iterator[Tuple[str, int, Dict[str, int], List[Any]]]:
    """Of each row its name, how many allocations it makes, the counts of the ends that are allowed,
    and what was wrong: other ends, and that no allocation was reported or lost a document."""
    loaded = library(folder)
    assert loaded, "no C compiler that is called cc"
    for row in rows(folder):
        count, ends = refuse(loaded, folder, row)
        counts = {
            end: [found for _, _, found in ends].count(end)
            for end in ("no memory", "lost", "as ever")
        }
        wrong = [
            f"allocation {place}{' and later ones' * on}: {end}"
            for place, on, end in ends
            if end not in counts
        ]
        wrong += ["none ends with `no memory`"] * (counts["no memory"] == 0)
        wrong += ["none loses the document"] * (len(row.outputs) > 1 and counts["lost"] == 0)
        wrong += ["not as ever after the last allocation"] * any(
            place > count and end != "as ever" for place, _, end in ends
        )
        yield row.name, count, counts, wrong
