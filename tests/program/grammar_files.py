"""Grammar files, and what is printed of them.

`SOUND` are accepted. `FAULTY` are reported with their first fault. `READ` are grammar files whose
productions have a conflict: so their lines and names are sound, which is what a row shows.
`CONFLICTS` have one on a certain token; what is printed of them has to be true, by
tests/oracles/conflicts.py. `PREFIXES` are what one file shows where it is cut.
"""

from typing import Any, Callable, Iterator, List, Optional, Tuple

ONE = "lrgrammar 1\n"
TWO = "lrgrammar 2\n"
HEAD = TWO + 'token A = "a"\ntoken B = "b"\nstart S\n'
EMPTY = ONE + "start S0\nS0 =\n"
SKIPS = TWO + "skip W = [ ]+\nstart S\nS = W*\n"

SUMS = ONE + (
    'token NUM = [0-9]+\ntoken PLUS = "+"\ntoken LP = "("\ntoken RP = ")"\nskip WS = [ \\t\\r\\n]+\nstart Sum\nfold Atom\n'
    "Sum = Sum PLUS Atom\nSum = Atom\nAtom = NUM\nAtom = LP Sum RP\n"
)
LISTS = ONE + (
    'token STR = "\\"" [^"]* "\\""\ntoken W = [a-z]+\nskip WS = [ ]+\nstart L\nL =\nL = L Item\nItem = STR\nItem = W\n'
)
CHOICES = ONE + (
    'token IF = "if"\ntoken ELSE = "else"\ntoken X = "x"\nskip WS = [ ]+\nstart S\nS = IF S\nS = IF S ELSE S\nS = X\n'
)
# Unambiguous, but two lookaheads would be needed.
TWO_AHEAD = ONE + (
    'token X = "x"\ntoken Y = "y"\ntoken Z = "z"\ntoken C = "c"\nstart S\nS = P X Y\nS = Q X Z\nP = C\nQ = C\n'
)
# LR(1). LALR(1) tables of it would have a conflict.
NOT_LALR = ONE + (
    'token A = "a"\ntoken B = "b"\ntoken C = "c"\ntoken D = "d"\ntoken E = "e"\nstart S\n'
    "S = A P D\nS = B Q D\nS = A Q E\nS = B P E\nP = C\nQ = C\n"
)


def lines(count: int, line: Callable[..., Any]) -> str:
    return "".join(line(number) for number in range(count))


def rules(count: int, name: str) -> str:
    return lines(count, lambda n: f'token {name}{n} = "x"\n')


def nonterminals(count: int, last: str) -> str:
    """A file of so many nonterminals, and after them these lines."""
    return TWO + 'token X = "x"\nstart S0\n' + lines(count, lambda n: f"S{n} =\n") + last


def productions(first: str, count: int, last: str) -> str:
    """A file of so many productions of one nonterminal, of at most 1,056, and after them these
    lines."""
    pairs = lines(count, lambda n: f"S = T{n // 32} T{n % 32}\n")
    return first + "start S\n" + rules(33, "T") + pairs + last


def long_sides(count: int) -> str:
    """One nonterminal with so many right sides of 16 symbols, whose first two tell them apart: 2 +
    135 + 15 `count` sets."""
    sides = lines(count, lambda n: f"S = T{n // 4} T{n % 4}" + " T0" * 14 + "\n")
    return ONE + rules(135, "T") + "start S\n" + sides


def one_pattern(pattern: str) -> str:
    """A file with this pattern, whose other lines are sound."""
    return ONE + f"token X = {pattern}\nstart S\nS = X\n"


def nested(depth: int) -> str:
    return "(" * depth + '"a"' + ")" * depth


def many_states(count: int) -> str:
    """Patterns of 2,049 states and of so many more."""
    letters = '"' + "c" * count + '"'
    return ONE + f'token X = [ab]* "a"{" [ab]" * 10}\ntoken Y = {letters}\nstart S\nS = X\nS = Y\n'


def filled(size: int) -> str:
    """A file of so many bytes."""
    head = ONE + "start S\nS =\n#"
    return head + "x" * (size - len(head))


def names(letter: str, first: int, last: int) -> List[str]:
    """The names of this letter and the numbers from first to last."""
    return [f"{letter}{number}" for number in range(first, last + 1)]


# Grammar files, and the names that no text uses, in the order of their notes: the tokens, then the
# nonterminals.
SOUND: List[Tuple[str, List[str]]] = [
    (SUMS, []),
    (LISTS, []),
    (NOT_LALR, []),
    (ONE + 'token X = "x"\nstart token\ntoken = X\n', []),
    ('lrgrammar 1\r\n\ttoken  X\t=\t"x" \t\r\n# S = S\n \nstart S\r\nS = X', []),
    (HEAD + "S = A* B?\n", []),
    (EMPTY + rules(256, "X"), names("X", 0, 255)),
    (ONE + "start S0\n" + lines(256, lambda n: f"S{n} =\n"), names("S", 1, 255)),
    (ONE + 'start S\nS =\ntoken X = "x"\n' + "S =" + " X" * 16 + "\n", []),
    (productions(ONE, 1024, ""), ["T32"]),
    (filled(65_536), []),
    (nonterminals(256, "S0 = X\n"), names("S", 1, 255)),
    (nonterminals(254, "T = X*\n"), ["X", *names("S", 1, 253), "T"]),
    (long_sides(537), []),
    (one_pattern(nested(64)), []),
    (many_states(2_047), []),
]

READ = [
    CHOICES,
    HEAD + "S = A*\nS = A+\nS = A?\nS = A\n",
    nonterminals(255, "S0 = X* X*\n"),
    nonterminals(254, "S0 = X*\nS1 = X+ X*\nS2 = X+ X*\n"),
    nonterminals(254, "S0 = X*\nT = X*\n"),
    nonterminals(255, "S0 =" + " X*" * 16 + "\n"),
    productions(TWO, 1021, "S = T0*\n"),
    productions(TWO, 1020, "S = T0* T0*\nS = T0* T0\n"),
]

FAULTY = [
    ("", "line 1: G1 first line"),
    ("lrgrammar 1 \n", "line 1: G1 first line"),
    ("lrgrammar 1\r", "line 1: G1 first line"),
    ("lrgrammar 2 \n", "line 1: G1 first line"),
    ("lrgrammar 3\n", "line 1: G1 first line"),
    (ONE + "\nstart\n", "line 3: G2 bad line"),
    (ONE + "start S\nS\n", "line 3: G2 bad line"),
    (ONE + "S = 1x\n", "line 2: G2 bad line"),
    (ONE + "skip X = [ ]\nX =\n", "line 3: G3 defined twice: X"),
    (ONE + "S =\n\nS =\n", "line 4: G3 defined twice: S"),
    (ONE + "S =\nT =\nS =\n", "line 4: G3 defined twice: S"),
    (ONE + 'token X = "x"\ntoken X = "y"\n', "line 3: G3 defined twice: X"),
    (ONE + 'token end = "x"\n', "line 2: G5 reserved: end"),
    (ONE + "S = invalid\n", "line 2: G5 reserved: invalid"),
    (ONE + "end = invalid\n", "line 2: G5 reserved: end"),
    (ONE + "token X =\n", "line 2: G6 bad pattern at 0: P1"),
    (ONE + "start S\nstart T\n", "line 3: G7 second start"),
    (ONE + "start S\nstart S\nS =\n", "line 3: G7 second start"),
    (ONE, "line 0: G7 no start"),
    (TWO, "line 0: G7 no start"),
    (ONE + "start S\nS = X\n", "line 3: G4 undefined: X"),
    (ONE + "fold T\nstart S\nS =\n", "line 2: G8 not a nonterminal: T"),
    (ONE + 'token X = "x"\nstart X\nS = X\n', "line 3: G8 not a nonterminal: X"),
    (ONE + 'token X = "x"\nstart S\nfold X\nS = X\n', "line 4: G8 not a nonterminal: X"),
    (ONE + 'token X = "x"\nstart A\nA = A X\n', "line 4: G9 unproductive: A"),
    (ONE + "skip W = [ ]+\nstart S\nS = W\n", "line 4: G10 skip token in a production: W"),
    # marks stand on right sides alone, one after a name
    (TWO + "S = A**\n", "line 2: G2 bad line"),
    (TWO + "S = A*+\n", "line 2: G2 bad line"),
    (TWO + "S = *A\n", "line 2: G2 bad line"),
    (TWO + "S = A *\n", "line 2: G2 bad line"),
    (TWO + "S = +\n", "line 2: G2 bad line"),
    (TWO + "S? =\n", "line 2: G2 bad line"),
    (TWO + 'token A* = "a"\n', "line 2: G2 bad line"),
    (TWO + "start S*\n", "line 2: G2 bad line"),
    (TWO + "fold S+\n", "line 2: G2 bad line"),
    (ONE + "S = A*\n", "line 2: G2 bad line"),
    (ONE + "S = A+\n", "line 2: G2 bad line"),
    (ONE + "S = A?\n", "line 2: G2 bad line"),
    # names are printed without their marks
    (HEAD + "S = A*\nS = A*\n", "line 6: G3 defined twice: S"),
    (HEAD + "S = end*\n", "line 5: G5 reserved: end"),
    (HEAD + "S = C? invalid+\n", "line 5: G5 reserved: invalid"),
    (HEAD + "S = end?\nS = end?\n", "line 5: G5 reserved: end"),
    (HEAD + "S = A* C+ D\n", "line 5: G4 undefined: C"),
    (SKIPS, "line 4: G10 skip token in a production: W"),
    # marked words stand after what the lines define
    (HEAD + "S = T+\nT = T A\n", "line 5: G9 unproductive: S"),
    (HEAD + "S = T*\nT = U+\nU = U A\n", "line 6: G9 unproductive: T"),
    # limits
    (EMPTY + rules(257, "X"), "line 260: G11 limit passed: tokens"),
    (
        ONE + "start S0\n" + lines(257, lambda n: f"S{n} =\n"),
        "line 259: G11 limit passed: nonterminals",
    ),
    (
        ONE + 'start S\nS =\ntoken X = "x"\n' + "S =" + " X" * 17 + "\n",
        "line 5: G11 limit passed: symbols",
    ),
    (productions(ONE, 1025, ""), "line 1060: G11 limit passed: productions"),
    (filled(65_537), "line 0: G11 limit passed: file"),
    # a marked word counts as one nonterminal and two productions, at the line where it first stands
    (nonterminals(256, "S0 = X*\n"), "line 260: G11 limit passed: nonterminals"),
    (
        nonterminals(254, "S0 = X*\nS1 = X+ X*\nS2 = X?\n"),
        "line 260: G11 limit passed: nonterminals",
    ),
    (nonterminals(254, "S0 = X*\nT = X+\n"), "line 259: G11 limit passed: nonterminals"),
    (nonterminals(256, "S0 =" + " X*" * 17 + "\n"), "line 260: G11 limit passed: symbols"),
    (productions(TWO, 1022, "S = T0*\n"), "line 1058: G11 limit passed: productions"),
    (productions(TWO, 1020, "S = T0* T0*\nS = T0?\n"), "line 1057: G11 limit passed: productions"),
    # limits of what is made of a grammar
    (
        ONE + 'token X = [ab]* "a"' + " [ab]" * 11 + "\nstart S\nS = X\n",
        "over 4096 automaton states",
    ),
    (many_states(2_048), "over 4096 automaton states"),
    (long_sides(538), "over 8192 table states"),
]

# A pattern, and the place and cause of its fault.
PATTERNS = [
    ('"a', "2: P1"),
    ('"a"**', "4: P1"),
    ("[a-]", "3: P1"),
    ('"b" [a-]', "7: P1"),
    ('"\\u{D800}"', "1: P1"),
    (nested(65), "64: P1"),
    ("[]", "0: P2"),
    ('"a" []', "4: P2"),
    ("[^\\u{0}-\\u{10FFFF}]", "0: P2"),
    ('"b"|[^\\u{0}-\\u{10FFFF}]', "4: P2"),
    ("[z-a]", "1: P3"),
    ('"a" [bz-a]', "6: P3"),
    ('"\U00010000" [b-a]', "5: P3"),
    ('"a" ""', "4: P4"),
    ("[0-9]*", "0: P5"),
    ('"a"?', "0: P5"),
]

# Grammar files, and the token on which their conflicts are.
CONFLICTS = [
    (CHOICES, "ELSE"),
    (TWO_AHEAD, "X"),
    (ONE + 'token X = "x"\nstart S\nS = S\nS = X\n', "end"),
    (ONE + 'token X = "x"\nstart S\nS = A\nS = B\nA = X\nB = X\n', "end"),
    (ONE + 'token N = "1"\ntoken P = "+"\nstart S\nS = S P S\nS = N\n', "P"),
    (HEAD + "S = A? A\n", "A"),
]

NO_START = "lrls: line 0: G7 no start\n"
NO_ATOM = "lrls: line 8: G8 not a nonterminal: Atom\n"
UNUSED = "note: unreachable LP\nnote: unreachable RP\nok\n"


def bad_line(number: int) -> str:
    return f"lrls: line {number}: G2 bad line\n"


def cut_pattern(number: int, place: int) -> str:
    return f"lrls: line {number}: G6 bad pattern at {place}: P1\n"


def undefined(number: int, name: str) -> str:
    return f"lrls: line {number}: G4 undefined: {name}\n"


def one_character(number: int, name: str, character: str) -> List[Tuple[str, str]]:
    """The pieces of a rule of one character."""
    return [
        (f"token {name} ", bad_line(number)),
        ("= ", cut_pattern(number, 0)),
        ('"', cut_pattern(number, 1)),
        (character, cut_pattern(number, 2)),
        ('"\n', NO_START),
    ]


# The pieces of grammars/g0.lr, and what is printed of the file where it ends anywhere in a piece,
# after its first byte. `None` stands for a conflict on PLUS.
PREFIXES: List[Tuple[str, Optional[str]]] = [
    ("lrgrammar ", "lrls: line 1: G1 first line\n"),
    ("1\n", NO_START),
    ("token NUM ", bad_line(2)),
    ("= ", cut_pattern(2, 0)),
    ("[", cut_pattern(2, 1)),
    ("0", cut_pattern(2, 2)),
    ("-", cut_pattern(2, 3)),
    ("9", cut_pattern(2, 4)),
    ("]+\n", NO_START),
    *one_character(3, "PLUS", "+"),
    *one_character(4, "LP", "("),
    *one_character(5, "RP", ")"),
    ("skip WS ", bad_line(6)),
    ("= ", cut_pattern(6, 0)),
    # the blank at the end of a line is no part of its pattern, and the place of an escape that is
    # cut off is its backslash
    ("[ ", cut_pattern(6, 1)),
    ("\\", cut_pattern(6, 2)),
    ("t", cut_pattern(6, 4)),
    ("\\", cut_pattern(6, 4)),
    ("r", cut_pattern(6, 6)),
    ("\\", cut_pattern(6, 6)),
    ("n", cut_pattern(6, 8)),
    ("]+\n", NO_START),
    ("start ", bad_line(7)),
    ("S", "lrls: line 7: G8 not a nonterminal: S\n"),
    ("u", "lrls: line 7: G8 not a nonterminal: Su\n"),
    ("m\n", "lrls: line 7: G8 not a nonterminal: Sum\n"),
    ("fold ", bad_line(8)),
    ("Atom\n", "lrls: line 7: G8 not a nonterminal: Sum\n"),
    ("Sum ", bad_line(9)),
    ("= Sum PLUS Atom\n", NO_ATOM),
    ("Sum ", bad_line(10)),
    ("= Atom\n", NO_ATOM),
    ("Atom ", bad_line(11)),
    ("= ", "note: unreachable NUM\n" + UNUSED),
    ("N", undefined(11, "N")),
    ("U", undefined(11, "NU")),
    ("M\n", UNUSED),
    ("Atom ", bad_line(12)),
    ("= ", UNUSED),
    ("L", undefined(12, "L")),
    ("P ", "note: unreachable RP\nok\n"),
    ("S", undefined(12, "S")),
    ("u", undefined(12, "Su")),
    ("m ", None),
    ("R", undefined(12, "R")),
    ("P\n", "ok\n"),
]


def prefixes() -> Iterator[Tuple[Any, ...]]:
    """Each prefix of grammars/g0.lr, and what is printed of it."""
    prefix = ""
    yield prefix, PREFIXES[0][1]
    for piece, printed in PREFIXES:
        for letter in piece:
            prefix += letter
            yield prefix, printed
