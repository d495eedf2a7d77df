"""What is typed into Neovim and Emacs, and what has to show then: diagnostics, and the colours of
the text at the end."""

from typing import Any, List, Tuple

# The four numbers of a range, and a text: of a diagnostic, or the name of a colour.
Row = List[Any]

# What is typed in turn, in the keys of Neovim and of Emacs, and the diagnostics that have to show
# then: the first and the last line and column, counted from 0 in characters, and the text. The file
# begins as `1+(2`.
FAULTY = "1+(2\n"
STEPS: List[Tuple[str, str, List[Row]]] = [
    ("", "", [[1, 0, 1, 0, "unexpected end; expected PLUS, RP"]]),
    ("A)", "\x05)", []),
    ("A x", "\x05 x", [[0, 6, 0, 7, "unexpected invalid; expected PLUS, end"]]),
    ("xA+\U0001f600", "\x7f+\U0001f600", [[0, 7, 0, 8, "unexpected invalid; expected NUM, LP"]]),
    ("A+(3+\r4)", "+(3+\r4)", [[0, 7, 0, 8, "unexpected invalid; expected NUM, LP"]]),
    ("gg$F\U0001f600r5", "\x1b<\x05\x02\x02\x02\x02\x7f5", []),
]
WHOLE = "1+(2) +5+(3+\n4)\n"
# The colours of that text: first and last line and column, and the highlight group, or the face in
# Emacs.
COLOURS: List[Row] = [
    [0, 0, 0, 1, "Number"],
    [0, 1, 0, 2, "Operator"],
    [0, 2, 0, 3, "Delimiter"],
    [0, 3, 0, 4, "Number"],
    [0, 4, 0, 5, "Delimiter"],
    [0, 6, 0, 7, "Operator"],
    [0, 7, 0, 8, "Number"],
    [0, 8, 0, 9, "Operator"],
    [0, 9, 0, 10, "Delimiter"],
    [0, 10, 0, 11, "Number"],
    [0, 11, 0, 12, "Operator"],
    [1, 0, 1, 1, "Number"],
    [1, 1, 1, 2, "Delimiter"],
]
# The same once `67+` was typed after the third number, and before the server has answered.
TYPED: List[Row] = [
    *COLOURS[:6],
    [0, 7, 0, 10, "Number"],
    [0, 11, 0, 12, "Operator"],
    [0, 12, 0, 13, "Delimiter"],
    [0, 13, 0, 14, "Number"],
    [0, 14, 0, 15, "Operator"],
    *COLOURS[11:],
]
