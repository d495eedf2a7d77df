"""Grammar files with a fault of form, and what is printed of them as texts by grammars/lr.lr.

What is expected where was worked out from the lines that a grammar file may have, in the order of
the rules of grammars/lr.lr.
"""

ONE = "lrgrammar 1\n"
TWO = "lrgrammar 2\n"

# What may stand at the beginning of a line, what after a symbol of a right side in each version,
# and the parts of a pattern: at its beginning, after a part with a mark, after one without, and the
# same in parentheses.
LINE = "NEWLINE, TOKEN, SKIP, START, FOLD, NAME, COMMENT, end"
SYMBOL1 = "NEWLINE, TOKEN, SKIP, START, FOLD, NAME, end"
SYMBOL2 = "NEWLINE, TOKEN, SKIP, START, FOLD, NAME, MARKED, end"
ATOM = "LP, LITERAL, CLASS"
REPEATED = "NEWLINE, BAR, LP, LITERAL, CLASS, end"
PART = "NEWLINE, BAR, STAR, PLUS, QUESTION, LP, LITERAL, CLASS, end"
INNER = "RP, BAR, STAR, PLUS, QUESTION, LP, LITERAL, CLASS"

FAULTS = [
    # the first line
    ("", "0:0-0:0: unexpected end; expected LRGRAMMAR_1, LRGRAMMAR_2"),
    ("\n" + ONE, "0:0-1:0: unexpected NEWLINE; expected LRGRAMMAR_1, LRGRAMMAR_2"),
    ("lrgrammar 1 \n", "0:0-0:9: unexpected NAME; expected LRGRAMMAR_1, LRGRAMMAR_2"),
    ("lrgrammar 3\n", "0:0-0:9: unexpected NAME; expected LRGRAMMAR_1, LRGRAMMAR_2"),
    ("# sums\n" + ONE, "0:0-0:6: unexpected COMMENT; expected LRGRAMMAR_1, LRGRAMMAR_2"),
    ("\ufeff" + ONE, "0:0-0:1: unexpected invalid; expected LRGRAMMAR_1, LRGRAMMAR_2"),
    # productions
    (TWO + "S = A | B", f"1:6-1:7: unexpected BAR; expected {SYMBOL2}"),
    (TWO + "S = A\n  | B\n", f"2:2-2:3: unexpected BAR; expected {LINE}"),
    (TWO + 'S = A "+" A\n', f"1:6-1:9: unexpected LITERAL; expected {SYMBOL2}"),
    (TWO + "S = (A B)*\n", f"1:4-1:5: unexpected LP; expected {SYMBOL2}"),
    (TWO + "S = A *\n", f"1:6-1:7: unexpected STAR; expected {SYMBOL2}"),
    (TWO + "S = A?*\n", f"1:6-1:7: unexpected STAR; expected {SYMBOL2}"),
    (TWO + "S = A # a comment\n", f"1:6-1:17: unexpected COMMENT; expected {SYMBOL2}"),
    (TWO + "S = A;\n", f"1:5-1:6: unexpected invalid; expected {SYMBOL2}"),
    (ONE + "S = A*\n", f"1:4-1:6: unexpected MARKED; expected {SYMBOL1}"),
    (ONE + "S=A\n", "1:1-1:2: unexpected invalid; expected EQUALS, EQUALS_AT_END"),
    (ONE + "S =A\n", "1:3-1:4: unexpected NAME; expected NEWLINE, end"),
    (ONE + "S -> A\n", "1:2-1:3: unexpected invalid; expected EQUALS, EQUALS_AT_END"),
    (ONE + "S A\n", "1:2-1:3: unexpected NAME; expected EQUALS, EQUALS_AT_END"),
    (ONE + "my-rule = A\n", "1:2-1:3: unexpected invalid; expected EQUALS, EQUALS_AT_END"),
    (ONE + "S = A\r", f"1:5-2:0: unexpected invalid; expected {SYMBOL1}"),
    (TWO + "S? = A\n", f"1:0-1:2: unexpected MARKED; expected {LINE}"),
    # rules, `start` and `fold`
    (ONE + "token A [0-9]\n", "1:8-1:13: unexpected CLASS; expected EQUALS"),
    (ONE + 'token A ="a"\n', "1:7-1:9: unexpected EQUALS_AT_END; expected EQUALS"),
    (ONE + "token A =\n", "1:7-1:9: unexpected EQUALS_AT_END; expected EQUALS"),
    (ONE + "token A = \n", f"1:10-2:0: unexpected NEWLINE; expected {ATOM}"),
    (ONE + "start A B\n", "1:8-1:9: unexpected NAME; expected NEWLINE, end"),
    (ONE + "fold A B\n", "1:7-1:8: unexpected NAME; expected NEWLINE, end"),
    (
        ONE + "start\n",
        "1:5-2:0: unexpected NEWLINE; expected EQUALS, EQUALS_AT_END, TOKEN, SKIP, START, FOLD, NAME",
    ),
    (
        ONE + "fold A*\n",
        "1:5-1:7: unexpected MARKED; expected EQUALS, EQUALS_AT_END, TOKEN, SKIP, START, FOLD, NAME",
    ),
    # patterns
    (ONE + "token A = 'a'\n", f"1:10-1:11: unexpected invalid; expected {ATOM}"),
    (ONE + "token A = a\n", f"1:10-1:11: unexpected NAME; expected {ATOM}"),
    (ONE + "token A = \\d\n", f"1:10-1:11: unexpected invalid; expected {ATOM}"),
    (ONE + "token A = [+-]? [0-9]\n", f"1:10-1:11: unexpected invalid; expected {ATOM}"),
    (ONE + "token A = [0-9]{4}\n", f"1:15-1:16: unexpected invalid; expected {PART}"),
    (ONE + 'token A = "a" # a letter\n', f"1:14-1:24: unexpected COMMENT; expected {PART}"),
    (ONE + 'token A = "a"i\n', f"1:13-1:14: unexpected NAME; expected {PART}"),
    (ONE + 'token A = "a"**\n', f"1:14-1:15: unexpected STAR; expected {REPEATED}"),
    (ONE + 'token A = "a" |\n', f"1:15-2:0: unexpected NEWLINE; expected {ATOM}"),
    (ONE + 'token A = ("a"\n', f"1:14-2:0: unexpected NEWLINE; expected {INNER}"),
    (ONE + 'token A = "a\n', f"1:10-1:11: unexpected invalid; expected {ATOM}"),
    (ONE + 'token A = "\\x41"\n', f"1:10-1:11: unexpected invalid; expected {ATOM}"),
    (ONE + 'token A = "a" ""\n', f"1:14-1:15: unexpected invalid; expected {PART}"),
]
