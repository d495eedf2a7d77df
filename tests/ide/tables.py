"""What `lrls-ide` has to say of three samples, worked out by hand, and its messages."""

from typing import Dict, List, Optional, Tuple

from tests.ide.client import Entry, Span

# Each line of a sample, and below it a letter for each unit that has a colour.
LETTERS = {
    "k": "keyword",
    "v": "variable",
    "p": "property",
    "n": "number",
    "s": "string",
    "o": "operator",
    "c": "comment",
}

COLOURS = {
    "json.json": r"""
{

    "name": "lrls",
    ssssss  ssssss
    "versions": [1, 2.5e-3, -0, 10E+2],
    ssssssssss   n  nnnnnn  nn  nnnnn
    "nothing": {},
    sssssssss
    "empty": [],
    sssssss
    "quote": "\"\\\/\b\f\n\r\t\u00e9 é 😀",
    sssssss  sssssssssssssssssssssssssssss
    "flags": [true, false, null, [[]]]
    sssssss   kkkk  kkkkk  kkkk
}

""",
    "toml.toml": "\n".join(
        [
            "",
            "# A server's configuration",
            "cccccccccccccccccccccccccc",
            'title = "An example: \\"quoted\\", \\u00e9, \\uD7FF, \\U0010FFFF, 😀"',
            "ppppp o ssssssssssssssssssssssssssssssssssssssssssssssssssssssss",
            "debug = false",
            "ppppp o kkkkk",
            "",
            "",
            "[owner]",
            " ppppp",
            "name = 'C:\\no escapes'",
            "pppp o sssssssssssssss",
            "born = 1979-05-27T07:32:00-08:00",
            "pppp o nnnnnnnnnnnnnnnnnnnnnnnnn",
            "day = 1979-05-27",
            "ppp o nnnnnnnnnn",
            '"full name".short = "T."',
            "sssssssssss ppppp o ssss",
            "",
            "",
            "[database]",
            " pppppppp",
            "ports = [8000, 8_001,",
            "ppppp o  nnnn  nnnnn",
            "    0x1F40,  # the last one",
            "    nnnnnn   cccccccccccccc",
            "]",
            "",
            'limits = { low = -1.5e3, high = +inf, "in between" = [[1, 2], []] }',
            "pppppp o   ppp o nnnnnn  pppp o nnnn  ssssssssssss o   n  n",
            "start = 07:32:00.999",
            "ppppp o nnnnnnnnnnnn",
            'about = """',
            "ppppp o sss",
            'Two "lines", and \\',
            "ssssssssssssssssss",
            'one that goes on with a quote""""',
            "sssssssssssssssssssssssssssssssss",
            "path = '''",
            "pppp o sss",
            "'literal' lines'''",
            "ssssssssssssssssss",
            "",
            "",
            "[[server]]",
            "  pppppp",
            'name = "alpha"',
            "pppp o sssssss",
            "",
            "",
            "[[server]]",
            "  pppppp",
            'name = "beta"',
            "pppp o ssssss",
            "tags.first = true",
            "pppp ppppp o kkkk",
            "'a key' = {}",
            "sssssss o",
            'role = "backend"',
            "pppp o sssssssss",
            "",
        ]
    ),
    "script.txt": r"""
// Counts the words of a text.
cccccccccccccccccccccccccccccc
fn count(text, stop) {
kk vvvvv vvvv  vvvv
    let words = [];
    kkk vvvvv o
    let word = "";
    kkk vvvv o ss
    for letter in text {
    kkk vvvvvv kk vvvv
        if letter == " " or letter == "\n" {
        kk vvvvvv oo sss oo vvvvvv oo ssss
            if not is_empty(word) {
            kk ooo vvvvvvvv vvvv
                words.push(word);
                vvvvv vvvv vvvv
                word = "";
                vvvv o ss
            }

        } else if letter != stop {
          kkkk kk vvvvvv oo vvvv
            word = word + letter; /* one letter
            vvvv o vvvv o vvvvvv  ccccccccccccc
                                     at a time **/
cccccccccccccccccccccccccccccccccccccccccccccccccc
        } else {
          kkkk
            break;
            kkkkk
        }

    }

    return words;
    kkkkkk vvvvv
}



let limits = [1, -2.5e3 * (3 + 4) / 2 % 5];
kkk vvvvvv o  n  onnnnn o  n o n  o n o n
limits[0] = fn (x) { return x >= 10 and x <= 20; };
vvvvvv n  o kk  v    kkkkkk v oo nn ooo v oo nn
let none;
kkk vvvv
while limits[0](15) {
kkkkk vvvvvv n  nn
    print(count("one two\u{21}", nil).length, true);
    vvvvv vvvvv sssssssssssssss  kkk  vvvvvv  kkkk
    limits[1] = false;
    vvvvvv n  o kkkkk
    return;
    kkkkkk
}

let narrow = limits.length - 1 < 3 and limits[0](5) > nil;
kkk vvvvvv o vvvvvv vvvvvv o n o n ooo vvvvvv n  n  o kkk
""",
}

# A depth, a kind, a name, the range, and the name's range.
FUNCTION, VARIABLE, PROPERTY, NAMESPACE = 12, 13, 7, 3
OUTLINES: Dict[str, List[Entry]] = {
    "json.json": [
        (0, PROPERTY, "name", (1, 4, 1, 18), (1, 4, 1, 10)),
        (0, PROPERTY, "versions", (2, 4, 2, 38), (2, 4, 2, 14)),
        (0, PROPERTY, "nothing", (3, 4, 3, 17), (3, 4, 3, 13)),
        (0, PROPERTY, "empty", (4, 4, 4, 15), (4, 4, 4, 11)),
        (0, PROPERTY, "quote", (5, 4, 5, 42), (5, 4, 5, 11)),
        (0, PROPERTY, "flags", (6, 4, 6, 38), (6, 4, 6, 11)),
    ],
    "toml.toml": [
        (0, PROPERTY, "title", (1, 0, 1, 64), (1, 0, 1, 5)),
        (0, PROPERTY, "debug", (2, 0, 2, 13), (2, 0, 2, 5)),
        (0, NAMESPACE, "owner", (4, 0, 10, 0), (4, 1, 4, 6)),
        (1, PROPERTY, "name", (5, 0, 5, 22), (5, 0, 5, 4)),
        (1, PROPERTY, "born", (6, 0, 6, 32), (6, 0, 6, 4)),
        (1, PROPERTY, "day", (7, 0, 7, 16), (7, 0, 7, 3)),
        (1, PROPERTY, '"full name".short', (8, 0, 8, 24), (8, 0, 8, 17)),
        (0, NAMESPACE, "database", (10, 0, 22, 0), (10, 1, 10, 9)),
        (1, PROPERTY, "ports", (11, 0, 13, 1), (11, 0, 11, 5)),
        (1, PROPERTY, "limits", (14, 0, 14, 67), (14, 0, 14, 6)),
        (2, PROPERTY, "low", (14, 11, 14, 23), (14, 11, 14, 14)),
        (2, PROPERTY, "high", (14, 25, 14, 36), (14, 25, 14, 29)),
        (2, PROPERTY, "in between", (14, 38, 14, 65), (14, 38, 14, 50)),
        (1, PROPERTY, "start", (15, 0, 15, 20), (15, 0, 15, 5)),
        (1, PROPERTY, "about", (16, 0, 18, 33), (16, 0, 16, 5)),
        (1, PROPERTY, "path", (19, 0, 20, 18), (19, 0, 19, 4)),
        (0, NAMESPACE, "server", (22, 0, 25, 0), (22, 2, 22, 8)),
        (1, PROPERTY, "name", (23, 0, 23, 14), (23, 0, 23, 4)),
        (0, NAMESPACE, "server", (25, 0, 29, 16), (25, 2, 25, 8)),
        (1, PROPERTY, "name", (26, 0, 26, 13), (26, 0, 26, 4)),
        (1, PROPERTY, "tags.first", (27, 0, 27, 17), (27, 0, 27, 10)),
        (1, PROPERTY, "a key", (28, 0, 28, 12), (28, 0, 28, 7)),
        (1, PROPERTY, "role", (29, 0, 29, 16), (29, 0, 29, 4)),
    ],
    "script.txt": [
        (0, FUNCTION, "count", (1, 0, 18, 1), (1, 3, 1, 8)),
        (1, VARIABLE, "words", (2, 4, 2, 19), (2, 8, 2, 13)),
        (1, VARIABLE, "word", (3, 4, 3, 18), (3, 8, 3, 12)),
        (0, VARIABLE, "limits", (20, 0, 20, 43), (20, 4, 20, 10)),
        (0, VARIABLE, "none", (22, 0, 22, 9), (22, 4, 22, 8)),
        (0, VARIABLE, "narrow", (28, 0, 28, 58), (28, 4, 28, 10)),
    ],
}

# A language, a text, the message of its fault, and what the related information lists, where it is
# there.
BLANKS = '"=" with a blank on both sides'
OPERATORS = (
    '";" (SEMICOLON), "(" (LP), "[" (LBRACKET), "." (DOT), "and" (AND), "or" (OR), "==" (EQUAL), "!=" (UNEQUAL), '
    '"<=" (AT_MOST), ">=" (AT_LEAST), "<" (LESS), ">" (GREATER), "+" (PLUS), "-" (MINUS), "*" (TIMES), "/" (OVER), "%" (MODULO)'
)
MESSAGES: List[Tuple[str, str, str, Optional[str]]] = [
    (
        "script",
        "let a = 1\nlet b = 2;",
        'unexpected "let"; expected ";", "(", "[", "." or an operator',
        OPERATORS,
    ),
    ("script", "let = 1;", 'unexpected "="; expected a name', None),
    ("script", "let x", 'unexpected end of the text; expected ";" or "="', None),
    ("script", "let ?", 'unexpected "?", which begins no token; expected a name', None),
    ("script", "let \x01", "unexpected U+0001, which begins no token; expected a name", None),
    (
        "script",
        "x 12345678901234567890123456789012",
        'unexpected "123456789012345678901234567890.."; expected ',
        OPERATORS.replace("(DOT), ", '(DOT), "=" (ASSIGN), '),
    ),
    ("json", "[1 2]", 'unexpected "2"; expected "," or "]"', None),
    ("json", '[1 "a"]', 'unexpected \'"a"\'; expected "," or "]"', None),
    (
        "json",
        "",
        'unexpected end of the text; expected "{", "[", "true", "false", "null", a number, ..',
        '"{" (LBRACE), "[" (',
    ),
    (
        "toml",
        "a = 1 b",
        'unexpected "b"; expected the end of the line or the end of the text',
        None,
    ),
    ("toml", "a\n", 'unexpected the end of the line; expected "." or "="', None),
    ("sql", "DELETE x", 'unexpected "x"; expected "FROM"', None),
    ("g0", "1 2", 'unexpected "2"; expected "+" or the end of the text', None),
    ("g0", "(", 'unexpected end of the text; expected NUM or "("', None),
    (
        "lr",
        "lrgrammar 2\nS=A\n",
        f'unexpected "=", which begins no token; expected {BLANKS}',
        None,
    ),
    (
        "lr",
        "lrgrammar 2\nS -> A\n",
        f'unexpected "-", which begins no token; expected {BLANKS}',
        None,
    ),
]

# A line that is none of a grammar file, or has a pattern that is none, and what is said of it.
MISTAKES: List[Tuple[str, str]] = [
    ("S=A", '"=" needs a blank on both sides'),
    ("S =A", '"=" needs a blank on both sides'),
    ('token X="x"', '"=" needs a blank on both sides'),
    ("S -> A", 'a production is written with "="'),
    ("S : A ;", 'a production is written with "="'),
    ("S ::= A", 'a production is written with "="'),
    ("S = A | B", "a production has no |"),
    ("  | B", "no line goes on in the next one"),
    ('S = "a"', "a production has names alone"),
    ("S = A (B C)*", "a production has no groups"),
    ("S = A [B]", "a production has no brackets"),
    ("S = A;", "a line ends without ;"),
    ("S = A # first", "a comment begins with #"),
    ("// first", "a comment begins with #"),
    ("S = A *", "a mark comes right after the name"),
    ("fold S T", "this is no line of a grammar file"),
    ("token X = [0-9]{4}", "P1: the pattern can't go on like this"),
    ('token X = "a" []', "P2: the class has no characters"),
    ("token X = [z-a]", "P3: the range is the wrong way round"),
    ('token X = "a" ""', "P4: the literal has no characters"),
    ("token X = [0-9]*", "P5: the pattern matches the empty text"),
]

# A language, a text with `|` at the cursor, and what is offered there.
OFFERS: List[Tuple[str, str, List[str]]] = [
    (
        "script",
        "|",
        [
            "(",
            "[",
            "let",
            "fn",
            "if",
            "while",
            "for",
            "return",
            "break",
            "true",
            "false",
            "nil",
            "not",
            "-",
        ],
    ),
    ("script", "fn f() { le|", ["let"]),
    ("script", "fo|r x in y {}", ["for"]),
    ("script", "// fo|", []),
    ("script", 'let x = "fo|";', []),
    ("script", "let |", []),
    ("script", "let x|", []),
    ("script", "let x |", [";", "="]),
    ("script", "let ? = 1; le|", ["let"]),
    ("script", "let ? = 1; let x |", [";", "="]),
    ("json", '{"a": t|}', ["true"]),
    ("json", "[1|]", []),
    ("json", "[1 |]", [",", "]"]),
    ("sql", "select a fr|", ["from"]),
    ("sql", "SELECT a FR|", ["FROM"]),
    ("lua", "if x th|", ["then"]),
]

# The forms of hovers that an editor names, and the one that it gets.
FORMS: List[Tuple[Optional[List[str]], str]] = [
    (["markdown", "plaintext"], "markdown"),
    (["plaintext", "markdown"], "plaintext"),
    ([], "plaintext"),
    (None, "plaintext"),
]

# A text in script.lr with `|` at the pointer, and how its hover text begins in Markdown: the token, what
# it is called, its colour, its rule, and the nodes around it.
HOVERS: List[Tuple[str, str]] = [
    (
        "|let x = f(1); // done",
        '**"let"** keyword\n\nLET in Statement in Statement* in Program',
    ),
    ("let |x = f(1); // done", '**"x"** a name, variable\n\nNAME in Statement in Statement* in '),
    ("let x = f(1); //| done", '**"// done"** comment\n\nCOMMENT, skipped: it is in no node'),
    ("let x = f(1); // done\n? |y", '**"y"** a name, variable\n\nNAME in Place in '),
    ("let x = 1;\n|? y", '**unexpected "?", which begins no token**\n\nExpected here:\n- "("'),
]

# A text in script.lr with `|` at the cursor, and the ranges of the two brackets.
BRACKETS: List[Tuple[str, List[Span]]] = [
    ("fn f|() {}", [(0, 4, 0, 5), (0, 5, 0, 6)]),
    ("fn f(|) {}", [(0, 4, 0, 5), (0, 5, 0, 6)]),
    ("fn f() |{\n}", [(0, 7, 0, 8), (1, 0, 1, 1)]),
    ("x = [1, |[2]];", [(0, 8, 0, 9), (0, 10, 0, 11)]),
    ("x = [1, [2]]|;", [(0, 4, 0, 5), (0, 11, 0, 12)]),
    ("f(1); f(|", []),
    ("f|oo();", []),
    ("f(1); g(|2); ?", [(0, 7, 0, 8), (0, 9, 0, 10)]),
    ("x 1; g(|2);", [(0, 6, 0, 7), (0, 8, 0, 9)]),
    ("f([|1 2);", []),
]
