"""The samples of grammars/samples with faults put in, and what is printed then, worked out by hand."""

# The samples in grammars/samples. In each the first words are replaced by the second ones, and the
# line is printed then. The trees beside the samples were made by tests/oracles/trees.
SAMPLES = {
    "c.c": (
        "struct job;",
        "struct;",
        "8:6-8:7: unexpected SEMICOLON; expected LBRACE, ATTRIBUTE, NAME\n",
    ),
    "calculator.txt": (
        "2 * time",
        "2 * * time",
        "1:37-1:38: unexpected TIMES; expected LP, MINUS, NUMBER, NAME\n",
    ),
    "control.txt": (
        "Architecture: any",
        "Architecture any",
        "11:13-11:16: unexpected NAME; expected VALUE\n",
    ),
    "css.css": (
        "h2 ~ p",
        "h2 ~ ~ p",
        "14:37-14:38: unexpected TILDE; expected COLON, LBRACKET, DOT, TIMES, AMPERSAND, HASH, CUSTOM, NAME\n",
    ),
    "dot.dot": (
        "b -- c",
        "b -- -- c",
        "22:18-22:20: unexpected LINE; expected LBRACE, SUBGRAPH, NUMBER, STRING, HTML, NAME\n",
    ),
    "g0.txt": ("(4 + 5", "(4 5", "1:7-1:8: unexpected NUM; expected PLUS, RP\n"),
    "glsl.frag": (
        "sum += texture",
        "sum + = texture",
        "27:14-27:15: unexpected ASSIGN; expected LP, PLUS, MINUS, TILDE, NOT, INCREMENT, DECREMENT, BOOLEAN, TYPE, INTEGER, FLOATING, "
        "NAME\n",
    ),
    "go.go": (
        "= item, T(item)",
        "= item T(item)",
        "58:27-58:28: unexpected NAME; expected RBRACE, END, COMMA, LBRACE, LP, LBRACKET, DOT, OR, AND, COMPARE, PLUS, MINUS, BAR, "
        "CARET, TIMES, FACTOR, AMPERSAND\n",
    ),
    "graphql.graphql": (
        "{ name: String }",
        "{ name }",
        "33:30-33:31: unexpected RBRACE; expected COLON, LP\n",
    ),
    "ini.ini": ("mode = test", "mode test", "2:9-3:0: unexpected NEWLINE; expected VALUE\n"),
    "json.json": (
        '"nothing": {}',
        '"nothing" {}',
        "3:14-3:15: unexpected LBRACE; expected COLON\n",
    ),
    "lr.lr": (
        "fold Group",
        "fold Group Item",
        "19:11-19:15: unexpected NAME; expected NEWLINE, end\n",
    ),
    "lua.lua": ("::done::", "::done:", "23:10-23:11: unexpected COLON; expected LABEL\n"),
    "nginx.conf": (
        "return 405;",
        "return 405",
        "18:53-18:54: unexpected RBRACE; expected SEMICOLON, LBRACE, SECTION, VARIABLE, NUMBER, STRING, WORD\n",
    ),
    "proto.proto": ("shelf = 6", "shelf", "60:16-60:17: unexpected SEMICOLON; expected ASSIGN\n"),
    "scheme.scm": (
        "#\\a)",
        "#\\a . )",
        "14:54-14:55: unexpected RP; expected LP, VECTOR, QUOTE, HIDDEN, DEFINE, BOOLEAN, NUMBER, CHARACTER, STRING, KEYWORD, "
        "SYMBOL\n",
    ),
    "script.txt": (
        "let none;",
        "let none",
        "23:0-23:5: unexpected WHILE; expected SEMICOLON, ASSIGN\n",
    ),
    "settings.conf": (
        '"common.conf"; include',
        '"common.conf" include',
        "1:22-1:29: unexpected INCLUDE; expected NEWLINE, SEMICOLON, end\n",
    ),
    "sql.sql": (
        "DELETE FROM reader",
        "DELETE reader",
        "31:7-31:13: unexpected NAME; expected FROM\n",
    ),
    "toml.toml": (
        "debug = false",
        "debug = false title",
        "2:14-2:19: unexpected BARE; expected NEWLINE, end\n",
    ),
}

# Token rules that no production uses: they match what is faulty, and more of it than the others.
TRAPS = {"lua": ["BAD_NUMBER"]}

# A sample has each production of its grammar, but for these, where a text has one of several.
ALTERNATIVES = {
    "control": {"Last = Pair", "Last = Paragraph"},
    "go": {"File = END? PACKAGE NAME END?", "File = END? PACKAGE NAME END Last", "Last = Top"},
    "ini": {"File = Line* Entry", "LastSection = HEADER"},
    "proto": {"Field = BareType Slot SEMICOLON"},
    "graphql": {"Document = Open", "Closed = SelectionSet", "Open = Continued"},
    "lr": {
        "File = LRGRAMMAR_1 Line1* Entry1?",
        "Line1 = NEWLINE",
        "Line1 = Entry1 NEWLINE",
        "Entry1 = Entry",
        "Entry1 = Name EQUALS Name*",
        "Entry1 = Name EQUALS_AT_END",
    },
    "toml": {"Document = Line* Pair", "LastTable = Header"},
}

# Further faults of the samples, each for a rule of its language: the sample, the words that are
# replaced, those in their place, and what is printed then.
GRAPHQL_KEYWORDS = (
    "QUERY, MUTATION, SUBSCRIPTION, FRAGMENT, SCHEMA, SCALAR, TYPE, INTERFACE, UNION, ENUM, INPUT, DIRECTIVE, EXTEND, IMPLEMENTS, "
    "REPEATABLE"
)

C_OPERATORS = (
    "SEMICOLON, COMMA, LP, LBRACKET, QUESTION, OR, AND, BAR, CARET, AMPERSAND, EQUAL, UNEQUAL, AT_MOST, AT_LEAST, LESS, GREATER, "
    "SHIFT_LEFT, SHIFT_RIGHT, PLUS, MINUS, DIVIDE, MODULO, INCREMENT, DECREMENT, ARROW, DOT"
)

CSS_WORDS = (
    "COLON, COMMA, LP, LBRACKET, DOT, GREATER, PLUS, TILDE, TIMES, BAR, EQUAL, MATCH, MINUS, SLASH, AMPERSAND, OTHER, IMPORTANT, "
    "NUMBER, PERCENTAGE, DIMENSION, STRING, URL, URL_OF, HASH, FUNCTION, CUSTOM, NAME"
)

FURTHER_FAULTS = [
    # no comma stands after the last element
    (
        "json.json",
        "10E+2]",
        "10E+2, ]",
        "2:39-2:40: unexpected RBRACKET; expected LBRACE, LBRACKET, TRUE, FALSE, NULL, NUMBER, STRING\n",
    ),
    # a quotient can't be assigned to, and no product begins a statement
    (
        "c.c",
        "left = ticks / 2 - 1;",
        "left / 2 = ticks - 1;",
        f"43:21-43:22: unexpected ASSIGN; expected {C_OPERATORS}\n",
    ),
    (
        "c.c",
        "left = ticks / 2 - 1;",
        "left / 2 * ticks;",
        f"43:21-43:22: unexpected TIMES; expected {C_OPERATORS}\n",
    ),
    # a label's name, or what it is computed by
    ("c.c", "goto end;", "goto 7;", "54:13-54:14: unexpected INTEGER; expected TIMES, NAME\n"),
    # a call alone has its semicolon, where no block and no operator follows it
    (
        "c.c",
        "left = +ticks;",
        "left(ticks)",
        "42:8-42:12: unexpected ELSE; expected SEMICOLON, COMMA, LBRACE, LP, LBRACKET, ASSIGN, ADD_TO, SUBTRACT_FROM, MULTIPLY_BY, "
        "DIVIDE_BY, REDUCE_BY, SHIFT_LEFT_BY, SHIFT_RIGHT_BY, AND_WITH, XOR_WITH, OR_WITH, QUESTION, OR, AND, BAR, CARET, AMPERSAND, "
        "EQUAL, UNEQUAL, AT_MOST, AT_LEAST, LESS, GREATER, SHIFT_LEFT, SHIFT_RIGHT, PLUS, MINUS, DIVIDE, MODULO, INCREMENT, "
        "DECREMENT, ARROW, DOT, STRING\n",
    ),
    # a declaration begins with a name: a star begins the selector of a nested rule
    (
        "css.css",
        "margin: 0 auto",
        "*margin: 0 auto",
        "15:13-15:14: unexpected NUMBER; expected COLON, FUNCTION, CUSTOM, NAME\n",
    ),
    # a name and a colon begin a declaration, and no nested rule
    (
        "css.css",
        ".empty {}",
        ".empty { a:hover {} }",
        f"29:21-29:22: unexpected LBRACE; expected SEMICOLON, RBRACE, {CSS_WORDS}\n",
    ),
    # a number ends before a word
    (
        "lua.lua",
        "size = 0,",
        "size = 0cq,",
        "7:39-7:42: unexpected BAD_NUMBER; expected LP, LBRACE, FALSE, FUNCTION, NIL, NOT, TRUE, MINUS, LENGTH, TILDE, DOTS, NAME, "
        "DECIMAL, HEXADECIMAL, QUOTED, LONG0, LONG1, LONG2, LONG3\n",
    ),
    # a line that ends after an operand ends the statement: no brace stands at the beginning of the
    # next one
    (
        "go.go",
        "func make2() List[int] {",
        "func make2() List[int]\n{",
        "55:0-55:2: unexpected LBRACE; expected CONST, FUNC, IMPORT, TYPE, VAR, end\n",
    ),
    # before a block, a brace begins no literal
    (
        "go.go",
        "for range results {",
        "for range jobs{1} {",
        "85:19-86:1: unexpected LBRACE; expected RBRACE, END\n",
    ),
    # a keyword is no name
    (
        "dot.dot",
        "size = 7.5",
        "size = Node",
        "6:11-6:15: unexpected NODE; expected NUMBER, STRING, HTML, NAME\n",
    ),
    # what a brace after the head of a type begins
    (
        "graphql.graphql",
        "interface Named\n",
        "interface Named { name }\n",
        "18:23-18:24: unexpected RBRACE; expected COLON, LP\n",
    ),
    # a fragment is not named `on`, nor an enum's value like a truth value
    (
        "graphql.graphql",
        "fragment type on",
        "fragment on on",
        f"61:9-61:11: unexpected ON; expected {GRAPHQL_KEYWORDS}, TRUE, FALSE, NULL, NAME\n",
    ),
    (
        "graphql.graphql",
        "{ LONG }",
        "{ true }",
        f"35:24-35:28: unexpected TRUE; expected {GRAPHQL_KEYWORDS}, ON, STRING, BLOCK_STRING, NAME\n",
    ),
    # a default has no variables
    (
        "graphql.graphql",
        "Int = 10, $in",
        "Int = $in, $in",
        f"47:26-47:27: unexpected DOLLAR; expected LBRACE, LBRACKET, {GRAPHQL_KEYWORDS}, ON, TRUE, FALSE, NULL, INT, FLOAT, STRING, "
        "BLOCK_STRING, NAME\n",
    ),
    # a text after the name of a section, a name that isn't closed, and a line of a value that
    # doesn't begin with a blank
    ("ini.ini", "#2]", "#2] rest", "20:16-20:20: unexpected KEY; expected NEWLINE, end\n"),
    (
        "ini.ini",
        '"spare"]',
        '"spare"',
        "22:0-22:1: unexpected invalid; expected NEWLINE, HEADER, KEY, end\n",
    ),
    ("ini.ini", "    /srv/ftp", "/srv/ftp", "11:8-12:0: unexpected NEWLINE; expected VALUE\n"),
    # without a label no type begins with a word that begins a statement
    (
        "proto.proto",
        ".depot.v1.Unit ship",
        "message ship",
        "62:4-62:11: unexpected MESSAGE; expected RBRACE, DOT, SYNTAX, IMPORT, WEAK, PUBLIC, PACKAGE, OPTION, MAP, GROUP, TO, MAX, "
        "SERVICE, RPC, RETURNS, STREAM, NOT_FINITE, NAME\n",
    ),
    # names and numbers are reserved apart from each other
    ("proto.proto", '"OLD"', '"OLD", 7', "71:20-71:21: unexpected INTEGER; expected STRING\n"),
    # a number in braces has a colon before it
    (
        "proto.proto",
        "most: 500",
        "most 500",
        "13:7-13:10: unexpected INTEGER; expected COLON, LBRACE, LBRACKET, LESS\n",
    ),
    # a line ends after an operator, and not before it, nor before `else`
    (
        "settings.conf",
        "q and\n",
        "q\n        and ",
        "37:8-37:11: unexpected AND; expected RBRACE, NEWLINE, SEMICOLON, IF, INCLUDE, NAME\n",
    ),
    (
        "settings.conf",
        "} else {",
        "}\nelse {",
        "30:0-30:4: unexpected ELSE; expected NEWLINE, SEMICOLON, IF, INCLUDE, NAME, end\n",
    ),
    # AND belongs to BETWEEN
    (
        "sql.sql",
        "BETWEEN 10 AND 20",
        "BETWEEN 10 OR 20",
        "45:27-45:29: unexpected OR; expected LBRACKET, CONCAT, PLUS, MINUS, TIMES, DIVIDE, MODULO, TYPED, OPERATOR, AND, COLLATE, "
        "ESCAPE\n",
    ),
    # a reserved word is no name
    (
        "sql.sql",
        "(\n    id INTEGER",
        "(\n    order INTEGER",
        "2:4-2:9: unexpected ORDER; expected CHECK, CONSTRAINT, FOREIGN, INDEX, LIKE, PRIMARY, UNIQUE, KEY, COMMAND, NAME\n",
    ),
    # An escape is no surrogate, and no carriage return stands alone. A string with such a fault is
    # no token; two quotes are.
    (
        "toml.toml",
        "\\uD7FF",
        "\\uD800",
        "1:8-1:9: unexpected invalid; expected LBRACKET, LBRACE, TRUE, FALSE, INTEGER, FLOAT, TIME, DATE, BASIC, LITERAL, LINES, "
        "LITERAL_LINES\n",
    ),
    (
        "toml.toml",
        'Two "lines"',
        'Two\r"lines"',
        "16:10-16:11: unexpected invalid; expected NEWLINE, end\n",
    ),
    (
        "toml.toml",
        "'literal' lines",
        "'literal'\rlines",
        "19:9-19:10: unexpected invalid; expected NEWLINE, end\n",
    ),
]
