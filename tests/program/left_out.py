"""Samples of grammars/ in which one word is left out: the list of what is expected has to begin
with this word.

That is what the order of the rules in a grammar file is for, since an editor often shows only the
beginning of a long message.
"""

import re

# The sample, the words that are replaced, those in their place, and the rule of the word that is
# left out.
ROWS = [
    ("c.c", "left = ticks / 2 - 1;", "left = ticks / 2 - 1", "SEMICOLON"),
    ("calculator.txt", "0.25)", "0.25", "RP"),
    ("control.txt", "Source: parts\n", "Source: parts\n: more\n", "NEWLINE"),
    ("css.css", "0.25rem)", "0.25rem", "RP"),
    ("dot.dot", "fontsize=10]", "fontsize=10", "RBRACKET"),
    ("glsl.frag", "bits -= 1;", "bits -= 1", "SEMICOLON"),
    ("go.go", "each(value)\n", "each(value\n", "RP"),
    ("go.go", "T(item)\n", "T(item) item\n", "RBRACE"),
    ("graphql.graphql", "{ name: String }", "{ name String }", "COLON"),
    ("ini.ini", "mode = test", "mode", "VALUE"),
    ("json.json", '"nothing": {},', '"nothing": {}', "COMMA"),
    ("lr.lr", "start Drawing\n", "start Drawing ", "NEWLINE"),
    ("lua.lua", "if i <= 2 then break end", "if i <= 2 then break", "END"),
    ("lua.lua", "if value == nil then", "if value == nil", "THEN"),
    ("nginx.conf", "return 405;", "return 405", "SEMICOLON"),
    ("proto.proto", "string shelf = 6;", "string shelf = 6", "SEMICOLON"),
    ("scheme.scm", "(quote (define is a word))", "(quote (define is a word)", "RP"),
    ("script.txt", "let words = [];", "let words = []", "SEMICOLON"),
    ("script.txt", "(3 + 4)", "(3 + 4", "RP"),
    ("settings.conf", ".mean\n    )", ".mean\n", "RP"),
    ("sql.sql", "NUMERIC(10, 2)", "NUMERIC(10, 2", "RP"),
    ("toml.toml", "debug = false", "debug false", "EQUALS"),
]


def leads(rule: str, printed: str) -> bool:
    """Whether a fault's list of expected tokens begins with this one."""
    return re.search(rf"; expected {rule}(, .*)?\n$", printed) is not None
