"""Texts by grammars whose right sides have marked words, and what is printed of them.

`ROWS` are written out. In `PAIRS` each grammar stands twice: with marks, and with the productions
of the marked words by hand, after all others. Both give the same tree, but for the names of those
nonterminals; what the trees are is taken from tests/oracles/trees.
"""

import re

HEAD = 'lrgrammar 2\ntoken A = "a"\ntoken B = "b"\nstart S\n'

# A production after the head, a text, what is printed of it, and the status.
ROWS = [
    ("S = A* B?", "aab", "(S (A* (A* (A*) A) A) (B? B))", 0),
    ("S = A* B?", "", "(S (A*) (B?))", 0),
    ("S = A* B?", "ba", "0:1-0:2: unexpected A; expected end", 1),
    ("S = A* A", "aa", "(S (A* (A*) A) A)", 0),
    ("S = A+ B", "aab", "(S (A+ (A+ A) A) B)", 0),
    ("S = A+ B", "b", "0:0-0:1: unexpected B; expected A", 1),
    ("S = A+", "", "0:0-0:0: unexpected end; expected A", 1),
    ("S = A? B A?", "b", "(S (A?) B (A?))", 0),
]

JSON_RULES = r"""token STRING = "\"" ([^"\\\u{0}-\u{1F}] | "\\" (["\\/bfnrt] | "u" [0-9a-fA-F] [0-9a-fA-F] [0-9a-fA-F] [0-9a-fA-F]))* "\""
token NUMBER = "-"? ("0" | [1-9] [0-9]*) ("." [0-9]+)? ([eE] [+\-]? [0-9]+)?
token TRUE = "true"
token FALSE = "false"
token NULL = "null"
token LBRACE = "{"
token RBRACE = "}"
token LBRACKET = "["
token RBRACKET = "]"
token COLON = ":"
token COMMA = ","
skip WS = [ \t\r\n]+
start Value
Value = STRING
Value = NUMBER
Value = TRUE
Value = FALSE
Value = NULL
Value = Object
Value = Array
Member = STRING COLON Value
NextMember = COMMA Member
NextValue = COMMA Value
"""

JSON_WITH_MARKS = """Object = LBRACE Members? RBRACE
Members = Member NextMember*
Array = LBRACKET Values? RBRACKET
Values = Value NextValue*
"""

JSON_BY_HAND = """Object = LBRACE MaybeMembers RBRACE
Members = Member NextMembers
Array = LBRACKET MaybeValues RBRACKET
Values = Value NextValues
MaybeMembers =
MaybeMembers = Members
NextMembers =
NextMembers = NextMembers NextMember
MaybeValues =
MaybeValues = Values
NextValues =
NextValues = NextValues NextValue
"""

SCRIPT_RULES = r"""token LOCAL = "local"
token IF = "if"
token THEN = "then"
token ELSEIF = "elseif"
token ELSE = "else"
token END = "end"
token FUNCTION = "function"
token RETURN = "return"
token PRINT = "print"
token NAME = [a-zA-Z_] [a-zA-Z_0-9]*
token NUMBER = [0-9]+
token EQUALS = "="
token PLUS = "+"
token COMMA = ","
token SEMICOLON = ";"
token LP = "("
token RP = ")"
skip WS = [ \t\r\n]+
skip COMMENT = "--" [^\n]*
start Block
fold Function
Last = RETURN Sum
Value = EQUALS Sum
ElseIf = ELSEIF Sum THEN Block
Else = ELSE Block
NextName = COMMA NAME
Statement = NAME Value
Statement = SEMICOLON
Statement = Function
Sum = Sum PLUS Term
Sum = Term
Term = NAME
Term = NUMBER
Term = LP Sum RP
"""

SCRIPT_WITH_MARKS = """Block = Statement* Last?
Statement = LOCAL NAME Value?
Statement = IF Sum THEN Block ElseIf* Else? END
Function = FUNCTION NAME LP Names? RP Block END
Names = NAME NextName*
Statement = PRINT Term+ SEMICOLON
"""

SCRIPT_BY_HAND = """Block = Statements MaybeLast
Statement = LOCAL NAME MaybeValue
Statement = IF Sum THEN Block ElseIfs MaybeElse END
Function = FUNCTION NAME LP MaybeNames RP Block END
Names = NAME NextNames
Statement = PRINT Terms SEMICOLON
Statements =
Statements = Statements Statement
MaybeLast =
MaybeLast = Last
MaybeValue =
MaybeValue = Value
ElseIfs =
ElseIfs = ElseIfs ElseIf
MaybeElse =
MaybeElse = Else
MaybeNames =
MaybeNames = Names
NextNames =
NextNames = NextNames NextName
Terms = Term
Terms = Terms Term
"""

# The names by hand of marked words.
MARKED = {
    "MaybeMembers": "Members?",
    "NextMembers": "NextMember*",
    "MaybeValues": "Values?",
    "NextValues": "NextValue*",
    "Statements": "Statement*",
    "MaybeLast": "Last?",
    "MaybeValue": "Value?",
    "ElseIfs": "ElseIf*",
    "MaybeElse": "Else?",
    "MaybeNames": "Names?",
    "NextNames": "NextName*",
    "Terms": "Term+",
}

SCRIPT = """-- sums
local total
local count = 1
function add(a, b)
    if a then
        return a + (b + 1)
    elseif b then
        total = b;
    elseif count then
    else
        print a b 3;
    end
end
function nothing()
end
return total + count
"""

JSON = '{"a": [1, 2.5e3, [], {}], "b": {"c": null, "d": true}, "e": "f"}'

# The rules, the productions with marks, the same by hand, and a text.
PAIRS = [
    (JSON_RULES, JSON_WITH_MARKS, JSON_BY_HAND, JSON),
    (JSON_RULES, JSON_WITH_MARKS, JSON_BY_HAND, "[]"),
    (SCRIPT_RULES, SCRIPT_WITH_MARKS, SCRIPT_BY_HAND, SCRIPT),
    (SCRIPT_RULES, SCRIPT_WITH_MARKS, SCRIPT_BY_HAND, ""),
]

# A small object, and its tree.
OBJECT = '{"a": [], "b": [1, 2]}'
TREE_OF_OBJECT = (
    "(Value (Object LBRACE (Members? (Members "
    "(Member STRING COLON (Value (Array LBRACKET (Values?) RBRACKET))) "
    "(NextMember* (NextMember*) (NextMember COMMA (Member STRING COLON (Value (Array LBRACKET "
    "(Values? (Values (Value NUMBER) (NextValue* (NextValue*) (NextValue COMMA (Value NUMBER))))) "
    "RBRACKET))))))) RBRACE))"
)


def with_marked_names(tree: str) -> str:
    """The tree by hand with the names of the marked words."""
    return re.sub(r"\w+", lambda word: MARKED.get(word.group(), word.group()), tree)
