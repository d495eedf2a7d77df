"""What each language's settings give its words and names, worked out by hand from its sample; what
an offer says of itself; and places in each unit.
"""

import os
from typing import Any, Dict, Iterator, List, Tuple

from tests import TOP
from tests.common.cases import Cases
from tests.ide.client import CAPABILITIES, Client, coloured, outlined

URI = "a:text"
SAMPLES = os.path.join(TOP, "grammars", "samples")
# Kinds of symbols, and of what is offered, by the protocol's numbers.
MODULE, NAMESPACE, PACKAGE, CLASS, PROPERTY, FIELD, ENUM, INTERFACE = 2, 3, 4, 5, 7, 8, 10, 11
FUNCTION, VARIABLE, CONSTANT, MEMBER, STRUCT, EVENT, PARAMETER = 12, 13, 14, 22, 23, 24, 26
KEYWORD, OPERATOR = 14, 24

# For each language its sample, the sign of a comment to the end of the line, words with their
# colours, and names with their kinds.
Row = Tuple[str, str, Dict[str, str], Dict[str, int]]
LANGUAGES: Dict[str, Row] = {
    "c": (
        "c.c",
        "//",
        {"goto": "keyword", "struct": "keyword", "16": "number", "'a'": "string", "=": "operator"},
        {"state": ENUM, "WAITING": MEMBER, "value": STRUCT, "whole": FIELD},
    ),
    "calculator": (
        "calculator.txt",
        "#",
        {"start": "variable", "+": "operator", "1.5": "number", "^": "operator"},
        {},
    ),
    "control": (
        "control.txt",
        "#",
        {"Source": "property", ": parts": "string", "# Who looks after it": "comment"},
        {"Source": PROPERTY, "Build-Depends": PROPERTY},
    ),
    "css": (
        "css.css",
        "",
        {
            '"utf-8"': "string",
            "base": "property",
            "40em": "number",
            "--accent": "variable",
            "#first": "class",
            "calc(": "function",
        },
        {":root": CLASS, "--accent": PROPERTY, "@layer base, parts": NAMESPACE},
    ),
    "dot": (
        "dot.dot",
        "#",
        {
            "digraph": "keyword",
            "Edge": "keyword",
            "rankdir": "variable",
            "->": "operator",
            '"text"': "string",
            "-.5": "number",
        },
        {"reading": NAMESPACE, "rankdir": PROPERTY},
    ),
    "g0": ("g0.txt", "", {"1": "number", "+": "operator"}, {}),
    "glsl": (
        "glsl.frag",
        "//",
        {
            "#version 330 core": "macro",
            "precision": "keyword",
            "vec3": "type",
            "location": "variable",
            "0.25": "number",
            "&": "operator",
        },
        {"position": VARIABLE, "Lights": INTERFACE, "colour": FIELD},
    ),
    "go": (
        "go.go",
        "//",
        {
            "package": "keyword",
            "jobs": "variable",
            '"fmt"': "string",
            "0x10": "number",
            "*": "operator",
            "/* in a line */": "comment",
        },
        {"Small": CONSTANT, "one": VARIABLE, "Number": CLASS},
    ),
    "graphql": (
        "graphql.graphql",
        "#",
        {
            "schema": "keyword",
            "@": "operator",
            "version": "variable",
            "-1.5e3": "number",
            "# Operations": "comment",
        },
        {"Date": PARAMETER, "Book": CLASS, "since": FIELD},
    ),
    "ini": (
        "ini.ini",
        ";",
        {
            "mode": "property",
            "= test": "string",
            '[server "main"]': "namespace",
            "; the first of two": "comment",
        },
        {"mode": PROPERTY, '[server "main"]': MODULE},
    ),
    "json": (
        "json.json",
        "",
        {'"name"': "string", "2.5e-3": "number", "true": "keyword", "null": "keyword"},
        {"name": PROPERTY, "flags": PROPERTY},
    ),
    "lr": (
        "lr.lr",
        "#",
        {"token": "keyword", "LBRACE": "variable", '"{"': "string", "[0-9]": "regexp"},
        {"LBRACE": CONSTANT, "NUMBER": CONSTANT},
    ),
    "lua": (
        "lua.lua",
        "--",
        {
            "function": "keyword",
            "Stack": "variable",
            "0xFF": "number",
            "[[ long ]]": "string",
            "...": "operator",
        },
        {"Stack": VARIABLE, "Stack.new": FUNCTION, "Stack.inner.part:push": FUNCTION},
    ),
    "nginx": (
        "nginx.conf",
        "#",
        {
            "server": "keyword",
            "30d": "number",
            '"*.example.org"': "string",
            "$http_upgrade": "variable",
        },
        {"http": NAMESPACE, "location /": NAMESPACE},
    ),
    "proto": (
        "proto.proto",
        "//",
        {
            "import": "keyword",
            '"any.proto"': "string",
            "depot": "variable",
            "017": "number",
            "=": "operator",
        },
        {"depot.v1": PACKAGE, "Unit": CLASS, "share": FIELD},
    ),
    "scheme": (
        "scheme.scm",
        ";",
        {
            "define": "keyword",
            "jobs": "variable",
            "#:use-module": "property",
            "+3/4": "number",
            "#\\a": "string",
            "'": "operator",
        },
        {"limit": FUNCTION, "work": FUNCTION},
    ),
    "script": (
        "script.txt",
        "//",
        {
            "while": "keyword",
            "words": "variable",
            "or": "operator",
            "2.5e3": "number",
            '" "': "string",
        },
        {"count": FUNCTION, "words": VARIABLE},
    ),
    "settings": (
        "settings.conf",
        "#",
        {
            "include": "keyword",
            '"main"': "string",
            "offset": "variable",
            "+=": "operator",
            "1.5GiB": "number",
        },
        {"name": PROPERTY, 'server "main" public': MODULE},
    ),
    "sql": (
        "sql.sql",
        "--",
        {
            "SELECT": "keyword",
            "reader": "variable",
            "80": "number",
            "<>": "operator",
            "'often'": "string",
            "::text": "type",
        },
        {"reader": CLASS, "full name": FIELD},
    ),
    "toml": (
        "toml.toml",
        "#",
        {
            "title": "property",
            "=": "operator",
            "1979-05-27": "number",
            "false": "keyword",
            "# the last one": "comment",
        },
        {"title": PROPERTY, "owner": NAMESPACE},
    ),
}


def opened(language: str, client: Client) -> str:
    """The sample of a language, opened."""
    path = os.path.join(SAMPLES, LANGUAGES[language][0])
    with open(path, encoding="utf-8", newline="") as file:
        text = file.read()
    client.open(URI, text)
    return text


def words(client: Client, text: str) -> Iterator[Tuple[str, str]]:
    """The words of a text that have colours."""
    lines = [line.encode("utf-16-le") for line in text.split("\n")]
    types = client.greeting["result"]["capabilities"]["semanticTokensProvider"]["legend"]
    answer = client.ask("textDocument/semanticTokens/full", URI)
    for line, first, width, kind in coloured(answer, types["tokenTypes"]):
        yield lines[line][2 * first : 2 * (first + width)].decode("utf-16-le").strip(), kind


def coloured_words(cases: Cases, _: str) -> None:
    """The colours of some words of each language."""
    there = sorted({name.split(".")[0] for name in os.listdir(SAMPLES)})
    cases.check("the languages", there, sorted(LANGUAGES))
    for language, row in LANGUAGES.items():
        with Client(language) as client:
            found: Dict[str, str] = {}
            for word, kind in words(client, opened(language, client)):
                found.setdefault(word, kind)
            for word, kind in row[2].items():
                cases.check(f"{word!r} of {language}", kind, found.get(word))


def named_symbols(cases: Cases, _: str) -> None:
    """The kinds of some names of each language, and its comment sign."""
    for language, (_sample, sign, _words, awaited) in LANGUAGES.items():
        with Client(language) as client:
            told = client.greeting["result"]["capabilities"]["experimental"]["lrls"]["comment"]
            cases.check(f"the comment sign of {language}", sign, told)
            opened(language, client)
            found: Dict[str, int] = {}
            for _depth, kind, name, _range, _name in outlined(
                client.ask("textDocument/documentSymbol", URI)
            ):
                found.setdefault(name, kind)
            for name, kind in awaited.items():
                cases.check(f"the kind of {name} of {language}", kind, found.get(name))


def in_unit(unit: str) -> Dict[str, Any]:
    """The capabilities of an editor that counts in this unit."""
    return {**CAPABILITIES, "general": {"positionEncodings": [unit]}}


def offered_items(cases: Cases, _: str) -> None:
    """What an offer says of itself, and hover and offers in each unit behind wide characters."""
    kinds = {"let": KEYWORD, "-": OPERATOR}
    with Client("script") as client:
        client.open(URI, "")
        place = {"line": 0, "character": 0}
        items = client.ask("textDocument/completion", URI, position=place)["items"]
        found = {item["label"]: item["kind"] for item in items}
        for label, kind in kinds.items():
            cases.check(f"the kind of the offer {label}", kind, found.get(label))
    line = '"é\U0001f600"; le'
    for unit, end in (("utf-8", 12), ("utf-16", 9), ("utf-32", 8)):
        with Client("script", capabilities=in_unit(unit)) as client:
            client.open(URI, line)
            cases.check(f"the end in {unit}", end, width(line, unit))
            found_items = client.ask(
                "textDocument/completion", URI, position={"line": 0, "character": end}
            )["items"]
            offers = [(item["label"], span(item["textEdit"]["range"])) for item in found_items]
            cases.check(f"what is offered in {unit}", [("let", (end - 2, end))], offers)
            inside = {"line": 0, "character": end - 1}
            hovered = client.ask("textDocument/hover", URI, position=inside)
            cases.check(f"where hover is in {unit}", (end - 2, end), span(hovered["range"]))


def width(line: str, unit: str) -> int:
    """How long a line is in a unit."""
    if unit == "utf-32":
        return len(line)
    return len(line.encode(unit.replace("16", "16-le"))) // (2 if unit == "utf-16" else 1)


def span(found: Dict[str, Dict[str, int]]) -> Tuple[int, int]:
    """The first and the last character of a range."""
    return found["start"]["character"], found["end"]["character"]


GROUPS: List[Any] = [coloured_words, named_symbols, offered_items]
