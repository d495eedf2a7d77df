"""For each language the nodes that an editor folds, and their lines by tests/oracles.

A node folds from the line of its first token to that of its last, where these are two. Its sample
has such a node for each name, or one of `MORE` has.
"""

import json
import os
import re
from typing import Any, Dict, Iterator, List, Set, Tuple

from tests import TOP
from tests.common.cases import Cases
from tests.common.serving import Session
from tests.oracles import trees

# A node's name, and its first and last line.
Fold = Tuple[str, int, int]

# What folds in each language.
NAMES: Dict[str, List[str]] = {
    "c": ["Block", "Struct", "Enum", "Braces"],
    "calculator": ["Atom"],
    "control": ["Paragraph"],
    "css": ["Block", "Rules", "Frames", "Braces"],
    "dot": ["Body", "Attributes"],
    "g0": ["Atom"],
    "glsl": ["Block", "Struct", "Interface", "Braces"],
    "go": ["Block", "Cases", "Struct", "Interface", "Import", "Declaration", "Literal"],
    "graphql": ["SelectionSet", "Fields", "InputFields", "EnumValues", "Operations", "Union"],
    "ini": ["Section", "LastSection"],
    "json": ["Object", "Array"],
    "lr": [],
    "lua": ["Do", "While", "Repeat", "If", "For", "FunctionBody", "Table"],
    "nginx": ["Section"],
    "proto": ["Body", "Enum", "Oneof", "Extend", "Service", "Rpc", "Braces"],
    "scheme": ["List", "Definition", "Vector"],
    "script": ["Block", "List"],
    "settings": ["Body", "List"],
    "sql": ["Query", "Nested", "Case", "CreateTable", "CreateView", "Insert", "Update"],
    "toml": ["Table", "LastTable", "Array"],
}
# Texts with what the samples have in one line, or not at all.
MORE = {
    "c": ["enum a {\n    B\n};", "int a[] = {\n    1\n};"],
    "calculator": ["(\n1\n)"],
    "css": ["@keyframes a {\n    from { b: c }\n}", "@a {\n    b { c: d }\n}"],
    "glsl": ["struct a {\n    int b;\n};", "uniform a {\n    int b;\n};", "int a[] = {\n    1\n};"],
    "go": ["package a; var b = []c{\n    1,\n}"],
    "graphql": [
        "input A {\n    b: C\n}",
        "enum A {\n    B\n}",
        "schema {\n    query: A\n}",
        "union A =\n    B | C",
    ],
    "json": ["[\n    1\n]"],
    "lua": ["do\n    x = 1\nend", "x = {\n    1\n}"],
    "scheme": ["#(1\n2)"],
    "script": ["x = [\n    1\n];"],
    "sql": [
        "SELECT (\n    a\n)",
        "SELECT CASE\n    WHEN a THEN b\nEND",
        "CREATE VIEW a AS\nSELECT b",
        "UPDATE a\nSET b = 1",
        "(\n    SELECT a\n)",
    ],
}
WORD = re.compile(r"[()]|[^\s()]+")


def lines_of(text: str, tokens: List[Tuple[str, int, int]]) -> List[Tuple[int, int]]:
    """The first and the last line of each token."""
    breaks = [found.end() for found in re.finditer("\r\n|\r|\n", text)]
    line = lambda offset: sum(end <= offset for end in breaks)
    return [(line(first), line(end)) for _, first, end in tokens]


def nodes(tree: str, lines: List[Tuple[int, int]]) -> Iterator[Fold]:
    """The nodes of a tree that have tokens in two lines or more."""
    opened: List[Tuple[str, int]] = []
    names_next, at = False, 0
    for word in WORD.findall(tree):
        if word == ")":
            name, first = opened.pop()
            if first < at and lines[first][0] < lines[at - 1][1]:
                yield name, lines[first][0], lines[at - 1][1]
        elif names_next:
            opened.append((word, at))
        elif word != "(":
            at += 1
        names_next = word == "("


def folds(grammar: Any, language: str, text: str, tree: str) -> Set[Fold]:
    """The nodes that fold in a text with this tree."""
    found = nodes(tree, lines_of(text, grammar.tokens(text)))
    return {fold for fold in found if fold[0] in NAMES[language]}


def texts(language: str, sample: str) -> Iterator[Tuple[str, Set[Fold]]]:
    """The texts of a language, with what folds in them."""
    oracle, folder = trees(), os.path.join(TOP, "grammars")
    grammar = oracle.Grammar(oracle.read(os.path.join(folder, language + ".lr")))
    text = oracle.read(os.path.join(folder, "samples", sample))
    tree = oracle.read(os.path.join(folder, "samples", language + ".tree"))
    yield text, folds(grammar, language, text, tree)
    for text in MORE.get(language, []):
        kinds = [name for name, _, _ in grammar.tokens(text)]
        (tree,) = oracle.Chart(grammar, kinds).trees(grammar.start, 0, len(kinds))
        yield text, folds(grammar, language, text, tree)


def ranges(session: Session, uri: str, text: str) -> List[Tuple[int, int]]:
    """What the server folds in a text."""
    session.open(uri, 1, text)
    found = json.loads(session.ask("textDocument/foldingRange", uri))["result"]
    session.forget(uri)
    return [(fold["startLine"], fold["endLine"]) for fold in found]


def run(cases: Cases, language: str, sample: str) -> None:
    """What folds in a language, and that each name does in some text."""
    session = Session(os.path.join("grammars", language + ".lr"))
    seen: Set[str] = set()
    for text, awaited in texts(language, sample):
        lines = sorted({(first, last) for _, first, last in awaited})
        cases.check(f"folds of {language}: {text[:40]!r}", lines, ranges(session, "a:x", text))
        seen |= {name for name, _, _ in awaited}
    cases.check(f"what folds in {language}", sorted(NAMES[language]), sorted(seen))
    session.close()
