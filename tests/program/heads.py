"""The heads of grammars/*.lr say what a grammar leaves out of its language, and what it accepts
beyond it, each with examples.

A head is the comment below a file's first line. Its parts `Left out ..` and `Accepted beyond ..` go
on up to the next part or the end of the head, and each text in backquotes there is a whole text of
the language: one that is refused, and one that is accepted. `\\n` in it is a line end, `\\t` a tab,
and a doubled backslash is one. So a head can say neither more nor less than what is so.
"""

import re
from typing import List, Tuple

PART = re.compile(r"# (Left out|Accepted beyond)\b")
EXAMPLE = re.compile(r"`([^`]+)`")
ESCAPE = re.compile(r"\\(\\|n|t)")
# Files of the project's own languages leave nothing out, and have no example.
WITHOUT = {"calculator", "g0", "lr", "script", "settings"}


def head(grammar: str) -> List[str]:
    """The lines of the comment below the first line of a grammar file."""
    lines = []
    for line in grammar.split("\n")[1:]:
        if not line.startswith("#"):
            break
        lines.append(line)
    return lines


def parts(grammar: str) -> List[Tuple[str, str]]:
    """The parts of a head that have examples: their first words and their text, its lines joined."""
    found = []
    for line in head(grammar):
        begins = PART.match(line)
        if begins:
            found.append([begins.group(1), line[2:]])
        elif found and line.startswith("#   "):
            found[-1][1] += " " + line[2:].strip()
        elif found:
            found.append(["", ""])
    return [(name, text) for name, text in found if name]


def text_of(example: str) -> str:
    return ESCAPE.sub(lambda found: {"n": "\n", "t": "\t"}.get(found.group(1), "\\"), example)


def examples(grammar: str) -> List[Tuple[str, bool]]:
    """The examples of a grammar file: each with whether it is to be accepted."""
    return [
        (text_of(example), name == "Accepted beyond")
        for name, text in parts(grammar)
        for example in EXAMPLE.findall(text)
    ]
