#!/usr/bin/env python3
"""Writes docs/DEFINITIONS.md and docs/OTHER_DEFINITIONS.md from the comments in crates/*/specs.

The comment right above a public definition says what it means. It begins with the name and the
arguments in backquotes and a colon where the definition doesn't show them: it shows them as the
parameters of a record, or in a first equation that only has variables. The comment at a file's head
says what the file is about.

    tests/statements/definitions.py            writes the pages
    tests/statements/definitions.py --check    ends with status 1 where a page isn't what this would write

The first page has what the contract of `server::run` rests on, in the order in which a reader meets
it who goes down from there, and then what it means that a file defines the language that `run` is
given. The second one has all other definitions that have a comment, by crates.txt, and then the
laws, each with the comment above its function.
"""

import difflib
import itertools
import os
import re
import sys
from typing import Any, Dict, Iterator, List, Sequence, Tuple, Union

sys.dont_write_bytecode = True
sys.path.insert(0, os.path.dirname(os.path.dirname(os.path.dirname(os.path.abspath(__file__)))))

from tests import TOP
from tests.statements.specs import Definitions, Module, lines_of, words_of_file, words_of_run

PAGE = os.path.join("docs", "DEFINITIONS.md")
OTHER_PAGE = os.path.join("docs", "OTHER_DEFINITIONS.md")

# What follows the names that `run` rests on, and those that the meaning of a grammar's file rests
# on besides.
MARK = " •"
FILE_MARK = " ◦"

RECORD = re.compile(r"\s*(?:pub )?(?:record|data) ")
PUBLIC = re.compile(r"\s*(?:abbrev |unfoldable |opaque )*pub ")
VARIABLE = re.compile(r"(?!(?:zero|true|false)$)[a-z][\w']*")
LAW = re.compile(r"((?:^///.*\n)+)(?:^#\[.*\n)*^pub fn (\w+)\((\w*)", re.M)

INTRO = """\
# Definitions

What the contracts mean by their words. `tests/statements/definitions.py` writes this page from the comments above the definitions, which are in
the files `specs/` of the crates; change it there. Each comment says in plain words what a definition means, and names the public
standard where there is one.

How to read them:

- A text is a list of numbers, the codes of its characters (Unicode scalar values). Offsets count characters, from 0. Lengths and counts
  are numbers without bound.
- `t[a..b]` is a part of a list. A *prefix* of a list may be empty or the whole list.
- A name that begins with a capital letter is a fact, which holds or not, as `IsText`, or a type of data, as `Token`; a name in small
  letters is a value that computes. `IsTree g t s` reads "`t` is a tree of `g` with root `s`".
- `×` is "and", `⊎` "or", `→` "for every" or "implies", `(x : A) × P` "there is an `x` such that `P`", `¬` "not".
- A *rule* is a token or skip rule of the grammar, by its number. The *kind* of a token is its rule, or "invalid". A *break* is a line
  break. In a tree a *branch* is a node that has a production, and a *leaf* a kind alone.
- The files `proofs/*Rows.antt` work the definitions out on small examples, many of them by `refl` alone: positions in `TextRows`,
  patterns in `PatternRows` and `MatchRows`, edits in `TokenRows` and `TreeRows`, grammars in `GrammarRows` and `ExpectedRows`, answers
  in `AnswerRows`, `FoldRows` and `TreeTextRows`; in `readings` from a text of sums to each answer in `ReadingRows`, with `SumsRows` and
  `SumTokenRows`; streams in `FrameRows` of `frames`, what is sent in `ReplyRows` of `replies`, what is received in `MessageRows` and
  `ReceivedTextRows` of `rpc`; in `sessions` steps, runs and sessions in `SessionRows` and `StepRows`, isolation in `AloneRows`,
  freshness in `FreshRows`; in `theory` `FreeRows`, a grammar and an edit that meet the premises of the laws. The check refuses a row
  that a definition doesn't give, and each of the wrong definitions in `wrong-definitions/` breaks a row (`tests/statements/rows_only`).
- A • after a name marks what the theorem rests on (docs/THEOREM.md): whoever has read these definitions has read the statement. They
  are found by the names that each mentions, from the contract of `server::run` down. A ◦ marks what it means besides that a grammar's
  file defines the language that `run` is given (`IsLanguageOf`).
- docs/OTHER_DEFINITIONS.md has the others, which are the words of the contracts between crates, and of the proofs; and the laws, which
  are contracts of functions that do nothing: what is proved about the definitions alone.
"""

OTHER_INTRO = """\
# The other definitions, and the laws

The words of the contracts between crates, and of the proofs, on which the theorem doesn't rest. `tests/statements/definitions.py` writes this page
from the comments above the definitions; docs/DEFINITIONS.md has those of the theorem, and says how to read both.
"""


def with_arguments(name: str, lines: List[str]) -> str:
    """A name with its arguments, as the definition shows them, or alone where it shows none."""
    if RECORD.match(lines[0]):
        text = " ".join(line.strip() for line in lines)
        return " ".join([name, *re.findall(r"\(([\w' ]+) : ", text.split(" where")[0])])
    equations = [
        line.split(" =")[0].split()
        for line in lines
        if line.split()[0] == name and line.split()[1] != ":"
    ]
    is_plain = equations and all(VARIABLE.fullmatch(it) for it in equations[0][1:])
    return " ".join(equations[0]) if is_plain else name


def escaped(text: str) -> str:
    """A text as it is written in a table, where a bar ends a cell."""
    return text.replace("|", "\\|")


def row(module: "Module", name: str, mark: str) -> str:
    """The row of a definition: its name with its arguments, and what its comment says."""
    comment = module.comments[name]
    shown = re.match(rf"`({re.escape(name)}(?: [^`]*)?)`: ", comment)
    head = shown[1] if shown else with_arguments(name, module.definitions[name])
    meaning = comment[shown.end() :] if shown else comment
    return f"| `{escaped(head)}`{mark} | {escaped(meaning)} |"


def rows_of(module: "Module", names: List[str], mark: str) -> List[str]:
    return ["| Name | Meaning |", "|---|---|", *(row(module, name, mark) for name in names), ""]


def about(module: "Module") -> List[str]:
    """What a file is about: the sentences of its head, and what is shown between them."""
    found: List[str] = []
    for is_shown, lines in itertools.groupby(module.head, lambda line: line.startswith("  ")):
        text = [line.strip() for line in lines]
        found += ["```", *text, "```", ""] if is_shown else [" ".join(text), ""]
    return found


def link(crate: str, name: str) -> str:
    return f"[{crate}/specs/{name}](../crates/{crate}/specs/{name}.antt)"


def crates_of(top: str) -> List[str]:
    """The crates, lowest first."""
    return [
        line.split(":")[0].split()[0]
        for line in lines_of(os.path.join(top, "crates.txt"))
        if ":" in line and line[0] != "#"
    ]


def modules_of(top: str, crate: str) -> List[str]:
    """The files of a crate's definitions, in its own order."""
    path = os.path.join(top, "crates", crate, "specs", "Lib.antt")
    return (
        re.findall(r"^pub mod (\w+)", "\n".join(lines_of(path)), re.M)
        if os.path.exists(path)
        else []
    )


def commented_in(module: "Module") -> List[str]:
    """The public definitions of a file that have a comment."""
    return [
        name
        for name, lines in module.definitions.items()
        if module.comments[name] and PUBLIC.match(lines[0])
    ]


def first_part(
    definitions: "Definitions",
    title: str,
    keys: Union[Dict[Tuple[str, str, str], None], List[Tuple[str, str, str]]],
    mark: str,
) -> List[str]:
    """These definitions, in the order in which they are met from their roots down."""
    lines = [f"# {title}", ""]
    for place in dict.fromkeys(key[:2] for key in keys):
        module = definitions.modules[place]
        names = [key[2] for key in keys if key[:2] == place]
        lines += [f"## {link(*place)}", "", *about(module), *rows_of(module, names, mark)]
    return lines


def second_part(
    top: str, definitions: "Definitions", rest: Dict[Tuple[str, str, str], None]
) -> List[str]:
    """The other definitions, by crate."""
    lines, seen = [], {key[:2] for key in rest}
    for crate in crates_of(top):
        files = []
        for name in modules_of(top, crate):
            module = definitions.modules[crate, name]
            names = [it for it in commented_in(module) if (crate, name, it) not in rest]
            head = [] if (crate, name) in seen else about(module)
            files += (
                [f"### {link(crate, name)}", "", *head, *rows_of(module, names, "")]
                if names
                else []
            )
        lines += [f"## `{crate}`", "", *files] if files else []
    return lines


def laws_of(path: str) -> Iterator[str]:
    """The laws of a file: each with its parameter, and what its comment says."""
    for comment, name, parameter in LAW.findall("\n".join(lines_of(path))):
        text = " ".join(line[3:].strip() for line in comment.splitlines())
        yield f"| `{name} {parameter}".rstrip() + f"` | {text} |"


def last_part(top: str) -> List[str]:
    """The laws, by crate."""
    lines = ["# Laws", ""]
    for crate in crates_of(top):
        path = os.path.join(top, "crates", crate, "src", "laws.rt")
        if os.path.exists(path):
            lines += [
                f"## [{crate}/src/laws](../crates/{crate}/src/laws.rt)",
                "",
                "| Law | Meaning |",
                "|---|---|",
                *laws_of(path),
                "",
            ]
    return lines


def of_file(
    definitions: "Definitions", rest: Dict[Tuple[str, str, str], None]
) -> List[Tuple[str, str, str]]:
    """What the meaning of a grammar's file rests on, and `run` doesn't."""
    return [key for key in definitions.rest(words_of_file(definitions)) if key not in rest]


def written(top: str) -> Dict[str, str]:
    """The pages, each by its path."""
    definitions = Definitions(top)
    rest = dict.fromkeys(definitions.rest(words_of_run(top, definitions)))
    meaning = of_file(definitions, rest)
    first = first_part(definitions, "What the theorem rests on", rest, MARK)
    first += first_part(
        definitions, "What it means that a file defines a language", meaning, FILE_MARK
    )
    other = second_part(top, definitions, {**rest, **dict.fromkeys(meaning)}) + last_part(top)
    return {
        page: intro + "\n" + "\n".join(lines).rstrip("\n") + "\n"
        for page, intro, lines in ((PAGE, INTRO, first), (OTHER_PAGE, OTHER_INTRO, other))
    }


def differences(top: str) -> List[Any]:
    """The lines in which the pages differ from what would be written."""
    found: List[str] = []
    for page, text in written(top).items():
        path = os.path.join(top, page)
        there = lines_of(path) if os.path.exists(path) else []
        found += difflib.unified_diff(
            there, text.split("\n"), page, "tests/statements/definitions.py", n=0, lineterm=""
        )
    return found


def main(words: Sequence[str]) -> Any:
    if words == ["--check"]:
        found = differences(TOP)
        print("\n".join(found) if found else f"{PAGE} and {OTHER_PAGE} are up to date")
        return 1 if found else 0
    if words:
        print("usage: tests/statements/definitions.py [--check]", file=sys.stderr)
        return 2
    for page, text in written(TOP).items():
        with open(os.path.join(TOP, page), "w", encoding="utf-8") as file:
            file.write(text)
    return 0


if __name__ == "__main__":
    sys.exit(main(sys.argv[1:]))
