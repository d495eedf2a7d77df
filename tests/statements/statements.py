"""What a reader of the theorem has to believe, counted from the files, and what the pages say of
it.

The words of the theorem are the names from `specs/` in the clauses of `server::run`. They rest on
other definitions, and these on others: each of them has a comment, from which
tests/statements/definitions.py writes docs/DEFINITIONS.md, and docs/THEOREM.md has to give their
number.
"""

import os
import re
from typing import Any, Dict, List, Set, Tuple, Union

from tests.common.cases import Cases
from tests.statements import (
    clauses,
    counted,
    definitions as definitions_page,
    edits_told,
    libraries,
    promised,
    said_twice,
)
from tests.statements.rows import UNDER_RUN, Guards
from tests.statements.specs import Definitions, files_of, imports_of, lines_of, words_of_run

# The most columns of a line of a contract, of a definition, of a comment, of a proof, and of an
# import.
WIDTH_OF_CONTRACTS = 100
WIDTH_OF_DEFINITIONS = 140
WIDTH_OF_COMMENTS = 99
WIDTH_OF_PROOFS = 199
WIDTH_OF_IMPORTS = 300
# The laws under `run`, which no row gives: a row takes each as a premise, so that one that says
# less no longer fits. They are proved in sessions/src/laws.rt.
LAWS = (
    "sessions.Alone.EachDocumentIsAlone",
    "sessions.Alone.EachRunHasAHistory",
    "sessions.Alone.HistoriesDecide",
    "sessions.Alone.OthersCanBeLeftOut",
    "sessions.Fresh.EachTextIsItsEdits",
    "sessions.Fresh.EveryAnswerIsFresh",
    "sessions.Replies.EachRequestIsAnswered",
    "sessions.Replies.NoNotificationIsAnswered",
    "sessions.Replies.NothingIsSentAfterExit",
    "sessions.Sizes.TooLargeIsExact",
)

# The relations under `run` that a row gives and none refuses, with the law that at most one thing
# is given: so a row that gives one thing refuses all others.
GIVEN_ONCE = {
    "readings.Contents.IsSelectionOf": "readings.answers_are_unique",
}

CLAUSE = re.compile(r"^\s*(?:ensures|requires|invariant|ghost view)\b")
GHOST_USE = re.compile(r"^[ \t]*ghost use [^;]*?\{([^}]*)\};", re.M)
ANY_USE = re.compile(r"^[ \t]*(?:pub )?(?:ghost )?use [^;]*;|//[^\n]*", re.M)
# What an import passes on: the module that it is from, and the names.
PASSED_ON = re.compile(r"^(?:unfoldable )?pub use (\S+)\.\{([^}]*)\}$", re.M)
ANY_IMPORT = re.compile(r"^\s*(?:unfoldable )?(?:pub )?(?:ghost )?use ")
QUOTED = re.compile(r'"(?:[^"\\]|\\.)*"')
# What an import takes from the modules of a crate's proofs that pass on what they cite of other
# places: the crate, the module and the names.
PASSING = ("Std", "Common")
TAKEN = re.compile(rf"^use Rattle\.(\w+)\.proofs\.({'|'.join(PASSING)})\.\{{([^}}]*)\}}$", re.M)


def used_elsewhere(top: str, definitions: "Definitions") -> Set[Tuple[str, str, str]]:
    """The definitions that a contract or a definition of another crate names."""
    found = set()
    for path in files_of(top, "src", ".rt") + files_of(top, "specs", ".antt"):
        crate = os.path.relpath(path, os.path.join(top, "crates")).split(os.sep)[0]
        names, _ = imports_of("\n".join(lines_of(path)))
        found |= {definitions.found(*place) for place in names.values() if place[0] != crate}
    return {key for key in found if key}


def untold(
    definitions: "Definitions", keys: Union[List[Tuple[str, str, str]], Set[Tuple[str, str, str]]]
) -> List[Any]:
    """Those of these definitions that have no comment."""
    return sorted(
        ".".join((crate, module, name))
        for crate, module, name in keys
        if not definitions.modules[crate, module].comments[name]
    )


def wide_clauses(top: str) -> List[Any]:
    """The lines of contracts that are too wide."""
    wide = []
    for path in files_of(top, "src", ".rt"):
        depth = 0
        for number, line in enumerate(lines_of(path), 1):
            if depth or CLAUSE.match(line):
                depth = max(0, depth + line.count("{") - line.count("}"))
                if len(line) > WIDTH_OF_CONTRACTS:
                    wide.append(f"{os.path.relpath(path, top)}:{number}")
    return wide


def wide_definitions(top: str) -> List[Any]:
    """The lines of definitions that are too wide."""
    return [
        f"{os.path.relpath(path, top)}:{number}"
        for path in files_of(top, "specs", ".antt")
        for number, line in enumerate(lines_of(path), 1)
        if len(line) > WIDTH_OF_DEFINITIONS
    ]


def wide_comments(top: str) -> List[Any]:
    """The lines of docstrings, of the crates' pages and of other comments that are too wide."""
    return [
        f"{os.path.relpath(path, top)}:{number}"
        for path in files_of(top, "src", ".rt")
        for number, line in enumerate(lines_of(path), 1)
        if line.lstrip().startswith("//") and len(line) > WIDTH_OF_COMMENTS
    ]


def wide_proofs(top: str) -> List[Any]:
    """The lines of proofs that are too wide, without what they import and what stands in quotes in
    rows, which can't be broken."""
    return [
        f"{os.path.relpath(path, top)}:{number}"
        for path in files_of(top, "proofs", ".antt")
        for number, line in enumerate(lines_of(path), 1)
        if not ANY_IMPORT.match(line) and len(QUOTED.sub("", line)) > WIDTH_OF_PROOFS
    ]


def wide_imports(top: str) -> List[Any]:
    """The imports of all files of the crates that are too wide."""
    return [
        f"{os.path.relpath(path, top)}:{number}"
        for path in files_of(top, "crates", ".rt") + files_of(top, "crates", ".antt")
        for number, line in enumerate(lines_of(path), 1)
        if ANY_IMPORT.match(line) and len(line) > WIDTH_OF_IMPORTS
    ]


def is_named(name: str, text: str) -> bool:
    """Whether a text has all parts of a name: an operator's are what stands between the places of
    its arguments."""
    parts = filter(None, name.split(" as ")[-1].strip().split("◌"))
    return all(
        re.search(
            rf"(?<![\w']){re.escape(it)}(?![\w'])" if it[0].isalpha() else re.escape(it), text
        )
        for it in parts
    )


def idle_imports(top: str) -> List[Any]:
    """The names that a file brings in for its contracts, and doesn't name."""
    idle = []
    for path in files_of(top, "src", ".rt"):
        text = "\n".join(lines_of(path))
        rest = ANY_USE.sub("", text)
        names = [name.strip() for inner in GHOST_USE.findall(text) for name in inner.split(",")]
        idle += [
            f"{os.path.relpath(path, top)}: {name}" for name in names if not is_named(name, rest)
        ]
    return idle


def names_of(inner: str, which: int) -> Set[str]:
    """The names in the braces of an import: of a renamed one the old name, 0, or the new, -1."""
    return {name.split(" as ")[which].strip() for name in inner.split(",")} - {""}


def passed_on(top: str) -> List[Tuple[str, str, str, Set[str]]]:
    """What the modules `Std` and `Common` of the crates' proofs pass on: for each import the crate,
    the module, where the names are from, and the names."""
    folder = os.path.join(top, "crates")
    found = []
    for crate in sorted(os.listdir(folder)):
        for module in PASSING:
            path = os.path.join(folder, crate, "proofs", f"{module}.antt")
            text = "\n".join(lines_of(path)) if os.path.exists(path) else ""
            found += [
                (crate, module, source, names_of(inner, -1))
                for source, inner in PASSED_ON.findall(text)
            ]
    return found


def idle_words(top: str) -> List[Any]:
    """The names that the modules `Std` and `Common` of the crates' proofs pass on, and that no
    proof takes from there."""
    taken: Dict[Tuple[str, str], Set[str]] = {}
    for path in files_of(top, "proofs", ".antt"):
        for crate, module, inner in TAKEN.findall("\n".join(lines_of(path))):
            taken.setdefault((crate, module), set()).update(names_of(inner, 0))
    return [
        f"{crate}/proofs/{module}: {name}"
        for crate, module, _, names in passed_on(top)
        for name in sorted(names - taken.get((crate, module), set()))
    ]


def misplaced_words(top: str) -> List[Any]:
    """The modules of the repository whose words a `Std` passes on, and those of std and of the kit
    whose words a `Common` does."""
    ours = tuple(f"Rattle.{crate}." for crate in os.listdir(os.path.join(top, "crates")))
    return [
        f"{crate}/proofs/{module}: {source}"
        for crate, module, source, _ in passed_on(top)
        if source.startswith(ours) != (module == "Common")
    ]


def unguarded(guards: "Guards", keys: List[Tuple[str, str, str]]) -> List[Any]:
    """Those of these definitions that no rows guard, but for laws that rows use, and relations that
    are given at most once."""
    lacking = {".".join(key): key for key in keys if not guards.is_guarded(key)}
    excused = {name for name, key in lacking.items() if name in LAWS and key in guards.uses}
    excused |= {name for name, key in lacking.items() if name in GIVEN_ONCE and key in guards.gives}
    return sorted(set(lacking) - excused)


def idle_exceptions(guards: "Guards", keys: List[Tuple[str, str, str]]) -> List[Any]:
    """The exceptions that are none: what rows guard, and what isn't under `run`."""
    lacking = {".".join(key) for key in keys if not guards.is_guarded(key)}
    return sorted({*LAWS, *GIVEN_ONCE} - lacking)


def exceptions() -> List[Tuple[str, str]]:
    """How many definitions no rows guard, and how many laws are among them, in words."""
    return [(counted.NAMED[len(LAWS) + len(GIVEN_ONCE)], counted.NAMED[len(LAWS)])]


def told_exceptions(top: str) -> List[Tuple[str, str]]:
    """The same as docs/THEOREM.md says it."""
    page = "\n".join(lines_of(os.path.join(top, "docs", "THEOREM.md")))
    found = re.findall(r"(\w+) are excepted, by name: (\w+) laws", page)
    return [(every.lower(), laws) for every, laws in found]


def missing_laws(top: str) -> List[Any]:
    """The laws of `GIVEN_ONCE` that aren't there."""
    missing = []
    for law in GIVEN_ONCE.values():
        crate, name = law.split(".")
        text = "\n".join(lines_of(os.path.join(top, "crates", crate, "src", "laws.rt")))
        missing += [] if re.search(rf"^pub fn {name}\b", text, re.M) else [law]
    return missing


def misplaced_edits(top: str) -> List[Any]:
    """The edits of definitions in `must-fail/`, where a proof whose form no longer fits refuses
    them too."""
    found = []
    for crate in UNDER_RUN:
        folder = os.path.join(top, "crates", crate, "must-fail")
        names = sorted(os.listdir(folder)) if os.path.isdir(folder) else []
        texts = {
            name: "\n".join(lines_of(os.path.join(folder, name)))
            for name in names
            if name.endswith(".edit")
        }
        found += [
            f"{crate}/{name}"
            for name, text in texts.items()
            if re.search(r"^file: specs/", text, re.M)
        ]
    return found


def check(cases: Cases, top: str) -> None:
    """The pages say what can be counted, and no line of a statement is too wide."""
    definitions = Definitions(top)
    rest = definitions.rest(words_of_run(top, definitions))
    cases.check("each definition under `run` has a comment", [], untold(definitions, rest))
    guards = Guards(top, definitions, UNDER_RUN)
    cases.check(
        "the crates with definitions under `run` are those whose rows are read",
        sorted(UNDER_RUN),
        sorted({key[0] for key in rest}),
    )
    cases.check("rows guard each definition under `run`", [], unguarded(guards, rest))
    cases.check("each exception is one", [], idle_exceptions(guards, rest))
    cases.check("docs/THEOREM.md says how many are excepted", exceptions(), told_exceptions(top))
    cases.check("the laws by which things are given once are there", [], missing_laws(top))
    cases.check("no edit of a definition under `run` is in must-fail/", [], misplaced_edits(top))
    cases.check(
        "each definition that another crate names has a comment",
        [],
        untold(definitions, used_elsewhere(top, definitions)),
    )
    cases.check(
        "the pages of definitions are what tests/statements/definitions.py writes",
        [],
        definitions_page.differences(top),
    )
    cases.check(
        "docs/CLAUSES.md is what tests/statements/clauses.py writes", [], clauses.differences(top)
    )
    counted.check(cases, top)
    cases.check("no line of a contract is too wide", [], wide_clauses(top))
    cases.check("no line of a definition is too wide", [], wide_definitions(top))
    cases.check("no line of a comment is too wide", [], wide_comments(top))
    cases.check("no line of a proof is too wide", [], wide_proofs(top))
    cases.check("no import is too wide", [], wide_imports(top))
    cases.check("each name that a contract's file brings in is named there", [], idle_imports(top))
    cases.check(
        "each name that a `proofs/Std` or `proofs/Common` passes on is taken from there",
        [],
        idle_words(top),
    )
    cases.check(
        "each `proofs/Std` passes on words of std and of the kit, and each `proofs/Common` others",
        [],
        misplaced_words(top),
    )
    edits_told.check(cases, top)
    said_twice.check(cases, top)
    libraries.check(cases, top)
    promised.check(cases, top)
