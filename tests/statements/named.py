"""What the pages name besides files and numbers: crates in their tables, the words and the clauses
of THEOREM.md, the commands of the script `lrls`, what editors/ offers, the grammars of README.md,
and the limits of the playground."""

import os
import re
from typing import Dict, Iterator, List, Set, Tuple

from tests.common.cases import Cases
from tests.common.links import pages_of
from tests.statements.specs import lines_of

# A row of a table that begins with a name, or names, in the form of code.
FIRST_CELL = re.compile(r"^\| ((?:`\w+`(?:, )?)+)[^|]*\|", re.M)
LINKED_CELL = re.compile(r"^\| \[`(\w+)`\]\(\.\./crates/(\w+)/", re.M)
CODE = re.compile(r"`([^`\n]+)`")
COMMAND = re.compile(r"`(?:\./)?lrls ([a-z-]+)")
# The crates that PROVED.md names in a sentence, since nothing is proved of them.
SENTENCE = re.compile(
    r"^No crate of the program depends on these\. Of (.*?) nothing is proved", re.M
)
# The grammars whose names aren't what their files are called.
GRAMMARS = {
    "dot": "Graphviz DOT",
    "proto": "Protocol Buffers",
    "control": "Debian control files",
    "lr": "grammar files themselves",
    "nginx": "nginx's configuration",
    "settings": "line-based settings",
    "script": "a small script language",
    "calculator": "a calculator",
    "g0": "these sums",
}


def text_of(top: str, *names: str) -> str:
    return "\n".join(lines_of(os.path.join(top, *names)))


def crates(top: str) -> List[str]:
    """The crates of crates.txt."""
    return re.findall(r"^(\w+):", text_of(top, "crates.txt"), re.M)


def names_in_cells(page: str) -> List[str]:
    """The names that are a whole first cell of a row."""
    return [name for cell in FIRST_CELL.findall(page) for name in CODE.findall(cell)]


def crates_of_proved(page: str) -> Set[str]:
    """The crates that PROVED.md has a row of, or names among those without one."""
    return set(names_in_cells(page)) | {
        name for named in SENTENCE.findall(page) for name in CODE.findall(named)
    }


def tables_of_crates(cases: Cases, top: str) -> None:
    """Each crate has its row on ARCHITECTURE.md and PROVED.md, and GATE.md names no other one."""
    there = crates(top)
    architecture = text_of(top, "docs", "ARCHITECTURE.md")
    linked = LINKED_CELL.findall(architecture)
    mixed = [name for name, folder in linked if name != folder]
    cases.check("docs/ARCHITECTURE.md links each crate to its own page", [], mixed)
    # Those of the tests are named in rows and in sentences.
    tests = architecture.partition("### Tests and examples")[2].partition("\n## ")[0]
    told = {name for name, _ in linked} | set(CODE.findall(tests))
    cases.check("docs/ARCHITECTURE.md has each crate", [], sorted(set(there) - told))
    proved = crates_of_proved(text_of(top, "docs", "PROVED.md"))
    cases.check("docs/PROVED.md has each crate", [], sorted(set(there) - proved))
    gate = set(names_in_cells(text_of(top, "docs", "GATE.md")))
    cases.check("docs/GATE.md names crates", [], sorted(gate - set(there)))


def words(cases: Cases, top: str) -> None:
    """Each word of the table of THEOREM.md is in one of the files that its row names."""
    page = text_of(top, "docs", "THEOREM.md")
    rows = [line.split(" | ") for line in page.split("\n") if line.startswith("| `")]
    missing = []
    for row in rows:
        paths = [
            os.path.normpath(os.path.join(top, "docs", it))
            for it in re.findall(r"\]\((\S+\.antt)\)", row[-1])
        ]
        texts = "\n".join("\n".join(lines_of(path)) for path in paths)
        named = CODE.findall(row[0])
        missing += [word for word in named if paths and not re.search(rf"\b{word}\b", texts)]
    cases.check("docs/THEOREM.md has words", True, len(rows) > 20)
    cases.check("words of docs/THEOREM.md that aren't where it says", [], missing)


def clauses(cases: Cases, top: str) -> None:
    """Each clause that THEOREM.md quotes stands in the sources."""
    run = text_of(top, "crates", "server", "src", "session.rt")
    quoted = [
        code
        for code in CODE.findall(text_of(top, "docs", "THEOREM.md"))
        if code.startswith("ensures ")
    ]
    cases.check("docs/THEOREM.md quotes a clause", True, bool(quoted))
    flat = " ".join(run.split())
    cases.check(
        "clauses that docs/THEOREM.md quotes", [], [code for code in quoted if code not in flat]
    )


def commands(cases: Cases, top: str) -> None:
    """The pages name no command that the script doesn't know."""
    source = text_of(top, "script", "checkout", "programs.py") + text_of(top, "script", "help")
    known = set(re.findall(r'"([a-z-]+)"', source)) | set(
        re.findall(r"^    ([a-z]+) ", source, re.M)
    )
    known |= set(re.findall(r"(--[a-z]+)", source))
    for path in pages_of(top):
        page = os.path.relpath(path, top)
        unknown = sorted(set(COMMAND.findall("\n".join(lines_of(path)))) - known)
        cases.check(f"commands of {page} that the script doesn't know", [], unknown)


def editor_words(top: str) -> Iterator[Tuple[str, Set[str], Set[str]]]:
    """For each file of editors/ the words of it that the pages name, and those that it has."""
    named = text_of(top, "README.md") + text_of(top, "editors", "README.md")
    lua, lisp = text_of(top, "editors", "neovim.lua"), text_of(top, "editors", "emacs.el")
    (given,) = re.findall(r"^return \{(.*)\}$", lua, re.M)
    offered = set(re.findall(r"(\w+) =", given))
    yield "neovim.lua", set(re.findall(r"\blrls\.(\w+)\(", named)), offered
    yield "neovim.lua", set(re.findall(r":(Lrls\w+)", named)), set(re.findall(r'"(Lrls\w+)"', lua))
    defined = set(re.findall(r"^\(def\w+ (lrls-[a-z-]+)", lisp, re.M))
    yield "emacs.el", set(re.findall(r"\((lrls-[a-z-]+)", named)), defined


def editors(cases: Cases, top: str) -> None:
    for name, named, there in editor_words(top):
        cases.check(f"words of editors/{name} that the pages name", [], sorted(named - there))


def grammars(cases: Cases, top: str) -> None:
    """README.md names each grammar."""
    line = next(
        line
        for line in lines_of(os.path.join(top, "README.md"))
        if line.startswith("`grammars/` has")
    )
    files = [
        name[:-3] for name in os.listdir(os.path.join(top, "grammars")) if name.endswith(".lr")
    ]
    names = {file: GRAMMARS.get(file, file) for file in sorted(files)}
    listed = {
        part.strip(" .").casefold() for part in re.split(r",|:| and ", line.partition(".")[0])
    }
    missing = [name for name in names.values() if name.casefold() not in listed]
    cases.check("grammars that README.md leaves out", [], missing)


def numbers(source: str) -> Dict[str, int]:
    """The whole numbers that a Python file calls by a name."""
    found: Dict[str, int] = {}
    for names, values in re.findall(r"^([A-Z_]+(?:, [A-Z_]+)*) = ([\d_<, ]+)$", source, re.M):
        for name, value in zip(names.split(", "), values.split(", ")):
            base, _, by = value.partition(" << ")
            found[name] = int(base) << int(by or 0)
    return found


def playground(cases: Cases, top: str) -> None:
    """The limits of the playground are on its page."""
    page = " ".join(text_of(top, "docs", "IDE.md").split())
    there = numbers(text_of(top, "ide", "lrls_ide", "playground.py"))
    each = numbers(text_of(top, "ide", "lrls_ide", "programs.py"))
    for said in (
        f"messages of at most {there['MOST_BYTES'] >> 20} MiB, {there['MOST_AT_ONCE']:,} at once "
        f"and {there['MOST_A_SECOND']} in a second",
        f"at most {there['MOST_PAGES']} pages",
        f"at most {each['MEMORY'] >> 30} GiB of memory and {each['SECONDS']} seconds",
    ):
        cases.check("docs/IDE.md: a limit of the playground", said, said if said in page else "")


def check(cases: Cases, top: str) -> None:
    """What the pages name is there."""
    tables_of_crates(cases, top)
    words(cases, top)
    clauses(cases, top)
    commands(cases, top)
    editors(cases, top)
    grammars(cases, top)
    playground(cases, top)
