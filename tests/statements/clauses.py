#!/usr/bin/env python3
"""Writes docs/CLAUSES.md: each clause of each public call and of each law, as it stands in the
sources of the crates.

    tests/statements/clauses.py            writes the page
    tests/statements/clauses.py --check    ends with status 1 where the page isn't what this would write

A call is public where its crate's root file hands it on, or the type or trait that it belongs to.
Of a type it has what callers see of its values (`ghost view`) and what holds of each (`ghost
invariant`). What a program or a test crate has is left out.
"""

import difflib
import os
import re
import sys
from typing import Iterator, List, NamedTuple, Optional, Set, Tuple

sys.dont_write_bytecode = True

TOP = os.path.dirname(os.path.dirname(os.path.dirname(os.path.abspath(__file__))))
PAGE = os.path.join("docs", "CLAUSES.md")

# The crates that are on the page besides those of the program.
BESIDES = ("session_rows",)

FUNCTION = re.compile(r"^( *)(pub )?(?:const )?fn (\w+)")
GHOST = re.compile(r"^    ghost (?!use )(\w+)")
BLOCK = re.compile(r"^(?:pub )?(impl|trait)\b(.*?) \{$")
IMPL = re.compile(r"^(?:<.*?> )?(?:(?P<trait>\w+)(?:<.*>)? for )?(?P<type>[\w:]+)")
CONTRACT = re.compile(r"^\s*(?:requires|ensures)\b")
PUBLIC = re.compile(r"^pub (?:struct|enum|trait|fn|type|const) (\w+)", re.M)
HANDED_ON = re.compile(r"^pub use ([^;]*);", re.M)
OPEN_MODULE = re.compile(r"^pub mod (\w+);", re.M)

INTRO = """\
# Clauses

Each clause of each public call and of each law, as it stands in the sources: `tests/statements/clauses.py` writes this page, and `tests/program
statements` compares it with them, so that whoever changes a promise sees it here. The words of the clauses are on docs/DEFINITIONS.md
and docs/OTHER_DEFINITIONS.md. Of a type there is what callers see of its values, and what holds of each of them.
"""


class Item(NamedTuple):
    """A call with its clauses, or what a trait or a type says of values."""

    owner: str  # the head of the `impl` or the trait that it stands in, or nothing
    name: str
    is_public: bool
    lines: List[str]


def read(path: str) -> List[str]:
    with open(path, encoding="utf-8") as file:
        return file.read().split("\n")


def crates(top: str) -> List[str]:
    """The program's crates and those besides, in the order of crates.txt."""
    text = "\n".join(read(os.path.join(top, "crates.txt")))
    program, _, rest = text.partition("# What tests share")
    names = re.findall(r"^(\w+):", program, re.M)
    return names + [name for name in re.findall(r"^(\w+):", rest, re.M) if name in BESIDES]


def head_of(lines: List[str], first: int) -> List[str]:
    """The signature that begins at a line, with its clauses, without its body."""
    indent = lines[first][: -len(lines[first].lstrip(" "))]
    found: List[str] = []
    for line in lines[first:]:
        if line in (indent + "{", indent + "{}"):
            break
        ends = line.endswith((" {", ";")) and not any(CONTRACT.match(it) for it in [*found, line])
        found.append(re.sub(r" \{$|;$", "", line) if ends else line)
        if ends or line.endswith(";"):
            break
    return found


def ghost_of(lines: List[str], first: int) -> List[str]:
    """What is said of a type from a line on, up to the line that ends it."""
    end = next(k for k in range(first, len(lines)) if lines[k].endswith(";"))
    return lines[first : end + 1]


def items_of(lines: List[str]) -> Iterator[Item]:
    """The calls of a file, and what it says of its types."""
    owner, is_trait = "", False
    for k, line in enumerate(lines):
        block = BLOCK.match(line)
        if block:
            owner, is_trait = (block[1] + block[2]).strip(), block[1] == "trait"
        elif line == "}":
            owner, is_trait = "", False
        function, ghost = FUNCTION.match(line), GHOST.match(line)
        if function and len(function[1]) == (4 if owner else 0):
            yield Item(owner, function[3], bool(function[2]) or is_trait, head_of(lines, k))
        elif ghost and owner:
            yield Item(owner, ghost[1], True, ghost_of(lines, k))


def owner_of(item: Item) -> Tuple[Optional[str], Optional[str]]:
    """The trait of an item that belongs to one, and the type."""
    kind, _, rest = (
        item.owner.partition(" ")
        if item.owner.startswith("trait")
        else ("impl", "", item.owner[4:].strip())
    )
    if kind == "trait":
        return re.findall(r"^\w+", rest)[0], None
    found = IMPL.match(rest)
    assert found, item.owner
    return found["trait"], found["type"]


def handed_on(root: str) -> Set[str]:
    """The names that a crate's root file hands on."""
    names = set(PUBLIC.findall(root))
    for inner in HANDED_ON.findall(root):
        names |= {
            it.split(" as ")[-1].split("::")[-1].strip(" {}\n") for it in re.split(r"[,{}]", inner)
        } - {""}
    return names


def is_told(item: Item, names: Set[str]) -> bool:
    """Whether a caller from outside the crate relies on an item: these are the names that it can
    use."""
    if not item.owner:
        return item.is_public and item.name in names
    trait, owner = owner_of(item)
    if owner is None:
        return trait in names
    says_more = any(CONTRACT.match(line) for line in item.lines) or "ghost" in item.lines[0].split()
    return owner in names and (item.is_public if trait is None else says_more)


def told(path: str, names: Set[str]) -> List[str]:
    """What a file promises, under the heads of the blocks in which it stands."""
    found: List[str] = []
    owner = ""
    for item in items_of(read(path)):
        if is_told(item, names):
            found += [""] if found else []
            found += [item.owner] if item.owner and item.owner != owner else []
            found += item.lines
            owner = item.owner
    return found


def files_of(top: str, crate: str) -> List[str]:
    folder = os.path.join(top, "crates", crate, "src")
    return sorted(
        os.path.join(path, name)
        for path, _, names in os.walk(folder)
        for name in names
        if name.endswith(".rt")
    )


def names_of(top: str, crate: str) -> Set[str]:
    """What a crate's callers can name: what its root file hands on, and what stands in its open
    modules."""
    folder = os.path.join(top, "crates", crate, "src")
    root = os.path.join(folder, "lib.rt")
    if not os.path.exists(root):
        return set()
    text = "\n".join(read(root))
    names = handed_on(text)
    for module in OPEN_MODULE.findall(text):
        names |= set(PUBLIC.findall("\n".join(read(os.path.join(folder, f"{module}.rt")))))
    return names


def crate_part(top: str, crate: str) -> List[str]:
    """What a crate promises, by file."""
    lines: List[str] = []
    names = names_of(top, crate)
    for path in files_of(top, crate):
        clauses = told(path, names)
        if clauses:
            place = os.path.relpath(path, top)
            lines += [f"### [{place[7:-3]}](../{place})", "", "```", *clauses, "```", ""]
    return [f"## `{crate}`", "", *lines] if lines else []


def written(top: str) -> str:
    """The page."""
    parts = [line for crate in crates(top) for line in crate_part(top, crate)]
    return INTRO + "\n" + "\n".join(parts).rstrip("\n") + "\n"


def differences(top: str) -> List[str]:
    """The lines in which the page differs from what would be written."""
    path = os.path.join(top, PAGE)
    there = read(path) if os.path.exists(path) else []
    return list(
        difflib.unified_diff(
            there, written(top).split("\n"), PAGE, "tests/statements/clauses.py", n=0, lineterm=""
        )
    )


def main(words: List[str]) -> int:
    if words == ["--check"]:
        found = differences(TOP)
        print("\n".join(found) if found else f"{PAGE} is up to date")
        return 1 if found else 0
    if words:
        print("usage: tests/statements/clauses.py [--check]", file=sys.stderr)
        return 2
    with open(os.path.join(TOP, PAGE), "w", encoding="utf-8") as file:
        file.write(written(TOP))
    return 0


if __name__ == "__main__":
    sys.exit(main(sys.argv[1:]))
