#!/usr/bin/env python3
"""Which definitions the rows of `crates/*/proofs/*Rows.antt` guard, read from the statements of the
rows.

A row is a declaration of such a file. It refuses what stands before its `→ ⊥` or after its `¬`, and
gives what its result names where it doesn't refuse. A relation, whose values are facts, is guarded
by a row that gives it and one that refuses it. Another definition is guarded by a row whose
statement names it, or that is computed (by `refl`) and calls it through functions that its
statement names. What an abbreviation of a file of rows stands for counts as named where the
abbreviation is.

    tests/statements/rows.py      prints the definitions under `run`, each with how many rows give, refuse and compute it
"""

import os
import re
import sys
from typing import Dict, Iterable, List, Set, Tuple

sys.dont_write_bytecode = True
sys.path.insert(0, os.path.dirname(os.path.dirname(os.path.dirname(os.path.abspath(__file__)))))

from tests import TOP
from tests.statements.specs import WORD, Definitions, files_of, imports_of, lines_of, words_of_run

# The crates with definitions on which `run` rests, each after those that it stands on.
UNDER_RUN = ("definitions", "grammar", "readings", "frames", "replies", "rpc", "sessions")

DECLARED = re.compile(r"^( *)((?:abbrev )?(?:pub )?)([^\s:(){}]+) : (.*)$")
BLOCK = re.compile(r"^(?:abbrev )?(?:mutual|module)\b")
FROM_ROWS = re.compile(r"^use Rattle\.(\w+)\.proofs\.(\w+Rows)\.\{([^}]*)\}$", re.M)


# A definition, by its crate, its module and its name; and a file of rows, by its crate and its
# name.
Key = Tuple[str, str, str]
File = Tuple[str, str]


class Row:
    """A declaration of a file of rows: its name, its statement, the text of its proof, and whether
    it is an abbreviation."""

    def __init__(self, name: str, is_abbreviation: bool, statement: str) -> None:
        self.name, self.is_abbreviation, self.statement, self.proof = (
            name,
            is_abbreviation,
            statement,
            "",
        )

    def is_computed(self) -> bool:
        return bool(re.search(r"\brefl\b", self.proof))


def rows_of(lines: List[str]) -> List[Row]:
    """The declarations of a file of rows. Those of a `where` lie deeper, and belong to a proof."""
    rows: List[Row] = []
    block = ""
    for line in (re.sub(r"(^|\s)--.*", "", line) for line in lines):
        if not line.strip():
            continue
        opened = BLOCK.match(line)
        if not line.startswith(" "):
            block = opened[0] if opened else ""
        found = DECLARED.match(line)
        if found and not opened and len(found[1]) <= (2 if block else 0):
            rows.append(Row(found[3], "abbrev" in found[2] + block, found[4]))
        elif (
            rows
            and not rows[-1].proof
            and not re.match(rf"^ *(?:unfolding\b|{re.escape(rows[-1].name)}(?:\s|$))", line)
        ):
            rows[-1].statement += " " + line.strip()
        elif rows:
            rows[-1].proof += line + "\n"
    return rows


def split_at_arrows(statement: str) -> List[str]:
    """The parts of a statement between its arrows, those in brackets left together."""
    parts, depth = [""], 0
    for letter in re.sub(r'"(?:[^"\\]|\\.)*"', '""', statement):
        depth += (letter in "({") - (letter in ")}")
        if letter == "→" and not depth:
            parts.append("")
        else:
            parts[-1] += letter
    return [it.strip() for it in parts]


class Sheet:
    """A file of rows: its declarations, and where the names that it brings in come from."""

    def __init__(self, path: str) -> None:
        text = "\n".join(lines_of(path))
        self.rows = rows_of(text.split("\n"))
        self.names, self.modules = imports_of(text)
        self.abbreviations = {row.name: row for row in self.rows if row.is_abbreviation}
        self.from_rows: Dict[str, Key] = {}
        for crate, module, inner in FROM_ROWS.findall(text):
            for name in filter(None, map(str.strip, inner.split(","))):
                first, _, second = name.partition(" as ")
                self.from_rows[second or first] = (crate, module, first)


class Guards:
    """Which definitions rows give, refuse, use as a premise, name and compute, each with the rows
    that do so."""

    def __init__(self, top: str, definitions: Definitions, crates: Iterable[str]) -> None:
        self.definitions = definitions
        self.sheets: Dict[File, Sheet] = {}
        for path in files_of(top, "proofs", "Rows.antt"):
            crate = os.path.relpath(path, os.path.join(top, "crates")).split(os.sep)[0]
            if crate in crates:
                self.sheets[crate, os.path.basename(path)[: -len(".antt")]] = Sheet(path)
        self.gives: Dict[Key, List[str]] = {}
        self.refuses: Dict[Key, List[str]] = {}
        self.uses: Dict[Key, List[str]] = {}
        self.computes: Dict[Key, List[str]] = {}
        for place, sheet in self.sheets.items():
            for row in sheet.rows:
                if not row.is_abbreviation:
                    self.read(place, sheet, row)

    def read(self, place: File, sheet: Sheet, row: Row) -> None:
        """Notes what a row gives, refuses, uses and computes."""
        *premises, result = split_at_arrows(row.statement)
        is_refused = (result == "⊥" and bool(premises)) or result.startswith("¬")
        if is_refused and result == "⊥":
            result = premises.pop()
        named = self.named(sheet, result)
        self.note(self.refuses if is_refused else self.gives, named, place, row)
        self.note(self.uses, self.named(sheet, " ".join(premises)), place, row)
        if row.is_computed():
            self.note(self.computes, self.called(named), place, row)

    @staticmethod
    def note(notes: Dict[Key, List[str]], keys: Iterable[Key], place: File, row: Row) -> None:
        for key in keys:
            notes.setdefault(key, []).append(".".join((*place, row.name)))

    def named(self, sheet: Sheet, text: str) -> Set[Key]:
        """The definitions that a text names, itself or through abbreviations of rows."""
        found: Set[Key] = set()
        seen: Set[Tuple[int, str]] = set()
        words = WORD.findall(text)
        words += [f"{a}.{b}" for a, b in re.findall(r"(\w+)\.([A-Za-z_]\w*)", text)]
        for word in words:
            found |= self.meant(sheet, word, seen)
        return found

    def meant(self, sheet: Sheet, word: str, seen: Set[Tuple[int, str]]) -> Set[Key]:
        """The definitions that a word of a file of rows stands for."""
        if (id(sheet), word) in seen:
            return set()
        seen.add((id(sheet), word))
        alias, _, inner = word.partition(".")
        if inner:
            crate, module = sheet.modules.get(alias, ("", ""))
            key = self.definitions.found(crate, module, inner)
            return {key} if key else set()
        if word in sheet.abbreviations:
            row = sheet.abbreviations[word]
            words = WORD.findall(row.statement + " " + row.proof)
            return {key for it in words for key in self.meant(sheet, it, seen)}
        if word in sheet.from_rows:
            crate, module, name = sheet.from_rows[word]
            return (
                self.meant(self.sheets[crate, module], name, seen)
                if (crate, module) in self.sheets
                else set()
            )
        key = self.definitions.found(*sheet.names[word]) if word in sheet.names else None
        return {key} if key else set()

    def called(self, keys: Iterable[Key]) -> Set[Key]:
        """The functions that are called by these, directly or through others, those that are
        relations left out."""
        found: Set[Key] = set()
        left = [it for it in keys if not is_relation(self.definitions, it)]
        while left:
            new = {
                it
                for it in self.definitions.below(left.pop())
                if not is_relation(self.definitions, it)
            } - found
            found |= new
            left += new
        return found

    def is_guarded(self, key: Key) -> bool:
        """Whether rows guard a definition."""
        if is_relation(self.definitions, key):
            return key in self.gives and key in self.refuses
        return any(key in it for it in (self.gives, self.refuses, self.computes))


def signature_of(definitions: Definitions, key: Key) -> str:
    """What stands between a definition's name and its equations or its body."""
    crate, module, name = key
    text = " ".join(line.strip() for line in definitions.modules[crate, module].definitions[name])
    found = re.match(
        rf"(?:abbrev |unfoldable )*(?:pub )?(?:record |data )?{re.escape(name)}\b(.*?)(?: where | {re.escape(name)} |$)",
        text,
    )
    return found[1] if found else ""


def is_relation(definitions: Definitions, key: Key) -> bool:
    """Whether a definition's values are facts: it takes something, and is of `Type 0`."""
    before, said, after = signature_of(definitions, key).rpartition("Type 0")
    return bool(said) and not after.strip() and before.strip() != ":"


def main() -> None:
    top = TOP
    definitions = Definitions(top)
    guards = Guards(top, definitions, UNDER_RUN)
    print("| definition | | gives | refuses | computes | premise |\n|---|---|---|---|---|---|")
    for key in sorted(definitions.rest(words_of_run(top, definitions))):
        kind = "relation" if is_relation(definitions, key) else ""
        counts = (
            len(notes.get(key, ()))
            for notes in (guards.gives, guards.refuses, guards.computes, guards.uses)
        )
        print(f"| {'.'.join(key)} | {kind} | {' | '.join(map(str, counts))} |")


if __name__ == "__main__":
    main()
