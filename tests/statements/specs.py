"""The definitions of the crates, as they stand in the files of `specs/`, and the words of the
theorem.

It is a reading by patterns and not by the prover, so it can take too many names for definitions
that are rested on, and never too few of those that are written out.
"""

import os
import re
from typing import Any, Dict, List, Optional, Tuple

WORD = re.compile(r"[A-Za-z_][\w'\-]*")
IMPORT = re.compile(
    r"^(?:ghost )?(?:pub )?use Rattle\.(\w+)\.specs\.([\w.]+?)(?:\.\{([^}]*)\}| as (\w+))?;?$", re.M
)
HEAD = re.compile(
    r"^\s*(?:abbrev |unfoldable |opaque )*(?:pub )?(?:abbrev )?(?:record |data )?([^\s:(]+)"
)
PASSED_ON = re.compile(r"^pub use Rattle\.(\w+)\.specs\.([\w.]+)$", re.M)
MUTUAL = re.compile(r"^(?:abbrev |unfoldable )?mutual")


def files_of(top: str, folder: str, ending: str) -> List[str]:
    """The paths of the crates' files in a folder of this name, in order."""
    found = []
    for path, folders, names in os.walk(os.path.join(top, "crates")):
        folders[:] = sorted(
            name for name in folders if name not in ("out", "must-fail", "wrong-definitions")
        )
        if folder in os.path.relpath(path, top).split(os.sep):
            found += [os.path.join(path, name) for name in sorted(names) if name.endswith(ending)]
    return found


def lines_of(path: str) -> List[str]:
    with open(path, encoding="utf-8") as file:
        return file.read().split("\n")


class Module:
    """The definitions of a file of `specs/`: the lines of each by its name, and the comment above
    it, the constructors of data, what the file imports, and the comment at its head."""

    def __init__(self, lines: List[str]) -> None:
        self.definitions: Dict[str, List[str]] = {}
        self.comments: Dict[str, str] = {}
        self.constructors: Dict[str, str] = {}
        self.head: List[str] = []
        self.names, self.modules = imports_of("\n".join(lines))
        self.read(lines)

    def read(self, lines: List[str]) -> None:
        current, is_mutual, above = None, False, []
        for line in lines:
            indent = len(line) - len(line.lstrip())
            if line.lstrip().startswith("--"):
                above.append(line.lstrip()[2:].rstrip())
                continue
            comment, above = above, []
            if not line.strip():
                continue
            if re.match(r"^(pub )?(use|mod) |^module ", line):
                current, self.head = None, self.head or comment
                continue
            if MUTUAL.match(line):
                is_mutual, current = True, None
                continue
            is_mutual = is_mutual and indent > 0
            if indent == 0 or (is_mutual and indent == 2):
                (current,) = HEAD.findall(line)
                self.definitions.setdefault(current, [])
                self.comments.setdefault(current, " ".join(it.strip() for it in comment))
            self.add(current, line)

    def add(self, current: Optional[str], line: str) -> None:
        """One more line of a definition, which may be a constructor."""
        if current is None:
            return
        constructor = re.match(r"^\s+([A-Za-z_][\w'\-]*)\s*:", line)
        if constructor and self.definitions[current] and "data " in self.definitions[current][0]:
            self.constructors[constructor[1]] = current
        self.definitions[current].append(line)


def imports_of(text: str) -> Tuple[Any, ...]:
    """The names that a file brings in, and the names of modules: where each comes from."""
    names, modules = {}, {}
    for crate, module, inner, alias in IMPORT.findall(text):
        if not inner:
            modules[alias or module.split(".")[-1]] = (crate, module)
        for name in filter(None, map(str.strip, inner.split(","))):
            first, _, second = name.partition(" as ")
            names[(second or first).strip()] = (crate, module, first.strip())
    return names, modules


class Definitions:
    """All definitions of the crates, by crate, module and name."""

    def __init__(self, top: str) -> None:
        self.modules = {}
        for path in files_of(top, "specs", ".antt"):
            parts = os.path.relpath(path, os.path.join(top, "crates")).split(os.sep)
            self.modules[parts[0], ".".join(parts[2:])[: -len(".antt")]] = Module(lines_of(path))
        self.passed_on = {}
        for crate, module in [it for it in self.modules if it[1] == "Lib"]:
            lines = "\n".join(lines_of(os.path.join(top, "crates", crate, "specs", "Lib.antt")))
            for other, inner in PASSED_ON.findall(lines):
                self.passed_on[crate, inner.split(".")[-1]] = (other, inner)

    def found(self, crate: str, module: str, word: str) -> Optional[Tuple[str, str, str]]:
        """The definition of this name, or the data that this is a constructor of. What a crate or a
        module passes on is looked up where it stands."""
        if (crate, module) in self.passed_on:
            return self.found(*self.passed_on[crate, module], word)
        there = self.modules.get((crate, module))
        if there is None:
            return None
        if word in there.definitions:
            return crate, module, word
        if word in there.constructors:
            return crate, module, there.constructors[word]
        return self.found(*there.names[word]) if word in there.names else None

    def below(self, key: Tuple[str, str, str]) -> List[Tuple[str, str, str]]:
        """The definitions that one names, in order."""
        crate, module, name = key
        there = self.modules[crate, module]
        body = " ".join(re.sub(r"--.*", "", line) for line in there.definitions[name])
        words = WORD.findall(body)
        found = [
            self.found(*place)
            for word in words
            for place in [(crate, module, word), there.names.get(word)]
            if place
        ]
        found += [
            self.found(there.modules[a][0], there.modules[a][1], word)
            for a, word in re.findall(r"(\w+)\.([A-Za-z_]\w*)", body)
            if a in there.modules
        ]
        return [it for it in dict.fromkeys(found) if it and it != key]

    def rest(self, roots: List[Tuple[str, str, str]]) -> List[Tuple[str, str, str]]:
        """All that these rest on, themselves among them, the nearest ones first."""
        seen = dict.fromkeys(roots)
        left = list(seen)
        for key in left:
            new = [it for it in self.below(key) if it not in seen]
            seen.update(dict.fromkeys(new))
            left += new
        return left

    def named(self, name: str) -> List[Tuple[str, str, str]]:
        """The definitions of this name, in all crates."""
        return [
            (*place, name) for place, module in self.modules.items() if name in module.definitions
        ]

    def lines(self, keys: List[Tuple[str, str, str]]) -> int:
        return sum(
            len(self.modules[crate, module].definitions[name]) for crate, module, name in keys
        )


def clauses_of(path: str, function: str) -> str:
    """The lines of the contract of a public function."""
    text = "\n".join(lines_of(path))
    (found,) = re.findall(rf"^pub fn {function}\b.*?^\{{$", text, re.M | re.S)[:1]
    return str(found)


def words_of_run(top: str, definitions: "Definitions") -> List[Tuple[str, str, str]]:
    """The definitions that the clauses of `server::run` name, in order."""
    path = os.path.join(top, "crates", "server", "src", "session.rt")
    names, _ = imports_of("\n".join(lines_of(path)))
    words = re.findall(r"(?<![\w.])[A-Za-z_]\w*", clauses_of(path, "run"))
    found = (definitions.found(*names[word]) for word in words if word in names)
    return [it for it in dict.fromkeys(found) if it is not None]


def words_of_file(definitions: "Definitions") -> List[Tuple[str, str, str]]:
    """The definition by which a grammar's file defines a language."""
    return definitions.named("IsLanguageOf")
