"""A copy of the crates with definitions under `run` that has no proofs but rows.

It holds the rows (`proofs/*Rows.antt`), the modules of `specs/` and `proofs/` that these name, and
the plain types of `src/`. A crate `all_rows` on top names all rows, so that one check reads all of
them. A wrong definition stands in the copy beside the right one: the module that it is in, under
another name, and those that name this one, up to the rows.
"""

import os
import re
import subprocess
from typing import Dict, Iterable, List, Mapping, Optional, Set, Tuple

from tests.statements.rows import UNDER_RUN
from tests.statements.specs import files_of, lines_of

# The crate of the copy that names all rows.
ALL = "all_rows"

# Where a module stands: its crate, and its path there.
Place = Tuple[str, str]

IMPORT = re.compile(
    r"^([ ]*(?:unfoldable )?(?:pub )?use )Rattle\.(\w+)\.((?:specs|proofs)\.[\w.]*\w)", re.M
)
PASSED_ON = re.compile(r"^pub use Rattle\.(\w+)\.((?:specs|proofs)\.[\w.]+)$", re.M)
TYPE = re.compile(r"^(?:pub(?:\(crate\))? )?(?:struct|enum) \w+(?:[^{;]*;$|.*?^\}$)", re.M | re.S)
USE = re.compile(r"^(pub )?use ([\w:]+?)::(?:\{([^}]*)\}|(\w+));$", re.M)
LEFT_OUT = re.compile(r"^[ ]*(?:#\[.*\]|//.*)\n", re.M)


def text_of(*path: str) -> str:
    return "\n".join(lines_of(os.path.join(*path)))


def put(path: str, lines: Iterable[str]) -> None:
    os.makedirs(os.path.dirname(path), exist_ok=True)
    with open(path, "w", encoding="utf-8") as file:
        file.write("\n".join(lines) + "\n")


class Copy:
    """The files of the copy: the texts of the modules of `specs/` and `proofs/` by crate and path,
    the lines by which a crate passes modules on, and by crate and path the types of `src/`, with
    the lines that bring in others."""

    def __init__(self, top: str) -> None:
        self.crates = os.path.join(top, "crates")
        self.modules: Dict[Place, str] = {}
        self.passed_on: Dict[Tuple[str, str], Dict[str, None]] = {}
        self.sources: Dict[Place, Tuple[List[str], List[str]]] = {}
        self.rows = [
            it
            for it in map(self.place_of_file, files_of(top, "proofs", "Rows.antt"))
            if it[0] in UNDER_RUN
        ]
        for crate, path in self.rows:
            self.add(crate, path[: -len(".antt")].replace("/", "."))
        self.below = {place: self.named(text) for place, text in self.modules.items()}

    def place_of_file(self, path: str) -> Place:
        crate, _, inner = os.path.relpath(path, self.crates).partition(os.sep)
        return crate, inner.replace(os.sep, "/")

    def file_of(self, crate: str, module: str) -> Optional[str]:
        """The path of the file that a module stands in, if this crate has one."""
        parts = module.split(".")
        paths = ("/".join(parts[:end]) + ".antt" for end in range(len(parts), 1, -1))
        return next(
            (it for it in paths if os.path.isfile(os.path.join(self.crates, crate, it))), None
        )

    def handed_on(self, crate: str, module: str) -> Optional[Tuple[str, str, str]]:
        """The line by which a crate passes a module on, and where it comes from."""
        part, name = module.split(".")[:2]
        lines = PASSED_ON.finditer(text_of(self.crates, crate, part, "Lib.antt"))
        return next(((it[0], it[1], it[2]) for it in lines if it[2].split(".")[-1] == name), None)

    def add(self, crate: str, module: str) -> None:
        """A module, and what it names; or a type, or what the crate passes on under this name."""
        if crate not in UNDER_RUN:
            return
        path = self.file_of(crate, module)
        if ".declared." in module:
            self.add_source(
                crate,
                "/".join([it for it in module.split(".")[2:] if it.islower()] or ["lib"]) + ".rt",
            )
        elif path is None:
            found = self.handed_on(crate, module)
            if found is None:
                raise ValueError(f"crates/{crate} has no module {module}, and passes none on")
            line, other, inner = found
            self.passed_on.setdefault((crate, module.split(".")[0]), {})[line] = None
            self.add(other, inner)
        elif (crate, path) not in self.modules:
            self.modules[crate, path] = text_of(self.crates, crate, path)
            for _, other, inner in IMPORT.findall(self.modules[crate, path]):
                self.add(other, inner)

    def add_source(self, crate: str, path: str) -> None:
        """A file with types, and the files of those that it brings in."""
        if (crate, path) in self.sources:
            return
        text = text_of(self.crates, crate, "src", path)
        types = [LEFT_OUT.sub("", it[0]) for it in TYPE.finditer(text)]
        words = set(re.findall(r"\w+", " ".join(types)))
        brought: List[str] = []
        self.sources[crate, path] = brought, types
        for _, place, names, name in USE.findall(text):
            for it in sorted(words.intersection((names or name).replace(" ", "").split(","))):
                brought.append(f"use {place}::{it};")
                self.add_type(crate, place.split("::"), it)

    def add_type(self, crate: str, place: List[str], name: str) -> None:
        """The file of a type that is brought in from a crate, or from another file of this one."""
        if place[0] == "crate":
            self.add_source(crate, "/".join(place[1:]) + ".rt")
        elif place[0] in UNDER_RUN:
            self.add_exported(place[0], name)

    def add_exported(self, crate: str, name: str) -> None:
        """The file of a type that a crate hands out."""
        self.add_source(crate, "lib.rt")
        for is_public, place, names, other in USE.findall(
            text_of(self.crates, crate, "src", "lib.rt")
        ):
            if is_public and name in (names or other).replace(" ", "").split(","):
                self.sources[crate, "lib.rt"][0].append(f"pub use {place}::{name};")
                if place in UNDER_RUN:
                    self.add_exported(place, name)
                else:
                    self.add_source(crate, f"{place}.rt")

    def place_of(self, crate: str, module: str) -> Optional[Place]:
        """Where a module of the copy stands: what a crate passes on stands elsewhere."""
        path = self.file_of(crate, module) if crate in UNDER_RUN else None
        if path is not None:
            return crate, path
        found = (
            self.handed_on(crate, module)
            if crate in UNDER_RUN and ".declared." not in module
            else None
        )
        return self.place_of(*found[1:]) if found else None

    def named(self, text: str) -> Set[Place]:
        """The modules of the copy that a text names."""
        found = (self.place_of(crate, module) for _, crate, module in IMPORT.findall(text))
        return {it for it in found if it is not None}

    def above(self, place: Place) -> Set[Place]:
        """The modules that name this one, directly or through others, and itself."""
        found, left = {place}, [place]
        while left:
            here = left.pop()
            new = {it for it, below in self.below.items() if here in below} - found
            found |= new
            left += new
        return found

    def on_the_way(self, place: Place, rows: Iterable[Place]) -> Set[Place]:
        """The modules that name this one and that these rows rest on, itself and the rows among
        them."""
        above = self.above(place)
        found = above.intersection(rows)
        left = [*found]
        while left:
            new = (self.below[left.pop()] & above) - found
            found |= new
            left += new
        return found

    def variant(
        self, place: Place, text: str, ending: str, rows: Iterable[Place]
    ) -> Dict[Place, str]:
        """The modules, under new names, by which these rows read this text in place of a module's."""
        touched = self.on_the_way(place, rows)

        def renamed(match: "re.Match[str]") -> str:
            there = self.place_of(match[2], match[3])
            if there not in touched:
                return match[0]
            return (
                f"{match[1]}Rattle.{there[0]}.{there[1][: -len('.antt')].replace('/', '.')}{ending}"
            )

        texts = {it: text if it == place else self.modules[it] for it in touched}
        return {
            (crate, path[: -len(".antt")] + ending + ".antt"): IMPORT.sub(renamed, it)
            for (crate, path), it in texts.items()
        }

    def write(self, folder: str, more: Mapping[Place, str]) -> None:
        """Writes the copy into a folder, with these modules more."""
        modules = {**self.modules, **more}
        for crate in UNDER_RUN:
            self.write_modules(
                os.path.join(folder, crate),
                {path: text for (it, path), text in modules.items() if it == crate},
                crate,
            )
            self.write_sources(os.path.join(folder, crate, "src"), crate)
        rows = [it for it in modules if re.search(r"Rows(?:_\w+)?\.antt$", it[1])]
        lines = [
            f"use Rattle.{crate}.{path[: -len('.antt')].replace('/', '.')} as rows_{n}"
            for n, (crate, path) in enumerate(rows)
        ]
        put(os.path.join(folder, ALL, "proofs", "All.antt"), ["-- All rows.", *lines])
        put(os.path.join(folder, ALL, "proofs", "Lib.antt"), ["mod All"])
        put(os.path.join(folder, ALL, "src", "lib.rt"), ["#![tactic(auto)]"])

    def write_modules(self, folder: str, texts: Mapping[str, str], crate: str) -> None:
        for path, text in texts.items():
            put(os.path.join(folder, path), [text])
        for part in ("specs", "proofs"):
            names = [path[len(part) + 1 : -len(".antt")] for path in texts if path.startswith(part)]
            put(
                os.path.join(folder, part, "Lib.antt"),
                [*self.passed_on.get((crate, part), []), *(f"pub mod {it}" for it in names)],
            )

    def write_sources(self, folder: str, crate: str) -> None:
        files = [path for it, path in self.sources if it == crate and path != "lib.rt"]
        brought, types = self.sources.get((crate, "lib.rt"), ([], []))
        head = ["#![tactic(auto)]", *(f"pub mod {path[: -len('.rt')]};" for path in files)]
        put(os.path.join(folder, "lib.rt"), [*head, *dict.fromkeys(brought), *types])
        for path in files:
            brought, types = self.sources[crate, path]
            put(os.path.join(folder, path), [*dict.fromkeys(brought), *types])


def libraries_of(top: str, tools: str, crate: str) -> List[str]:
    """Those of the libraries that crates.txt lists for a crate that are the toolchain's, and the
    crates of the copy below it."""
    listed = dict(re.findall(r"^(\w+):(.*)$", text_of(top, "crates.txt"), re.M))
    foreign = [it for it in listed[crate].split() if os.path.isdir(f"{tools}/rlibs/{it}.rlib")]
    return ["core", "std", *foreign, *UNDER_RUN[: UNDER_RUN.index(crate)]]


def kit() -> str:
    """The folder of the toolchain."""
    return os.path.dirname(
        subprocess.run(
            ["rt", "doc"], stdout=subprocess.PIPE, check=True, universal_newlines=True
        ).stdout.strip()
    )


def words_of_check(top: str, tools: str) -> List[str]:
    """The words of a check of `all_rows` in its folder, with the crates below it as sources."""
    below = {crate: libraries_of(top, tools, crate) for crate in UNDER_RUN}
    words = [os.path.join(tools, "bin", "rattle"), "check", "--crate-name", ALL, "src/lib.rt"]
    for library in sorted({it for libraries in below.values() for it in libraries} - {*UNDER_RUN}):
        words += ["--extern", f"{library}={tools}/rlibs/{library}.rlib"]
    words += ["-L", f"dependency={tools}/rlibs"]
    for crate, libraries in below.items():
        words += ["--lib", f"{crate}:{','.join(libraries)}=../{crate}/src/lib.rt"]
    words += [
        "--antt-project",
        f"{tools}/rattle/logic/antt-project.json",
        "--logic-built",
        f"{tools}/logic_built",
    ]
    return [*words, "--jobs", "1", "--links", f"{ALL}="]
