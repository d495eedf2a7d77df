"""A checkout of the repository: its programs, and the files that each is made of.

Each command of the script reads this before it runs the program, so it imports little: what asks
git is in `history`. """

from __future__ import annotations

import os

from programs import PROGRAMS, Program

# Parts of a crate that its program isn't made of.
OTHER_PARTS = ("out", "must-fail", "wrong-definitions")


def newest(folder: str) -> int:
    """When the newest of the files in a crate's folder that its program is made of was changed, in
    nanoseconds."""
    found = [0]
    with os.scandir(folder) as entries:
        for entry in entries:
            if not entry.is_dir(follow_symlinks=False):
                found.append(entry.stat(follow_symlinks=False).st_mtime_ns)
            elif entry.name not in OTHER_PARTS:
                found.append(newest(entry.path))
    return max(found)


class Checkout:
    """The folder that the script lies in."""

    def __init__(self, top: str) -> None:
        self.top = top

    def path(self, *names: str) -> str:
        """The path of a file of the checkout."""
        return os.path.join(self.top, *names)

    def proved(self, program: Program) -> str:
        """Where the kit puts the program that it has proved."""
        return self.path("crates", program.crate, "out", program.crate)

    def quick(self, program: Program) -> str:
        """Where the program lies that is made without a proof."""
        return self.path("out", "quick", program.command)

    def made(self, program: Program) -> str | None:
        """The program that counts: the proved one where it is there, else the quick one, unless a
        source is newer."""
        return next(
            (
                path
                for path in (self.proved(program), self.quick(program))
                if self.is_current(path, program)
            ),
            None,
        )

    def libraries(self) -> dict[str, list[str]]:
        """The crates by name, each with the libraries that it stands on, in the order of
        crates.txt."""
        with open(self.path("crates.txt"), encoding="utf-8") as file:
            named = [line.split("#")[0].partition(":") for line in file]
        return {name.split()[0]: below.split() for name, colon, below in named if colon}

    def programs(self) -> list[Program]:
        """The programs that crates.txt lists."""
        crates = self.libraries()
        return [program for program in PROGRAMS if program.crate in crates]

    def program(self, command: str) -> Program:
        """The program that this command runs."""
        return next(program for program in self.programs() if program.command == command)

    def crates_of(self, program: Program) -> list[str]:
        """The crates of the repository that a program is made of, lowest first."""
        crates = self.libraries()
        needed = {program.crate}
        for name in reversed(list(crates)):
            needed.update(crates[name] if name in needed else ())
        return [name for name in crates if name in needed]

    def newest_source(self, program: Program) -> int:
        """When the newest of the files that a program is made of was changed, in nanoseconds."""
        crates = (newest(self.path("crates", crate)) for crate in self.crates_of(program))
        return max([os.stat(self.path("crates.txt")).st_mtime_ns, *crates])

    def is_current(self, path: str, program: Program) -> bool:
        """Whether a program lies there that no source is newer than."""
        return os.access(path, os.X_OK) and self.newest_source(program) <= os.stat(path).st_mtime_ns
