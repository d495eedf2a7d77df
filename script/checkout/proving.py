"""Proves the crates of the programs and builds these, and keeps what is proved."""

from __future__ import annotations

import os
import re
import shutil
import sys
import tempfile
import time
from typing import Callable, List

from history import commit, is_published
from kit import Kit
from marks import logic_of, statement, write_note
from quick import put
from refusals import Refusal
from programs import Program
from sources import OTHER_PARTS, Checkout
from work import MIB, Clock, follow, locked, need_room, read, say

# What is kept of the proofs takes some 80 MiB a crate where it stands, and a program 1.
ROOM_OF_A_CRATE = 100 * MIB
ROOM = 8 * MIB
# A check takes 2 to 4 GB of memory.
BYTES_OF_A_CHECK = 4_194_304 * 1024

ALL_TEST = os.path.join(os.path.dirname(os.path.abspath(__file__)), "all_test.py")

DONE = re.compile(r"^(?:== (?!summary$)(.*)|rt: ([a-z0-9_]*) is kept: .*)$", re.MULTILINE)
FAILED = re.compile(r"^rt: ([a-z0-9_]*) NOT PROVED$|^([a-z0-9_]*): failed", re.MULTILINE)


def prove_all(checkout: Checkout) -> None:
    """Proves and builds each program that isn't there yet, is older than its sources, or lacks the
    compiler's mark."""
    kit = Kit(checkout.top)
    os.makedirs(checkout.path("out"), exist_ok=True)
    for program in checkout.programs():
        path = checkout.proved(program)
        need_room(os.path.dirname(path), ROOM, "the program")
        with locked(checkout.path("out", "prove.lock")):
            if not (checkout.is_current(path, program) and logic_of(path)):
                prove(checkout, program, kit)
        say(f"{program.command} was {statement(path)}")


def prove(checkout: Checkout, program: Program, kit: Kit) -> None:
    """Proves and builds a program, and says how it goes."""
    crates = checkout.crates_of(program)
    say(
        f"proving and building the {len(crates)} crates of {program.command}; "
        "docs/GATE.md says how long that took elsewhere"
    )
    begun, path = time.time(), checkout.proved(program)
    with tempfile.TemporaryDirectory(prefix="lrls-") as work:
        if os.path.exists(path):
            os.remove(path)
        log = os.path.join(work, "log")
        report = progress(log, len(crates), Clock())
        if kit.keeps():
            prove_in_a_copy(checkout, program, os.path.join(work, "copy"), log, report)
        else:
            prove_in_place(checkout, program, kit, log, report)
        if not os.access(path, os.X_OK):
            complain(read(log), program)
    os.utime(path, (begun, begun))
    if logic_of(path) is not None:
        write_note(path, kit.version(), commit(checkout), is_published(checkout))


def prove_in_place(
    checkout: Checkout, program: Program, kit: Kit, log: str, report: Callable[[], None]
) -> None:
    """Proves and builds the program where it stands. What is proved is kept in the folders `out`,
    also where this is ended."""
    crates = len(checkout.crates_of(program))
    need_room(checkout.path("out"), crates * ROOM_OF_A_CRATE, "what is proved")
    # It also runs the program on its stored session and looks at the layout of files; what counts
    # is whether there is a program then.
    words = ["rt", "all", "test", "--jobs", str(lanes())]
    if kit.is_python():
        sizes = [str(lanes()), str(BYTES_OF_A_CHECK)]
        words = [sys.executable, "-IS", ALL_TEST, kit.path("bin/rt"), *sizes]
    follow(words, checkout.path("crates", program.crate), log, report)
    report()


def prove_in_a_copy(
    checkout: Checkout, program: Program, copy: str, log: str, report: Callable[[], None]
) -> None:
    """Proves and builds the program in a copy, as the gate does it. What is proved is kept beside
    the kit, also where this is ended."""
    copy_crates(checkout, program, copy)
    follow(["rt", "ci"], copy, log, report)
    report()
    made = os.path.join(copy, "crates", program.crate, "out", program.crate)
    if os.access(made, os.X_OK):
        put(made, checkout.proved(program), time.time())


def copy_crates(checkout: Checkout, program: Program, copy: str) -> None:
    """Copies the crates of a program, without what was kept of them, and without their wrong edits,
    which are the gate's."""
    # `rt ci` keeps its notes in .git, so that none is left elsewhere where it is ended.
    os.makedirs(os.path.join(copy, ".git"))
    shutil.copy(checkout.path("HANDLES"), copy)
    libraries = checkout.libraries()
    with open(os.path.join(copy, "crates.txt"), "w", encoding="utf-8") as file:
        for crate in checkout.crates_of(program):
            file.write(f"{crate}: {' '.join(libraries[crate])}\n")
            source, target = checkout.path("crates", crate), os.path.join(copy, "crates", crate)
            shutil.copytree(source, target, ignore=shutil.ignore_patterns(*OTHER_PARTS))


def lanes() -> int:
    """How many crates are in hand side by side: one a processor and one more, since a crate that
    waits for those below it is in hand too; and no more than there is free memory for."""
    found = re.search(r"^MemAvailable: *([0-9]+) kB$", read("/proc/meminfo"), re.MULTILINE)
    free = int(found.group(1)) * 1024 if found else BYTES_OF_A_CHECK
    return max(1, min((os.cpu_count() or 1) + 1, free // BYTES_OF_A_CHECK))


def progress(log: str, count: int, clock: Clock) -> Callable[[], None]:
    """What says which crates were done since the last time, and each minute how many are."""
    done: List[str] = []
    reported = [0]

    def report() -> None:
        for crate in [one or other for one, other in DONE.findall(read(log))][len(done) :]:
            done.append(crate)
            reported[0] = clock.minutes()
            say(f"done with {crate}, {len(done)} of {count}, after {clock.minutes()} min")
        if clock.minutes() > reported[0]:
            reported[0] = clock.minutes()
            say(f"{len(done)} of {count} after {clock.minutes()} min")

    return report


def complain(said: str, program: Program) -> None:
    """Prints what was reported of the crates that failed, or where no crate did, all that was
    reported, and ends the script."""
    failed = {one or other for one, other in FAILED.findall(said)}
    parts = re.split(r"^(?=== )", said, flags=re.MULTILINE)
    shown = [part for part in parts if part.partition("\n")[0][3:] in failed]
    sys.stderr.write("".join(shown or parts))
    raise Refusal(1, f"{program.command} wasn't built; what is proved is kept for the next time")
