"""Proves the crates below a crate's folder by the kit's `rt`, and builds them, as `rt all test` does.

    python3 script/checkout/all_test.py RT LANES BYTES     RT is the kit's file bin/rt; LANES is how
                                                           many crates are in hand where the kit
                                                           orders them; BYTES is the memory of a
                                                           check

`rt all test` takes the crates in the order of crates.txt, each by one processor, also where the
others wait for it. `rt ci` begins with those that have the longest chain of others behind them, and
gives a crate the processors that no other one waits for: here the crates go in its order, and what
is proved is kept where it stands. The sum of a crate's sources, by which `rt` finds what is kept,
is made of the sums of the crates that it stands on, each of which is asked for once and not once
for each way down to it: for the upper crates that took minutes. Nor is there a look at all sources before the proofs: it tells of
mistakes sooner, and takes minutes in which no crate is proved. Whoever proves a commit that was
landed has no use for it. A kit of which these parts aren't known runs as it is. """

from __future__ import annotations

import importlib.machinery
import importlib.util
import os
import sys
import tempfile
import threading
from typing import Any, Callable, Dict, List, Tuple

# A crate's part of the work; what it waits for, its lines, its memory, and what does it.
Key = Tuple[str, str]
Task = Tuple[List[Key], int, int, Callable[[Dict[Key, bool], int], bool]]

# What is asked of the kit: of `rt`, of `rtlib`, and of a crate.
OF_RT = ("in_lanes",)
OF_LIBRARY = ("Crate", "crates_below", "every", "lock")
OF_CRATE = ("below", "build_rlib", "count", "makes_rlib", "stamp", "test_whole")


def load(path: str) -> Any:
    """The kit's `rt` as a module."""
    loader = importlib.machinery.SourceFileLoader("rt", path)
    spec = importlib.util.spec_from_loader("rt", loader)
    assert spec is not None
    rt = importlib.util.module_from_spec(spec)
    loader.exec_module(rt)
    return rt


def is_known(rt: Any) -> bool:
    """Whether the kit has the parts by which crates go in the order of `rt ci`."""
    library = getattr(rt, "rtlib", None)
    crate = getattr(library, "Crate", None)
    return (
        all(hasattr(rt, name) for name in OF_RT)
        and all(hasattr(library, name) for name in OF_LIBRARY)
        and all(hasattr(crate, name) for name in OF_CRATE)
    )


def asked_once(method: Callable[[Any], Any]) -> Callable[[Any], Any]:
    """A method of a crate that asks those below: the same, where within one call each is asked at
    most once."""
    calls = threading.local()

    def answer(crate: Any) -> Any:
        known = getattr(calls, "known", None)
        if known is None:
            calls.known = {}
            try:
                return method(crate)
            finally:
                calls.known = None
        if crate.folder not in known:
            known[crate.folder] = method(crate)
        return known[crate.folder]

    return answer


def key(crate: Any) -> Key:
    """The name of a crate's task. The kit gives spare processors to what is named a proof."""
    return crate.name, "proof"


def work(crate: Any, given: Dict[Key, bool], jobs: int) -> bool:
    """Proves a crate, or takes what is kept of it, and prints what was said. Whether it is proved:
    not where a crate below it isn't."""
    if not all(given[key(below)] for below in crate.below()):
        return False
    os.makedirs(os.path.join(crate.folder, "out"), exist_ok=True)
    flags = ["--jobs", str(jobs)]
    with tempfile.TemporaryFile("a+", encoding="utf-8", errors="replace") as crate.out:
        status = crate.build_rlib(flags, anew=False) if crate.makes_rlib() else 0
        status = status or crate.test_whole(flags)
        crate.out.seek(0)
        failed = f"{crate.name}: failed ({status})\n" if status else ""
        print(f"== {crate.name}\n{crate.out.read()}{failed}", end="", flush=True)
    return not status


def task(crate: Any, room: int) -> Task:
    """The task of a crate, for which there has to be this room in memory."""
    waits = [key(below) for below in crate.below()]
    return waits, crate.count(rb"\n"), room, lambda given, jobs: work(crate, given, jobs)


def every_crate(rt: Any, room: int) -> int:
    """Proves the crates at and below this folder. The status: 1 where one isn't proved."""
    crates = rt.rtlib.crates_below(os.getcwd())
    locks = rt.rtlib.lock(crates)
    given = rt.in_lanes({key(crate): task(crate, room) for crate in crates})
    for lock in locks:
        os.close(lock)
    return 0 if all(given.values()) else 1


def main() -> int:
    """Proves the crates. The status."""
    sys.dont_write_bytecode = True
    rt, lanes, room = load(sys.argv[1]), sys.argv[2], int(sys.argv[3])
    library: Any = getattr(rt, "rtlib", None)
    if is_known(rt):
        library.Crate.stamp = asked_once(library.Crate.stamp)
        library.every = lambda verb, at_once: every_crate(rt, room)
    elif hasattr(getattr(library, "Crate", None), "front_end"):
        library.Crate.front_end = lambda self: 0
    status: int = rt.main(["all", "test", "--jobs", lanes])
    return status


if __name__ == "__main__":
    sys.exit(main())
