"""Shows that the cases of tests/program can fail: runs its groups on programs that are wrong in one
thing each. A few of them, others each day; all of them with --all.
Needs Python 3.8, the program, and a C compiler for those that are wrong where memory is refused.
One of them: pytest tests/wrong/test_programs.py -k "usage and command_lines"

A wrong program is the built one with one thing spoiled: tests/wrong/spoils.py lists them, and the
groups that have to see each. A row that fails on the right program too shows nothing, so run
tests/program first; and after a change of tests/wrong/spoils.py this with --all, which also runs
the groups on programs that are made as the wrong ones are, but with nothing spoiled.
"""

import os
import shutil
import subprocess
import sys
from pathlib import Path
from typing import Dict, List, Tuple

import pytest

from tests import TOP
from tests.common import serving
from tests.common.cases import placed
from tests.wrong import spoils
from tests.wrong.trying import first_failed, some

# The groups of tests/program that have to see what is wrong where memory is refused.
AT_REFUSALS = ["memory", "refusals"]
# How many rows the gate runs.
FEW = 4

Row = Tuple[str, str]


def script(folder: str, name: str) -> str:
    """The path of the wrong program of this name."""
    lines = [
        f"#!{sys.executable} -IB",
        "import sys",
        f"sys.path.insert(0, {TOP!r})",
        "from tests.wrong import spoils",
        f"spoils.run({name!r}, {serving.PROGRAM!r})",
    ]
    path = placed(folder, name.replace(" ", "-"), "\n".join([*lines, ""]).encode())
    os.chmod(path, 0o700)
    return path


def compiled(folder: str, name: str, wrong: str) -> str:
    """The path of the program of this name that does this where memory is refused."""
    path = os.path.join(folder, name.replace(" ", "-"))
    text = spoils.CRASHES.replace("WRONG", wrong)
    source = placed(folder, "wrong.c", ("#include <signal.h>\n" + text).encode())
    subprocess.run(["cc", "-O1", f'-DRIGHT="{serving.PROGRAM}"', "-o", path, source], check=True)
    return path


def rows(scripts: List[spoils.Spoil], at_refusals: Dict[str, str]) -> List[Row]:
    """The name of each of these programs with each of its groups."""
    found = [(spoil.name, group) for spoil in scripts for group in spoil.groups]
    return found + [(name, group) for name in at_refusals for group in AT_REFUSALS]


WRONG = [(*row, True) for row in rows(spoils.SPOILS, spoils.WRONG_AT_REFUSALS)]
RIGHT = [(*row, False) for row in rows(spoils.NOTHING, spoils.NOTHING_AT_REFUSALS)]


def pytest_generate_tests(metafunc: pytest.Metafunc) -> None:
    takes_all = bool(metafunc.config.getoption("--all") or metafunc.config.getoption("-k"))
    chosen = some(WRONG, FEW, takes_all) + (RIGHT if takes_all else [])
    ids = [f"{name}: {group}" for name, group, _ in chosen]
    metafunc.parametrize("name, group, is_wrong", chosen, ids=ids)


def program(folder: str, name: str) -> str:
    """The path of the program of this name."""
    wrong = {**spoils.WRONG_AT_REFUSALS, **spoils.NOTHING_AT_REFUSALS}.get(name)
    if wrong is None:
        return script(folder, name)
    if not shutil.which("cc"):
        pytest.skip("what is wrong where memory is refused needs gcc, as cc")
    return compiled(folder, name, wrong)


@pytest.mark.usefixtures("programs")
def test_program(name: str, group: str, is_wrong: bool, tmp_path: Path) -> None:
    words = [sys.executable, os.path.join(TOP, "tests", "program", "run"), group]
    failed = first_failed(words, {"LRLS_PROGRAM": program(str(tmp_path), name)})
    assert (failed is not None) == is_wrong, failed or "all passed"
