"""What the suites of pytest share: their options, the programs that they need, and their checks.

A test may have thousands of checks, which go on where one fails: each is told, and the test fails
at its end. A test has no time that it may take, since a slow machine isn't a fault: only the time
from one check to the next is limited, and the clients of servers have a patience of their own.
"""

import os
import signal
import sys
from types import FrameType
from typing import Any, Iterator, List, Optional

import pytest

sys.dont_write_bytecode = True

# How many times the patience with one answer a check may take.
PATIENCES = 10
# What comes before the tests that failed. So many lines are told of each, and so much of a line.
IN_SHORT = "What failed, in short:"
MOST_LINES, MOST_LETTERS = 12, 300


def pytest_addoption(parser: pytest.Parser) -> None:
    add = parser.addoption
    add("--quick", action="store_true", help="test the programs that are made without a proof")
    add("--pictures", action="store_true", help="draw the pictures in docs/ anew")
    add("--minutes", type=float, help="editors: type at random as much as so many minutes have")
    add("--lag", action="store_true", help="editors: time how late a key shows; with -s")
    add("--all", action="store_true", help="wrong: all that is wrong, and not a few of them")


def pytest_configure(config: pytest.Config) -> None:
    """Chooses the programs, before anything is imported that reads the environment."""
    if config.getoption("--quick"):
        os.environ["LRLS_QUICK"] = "1"
    config.stash[CHECKS] = [0, 0]


CHECKS = pytest.StashKey[List[int]]()


def pytest_terminal_summary(terminalreporter: Any, config: pytest.Config) -> None:
    """What failed, in short, and how many checks there were."""
    stats = terminalreporter.stats
    reports = [report for kind in ("failed", "error") for report in stats.get(kind, [])]
    if reports:
        terminalreporter.write_line(IN_SHORT)
    for report in reports:
        terminalreporter.write_line(report.nodeid)
        for line in in_short(report):
            terminalreporter.write_line(f"  {line}")
    passed, failed = config.stash[CHECKS]
    terminalreporter.write_line(f"{passed} checks passed, {failed} failed")


def in_short(report: Any) -> List[str]:
    """What a test that failed has printed, and with what it ended."""
    crash = getattr(report.longrepr, "reprcrash", None)
    told = f"{crash.path}:{crash.lineno}: {crash.message}" if crash else str(report.longrepr)
    ends = told.splitlines()[:MOST_LINES] if crash else told.splitlines()[-MOST_LINES:]
    lines = [*getattr(report, "capstdout", "").splitlines()[:MOST_LINES], *ends]
    return [line[:MOST_LETTERS] for line in lines]


def fail_if_required(report: Any) -> None:
    """Makes a failure of a skip for want of what has to be there (LRLS_REQUIRE)."""
    from tests.common.needs import is_required

    if report.skipped and isinstance(report.longrepr, tuple):
        *place, reason = report.longrepr
        if is_required(reason.rpartition("Skipped: ")[2]):
            report.outcome, report.longrepr = "failed", f"{place[0]}: {reason}, and it is required"


def leave_out_its_inside(found: Any) -> None:
    """Of an exception of selenium only the message is told, and where a test has met it."""
    if found is not None and type(found.value).__module__.startswith("selenium."):
        found.value.stacktrace = None
        found.traceback = found.traceback.filter(lambda it: "selenium" not in str(it.path))


@pytest.hookimpl(hookwrapper=True)
def pytest_runtest_makereport(call: Any) -> Iterator[None]:
    leave_out_its_inside(call.excinfo)
    made: Any = yield
    fail_if_required(made.get_result())


@pytest.hookimpl(hookwrapper=True)
def pytest_make_collect_report() -> Iterator[None]:
    made: Any = yield
    fail_if_required(made.get_result())


def ended(signum: int, frame: Optional[FrameType]) -> None:
    raise TimeoutError("no check came for too long")


@pytest.fixture
def cases(request: pytest.FixtureRequest) -> Iterator[Any]:
    """The checks of a test, which fails where one of them does."""
    from tests.common.cases import Cases
    from tests.common.serving import PATIENCE

    class Timed(Cases):
        """Cases each of which has to come in time after the one before."""

        def check(self, name: str, awaited: object, ran: object) -> None:
            signal.alarm(PATIENCES * PATIENCE)
            super().check(name, awaited, ran)

    found = Timed()
    before = signal.signal(signal.SIGALRM, ended)
    signal.alarm(PATIENCES * PATIENCE)
    yield found
    signal.alarm(0)
    signal.signal(signal.SIGALRM, before)
    counts = request.config.stash[CHECKS]
    counts[:] = [counts[0] + found.passed, counts[1] + found.failed]


@pytest.fixture(scope="session")
def programs(request: pytest.FixtureRequest) -> None:
    """The programs, made where they aren't. What that prints is shown, since it may take long."""
    from tests.common import serving

    with request.config.pluginmanager.getplugin("capturemanager").global_and_fixture_disabled():
        serving.build()


@pytest.fixture
def draws(request: pytest.FixtureRequest) -> bool:
    """Whether the pictures are drawn anew."""
    return bool(request.config.getoption("--pictures"))
