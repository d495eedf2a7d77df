"""The runner of groups, for what has to run without pytest.

A group is a function of the cases and of a folder of its own. How many cases it has at least stands
beside it, so that one that loses some fails.
"""

import sys
import tempfile
import traceback
from typing import Callable, List, Mapping, Sequence

from tests.common.cases import Cases

Group = Callable[[Cases, str], None]


def chosen(program: str, groups: Mapping[Group, int], names: Sequence[str]) -> List[Group]:
    """The groups of these names, or all of them where no name is given. A name of none ends the
    program."""
    known = {group.__name__: group for group in groups}
    unknown = [name for name in names if name not in known]
    if unknown:
        message = f"no group {', '.join(unknown)}; the groups are {', '.join(known)}"
        print(f"{program}: {message}", file=sys.stderr)
        sys.exit(2)
    return [group for name, group in known.items() if not names or name in names]


def run(cases: Cases, group: Group, least: int) -> None:
    """Runs a group. One that doesn't come to its end is a failed case, and so is one that has fewer
    cases than it should."""
    before = cases.count()
    with tempfile.TemporaryDirectory() as folder:
        try:
            group(cases, folder)
        except Exception:
            name = f"the group {group.__name__} runs to its end"
            cases.check(name, "", traceback.format_exc())
    had = cases.count() - before
    if had < least:
        cases.check(f"the cases of the group {group.__name__}", f"at least {least}", had)


def status(cases: Cases) -> int:
    """Prints how many cases passed and failed. The status to end with."""
    print(f"{cases.passed} passed, {cases.failed} failed")
    return 1 if cases.failed else 0
