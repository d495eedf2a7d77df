"""The crates' pages and their examples.

The comment at the head of a crate's root file is its page: what the crate is for, the first call,
its words, its limits, and, of a library, an example. The example is the body of the crate's
function in `crates/uses`, or, of a crate of the editor's server, in `crates/uses_editors`. Both
are proved and run, and the comments in them say what is printed.
"""

import os
import re
from typing import Dict, List

from tests.common.cases import Cases
from tests.statements.specs import lines_of

# The crates that run examples.
USERS = ("uses", "uses_editors")

# The fewest and the most lines of a page.
LINES_OF_PAGES = (10, 30)

USE = re.compile(r"^pub fn use_(\w+)\(.*?(?:^| )\{\n(.*?)^\}$", re.M | re.S)


def products(top: str) -> List[str]:
    """The crates of the program, lowest first."""
    text = "\n".join(lines_of(os.path.join(top, "crates.txt")))
    return re.findall(r"^(\w+):", text[: text.index("# What tests share")], re.M)


def root_of(top: str, crate: str) -> str:
    """The root file of a library, or of a program."""
    folder = os.path.join(top, "crates", crate, "src")
    return next(
        path
        for name in ("lib.rt", "main.rt")
        for path in [os.path.join(folder, name)]
        if os.path.exists(path)
    )


def page_of(root: str) -> List[str]:
    """The lines of the page at the head of a root file."""
    return [line[len("//! ") :] for line in lines_of(root) if line.startswith("//!")]


def example_on(page: List[str]) -> List[str]:
    """The lines of the example on a page."""
    edges = [number for number, line in enumerate(page) if line == "```"]
    return page[edges[0] + 1 : edges[1]] if len(edges) == 2 else []


def plain(lines: List[str]) -> str:
    """An example without its layout: a page may have in one line what `rt fmt` breaks."""
    return re.sub(r",(?=[)}\]])", "", re.sub(r"\s+", "", "\n".join(lines)))


def uses(top: str, user: str) -> Dict[str, List[str]]:
    """The lines of each example that this crate runs, by the crate of the example."""
    folder = os.path.join(top, "crates", user, "src")
    found = {}
    for name in sorted(os.listdir(folder)):
        for crate, body in USE.findall("\n".join(lines_of(os.path.join(folder, name)))):
            lines = [line[len("    ") :] for line in body.splitlines()]
            found[crate] = lines[:-1] if lines[-1] == "Some(())" else lines
    return found


def printed(top: str, user: str, examples: Dict[str, List[str]]) -> List[str]:
    """What the comments say is printed, in the order in which this crate runs the examples."""
    calls = re.findall(
        r"::use_(\w+)\(", "\n".join(lines_of(os.path.join(top, "crates", user, "src", "main.rt")))
    )
    return [
        line.strip()[len("// ") :]
        for crate in calls
        for line in examples.get(crate, [])
        if line.strip().startswith("// ")
    ]


def check(cases: Cases, top: str) -> None:
    """Each crate of the program has a page. That of a library has an example, which is run, and
    prints what its comments say."""
    run = {user: uses(top, user) for user in USERS}
    examples = {crate: lines for found in run.values() for crate, lines in found.items()}
    fewest, most = LINES_OF_PAGES
    for crate in products(top):
        root = root_of(top, crate)
        page = page_of(root)
        cases.check(
            f"the page of {crate}: its lines are from {fewest} to {most}",
            True,
            fewest <= len(page) <= most,
        )
        example = example_on(page)
        cases.check(
            f"the page of {crate}: a library's has an example",
            root.endswith("lib.rt"),
            bool(example),
        )
        cases.check(
            f"the page of {crate}: its example is the one that is run",
            plain(examples.get(crate, [])),
            plain(example),
        )
    cases.check("each example that is run is of a crate", set(), set(examples) - set(products(top)))
    for user, found in run.items():
        awaited = lines_of(os.path.join(top, "crates", user, "stdout"))[:-1]
        cases.check(
            f"the comments of crates/{user} say what it prints", awaited, printed(top, user, found)
        )
