"""What `rt ci` prints of the wrong edits, `crates/NAME/must-fail/EDIT.edit`: which of them no
contract refuses.

`rt` counts an edit as refused wherever the crate isn't proved with it, also where only a proof
names what the edit took away, or where the prover met a limit of its own. Neither shows anything of
a contract, and the edit's line says so, in brackets behind the words that it is refused. So every
line that has more behind these words than a reason is counted, whatever it says.
"""

import os
import re
from typing import Dict, Iterable, List, Sequence

from tests.common.cases import Cases

LINE = re.compile(r"must-fail ([\w.-]+/[\w.-]+)\.edit: (.*)")
# A crate that the kit doesn't prove again, as its edits aren't tried again.
KEPT = re.compile(r"rt: (\w+) is kept: ")
REFUSED = re.compile(r"refused, as it must be(?::.*)?")


def told_of(lines: Iterable[str]) -> Dict[str, str]:
    """What is said of each edit."""
    found = (LINE.search(line) for line in lines)
    return {it[1]: it[2] for it in found if it}


def weak(told: Dict[str, str]) -> List[str]:
    """The edits that aren't refused, or of which it is said that no contract refuses them."""
    return sorted(name for name, said in told.items() if not REFUSED.fullmatch(said))


def edits_of(top: str) -> List[str]:
    """The names of all edits, with their crates."""
    crates = os.path.join(top, "crates")
    folders = {
        crate: os.path.join(crates, crate, "must-fail") for crate in sorted(os.listdir(crates))
    }
    return [
        f"{crate}/{name[: -len('.edit')]}"
        for crate, folder in folders.items()
        if os.path.isdir(folder)
        for name in sorted(os.listdir(folder))
        if name.endswith(".edit")
    ]


def untold(lines: Sequence[str], top: str) -> List[str]:
    """The edits of which nothing is said, where their crates aren't kept."""
    told = told_of(lines)
    kept = {found[1] for found in map(KEPT.search, lines) if found}
    return [it for it in edits_of(top) if it not in told and it.partition("/")[0] not in kept]


def faults(lines: Sequence[str], top: str) -> List[str]:
    """What is wrong with the edits, by what was printed of them."""
    told = told_of(lines)
    return [f"{name}: {told[name]}" for name in weak(told)] + [
        f"{name}: nothing is said of it" for name in untold(lines, top)
    ]


def summary(lines: Sequence[str], top: str) -> str:
    """How many edits there are, and how many of them no contract refuses, by the cause."""
    told = told_of(lines)
    bad = [told[name] for name in weak(told)]
    alone = sum(said.startswith("refused") for said in bad)
    return (
        f"{len(edits_of(top))} wrong edits, of which {len(told)} were tried: {alone} are refused "
        "without a contract (a name of a proof is missing, or the prover met a limit), "
        f"{len(bad) - alone} aren't refused, and of {len(untold(lines, top))} nothing is said; "
        "the bound of each is none"
    )


def check(cases: Cases, top: str) -> None:
    """An edit that a name alone refuses is told from one that a contract refuses."""
    refused = [
        f"rt: must-fail {name}.edit: refused, as it must be: src/lib.rt:1:1: error: it is not proved"
        for name in edits_of(top)
    ]
    cases.check("edits that contracts refuse are no faults", [], faults(refused, top))
    cases.check("an edit of which nothing is said is one", 1, len(faults(refused[1:], top)))
    kept = f"rt: {edits_of(top)[0].partition('/')[0]} is kept: an earlier run proved the same files"
    cases.check("unless its crate is kept", [], faults([kept, *refused[1:]], top))
    for said in (
        "refused, as it must be (only because a proof file names what the edit took away, so this "
        "says little of the contract)",
        "refused, as it must be (only by a limit of the prover, which gave no verdict)",
        "NOT REFUSED: the crate is still proved with this edit",
        "BAD EDIT: the prover cannot read the edited text",
        "NOT TRIED: its check was killed",
    ):
        other = refused[0].replace(
            "refused, as it must be: src/lib.rt:1:1: error: it is not proved", said
        )
        cases.check(f"an edit is a fault: {said[:40]}", 1, len(faults([other, *refused[1:]], top)))
