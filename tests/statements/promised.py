"""What a crate promises is used outside it: a promise that says less breaks a proof elsewhere, or
is found here.

The crates of `PROMISE` have a function for a call, or for a law, of another crate, which the
comment above it names. Its proof is the call, so it can't promise more than the call does; here it
is compared with it, clause by clause, so that it doesn't promise less. Imported words are compared
by the names that their definitions have, parameters by their places. A law that no such function
has is called by a crate of the program, and so is each public call.
"""

import re
from typing import Any, Dict, Iterator, List, NamedTuple, Set, Tuple

from tests.common.cases import Cases
from tests.statements import clauses
from tests.statements.libraries import listed
from tests.statements.specs import imports_of

# The crates whose functions promise what a call of another crate does.
PROMISE = ("surface_texts", "surface_grammars", "surface", "surface_editors")
# The crates that call without promising anything: tests, examples and a program that times calls.
IDLE = re.compile(r"\w+_tests|uses|uses_editors|text_bench|worked|mending_bench")
# The crates whose calls and laws aren't all used outside them, with the reason.
APART = {
    "ide": "its program calls `run`, of which the others are parts",
}

CLAUSE = re.compile(r"^\s*((?:requires|ensures)\s+(?:\w+ )?)\{", re.M)
# A word that isn't a part of a name or a path, nor a field.
WORD = re.compile(r"(?<![\w.':])[A-Za-z_][\w']*")
BOUND = re.compile(r"\(([a-z_][\w' ]*) :|λ ([\w' ]+)\.")
# A type parameter before what a trait says of it.
OF_PARAMETER = re.compile(r"(?<![\w.'])[A-Z]\.(?=[a-z])")
PARAMETERS = re.compile(r"\bfn \w+(?:<.*?>)?\((.*?)\)(?= ->| where| requires| ensures|$)")
PARAMETER = re.compile(r"(?:^|,)\s*&?(?:'\w+ )?(?:mut )?(self|\w+(?=:))")
NAMED = re.compile(r"`((?:\w+::)?\w+)`")
COMMENTS = re.compile(r"//[^\n]*")


class Promise(NamedTuple):
    """The clauses of a call, or of a function that promises the same, each by what stands before
    it."""

    crate: str
    name: str
    clauses: Dict[str, str]
    # Whether it is a method of a trait, which may be called where the trait is.
    is_of_trait: bool = False


def renamed(clause: str, crate: str, names: Dict[str, Any], places: List[str]) -> str:
    """A clause with the names of definitions for what is imported, and numbers for parameters."""
    bound = {word for pair in BOUND.findall(clause) for part in pair for word in part.split()}

    def new(found: "re.Match[str]") -> str:
        word = found[0]
        if word in bound:
            return word
        if word in places:
            return f"#{places.index(word)}"
        return str(names[word][2]) if word in names else word

    text = WORD.sub(new, " ".join(clause.split()))
    return OF_PARAMETER.sub("", text.replace("<crate::", f"<{crate}::"))


def places_of(lines: List[str]) -> List[str]:
    """The names of a function's parameters, in order."""
    found = PARAMETERS.search(" ".join(" ".join(lines).split()))
    return PARAMETER.findall(found[1]) if found else []


def clauses_of(text: str) -> Iterator[Tuple[str, str]]:
    """The clauses of a contract, each up to the bracket that ends it, with what stands before them:
    `requires` or `ensures`, and a label or none."""
    for found in CLAUSE.finditer(text):
        depth, end = 1, found.end()
        while depth:
            depth += {"{": 1, "}": -1}.get(text[end], 0)
            end += 1
        yield found[1].strip(), text[found.end() : end - 1]


def promise_of(crate: str, name: str, lines: List[str], names: Dict[str, Any]) -> Promise:
    places = places_of(lines)
    found = clauses_of("\n".join(lines))
    return Promise(crate, name, {head: renamed(it, crate, names, places) for head, it in found})


def full_name(item: clauses.Item) -> str:
    """The name of a call as a comment has it: with its type or its trait, if it belongs to one."""
    trait, owner = clauses.owner_of(item) if item.owner else (None, None)
    before = (owner or trait or "").split("::")[-1]
    return f"{before}::{item.name}" if before else item.name


def promises(top: str, crate: str) -> Iterator[Promise]:
    """The promises of a crate's public calls and laws."""
    public = clauses.names_of(top, crate)
    for path in clauses.files_of(top, crate):
        lines = clauses.read(path)
        names, _ = imports_of("\n".join(lines))
        for item in clauses.items_of(lines):
            if clauses.is_told(item, public) and "fn " in item.lines[0]:
                made = promise_of(crate, full_name(item), item.lines, names)
                yield made._replace(is_of_trait=bool(re.search("^trait | for ", item.owner)))


def repeated(top: str) -> Dict[str, List[Promise]]:
    """The functions that promise what a call does, by the names of calls in their comments."""
    found: Dict[str, List[Promise]] = {}
    for crate in PROMISE:
        for path in clauses.files_of(top, crate):
            lines = clauses.read(path)
            names, _ = imports_of("\n".join(lines))
            comment = ""
            for k, line in enumerate(lines):
                if line.startswith("///"):
                    comment += line
                    continue
                if clauses.FUNCTION.match(line):
                    made = promise_of(crate, "", clauses.head_of(lines, k), names)
                    for name in NAMED.findall(comment):
                        found.setdefault(name, []).append(made)
                comment = ""
    return found


def part(promise: Promise, kind: str) -> Set[Tuple[str, str]]:
    """What a contract requires, or what it ensures."""
    return {it for it in promise.clauses.items() if it[0].startswith(kind)}


def weakened(promise: Promise, others: List[Promise]) -> Set[str]:
    """What a call ensures and the function doesn't, and what the function requires and the call
    doesn't: of several functions, of the one with the fewest such clauses."""
    found = (
        {*(part(promise, "ensures") - part(it, "ensures"))}
        | {*(part(it, "requires") - part(promise, "requires"))}
        for it in others
    )
    return {head for head, _ in min(found, key=len)}


def same_call(top: str, promise: Promise, others: Dict[str, List[Promise]]) -> List[Promise]:
    """The functions that promise what this call does, in crates that stand on its crate."""
    below = listed(top)
    named = others.get(promise.name, []) + others.get(f"{promise.crate}::{promise.name}", [])
    return [it for it in named if promise.crate in below[it.crate]]


def sources(top: str) -> Dict[str, str]:
    """What each crate's code says, without comments, but for the crates that promise nothing."""
    return {
        crate: "\n".join(
            COMMENTS.sub("", "\n".join(clauses.read(path))) for path in clauses.files_of(top, crate)
        )
        for crate in listed(top)
        if crate not in PROMISE and not IDLE.fullmatch(crate)
    }


def call_of(promise: Promise) -> "re.Pattern[str]":
    """What another crate has in its code that calls this: of a method its name, whatever it is a
    method of, and of a function its name with its crate's, or in an import from there."""
    owner, _, name = promise.name.rpartition("::")
    if owner:
        return re.compile(rf"(?:\.|::){name}(?:::<[^>]*>)?\(")
    path = rf"\b{promise.crate}::(?:\w+::)*"
    return re.compile(rf"{path}{name}\b|\buse {path}\{{[^;]*\b{name}\b")


def is_called(promise: Promise, texts: Dict[str, str], below: Dict[str, List[str]]) -> bool:
    """Whether another crate that stands on this one calls it."""
    call = call_of(promise)
    return any(
        call.search(text) and promise.crate in above(crate, below)
        for crate, text in texts.items()
        if crate != promise.crate
    )


def above(crate: str, below: Dict[str, List[str]]) -> Set[str]:
    """The crates that a crate stands on, directly or not."""
    found: Set[str] = set()
    left = [crate]
    while left:
        new = [it for it in below.get(left.pop(), []) if it not in found]
        found |= set(new)
        left += new
    return found


def unused(top: str) -> Tuple[List[str], List[str]]:
    """The clauses in which a function promises less than the call that it makes, and the calls and
    laws that nobody uses outside their crates."""
    others, texts, below = repeated(top), sources(top), listed(top)
    weaker, uncalled = [], []
    for crate in clauses.crates(top):
        if crate in APART or crate in clauses.BESIDES:
            continue
        for promise in promises(top, crate):
            place = f"{crate}: {promise.name}"
            same = same_call(top, promise, others)
            if same:
                weaker += [f"{place}: {head}" for head in weakened(promise, same)]
            elif not promise.is_of_trait and not is_called(promise, texts, below):
                uncalled.append(place)
    return sorted(weaker), sorted(uncalled)


def check(cases: Cases, top: str) -> None:
    weaker, uncalled = unused(top)
    cases.check("surface promises of each call no less than the call does", [], weaker)
    cases.check("each public call and law is used outside its crate", [], uncalled)
    gone = sorted(set(APART) - set(listed(top)))
    cases.check("the crates that are set apart are there", [], gone)
