"""Sessions with one document that is edited: deep parentheses, 10,000 edits with their counts, and
many changes in one message."""

import json
import random
from typing import Any, Dict, List, Tuple, Union

from tests.common import serving
from tests.common.cases import Cases
from tests.common.serving import SUMS
from tests.program.one_session import URI, change, published


# A change as the protocol has it.
Edit = Dict[str, Union[Dict[str, Dict[str, int]], str]]


class Client(serving.Session):
    """A session with one document, whose messages are answered one by one."""

    def __init__(self, text: str) -> None:
        super().__init__(SUMS)
        self.opened = json.loads(self.open(URI, 0, text))

    def reported(self, message: object) -> Any:
        return json.loads(self.send(message))

    def changed(self, version: int, *edits: Edit) -> Any:
        return json.loads(self.change(URI, version, edits))

    def asked(self, method: str) -> Any:
        return json.loads(self.ask(method, URI))["result"]


def nesting(cases: Cases, folder: str) -> None:
    """100,000 parentheses that nothing closes, and then what does."""
    depth = 100_000
    client = Client("(" * depth)
    end = {"character": depth, "line": 0}
    missed: Dict[str, Any] = {
        "message": "unexpected end; expected NUM, LP",
        "range": {"end": end, "start": end},
    }
    missed.update(severity=1, source="lrls")
    cases.check("open parentheses", published(0, [missed]), client.opened)
    mended = client.changed(1, change(depth, depth, "1" + ")" * depth))
    cases.check("closed parentheses", published(1, []), mended)
    stats = client.asked("lr/stats")
    nodes = stats.pop("nodes")
    made = 2 * depth + 2
    # The last open parenthesis had read the end of the text, so it is scanned again.
    awaited = {
        "branches": made,
        "built": made,
        "edit": 1,
        "scanned": depth + 2,
        "tokens": 2 * depth + 1,
    }
    cases.check("the counts of parentheses", awaited, stats)
    cases.check("the store of parentheses", True, made <= nodes <= 2 * made + 1024)
    tree = client.asked("lr/tree")
    cases.check("the tree of parentheses", depth + 1, tree.count("(Sum (Atom "))
    params = {"textDocument": {"uri": URI}}
    closed = client.reported(
        {"jsonrpc": "2.0", "method": "textDocument/didClose", "params": params}
    )
    cases.check("the end of parentheses", [], closed["params"]["diagnostics"])
    cases.check("the session of parentheses", 1, client.end())


def counts(cases: Cases, folder: str) -> None:
    """10,000 edits of a sum of at most 50 numbers, each of which makes nodes: the counts are right,
    and the store stays small."""
    client = Client("1")
    choice = random.Random(1)
    numbers = 1
    for edit in range(1, 10_001):
        longer = numbers == 1 or (numbers < 50 and choice.random() < 0.5)
        numbers += 1 if longer else -1
        edited = change(0, 0, "1+") if longer else change(0, 2, "")
        diagnosed = client.changed(edit, edited)
        stats = client.asked("lr/stats")
        nodes = stats.pop("nodes")
        # The numbers that stood there are kept; all sums begin at the first number, so none of them
        # is.
        built = numbers + 1 if longer else numbers
        awaited = {"branches": 2 * numbers, "built": built, "edit": edit}
        awaited.update(scanned=2 if longer else 0, tokens=2 * numbers - 1)
        is_bounded = stats["branches"] <= nodes <= 2 * stats["branches"] + 1024
        right = diagnosed == published(edit, []) and stats == awaited and is_bounded
        cases.check(f"edit {edit}", (awaited, True), (stats, right))
        if not right:
            break
    cases.check("the end of 10,000 edits", 1, client.end())


def random_edits(choice: random.Random, text: str, count: int) -> Tuple[List[Edit], str]:
    """So many changes of a text in one line, some of them near the last one, and the text after
    them."""
    edits = []
    near = 0
    for _ in range(count):
        from_ = min(near, len(text)) if choice.random() < 0.5 else choice.randint(0, len(text))
        to = min(from_ + choice.choice([0, 0, 0, 1, 3]), len(text))
        new = choice.choice(["", "1", "1", "+", "1+", "(", ")", " ", "?"])
        edits.append(change(from_, to, new))
        text = text[:from_] + new + text[to:]
        near = from_ + len(new)
    return edits, text


def reports(client: Client) -> List[Any]:
    """What a client is told of its document, but for the nodes in memory."""
    stats = client.asked("lr/stats")
    del stats["nodes"]
    return [stats, *(client.asked(method) for method in ("lr/text", "lr/tokens"))]


def changes_together(cases: Cases, folder: str) -> None:
    """Changes in one message give what they give each in a message of its own, at few places and at
    many; and 100,000 changes that lengthen one number, at both of its ends, are replied to in
    seconds."""
    choice = random.Random(1)
    text = "+".join(["1"] * 300)
    together, apart = Client(text), Client(text)
    for version, count in enumerate([1, 2, 2, 3, 5, 8, 13, 21, 300, 1, 300, 600, 2, 900], 1):
        edits, text = random_edits(choice, text, count)
        diagnosed = together.changed(version, *edits)
        for edit in edits:
            awaited = apart.changed(version, edit)
        cases.check(
            f"{count} changes in message {version}",
            (awaited, reports(apart)),
            (diagnosed, reports(together)),
        )
        cases.check(f"the text after message {version}", text, together.asked("lr/text")["text"])
    cases.check("the ends of both", (1, 1), (together.end(), apart.end()))
    client = Client("1")
    edits = [change(0, 0, "1") if k % 2 else change(k + 1, k + 1, "1") for k in range(100_000)]
    cases.check("100,000 changes", published(1, []), client.changed(1, *edits))
    stats = client.asked("lr/stats")
    awaited = {"branches": 2, "built": 0, "edit": 100_000, "scanned": 1, "tokens": 1}
    cases.check(
        "the counts after 100,000 changes", awaited, {name: stats[name] for name in awaited}
    )
    cases.check("the end of 100,000 changes", 1, client.end())
