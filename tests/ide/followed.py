"""Random edits of texts with faults: after each, the diagnostics, the outline, the folds and the
fixes are those of a fresh `lrls-ide` that opens the text as it is."""

import random
from typing import Any, Dict

from tests.common.cases import Cases
from tests.ide.client import Client, Message
from tests.ide.random_edits import Edited
from tests.ide.samples import SAMPLES, sample

URI = "a:text"
ALL = {"start": {"line": 0, "character": 0}, "end": {"line": 1 << 30, "character": 0}}
EDITS = 150
# What the sample of a language is edited with.
PIECES = {
    "script": ("{", "}", "(", ")", ";", "x", "=", "let y = 2;\n", "fn g(a) { return a; }\n", '"'),
    "json": ("{", "}", "[", "]", ",", ":", "7", '"a"', '"b": {},', '"'),
    "lua": ("(", ")", "end", "x", "=", "local z = 1\n", "if x then y() end\n", "do ", "["),
}
# How often a text has the sample of its language: a copy that follows passes over most of it.
COPIES = 6
# How many characters an edit is mostly away from one before.
NEAR = 60


class Nearby(Edited):
    """A text whose edits mostly come near one another, so that what mends a fault depends on
    those before and behind it."""

    def place(self) -> int:
        if not self.undo or self.choice.random() < 0.2:
            return super().place()
        start = self.undo[-1][0] + self.choice.randint(-NEAR, NEAR)
        return min(max(start, 0), len(self.text))


def text_of(language: str) -> str:
    """A text of some thousand tokens."""
    copies = [sample(SAMPLES[language])] * COPIES
    return f"[{','.join(copies)}]" if language == "json" else "\n".join(copies)


def told(client: Client, version: int) -> Dict[str, Any]:
    """All that is said of the faults of a text, and of what stands behind them."""
    context: Message = {"diagnostics": []}
    return {
        "diagnostics": client.published(URI, version),
        "outline": client.outline(URI),
        "folds": client.ask("textDocument/foldingRange", URI),
        "fixes": client.ask("textDocument/codeAction", URI, range=ALL, context=context),
    }


def followed(cases: Cases, _: str) -> None:
    """A copy that follows edits says what one says that is made anew."""
    for seed, (language, pieces) in enumerate(PIECES.items(), 1):
        edited = Nearby(random.Random(seed), text_of(language), pieces)
        behind = 0
        with Client(language) as client, Client(language) as fresh:
            client.open(URI, edited.text)
            told(client, 1)
            for version in range(2, EDITS + 2):
                client.change(URI, version, edited.edit())
                fresh.open(URI, edited.text, version)
                awaited, found = told(fresh, version), told(client, version)
                behind += len(awaited["diagnostics"]) > 1
                for kind, value in awaited.items():
                    cases.check(f"{language}: {kind} after edit {version}", value, found[kind])
                fresh.close(URI)
                fresh.published(URI, None)
        cases.check(f"{language}: faults behind the first", True, behind >= EDITS // 3)


GROUPS = [followed]
