"""Random edits of texts that are open in `lrls-ide`, whose grammar is written at random: text,
tokens, colours and outline have to be those of a fresh start."""

import os
import random
import shutil
from typing import Dict, List, Optional, Sequence, Tuple

from tests import TOP
from tests.common.cases import Cases
from tests.ide.client import Client, change, with_edits
from tests.ide.samples import sample, written

EDITS, WRITINGS, LOOKS = 10_000, 40, 125
# So many of the edits come one by one, each with a look at the colours alone.
SINGLE = 1_200
URI, FRESH = "a:edited", "a:fresh"
LANGUAGES = {
    "script": [
        "script.txt",
        *("{", "}", "(", ")", ";", "x", " ", "\n", "\r\n", '"', "/*", "*/", "é", "\U0001f600"),
        *("let x = 1;", "fn f() { return 1; }"),
    ],
    "json": [
        "json.json",
        *("{", "}", "[", "]", ",", '"', "\n", " ", "\r", "é", "\U0001f600", "7"),
        *('"a": 1', '"b": {}'),
    ],
}

# The first and the end of a part of a text, and what comes in its place.
Undo = Tuple[int, int, str]


class Edited:
    """A text that is edited at random, and undone from time to time, so that it is whole again."""

    def __init__(self, choice: random.Random, sample: str, pieces: Sequence[str]) -> None:
        self.choice, self.sample, self.pieces = choice, sample, pieces
        self.text = sample
        self.undo: List[Undo] = []

    def place(self) -> int:
        """Where the next edit begins."""
        return self.choice.randint(0, len(self.text))

    def edit(self) -> Dict[str, object]:
        """The next change."""
        if self.undo and self.choice.random() < 0.5 or len(self.undo) > 40:
            start, end, new = self.undo.pop()
        else:
            start = self.place()
            end = min(len(self.text), start + self.choice.choice([0, 0, 0, 1, 1, 4, 20]))
            new = self.choice.choice(["", *self.pieces])
            start, end = self.outside(start), self.outside(end)
            self.undo.append((start, start + len(new), self.text[start:end]))
        # A change that made a break longer can't be taken back.
        if self.outside(start) != start or self.outside(end) != end:
            self.undo.clear()
            start, end = self.outside(start), self.outside(end)
        changed, self.text = change(self.text, start, end, new)
        return changed

    def undone(self) -> List[Dict[str, object]]:
        """The changes that take all back that can be."""
        changes = []
        while self.undo:
            start, end, new = self.undo.pop()
            changed, self.text = change(self.text, self.outside(start), self.outside(end), new)
            changes.append(changed)
        return changes

    def outside(self, offset: int) -> int:
        """An offset, or the one before, where it is within a break: no position stands for that."""
        return offset - (self.text[max(offset - 1, 0) : offset + 1] == "\r\n")


class Trial:
    """One language: a client with the edited text, whose files lie in a folder of their own, and
    another one that always begins anew."""

    def __init__(self, cases: Cases, language: str, folder: str, seed: int) -> None:
        self.cases, self.language = cases, language
        name, *pieces = LANGUAGES[language]
        self.choice = random.Random(seed)
        self.edited = Edited(self.choice, sample(name), pieces)
        for end in (".lr", ".toml"):
            shutil.copy(os.path.join(TOP, "grammars", language + end), folder)
        self.path = os.path.join(folder, language + ".lr")
        with open(self.path, encoding="utf-8") as file:
            self.grammar = file.read()
        self.client, self.fresh = Client(self.path), Client(language)
        self.version, self.looks, self.writings, self.faulty = 1, 0, 0, 0
        # The name of the colours that were asked for last, and they.
        self.colours: Tuple[Optional[str], List[int]] = (None, [])

    def look(self) -> None:
        """Compares all that is said of the text with what a fresh start says."""
        self.looks += 1
        name = f"{self.language}, after edit {self.version}"
        text = self.edited.text
        awaited = {"text": text, "version": self.version}
        self.cases.check(f"{name}: the text", awaited, self.client.ask("lr/text", URI))
        self.fresh.open(FRESH, text)
        self.faulty += bool(self.fresh.published(FRESH))
        tokens = [client.ask("lr/tokens", uri) for client, uri in self.both()]
        self.cases.check(f"{name}: the tokens", tokens[1], tokens[0])
        self.cases.check(f"{name}: the colours", self.fresh.colours(FRESH)["data"], self.delta())
        outlines = [client.outline(uri) for client, uri in self.both()]
        self.cases.check(f"{name}: the outline", outlines[1], outlines[0])
        self.fresh.close(FRESH)

    def take_back(self) -> None:
        """Makes the text as whole as it was before the last changes, in one message. Where a break
        has grown, it begins anew."""
        self.version += 1
        changes = self.edited.undone()
        if self.edited.text != self.edited.sample:
            changes.append({"text": self.edited.sample})
            self.edited.text = self.edited.sample
        self.client.change(URI, self.version, *changes)

    def look_at_colours(self) -> None:
        """Compares the colours after one edit: those of some lines, and all of them by what has
        changed."""
        name = f"{self.language}, after edit {self.version}"
        lines = {"start": {"line": 0, "character": 0}, "end": {"line": 3, "character": 0}}
        self.fresh.open(FRESH, self.edited.text)
        self.fresh.published(FRESH)
        parts = [client.colours_of(uri, lines) for client, uri in self.both()]
        self.cases.check(f"{name}: the colours of some lines", parts[1], parts[0])
        whole = self.fresh.colours(FRESH)["data"]
        self.cases.check(f"{name}: the colours alone", whole, self.delta())
        self.fresh.close(FRESH)

    def both(self) -> List[Tuple[Client, str]]:
        return [(self.client, URI), (self.fresh, FRESH)]

    def delta(self) -> List[int]:
        """The colours, by what has changed of those asked before."""
        number, data = self.colours
        method = "textDocument/semanticTokens/full/delta"
        answer = self.client.ask(method, URI, previousResultId=number or "none")
        data = answer["data"] if "data" in answer else with_edits(data, answer["edits"])
        self.colours = answer["resultId"], data
        return data

    def write(self) -> None:
        """Writes the grammar, with another comment at its end."""
        self.writings += 1
        written(self.path, f"{self.grammar}# {self.writings}\n")

    def run(self, edits: int, writings: int) -> None:
        self.client.open(URI, self.edited.text)
        for _ in range(SINGLE // len(LANGUAGES)):
            self.version += 1
            self.client.change(URI, self.version, self.edited.edit())
            self.look_at_colours()
        for number in range(1, edits - SINGLE // len(LANGUAGES) + 1):
            self.version += 1
            self.client.change(URI, self.version, self.edited.edit())
            if number % (edits // LOOKS) == 0:
                if self.looks % 2:
                    self.take_back()
                self.look()
            if number % (edits // writings) == self.choice.randrange(edits // writings):
                self.write()
        self.look()
        method = "workspace/semanticTokens/refresh"
        asked = [it for it in self.client.notes if it.get("method") == method]
        is_asked = 0 < len(asked) <= self.writings
        self.cases.check(f"{self.language}: new colours are asked for", True, is_asked)
        statuses = (self.client.leave(), self.fresh.leave())
        self.cases.check(f"{self.language}: the ends of both", (0, 0), statuses)
        print(
            f"{self.language}: {edits} edits, {self.writings} writings, {self.looks} looks, "
            f"{self.faulty} of them at a faulty text"
        )


def run(cases: Cases, folder: str) -> None:
    for seed, language in enumerate(LANGUAGES, 1):
        trial = Trial(cases, language, folder, seed)
        trial.run(EDITS // len(LANGUAGES), WRITINGS // len(LANGUAGES))
