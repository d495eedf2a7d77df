"""Random edits of files for tests/corpora: what `lrls serve` answers after each of them is compared
with what it answers where the same text is opened anew, in another process."""

import json
import os
import random
import re
from typing import Any, Dict, List, Sequence, Tuple

from tests.common.serving import Session, position

EDITED, FRESH = "corpus:edited", "corpus:fresh"
QUESTIONS = ["lr/text", "lr/tokens", "lr/tree", "textDocument/foldingRange"]
BRACKETS = {"(": ")", "[": "]", "{": "}", '"': '"', "'": "'", "/*": "*/", "<": ">"}
BREAK = re.compile("\r\n|\r|\n")
FILES, SIZES = 5, (40, 60_000)


# A change as the protocol has it.
Change = Dict[str, object]
# What the server says of a document, by what it was asked.
Answers = Dict[str, Any]


def units(text: str) -> int:
    return len(text.encode("utf-16-le")) // 2


class Typed:
    """A text that is edited at random. Each edit is a list of changes, each of them a first offset,
    an end, and a new text."""

    def __init__(self, text: str, choice: random.Random) -> None:
        self.text, self.choice = text, choice
        # The changes that take back those that were made, the last one last.
        self.undo: List[Tuple[int, int, str]] = []
        # Where closing brackets come, which, and after how many edits.
        self.closing: List[Tuple[int, str, int]] = []

    def place(self, offset: int) -> Tuple[int, int]:
        """The line and UTF-16 units of an offset."""
        breaks = [found.end() for found in BREAK.finditer(self.text) if found.end() <= offset]
        return len(breaks), units(self.text[breaks[-1] if breaks else 0 : offset])

    def offset(self) -> int:
        """A random offset, which isn't inside a line break."""
        at = self.choice.randint(0, len(self.text))
        return at + 1 if self.text[at - 1 : at + 1] == "\r\n" else at

    def change(self, first: int, end: int, new: str) -> Change:
        """Changes the text. Returns the change as the protocol has it."""
        ends = {"start": position(self.place(first)), "end": position(self.place(end))}
        self.undo.append((first, first + len(new), self.text[first:end]))
        self.text = self.text[:first] + new + self.text[end:]
        self.closing = [
            (at + (len(new) - end + first if at >= end else 0), mark, due)
            for at, mark, due in self.closing
        ]
        return {"range": ends, "text": new}

    def insert(self) -> List[Change]:
        at, begin = self.offset(), self.offset()
        piece = self.text[begin : begin + self.choice.randint(1, 20)] or "x"
        return [
            self.change(
                at, at, self.choice.choice([piece, piece, "\n", " ", "1", "x", "é", "\U0001f600"])
            )
        ]

    def delete(self) -> List[Change]:
        first, end = sorted((self.offset(), self.offset()))
        if self.choice.random() < 0.9:
            end = min(end, first + self.choice.randint(1, 30))
            end += self.text[end - 1 : end + 1] == "\r\n"
        return [self.change(first, end, "")]

    def move_line(self) -> List[Change]:
        starts = [0] + [found.end() for found in BREAK.finditer(self.text)] + [len(self.text)]
        line = self.choice.randrange(len(starts) - 1)
        first, end = starts[line], starts[line + 1]
        moved = self.text[first:end]
        changes = [self.change(first, end, "")]
        starts = [0] + [found.end() for found in BREAK.finditer(self.text)]
        at = self.choice.choice(starts)
        return [*changes, self.change(at, at, moved)]

    def open_bracket(self) -> List[Change]:
        mark, at = self.choice.choice(list(BRACKETS)), self.offset()
        changes = [self.change(at, at, mark)]
        self.closing.append(
            (self.choice.randint(at, len(self.text)), BRACKETS[mark], self.choice.randint(1, 5))
        )
        return changes

    def close_bracket(self) -> List[Change]:
        at, mark, _ = self.closing.pop(0)
        at = max(0, min(at, len(self.text)))
        at += self.text[at - 1 : at + 1] == "\r\n"
        return [self.change(at, at, mark)]

    def take_back(self) -> List[Change]:
        """Undoes the last change."""
        first, end, old = self.undo.pop()
        if "\r\n" in (self.text[first - 1 : first + 1], self.text[end - 1 : end + 1]):
            return self.insert()
        changes = [self.change(first, end, old)]
        self.undo.pop()
        return changes

    def edit(self, is_faulty: bool) -> List[Change]:
        """The next edit. A fault is mostly taken back, so that the text has a tree about half of
        the time."""
        self.closing = [(at, mark, due - 1) for at, mark, due in self.closing]
        if self.closing and self.closing[0][2] <= 0:
            return self.close_bracket()
        if self.undo and self.choice.random() < (0.7 if is_faulty else 0.1):
            return self.take_back()
        kinds = [
            self.insert,
            self.insert,
            self.delete,
            self.delete,
            self.move_line,
            self.open_bracket,
        ]
        return self.choice.choice(kinds)()


def answers(session: Session, uri: str, published: bytes) -> Answers:
    """What the server says of a document: its diagnostics, and the answer to each question."""
    reported = {"diagnostics": json.loads(published)["params"]["diagnostics"]}
    for question in QUESTIONS:
        answer = json.loads(session.ask(question, uri))
        reported[question] = answer.get("result", answer.get("error"))
    reported["lr/text"] = reported["lr/text"]["text"]
    return reported


def opened_anew(fresh: Session, text: str) -> Answers:
    found = answers(fresh, FRESH, fresh.open(FRESH, 1, text))
    fresh.forget(FRESH)
    return found


def differences(name: str, number: int, text: str, edited: Answers, anew: Answers) -> List[str]:
    """A line for each answer that isn't the one of a fresh open."""
    found = (
        [f"  {name}, edit {number}: the text isn't the edited one"]
        if edited["lr/text"] != text
        else []
    )
    for question in edited:
        if edited[question] != anew[question]:
            pair = around_difference(
                *[json.dumps(reported[question]) for reported in (edited, anew)]
            )
            found.append(
                f"  {name}, edit {number}: {question}\n    edited: {pair[0]}\n    opened: {pair[1]}"
            )
    return found


def around_difference(one: str, other: str) -> List[str]:
    """Of both texts the part where they begin to differ."""
    same = len(os.path.commonprefix([one, other]))
    return [text[max(0, same - 60) : same + 200] for text in (one, other)]


def edited_file(
    sessions: Sequence[Session], name: str, text: str, count: int, seed: int
) -> Tuple[List[str], int]:
    """Types so many edits. Returns a line for each difference, and how many texts had a fault."""
    session, fresh = sessions
    typed = Typed(text, random.Random(f"{seed} {name}"))
    edited = answers(session, EDITED, session.open(EDITED, 0, text))
    found: List[str] = []
    faulty = 0
    for number in range(1, count + 1):
        changes = typed.edit(bool(edited["diagnostics"]))
        edited = answers(session, EDITED, session.change(EDITED, number, changes))
        found += differences(name, number, typed.text, edited, opened_anew(fresh, typed.text))
        faulty += bool(edited["diagnostics"])
    session.forget(EDITED)
    return found, faulty


def run(name: str, texts: Sequence[Tuple[str, str]], count: int, seed: int) -> int:
    """Types so many edits, in a few of the texts. Returns how many answers differed."""
    fitting = [row for row in texts if SIZES[0] <= len(row[1]) <= SIZES[1]]
    fitting = random.Random(seed).sample(fitting, min(FILES, len(fitting)))
    if not fitting:
        print(f"  no edits, since no text has {SIZES[0]} to {SIZES[1]} characters")
        return 0
    sessions = [Session(os.path.join("grammars", name + ".lr")) for _ in range(2)]
    lines: List[str] = []
    faulty = 0
    for label, text in fitting:
        found, faults = edited_file(sessions, label, text, -(-count // len(fitting)), seed)
        lines, faulty = lines + found, faulty + faults
    for session in sessions:
        session.close()
    done = -(-count // len(fitting)) * len(fitting)
    size = sum(len(text.encode()) for _, text in fitting)
    print(
        f"  {done} edits in {len(fitting)} texts of {size} bytes, "
        f"after {faulty} of them a fault: {len(lines)} answers differ"
    )
    print("\n".join(lines) + "\n" if lines else "", end="", flush=True)
    return len(lines)
