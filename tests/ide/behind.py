"""What is shown behind the faults of a text: at each place what is shown there in the text after its
fixes, in hovers, of brackets, and of what may follow."""

import random
import re
from typing import Any, List, Optional, Sequence, Tuple

from tests.common.cases import Cases
from tests.ide.client import Client, Message, numbers, place
from tests.ide.faulty import Token
from tests.ide.samples import SAMPLES, sample

URI = "a:text"
MENDED = "a:mended"
# How many texts with one fault, and how many with two, are made of each sample.
PLANTED = (6, 4)
# At how many places of each text it is asked.
ASKED = 4
BRACKETS = ("(", ")", "[", "]", "{", "}", "begin", "end")
WORD = re.compile(r"\w*\Z")

# From one offset up to another.
Span = Tuple[int, int]
# An edit: what gives way, and the text in its place.
Edit = Tuple[int, int, str]


def offsets(text: str, span: Message) -> Span:
    """The offsets of a range in a text of ASCII, whose lines end by line feeds."""
    starts = [0, *(found.end() for found in re.finditer("\n", text))]
    first_line, first, last_line, last = numbers(span)
    return starts[first_line] + first, starts[last_line] + last


def tokens_of(client: Client, uri: str, text: str) -> List[Tuple[str, Span]]:
    """The tokens of a document that aren't blank: their rules, and where they stand."""
    rows: List[Token] = client.ask("lr/tokens", uri)
    starts = [0, *(found.end() for found in re.finditer("\n", text))]
    spans = [(row[0], (starts[row[1]] + row[2], starts[row[3]] + row[4])) for row in rows]
    return [(rule, span) for rule, span in spans if text[slice(*span)].strip()]


def planted(choice: random.Random, text: str, spans: Sequence[Span], count: int) -> str:
    """A text in which so many tokens are left out or stand twice."""
    for start, end in sorted(choice.sample(list(spans), count), reverse=True):
        twice = choice.random() < 0.5
        text = (
            f"{text[:end]} {text[start:end]} {text[end:]}" if twice else text[:start] + text[end:]
        )
    return text


def whole(client: Client, text: str) -> Optional[Tuple[str, List[Edit]]]:
    """A faulty text after the preferred fix of each of its faults, and the edits that were made;
    none where more or fewer fixes than faults make it whole."""
    client.open(MENDED, text)
    found = client.published(MENDED)
    edits: List[Edit] = []
    for _fault in list(found):
        if not found:
            break
        fault = found[0]["range"]
        context: Message = {"diagnostics": []}
        fixes = client.ask("textDocument/codeAction", MENDED, range=fault, context=context)
        fixes = [it for it in fixes if it["isPreferred"]]
        fixes = [it for it in fixes if it["diagnostics"][0]["range"] == fault]
        if not fixes:
            break
        for it in reversed(fixes[0]["edit"]["changes"][MENDED]):
            start, end = offsets(text, it["range"])
            edits.append((start, end, it["newText"]))
            text = text[:start] + it["newText"] + text[end:]
        client.close(MENDED)
        client.open(MENDED, text)
        found = client.published(MENDED)
    return None if found or not edits else (text, edits)


def after(edits: Sequence[Edit], offset: int) -> int:
    """Where an offset is after edits, behind all of which it is."""
    return offset + sum(len(new) - (end - start) for start, end, new in edits)


def before(edits: Sequence[Edit], span: Span) -> Optional[Span]:
    """Where a span was before edits; none where they have put a part of it in."""
    for start, end, new in reversed(edits):
        behind = start + len(new)
        if span[0] < behind and start < span[1]:
            return None
        if behind <= span[0]:
            moved = end - behind
            span = (span[0] + moved, span[1] + moved)
        elif behind < span[1]:
            return None
    return span


class Texts:
    """A faulty text and the same one after its fixes, both open."""

    def __init__(self, client: Client, faulty: str, mended: str, edits: Sequence[Edit]) -> None:
        self.client = client
        self.faulty, self.mended, self.edits = faulty, mended, edits

    def both(self, method: str, offset: int) -> Tuple[Any, Any]:
        """The results in both texts at an offset behind the edits of the faulty one."""
        there = place(self.faulty, offset)
        other = place(self.mended, after(self.edits, offset))
        ask = self.client.ask_at
        return ask(method, URI, there), ask(method, MENDED, other)

    def hovers(self, offset: int) -> Tuple[Any, Any]:
        """What a hover says in both texts, and where."""
        found, wanted = self.both("hover", offset)
        there = offsets(self.faulty, found["range"]) if found else None
        other = before(self.edits, offsets(self.mended, wanted["range"])) if wanted else None
        return (found and found["contents"], there), (wanted and wanted["contents"], other)

    def brackets(self, offset: int) -> Tuple[Any, Any]:
        """The brackets in both texts; none where one of them is put in."""
        found, wanted = self.both("documentHighlight", offset)
        there = [offsets(self.faulty, one["range"]) for one in found]
        other = [before(self.edits, offsets(self.mended, one["range"])) for one in wanted]
        return there, [] if None in other else other

    def offers(self, offset: int) -> Tuple[Any, Any]:
        """What is offered in both texts, and in which place."""
        found, wanted = self.both("completion", offset)
        rows = lambda text, result: [
            (it["label"], it["textEdit"]["newText"], offsets(text, it["textEdit"]["range"]))
            for it in result["items"]
        ]
        there = rows(self.faulty, found)
        other = [(*row[:2], before(self.edits, row[2])) for row in rows(self.mended, wanted)]
        return there, other


def last_offset(
    text: str,
    diagnostics: Sequence[Message],
    edits: Sequence[Edit],
    tokens: Sequence[Tuple[str, Span]],
) -> int:
    """Behind which there is no fault of a text, nor anything that mends it. A place in front of a
    token is in front of what is put in there, too."""
    ends = [offsets(text, it["range"])[1] for it in diagnostics]
    starts = [span[0] for _, span in tokens]
    for number, (_, end, new) in enumerate(edits):
        end += len(text) - after(edits[:number], len(text))
        at_token = min((start for start in starts if end <= start), default=len(text))
        ends.append(at_token if new else end)
    return max(ends)


def words_behind(text: str, last: int, tokens: Sequence[Tuple[str, Span]]) -> List[int]:
    """The places behind an offset whose words begin behind it, but not right behind a token that is
    none."""
    invalid = {span[1] for rule, span in tokens if rule == "invalid"}
    begun = [(at, WORD.sub("", text[:at])) for at in range(last + 1, len(text) + 1)]
    return [at for at, it in begun if len(it) > last and len(it.rstrip()) not in invalid]


def some(choice: random.Random, places: Sequence[int]) -> List[int]:
    return choice.sample(list(places), min(ASKED, len(places)))


class Behind:
    """The checks of one sample, and how many tell something."""

    def __init__(self, cases: Cases, choice: random.Random, language: str) -> None:
        self.cases, self.choice, self.language = cases, choice, language
        self.counts = {"hovers": 0, "brackets": 0, "offers": 0}

    def check(self, kind: str, texts: Texts, places: Sequence[int]) -> None:
        """Compares both texts at some of these places of the faulty one."""
        for offset in some(self.choice, places):
            found, wanted = getattr(texts, kind)(offset)
            self.counts[kind] += bool(wanted)
            where = f"{kind} in {self.language} at {offset} of {texts.faulty!r}"
            self.cases.check(where, wanted, found)

    def plant(self, client: Client, text: str, spans: Sequence[Span], count: int) -> None:
        """Plants faults in a text, and checks what is shown behind them."""
        faulty = planted(self.choice, text, spans, count)
        client.open(URI, faulty)
        diagnostics = client.published(URI)
        made = whole(client, faulty) if diagnostics else None
        if made:
            texts = Texts(client, faulty, *made)
            tokens = tokens_of(client, URI, faulty)
            last = last_offset(faulty, diagnostics, texts.edits, tokens)
            behind = [span for _, span in tokens if span[0] > last]
            signs = [span[0] for span in behind if faulty[slice(*span)].lower() in BRACKETS]
            self.check("hovers", texts, [start for start, _ in behind])
            self.check("brackets", texts, signs)
            self.check("offers", texts, words_behind(faulty, last, tokens))
        if diagnostics:
            client.close(MENDED)
        client.close(URI)


def shown_behind(cases: Cases, _: str) -> None:
    """Faults planted in the samples of all languages: behind them hovers, brackets and offers are
    those of the text after its fixes."""
    choice = random.Random(1)
    counts = {"hovers": 0, "brackets": 0, "offers": 0}
    for language, name in SAMPLES.items():
        text = sample(name).encode("ascii", "replace").decode().replace("\r\n", "\n")
        with Client(language) as client:
            client.open("a:sample", text)
            spans = [span for _, span in tokens_of(client, "a:sample", text)]
            checks = Behind(cases, choice, language)
            for count, number in enumerate(PLANTED, 1):
                for _planted in range(number):
                    checks.plant(client, text, spans, count)
        counts = {kind: counts[kind] + told for kind, told in checks.counts.items()}
    for kind, least in {"hovers": 300, "brackets": 60, "offers": 150}.items():
        cases.check(f"{counts[kind]} {kind} tell something", True, counts[kind] >= least)


GROUPS = [shown_behind]
