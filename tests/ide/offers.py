"""What may follow at each place of a sample, by tests/oracles/trees: Earley's algorithm, and
nothing of `lrls`."""

import os
import re
from typing import Any, Dict, List, Optional, Set, Tuple

from tests import TOP
from tests.oracles import trees

# No token of the samples' grammars begins with it.
STRANGER = "\x00"
LITERAL = re.compile(r'token (\w+) = "((?:[^"\\]|\\.)*)"')
WORD = re.compile(r"\w+\Z")


class Offers:
    """What may follow in a language, of the rules that are one literal."""

    def __init__(self, language: str) -> None:
        self.trees = trees()
        text = self.trees.read(os.path.join(TOP, "grammars", language + ".lr"))
        self.grammar = self.trees.Grammar(text)
        found = [LITERAL.fullmatch(line) for line in text.split("\n")]
        self.texts = {match.group(1): match.group(2).replace("\\", "") for match in found if match}
        self.known: Dict[Any, List[str]] = {}
        self.begun: Set[Any] = set()

    def kinds(self, text: str) -> Optional[Tuple[Any, ...]]:
        """The tokens of a text, with one more at its end that none of them takes in; None where
        some token takes it in."""
        tokens = self.grammar.tokens(text + STRANGER)
        if not tokens or tokens[-1] != ("invalid", len(text), len(text) + 1):
            return None
        return tuple(name for name, _, _ in tokens[:-1])

    def expected(self, kinds: Tuple[Any, ...]) -> List[str]:
        """The rules that may follow after these tokens; those after each of them, in one chart."""
        if kinds not in self.known:
            chart = self.trees.Chart(self.grammar, [*kinds, ""])
            for place in range(len(chart.sets)):
                nexts = {side[dot] for _, side, dot, _ in chart.sets[place] if dot < len(side)}
                self.begun.add(kinds[:place])
                self.known[kinds[:place]] = [name for name in self.grammar.names() if name in nexts]
            self.known.setdefault(kinds, [])
        return self.known[kinds]

    def goes_on(self, kinds: Tuple[Any, ...]) -> bool:
        """Whether some sentence begins with these tokens."""
        self.expected(kinds)
        return kinds in self.begun

    def takes_letters(self, text: str) -> bool:
        """Whether a letter that is typed at the end of a text, where no word is begun, goes into
        its last token, as into a comment that no STRANGER goes into."""
        tokens = self.grammar.tokens(text + "q")
        return not WORD.search(text) and bool(tokens) and tokens[-1][1] < len(text)

    def is_behind_fault(self, text: str) -> bool:
        """Whether a fault stands before the word at the end of a text, but not right before it a
        character that begins no token: what follows is then that of a mended copy."""
        kinds = self.kinds(WORD.sub("", text)) or ()
        return len(kinds) > 0 and kinds[-1] != "invalid" and not self.goes_on(kinds)

    def at_end(self, text: str) -> List[str]:
        """What may follow at the end of a text, where a word is begun that goes on with what is
        typed of it."""
        found = WORD.search(text)
        typed = found.group() if found else ""
        kinds = self.kinds(text[: len(text) - len(typed)])
        names = self.expected(kinds) if kinds is not None else []
        return [
            self.texts[name]
            for name in names
            if name in self.texts and self.texts[name].startswith(typed)
        ]
