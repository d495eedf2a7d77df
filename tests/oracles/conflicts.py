"""Whether a report of `lrls check` about a conflict is true, by the definition of LR(1) items, and
found by another program than `lrls`.

Which of several conflicts is reported is left open, and so is the way to it and the token after an
item that is shifted. So a report isn't compared with another one: the symbols after `after:` are
walked through the sets of items, and both items have to be there, to be different moves on the
token of the report, and to stand in the right order.
"""

import re
from typing import Any, Dict, List, Optional, Set, Tuple


def productions(grammar: str) -> List[Tuple[str, List[str]]]:
    """The productions (left side, right side) of a grammar file in order, and then those of its
    marked words."""
    found, marked = [], []
    for line in grammar.split("\n")[1:]:
        words = line.split()
        if words[1:2] == ["="] and not words[0].startswith("#"):
            found.append((words[0], words[2:]))
            marked += [word for word in words[2:] if word[-1] in "*+?" and word not in marked]
    for word in marked:
        found.append((word, [word[:-1]] if word.endswith("+") else []))
        found.append((word, [word[:-1]] if word.endswith("?") else [word, word[:-1]]))
    return found


class Items:
    """Sets of items (number of the production, place of the dot, token after it) of a grammar file.
    The number of the production that is added for the start is -1."""

    def __init__(self, grammar: str) -> None:
        self.productions = productions(grammar)
        (self.start,) = re.findall(r"^[ \t]*start[ \t]+(\w+)[ \t\r]*$", grammar, re.MULTILINE)[:1]
        self.numbers: Dict[str, List[int]] = {}
        for number, (left, _) in enumerate(self.productions):
            self.numbers.setdefault(left, []).append(number)
        self.firsts: Dict[str, Set[str]] = {left: set() for left in self.numbers}
        self.empty: Set[str] = set()
        while self.grows():
            pass

    def side(self, number: int) -> List[str]:
        return [self.start] if number < 0 else self.productions[number][1]

    def of_sequence(self, symbols: List[str]) -> Tuple[Any, ...]:
        """The tokens that a text of these symbols begins with, and whether it can be empty."""
        tokens = set()
        for symbol in symbols:
            tokens |= self.firsts.get(symbol, {symbol})
            if symbol not in self.empty:
                return tokens, False
        return tokens, True

    def grows(self) -> bool:
        """Adds what one look at each production shows of first tokens. Returns whether there was
        anything new."""
        size = len(self.empty) + sum(map(len, self.firsts.values()))
        for left, side in self.productions:
            tokens, is_empty = self.of_sequence(side)
            self.firsts[left] |= tokens
            self.empty |= {left} if is_empty else set()
        return len(self.empty) + sum(map(len, self.firsts.values())) > size

    def closed(self, items: Set[Tuple[int, int, str]]) -> Set[Tuple[int, int, str]]:
        """These items, and all that stand at the beginning of a symbol after a dot."""
        found, work = set(items), list(items)
        while work:
            number, dot, look = work.pop()
            for symbol in self.side(number)[dot : dot + 1]:
                tokens, is_empty = self.of_sequence(self.side(number)[dot + 1 :])
                looks = tokens | ({look} if is_empty else set())
                new = {
                    (begun, 0, first) for begun in self.numbers.get(symbol, []) for first in looks
                } - found
                found |= new
                work += new
        return found

    def after(self, prefix: List[str]) -> Set[Tuple[int, int, str]]:
        """The items that are valid after these symbols."""
        items = self.closed({(-1, 0, "end")})
        for symbol in prefix:
            items = self.closed(
                {
                    (n, dot + 1, look)
                    for n, dot, look in items
                    if self.side(n)[dot : dot + 1] == [symbol]
                }
            )
        return items

    def item(self, line: str) -> Optional[Tuple[int, int, str]]:
        """The item of a line of a report, or none."""
        found = re.fullmatch(r"item: (\S+) =((?: \S+)*) \.((?: \S+)*), (\w+)", line)
        if found is None:
            return None
        left, before, rest, look = found.groups()
        side = [*before.split(), *rest.split()]
        numbers = [-1] if left == "(start)" and side == [self.start] else []
        numbers += [number for number in self.numbers.get(left, []) if self.side(number) == side]
        return (numbers[0], len(before.split()), look) if numbers else None

    def is_complete(self, item: Tuple[int, int, str]) -> bool:
        return item[1] == len(self.side(item[0]))

    def moves_on(self, item: Tuple[int, int, str], token: str) -> bool:
        """Whether the item shifts this token, or is complete and followed by it."""
        number, dot, look = item
        return (
            look == token
            if self.is_complete(item)
            else token != "end" and self.side(number)[dot] == token
        )


def untrue(grammar: str, report: str, token: Optional[str]) -> str:
    """What is wrong with a report that is awaited of this grammar file, for a conflict on this
    token, or on any where it is none; an empty text where nothing is."""
    shown = re.fullmatch(
        r"lrls: conflict on (\w+)\nafter:((?: \S+)*)\n(item: .*)\n(item: .*)\n", report
    )
    if shown is None:
        return "no report of a conflict in four lines"
    reported, prefix, *lines = shown.groups()
    items = Items(grammar)
    first, second = [items.item(line) for line in lines]
    if token is not None and reported != token:
        return f"the conflict is on {token}"
    if first is None or second is None:
        return "an item of no production"
    valid = items.after(prefix.split())
    if first not in valid or second not in valid:
        return "an item that isn't valid there"
    if not items.moves_on(first, reported) or not items.moves_on(second, reported):
        return "an item that does nothing on this token"
    if not items.is_complete(first) or first == second:
        return "no two moves, the first of which reduces"
    if items.is_complete(second) and first[0] >= second[0]:
        return "the later production first"
    return ""
