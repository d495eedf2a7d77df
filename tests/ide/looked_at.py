"""What is looked at of a document, some lines or nodes at a time: rows of tokens, beside those that
the core has of the whole text; nodes of a flat tree, beside one that is made here of the core's
tree; and what may follow, beside Earley's algorithm."""

import os
import random
import re
import tomllib
from dataclasses import dataclass
from typing import Any, Dict, Iterator, List, Optional, Sequence, Set, Tuple

from tests import TOP
from tests.common.cases import Cases
from tests.ide.client import Client, place
from tests.ide.offers import Offers
from tests.ide.samples import SAMPLES, sample

URI = "a:text"
END = "the end of the text"
INVALID_PARAMS = -32602
PAGE, MOST_SHOWN, LOOKS = 100, 60, 40
# In these languages a comment ends inside a break of two characters, where no position stands.
CUT = ("lr", "proto")
WORD = re.compile(r"\([^\s()]+|[^\s()]+|\)")


@dataclass
class Tree:
    """A node, or a token, which has no list of parts; and the places of its first token and of the
    one after its last."""

    name: str
    first: int
    last: int
    children: Optional[List["Tree"]] = None

    def parts(self) -> List["Tree"]:
        """The parts of a node: where it begins with a node of its name, that one's come first."""
        chain = [self]
        while chain[-1].children and is_list(chain[-1].children[0], self.name):
            chain.append(chain[-1].children[0])
        found = list(chain[-1].children or [])
        for outer in reversed(chain[:-1]):
            found += (outer.children or [])[1:]
        return found

    def line(self) -> Tuple[List[str], "Tree"]:
        """The names in the line that begins with this tree, and what it ends with."""
        names, last = [self.name], self
        while last.children is not None and len(last.children) == 1:
            last = last.children[0]
            names.append(last.name)
        return names, last


def is_list(tree: Tree, name: str) -> bool:
    return tree.children is not None and tree.name == name


def read(text: str) -> Tree:
    """The tree of what `lr/tree` has of it."""
    around: List[Tree] = [Tree("", 0, 0, [])]
    count = 0
    for word in WORD.findall(text):
        if word == ")":
            around[-1].last = count
            around.pop()
            continue
        is_node = word.startswith("(")
        tree = Tree(word.lstrip("("), count, count + 1, [] if is_node else None)
        around[-1].children = [*(around[-1].children or []), tree]
        if is_node:
            around.append(tree)
        else:
            count += 1
    return (around[0].children or [])[0]


class Looked:
    """An open text, with all tokens of it and its tree as the core has them."""

    def __init__(self, language: str, text: str, client: Client) -> None:
        self.text, self.client = text, client
        client.open(URI, text)
        with open(os.path.join(TOP, "grammars", f"{language}.lr"), encoding="utf-8") as file:
            self.skipped: Set[str] = set(re.findall(r"^skip (\S+)", file.read(), re.M))
        self.rows: List[List[Any]] = client.ask("lr/tokens", URI)
        self.lines = re.split("(?<=\n)|(?<=\r)(?!\n)", text)
        tokens = [row for row in self.rows if row[0] not in self.skipped]
        self.starts = [(row[1], row[2]) for row in tokens]
        self.ends = [(row[3], row[4]) for row in tokens]

    def between(self, start: Tuple[int, int], end: Tuple[int, int]) -> str:
        """The text between two places."""
        (first, begin), (last, stop) = start, end
        lines = [line.encode("utf-16-le") for line in self.lines[first : last + 1]]
        lines[-1] = lines[-1][: 2 * stop]
        lines[0] = lines[0][2 * begin :]
        return b"".join(lines).decode("utf-16-le")

    def rows_of(self, first: int, last: int) -> List[List[Any]]:
        """The rows of the tokens on these lines, the last one too."""
        found = []
        for name, *where in self.rows:
            start, end = (where[0], where[1]), (where[2], where[3])
            if end > (first, 0) and start[0] <= last:
                text = self.between(start, end)[:MOST_SHOWN]
                found.append([name, *where, text, name in self.skipped])
        return found

    def line(self, tree: Tree) -> Dict[str, Any]:
        """A line as it is awaited."""
        names, last = tree.line()
        found: Dict[str, Any] = {
            "names": names,
            "isNode": last.children is not None,
            "hasParts": bool(last.children),
            "isThere": True,
        }
        if last.first < last.last:
            start, end = self.starts[last.first], self.ends[last.last - 1]
            found["start"] = {"line": start[0], "character": start[1]}
            found["end"] = {"line": end[0], "character": end[1]}
            if last.children is None:
                found["text"] = self.between(start, end)[:MOST_SHOWN]
        return found

    def page(self, path: Sequence[int], tree: Tree, part: int) -> Optional[Dict[str, Any]]:
        """A page of the node that the line of a tree ends with; nothing of a token."""
        last = tree.line()[1]
        if last.children is None:
            return None
        parts = last.parts()
        first = max(0, min(part, len(parts) - 1)) // PAGE * PAGE
        lines = [self.line(part) for part in parts[first : first + PAGE]]
        return {"path": list(path), "count": len(parts), "first": first, "parts": lines}

    def along(self, root: Tree, path: Sequence[int]) -> Iterator[Tree]:
        """The trees on a way, from the first one on, as far as it leads."""
        yield root
        for number in path:
            parts = root.line()[1].parts()
            if number >= len(parts):
                return
            root = parts[number]
            yield root

    def way(self, root: Tree, at: Tuple[int, int]) -> List[int]:
        """The way to the token at a place, or to the smallest node around it."""
        begun = [number for number, start in enumerate(self.starts) if start <= at]
        if not begun:
            return []
        first = last = begun[-1]
        if at > self.ends[first]:
            last = min(first + 1, len(self.starts) - 1)
        found: List[int] = []
        while True:
            parts = root.line()[1].parts() if root.line()[1].children is not None else []
            fits = [n for n, it in enumerate(parts) if it.first <= first and last < it.last]
            if not fits:
                return found
            found.append(fits[0])
            root = parts[fits[0]]

    def nodes(self, root: Tree, at: Dict[str, int], named: Sequence[Dict[str, Any]]) -> Any:
        """What is looked at."""
        way = self.way(root, (at["line"], at["character"]))
        trees = list(self.along(root, way))
        found = [self.page(way[:level], trees[level], way[level]) for level in range(len(way))]
        for one in named:
            path = one["path"]
            trees = list(self.along(root, path))
            if len(trees) == len(path) + 1:
                found.append(self.page(path, trees[-1], one["part"]))
        nodes = [node for node in found if node is not None]
        return {"version": 1, "root": self.line(root), "path": way, "nodes": nodes}


def span(first: int, last: int) -> Dict[str, Any]:
    """The range of these lines."""
    return {"start": {"line": first, "character": 0}, "end": {"line": last, "character": 0}}


def rows(cases: Cases, _: str) -> None:
    """The rows of some lines are those of the whole text that have a part there."""
    choice = random.Random(11)
    for language, name in SAMPLES.items():
        breaks = "\n" if language in CUT else "\r\n"
        for text in (sample(name), sample(name).replace("\n", breaks) + "\u00e9\U0001f600'"):
            with Client(language) as client:
                looked = Looked(language, text, client)
                count = len(looked.lines)
                spans: List[Sequence[int]] = [(0, 0), (0, count + 3), (count + 1, count + 2)]
                spans += [sorted(choice.choices(range(count), k=2)) for _ in range(LOOKS)]
                for first, last in spans:
                    awaited = {"version": 1, "rows": looked.rows_of(first, last)}
                    found = client.ask("lrls/tokens", URI, range=span(first, last))
                    cases.check(f"{language}: rows of the lines {first} to {last}", awaited, found)


def named(choice: random.Random, count: int) -> List[Dict[str, Any]]:
    """Some ways, of which many lead nowhere."""
    paths = [choice.choices(range(4), k=choice.randint(0, 6)) for _ in range(count)]
    return [{"path": path, "part": choice.choice((0, 1, 150, 1 << 30))} for path in paths]


class Followers:
    """What may follow at each place of a text."""

    def __init__(self, language: str, text: str) -> None:
        self.offers = Offers(language)
        self.tokens = self.offers.grammar.tokens(text)
        self.offers.expected(tuple(name for name, _, _ in self.tokens))
        path = os.path.join(TOP, "grammars", f"{language}.toml")
        self.named: Dict[str, str] = {}
        if os.path.exists(path):
            with open(path, "rb") as file:
                self.named = tomllib.load(file).get("words", {})

    def at(self, offset: int) -> Tuple[int, Set[str]]:
        """How many rules may follow behind the tokens that begin before an offset, and what those
        of one literal are called."""
        kinds = tuple(name for name, start, _ in self.tokens if start < offset)
        names, texts = self.offers.expected(kinds), self.offers.texts
        literals = [name for name in names if name in texts and name not in self.named]
        return len(names), {f'"{texts[name]}"' for name in literals}


def nodes(cases: Cases, _: str) -> None:
    """The nodes around a place, and those that are named, are those of the core's tree."""
    choice = random.Random(12)
    for language, name in SAMPLES.items():
        text = sample(name)
        followers = Followers(language, text)
        with Client(language) as client:
            looked = Looked(language, text, client)
            root = read(client.ask("lr/tree", URI))
            for _look in range(LOOKS):
                offset = choice.randint(0, len(text))
                where, open_nodes = place(text, offset), named(choice, 5)
                awaited = looked.nodes(root, where, open_nodes)
                found = client.ask("lrls/nodes", URI, position=where, open=open_nodes)
                follow = [word for word in found.pop("follow") if word != END]
                cases.check(f"{language}: nodes at {where} and {open_nodes}", awaited, found)
                count, literals = followers.at(offset)
                seen = len(follow), literals.intersection(follow)
                cases.check(f"{language}: what may follow at {where}", (count, literals), seen)


def shapes(lines: Sequence[Dict[str, Any]]) -> List[Tuple[List[str], bool]]:
    """The names in lines, and whether they are nodes."""
    return [(line["names"], line["isNode"]) for line in lines]


def mended_nodes(cases: Cases, _: str) -> None:
    """In a text with a fault they are those of its mended copy, in which what is put in isn't
    there."""
    whole = "let x = 1;\nlet y = (2 + 3) * 4;\nlet z = 5;\n"
    faulty = whole.replace("1;", "1")
    at = {"line": 2, "character": 4}
    with Client("script") as client, Client("script") as other:
        client.open(URI, whole)
        other.open(URI, faulty)
        awaited = client.ask("lrls/nodes", URI, position=at)
        found = other.ask("lrls/nodes", URI, position=at)
        cases.check("the way is the same", awaited["path"], found["path"])
        cases.check("the first line too", awaited["root"]["names"], found["root"]["names"])
        for one, two in zip(awaited["nodes"], found["nodes"]):
            cases.check(f"parts at {one['path']}", shapes(one["parts"]), shapes(two["parts"]))
        open_nodes = [{"path": [0], "part": 0}]
        first = other.ask("lrls/nodes", URI, position=at, open=open_nodes)["nodes"][-1]
        there = [line["isThere"] for line in first["parts"]]
        cases.check("the last part is put in", [True] * (len(there) - 1) + [False], there)
        last = {key: first["parts"][-1].get(key) for key in ("start", "end", "text")}
        cases.check("and stands nowhere", {"start": None, "end": None, "text": None}, last)
        for offset, text in ((9, whole), (9, faulty), (len(faulty), faulty)):
            at = place(text, offset)
            told = [one.ask("lrls/nodes", URI, position=at)["follow"] for one in (client, other)]
            cases.check(f"what may follow at {offset}", *told)


def looks_refused(cases: Cases, _: str) -> None:
    """Parameters that don't fit are refused."""
    at = {"line": 0, "character": 0}
    with Client("json") as client:
        client.open(URI, "[1, 2]")
        for open_nodes in (7, {}, [7], [{}], [{"path": [0]}], [{"path": [-1], "part": 0}]):
            found = client.ask("lrls/nodes", URI, position=at, open=open_nodes)
            cases.check(f"open {open_nodes}", INVALID_PARAMS, found.get("code"))
        rows: List[Tuple[str, Dict[str, object]]] = [
            ("lrls/nodes", {}),
            ("lrls/tokens", {}),
            ("lrls/tokens", {"range": 7}),
        ]
        for method, more in rows:
            found = client.ask(method, URI, **more)
            cases.check(f"{method} of {more}", INVALID_PARAMS, found.get("code"))
        found = client.ask("lrls/nodes", "a:none", position=at)
        cases.check("no such document", client.ask("lr/tree", "a:none"), found)
        client.open("a:lost", "[")
        root = client.ask("lrls/nodes", URI, position=at, open=None)["root"]
        cases.check("null names none", ["Value"], root["names"][:1])


GROUPS = [rows, nodes, mended_nodes, looks_refused]
