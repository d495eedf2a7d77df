"""Runs what a page for users shows: its files, its commands, and the rows of its tables.

A fenced block says what it is on its first line:

    lr NAME                 the grammar file NAME, whole
    lr NAME after OTHER     the grammar file NAME: the lines of the file OTHER as it is so far, then these
    text NAME               the text NAME
    console                 commands, each after `$ `, and what each of them prints
    ebnf                    is only shown

The tables whose heads a Page knows are run row by row; those whose heads are in SHOWN are only
shown. A message or a path anywhere else on the page has to be one that was printed, or that there
is. Any other block, table or command is a failed case, so that no example goes untested. `cases`
needs the built program, and a folder to write the files in.
"""

import os
import re
import shlex
import subprocess
import sys
from typing import Any, Callable, Dict, Iterator, List, Set, Tuple, Union

from tests.common.serving import PATIENCE

# Heads of tables that only explain.
SHOWN = [
    ["Line", "Meaning"],
    ["Wanted", "Why it can't be said", "What to do"],
    [
        "Texts",
        "How many",
        "Beside",
        "Both accept",
        "Both refuse",
        "Only the other accepts",
        "Only `lrls` accepts",
    ],
]

# A grammar file's fault, or a conflict, or a fault of a text: by these words a message is known.
MESSAGE = re.compile(
    r"(lrls: |line \d+: |G\d+ |note: |over \d+ |conflict on |after:|item: |unexpected |\d+:\d+-\d+:\d+: )"
)
PLACE = re.compile(r"\d+:\d+-\d+:\d+: unexpected ")
ITEM = re.compile(r"after:|item: ")
PATH = re.compile(r"(?:docs|editors|grammars|tests)/[\w./]*")
CODE = re.compile(r"`([^`]+)`")
COMMANDS = ("lrls ", "./lrls ", "printf ", "echo ")

# What a case is named, what is awaited, and what was found.
Case = Tuple[str, object, object]


class Block:
    """A fenced block: the line where it begins, the words of its first line, the lines in it, and
    whether it ends."""

    def __init__(self, number: int, words: List[str]) -> None:
        self.number, self.words, self.is_closed = number, words, False
        self.lines: List[str] = []

    def text(self) -> str:
        return "".join(line + "\n" for line in self.lines)


class Table:
    """A table: the line where it begins, and its rows, the first of which is its head."""

    def __init__(self, number: int) -> None:
        self.number = number
        self.rows: List[List[str]] = []


def cells(line: str) -> List[str]:
    """The cells of a row. `\\|` is no border between two of them."""
    inner = line.strip()[1:-1]
    return [cell.strip().replace("\\|", "|") for cell in re.split(r"(?<!\\)\|", inner)]


def parts(text: str) -> List[Any]:
    """The blocks, the tables and the other lines of a page, in order."""
    found: List[Any] = []
    block = None
    for number, line in enumerate(text.split("\n"), 1):
        if block is not None:
            if line == "```":
                block.is_closed, block = True, None
            else:
                block.lines.append(line)
        elif line.startswith("```"):
            block = Block(number, line[3:].split())
            found.append(block)
        elif line.startswith("|"):
            if not found or not isinstance(found[-1], Table):
                found.append(Table(number))
            found[-1].rows.append(cells(line))
        else:
            found.append(line)
    for table in found:
        if isinstance(table, Table):
            del table.rows[1]  # the line between the head and the rows
    return found


def codes(cell: str) -> List[str]:
    """The texts in code of a cell."""
    return CODE.findall(cell)


def streams(lines: List[str]) -> Tuple[str, str, int]:
    """What these lines are on standard output and on standard error, and the status that they come
    with."""
    out: List[str] = []
    err: List[str] = []
    for line in lines:
        is_fault = line.startswith("lrls: ") or (err and ITEM.match(line))
        (err if is_fault else out).append(line + "\n")
    status = 2 if err else 1 if any(map(PLACE.match, out)) else 0
    return "".join(out), "".join(err), status


def command_of(program: str, top: str) -> str:
    """A script that does as the script `lrls` does where the program is built."""
    show = shlex.join([sys.executable, os.path.join(top, "script", "show"), program])
    sizes = shlex.join([sys.executable, os.path.join(top, "tests", "oracles", "sizes")])
    return f"""#!/bin/sh
case $1 in
show) shift && exec {show} "$@" ;;
sizes) shift && exec {sizes} "$@" ;;
*) exec {shlex.quote(program)} "$@" ;;
esac
"""


class Page:
    """Runs the parts of a page one after the other in a folder, in which `lrls` is the built
    program, and `lrls show` what shows its reports."""

    def __init__(self, program: str, top: str, folder: str) -> None:
        self.folder = folder
        self.printed: Set[str] = set()
        tools = os.path.join(folder, "tools")
        os.mkdir(tools)
        self.write("tools/lrls", command_of(program, top))
        os.chmod(self.path("tools/lrls"), 0o755)
        for name in ("grammars", "tests"):
            os.symlink(os.path.join(top, name), os.path.join(folder, name))
        self.environment = {**os.environ, "PATH": tools + os.pathsep + os.environ["PATH"]}
        self.tables: Dict[Tuple[str, ...], Callable[..., Iterator[Case]]] = {
            ("Escape", "Stands for", "Code point"): self.escape,
            ("Cause", "Meaning, and the place N", "Pattern", "Message"): self.cause,
            ("Mark", "Productions", "Text", "Tree"): self.mark,
            ("Limit", "Message"): self.limit,
            ("First line", "Message", "Write instead", "Why"): self.first_line,
            ("Line", "Message", "Write instead", "Why"): self.line,
            ("Pattern", "Message", "Write instead", "Why"): self.pattern,
        }

    def path(self, name: str) -> str:
        return os.path.join(self.folder, name)

    def write(self, name: str, text: str) -> None:
        with open(self.path(name), "w", encoding="utf-8", newline="") as file:
            file.write(text)

    def read(self, name: str) -> str:
        with open(self.path(name), encoding="utf-8", newline="") as file:
            return file.read()

    def run(self, command: str) -> Tuple[str, str, int]:
        """What a command of the shell prints on both streams, and its status."""
        ran = subprocess.run(
            ["sh", "-c", command],
            cwd=self.folder,
            env=self.environment,
            capture_output=True,
            timeout=PATIENCE,
            check=False,
        )
        return ran.stdout.decode(), ran.stderr.decode(), ran.returncode

    def checked(self, text: str) -> Tuple[str, str, int]:
        """What `lrls check` prints of a grammar file with this text."""
        self.write("row.lr", text)
        return self.run("lrls check row.lr")

    def block(self, block: "Block") -> Iterator[Case]:
        """The cases of a block."""
        words = block.words
        opened = [line for line in block.lines if line.startswith("```")]
        yield f"page, line {block.number}: a block that ends", (True, []), (block.is_closed, opened)
        if words == ["console"]:
            yield from self.console(block)
        elif len(words) == 2 and words[0] in ("lr", "text"):
            self.write(words[1], block.text())
        elif (
            len(words) == 4
            and words[0] == "lr"
            and words[2] == "after"
            and os.path.exists(self.path(words[3]))
        ):
            self.write(words[1], self.read(words[3]) + block.text())
        elif words != ["ebnf"]:
            yield f"page, line {block.number}: a block of a known kind", "lr, text, console or ebnf", words

    def console(self, block: "Block") -> Iterator[Case]:
        """Each command of a block prints what stands after it."""
        begins = [at for at, line in enumerate(block.lines) if line.startswith("$ ")]
        if begins[:1] != [0]:
            yield f"page, line {block.number}: begins with a command", "$ ..", block.lines[:1]
        for at, end in zip(begins, [*begins[1:], len(block.lines)]):
            name = f"page, line {block.number + at + 1}"
            command, shown = block.lines[at][2:], block.lines[at + 1 : end]
            if not command.startswith(COMMANDS):
                yield f"{name}: a known command", COMMANDS, command
                continue
            yield f"{name}: {command}", streams(shown), self.run(command)
            self.printed |= set(shown)

    def table(self, table: "Table") -> Iterator[Case]:
        """The cases of a table."""
        head, *rows = table.rows
        if head in SHOWN:
            return
        run = self.tables.get(tuple(head))
        if run is None:
            yield f"page, line {table.number}: a known table", "a head that a Page knows, or of SHOWN", head
            return
        for at, row in enumerate(rows):
            name = f"page, line {table.number + 2 + at}"
            if len(row) != len(head):
                yield f"{name}: its cells", len(head), row
                continue
            try:
                for what, awaited, ran in run(*row):
                    yield f"{name}: {what}", awaited, ran
            except ValueError as error:
                yield f"{name}: the texts in code that its table has", "as many as in the other rows", str(
                    error
                )

    def faulty(self, what: str, text: str, message: str, first: int) -> Iterator[Case]:
        """A grammar file has this fault, at the line of this number or a later one, or as a whole."""
        (message,) = codes(message)
        self.printed.add(message)
        out, err, status = self.checked(text)
        fault = re.fullmatch(r"lrls: (?:line (\d+): )?(.*)", err.split("\n", 1)[0])
        number, reported = fault.groups() if fault else (None, err)
        is_there = number is None or first <= int(number) <= text.count("\n")
        yield what, ("", message, True, 2), (out, reported, is_there, status)

    def sound(self, what: str, text: str) -> Iterator[Case]:
        """A grammar file is accepted."""
        out, err, status = self.checked(text)
        yield f"{what}, accepted", (True, "", 0), (out.endswith("ok\n"), err, status)

    def base(self) -> str:
        return self.read("head.lr") + "S = NAME\n"

    def line(self, written: str, message: str, instead: str, _why: str) -> Iterator[Case]:
        """These lines, after those that the page says, have this fault, and the others have none."""
        rows = "".join(line + "\n" for line in codes(written))
        yield from self.faulty(written, self.base() + rows, message, self.base().count("\n") + 1)
        if instead:
            yield from self.sound(
                instead, self.base() + "".join(line + "\n" for line in codes(instead))
            )

    def first_line(self, written: str, message: str, instead: str, _why: str) -> Iterator[Case]:
        rest = self.base().split("\n", 1)[1]
        yield from self.faulty(written, "\n".join([*codes(written), rest]), message, 1)
        yield from self.sound(instead, "\n".join([*codes(instead), rest]))

    def pattern(self, written: str, message: str, instead: str, _why: str) -> Iterator[Case]:
        (before,), (after,) = codes(written), codes(instead)
        number = self.base().count("\n") + 1
        yield from self.faulty(written, f"{self.base()}token X = {before}\n", message, number)
        yield from self.sound(instead, f"{self.base()}token X = {after}\n")

    def cause(self, cause: str, _meaning: str, written: str, message: str) -> Iterator[Case]:
        (pattern,) = codes(written)
        yield f"the cause of {written}", True, f": {codes(cause)[0]}`" in message
        yield from self.faulty(written, f"lrgrammar 1\ntoken X = {pattern}\n", message, 2)

    def escape(self, escape: str, _meaning: str, code: str) -> Iterator[Case]:
        """An escape in a literal, and in a class, stands for the character of this code point."""
        (written,), text = codes(escape), chr(int(code, 16))
        for pattern in (f'"{written}"', f"[{written}]"):
            self.write("row.lr", f"lrgrammar 1\ntoken X = {pattern}\nstart S\nS = X\n")
            self.write("row.txt", text)
            yield f"{pattern} is U+{code}", ("(S X)\n", "", 0), self.run(
                "lrls parse row.lr row.txt"
            )

    def mark(self, mark: str, productions: str, text: str, tree: str) -> Iterator[Case]:
        """A marked name has this tree for a text, and the same as by its productions under another
        name."""
        (marked,), (text,), (tree,) = codes(mark), codes(text), codes(tree)
        head = 'token X = "x"\nstart S\n'
        by_hand = "\n".join(codes(productions)).replace(marked, "Marked")
        for lines in (
            f"lrgrammar 2\n{head}S = {marked}\n",
            f"lrgrammar 1\n{head}S = Marked\n{by_hand}\n",
        ):
            self.write("row.lr", lines)
            self.write("row.txt", text)
            out, err, status = self.run("lrls parse row.lr row.txt")
            yield f"the tree of {marked}", (f"(S {tree})\n", "", 0), (
                out.replace("Marked", marked),
                err,
                status,
            )

    def limit(self, _limit: str, message: str) -> Iterator[Case]:
        """The limits themselves are tried by the rows of grammar files."""
        yield "the message of a limit", [], [
            text for text in codes(message) if not self.was_printed(text)
        ]

    def was_printed(self, message: str) -> bool:
        """Whether a message was printed. In it NAME is any name, and N any number."""
        words = re.escape(message).replace("NAME", r"\w+").replace(r"at\ N:", r"at\ \d+:")
        return any(re.search(words, line) for line in self.printed)


def quotations(part: Union["Table", str], shown: "Page", top: str) -> Tuple[List[Any], List[Any]]:
    """What a line of the page, or a table's cells, quote: the messages that no part printed, and
    the paths that there aren't."""
    texts = (
        codes(part)
        if isinstance(part, str)
        else [text for row in part.rows for cell in row for text in codes(cell)]
    )
    unknown = [text for text in texts if MESSAGE.match(text) and not shown.was_printed(text)]
    missing = [
        text
        for text in texts
        if PATH.fullmatch(text) and not os.path.exists(os.path.join(top, text))
    ]
    return unknown, missing


def cases(page: str, program: str, top: str, folder: str, known: List[str]) -> Iterator[Case]:
    """What is awaited of each part of a page, and what was run, under a name. `known` are messages
    that other tests print."""
    with open(page, encoding="utf-8") as file:
        found = parts(file.read())
    shown = Page(program, top, folder)
    shown.printed |= set(known)
    for part in found:
        if isinstance(part, Block):
            yield from shown.block(part)
        elif isinstance(part, Table):
            yield from shown.table(part)
        else:
            is_known = not part.startswith((" ", "\t", "~~~"))
            yield f"page, neither block nor table: {part[:60]!r}", True, is_known
    for part in found:
        if not isinstance(part, Block):
            name = part[:60] if isinstance(part, str) else f"the table of line {part.number}"
            yield f"page, quoted messages and paths: {name!r}", ([], []), quotations(
                part, shown, top
            )
