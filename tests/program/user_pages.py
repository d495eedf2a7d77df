"""What the pages for users say of the program, besides GRAMMARS.md: the commands of README.md; the
exchange, the errors, the faults and the statuses of PROTOCOL.md; the words, the statuses and the
faults of the manual pages and of the help; and the limits, wherever they stand.

`cases` needs the built program, and a folder to write files in.
"""

import json
import os
import re
import subprocess
from itertools import product
from typing import Dict, Iterator, List, NamedTuple, Set, Tuple

from tests.common.cases import placed, read
from tests.common.serving import PATIENCE, SUMS, Session
from tests.program import framed_streams, grammar_files, messages, pages, transcripts

# What a case is named, what is awaited, and what was found.
Case = Tuple[str, object, object]

ERROR = re.compile(r'"error":\{"code":(-\d+),"message":"([^"]*)"\}')
# What only a machine without memory shows: the group `memory` has these.
WITHOUT_MEMORY = {("-32803", "document lost: no memory")}
NO_MEMORY = ("lrls: no memory", 1)

# The limits on the pages, each in the place of its constant's name in `crates/*/src`.
LIMITS = {
    "README.md": [
        "| {LARGEST_FILE} bytes; {MOST_RULES} token and skip rules; {MOST_NONTERMINALS} "
        "nonterminals; {MOST_PRODUCTIONS} productions; {MOST_SYMBOLS} symbols on a right side; "
        "parentheses in a pattern 64 deep |",
        "| {MOST_STATES} states of the automaton, {MOST_SETS} sets of items |",
        "| a text | {LONGEST_TEXT} bytes of UTF-8 |",
        "| documents | {MOST_DOCUMENTS}, lost ones included |",
        "| {LONGEST_CONTENT} bytes, and {LONGEST_HEADER} of header |",
    ],
    "docs/GRAMMARS.md": [
        "| {LARGEST_FILE} bytes in a grammar file |",
        "| {MOST_RULES} `token` and `skip` rules together |",
        "| {MOST_NONTERMINALS} nonterminals;",
        "| {MOST_PRODUCTIONS} productions;",
        "| {MOST_SYMBOLS} names on a right side |",
        "| {MOST_STATES} states of the automaton of all patterns |",
        "| {MOST_SETS} sets of items in the canonical LR(1) tables |",
        "can have {LONGEST_TEXT} bytes, and a server keeps {MOST_DOCUMENTS} documents.",
        "Parentheses nest at most 64 deep.",
    ],
    "docs/PROTOCOL.md": ["or the header has {LONGEST_HEADER} bytes"],
    "man/lrgrammar.5": [
        "of at most {LARGEST_FILE} bytes",
        "up to {MOST_SYMBOLS} names",
        "{MOST_RULES} rules, {MOST_NONTERMINALS} nonterminals, {MOST_PRODUCTIONS} productions, "
        "{MOST_STATES} states of the automaton of all patterns, and {MOST_SETS} sets of items",
    ],
}
CONSTANT = re.compile(r"^(?:pub )?const (\w+): usize = ([\d_]+);", re.M)


class Printed(NamedTuple):
    """A line that the program printed, and its status."""

    line: str
    status: int


def text_of(top: str, *names: str) -> str:
    return read(os.path.join(top, *names)).decode()


def constants(top: str) -> Dict[str, str]:
    """The numbers of the sources by their names, as a page writes them."""
    found: Dict[str, str] = {}
    for where, _, names in os.walk(os.path.join(top, "crates")):
        if os.path.basename(where) == "src":
            for name in names:
                for constant, number in CONSTANT.findall(text_of(where, name)):
                    found[constant] = f"{int(number):,}"
    return found


def limits(top: str) -> Iterator[Case]:
    numbers = constants(top)
    for page, said in LIMITS.items():
        text = " ".join(text_of(top, *page.split("/")).split())
        for words in said:
            there = words.format(**numbers)
            yield f"{page}: a limit", there, there if there in text else "not on the page"


def readme(program: str, top: str, folder: str) -> Iterator[Case]:
    """The commands of README.md print what it shows."""
    os.mkdir(folder)
    page, text = pages.Page(program, top, folder), text_of(top, "README.md")
    os.symlink("tools/lrls", page.path("lrls"))
    sums = read(SUMS).decode()
    grammar, *consoles = [part for part in pages.parts(text) if isinstance(part, pages.Block)]
    yield "README.md shows grammars/g0.lr", sums, grammar.text()
    replaced = re.findall(r"With `([^`]+)` in place of `([^`]+)` the grammar has a conflict", text)
    yield "README.md has a grammar with a conflict", 1, len(replaced)
    for new, old in replaced:
        page.write("ambiguous.lr", sums.replace(old, new))
    for block in consoles:
        for name, awaited, ran in page.console(block):
            yield f"README.md, {name}", awaited, ran


def exchange(blocks: List[pages.Block]) -> Iterator[Case]:
    """What the server sends in the exchange of PROTOCOL.md."""
    lines = [line.split(" ", 2) for block in blocks for line in block.lines]
    session = Session(SUMS)
    for (mark, method, params), (other, named, sent) in zip(lines[::2], lines[1::2]):
        given = {"jsonrpc": "2.0", "method": method, "params": json.loads(params)}
        awaited = '{"jsonrpc":"2.0","method":"%s","params":%s}' % (named, sent)
        ran = session.send(given).decode()
        yield f"PROTOCOL.md: what answers {method}", (">", "<", awaited), (mark, other, ran)
    session.close()


def awaited_errors() -> Set[Tuple[str, str]]:
    """The codes and texts of the errors that the rows of messages and the transcripts await."""
    contents = [
        reply for _, _, talk in messages.sessions() for _, replies in talk for reply in replies
    ]
    for _, _, talk, _ in transcripts.sessions():
        contents += transcripts.contents(talk, "< ")
    return {error for content in contents for error in ERROR.findall(content)}


def errors(table: pages.Table) -> Iterator[Case]:
    """The errors on the page are those that the server answers, and all of them."""
    found: Set[Tuple[str, str]] = set()
    for codes, texts in table.rows[1:]:
        numbers, said = re.findall(r"-\d+", codes), pages.codes(texts)
        found |= set(zip(numbers, said) if len(numbers) > 1 else product(numbers, said))
    yield "PROTOCOL.md: the errors", awaited_errors() | WITHOUT_MEMORY, found


def pattern_of(text: str) -> str:
    """What a text of the page fits, in which NAME, N, W, F and PATH stand for others."""
    words = re.escape(text).replace("NAME", r"\w+").replace("PATH", r"\S+")
    return re.sub(r"(?<=\\ )(?:N|W|F)\b", r"\\w+", words)


def grammar_faults(table: pages.Table) -> Iterator[Case]:
    """The faults of grammar files on the page are those of the rows, and all of them."""
    texts = [text for row in table.rows[1:] for text in pages.codes(row[1])]
    known = [fault.partition(": ")[2] for _, fault in grammar_files.FAULTY if ": " in fault]
    causes = {fault.partition(": ")[2] for _, fault in grammar_files.PATTERNS}
    shown = [text for text in texts if re.match(r"G\d", text)]
    fits = {text: [it for it in known if re.match(pattern_of(text), it)] for text in shown}
    unknown = sorted(text for text in shown if not fits[text])
    yield "PROTOCOL.md: faults of grammar files that no row has", [], unknown
    seen = {fault for faults in fits.values() for fault in faults}
    missing = sorted({fault for fault in known if fault not in seen})
    yield "PROTOCOL.md: faults of grammar files that it leaves out", [], missing
    shown_causes = {text for text in texts if re.fullmatch(r"P\d", text)}
    yield "PROTOCOL.md: the causes of a bad pattern", causes, shown_causes


def trials(folder: str) -> Iterator[Tuple[List[str], bytes]]:
    """Words and inputs that show each fault of the program."""
    write = lambda name, content: placed(folder, name, content)
    one = "lrgrammar 1\n" + 'token X = "x"\nstart S\nS = X\n'
    automaton = one + 'token Y = [ab]* "a"' + " [ab]" * 12 + "\n"
    ambiguous, _ = grammar_files.CONFLICTS[0]
    yield [], b""
    for name, grammar in (
        ("good", one + 'token Y = "y"\n'),
        ("automaton", automaton),
        ("tables", grammar_files.long_sides(538)),
        ("ambiguous", ambiguous),
    ):
        yield ["check", write(name, grammar.encode())], b""
    yield ["check", write("latin", b"\xff")], b""
    yield ["check", os.path.join(folder, "none")], b""
    for name, text in (("surrogate", b"1+\xed\xa0\x80"), ("large", b"1" * 1_048_577)):
        yield ["parse", SUMS, write(name, text)], b""
    yield ["parse", SUMS, write("text", b"1+(2")], b""
    for given, _, _ in framed_streams.STREAMS:
        yield ["serve", SUMS], given


def ended(program: str, words: List[str], **streams: object) -> Iterator[Printed]:
    ran = subprocess.run(  # type: ignore[call-overload]
        [program, *words], stderr=subprocess.PIPE, timeout=PATIENCE, check=False, **streams
    )
    lines = (ran.stdout or b"").decode(errors="replace") + ran.stderr.decode()
    return (Printed(line, ran.returncode) for line in lines.split("\n") if line)


def all_printed(program: str, folder: str) -> Set[Printed]:
    """Each line that the program prints of a fault, with the status of that run."""
    found = {Printed(*NO_MEMORY)}
    for words, given in trials(folder):
        found.update(ended(program, words, input=given, stdout=subprocess.PIPE))
    with open("/dev/full", "wb") as full:
        found.update(ended(program, ["check", SUMS], stdout=full))
    unreadable = os.open(folder, os.O_RDONLY)
    found.update(ended(program, ["serve", SUMS], stdin=unreadable, stdout=subprocess.PIPE))
    os.close(unreadable)
    return found


def faults(table: pages.Table, printed: Set[Printed]) -> Iterator[Case]:
    """Each fault on the page was printed, and with its status; and each that was is there."""
    seen: Set[Printed] = set()
    for name, texts, status in table.rows[1:]:
        for text in pages.codes(texts):
            if not re.match(r"lrls: |usage: |\d", text):
                continue
            fits = {it for it in printed if re.match(pattern_of(text), it.line)}
            statuses = {str(it.status) for it in fits}
            yield f"PROTOCOL.md: {name}: {text}", {status}, statuses
            seen |= fits
        if "frame fault" in texts:
            given = {fault[1:] for _, _, fault in framed_streams.STREAMS if fault}
            numbers = set(re.findall(r" (\d)(?= [a-z])", texts))
            yield "PROTOCOL.md: the numbers of frame faults", given, numbers
    left = sorted(it.line for it in printed - seen if it.line.startswith("lrls: "))
    yield "PROTOCOL.md: faults that it leaves out", [], left


def protocol(program: str, top: str, folder: str, printed: Set[Printed]) -> Iterator[Case]:
    parts = pages.parts(text_of(top, "docs", "PROTOCOL.md"))
    yield from exchange([part for part in parts if isinstance(part, pages.Block)])
    known = {
        ("Error code", "Message"): errors,
        ("Fault of a grammar file", "Text"): grammar_faults,
        ("Fault", "Text", "Status"): lambda table: faults(table, printed),
    }
    tables = {tuple(part.rows[0]): part for part in parts if isinstance(part, pages.Table)}
    for head, compared in known.items():
        yield f"PROTOCOL.md has the table {head[0]}", True, head in tables
        if head in tables:
            yield from compared(tables[head])


def synopsis(page: str) -> Set[str]:
    """The commands of a manual page, as the usage has them."""
    text = page.partition(".Sh SYNOPSIS\n")[2].partition(".Sh ")[0]
    calls = set()
    for call in re.split(r"^\.Nm\n", text, flags=re.M)[1:]:
        words = re.sub(r"\.Op (.*)", r"[\1]", call.replace("Fl -", "--")).replace(" Ar ", " ")
        words = re.sub(r"^\.(?:Cm |Ar |(?=--))", "", words, flags=re.M)
        calls.add(" ".join(words.split()).lower().replace("...", ".."))
    return calls


def usage(text: str, name: str = "lrls") -> Set[str]:
    """The commands of the usage of the program of this name, in small letters."""
    found = set()
    for line in text.split("\n"):
        call = re.match(rf"(?:usage:|      ) {name} (.*)", line)
        if call:
            is_one = call.group(1).startswith(("show", "--"))
            found |= set([call.group(1)] if is_one else call.group(1).split(" | "))
    return {call.lower() for call in found}


def help_words(top: str) -> Iterator[Case]:
    """The help says what the program does of its words, and the manual page says the same."""
    text = text_of(top, "script", "help")
    calls = usage(text)
    yield "lrls.1: its synopsis", calls, synopsis(text_of(top, "man", "lrls.1"))
    told = {words.lower() for words in re.findall(r"^    ((?:[a-z]+)(?: [A-Z.]+)+)  ", text, re.M)}
    plain = {re.sub(r" \[.*\]", "", call) for call in calls if not call.startswith("--")}
    yield "script/help: what it explains", plain, told
    calls = usage(text_of(top, "script", "help-of-lrls-ide"), "lrls-ide")
    yield "lrls-ide.1: its synopsis", calls, synopsis(text_of(top, "man", "lrls-ide.1"))


def manual(top: str, printed: Set[Printed]) -> Iterator[Case]:
    """The statuses and the faults of lrls.1."""
    page = text_of(top, "man", "lrls.1")
    statuses = re.findall(r"^\.It (\d)$", page.partition(".Sh EXIT STATUS")[2], re.M)
    yield "lrls.1: its statuses", sorted({str(it.status) for it in printed}), statuses
    lines = {it.line for it in printed}
    quoted = [text.strip('"') for text in re.findall(r"^\.Ql (.*?)(?: [.,])?$", page, re.M)]
    unknown = [
        text
        for text in quoted
        if pages.MESSAGE.match(text) and not any(re.match(pattern_of(text), it) for it in lines)
    ]
    yield "lrls.1: faults that aren't printed", [], unknown


def sources(top: str) -> Iterator[str]:
    """The texts of the sources of the servers, and of the script that starts them."""
    for folder, ending in (("script/checkout", ".py"), ("ide", ".py"), ("crates", ".rt")):
        for where, folders, names in os.walk(os.path.join(top, folder)):
            folders[:] = [name for name in folders if name not in ("out", "proofs", "specs")]
            yield from (text_of(where, name) for name in names if name.endswith(ending))


def editor_words(top: str) -> Iterator[Case]:
    """The methods that IDE.md names and the flags of lrls-ide.1 stand in the servers' sources."""
    known = "\n".join(sources(top))
    methods = re.findall(r"`(textDocument/[\w/]+)`", text_of(top, "docs", "IDE.md"))
    flags = re.findall(r"\bFl -(\w+)", text_of(top, "man", "lrls-ide.1"))
    yield "IDE.md names methods, and lrls-ide.1 flags", (True, True), (bool(methods), bool(flags))
    words = {*methods, *(f"--{flag}" for flag in flags)} - {"--help"}
    unknown = sorted(word for word in words if f'"{word}"' not in known)
    yield "IDE.md and lrls-ide.1: what no server knows", [], unknown


def cases(program: str, top: str, folder: str) -> Iterator[Case]:
    """What is awaited of each page, and what was found, under a name."""
    printed = all_printed(program, folder)
    yield from readme(program, top, os.path.join(folder, "readme"))
    yield from protocol(program, top, folder, printed)
    yield from help_words(top)
    yield from manual(top, printed)
    yield from editor_words(top)
    yield from limits(top)
