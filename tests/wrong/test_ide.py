"""Shows that the suites of `ide/` can fail: runs them on copies that are wrong in one thing each: in
the page, in the settings of a language, or in a script. A few of them, others each day; all of them
with --all.
Needs what tests/ide and tests/playground need, and skips what they skip.
One of them: pytest tests/wrong/test_ide.py -k "five are named"
"""

import os
import shutil
import sys
from pathlib import Path
from typing import List

import pytest

from tests import TOP
from tests.wrong.trying import first_failed, replaced, some

# How many copies the gate tries.
FEW = 4

# A name, the file as seen from `ide/`, the words that are replaced, those in their place, and the tests that
# have to see it.
WRONG = [
    (
        "types aren't told",
        "playground/page.js",
        "editor.types = message.capabilities",
        "editor.of = message.capabilities",
        "playground page",
    ),
    (
        "a server that ends isn't started again",
        "lrls_ide/page.py",
        "if self.starts <= MOST_STARTS:",
        "if self.starts > MOST_STARTS:",
        "playground page",
    ),
    (
        "texts aren't opened again",
        "playground/page.js",
        "  editor.open(link);\n  if (editor === grammar)",
        "  if (editor === grammar)",
        "playground page",
    ),
    (
        "a name is called by its rule",
        "../grammars/script.toml",
        '[words]\nNAME = "a name"',
        "[words]",
        "ide messages",
    ),
    (
        "an operator is a word",
        "../grammars/script.toml",
        'MODULO = "operator"',
        'MODULO = "keyword"',
        "ide messages",
    ),
    (
        "an end of the line has no name",
        "../grammars/toml.toml",
        'NEWLINE = "the end of the line"',
        'NEWLINE = "the end"',
        "ide messages",
    ),
    (
        "functions of a script are variables",
        "../grammars/script.toml",
        'with = "FN"\nname = "NAME"\nkind = "Function"',
        'with = "FN"\nname = "NAME"\nkind = "Variable"',
        "ide outline",
    ),
    (
        "members of JSON are called by their colon",
        "../grammars/json.toml",
        '\nname = "STRING"',
        '\nname = "COLON"',
        "ide outline",
    ),
    (
        "a comment of several lines is a string",
        "../grammars/script.toml",
        'BLOCK_COMMENT = "comment"',
        'BLOCK_COMMENT = "string"',
        "ide colours",
    ),
    (
        "numbers of JSON have no colour",
        "../grammars/json.toml",
        '\nNUMBER = "number"',
        "",
        "ide colours",
    ),
    (
        "comments of C begin as others do",
        "../grammars/c.toml",
        'comment = "//"',
        'comment = "#"',
        "ide named_symbols",
    ),
    (
        "grammars are looked for elsewhere",
        "../script/checkout/programs.py",
        'self.grammars, os.path.join(top, "grammars")',
        'self.grammars, os.path.join(top, "editors")',
        "ide started",
    ),
    (
        "the program answers for the script",
        "../script/checkout/programs.py",
        'own = ("--version", "--help", "-h")',
        "own = ()",
        "ide started",
    ),
    (
        "an editor's words are lost",
        "lrls-ide",
        'start.py" lrls-ide "$@"',
        'start.py" lrls-ide',
        "ide started",
    ),
    (
        "editors get the other program",
        "lrls-ide",
        'start.py" lrls-ide "$@"',
        'start.py" lrls "$@"',
        "ide started",
    ),
    (
        "any origin",
        "lrls_ide/playground.py",
        "if origin not in (",
        "if origin in () and (",
        "playground sockets",
    ),
    (
        "any key",
        "lrls_ide/playground.py",
        "if not hmac.compare_digest(",
        "if False and not hmac.compare_digest(",
        "playground sockets",
    ),
    (
        "any host",
        "lrls_ide/playground.py",
        "if request.host not in (",
        "if request.host in () and (",
        "playground sockets",
    ),
    (
        "any method",
        "lrls_ide/page.py",
        "if not is_about_it and (method not in ABOUT_NONE or number is None):",
        "if method is None:",
        "playground sockets",
    ),
    (
        "any number of messages",
        "lrls_ide/playground.py",
        "if not allowance.takes_one():",
        "if False:",
        "playground sockets",
    ),
    (
        "any number of pages",
        "lrls_ide/playground.py",
        "MOST_PAGES = 32",
        "MOST_PAGES = 99",
        "playground sockets",
    ),
    (
        "processes of pages stay",
        "lrls_ide/playground.py",
        "process.stdin.close()",
        "return  # process.stdin.close()",
        "playground sockets",
    ),
    (
        "pages are left when the program ends",
        "lrls_ide/playground.py",
        "asyncio.get_running_loop().add_signal_handler(signal.SIGTERM, ended.set)",
        "pass",
        "playground sockets",
    ),
    (
        "no conflict is drawn",
        "playground/conflict.js",
        "if (!fault?.conflict) return;",
        "return;",
        "playground page",
    ),
    (
        "the tree doesn't follow",
        "playground/tree.js",
        "this.path = path;",
        "this.path = [];",
        "playground page",
    ),
    (
        "no node is marked",
        "playground/editor.js",
        "this.node = this.code.markText",
        "this.node = null && this.code.markText",
        "playground page",
    ),
    (
        "a word of C is a number",
        "../grammars/c.toml",
        'GOTO = "keyword"',
        'GOTO = "number"',
        "ide coloured_words",
    ),
    (
        "a word of SQL is a comment",
        "../grammars/sql.toml",
        '\nSELECT = "keyword"',
        '\nSELECT = "comment"',
        "ide coloured_words",
    ),
    (
        "functions of Lua are variables",
        "../grammars/lua.toml",
        'with = "FUNCTION"\nname = ["NAME", "Field*", "Method?"]\nkind = "Function"',
        'with = "FUNCTION"\nname = ["NAME", "Field*", "Method?"]\nkind = "Variable"',
        "ide named_symbols",
    ),
    (
        "no limits of a server",
        "lrls_ide/server.py",
        ", preexec_fn=limit",
        "",
        "playground sockets",
    ),
    (
        "a server may take more",
        "lrls_ide/programs.py",
        "MEMORY, SECONDS = 1 << 30, 300",
        "MEMORY, SECONDS = 1 << 40, 300_000",
        "playground sockets",
    ),
    (
        "it listens everywhere",
        "lrls_ide/playground.py",
        "web.TCPSite(runner, HOST, ",
        "web.TCPSite(runner, '0.0.0.0', ",
        "playground sockets",
    ),
    (
        "a key of one byte",
        "lrls_ide/playground.py",
        "secrets.token_urlsafe(16)",
        "secrets.token_urlsafe(1)",
        "playground sockets",
    ),
    (
        "scripts in the page",
        "lrls_ide/playground.py",
        "default-src 'self';",
        "default-src 'self' 'unsafe-inline' *;",
        "playground sockets",
    ),
    (
        "keys aren't sent",
        "playground/editor.js",
        "if (this.link) this.tell(changes);",
        "",
        "playground page",
    ),
    (
        "texts aren't kept",
        "playground/store.js",
        "storage.setItem(key, value);",
        "",
        "playground kept",
    ),
    (
        "an undo leads to nothing",
        "playground/editor.js",
        "if (text !== this.text()) this.code.setValue(text);",
        "this.begin(text);",
        "playground kept",
    ),
    (
        "any letters are read",
        "playground/files.js",
        "fatal: true",
        "fatal: false",
        "playground kept",
    ),
    (
        "other line breaks are saved",
        "playground/files.js",
        "editor.code.getValue(line)",
        "editor.code.getValue()",
        "playground kept",
    ),
    (
        "no other page of a node is turned to",
        "playground/tree.js",
        "if (next < count) rows.push(",
        "if (false) rows.push(",
        "playground tree",
    ),
    (
        "a line has no role",
        "playground/tree.js",
        'row.setAttribute("role", "treeitem");',
        "",
        "playground tree",
    ),
    (
        "an old grammar isn't named",
        "playground/grammar.js",
        'if (!this.fault) return "";',
        'if (this.judging !== null) return "";',
        "playground told",
    ),
    (
        "the front of a conflict isn't cut",
        "playground/conflict.js",
        "return front.length > MOST_FRONT ?",
        "return false ?",
        "playground told",
    ),
    (
        "settings of another grammar stay",
        "lrls_ide/page.py",
        "if self.text.of_settings:",
        "if False:",
        "playground told",
    ),
    (
        "no words for what is known",
        "playground/grammar.js",
        "? fault.hint : null;",
        "? null : null;",
        "playground told",
    ),
    (
        "a faulty grammar is put in place",
        "playground/grammar.js",
        "if (!fault) await this.place(text);",
        "await this.place(text);",
        "playground told",
    ),
    (
        "Tab stays in an editor",
        "playground/editor.js",
        '{ Tab: false, "Shift-Tab": false }',
        "{}",
        "playground access",
    ),
    (
        "faint texts",
        "playground/page.css",
        "--line: #d0d4da; --dim: #57606a;",
        "--line: #d0d4da; --dim: #8c959f;",
        "playground access",
    ),
    (
        "the key in the arguments of a browser",
        "lrls_ide/playground.py",
        "webbrowser.open(file.as_uri())",
        "webbrowser.open(address)",
        "playground sockets",
    ),
    (
        "everyone can read the address",
        "lrls_ide/playground.py",
        "mode=0o600",
        "mode=0o644",
        "playground sockets",
    ),
]


def copied(folder: str, file: str, old: str, new: str) -> str:
    """A copy of `ide/`, with what it needs beside, and one thing in it replaced."""
    top = os.path.join(folder, "top")
    for name in ("ide", "grammars", "script"):
        shutil.copytree(os.path.join(TOP, name), os.path.join(top, name))
    for name in ("crates", "crates.txt", "out"):
        os.symlink(os.path.join(TOP, name), os.path.join(top, name))
    text = replaced(os.path.join("ide", file), old, new)
    with open(os.path.join(top, "ide", file), "w", encoding="utf-8") as opened:
        opened.write(text)
    return os.path.join(top, "ide")


def pytest_generate_tests(metafunc: pytest.Metafunc) -> None:
    takes_all = metafunc.config.getoption("--all") or metafunc.config.getoption("-k")
    chosen = some(WRONG, FEW, bool(takes_all))
    metafunc.parametrize("name, file, old, new, tests", chosen, ids=[row[0] for row in chosen])


def named(tests: str) -> List[str]:
    """What pytest is to run for these words: the groups of tests/ide, or files of
    tests/playground."""
    suite, *groups = tests.split()
    if suite == "playground":
        return [f"tests/playground/test_{group}.py" for group in groups]
    return [f"tests/ide/test_servers.py::test_group[{group}]" for group in groups]


@pytest.mark.usefixtures("programs")
def test_copy(
    name: str,
    file: str,
    old: str,
    new: str,
    tests: str,
    tmp_path: Path,
) -> None:
    ide = copied(str(tmp_path), file, old, new)
    more = {
        "LRLS_IDE": os.path.join(ide, "lrls-ide"),
        "LRLS_PLAYGROUND": os.path.join(ide, "lrls-playground"),
    }
    words = [sys.executable, "-m", "pytest", "-q", "-s", "-rsfE", *named(tests)]
    assert first_failed(words, more) is not None, "all passed"
