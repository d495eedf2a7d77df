"""The languages of tests/corpora: where files of each are, how they are read, and the other parser
of each.

A parser returns None where it accepts a text by its form, else what it says. What it finds wrong
with the meaning of a text is no fault of form: it returns None where it had read the whole text
before it said so, and else a Meaning, since the rest of the text may have any form.
"""

import configparser
import glob
import gzip
import io
import json
import os
import re
import shutil
import sqlite3
import subprocess
import sys
import sysconfig
import tempfile
import threading
from typing import IO, Any, Callable, Dict, Iterator, List, Optional, Sequence, Tuple

from tests.corpora.preprocessor import preprocessed

STDLIB = sysconfig.get_paths()["stdlib"].lstrip("/")
PACKAGES = sysconfig.get_paths()["purelib"].lstrip("/")

# Folders in which packages are installed or unpacked.
Roots = List[str]
# What a parser says of a text: None where it accepts it.
Parse = Callable[[str], Optional[str]]
# Another parser, with its name.
Parser = Tuple[str, Parse]
# A text, with its name before it, and what makes texts of the path and the text of a file.
Text = Tuple[str, str]
Make = Callable[[str, str], List[Text]]
# A rule, and what reads the texts of its tokens.
Words = Tuple[str, Callable[[str], List[str]]]


def ran(words: Sequence[str], text: str, **more: Any) -> Tuple[int, str, str]:
    """What a command says of a text on its standard input: its status, and both of its outputs."""
    found = subprocess.run(
        words,
        input=text.encode(),
        stdout=subprocess.PIPE,
        stderr=subprocess.PIPE,
        timeout=120,
        check=False,
        **more,
    )
    return (
        found.returncode,
        found.stdout.decode(errors="replace"),
        found.stderr.decode(errors="replace"),
    )


def first_line(text: str) -> str:
    return text.strip().split("\n")[0][:200]


# Parsers. Each maker returns the parser, or raises Missing and says what to install.


class Missing(Exception):
    """A parser that isn't installed."""


class Meaning(str):
    """What a parser found wrong with the meaning of a text, before it had read all of it."""


def said(fault: str, of_meaning: "re.Pattern[str]", text: str) -> str:
    """A fault, as one of meaning where the pattern is in this text of it."""
    return Meaning(fault) if of_meaning.search(text) else fault


def program(names: Sequence[str], package: str) -> str:
    for name in names:
        if shutil.which(name):
            return name
    raise Missing(f"{names[0]} isn't installed (Debian package {package})")


LUA_MEANING = re.compile(
    r"const variable|visible label|label .* already|break outside|outside a vararg|jumps into"
    r"|multiple to-be-closed|unknown attribute|too many|escape|UTF-8 value|hexadecimal digit"
    r"|missing '\{' in"
)


def luac(roots: Roots) -> Parser:
    name = program(["luac5.4", "luac"], "lua5.4")

    def parse(text: str) -> Optional[str]:
        status, _, err = ran([name, "-p", "-"], text)
        if not status:
            return None
        return said(first_line(err), LUA_MEANING, err)

    return name, parse


def python_json(roots: Roots) -> Parser:
    def refused(word: str) -> None:
        raise ValueError(f"{word} is no JSON")

    def parse(text: str) -> Optional[str]:
        try:
            json.loads(text, parse_constant=refused)
        except (ValueError, RecursionError) as fault:
            return str(fault)
        return None

    return "Python's json", parse


TOML_MEANING = re.compile(
    r"Cannot (overwrite|declare|mutate|redefine)|Duplicate inline|Invalid date or|namespace|twice"
)


def python_toml(roots: Roots) -> Parser:
    try:
        import tomllib
    except ImportError:
        raise Missing("tomllib is part of Python from 3.11 on") from None

    def parse(text: str) -> Optional[str]:
        try:
            tomllib.loads(text)
        except (ValueError, RecursionError) as fault:
            return said(str(fault), TOML_MEANING, str(fault))
        return None

    return "tomllib", parse


def ini_keys(text: str) -> List[str]:
    """The keys that configparser reads, in order."""
    keys: List[str] = []
    parser = configparser.RawConfigParser(strict=False)

    def named(key: str) -> str:
        keys.append(key)
        return key

    parser.optionxform = named  # type: ignore[assignment,method-assign]
    # Entries may stand before the first section, and each kind of line end ends a line.
    parser.read_file(io.StringIO("[first]\n" + text, newline=None))
    return keys


def python_ini(roots: Roots) -> Parser:
    def parse(text: str) -> Optional[str]:
        try:
            ini_keys(text)
        except configparser.Error as fault:
            return first_line(str(fault).replace("\n", " "))
        return None

    return "Python's configparser", parse


# What protoc says of a text's form. A missing label is a matter of the version that the text names.
PROTO_FAULT = re.compile(
    r"text\.proto:\d+:\d+: (?!Expected \"required\")(Expected|Missing|Unexpected|Invalid"
    r"|Reached end|End-of-file|String literals cannot|\"/\*\"|\"0x\"|\"e\"|Numbers starting"
    r"|Hex and octal|Already saw|Fields in oneofs must not|Interpreting non)"
)


def protoc(roots: Roots) -> Parser:
    program(["protoc"], "protobuf-compiler")

    def parse(text: str) -> Optional[str]:
        with tempfile.TemporaryDirectory() as folder:
            with open(
                os.path.join(folder, "text.proto"), "w", encoding="utf-8", newline=""
            ) as file:
                file.write(text)
            _, _, err = ran(
                ["protoc", "-I", folder, "--descriptor_set_out=/dev/null", "text.proto"], ""
            )
        found = [line for line in err.split("\n") if PROTO_FAULT.match(line)]
        return first_line(found[0]) if found else None

    return "protoc", parse


C_FAULT = re.compile(
    r"error: (expected|stray|missing terminating|unterminated|unknown type name|empty character"
    r"|invalid suffix|type defaults|return type defaults|ISO C does not allow extra).*"
)
GCC = ["gcc", "-std=gnu11", "-fsyntax-only", "-x", "cpp-output", "-"]


def gcc(roots: Roots) -> Parser:
    program(["gcc"], "gcc")

    def parse(text: str) -> Optional[str]:
        _, _, err = ran(GCC, text, env={**os.environ, "LC_ALL": "C"})
        found = C_FAULT.search(err)
        return found.group(0) if found else None

    return "gcc", parse


def graphviz(roots: Roots) -> Parser:
    program(["dot"], "graphviz")

    def parse(text: str) -> Optional[str]:
        _, _, err = ran(["dot", "-Tcanon"], text)
        faults = [
            line
            for line in err.split("\n")
            if "syntax error" in line or "unterminated" in line or "scanner" in line
        ]
        return first_line(faults[0]) if faults else None

    return "dot", parse


CSS_OF_RULES = re.compile(r"media|supports|layer|container|scope|(-\w+-)?document")
CSS_OF_DECLARATIONS = re.compile(r"page|font-face|property|counter-style")


def tinycss(roots: Roots) -> Parser:
    sys.path += [os.path.join(root, "usr/lib/python3/dist-packages") for root in roots]
    try:
        import tinycss2
    except ImportError:
        raise Missing("tinycss2 isn't installed (Debian package python3-tinycss2)") from None

    def faults(nodes: Any) -> Iterator[str]:
        for node in nodes or []:
            if node.type == "error":
                yield f"{node.source_line}:{node.source_column}: {node.message}"
            elif node.type == "declaration":
                yield from faults(node.value)
            elif node.type == "qualified-rule":
                yield from faults(node.prelude)
                yield from faults(tinycss2.parse_declaration_list(node.content, True, True))
            elif node.type == "at-rule":
                yield from faults(node.prelude)
                if node.content and CSS_OF_RULES.fullmatch(node.lower_at_keyword):
                    yield from faults(tinycss2.parse_rule_list(node.content, True, True))
                elif node.content and CSS_OF_DECLARATIONS.fullmatch(node.lower_at_keyword):
                    yield from faults(tinycss2.parse_declaration_list(node.content, True, True))
            else:
                yield from faults(
                    getattr(node, "arguments", None) or getattr(node, "content", None)
                )

    name = "tinycss2, which takes any words for a selector"
    return name, lambda text: next(faults(tinycss2.parse_stylesheet(text, True, True)), None)


NODE_GRAPHQL = """const { parse } = require("graphql");
require("readline").createInterface({ input: process.stdin }).on("line", (line) => {
  let fault = "";
  try { parse(JSON.parse(line)); } catch (error) { fault = error.message; }
  console.log(JSON.stringify(fault));
});"""


def node_graphql(roots: Roots) -> Parser:
    """One process for all texts, since node takes long to start."""
    program(["node"], "nodejs")
    paths = ":".join(os.path.join(root, "usr/share/nodejs") for root in roots)
    words = ["node", "-e", NODE_GRAPHQL]
    node = subprocess.Popen(
        words,
        env={**os.environ, "NODE_PATH": paths},
        text=True,
        encoding="utf-8",
        stdin=subprocess.PIPE,
        stdout=subprocess.PIPE,
        stderr=subprocess.DEVNULL,
    )
    assert node.stdin and node.stdout
    given: IO[str] = node.stdin
    answers: IO[str] = node.stdout
    lock = threading.Lock()

    def parse(text: str) -> Optional[str]:
        with lock:
            print(json.dumps(text), file=given, flush=True)
            return first_line(json.loads(answers.readline())) or None

    try:
        parse("{a}")
    except (OSError, ValueError):
        raise Missing("graphql isn't installed (Debian package node-graphql)") from None
    return "node-graphql", parse


NO_STATEMENT = re.compile(r"(\s|--[^\n]*|/\*.*?\*/|;)*", re.DOTALL)
SQL_FAULT = re.compile(r"syntax error|incomplete input|unrecognized token")


def sqlite(roots: Roots) -> Parser:
    def parse(text: str) -> Optional[str]:
        if NO_STATEMENT.fullmatch(text):
            return None  # it can't be explained
        connection = sqlite3.connect(":memory:")
        try:
            connection.execute("EXPLAIN " + text)
        except (sqlite3.Error, sqlite3.Warning, ValueError) as fault:
            return str(fault) if SQL_FAULT.search(str(fault)) else None
        finally:
            connection.close()
        return None

    return "sqlite " + sqlite3.sqlite_version, parse


def gofmt(roots: Roots) -> Parser:
    places = [
        os.path.join(root, path)
        for root in roots
        for path in ("usr/bin/gofmt", "usr/lib/go-*/bin/gofmt")
    ]
    found = sorted(path for place in places for path in glob.glob(place))
    if not found:
        raise Missing("gofmt isn't installed (Debian package golang-go)")

    def parse(text: str) -> Optional[str]:
        status, _, err = ran([found[-1], "-e"], text)
        return first_line(err) if status else None

    return "gofmt", parse


# Reads data up to the end of the text.
READ_ALL = "(let loop () (if (not (eof-object? (read))) (loop)))"


def guile(roots: Roots) -> Parser:
    name = program(["guile", "guile-3.0"], "guile-3.0")

    def parse(text: str) -> Optional[str]:
        status, _, err = ran([name, "--no-auto-compile", "-c", READ_ALL], text)
        return first_line(err) or "refused" if status else None

    return "guile's read", parse


def glslang(roots: Roots) -> Parser:
    """Each text as a shader of fragments. Only a syntax error is one of form."""
    program(["glslangValidator"], "glslang-tools")

    def parse(text: str) -> Optional[str]:
        status, out, _ = ran(["glslangValidator", "--stdin", "-S", "frag"], text)
        faults = [line for line in out.split("\n") if "syntax error" in line]
        return first_line(faults[0]) if faults else Meaning(first_line(out)) if status else None

    return "glslangValidator", parse


def python_debian(roots: Roots) -> Parser:
    sys.path += [os.path.join(root, "usr/lib/python3/dist-packages") for root in roots]
    try:
        from debian import deb822
    except ImportError:
        raise Missing("python3-debian isn't installed") from None

    def parse(text: str) -> Optional[str]:
        try:
            for paragraph in deb822.Deb822.iter_paragraphs(io.StringIO(text), use_apt_pkg=False):
                list(paragraph.items())
        except (ValueError, EOFError) as fault:
            return str(fault)
        return None

    return "python3-debian", parse


def no_other(roots: Roots) -> Parser:
    raise Missing("no other parser takes such texts alone")


# What is made of a file: the texts that are parsed, with a name for each


def whole(path: str, text: str) -> List[Text]:
    return [(path, text)]


def statements(path: str, text: str) -> List[Text]:
    """The statements of a file of SQL, each by itself. Comments between them belong to none."""
    found: List[str] = []
    begun = 0
    for end in re.finditer(";", text):
        if sqlite3.complete_statement(text[begun : end.end()]):
            found.append(NO_STATEMENT.sub("", text[begun : end.end()], count=1))
            begun = end.end()
    return [
        (f"{path} statement {number + 1}", statement)
        for number, statement in enumerate(found)
        if statement
    ]


# A string, a quoted name, a comment, a text between dollars, a line of the terminal's own, the end
# of a statement, and what is else
SQL_PIECE = re.compile(
    r"""'(?:[^'\\]|''|\\.)*'|"[^"]*"|`[^`]*`|(?P<comment>--[^\n]*|/\*.*?\*/)"""
    r"""|(?P<dollars>\$\w*\$).*?(?P=dollars)|\\[^\n]*|;|[^'"`\-/$\\;]+|.""",
    re.DOTALL,
)


def other_statements(path: str, text: str) -> List[Text]:
    """The statements of a file of PostgreSQL or MySQL, each by itself and without comments."""
    found: List[str] = []
    pieces: List[str] = []
    for piece in SQL_PIECE.finditer(text):
        if not piece.group("comment"):
            pieces.append(piece.group(0))
        if piece.group(0) == ";":
            found.append("".join(pieces).strip())
            pieces = []
    found = [statement for statement in found if statement.strip("; \t\r\n")]
    return [(f"{path} statement {number + 1}", statement) for number, statement in enumerate(found)]


class Language:
    """Where files are, by globs below a root; the other parser; what makes texts of a file, and
    what does where they are edited; the grammar, where it has another name than the language; and,
    where nearly every text is accepted, a rule and what reads the texts of its tokens."""

    def __init__(
        self,
        globs: List[str],
        parser: Callable[[Roots], Parser],
        texts: Make = whole,
        edited: Optional[Make] = None,
        grammar: Optional[str] = None,
        words: Optional[Words] = None,
    ) -> None:
        self.globs, self.parser, self.texts, self.grammar, self.words = (
            globs,
            parser,
            texts,
            grammar,
            words,
        )
        self.edited = edited or texts

    def files(self, roots: Roots) -> List[str]:
        found: Dict[str, str] = {}
        for root in roots:
            for pattern in self.globs:
                for path in glob.glob(os.path.join(root, pattern), recursive=True):
                    if os.path.isfile(path):
                        found.setdefault(os.path.realpath(path), path)
        return sorted(found.values())


def read(path: str) -> Optional[str]:
    """The text of a file, or none where it is no UTF-8."""
    with gzip.open(path) if path.endswith(".gz") else open(path, "rb") as file:
        try:
            return file.read().decode("utf-8")
        except (UnicodeDecodeError, OSError):
            return None


MYSQL = [
    "usr/share/icinga*/**/*mysql*/**/*.sql",
    "usr/share/icinga*/**/schema/mysql.sql",
    "usr/share/phpmyadmin/sql/*.sql",
]
POSTGRESQL = [
    "usr/share/icinga*/**/*pgsql*/**/*.sql",
    "usr/share/icinga*/**/schema/pgsql.sql",
    "usr/share/postgresql/*/*.sql",
    "usr/share/postgresql/*/extension/*.sql",
]
LANGUAGES = {
    "c": Language(
        ["usr/include/*.h", "usr/share/doc/*/examples/**/*.c", "*-[0-9]*/**/*.c"], gcc, preprocessed
    ),
    # As the files lie on the disk, before the preprocessor
    "c-files": Language(
        ["usr/share/doc/*/examples/**/*.c", "*-[0-9]*/**/*.c"], no_other, grammar="c"
    ),
    "control": Language(
        ["*/debian/control", "var/lib/dpkg/status", "var/lib/dpkg/available"], python_debian
    ),
    "css": Language(["usr/share/**/*.css"], tinycss),
    "dot": Language(
        ["usr/share/doc/graphviz/examples/**/*.gv", "usr/share/doc/graphviz/examples/**/*.gv.gz"],
        graphviz,
    ),
    "glsl": Language(
        ["usr/share/**/*.frag", "usr/share/**/*.vert", "usr/share/**/*.glsl"], glslang
    ),
    "go": Language(["usr/share/go-*/**/*.go", "usr/share/gocode/**/*.go"], gofmt),
    "graphql": Language(
        ["usr/share/gocode/**/*.graphql", "usr/share/nodejs/**/*.graphql"], node_graphql
    ),
    "ini": Language(
        [
            f"{STDLIB}/test/**/cfgparser.*",
            f"{PACKAGES}/*/entry_points.txt",
            "etc/**/*.ini",
            "etc/fail2ban/**/*.conf",
            "usr/share/**/*.ini",
            "usr/share/**/*.desktop",
            "lib/systemd/**/*.*",
        ],
        python_ini,
        words=("KEY", ini_keys),
    ),
    "json": Language(
        [
            f"{STDLIB}/test/**/*.json",
            f"{PACKAGES}/**/*.json",
            "usr/share/**/*.json",
            "usr/lib/node_modules/**/*.json",
        ],
        python_json,
    ),
    "lua": Language(["usr/share/**/*.lua", "usr/lib/**/*.lua"], luac),
    "nginx": Language(
        [
            "etc/nginx/**/*.conf",
            "etc/nginx/sites-available/*",
            "etc/nginx/*_params",
            "*/conf/*.conf",
        ],
        no_other,
    ),
    "proto": Language(
        [
            "usr/include/google/**/*.proto",
            "usr/share/gocode/**/*.proto",
            "usr/share/grpc-proto/**/*.proto",
            "usr/share/cargo/**/*.proto",
        ],
        protoc,
    ),
    "scheme": Language(["usr/share/guile/**/*.scm", "usr/share/slib/**/*.scm"], guile),
    "sql-mysql": Language(MYSQL, no_other, other_statements, edited=whole, grammar="sql"),
    "sql-postgresql": Language(POSTGRESQL, no_other, other_statements, edited=whole, grammar="sql"),
    "sql": Language(
        [
            "usr/share/mediawiki/**/sqlite/**/*.sql",
            "usr/share/pdns-backend-sqlite3/schema/*.sql",
            "usr/share/roundcube/SQL/sqlite/*.sql",
        ],
        sqlite,
        statements,
        edited=whole,
    ),
    "toml": Language(
        [f"{STDLIB}/test/test_tomllib/data/**/*.toml", "usr/share/cargo/registry/**/*.toml"],
        python_toml,
    ),
}
