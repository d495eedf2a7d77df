"""The words of a command line that the program reads or refuses, and the files that they name."""

import os
from typing import List

from tests.common.cases import Cases, placed, read
from tests.common.serving import SUMS
from tests.program.grammar_checks import GOOD
from tests.program.texts import SUM

USAGE = "usage: lrls check GRAMMAR | parse GRAMMAR TEXT | serve GRAMMAR\n"

# Words that the program refuses.
REFUSED: List[List[str]] = [
    [],
    ["what"],
    ["--help"],
    ["help"],
    ["help", "check"],
    ["-h"],
    ["--version"],
    ["-V"],
    ["--"],
    ["--", "check", SUMS],
    ["chec", SUMS],
    ["check"],
    ["check", SUMS, "more"],
    ["check", "--what", SUMS],
    ["check", "-g"],
    ["check", SUMS, "--", "more"],
    ["serve", "--help"],
    ["parse"],
    ["parse", SUMS],
    ["parse", SUMS, SUMS, "more"],
    ["serve"],
    ["serve", SUMS, "more"],
    [""],
]

# Words that the program reads, in a folder where `-g`, `-` and `check` are grammar files of sums,
# and `-t` and `--` hold `1+2`.
ACCEPTED = [
    (["check", "-"], "ok\n"),
    (["check", "check"], "ok\n"),
    (["check", "--", "-g"], "ok\n"),
    (["check", "-", "--"], "ok\n"),
    (["parse", "--", "-g", "-t"], SUM),
    (["parse", "-", "--", "-t"], SUM),
    (["parse", "--", "-g", "--"], SUM),
]

# Bytes of grammar files that are no UTF-8.
NO_UTF8 = {
    "a byte of no character": b"lrgrammar 1\n\xff",
    "a byte of no character in a comment": b"lrgrammar 1\n# \xff\n" + GOOD.encode(),
    "a surrogate in a comment": b"lrgrammar 1\n# \xed\xa0\x80\n" + GOOD.encode(),
    "a byte of no character in too large a file": b"lrgrammar 1\n"
    + GOOD.encode()
    + b"#" * 65_536
    + b"\xff\n",
}

# Words that are no UTF-8.
NO_UTF8_WORDS = [[b"check", b"\xff"], [b"\xff"], [b"parse", SUMS.encode(), b"a\xed\xa0\x80"]]


def command_lines(cases: Cases, folder: str) -> None:
    for words in REFUSED + NO_UTF8_WORDS:
        cases.run(f"words {words}", words, (b"", USAGE, 2))
    for name in ["-g", "-", "check"]:
        placed(folder, name, read(SUMS))
    for name in ["-t", "--"]:
        placed(folder, name, b"1+2")
    for words, out in ACCEPTED:
        cases.run(f"words {words}", words, (out.encode(), "", 0), cwd=folder)


def files(cases: Cases, folder: str) -> None:
    missing = os.path.join(folder, "missing")
    faulty = placed(folder, "faulty", b"what\n")
    for command in ["check", "serve"]:
        for path in [missing, folder, ""]:
            reported = (b"", f"lrls: cannot read {path}\n", 1)
            cases.run(f"{command} of {path!r}", [command, path], reported)
        for name, content in NO_UTF8.items():
            reported = (b"", "lrls: grammar is not UTF-8\n", 2)
            cases.run(f"{command} of {name}", [command, placed(folder, "bytes", content)], reported)
        reported = (b"", "lrls: line 1: G1 first line\n", 2)
        cases.run(f"{command} of a faulty grammar", [command, faulty], reported)
    reported = (b"", f"lrls: cannot read {missing}\n", 1)
    cases.run("a text that is missing", ["parse", SUMS, missing], reported)
    reported = (b"", "lrls: line 1: G1 first line\n", 2)
    cases.run(
        "a faulty grammar before a text that is missing", ["parse", faulty, missing], reported
    )
