"""The grammars of grammars/ on their samples, and on texts that they have to accept or to refuse:
trees, faults, folds, words left out, the examples in their heads, and what `lrls show` shows."""

import json
import os
import re
import subprocess
import sys
from typing import List, Optional, Set

from tests import TOP
from tests.common import serving
from tests.common.cases import Cases, outcome, placed, read
from tests.program import (
    accepted_texts,
    folds,
    heads,
    left_out as left_out_words,
    refused_texts,
    showing,
)
from tests.program.one_session import URI
from tests.program.sample_faults import ALTERNATIVES, FURTHER_FAULTS, SAMPLES, TRAPS


def samples(cases: Cases, folder: str) -> None:
    """Each file in grammars/ is a grammar without notes, but for its traps, and has a sample with
    its tree, and with a fault where it is changed."""
    files = os.path.join(TOP, "grammars")
    there = [name[:-3] for name in sorted(os.listdir(files)) if name.endswith(".lr")]
    cases.check(
        "a sample for each grammar", there, [name.split(".")[0] for name in sorted(SAMPLES)]
    )
    for name, change_and_fault in SAMPLES.items():
        language = name.split(".")[0]
        grammar = os.path.join(files, language + ".lr")
        notes = "".join(f"note: unreachable {name}\n" for name in TRAPS.get(language, []))
        cases.run(
            f"sample: the grammar of {language}",
            ["check", grammar],
            (notes.encode() + b"ok\n", "", 0),
        )
        text = read(os.path.join(files, "samples", name))
        tree = read(os.path.join(files, "samples", language + ".tree"))
        sample = placed(folder, name, text)
        cases.run(f"sample: {name}", ["parse", grammar, sample], (tree, "", 0))
        cases.check(
            f"sample: the tree of {name} is made by tests/oracles/trees",
            tree,
            by_trees(grammar, sample),
        )
        missed = productions_of(read(grammar).decode()) - productions_in(tree.decode())
        cases.check(
            f"sample: {name} has each production", ALTERNATIVES.get(language, set()), missed
        )
        faulty_sample(cases, folder, name, *change_and_fault)
    for row in FURTHER_FAULTS:
        faulty_sample(cases, folder, *row)


def by_trees(grammar: str, text: str) -> bytes:
    """What tests/oracles/trees prints of these files, and `lrls parse` has to. It is slow, and
    always ends."""
    words = [sys.executable, os.path.join(TOP, "tests", "oracles", "trees"), grammar, text]
    return subprocess.run(words, stdout=subprocess.PIPE, check=True).stdout


def productions_of(grammar: str) -> Set[str]:
    """The productions that the lines of a grammar file are."""
    lines = [line.split() for line in grammar.split("\n")]
    return {
        " ".join(words)
        for words in lines
        if words[1:2] == ["="] and words[0] not in ("token", "skip")
    }


def productions_in(tree: str) -> Set[str]:
    """The productions of the nodes of a tree."""
    found: Set[str] = set()
    open_nodes: List[List[str]] = []
    for word in re.findall(r"[()]|[^\s()]+", tree):
        if word == "(":
            open_nodes.append([])
        elif word != ")":
            open_nodes[-1].append(word)
        else:
            symbol, *children = open_nodes.pop()
            found.add(" ".join([symbol, "=", *children]))
            if open_nodes:
                open_nodes[-1].append(symbol)
    return found


def faulty_sample(cases: Cases, folder: str, name: str, old: str, new: str, fault: str) -> None:
    """What is printed of a sample that is changed in one place."""
    faulty = placed(folder, name, changed_sample(cases, name, old, new))
    cases.run(
        f"sample: {name} with {new!r}", ["parse", grammar_of(name), faulty], (fault.encode(), "", 1)
    )


def changed_sample(cases: Cases, name: str, old: str, new: str) -> bytes:
    """The sample of this name, changed in one place."""
    text = read(os.path.join(TOP, "grammars", "samples", name))
    cases.check(f"sample: {name} is changed in one place, at {old!r}", 1, text.count(old.encode()))
    return text.replace(old.encode(), new.encode())


def grammar_of(sample: str) -> str:
    """The grammar file of a sample."""
    return os.path.join(TOP, "grammars", sample.split(".")[0] + ".lr")


def faults_of(language: str, texts: List[str]) -> List[Optional[str]]:
    """What the server says of each of these texts: none where it is accepted, else the message. The
    grammar is loaded once."""
    session = serving.Session(os.path.join("grammars", language + ".lr"))
    messages: List[Optional[str]] = []
    for text in texts:
        found = json.loads(session.open(URI, 1, text))["params"]["diagnostics"]
        session.forget(URI)
        messages.append(found[0]["message"] if found else None)
    session.close()
    return messages


def head_examples(cases: Cases, folder: str) -> None:
    """The examples in the heads of grammars/*.lr are accepted or refused, as the head says."""
    files = os.path.join(TOP, "grammars")
    for name in sorted(os.listdir(files)):
        language, kind = os.path.splitext(name)
        if kind != ".lr":
            continue
        rows = heads.examples(read(os.path.join(files, name)).decode())
        cases.check(f"head: {language} has examples", language not in heads.WITHOUT, bool(rows))
        for (text, accepted), fault in zip(rows, faults_of(language, [text for text, _ in rows])):
            cases.check(f"head of {language}: {text!r} ({fault})", accepted, fault is None)


def real_forms(cases: Cases, folder: str) -> None:
    """Forms that real files have are accepted, and a byte order mark is no fault."""
    for language, texts in accepted_texts.TEXTS.items():
        for text, fault in zip(texts, faults_of(language, texts)):
            cases.check(f"form of {language}: {text!r}", None, fault)
    for name in SAMPLES:
        language = name.split(".")[0]
        sample = read(os.path.join(TOP, "grammars", "samples", name)).decode()
        skipped = language not in accepted_texts.NO_BYTE_ORDER_MARK
        for fault in faults_of(language, ["\ufeff" + sample]):
            cases.check(f"a byte order mark before {name} ({fault})", skipped, fault is None)


def refused_forms(cases: Cases, folder: str) -> None:
    """Texts that are none of their language are refused."""
    for language, texts in refused_texts.TEXTS.items():
        for text, fault in zip(texts, faults_of(language, texts)):
            cases.check(f"no text of {language}: {text!r}", True, fault is not None)


def folding(cases: Cases, folder: str) -> None:
    """Each kind of node that folds in a language does, from its first line to its last."""
    for name in SAMPLES:
        folds.run(cases, name.split(".")[0], name)


def left_out(cases: Cases, folder: str) -> None:
    """Where a separator or a closing word is left out, it is the first word of what is expected."""
    for name, old, new, rule in left_out_words.ROWS:
        out, err, status = outcome(
            ["parse", grammar_of(name), placed(folder, name, changed_sample(cases, name, old, new))]
        )
        leads = left_out_words.leads(rule, out.decode())
        cases.check(f"left out of {name}: {old!r}", (True, b"", 1), (leads or out, err, status))


def shown(cases: Cases, folder: str) -> None:
    """`lrls show` shows what the server reports."""
    files = os.path.join(TOP, "grammars", "samples")
    paths = [
        (
            grammar_of(name),
            os.path.join(files, name),
            os.path.join(files, name.split(".")[0] + ".tree"),
        )
        for name in SAMPLES
    ]
    showing.run(cases, lambda name, content: placed(folder, name, content), paths)
