"""What `serve` reads and writes: streams, messages, transcripts, devices that fail, and one session
that is cut at every byte."""

import os
import subprocess
import threading
from typing import Tuple

from tests import TOP
from tests.common.cases import Cases, placed, read
from tests.common.serving import PATIENCE, PROGRAM, SUMS, framed
from tests.program import framed_streams, messages, transcripts
from tests.program.one_session import SESSION, written


def fed_byte_by_byte(given: bytes, is_closed: bool) -> Tuple[bytes, bytes, int]:
    """What the program writes on both streams, and its status, where its input is written in single
    bytes, or as many of them as it takes, and then is closed or stays open."""
    words = [PROGRAM, "serve", SUMS]
    with subprocess.Popen(
        words, bufsize=0, stdin=subprocess.PIPE, stdout=subprocess.PIPE, stderr=subprocess.PIPE
    ) as served:
        assert served.stdin and served.stdout and served.stderr
        late = threading.Timer(PATIENCE, served.kill)
        late.start()
        try:
            for place in range(len(given)):
                served.stdin.write(given[place : place + 1])
        except BrokenPipeError:
            pass  # it has ended at a fault
        if is_closed:
            served.stdin.close()
        written_by_it = (served.stdout.read(), served.stderr.read(), served.wait())
        late.cancel()
    return written_by_it


def streams(cases: Cases, folder: str) -> None:
    for given, replies, fault in framed_streams.STREAMS:
        out = messages.frames(replies)
        err = f"lrls: frame fault {fault}\n" if fault else ""
        cases.run(f"stream: {given[:100]!r}", ["serve", SUMS], (out, err, 1), input=given)
        cases.check(
            f"stream byte by byte: {given[:100]!r}",
            (out, err.encode(), 1),
            fed_byte_by_byte(given, True),
        )
    leaves = framed({"jsonrpc": "2.0", "method": "exit"})
    cases.run("exit without shutdown", ["serve", SUMS], (b"", "", 1), input=leaves + b"X\r\n\r\n")


def message_rows(cases: Cases, folder: str) -> None:
    for name, grammar, rows in messages.sessions():
        path = placed(folder, "grammar", grammar.encode())
        given = messages.frames([content for content, _ in rows])
        reported = messages.frames([reply for _, replies in rows for reply in replies])
        cases.run(f"message: {name[:100]}", ["serve", path], (reported, "", 1), input=given)


def transcript_rows(cases: Cases, folder: str) -> None:
    for name, grammar, lines, status in transcripts.sessions():
        path = placed(folder, "grammar", grammar.encode())
        given = messages.frames(transcripts.contents(lines, "> "))
        reported = messages.frames(transcripts.contents(lines, "< "))
        cases.run(f"transcript: {name}", ["serve", path], (reported, "", status), input=given)


def devices(cases: Cases, folder: str) -> None:
    text = placed(folder, "text", b"1+2")
    failing = (None, "lrls: write fault\n", 1)
    session = b"".join(framed(message) for message, _ in SESSION)
    commands = {"check": ["check", SUMS], "parse": ["parse", SUMS, text], "serve": ["serve", SUMS]}
    for name, words in commands.items():
        with open("/dev/full", "wb") as full:
            cases.run(f"{name} on a full device", words, failing, input=session, stdout=full)
        reader, writer = os.pipe()
        os.close(reader)
        with os.fdopen(writer, "wb") as closed:
            cases.run(f"{name} on a closed pipe", words, failing, input=session, stdout=closed)
    unreadable = os.open(folder, os.O_RDONLY)
    reported = (b"", "lrls: read fault\n", 1)
    cases.run("an input that can't be read", ["serve", SUMS], reported, stdin=unreadable)
    os.close(unreadable)


def session_cut_at(cases: Cases, size: int) -> None:
    """What the prefix of the session of this size is answered."""
    given, answers, between = b"", [], True
    for message, answer in SESSION:
        frame = framed(message)
        if len(given) + len(frame) > size:
            between = len(given) == size
            break
        given += frame
        answers += [answer] if answer is not None else []
    err = "" if between else "lrls: frame fault F6\n"
    whole = b"".join(framed(message) for message, _ in SESSION)
    status = 0 if size == len(whole) else 1
    reported = (written(answers), err, status)
    cases.run(f"session cut at byte {size}", ["serve", SUMS], reported, input=whole[:size])


def session(cases: Cases, folder: str) -> None:
    whole = b"".join(framed(message) for message, _ in SESSION)
    for size in range(len(whole) + 1):
        session_cut_at(cases, size)
    answers = [answer for _, answer in SESSION if answer is not None]
    cases.check("session byte by byte", (written(answers), b"", 0), fed_byte_by_byte(whole, False))


def copies(cases: Cases, folder: str) -> None:
    """The stored sessions of the programs read their grammar where `rt test` runs them, and where
    `rt ci` does."""
    for crate in ("lrls", "lrls_ide"):
        for name in ("g0.lr", os.path.join("data", "g0.lr")):
            path = os.path.join(TOP, "crates", crate, name)
            cases.check(f"copy {name} of {crate}", read(SUMS), read(path))
