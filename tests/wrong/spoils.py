"""Wrong programs: the program with one thing spoiled. tests/wrong/test_programs.py runs them.

`SPOILS` has for each its name, the groups of tests/program of which each has to fail, and the
spoiling: a function of the words of the command and of what is written, which returns what is
written in its place. In `NOTHING` nothing is spoiled. `run` is what a wrong program does: it runs
the right one, and passes each reply on as soon as it is there, or, where the program doesn't serve,
all that it wrote.
"""

import os
import re
import subprocess
import sys
import threading
from typing import Any


class Spoil:
    """What is spoiled: the content of a reply, all of standard output where the program doesn't
    serve, standard error and the status; how many times a reply is written, what its length is out
    by, and whether replies wait for the end of the input."""

    def __init__(
        self,
        name: str,
        groups: Any,
        reply: Any = None,
        out: Any = None,
        err: Any = None,
        status: Any = None,
        times: Any = 1,
        length: Any = 0,
        is_late: Any = False,
    ) -> None:
        same = lambda written: written
        self.name, self.groups = name, groups
        self.reply, self.out, self.err, self.status = (
            reply or same,
            out or same,
            err or same,
            status or (lambda *ended: ended[-1]),
        )
        self.times, self.length, self.is_late = times, length, is_late


def replaced(old: Any, new: Any) -> Any:
    return lambda written: re.sub(old, new, written)


# The place of diagnostics with none
INVENTED = (
    b'"diagnostics":[{"message":"unexpected end; expected end","range":{"end":{"character":0,"line":0},'
    b'"start":{"character":0,"line":0}},"severity":1,"source":"lrls"}]'
)

SPOILS = [
    Spoil(
        "usage has status 1",
        ["command_lines"],
        status=lambda words, err, status: 1 if err.startswith(b"usage") else status,
    ),
    Spoil(
        "a grammar that can't be read has status 2",
        ["files"],
        status=lambda words, err, status: 2 if b"cannot" in err else status,
    ),
    Spoil(
        "a fault of a text has status 0",
        ["texts", "marked_words"],
        status=lambda words, err, status: 0 if status == 1 else status,
    ),
    Spoil(
        "a session ends with status 1",
        ["session", "transcript_rows"],
        status=lambda words, err, status: 1,
    ),
    Spoil(
        "a fault of a device has status 0",
        ["devices"],
        status=lambda words, err, status: 0 if b"e fault" in err else status,
    ),
    Spoil(
        "a warning beside what is well",
        ["grammars", "conflict_rows"],
        err=lambda err: err + b"lrls: warning\n",
    ),
    Spoil(
        "too large, in place of no UTF-8",
        ["texts"],
        err=replaced(b"text is not UTF-8", b"text too large"),
    ),
    Spoil("another fault of frames", ["streams"], err=replaced(b"F4", b"F1")),
    Spoil(
        "another fault of a pattern", ["grammars", "prefixes", "page"], err=replaced(rb"P1", b"P2")
    ),
    Spoil("the place of a bad pattern", ["prefixes"], err=replaced(rb"at 4: P1", b"at 3: P1")),
    Spoil(
        "a name that is cut short",
        ["prefixes"],
        err=replaced(rb"undefined: (\w)\w+", rb"undefined: \1"),
    ),
    Spoil(
        "the last note is left out",
        ["grammars", "prefixes"],
        out=replaced(rb"note: unreachable \w+\nok", b"ok"),
    ),
    Spoil(
        "a note of many is left out",
        ["grammar_rows"],
        out=replaced(rb"note: unreachable X7\n", b""),
    ),
    Spoil(
        "an invented token after an item",
        ["conflict_rows"],
        err=replaced(rb"(item: .*), \w+\n$", rb"\1, Q\n"),
    ),
    Spoil(
        "an invented way to a conflict", ["conflict_rows"], err=replaced(rb"after: \w+", b"after:")
    ),
    Spoil(
        "the items of a conflict exchanged",
        ["conflict_rows"],
        err=replaced(rb"(item: .*\n)(item: .*\n)", rb"\2\1"),
    ),
    Spoil(
        "no limit on sets of items",
        ["sizes"],
        err=replaced(rb"over 8192 table states", b"over 9000 table states"),
    ),
    Spoil(
        "a token missing in each tree",
        ["marked_words", "samples"],
        out=replaced(rb" LBRACKET| LP", b""),
    ),
    Spoil(
        "two expected tokens exchanged",
        ["samples", "left_out"],
        out=replaced(rb"expected (\w+), (\w+)", rb"expected \2, \1"),
    ),
    Spoil(
        "an empty node that looks like a token",
        ["marked_words"],
        out=replaced(rb"\((\S+[*?])\)", rb"\1"),
    ),
    Spoil("no node for a file", ["grammars_as_texts"], out=replaced(rb"^\(File ", b"(")),
    Spoil(
        "a byte of a reply",
        ["message_rows", "transcript_rows", "session"],
        reply=replaced(rb"\}$", b"]"),
    ),
    Spoil("a code of an error", ["message_rows"], reply=replaced(rb"-32601", b"-32600")),
    Spoil(
        "an invented diagnostic",
        ["real_forms", "head_examples"],
        reply=replaced(rb'"diagnostics":\[\]', INVENTED),
    ),
    Spoil(
        "a dropped diagnostic",
        ["message_rows", "session", "nesting", "head_examples"],
        reply=replaced(rb'"diagnostics":\[.*?\],"uri"', b'"diagnostics":[],"uri"'),
    ),
    Spoil("a length that is one too much", ["streams", "session"], length=1),
    Spoil("each reply twice", ["streams", "transcript_rows", "session"], times=2),
    Spoil("no replies", ["streams", "session", "nesting"], times=0),
    Spoil("replies after the end of the input", ["nesting", "counts"], is_late=True),
    Spoil(
        "nodes too many are counted",
        ["counts", "transcript_rows"],
        reply=replaced(rb'"built":', b'"built":1'),
    ),
    Spoil(
        "a token left out of the tokens",
        ["shown"],
        reply=replaced(rb'"result":\[\["\w+",0,0,0,1\],', b'"result":['),
    ),
    Spoil(
        "trees without their last node",
        ["shown"],
        reply=replaced(rb'("result":"\(.*) \(.*?\)\)"', rb'\1)"'),
    ),
    Spoil(
        "a character missing in each text",
        ["changes_together"],
        reply=replaced(rb'"text":".', b'"text":"'),
    ),
    Spoil(
        "all is scanned again",
        ["nesting", "changes_together"],
        reply=replaced(rb'"scanned":\d+', b'"scanned":200001'),
    ),
]
# `devices` isn't among these groups: Python itself doesn't start on one of its inputs, which is a
# folder.
NOTHING = [
    Spoil("nothing", sorted({group for spoil in SPOILS for group in spoil.groups} - {"devices"}))
]

# A program in C that runs the right one, and does something else where that one says that memory
# was refused. It takes little memory itself, and none by malloc.
CRASHES = """
#include <stdlib.h>
#include <string.h>
#include <sys/wait.h>
#include <unistd.h>
int main(int count, char **words) {
    int ends[2], status;
    char text[4096];
    size_t size = 0;
    ssize_t more;
    if (pipe(ends)) return 9;
    pid_t child = fork();
    if (child == 0) {
        dup2(ends[1], 2);
        close(ends[0]);
        close(ends[1]);
        execv(RIGHT, words);
        _exit(9);
    }
    close(ends[1]);
    // Only the right program's allocations are counted.
    unsetenv("COUNTED");
    while (size < sizeof text && (more = read(ends[0], text + size, sizeof text - size)) > 0) size += more;
    waitpid(child, &status, 0);
    if (size >= 16 && !memcmp(text + size - 16, "lrls: no memory\\n", 16)) { WRONG }
    if (write(2, text, size) < 0) return 9;
    if (WIFSIGNALED(status)) kill(getpid(), WTERMSIG(status));
    return WEXITSTATUS(status);
}
"""
WRONG_AT_REFUSALS = {
    "aborts at a refused allocation": "abort();",
    "crashes at a refused allocation": "kill(getpid(), 11);",
    "ends well at a refused allocation": "return 0;",
    "says nothing of a refused allocation": "return 1;",
}
NOTHING_AT_REFUSALS = {"nothing at a refused allocation": ""}


def read_frame(stream: Any) -> Any:
    """The content of the next frame, or none at the end."""
    head = stream.readline()
    if not head:
        return None
    stream.readline()
    return stream.read(int(head.split(b":")[1]))


def fed(child: Any) -> None:
    """Passes the input on, as it comes."""
    try:
        while True:
            some = os.read(0, 1 << 16)
            if not some:
                break
            child.stdin.write(some)
    except OSError:
        pass  # the program has ended
    try:
        child.stdin.close()
    except OSError:
        pass


def pass_replies(spoil: Any, child: Any, feeder: Any) -> None:
    content = read_frame(child.stdout)
    held = b""
    while content is not None:
        content = spoil.reply(content)
        frame = b"Content-Length: %d\r\n\r\n%s" % (len(content) + spoil.length, content)
        held += frame * spoil.times
        if not spoil.is_late:
            os.write(1, held)
            held = b""
        content = read_frame(child.stdout)
    while held:
        feeder.join()
        held = held[os.write(1, held) :]


def run(name: str, right: Any) -> None:
    """Is the wrong program of this name, by the right one that is there."""
    spoil = next(spoil for spoil in SPOILS + NOTHING if spoil.name == name)
    words = sys.argv[1:]
    stream = None if "device" in name else subprocess.PIPE
    child = subprocess.Popen(
        [right, *words], bufsize=0, stdin=subprocess.PIPE, stdout=stream, stderr=subprocess.PIPE
    )
    assert child.stderr
    if child.stdout is not None:
        child.stdout = os.fdopen(os.dup(child.stdout.fileno()), "rb", buffering=1 << 16)
    feeder = threading.Thread(target=fed, args=[child], daemon=True)
    feeder.start()
    if stream is not None and words[:1] == ["serve"]:
        pass_replies(spoil, child, feeder)
    elif child.stdout is not None:
        os.write(1, spoil.out(child.stdout.read()))
    err = child.stderr.read()
    status = child.wait()
    os.write(2, spoil.err(err))
    os._exit(spoil.status(words, err, status))
