"""The program where the system refuses memory: with few addresses, and with each of its allocations
refused."""

import resource
import signal
from typing import List, Optional, Sequence, Set

from tests.common.cases import Cases, Ended, outcome
from tests.common.serving import SUMS
from tests.program import refusals as refused_allocations
from tests.program.one_session import (
    SESSION,
    asked,
    change,
    edited,
    input_of,
    opened,
    outputs,
    published,
    replied,
    talk,
    written,
)


def limited(words: Sequence[str], given: bytes, size: int) -> Ended:
    """What the program prints where it has so many bytes of addresses, and its status."""
    lower = lambda: resource.setrlimit(resource.RLIMIT_AS, (size, size))
    try:
        return outcome(words, input=given, preexec_fn=lower)
    except OSError:
        return b"", b"", "not started"


def is_not_started(ended: Ended) -> bool:
    """Whether the system had too little memory to load the program: the loader says so, or the
    kernel gives up before that."""
    out, err, status = ended
    by_loader = status == 127 and err != b"" and not err.startswith((b"lrls: ", b"usage: "))
    by_kernel = status in (-signal.SIGKILL, -signal.SIGSEGV, "not started") and err == b""
    return out == b"" and (by_loader or by_kernel)


def refused(
    cases: Cases,
    name: str,
    words: Sequence[str],
    given: bytes,
    allowed: List[bytes],
    step: int,
    cut: Optional[bytes],
) -> Set[bytes]:
    """Runs the program with more and more memory, up to where it prints the first of the allowed
    outputs. Once the system starts it, each run prints one of them, or a prefix of one of them and
    that memory was refused. Where `cut` isn't none, some run ends for want of memory after this
    output. Returns the outputs that were printed."""
    printed: Set[bytes] = set()
    cuts: Set[bytes] = set()
    is_started = False
    for size in range(1 << 20, (1 << 20) + 4096 * step, step):
        ended = limited(words, given, size)
        if not is_started and is_not_started(ended):
            continue
        is_started = True
        out, err, status = ended
        is_whole = (err, status) == (b"", 0) and out in allowed
        is_short = (err, status) == (b"lrls: no memory\n", 1) and any(
            output.startswith(out) for output in allowed
        )
        reported = None if is_whole or is_short else (len(out), out[-100:], err, status)
        cases.check(f"{name}: {size} bytes of addresses", None, reported)
        (printed if is_whole else cuts).add(out)
        if reported is not None or out == allowed[0]:
            break
    cases.check(f"{name}: the whole output", True, allowed[0] in printed)
    if cut is not None:
        cases.check(
            f"{name}: memory is refused after {len(cut)} bytes of output", True, cut in cuts
        )
    return printed


def memory(cases: Cases, folder: str) -> None:
    """Where the system refuses memory, the program says so, or a change loses its document; all
    that it wrote before is right."""
    refused(cases, "check", ["check", SUMS], b"", [b"ok\n"], 4096, b"")
    serve = ["serve", SUMS]
    refused(cases, "the session", serve, input_of(SESSION), list(outputs(SESSION)), 4096, b"")
    ones = "1+" * 100_000
    opening = talk((opened(ones + "1"), published(1, [])))
    refused(
        cases,
        "an opening",
        serve,
        input_of(opening),
        list(outputs(opening)),
        1 << 19,
        written([opening[0][1]]),
    )
    changing = talk(
        (opened("1"), published(1, [])),
        (edited(2, change(0, 0, ones)), published(2, [])),
        (asked("textDocument/foldingRange"), replied([])),
    )
    printed = refused(
        cases, "a change", serve, input_of(changing), list(outputs(changing)), 1 << 19, None
    )
    cases.check("a change: it loses the document", True, list(outputs(changing))[1] in printed)


def refusals(cases: Cases, folder: str) -> None:
    """Each allocation of the program is refused in turn; of long runs, some of them."""
    if refused_allocations.library(folder) is None:
        cases.check("refused allocations: a C compiler that is called cc", True, False)
        return
    for name, _, _, wrong in refused_allocations.results(folder):
        cases.check(f"refused allocations: {name}", [], wrong)
