"""What the scripts `lrls` and `ide/lrls-ide` do to make a program and to run it: words that they
answer without a build, what they say of a missing `rt`, the two ways to make a program, what they
do for an editor, and what `--version` says.

Nothing is proved or compiled here: tests/common/checkouts.py has the stand-ins. tests/proving tries
the kit itself."""

import json
import os
import re
import shutil
import signal
import subprocess
import sys
import tempfile
import time
from typing import List, Tuple

from tests.common.cases import Cases
from tests.common.checkouts import FAILS, RT, VERSION, Checkout, write

NO_RT = (
    "lrls: making the program needs `rt`, the command of Rattle's kit, and no folder of PATH has it\n"
    'lrls: add the kit\'s folder bin to PATH; {top}/README.md names the kit, under "What you need"\n'
)
HINT = "lrls: for all that the script does: lrls --help\n"
NO_GRAMMAR = "lrls: line 1: G1 first line\n"
QUICKLY = (
    "lrls: lrls isn't built yet; making it without repeating its proofs takes about two minutes\n"
)
UNPROVED = (
    "the proofs of this commit weren't repeated on this machine: `lrls prove` repeats them and makes the faster program, which "
    "counts from then on"
)
MADE = f"{QUICKLY}lrls: made in N s; {UNPROVED}\n"
WITHOUT_A_DOOR = "lrls: this kit can't make a program without a proof, so it is proved first\n"
PROVING = "lrls: proving and building the 3 crates of lrls; docs/GATE.md says how long that took elsewhere\n"
DONE = "lrls: done with a, 1 of 3, after 0 min\n"
UNMARKED = "lrls: lrls was built in a way that was not noted, and not proved\n"
QUICK = ("quick, ran check x\n", "", 7)

# A kit's `rt` that runs as it is, and one that has the parts by which crates go in the order of
# `rt ci`: of its three crates each stands on those before it, and the second one may fail. With each
# it says how many crates were asked for their sum.
PLAIN_KIT = """
def main(words):
    print(*words)
    return 3
"""
ORDERING_KIT = """
import types

class Crate:
    def __init__(self, name, status, low):
        self.name, self.folder, self.status, self.low = name, name, status, low

    def below(self):
        return self.low

    def count(self, what):
        return 1

    def makes_rlib(self):
        return True

    def stamp(self):
        asked.append(self.name)
        return self.name + "".join(crate.stamp() for crate in self.low)

    def build_rlib(self, flags, anew):
        asked.clear()
        self.stamp()
        print(self.name, *flags, len(asked), file=self.out)
        return self.status

    def test_whole(self, flags):
        return 0

asked = []
low = Crate("low", 0, [])
mid = Crate("mid", STATUS, [low])
crates = [low, mid, Crate("high", 0, [low, mid])]
rtlib = types.SimpleNamespace(Crate=Crate, crates_below=lambda top: crates, lock=lambda all: [], every=None)

def in_lanes(tasks):
    given = {}
    for key, (waits, lines, room, call) in tasks.items():
        given[key] = call(given, room)
    return given

def main(words):
    print(*words)
    return rtlib.every("test", 5)
"""


def timeless(ran: Tuple[str, str, int]) -> Tuple[str, str, int]:
    """What was printed, with N for the number of seconds."""
    out, err, status = ran
    return out, re.sub(r"made in \d+ s;", "made in N s;", err), status


def refuses_words(cases: Cases, checkout: "Checkout", refused: List[List[str]], usage: str) -> None:
    """Words and files are refused before anything is built."""
    checkout.stand_in(None)
    for words in refused:
        if words not in (["--help"], ["-h"], ["--version"]):
            cases.check(f"unbuilt, words {words}", ("", usage + HINT, 2), checkout.run(*words))
    for words, path in [
        (["check", "nothing"], "nothing"),
        (["check", "script"], "script"),
        (["serve", "nothing"], "nothing"),
        (["parse", "nothing", "x"], "nothing"),
        (["parse", "x", "--", "--nothing"], "--nothing"),
        (["show", "--tokens", "x", "nothing"], "nothing"),
        (["show", "nothing", "--nodes", "x"], "nothing"),
    ]:
        cases.check(
            f"unbuilt, words {words}", ("", f"lrls: cannot read {path}\n", 1), checkout.run(*words)
        )
    for words, usage in [
        (["build", "x"], "lrls build [lrls]"),
        (["build", "lrls", "lrls"], "lrls build [lrls]"),
        (["prove", "x"], "lrls prove"),
    ]:
        cases.check(f"words {words}", ("", f"usage: {usage}\n", 2), checkout.run(*words))


def refuses_other_files(cases: Cases, checkout: "Checkout") -> None:
    """A file that begins as no grammar does is refused before anything is built, as the program
    would refuse it."""
    missing = ("", NO_RT.format(top=checkout.top), 1)
    for text, awaited in [
        ("", NO_GRAMMAR),
        ("what is this\n", NO_GRAMMAR),
        ("lrgrammar 1 \n", NO_GRAMMAR),
        (" lrgrammar 1\n", NO_GRAMMAR),
        ("lrgrammar 3\n", NO_GRAMMAR),
        ("lrgrammar 1", missing[1]),
        ("lrgrammar 2\r\n", missing[1]),
        # Of these the program says that there are too many bytes.
        ("x" * 65_537, missing[1]),
    ]:
        checkout.placed("file", text)
        cases.check(
            f"a file that begins {text[:14]!r}",
            ("", awaited, 2 if awaited == NO_GRAMMAR else 1),
            checkout.run("check", "file"),
        )
    cases.check("no file at all", ("", NO_GRAMMAR, 2), checkout.run("check", "/dev/null"))
    cases.check("a text may be any", missing, checkout.run("parse", "x", "HANDLES"))


def without_rt(cases: Cases, checkout: "Checkout") -> None:
    """What is said where the kit is missing, also by links to the script, one to the other, from a
    folder elsewhere."""
    missing = ("", NO_RT.format(top=checkout.top), 1)
    for words in [
        ["check", "x"],
        ["check", "--", "--x"],
        ["parse", "x", "y"],
        ["show", "x", "y"],
        ["serve", "x"],
        ["build"],
        ["prove"],
    ]:
        cases.check(f"no rt, words {words}", missing, checkout.run(*words))
    links = checkout.path("links")
    os.mkdir(links)
    os.symlink("../lrls", os.path.join(links, "one"))
    os.symlink("links/one", checkout.path("two"))
    os.symlink(checkout.path("two"), os.path.join(checkout.bin, "three"))
    ran = checkout.run(
        "check", checkout.path("x"), script=os.path.join(checkout.bin, "three"), cwd="/"
    )
    cases.check("links to the script", missing, ran)
    for word in ("--help", "-h"):
        out, err, status = checkout.run(word)
        cases.check(
            f"unbuilt, words {[word]}",
            (True, True, "", 0),
            ("show [--tokens" in out, "package [FOLDER]" in out, err, status),
        )


def builds_quickly(cases: Cases, checkout: "Checkout") -> None:
    """The program is made without a proof, once, and anew where a file that it is made of is
    newer."""
    checkout.kit()
    before = files_below(os.path.join(checkout.temporary, "kit"))
    cases.check(
        "the first time", ("quick, ran check x\n", MADE, 7), timeless(checkout.run("check", "x"))
    )
    called = checkout.called()
    compiled = [line for line in called if line.startswith("clang")]
    once = "clang -O1 -c module.bc -o module.o"
    cases.check("how it is compiled", [once, once], compiled[:2])
    stack = checkout.path("script", "checkout", "stack.c")
    cases.check("what is linked with it", True, compiled[2].endswith(f"-c {stack} -o stack.o"))
    cases.check("where it is lowered", True, f"try in {checkout.path('crates', 'lrls')}" in called)
    cases.check(
        "the kit is as it was", before, files_below(os.path.join(checkout.temporary, "kit"))
    )
    cases.check("nothing is left", [], checkout.left())
    checkout.stand_in(None)
    calls: List[List[str]] = [["check", "x"], ["serve", "x"], ["help"], []]
    for words in calls:
        cases.check(
            f"built, words {words}",
            (f"quick, ran {' '.join(words)}\n", "", 7),
            checkout.run(*words),
        )
    cases.check(
        "built, words ['build']", ("", f"lrls: lrls was {NOTED}\n", 0), checkout.run("build")
    )
    missing = ("", NO_RT.format(top=checkout.top), 1)
    for name, awaited in [
        ("crates/tests/src/lib.rt", QUICK),
        ("crates/a/out/a", QUICK),
        ("crates/lrls/must-fail/an.edit", QUICK),
        ("crates/lrls/wrong-definitions/an.edit", QUICK),
        ("crates/a/src/lib.rt", missing),
        ("crates/b/specs/deep/New.antt", missing),
        ("crates/lrls/src/main.rt", missing),
        ("crates.txt", missing),
    ]:
        stamped = (
            os.stat(checkout.path(name)).st_mtime if os.path.exists(checkout.path(name)) else None
        )
        checkout.newer(name)
        cases.check(f"a newer file {name}", awaited, checkout.run("check", "x"))
        if stamped is None:
            os.remove(checkout.path(name))
        else:
            os.utime(checkout.path(name), (stamped, stamped))


NOTED = f"built from files that no gate has passed, and not proved; by {VERSION}"


def files_below(folder: str) -> List[Tuple[str, int]]:
    """The files and links in a folder, by their paths, with their sizes."""
    found = [os.path.join(where, name) for where, _, names in os.walk(folder) for name in names]
    return sorted((os.path.relpath(path, folder), os.lstat(path).st_size) for path in found)


def fails_to_build(cases: Cases, checkout: "Checkout") -> None:
    """What is said where no program comes of it, and what is done then."""
    checkout.forget()
    checkout.kit(before='echo "error[type]: a mistake"; exit 1')
    said = "error[type]: a mistake\nlrls: lrls wasn't made; the lines above say why\n"
    cases.check("a mistake in the sources", ("", QUICKLY + said, 1), checkout.run("check", "x"))
    cases.check(
        "nothing is proved then", [], [line for line in checkout.called() if "all test" in line]
    )
    checkout.kit(before='echo "unexpected argument"; exit 2')
    awaited = (
        "proved, ran check x\n",
        f"{QUICKLY}unexpected argument\n{WITHOUT_A_DOOR}{PROVING}{DONE}{UNMARKED}",
        7,
    )
    cases.check("a kit that has changed", awaited, checkout.run("check", "x"))
    checkout.forget()
    checkout.kit(door=False)
    awaited = ("proved, ran check x\n", f"{WITHOUT_A_DOOR}{PROVING}{DONE}{UNMARKED}", 7)
    cases.check("a kit without a door", awaited, checkout.run("check", "x"))
    checkout.forget()
    checkout.placed("out", "no folder")
    refused = (
        f"lrls: cannot write 8 MiB into {checkout.path('out', 'quick')}: Not a directory\n"
        "lrls: the program is put there; make room, or clone the repository into another folder\n"
    )
    checkout.kit()
    checkout.called()
    cases.check("no place for the program", ("", refused, 1), checkout.run("check", "x"))
    cases.check("nothing is made then", [], [line for line in checkout.called() if "clang" in line])
    os.remove(checkout.path("out"))
    cases.check("nothing is left of a build that failed", [], checkout.left())


def two_at_once(cases: Cases, checkout: "Checkout") -> None:
    """Of two runs at once one makes the program and the other waits for it."""
    checkout.forget()
    checkout.kit(before="sleep 2")
    checkout.called()
    runs = [checkout.begin("check", "x", stdin=subprocess.DEVNULL) for _ in range(2)]
    ran = sorted(
        timeless((out.decode(), err.decode(), 7))
        for out, err in (run.communicate(timeout=60) for run in runs)
    )
    waited = "lrls: another run of this script is making the program; waiting for it\n"
    cases.check(
        "two at once",
        sorted([("quick, ran check x\n", MADE, 7), ("quick, ran check x\n", waited, 7)]),
        ran,
    )
    cases.check(
        "it was made once", 1, len([line for line in checkout.called() if line.startswith("try")])
    )


def ended(cases: Cases, checkout: "Checkout") -> None:
    """A signal ends the script and what it has begun, and nothing is left; the next run makes the
    program."""
    checkout.kit(before='echo $$ > "$TMPDIR/trying"; sleep 30')
    for number in (signal.SIGINT, signal.SIGTERM, signal.SIGHUP):
        checkout.forget()
        started = checkout.begin("check", "x", stdin=subprocess.DEVNULL)
        trying = os.path.join(checkout.temporary, "trying")
        wait_for(trying)
        started.send_signal(number)
        started.communicate(timeout=60)
        with open(trying, encoding="ascii") as file:
            runs = still_runs(int(file.read()))
        os.remove(trying)
        cases.check(
            f"ended by {number.name}",
            (128 + number, False, []),
            (started.returncode, runs, checkout.left()),
        )
    checkout.kit()
    cases.check(
        "begun again", ("quick, ran check x\n", MADE, 7), timeless(checkout.run("check", "x"))
    )


def still_runs(process: int) -> bool:
    """Whether a process that was told to end still runs after a while. One that nobody has asked
    for its status doesn't."""
    end = time.monotonic() + 30
    while time.monotonic() < end:
        try:
            with open(f"/proc/{process}/stat", encoding="ascii", errors="replace") as file:
                state = file.read().rpartition(") ")[2][:1]
        except (FileNotFoundError, ProcessLookupError):
            return False
        if state in "ZX":
            return False
        time.sleep(0.02)
    return True


def wait_for(path: str) -> None:
    """Waits until there is a file that isn't empty."""
    end = time.monotonic() + 30
    while not (os.path.exists(path) and os.path.getsize(path)) and time.monotonic() < end:
        time.sleep(0.02)


def logged(line: str) -> str:
    """A log message with this line, as it is sent."""
    params = {"type": 3, "message": f"lrls: {line}"}
    content = json.dumps(
        {"jsonrpc": "2.0", "method": "window/logMessage", "params": params}, separators=(",", ":")
    )
    return f"Content-Length: {len(content)}\r\n\r\n{content}"


def starts_unbuilt(
    cases: Cases, checkout: "Checkout", start: str, words: List[str], ran: List[str]
) -> None:
    """An editor that starts a server which isn't built is told how that goes, and the program then
    runs with these words."""
    command = os.path.basename(start)
    said = f"{MADE}lrls: lrls was {NOTED}\n".replace("lrls: lrls ", f"lrls: {command} ")
    out, err, status = timeless(
        checkout.run(*words, script=checkout.path(*start.split("/")), given=b"Content")
    )
    told = re.sub(r"Content-Length: \d+", "", re.sub(r"made in \d+ s;", "made in N s;", out))
    lines = (line.replace("lrls: ", "", 1) for line in said.splitlines())
    awaited = "".join(re.sub(r"Content-Length: \d+", "", logged(line)) for line in lines)
    cases.check(
        f"an editor starts {command} unbuilt",
        (f"{awaited}quick, ran {' '.join(ran)}\n", said, 7),
        (told, err, status),
    )


def for_an_editor(cases: Cases, checkout: "Checkout") -> None:
    """An editor that starts the server is told by log messages, once it has spoken, and needn't
    wait."""
    checkout.forget()
    checkout.kit()
    starts_unbuilt(cases, checkout, "lrls", ["serve", "x"], ["serve", "x"])
    served = (logged(UNPROVED) + "quick, ran serve x\n", "", 7)
    cases.check("an editor starts it", served, checkout.run("serve", "x", given=b"Content"))
    cases.check(
        "a client that says nothing", ("quick, ran serve x\n", "", 7), checkout.run("serve", "x")
    )
    checkout.forget()
    checkout.kit(door=False)
    refused = (
        "lrls: lrls isn't built, and this kit can't make it without a proof, for which no editor waits\n"
        f"lrls: run this in a terminal first: {checkout.path('lrls')} prove\n"
    )
    cases.check("an editor, and a kit without a door", ("", refused, 1), checkout.run("serve", "x"))
    checkout.kit(before='echo "error[type]: a mistake"; exit 1')
    out, err, status = checkout.run("serve", "x")
    log = checkout.path("out", "build-lrls.log")
    cases.check(
        "an editor, and a mistake",
        ("", True, 1),
        (out, err.endswith(f"lrls: lrls wasn't made; {log} says why\n"), status),
    )
    gives_up(cases, checkout)


def gives_up(cases: Cases, checkout: "Checkout") -> None:
    """Where an editor doesn't wait, the program is made all the same."""
    checkout.forget()
    checkout.kit(before='echo $$ > "$TMPDIR/trying"; sleep 1')
    started = checkout.begin("serve", "x", stdin=subprocess.PIPE)
    trying = os.path.join(checkout.temporary, "trying")
    wait_for(trying)
    started.kill()
    started.communicate(timeout=60)
    program = checkout.path("out", "quick", "lrls.note")
    wait_for(program)
    os.remove(trying)
    cases.check(
        "an editor that gives up", ("quick, ran check x\n", "", 7), checkout.run("check", "x")
    )


def proves(cases: Cases, checkout: "Checkout") -> None:
    """`prove` makes the program that counts from then on, in the way in which the kit keeps what is
    proved."""
    checkout.forget()
    checkout.kit()
    checkout.run("check", "x")
    checkout.called()
    cases.check("prove, in place", ("", PROVING + DONE + UNMARKED, 0), checkout.run("prove"))
    cases.check(
        "how it is proved in place",
        True,
        any(re.fullmatch(r"rt all test --jobs \d+", line) for line in checkout.called()),
    )
    cases.check(
        "the proved program counts", ("proved, ran check x\n", "", 7), checkout.run("check", "x")
    )
    checkout.newer("crates/a/src/lib.rt")
    checkout.forget()
    checkout.kit(keeps=True)
    for name in ("must-fail", "wrong-definitions"):
        checkout.placed(f"crates/lrls/{name}/an.edit", "")
    cases.check("prove, in a copy", ("", PROVING + DONE + UNMARKED, 0), checkout.run("prove"))
    files = "a: \nb: a\nlrls: b\nnone " + "\n".join(
        ["crates/a/src/lib.rt", "crates/b/src/lib.rt", "crates/lrls/src/main.rt"]
    )
    out, _, _ = checkout.run("check", "x")
    cases.check("the files of the copy", sorted(files.split()), sorted(out.split()))
    checkout.forget()
    checkout.stand_in(FAILS.format(version=VERSION))
    failed = f"{PROVING}{DONE}lrls: done with lrls, 2 of 3, after 0 min\n"
    said = "== lrls\nan error\nrt: lrls NOT PROVED\n0 passed, 1 failed\nlrls: lrls wasn't built; what is proved is kept for the next time\n"
    cases.check("a crate isn't proved", ("", failed + said, 1), checkout.run("prove"))
    cases.check("nothing is left of a proof", [], checkout.left())


def orders(cases: Cases, checkout: "Checkout") -> None:
    """The crates are proved by a part of the script that the kit's `rt` is handed to."""
    first = "all test --jobs 5\n== low\nlow --jobs 7 1\n== mid\nmid --jobs 7 2\n"
    for name, kit, awaited in [
        ("a kit of unknown parts", PLAIN_KIT, ("all test --jobs 5\n", 3)),
        (
            "each is proved",
            ORDERING_KIT.replace("STATUS", "0"),
            (f"{first}== high\nhigh --jobs 7 3\n", 0),
        ),
        ("one isn't proved", ORDERING_KIT.replace("STATUS", "1"), (f"{first}mid: failed (1)\n", 1)),
    ]:
        folder = tempfile.mkdtemp(dir=checkout.temporary)
        words = ["-IS", checkout.path("script", "checkout", "all_test.py"), "rt", "5", "7"]
        write(os.path.join(folder, "rt"), kit)
        ran = subprocess.run(
            [sys.executable, *words],
            cwd=folder,
            stdout=subprocess.PIPE,
            encoding="utf-8",
            check=False,
        )
        cases.check(f"prove in order: {name}", awaited, (ran.stdout, ran.returncode))


def served_alone(cases: Cases, checkout: "Checkout") -> None:
    """An editor that starts one of two programs doesn't wait for the other."""
    checkout.forget()
    out, _, status = checkout.run("serve", "x", given=b"Content")
    cases.check("an editor starts one of two", (True, 7), ("quick, ran serve x" in out, status))
    made = sorted(os.listdir(checkout.path("out", "quick")))
    cases.check("only that one is made", False, any(name.startswith("lrls-ide") for name in made))


def refuses_languages(cases: Cases, checkout: "Checkout", script: str) -> None:
    """Words of `ide/lrls-ide` that are refused before anything is built: none of them is a command
    of `lrls`."""
    usage = "usage: lrls-ide [--grammars FOLDER] [--settings] LANGUAGE\n"
    calls: List[List[str]] = [[], ["x", "y"], ["--nothing", "x"], ["--set", "x"], ["--grammars"]]
    for words in calls:
        ran = checkout.run(*words, script=script)
        cases.check(f"lrls-ide unbuilt, words {words}", ("", usage, 2), ran)
    named = checkout.path("grammars")
    for words, path in [
        (["nothing"], f"{named}/nothing.lr"),
        (["build"], f"{named}/build.lr"),
        (["prove"], f"{named}/prove.lr"),
        (["--grammars", "some", "g0"], "some/g0.lr"),
        (["nothing.lr"], "nothing.lr"),
        (["--settings", "./nothing"], "./nothing"),
    ]:
        ran = checkout.run(*words, script=script)
        cases.check(f"lrls-ide, words {words}", ("", f"lrls: cannot read {path}\n", 1), ran)


def starts_lrls_ide(cases: Cases, checkout: "Checkout") -> None:
    """`ide/lrls-ide` runs the other program, with the grammars of the checkout where no others are
    named, and tells an editor what `lrls serve` tells it."""
    script, grammars = checkout.path("ide", "lrls-ide"), ["--grammars", checkout.path("grammars")]
    checkout.kit()
    refuses_languages(cases, checkout, script)
    starts_unbuilt(cases, checkout, "ide/lrls-ide", ["g0"], [*grammars, "g0"])
    ran = lambda *words: f"quick, ran {' '.join(words)}\n"
    calls: List[Tuple[List[str], str]] = [
        (["x.lr"], logged(UNPROVED) + ran(*grammars, "x.lr")),
        (["build"], logged(UNPROVED) + ran(*grammars, "build")),
        (["--grammars", "some", "x"], logged(UNPROVED) + ran("--grammars", "some", "x")),
        (["--grammars=some", "x"], logged(UNPROVED) + ran("--grammars=some", "x")),
        (["--settings", "x.lr"], ran(*grammars, "--settings", "x.lr")),
    ]
    for words, awaited in calls:
        answered = checkout.run(*words, script=script, given=b"Content")
        cases.check(f"an editor starts lrls-ide with {words}", (awaited, "", 7), answered)
    out, err, status = checkout.run("--version", script=script)
    said = (f"lrls-ide 1.0.0\ncommit unknown\n{NOTED}\n", "", 0)
    cases.check("the version of lrls-ide", said, (out, err, status))
    out, err, status = checkout.run("--help", script=script)
    told = ("usage: lrls-ide" in out, "prove" in out, err, status)
    cases.check("the help of lrls-ide", (True, False, "", 0), told)
    link = os.path.join(checkout.bin, "elsewhere")
    os.symlink(script, link)
    out, _, _ = checkout.run("x.lr", script=link, cwd="/")
    cases.check("a link to ide/lrls-ide", ran(*grammars, "x.lr"), out)


def two_programs(cases: Cases, checkout: "Checkout") -> None:
    """A second program of the repository is made and proved by the same calls."""
    checkout.forget()
    checkout.kit()
    checkout.placed("crates.txt", "a:\nb: a\nlrls: b\nlrls_ide: a\n")
    checkout.placed("crates/lrls_ide/src/main.rt", "")
    checkout.forget()
    quickly = MADE.replace("lrls isn't", "lrls-ide isn't")
    said = f"{MADE}lrls: lrls was {NOTED}\n{quickly}lrls: lrls-ide was {NOTED}\n"
    cases.check("build, two programs", ("", said, 0), timeless(checkout.run("build")))
    shutil.rmtree(checkout.path("out", "quick"))
    said = f"{quickly}lrls: lrls-ide was {NOTED}\n"
    cases.check("build, one of two", ("", said, 0), timeless(checkout.run("build", "lrls-ide")))
    cases.check("the other isn't made", False, os.path.exists(checkout.path("out/quick/lrls")))
    served_alone(cases, checkout)
    starts_lrls_ide(cases, checkout)
    checkout.forget()
    proving = PROVING.replace("3 crates of lrls", "2 crates of lrls-ide")
    done, unmarked = DONE.replace("of 3", "of 2"), UNMARKED.replace(
        "lrls: lrls was", "lrls: lrls-ide was"
    )
    cases.check(
        "prove, two programs",
        ("", PROVING + DONE + UNMARKED + proving + done + unmarked, 0),
        checkout.run("prove"),
    )
    shutil.rmtree(checkout.path("crates", "lrls_ide"))
    checkout.placed("crates.txt", "a:\nb: a\nlrls: b\ntests: lrls\n")


def versions(cases: Cases, checkout: "Checkout") -> None:
    """What `--version` says: the version, the commit where there is one, and how the program that
    counts was made."""
    checkout.forget()
    checkout.kit()
    cases.check(
        "nothing built, no commit",
        ("lrls 1.0.0\ncommit unknown\nnot built\n", "", 0),
        checkout.run("--version"),
    )
    checkout.placed("CHANGELOG.md", "# Changes\n\n## Unreleased\n\n## 2.3.4\n\n## 2.3.3\n")
    published = f"built from a commit whose gate passed, proofs not repeated here; by {VERSION}"
    for changed, remote, more, awaited in [
        ("", "  origin/main\n", "", published),
        (" M lrls\n", "  origin/main\n", ", with changes since", NOTED),
        ("", "", "", NOTED),
    ]:
        checkout.stand_in(GIT, "git")
        write(os.path.join(checkout.temporary, "changed"), changed)
        write(os.path.join(checkout.temporary, "remote"), remote)
        checkout.forget()
        checkout.run("check", "x")
        said = (f"lrls 2.3.4\ncommit 0123456789ab{more}\n{awaited}\n", "", 0)
        cases.check(f"the version after {changed!r} of {remote!r}", said, checkout.run("--version"))
    marked(cases, checkout)


GIT = """#!/bin/sh
case "$*" in
*rev-parse*) echo 0123456789ab ;;
*status*) cat "$TMPDIR/changed" ;;
*branch*) cat "$TMPDIR/remote" ;;
*log*) echo "A <a@b.c>" ;;
esac
"""
# A program as the compiler makes it of what it has proved.
MARKED = '__asm__(".ident \\"rattle logic=%s\\"");\nint main(void) { return 7; }\n'


def compiled(checkout: "Checkout", logic: str) -> str:
    """A program with the compiler's mark."""
    source, path = os.path.join(checkout.temporary, "marked.c"), os.path.join(
        checkout.temporary, "marked"
    )
    write(source, MARKED % logic)
    subprocess.run(["cc", "-o", path, source], check=True)
    return path


def marked(cases: Cases, checkout: "Checkout") -> None:
    """ "Proved here" is said of a program that has the compiler's mark and whose kit was noted, and
    of no other one."""
    if shutil.which("cc") is None:
        cases.check("marked programs: a C compiler that is called cc", True, False)
        return
    program = checkout.path("crates", "lrls", "out", "lrls")
    for logic, awaited in [
        ("0123456789abcdef0123", f"proved here with {VERSION}"),
        (
            "fedcba98765432100123",
            "proved by a kit of logic fedcba9876543210, by the compiler's mark; which kit wasn't noted",
        ),
    ]:
        checkout.forget()
        copy = f'mkdir -p out; cp "{compiled(checkout, logic)}" out/lrls'
        checkout.stand_in(
            RT.format(version=VERSION).replace(
                '"all test --jobs "*)', f'"all test --jobs "*) {copy}; exit ;;\nnever)'
            )
        )
        cases.check(
            f"prove, marked {logic}",
            f"lrls: lrls was {awaited}\n",
            checkout.run("prove")[1][len(PROVING) :],
        )
        checkout.called()
        again = (checkout.run("prove"), [line for line in checkout.called() if "all" in line])
        cases.check(
            f"prove again, marked {logic}", (("", f"lrls: lrls was {awaited}\n", 0), []), again
        )
        cases.check(
            f"the version, marked {logic}", awaited, checkout.run("--version")[0].splitlines()[-1]
        )
    checkout.forget()
    os.makedirs(os.path.dirname(program))
    shutil.copy(compiled(checkout, "0123456789abcdef"), program)
    unnoted = (
        "proved by a kit of logic 0123456789abcdef, by the compiler's mark; which kit wasn't noted"
    )
    cases.check(
        "a marked program without a note", unnoted, checkout.run("--version")[0].splitlines()[-1]
    )
    write(program, "#!/bin/sh\n", 0o755)
    cases.check(
        "any file",
        "built in a way that was not noted, and not proved",
        checkout.run("--version")[0].splitlines()[-1],
    )


def run(cases: Cases, folder: str, refused: List[List[str]], usage: str) -> None:
    checkout = Checkout(folder)
    refuses_words(cases, checkout, refused, usage)
    refuses_other_files(cases, checkout)
    without_rt(cases, checkout)
    builds_quickly(cases, checkout)
    fails_to_build(cases, checkout)
    two_at_once(cases, checkout)
    ended(cases, checkout)
    for_an_editor(cases, checkout)
    proves(cases, checkout)
    orders(cases, checkout)
    two_programs(cases, checkout)
    versions(cases, checkout)
