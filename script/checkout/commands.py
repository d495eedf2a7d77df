"""What the script does besides running a program that is there."""

from __future__ import annotations

import os
import subprocess
import sys
import time
from typing import Dict, List

import messages
import proving
import quick
from history import commit, version
from kit import Kit
from layout import install
from marks import statement
from package import package
from refusals import Refusal, wrong_words
from programs import Program
from running import run
from sources import Checkout
from words import look_at
from work import end_by_signals, read, say

# The files of `script` that say what the words of each program are.
HELP = {"lrls": ("help", "help-of-checkout"), "lrls-ide": ("help-of-lrls-ide",)}


def make(checkout: Checkout, program: Program) -> str:
    """Makes the program without a proof, or where the kit can't do that, with its proof. Its
    path."""
    if checkout.is_current(checkout.quick(program), program):
        return checkout.quick(program)
    if Kit(checkout.top).has_door():
        try:
            return quick.make_quick(checkout, program)
        except quick.Unmade as unmade:
            sys.stderr.write(unmade.text())
            if unmade.is_mistake():
                raise Refusal(
                    1, f"{program.command} wasn't made; the lines above say why"
                ) from None
    say("this kit can't make a program without a proof, so it is proved first")
    proving.prove_all(checkout)
    return checkout.proved(program)


def make_for_editor(checkout: Checkout, program: Program) -> str:
    """Makes the program in a process of its own, which goes on where the editor doesn't wait for
    it. The program's path."""
    if not Kit(checkout.top).has_door():
        raise Refusal(
            1,
            f"{program.command} isn't built, and this kit can't make it without a proof, "
            "for which no editor waits",
            f"run this in a terminal first: {checkout.path('lrls')} prove",
        )
    log = checkout.path("out", f"build-{program.command}.log")
    try:
        os.makedirs(os.path.dirname(log), exist_ok=True)
        told = len(read(log).splitlines())
        with open(log, "ab") as file:
            words = [checkout.path("lrls"), "build", program.command]
            builder = subprocess.Popen(
                words, stdin=subprocess.DEVNULL, stdout=file, stderr=file, start_new_session=True
            )
    except OSError as error:
        raise Refusal(
            1, f"{program.command} isn't built, and can't be: {error.strerror}: {error.filename}"
        ) from None
    pass_on(builder, log, told)
    path = checkout.made(program)
    if path is None:
        raise Refusal(1, f"{program.command} wasn't made; {log} says why")
    return path


def tell(line: str) -> None:
    """Prints a line, and sends it to an editor that has spoken."""
    say(line)
    if messages.has_spoken():
        messages.log(line)


def pass_on(builder: "subprocess.Popen[bytes]", log: str, told: int) -> None:
    """Tells the editor what another process prints into a log that has so many lines already, until
    that process ends."""
    while True:
        has_ended = builder.poll() is not None
        lines = read(log).splitlines()
        for line in lines[told:]:
            tell(line[len("lrls: ") :] if line.startswith("lrls: ") else line)
        told = len(lines)
        if has_ended:
            return
        time.sleep(0.2)


def make_and_run(checkout: Checkout, program: Program, words: List[str]) -> None:
    """Makes the program, and runs it in place of this script."""
    look_at(checkout.top, program.command, words)
    if program.serves(words) and messages.is_from_editor():
        path = make_for_editor(checkout, program)
    else:
        path = make(checkout, program)
    run(checkout, program, path, words)


def print_version(checkout: Checkout, program: Program) -> None:
    """Prints the version, the commit, and how the program was made that counts."""
    path = checkout.made(program)
    lines = [
        f"{program.command} {version(checkout)}",
        commit(checkout),
        statement(path) if path else "not built",
    ]
    print("\n".join(lines))


def print_help(checkout: Checkout, program: Program) -> None:
    """Prints what the words are that a program is run with."""
    for name in HELP[program.command]:
        print(read(checkout.path("script", name)), end="")


def programs_made(checkout: Checkout) -> Dict[str, str]:
    """The programs by their commands, each made where it wasn't there."""
    return {
        program.command: checkout.made(program) or make(checkout, program)
        for program in checkout.programs()
    }


def build(checkout: Checkout, names: List[str]) -> None:
    """Makes the programs of these commands, or all, without a proof, where they aren't there so,
    and says how each was made."""
    programs = {program.command: program for program in checkout.programs()}
    if len(names) > 1 or not programs.keys() >= set(names):
        raise wrong_words(f"lrls build [{' | '.join(programs)}]")
    for name in names or programs:
        say(f"{name} was {statement(make(checkout, programs[name]))}")


def prove(checkout: Checkout, words: List[str]) -> None:
    """Proves and builds each program."""
    if words:
        raise wrong_words("lrls prove")
    proving.prove_all(checkout)


def sizes(checkout: Checkout, words: List[str]) -> None:
    """Shows how near grammars are to the limits."""
    os.execv(sys.executable, [sys.executable, checkout.path("tests", "oracles", "sizes"), *words])


def do(checkout: Checkout, program: Program, words: List[str]) -> None:
    """Does what the words say, where no program is there that they are for."""
    command, rest = (words[0], words[1:]) if words else ("", [])
    if command not in program.own:
        make_and_run(checkout, program, words)
    elif command == "build":
        build(checkout, rest)
    elif command == "prove":
        prove(checkout, rest)
    elif command == "install":
        install(checkout, rest, programs_made)
    elif command == "package":
        package(checkout, rest, programs_made)
    elif command == "sizes":
        sizes(checkout, rest)
    elif command == "--version":
        print_version(checkout, program)
    else:
        print_help(checkout, program)


def main(checkout: Checkout, program: Program, words: List[str]) -> int:
    """Does what the words say, where no program is there that they are for. The status."""
    end_by_signals()
    try:
        do(checkout, program, words)
    except Refusal as refusal:
        sys.stderr.write(refusal.text())
        return refusal.status
    return 0
