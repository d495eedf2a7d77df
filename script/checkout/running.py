"""Runs a program, or what else the words ask for.

A program that is there runs at once, and what only other commands need is imported where they
begin. """

from __future__ import annotations

import os

from programs import Program
from sources import Checkout


def start(top: str, command: str, words: list[str]) -> int:
    """Does what the words say. The status, where no program runs in place of the script."""
    checkout = Checkout(top)
    program = checkout.program(command)
    path = None if words[:1] and words[0] in program.own else checkout.made(program)
    if path is not None:
        if program.serves(words) and path == checkout.quick(program):
            from messages import log_unproved

            log_unproved()
        run(checkout, program, path, words)
    from commands import main

    return main(checkout, program, words)


def run(checkout: Checkout, program: Program, path: str, words: list[str]) -> None:
    """Runs the program at this path in place of this script, or a client of it."""
    line = program.line(path, checkout.top, words)
    os.execv(line[0], line)
