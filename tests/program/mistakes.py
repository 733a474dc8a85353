#!/usr/bin/env python3
"""Makes one-letter mistakes in the pipeline files and programs of examples/, and tests the message of the built program dpv for each.

Usage: tests/program/mistakes.py [PROGRAM] [--show]   (the built program; by default the one that ./dpv builds and runs)
A mistake is a letter or digit of a word that was replaced, omitted or doubled. Those that leave a valid pipeline, or a program that the
rules of the checker refuse, are not spelling mistakes and are skipped. For 60 mistakes, each message has to name the file and the line, and
at least 50 of them the word as it was read. With --show each message is printed. Prints a line for each message that names no file and
line, and a count; exits with 1 if there are too many.
"""
import pathlib
import random
import re
import shutil
import subprocess
import sys
from typing import NamedTuple

import paths  # noqa: F401

from command import TOP, new_folder, program_of, said

WANTED, NAMED = 60, 50


class Mistake(NamedTuple):
    """A mistake: the file, the number of its line from 1, the word as it was and as it is."""

    file: str
    line: int
    was: str
    now: str
    text: str


def mistaken(word: str, rng: random.Random) -> str:
    """A word with one letter or digit wrong."""
    at = rng.randrange(len(word))
    kind = rng.choice(("other", "left out", "doubled", "other"))
    if kind == "left out" and len(word) > 1:
        return word[:at] + word[at + 1 :]
    if kind == "doubled":
        return word[:at] + word[at] + word[at:]
    letters = "0123456789" if word[at].isdigit() else "abcdefghijklmnopqrstuvwxyz"
    return word[:at] + rng.choice([it for it in letters if it != word[at]]) + word[at + 1 :]


def make(name: str, text: str, rng: random.Random) -> Mistake | None:
    """A mistake in a text, in no comment and in no name of a file."""
    lines = text.splitlines(keepends=True)
    number = rng.randrange(len(lines))
    code = re.sub(r"\"[^\"]*\"|'[^']*'", lambda it: " " * len(it[0]), lines[number].split("#")[0])
    words = list(re.finditer(r"[A-Za-z_0-9]+", code))
    if not words:
        return None
    word = rng.choice(words)
    now = mistaken(word[0], rng)
    lines[number] = lines[number][: word.start()] + now + lines[number][word.end() :]
    return Mistake(name, number + 1, word[0], now, "".join(lines))


def said_of(program: str, mistake: Mistake, folder: pathlib.Path, pipeline: str) -> tuple[int, str]:
    """The status of a check with a mistake in a file, and what is printed on standard error."""
    kept = (folder / mistake.file).read_text()
    (folder / mistake.file).write_text(mistake.text)
    run = subprocess.run([program, "check", pipeline], cwd=folder, capture_output=True, text=True, timeout=60)
    (folder / mistake.file).write_text(kept)
    return run.returncode, said("", run.stderr)[1]


def main() -> int:
    """All of it."""
    shows = "--show" in sys.argv
    words = [it for it in sys.argv[1:] if not it.startswith("--")]
    program, rng = program_of(words[0] if words else None), random.Random(1)
    tried = unnamed = named = 0
    with new_folder() as outer:
        pipelines = sorted(it for it in (TOP / "examples").glob("*/*.toml") if it.parent.name not in ("refused", "live"))
        for file in pipelines:
            shutil.copytree(file.parent, outer / file.parent.name, dirs_exist_ok=True)
        for other in (TOP / "examples").glob("*.*"):
            shutil.copy(other, outer)
        while tried < WANTED:
            file = rng.choice(pipelines)
            folder = outer / file.parent.name
            target = rng.choice([file.name, *(it.name for it in folder.glob("*.dpv"))])
            mistake = make(target, (folder / target).read_text(), rng)
            status, message = said_of(program, mistake, folder, file.name) if mistake else (0, "")
            if mistake is None or status != 3 or "File" in message:
                continue
            tried += 1
            is_named = f"at: {mistake.file}:" in message and (mistake.now in message or mistake.was in message)
            is_placed = f"at: {mistake.file}:" in message
            named += is_named
            unnamed += not is_placed
            if shows or not is_placed:
                print(f"{file.parent.name}/{mistake.file}:{mistake.line}: {mistake.was} became {mistake.now}:\n{message}", end="")
    print(f"mistakes: {tried} mistakes, {tried - unnamed} messages name file and line, {named} the word")
    return 0 if unnamed == 0 and named >= NAMED else 1


if __name__ == "__main__":
    sys.exit(main())
