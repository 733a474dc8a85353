#!/usr/bin/env python3
"""Runs the commands of docs/users/tour.md and the examples of the manual page with the built program dpv.

Usage: tests/program/tour.py [--write] [PROGRAM]   (the built program; by default the one that ./dpv builds and runs)
In the page's blocks of kind `console` a line after `$ ` is a command, which continues in the lines after `> `; the lines that follow are
its expected output, on both streams. One shell runs all of them in a copy of examples, with `dpv` for the program. Prints each command that
printed something else, and exits with 1 if there is one; with --write it updates the page. Each example of share/dpv.1 begins in the folder
that has examples, and must print no fault and no error; the one that needs an interface is left out.
"""
import os
import re
import shutil
import subprocess
import sys

import paths  # noqa: F401

from command import TOP, new_folder, program_of

PAGE = TOP / "docs" / "users" / "tour.md"
MANUAL = TOP / "share" / "dpv.1"
BLOCK = re.compile(r"(?<=^```console\n).*?(?=^```$)", re.M | re.S)
COMMAND = re.compile(r"^\$ .*\n(?:> .*\n|>\n)*", re.M)


def script_of(command: str) -> str:
    """A command as it is typed."""
    return "".join(line[2:] + "\n" for line in command.splitlines())


def examples_of(manual: str) -> list[str]:
    """The examples of the manual page, each as one command, without `dot`, which may be missing."""
    part = manual.partition(".SH EXAMPLES\n")[2].partition("\n.SH ")[0].replace("\\-", "-")
    blocks = [block.splitlines() for block in re.findall(r"^\.nf\n(.*?)^\.fi$", part, re.M | re.S) if "tcpdump" not in block]
    return ["$ (" + "; ".join(re.sub(r" \| dot .*", "", line) for line in block) + ")\n" for block in blocks]


def outputs(program: str, commands: list[str]) -> list[str]:
    """What each command prints."""
    with new_folder() as folder:
        shutil.copytree(TOP / "examples", folder / "examples")
        (folder / "bin").mkdir()
        dpv = folder / "bin" / "dpv"
        dpv.write_text(f'#!/bin/sh\nprogram="{program}" pkt="{TOP}/tools/pkt" compiled_nodes="{TOP}/tools/compiled_nodes.py" views="{TOP}/tools/views" version= commit=\n. "{TOP}/tools/launch"\nlaunch "$@"\n')
        dpv.chmod(0o755)
        path = f"{folder / 'bin'}:{os.environ['PATH']}"
        script = "".join(script_of(command) + "printf '\\1'\n" for command in commands)
        run = subprocess.run(["bash"], input=script, cwd=folder, env=os.environ | {"PATH": path, "LC_ALL": "C"}, stdout=subprocess.PIPE, stderr=subprocess.STDOUT, text=True, timeout=120)
        return run.stdout.split("\1")[:-1]


def main() -> int:
    """The whole page."""
    program = program_of(next((word for word in sys.argv[1:] if word != "--write"), None))
    page = PAGE.read_text()
    shown = "".join(BLOCK.findall(page))
    commands = COMMAND.findall(shown)
    wanted = COMMAND.split(shown)[1:]
    found = outputs(program, commands)
    if "--write" in sys.argv:
        printed = iter(found)
        PAGE.write_text(BLOCK.sub(lambda block: "".join(c + next(printed) for c in COMMAND.findall(block.group())), page))
        return 0
    bad = [(c, is_so) for c, is_so, want in zip(commands, found, wanted, strict=True) if is_so != want]
    for command, printed in bad:
        print(f"docs/users/tour.md: {command}prints now:\n{printed}")
    print(f"tour: {len(commands) - len(bad)} commands print what is shown, {len(bad)} do not")
    examples = examples_of(MANUAL.read_text())
    wrong = [(c, it) for c, it in zip(examples, outputs(program, examples), strict=True) if not it or re.search(r"^(?:fault|error): ", it, re.M)]
    for command, printed in wrong:
        print(f"share/dpv.1: {command}prints:\n{printed}")
    print(f"tour: {len(examples) - len(wrong)} examples of the manual page run, {len(wrong)} do not")
    return 1 if bad or wrong else 0


if __name__ == "__main__":
    sys.exit(main())
