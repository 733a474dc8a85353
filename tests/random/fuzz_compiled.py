#!/usr/bin/env python3
"""Runs random cases of tests/random/fuzz.py with a program dpv in which their node programs are compiled to machine code.

Usage: tests/random/fuzz_compiled.py [--seed N] [--families N] [--cases N | --seconds N] [--jobs N] [--gate] [PROGRAM]
The programs of N families of cases (by default 12) are built into a program, once, as `./dpv --compiled` does with those of a pipeline;
that takes some minutes. It then runs cases of these families, each with other captures and other calls refused, and compares them with
tests/model, as tests/random/fuzz.py does. Prints what tests/random/fuzz.py prints, and ends as it does. With --gate the program is built over the crates
as `rt ci` left them, with the node program of examples/ttl beside the others, and first tested with that example, as by tests/program/compiled.py
--build; as many families are taken as have 200 instructions together, so that the time is about the same for each seed.
"""
import argparse
import os
import pathlib
import shutil
import subprocess
import sys
import tempfile

import paths  # noqa: F401

import compiled
import compiled_nodes
import engines
from command import TOP, new_folder, program_of
from fuzz import Dice, Maker
from model.programs import assemble

KINDS = ["one", "run"]
# How many instructions the gate compiles at most, beside those of a first family.
MOST = 200
TTL = TOP / "examples/ttl"


def texts(seed: str, families: int) -> list[bytes]:
    """The texts of the node programs of these families."""
    maker = Maker(seed, KINDS)
    cases = [maker.family(number)(Dice(f"{seed} case 0")) for number in range(families)]
    return [text for case in cases for name, text in sorted(case.files.items()) if name[0] == "n"]


def in_gate(seed: str, families: int) -> int:
    """How many of these families have few enough instructions together; at least one."""
    return max([1] + [k for k in range(1, families + 1) if sum(text.count(b"\n") for text in texts(seed, k)) <= MOST])


def with_machine_code(program: str, nodes: list[bytes], *builder: str) -> str:
    """The program that has these node programs as machine code, which is built where it has to be."""
    with new_folder() as folder:
        module = folder / "programs.rt"
        module.write_text(compiled_nodes.module(compiled_nodes.programs_of(it for it in nodes if isinstance(assemble(it), list))))
        words = [str(TOP / "tools/compiled"), program, str(module), *builder]
        return subprocess.run(words, check=True, stdout=subprocess.PIPE, text=True).stdout.strip()


def does_ttl(program: str, made: str) -> bool:
    """Whether the program passes the test of tests/program/compiled.py with examples/ttl."""
    with new_folder() as folder:
        shutil.copytree(TTL, folder / "ttl")
        return all(compiled.does_the_same(program, made, folder / "ttl/ttl.toml", compiled.GAIN))


def plays_scripts(made: str) -> bool:
    """Whether the program does what the scripts of tests/program/engines.py say."""
    with new_folder() as folder:
        return all(engines.hold(engines.played(made, folder, is_compiled=True)))


def limit_of(asked: argparse.Namespace) -> list[str]:
    """How long tests/random/fuzz.py goes on: 100,000 cases if nothing is said."""
    return ["--seconds", str(asked.seconds)] if asked.seconds else ["--cases", str(asked.cases or 100_000)]


def main() -> int:
    """All of it."""
    parser = argparse.ArgumentParser(description="Runs random cases of tests/random/fuzz.py with compiled node programs.")
    parser.add_argument("program", nargs="?", metavar="PROGRAM")
    parser.add_argument("--seed", default="1")
    parser.add_argument("--families", type=int, default=12)
    parser.add_argument("--cases", type=int, default=0)
    parser.add_argument("--seconds", type=float, default=0)
    parser.add_argument("--jobs", type=int, default=len(os.sched_getaffinity(0)))
    parser.add_argument("--gate", action="store_true")
    asked = parser.parse_args()
    families = in_gate(asked.seed, asked.families) if asked.gate else asked.families
    program, nodes = program_of(asked.program), texts(asked.seed, families)
    if asked.gate:
        known = [(TTL / "ttl.dpv").read_bytes(), *(it.encode() for it in engines.MACHINE_CODE)]
        made = with_machine_code(program, [*nodes, *known], str(TOP / "tests/library/over_gate.py"))
        if not does_ttl(program, made) or not plays_scripts(made):
            return 1
    else:
        made = with_machine_code(program, nodes)
    words = ["--seed", asked.seed, "--families", str(families), "--jobs", str(asked.jobs), "--only", ",".join(KINDS), *limit_of(asked)]
    words += ["--keep", str(pathlib.Path(tempfile.gettempdir()) / "dpv_compiled_findings"), made]
    return subprocess.run([sys.executable, str(TOP / "tests/random/fuzz.py"), *words], check=False).returncode


if __name__ == "__main__":
    sys.exit(main())
