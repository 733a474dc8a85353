#!/usr/bin/env python3
"""Builds a crate over the libraries as `rt ci` left them, and proves that crate alone. (`rt run` and `rt lib` would first prove all of these
libraries once more: they take only those with a stamp, and `rt ci` writes none.)

Usage: tests/library/over_gate.py NAME   (in the folder of a program with compiled nodes, as tools/compiled calls it)
"""
import pathlib
import subprocess
import sys

import paths  # noqa: F401

from planted import TOP, Crate, toolchain


class Compiled(Crate):
    """A program with compiled nodes, which crates.txt does not list."""

    @property
    def folder(self) -> pathlib.Path:
        return TOP / "crates/dpv/out/compiled" / self.name


def run(words: list[str], folder: pathlib.Path) -> None:
    """Runs a command of the toolchain, and exits with its output if it fails."""
    ran = subprocess.run(words, cwd=folder, capture_output=True, text=True)
    if ran.returncode != 0:
        sys.exit(f"{ran.stdout}{ran.stderr}{folder.name} was not built")


def build(crate: Crate, made: pathlib.Path) -> None:
    """Proves and compiles a crate: a static library, or the object file of a program."""
    over = ["--toolchain", f"{toolchain()}/toolchain", "--backend", "llvm", "--incremental", "out/incremental", "-o", str(made)]
    run([f"{toolchain()}/bin/rattle", "build", *crate.words(), *over], crate.folder)


def main() -> None:
    crate, kit = Compiled(sys.argv[1], False, ("dp_cli", "dp_engine", "dp_model")), toolchain()
    made = crate.folder / "out" / crate.name
    made.parent.mkdir(exist_ok=True)
    build(crate, made.with_suffix(".o"))
    own = ["--target", "x86_64-unknown-linux-gnu", "--toolchain", f"{kit}/toolchain", "-o", str(made), str(made.with_suffix(".o"))]
    run([f"{kit}/bin/rattle-link", *own, f"{kit}/c/libos_c.a", f"{kit}/c/liblibc_c.a"], crate.folder)


if __name__ == "__main__":
    main()
