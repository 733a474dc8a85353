"""Lets a script of tests/ import what it shares with others: who imports this finds the modules of all folders of tests/, and those of tools/
and bench/. Each folder of scripts has a paths.py of its own that imports this one, as Python looks beside a script for what it imports."""
import pathlib
import sys

TOP = pathlib.Path(__file__).resolve().parents[2]
FOLDERS = ("tests/shared", "tests", "tests/proofs", "tests/program", "tests/tools", "tests/library", "tests/random", "tools", "bench")
# Where Debian's packages are, which another Python than Debian's does not look for.
DEBIAN = "/usr/lib/python3/dist-packages"

sys.path[1:1] = [str(TOP / it) for it in FOLDERS if str(TOP / it) not in sys.path]
if DEBIAN not in sys.path:
    sys.path.append(DEBIAN)
