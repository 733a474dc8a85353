"""Lets a script of this folder import what it shares with others: tests/shared/paths.py lists the folders of those modules."""
import pathlib
import sys

sys.path.insert(1, str(pathlib.Path(__file__).resolve().parents[1]))
from shared.paths import TOP  # noqa: E402, F401
