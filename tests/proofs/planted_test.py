#!/usr/bin/env python3
"""Tests tests/planted.py itself: exactly the harmless bodies among wrong ones have to be reported as not refused; a malformed edit is not
tried.

Usage: tests/proofs/planted_test.py   (by hand; over the libraries that `rt ci` or `rt all check` leaves, some five minutes)
The harmless bodies are tests/proofs/harmless/CRATE/*.edit: each only rephrases the code. Exits with 1 if one of them is refused, or a wrong body
beside them is not, or an edit that cannot be made is tried."""
import argparse
import contextlib
import io
import pathlib
import sys
import tempfile

import paths  # noqa: F401

from planted import CRATES, TOP, Edit, Tally, Unfit, fit, pairs_of, try_crate

# How many wrong bodies are tried beside the harmless ones of a crate.
BESIDE = 8
# Edits that cannot be made, and the message for each.
HEAD = "file: src/ring.rt\n"
UNFIT = {
    "": "line 1: expected `file: PATH`, and each text is one line",
    HEAD: "it ends without `old: TEXT`",
    "old: a\nnew: b\n": "line 1: expected `file: PATH`, and each text is one line",
    HEAD + "new: b\n": "line 2: expected `old: TEXT`, and each text is one line",
    HEAD + "old: a\n": "it ends without `new: TEXT`",
    HEAD + "old: a\n    b\nnew: c\n": "line 3: expected `new: TEXT`, and each text is one line",
    HEAD + "old: a\nold: b\nnew: c\n": "line 3: expected `new: TEXT`, and each text is one line",
    HEAD + "old:     let next = slot + 1;\nnew:     let next = slot;\n    let next = next + 1;\n": "line 4: expected `old: TEXT`, and each text is one line",
    HEAD + "old: no such text\nnew: b\n": "its old text stands in src/ring.rt 0 times, and not once",
    "file: src/no_such_file.rt\nold: a\nnew: b\n": "src/no_such_file.rt: No such file or directory",
}


def why_unfit(file: pathlib.Path) -> str:
    """Why an edit of dp_ring in this file cannot be made; empty where it can."""
    try:
        Edit(CRATES["dp_ring"], file).applied({})
    except Unfit as why:
        return str(why)
    return ""


def wrongly_judged() -> int:
    """How many of the edits that cannot be made are handled wrongly."""
    failed = 0
    with tempfile.TemporaryDirectory() as folder:
        file = pathlib.Path(folder, "it.edit")
        for text, why in UNFIT.items():
            file.write_text(text)
            said, tally = why_unfit(file), Tally()
            with contextlib.redirect_stdout(io.StringIO()) as printed:
                tried = fit([Edit(CRATES["dp_ring"], file)], tally)
            is_reported = printed.getvalue() == f"dp_ring/it.edit: NOT TRIED: {why}\n"
            if said != why or tried or tally.unfit != ["dp_ring/it.edit"] or not is_reported:
                print(f"{text!r}: expected {why!r}, came {said!r}")
                failed += 1
    several = HEAD + "old: a\nnew: b\nold: c\nnew:\nfile: src/lib.rt\nold: d\nnew:  e\n"
    read = [("src/ring.rt", "a", "b"), ("src/ring.rt", "c", ""), ("src/lib.rt", "d", " e")]
    return failed + (pairs_of(several) != read)


def main() -> int:
    failed = wrongly_judged()
    print(f"{len(UNFIT)} edits that cannot be made, {failed} of them taken otherwise")
    for folder in sorted((TOP / "tests/proofs/harmless").iterdir()):
        crate = CRATES[folder.name]
        harmless = [Edit(crate, it) for it in sorted(folder.glob("*.edit"))]
        wrong = [Edit(crate, it) for it in sorted((crate.folder / "planted").glob("*.edit"))[:BESIDE]]
        tally = try_crate(crate, harmless + wrong, argparse.Namespace(alone=False, early=None, done=None))
        is_well = (sorted(tally.passed), tally.refused, tally.unfit) == (sorted(it.name for it in harmless), len(wrong), [])
        print(f"{crate.name}: {len(tally.passed)} of {len(harmless)} harmless bodies reported, {tally.refused} of {len(wrong)} wrong ones refused")
        failed += not is_well
    return 1 if failed else 0


if __name__ == "__main__":
    sys.exit(main())
