#!/usr/bin/env python3
"""Runs the built program dpv on the example strip with its capture cut at each byte, and with each byte of its certificate set to other values.

Usage: tests/program/each_byte.py [--digits | --all] [PROGRAM]   (the built program; by default the one that ./dpv builds and runs; some seconds)
Each byte of the certificate is set to the digits 1, 8 and f and to a newline; with --digits to all digits (some minutes), and with --all to
each other value (472,515 runs). Of the texts that are not certificates then, one is tried for each byte, with --all each. Either the
certificate is refused, at the line and cause or at the label and rule of docs/reference/certificate.md, or the run equals that of the unchanged
certificate, to the byte. Prints a line for each case that failed, and a count; exits with 1 if a case failed.
"""
import argparse
import os
import struct
import sys
import tempfile
from collections import Counter
from collections.abc import Iterable, Iterator

import paths  # noqa: F401

from command import STRIP, fixed, program_of
from fuzz import Place
from model import answers, captures, rules
from model.programs import assemble

RECORD = bytes(range(1, 61))
INPUT = captures.written(False, [(1, 2000, RECORD)])
OUTPUT = captures.written(False, [(1, 2000, RECORD[14:])])
WORDS = ["one", "strip.dpv", "cert", "in.pcap", "out.pcap"]
Ending = tuple[int, str, str, bytes | None]


def report(received: int, state: str) -> str:
    """The report of a run on this number of records."""
    return f"port 0 received {received} nobuf 0 oversize 0 sent {received} input {state}\npool 0 free 64 of 64\ncalls {received} refused 0\n"


WHOLE: Ending = (0, report(1, "whole"), "", OUTPUT)


def ending_of_cut(size: int) -> Ending:
    """How a run ends on the first bytes of the capture."""
    if size < 24:
        return 3, report(0, "open"), "fault: input 0 cause 6\n", None
    if size == len(INPUT):
        return WHOLE
    return 0, report(0, "whole" if size == 24 else "cut 24"), "", OUTPUT[:24]


def ending_of_cert(text: bytes, entry: rules.Row) -> Ending:
    """How a run ends with a certificate, of which strip has six rows."""
    code = assemble((STRIP / "strip.dpv").read_bytes())
    rows = rules.decode(text, 6)
    if isinstance(rows, tuple):
        return 3, "", f"fault: pipeline 7 BadCert port 0 line {rows[0]} cause {rows[1]}\n", None
    refused = rules.check(answers.ONE, code, rows, entry)
    return WHOLE if refused is None else (1, f"port 0 refused at {refused[0]} by J{refused[1]}\n", "", None)


def certs(text: bytes, values: Iterable[int], try_each: bool) -> Iterator[tuple[str, bytes]]:
    """The certificates with one byte set to one of these values, by what was changed; of those that cannot be read only one for each byte."""
    for place, old in enumerate(text):
        is_none_tried = False
        for value in values:
            changed = text[:place] + bytes([value]) + text[place + 1 :]
            is_none = isinstance(rules.decode(changed, 6), tuple)
            if value != old and (try_each or not is_none or not is_none_tried):
                yield f"byte {place} set to {value}", changed
            is_none_tried |= is_none


def run_on(place: Place, cert: bytes, data: bytes) -> Ending:
    """Runs strip in this folder."""
    place.put("cert", cert)
    place.put("in.pcap", data)
    ended = place.run(WORDS)
    # Other lines may explain the fault after its first line.
    reported = fixed(ended.reported)
    return ended.status, ended.printed, reported, ended.written.get("out.pcap")


def cases(values: Iterable[int], try_each: bool) -> Iterator[tuple[str, bytes, bytes, Ending]]:
    """What is tried: its name, the certificate, the capture, and how the run must end."""
    cert, entry = (STRIP / "strip.cert").read_bytes(), rules.entry_row(answers.ONE, 0)
    for size in range(len(INPUT) + 1):
        yield f"capture cut to {size} bytes", cert, INPUT[:size], ending_of_cut(size)
    for name, changed in certs(cert, values, try_each):
        yield name, changed, INPUT, ending_of_cert(changed, entry)


def main() -> int:
    """All of it."""
    parser = argparse.ArgumentParser(description="Runs strip with each byte changed.")
    parser.add_argument("program", nargs="?", metavar="PROGRAM")
    parser.add_argument("--digits", action="store_true", help="each byte of the certificate to each digit")
    parser.add_argument("--all", action="store_true", help="each byte of the certificate to each value")
    asked = parser.parse_args()
    program = program_of(asked.program)
    ways = {0: "ran", 1: "refused by a rule", 3: "no certificate or no capture"}
    counts: Counter[str] = Counter()
    wrong = 0
    with tempfile.TemporaryDirectory() as folder:
        os.chdir(folder)
        place = Place(program)
        place.put("strip.dpv", (STRIP / "strip.dpv").read_bytes())
        assert len((STRIP / "strip.cert").read_bytes()) == 1853 and struct.unpack_from("<I", INPUT, 32) == (60,)
        values = range(256) if asked.all else b"0123456789abcdef\n" if asked.digits else b"18f\n"
        for name, cert, data, ending in cases(values, asked.all):
            counts[ways[ending[0]]] += 1
            ended = run_on(place, cert, data)
            if ended != ending:
                wrong += 1
                print(f"{name}: expected {ending}, came {ended}", flush=True)
        os.chdir("/")
    print(f"each byte: {counts.total()} runs ({', '.join(f'{way}: {number}' for way, number in counts.items())}), {wrong} failed")
    return 1 if wrong else 0


if __name__ == "__main__":
    sys.exit(main())
