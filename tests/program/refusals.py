#!/usr/bin/env python3
"""Lets the built program dpv explain one refused program for each rule.

Usage: tests/program/refusals.py [PROGRAM]   (the built program; by default the one that ./dpv builds and runs)
examples/refused has for each rule a program that breaks it, jN.dpv, and dpv's explanation, jN.txt: of the pipeline jN.toml if there is one,
else of the program by itself, with the certificate jN.cert if there is one. Its cure, cured/jN.dpv, has to be accepted; without a cure the
program itself has to be, with the inferred certificate. docs/users/refusals.md has to contain these programs, explanations and cures. Then
programs of the language pkt in pipelines that do not fit them: the help is about their source or the pipeline, and with it they are accepted.
At last documents of reasons to which no program of a test leads, in words.
Prints a line for each rule and program that failed, and a count; exits with 1 if one failed.
"""
import json
import pathlib
import subprocess
import sys
from typing import NamedTuple

import paths  # noqa: F401

import command
from command import TOP, asked, new_folder

FOLDER = TOP / "examples" / "refused"
RULES = range(1, 12)


FORWARD = "send port\n"
MARK = (TOP / "examples/tasks/mark.pkt").read_text()
GIVEN = "let the ring declare what given states in its source (share = 2 and head = 128 where it states nothing), or state what the ring declares"


class Unfit(NamedTuple):
    """A program of a port or a ring, the keys of the pipeline that are not the usual ones, the help, and the program and the keys that help."""

    node: str
    source: str
    keys: dict[str, int]
    help: str
    cured: str
    cured_keys: dict[str, int]


class Reason(NamedTuple):
    """A reason: whether the certificate was given, the rule, and the document that the program prints; and what is known, wanted and helps."""

    given: bool
    rule: int
    members: dict[str, object]
    known: str
    wanted: str
    help: str


def fact(*numbers: int) -> list[int]:
    """What is known of a packet register, as the program prints it: its share, headroom, tailroom, first, last and segments."""
    return [*numbers]


def reason(case: str, *numbers: int | str, known: object = None, wanted: object = None, to: int | None = None) -> dict[str, object]:
    """A reason as the program prints it: its numbers, of which there are always five, the facts, and the successor, if there is one."""
    given = [*numbers, 0, 0, 0, 0, 0][:5]
    return {"case": case, "known": known, "numbers": given, "wanted": wanted} | ({} if to is None else {"to": to})


LOOP = "test or bound it again before control goes there, or leave the loop with what it began with"
INFER, ROW = "let dpv infer write the certificate", "let dpv infer write the certificate, or test for more before it"
FREE = "free p7 before control goes there, or let this path end with exit: another path arrives with p7 empty"
REASONS = (
    Reason(True, 1, reason("row_count", 3, 6), "3 rows", "6 rows", INFER),
    Reason(True, 2, reason("no_entry"), "no such port or ring", "a port or ring of the environment", "name a port or ring that is there"),
    Reason(True, 2, reason("row_dead"), "control comes there", "that control never comes there", INFER),
    Reason(False, 2, reason("row_number", 3, str(2 ** 64 - 1), 0), f"r3 <= {2 ** 64 - 1}", "r3 <= 0", INFER),
    Reason(False, 11, reason("row_number", 3, 9, 8, to=1), "r3 <= 9", "at 1, b: r3 <= 8", LOOP),
    Reason(False, 11, reason("row_dead", to=2), "control comes there", "at 2: that control never comes there", LOOP),
    Reason(False, 11, reason("row_group", 1, 0, known=fact(8, 1, 2, 3, 4, 64), to=9),
           "p1 in group p0, headroom 1, tailroom 2, first 3, last 4, at most 64 segments", "at 9: p1 empty", LOOP),
    Reason(True, 11, reason("row_group", 7, 7, wanted=fact(15, 0, 0, 0, 0, 1), to=0),
           "p7 empty", "at 0: p7 in group p7, at most 1 segment", ROW),
    Reason(False, 11, reason("row_packet", 7, known=fact(0, 0, 0, 0, 0, 2), to=0), "p7 loose, at most 2 segments", "at 0: p7 empty", FREE),
    Reason(True, 11, reason("row_packet", 7, known=fact(1, 0, 0, 0, 10, 2), to=0),
           "p7 head sole, last 10, at most 2 segments", "at 0: p7 empty", ROW),
    Reason(False, 6, reason("too_little", 2, 1, 0, str(2 ** 64 - 1), 1),
           "p2 tailroom 0", f"p2 tailroom {2 ** 64 - 1} + 1", f"bound the index before it by jlt or and: it can be {2 ** 64 - 1}"),
    Reason(False, 8, reason("too_long", 1, 0, 64, 1),
           "p1 at most 64 segments, p0 at most 1 segment", "at most 64 together", "let the port or ring take packets of fewer segments"),
)

USUAL = {"room": 2176, "share": 2, "head": 128, "first": 0, "segs": 1}
LENGTH, WRITES = "given length 34\nif eth.type == 5 { drop }\nsend 0\n", "eth.type = 5\nsend 0\n"
MAKES, SENDS = "new h from 1\npush eth { type = 5 } on h\nfree h\nsend 0\n", "need eth.type < 3\nsend eth.type\n"
UNFIT = [
    Unfit("port0", MARK, {"segs": 5}, "write segments 5 in its source, as the port takes packets of 5 segments, and build it again", f"segments 5\n{MARK}", {"segs": 5}),
    Unfit("port0", f"ports 3\n{SENDS}", {}, "write ports 1 in its source, the number of ports, and build it again; or run it in a pipeline with more ports", f"ports 1\n{SENDS}", {}),
    Unfit("port0", MAKES, {"room": 0}, "let new take its packet from a pool whose room is at least 128", MAKES, {"room": 142}),
    Unfit("ring0", LENGTH, {}, GIVEN, LENGTH, {"first": 34}),
    Unfit("ring0", WRITES, {"share": 0}, GIVEN, WRITES, {}),
]


def pipeline_with(keys: dict[str, int], node: str) -> str:
    """A pipeline with a port, a ring and a second pool; this node has the program it.dpv."""
    own, of_port, of_ring = {**USUAL, **keys}, "it.dpv" if node == "port0" else "send.dpv", "it.dpv" if node == "ring0" else "send.dpv"
    pools = "".join(f"[[pool]]\ncount = 8\ncache = 0\nroom = {room}\n" for room in (2176, own["room"]))
    fact = f"share = {own['share']}\nhead = {own['head']}\ntail = 0\nfirst = {own['first']}\nlast = 0\nsegs = 1\n"
    ring = f'[[ring]]\ncount = 4\n{fact}node = "{of_ring}"\n'
    return f'region = 1048576\n{pools}{ring}[[port]]\npool = 0\nsegs = {own["segs"]}\nqueue = 4\nnode = "{of_port}"\nin = "in.pcap"\nout = "out.pcap"\n'


def explained(program: str, folder: pathlib.Path, node: str, source: str, keys: dict[str, int]) -> tuple[int, str]:
    """The status and the explanation of a program of the language pkt at a node."""
    (folder / "it.toml").write_text(pipeline_with(keys, node))
    for name, text in (("it", source), ("send", FORWARD)):
        (folder / f"{name}.pkt").write_text(text)
        built = subprocess.run([str(TOP / "dpv"), "build", f"{name}.pkt"], cwd=folder, capture_output=True, text=True, timeout=60)
        (folder / f"{name}.dpv").write_text(built.stdout)
    return said(program, ["explain", "it.toml", node], folder)


def is_helped(program: str, case: Unfit, folder: pathlib.Path) -> bool:
    """Whether a program is refused with this help, and accepted with what helps."""
    status, text = explained(program, folder, case.node, case.source, case.keys)
    cured = explained(program, folder, case.node, case.cured, case.cured_keys)
    passed = status == 1 and text.endswith(f"\n  help:   {case.help}\n") and cured == (0, f"{case.node[:4]} 0 accepted\n")
    if not passed:
        print(f"{case.source!r} at {case.node} with {case.keys}: status {status}, said {text!r}, then {cured}")
    return passed


def words_for(rule: int, folder: pathlib.Path, certs: bool) -> list[str]:
    """The command that explains the program of a rule in a folder."""
    if (folder / f"j{rule}.toml").exists():
        return ["explain", f"j{rule}.toml"]
    cert = [f"j{rule}.cert"] if certs and (folder / f"j{rule}.cert").exists() else []
    return ["explain-one", f"j{rule}.dpv", *cert]


def said(program: str, words: list[str], folder: pathlib.Path) -> tuple[int, str]:
    """The status, and what was printed on both streams, one after the other."""
    run = subprocess.run([program, *words], cwd=folder, capture_output=True, text=True, timeout=60)
    return run.returncode, "".join(command.said(run.stdout, run.stderr))


def is_worded(case: Reason) -> bool:
    """Whether a document of this reason has these words."""
    at = {"given": case.given, "label": 2, "rule": case.rule}
    why = {"file": "x.dpv", "reason": case.members, "segs": 1, "text": "exit\n\nb: exit # again\n c : # on\n"}
    line = json.dumps({"view": "refusal", "node": "port 0", "refused": at, "why": why}, separators=(",", ":"))
    words = command.said(f"{line}\n")[0].splitlines()
    passed = words[0] == "x.dpv:0: " and words[1].startswith(f"  J{case.rule}: ")
    passed = passed and words[2:] == [f"  known:  {case.known}", f"  wanted: {case.wanted}", f"  help:   {case.help}"]
    if not passed:
        print(f"{case.members}: said {words}")
    return passed


def is_explained(program: str, rule: int) -> bool:
    """Whether the program of a rule is refused, with this explanation."""
    status, text = said(program, words_for(rule, FOLDER, True), FOLDER)
    wanted = (FOLDER / f"j{rule}.txt").read_text()
    # A certificate with too few rows is not one of the program, and is reported as a fault.
    passed = (status, text) == (3 if rule == 1 else 1, wanted)
    if not passed:
        print(f"J{rule}: status {status}, said {text!r}")
    return passed


def is_cured(program: str, rule: int) -> bool:
    """Whether the cure of a rule's program is accepted."""
    folder = FOLDER / "cured" if (FOLDER / "cured" / f"j{rule}.dpv").exists() else FOLDER
    passed = said(program, words_for(rule, folder, False), folder) == (0, "port 0 accepted\n")
    if not passed:
        print(f"J{rule}: the cure is not accepted")
    return passed


def is_in_docs(rule: int, docs: str) -> bool:
    """Whether the program, its explanation and its cure are in the page."""
    files = [FOLDER / f"j{rule}.dpv", FOLDER / f"j{rule}.txt", FOLDER / "cured" / f"j{rule}.dpv"]
    missing = [file.name for file in files if file.exists() and file.read_text() not in docs]
    for name in missing:
        print(f"docs/users/refusals.md: {name} is not there as it is in examples/refused")
    return not missing


def main() -> int:
    """All rules."""
    program = asked()
    docs = (TOP / "docs" / "users" / "refusals.md").read_text()
    passed = [is_explained(program, rule) and is_cured(program, rule) and is_in_docs(rule, docs) for rule in RULES]
    with new_folder() as folder:
        passed += [is_helped(program, case, folder) for case in UNFIT]
    passed += [is_worded(case) for case in REASONS]
    print(f"refusals: {sum(passed)} rules, programs and reasons are as they should be, {len(passed) - sum(passed)} are not")
    return 0 if all(passed) else 1


if __name__ == "__main__":
    sys.exit(main())
