#!/usr/bin/env python3
"""Tests that the built program dpv overwrites only the outputs of its run.

Usage: tests/program/outputs.py [PROGRAM]   (the built program; by default the one that ./dpv builds and runs)
First, outputs that are another file of the run, by the same name, another path, a link or a hard link: the pipeline file, a program, a
certificate, an input, another port's output, also one that does not exist yet. Each has to be refused with both names, and no file may
change. Then outputs to which standard output or standard error goes, and two outputs that are one new file by a link. Then each cause for
which a run ends before its first header is written, with old outputs, which must not change, and with new ones, which must not be left empty.
Old outputs that are empty stay, too, and a file that came under the name of a new output. Then runs that do write: an old output has only
the new capture, devices and pipes may be written by several ports; and the content of one that cannot be cut off stays. Prints a line for each
case that failed, and a count; exits with 1 if a case failed.
"""
import fcntl
import os
import pathlib
import struct
import subprocess
import sys
import time
from typing import NamedTuple

import paths  # noqa: F401

import command
from command import STRIP, asked, nested_folder, new_folder, report_cases, saying

HEADER = struct.pack("<IHHIIII", 0xA1B2C3D4, 2, 4, 0, 0, 262144, 1)
FORWARD = "tx p0,r0,drop\nexit\ndrop: free p0\nexit\n"
OLD = b"something that the user still needs\n" * 100
READ = "the run reads this file, so it is not overwritten"
WRITTEN = "another port writes this file, too"
PRINTED = "standard output goes to this file, too"
REPORTED = "standard error goes to this file, too"


def capture(*records: bytes) -> bytes:
    """A capture of these records."""
    return HEADER + b"".join(struct.pack("<IIII", 1, 2, len(record), len(record)) + record for record in records)


ONE = capture(bytes(60))


def pipeline(ports: list[tuple[str, str]], region: int = 262144, extra: str = "") -> str:
    """A pipeline whose ports send back what comes in: their inputs and outputs."""
    pool = "[[pool]]\ncount = 8\ncache = 0\nroom = 2176\n"
    # (the certificate is one for the only port)
    cert = 'cert = "forward.cert"\n' if len(ports) == 1 else ""
    port = '[[port]]\npool = 0\nsegs = 1\nqueue = 4\nnode = "forward.dpv"\n' + cert + 'in = "{}"\nout = "{}"\n'
    return f"region = {region}\n" + pool + extra + "".join(port.format(*names) for names in ports)


class Case(NamedTuple):
    """A pipeline, and what its run prints on standard error, or a part of it."""

    text: str
    said: str


def clashes() -> list[Case]:
    """Outputs that are another file of the run."""

    def clash(output: str, other: str, why: str = READ) -> str:
        return f"fault: file {output}\n  file: {other}\n  because: {why}\n"

    one = [
        ("case.toml", "case.toml"), ("./case.toml", "case.toml"), ("forward.dpv", "forward.dpv"), ("forward.cert", "forward.cert"),
        ("in.pcap", "in.pcap"), ("folder/../in.pcap", "in.pcap"), ("hard.pcap", "in.pcap"), ("soft.pcap", "in.pcap"),
        ("soft.dpv", "forward.dpv"), (os.path.join(os.curdir, "folder", os.pardir, "forward.cert"), "forward.cert"),
    ]
    cases = [Case(pipeline([("in.pcap", output)]), clash(output, other)) for output, other in one]
    two = [("old.pcap", "old.pcap"), ("old.pcap", "./old.pcap"), ("new.pcap", "new.pcap"), ("new.pcap", "./folder/../new.pcap"),
           ("folder/new.pcap", "./folder/new.pcap"), ("old.pcap", "soft_old.pcap")]
    cases += [Case(pipeline([("in.pcap", first), ("in.pcap", second)]), clash(second, first, WRITTEN)) for first, second in two]
    three = [("in.pcap", "a.pcap"), ("in.pcap", "b.pcap"), ("in.pcap", "a.pcap")]
    cases.append(Case(pipeline(three), clash("a.pcap", "a.pcap", WRITTEN)))
    cases.append(Case(pipeline([("in.pcap", "old.pcap"), ("second.pcap", "in.pcap")]), clash("in.pcap", "in.pcap")))
    # Outputs that do not exist are told apart before one is made, and so before a later one cannot be made; also in the root folder.
    for first, second in (("new.pcap", "./new.pcap"), (f"/dpv-{os.getpid()}.pcap", f"/../dpv-{os.getpid()}.pcap")):
        cases.append(Case(pipeline([("in.pcap", first), ("in.pcap", second), ("in.pcap", "none/none")]), clash(second, first, WRITTEN)))
    return cases


def early_ends() -> list[Case]:
    """Runs that end before their first header is written."""
    old = "old.pcap"
    return [
        Case("region = \n", "fault: pipeline 1 NotToml"),
        Case(pipeline([("in.pcap", old)]).replace("queue", "quee"), "fault: pipeline 2 BadKey port 0"),
        Case(pipeline([("in.pcap", old)]).replace("segs = 1", "segs = 99"), "fault: pipeline 3 BadEnv 4 0"),
        Case(pipeline([("in.pcap", old)], extra='[[table]]\nrules = 1\ngroups = 0\nroutes = ["x"]\n'), "fault: pipeline 4 BadTable 0 0 6"),
        Case(pipeline([("in.pcap", old)]).replace("forward.dpv", "none"), "fault: pipeline 5 File port 0"),
        Case(pipeline([("in.pcap", old)]).replace("forward.dpv", "wrong.dpv"), "fault: pipeline 6 Asm port 0 line 1 cause 2"),
        Case(pipeline([("in.pcap", old)]).replace("forward.cert", "wrong.cert"), "fault: pipeline 7 BadCert port 0"),
        Case(pipeline([("in.pcap", old)]).replace("forward.cert", "strip.cert"), "fault: pipeline 7 BadCert port 0"),
        Case(pipeline([("none", old)]), "fault: file none"),
        Case(pipeline([("in.pcap", old), ("none", "second.old")]), "fault: file none"),
        Case(pipeline([("in.pcap", old), ("in.pcap", "none/none")]), "fault: file none/none"),
        Case(pipeline([("in.pcap", old)], region=4096), "fault: region"),
        Case(pipeline([("new.pcapng", old)]), "fault: input 0 cause 1"),
        Case(pipeline([("version.pcap", old)]), "fault: input 0 cause 2"),
        Case(pipeline([("link.pcap", old)]), "fault: input 0 cause 3"),
        Case(pipeline([("short.pcap", old)]), "fault: input 0 cause 6"),
        Case(pipeline([("folder", old)]), "fault: input 0 cause 8"),
        Case(pipeline([("in.pcap", old), ("short.pcap", "second.old")]), "fault: input 1 cause 6"),
    ]


def make_files(folder: pathlib.Path, program: str) -> None:
    """The files that the cases name."""
    (folder / "folder").mkdir()
    data = {
        "forward.dpv": FORWARD.encode(),
        "wrong.dpv": b"ifln p0,14,x\n",
        "wrong.cert": b"no certificate\n",
        "strip.cert": (STRIP / "strip.cert").read_bytes(),
        "in.pcap": ONE,
        "second.pcap": ONE,
        "new.pcapng": struct.pack("<IIIHHqI", 0x0A0D0D0A, 28, 0x1A2B3C4D, 1, 0, -1, 28),
        "version.pcap": ONE[:6] + b"\5" + ONE[7:],
        "link.pcap": ONE[:20] + b"\x65" + ONE[21:],
        "short.pcap": ONE[:23],
        "old.pcap": OLD,
        "second.old": OLD,
        "void.pcap": b"",
    }
    for name, held in data.items():
        (folder / name).write_bytes(held)
    certificate = subprocess.run([program, "infer-one", "forward.dpv"], cwd=folder, capture_output=True, check=True)
    (folder / "forward.cert").write_bytes(certificate.stdout)
    os.link(folder / "in.pcap", folder / "hard.pcap")
    for link, name in {"soft.pcap": "in.pcap", "soft.dpv": "forward.dpv", "soft_old.pcap": "old.pcap", "soft_void.pcap": "void.pcap", "dangling.pcap": "folder/made.pcap"}.items():
        (folder / link).symlink_to(name)


def held(folder: pathlib.Path) -> dict[str, bytes]:
    """The contents of all files."""
    return {str(it.relative_to(folder)): it.read_bytes() for it in sorted(folder.rglob("*")) if it.is_file()}


def new_ends() -> list[Case]:
    """The same runs with outputs that do not exist: one that would be made, and one through a link."""
    names = {"old.pcap": "fresh.pcap", "second.old": "second.fresh"}, {"old.pcap": "dangling.pcap", "second.old": "fresh.pcap"}
    cases = []
    for case in early_ends():
        for name in names:
            text = case.text
            for old, new in name.items():
                text = text.replace(old, new)
            cases.append(Case(text, case.said))
    return cases


def empty_ends() -> list[Case]:
    """Runs that end before their first header is written, with an old output that is empty."""
    return [
        Case(pipeline([("short.pcap", "void.pcap")]), "fault: input 0 cause 6"),
        Case(pipeline([("short.pcap", "soft_void.pcap")]), "fault: input 0 cause 6"),
        Case(pipeline([("in.pcap", "void.pcap"), ("in.pcap", "none/none")]), "fault: file none/none"),
    ]


def worded(text: str) -> str:
    """What is said of a text that the program printed or reported."""
    return command.said(text)[0]


def is_kept(program: str, case: Case, folder: pathlib.Path, must_be_alone: bool) -> bool:
    """Whether a run is refused as the case says, each file keeps its contents, and no file is new."""
    (folder / "case.toml").write_text(case.text)
    before = held(folder)
    run = subprocess.run([program, "run", "case.toml"], cwd=folder, stdin=subprocess.DEVNULL, capture_output=True, text=True, timeout=60)
    after = held(folder)
    new = set(after) - set(before)
    lost = [name for name, data in before.items() if after.get(name) != data]
    reported = worded(run.stderr)
    said = reported == case.said if must_be_alone else reported.startswith(case.said)
    passed = run.returncode == 3 and said and not lost and not new
    if not passed:
        print(f"outputs: {case.said!r}: status {run.returncode}, {reported!r}; lost: {lost}, new: {sorted(new)}")
    for name in set(after) - set(before):
        (folder / name).unlink()
    return passed


class Shared(NamedTuple):
    """Words of a run over old.pcap, what the shell does with the standard streams, and what is then in old.pcap and on standard error."""

    words: list[str]
    streams: str
    old: bytes
    said: str


def shared() -> list[Shared]:
    """Outputs to which a standard stream goes, too."""
    run, one = ["run", "case.toml"], ["one", "forward.dpv", "forward.cert", "in.pcap"]
    printed, reported = (f"fault: file {{}}\n  because: {why}\n" for why in (PRINTED, REPORTED))
    read = f"fault: file in.pcap\n  file: in.pcap\n  because: {READ}\n"
    return [
        Shared(run, ">> old.pcap", OLD, printed.format("old.pcap")),
        Shared(run, "> old.pcap", b"", printed.format("old.pcap")),
        Shared(run, "2>> old.pcap", OLD + reported.format("old.pcap").encode(), ""),
        Shared(run, ">> old.pcap 2>> old.pcap", OLD + reported.format("old.pcap").encode(), ""),
        Shared([*one, "old.pcap"], ">> old.pcap", OLD, printed.format("old.pcap")),
        Shared([*one, "./folder/../old.pcap"], "> old.pcap", b"", printed.format("./folder/../old.pcap")),
        Shared([*one, "-"], ">> old.pcap 2>> old.pcap", OLD + reported.format("-").encode(), ""),
        Shared([*run, "--out", "0=-"], "2>> old.pcap >> old.pcap", OLD + reported.format("-").encode(), ""),
        Shared([*one, "/dev/stdout"], ">> old.pcap", OLD, printed.format("/dev/stdout")),
        Shared([*one, "/dev/stderr"], "2>> old.pcap", OLD + reported.format("/dev/stderr").encode(), ""),
        Shared([*one, "in.pcap"], ">> old.pcap", OLD, read),
    ]


def is_unshared(program: str, case: Shared, folder: pathlib.Path) -> bool:
    """Whether a run is refused since a standard stream goes to its output, which then has nothing but what the shell and the report put there."""
    (folder / "case.toml").write_text(pipeline([("in.pcap", "old.pcap")]))
    (folder / "old.pcap").write_bytes(OLD)
    command = ["sh", "-c", f'"$@" {case.streams}', "sh", program, *case.words]
    run = subprocess.run(command, cwd=folder, stdin=subprocess.DEVNULL, capture_output=True, text=True, timeout=60)
    now = worded((folder / "old.pcap").read_text("latin-1")).encode("latin-1")
    passed = (run.returncode, run.stdout, worded(run.stderr), now) == (3, "", case.said, case.old)
    if not passed:
        print(f"outputs: {case.words} {case.streams}: status {run.returncode}, {run.stderr!r}, {len(now)} bytes: {now[len(OLD):][:200]!r}")
    (folder / "old.pcap").write_bytes(OLD)
    return passed


def linked(program: str, folder: pathlib.Path) -> list[bool]:
    """Two outputs that are one new file: its name, and a link to it. It is not left there."""
    answers = []
    for first, second in (("new.pcap", "alias.pcap"), ("alias.pcap", "new.pcap"), ("alias.pcap", "folder/alias.pcap")):
        for link, name in {"alias.pcap": "new.pcap", "folder/alias.pcap": "../new.pcap"}.items():
            (folder / link).symlink_to(name)
        (folder / "case.toml").write_text(pipeline([("in.pcap", first), ("in.pcap", second)]))
        run = subprocess.run([program, "run", "case.toml"], cwd=folder, capture_output=True, text=True, timeout=60)
        said = f"fault: file {second}\n  file: {first}\n  because: {WRITTEN}\n"
        is_left = (folder / "new.pcap").exists()
        answers.append((run.returncode, worded(run.stderr), is_left) == (3, said, False))
        if not answers[-1]:
            print(f"outputs: {first}, {second}: status {run.returncode}, {run.stderr!r}, new.pcap is left: {is_left}")
        for name in ("alias.pcap", "folder/alias.pcap", "new.pcap"):
            (folder / name).unlink(missing_ok=True)
    return answers


def replaced(program: str, folder: pathlib.Path) -> bool:
    """A new output is replaced by another empty file before the run ends without a header: the other file stays."""
    output, other = folder / "fresh.pcap", folder / "other.pcap"
    other.write_bytes(b"")
    number = other.stat().st_ino
    words = [program, "one", "forward.dpv", "forward.cert", "-", output.name]
    with subprocess.Popen(words, cwd=folder, stdin=subprocess.PIPE, stdout=subprocess.PIPE, stderr=subprocess.PIPE, text=True) as run:
        end = time.monotonic() + 60
        while not output.exists() and time.monotonic() < end:
            time.sleep(0.01)
        other.replace(output)
        _printed, reported = run.communicate(timeout=60)
    passed = run.returncode == 3 and reported.startswith("fault: input 0 cause 6\n") and output.exists() and output.stat().st_ino == number
    if not passed:
        print(f"outputs: replaced: status {run.returncode}, {reported!r}, it is there: {output.exists()}")
    output.unlink(missing_ok=True)
    return passed


def sealed(program: str, folder: pathlib.Path) -> bool:
    """An old output whose content cannot be cut off: the fault says so, and the content stays."""
    file = os.memfd_create("sealed", os.MFD_ALLOW_SEALING)
    os.write(file, OLD)
    fcntl.fcntl(file, fcntl.F_ADD_SEALS, fcntl.F_SEAL_SHRINK)
    name = f"/proc/self/fd/{file}"
    words = [program, "one", "forward.dpv", "forward.cert", "in.pcap", name]
    run = subprocess.run(words, cwd=folder, pass_fds=[file], capture_output=True, text=True, timeout=60)
    said = f"fault: output 0\n  file: {name}\n  because: Operation not permitted (os error 1)\n"
    now = os.pread(file, 2 * len(OLD), 0)
    os.close(file)
    passed = (run.returncode, worded(run.stderr), now) == (3, said, OLD)
    if not passed:
        print(f"outputs: sealed: status {run.returncode}, {run.stderr!r}, {len(now)} bytes: {now[:100]!r}")
    return passed


def writes(program: str, folder: pathlib.Path) -> list[bool]:
    """Runs that write: an old output then has only the new capture; several ports write devices and pipes."""
    answers = []
    for outputs in (["old.pcap"], ["/dev/null", "/dev/null"], ["fresh.pcap", "/dev/null"]):
        (folder / "case.toml").write_text(pipeline([("in.pcap", output) for output in outputs]))
        run = subprocess.run([program, "run", "case.toml"], cwd=folder, capture_output=True, text=True, timeout=60)
        written = all((folder / name).read_bytes() == ONE for name in outputs if not name.startswith("/"))
        answers.append(run.returncode == 0 and written)
        if not answers[-1]:
            print(f"outputs: {outputs}: status {run.returncode}, {run.stderr!r}, written: {written}")
    return answers


def main() -> int:
    """All of it."""
    with nested_folder() as folder, new_folder() as kept:
        program = saying(asked(), kept)
        make_files(folder, program)
        passed = [is_kept(program, case, folder, True) for case in clashes()]
        passed += [is_unshared(program, case, folder) for case in shared()]
        passed += linked(program, folder)
        passed += [is_kept(program, case, folder, False) for case in (*early_ends(), *new_ends(), *empty_ends())]
        passed += [replaced(program, folder), sealed(program, folder)]
        passed += writes(program, folder)
    return report_cases("outputs", passed)


if __name__ == "__main__":
    sys.exit(main())
