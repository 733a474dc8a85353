#!/usr/bin/env python3
"""Installs dpv into an empty folder, and uses what is there as a machine without the toolchain would: the program, `dpv build`, the manual page,
the completions, a C program by pkg-config, and the Debian package.

Usage: tests/library/install.py [PROGRAM]   (the built program; by default the one that ./dpv builds and runs)
The C library is the one that `tests/library/host.py --gate` left, if it did, and else `tools/library` builds it. Prints a line for each step that failed, and
a count; exits with 1 if one did. Without a C compiler, pkg-config or dpkg-deb, their steps are skipped, which is said.
"""
import os
import pathlib
import shutil
import subprocess
import sys
import tempfile

import paths  # noqa: F401

from command import TOP, asked, report_cases

ARCHIVE = TOP / "crates/dp_host/out/gate/libdp_host.a"
VERSION = (TOP / "VERSION").read_text().strip()
# A program that links the library and opens nothing.
CALLER = """#include <dpv.h>
#include <stdio.h>
int main(void) { printf("%d\\n", dpv_size() > 0); return 0; }
"""


def run(words: list[str], folder: pathlib.Path, **more: str) -> subprocess.CompletedProcess:
    """Runs a command in a folder, without the toolchain's commands."""
    path = f"{pathlib.Path(sys.executable).parent}:/usr/bin:/bin"
    around = {"PATH": path, "HOME": str(folder), "LC_ALL": "C.UTF-8", **more}
    return subprocess.run(words, cwd=folder, env=around, capture_output=True, text=True, stdin=subprocess.DEVNULL)


def says(name: str, done: subprocess.CompletedProcess, wanted: str, status: int = 0) -> bool:
    """Whether a command ended with this status and printed these words somewhere; else it is reported."""
    is_so = done.returncode == status and wanted in done.stdout + done.stderr
    if not is_so:
        print(f"install: {name}: status {done.returncode}: {(done.stdout + done.stderr)[-300:]}")
    return is_so


def is_missing(done: subprocess.CompletedProcess) -> bool:
    """Whether a program of the language pkt that is not there is reported as a file that cannot be read."""
    is_so = (done.returncode, done.stderr.partition("\n")[0]) == (3, "fault: pipeline 5 File port 0")
    if not is_so:
        print(f"install: filter of a missing file: status {done.returncode}: {done.stderr[-300:]}")
    return is_so


def runs_programs(prefix: pathlib.Path, room: pathlib.Path) -> list[bool]:
    """The program: its version, an example, and a program of the language pkt."""
    dpv, example = str(prefix / "bin/dpv"), room / "strip"
    shutil.copytree(prefix / "share/doc/dpv/examples/strip", example, dirs_exist_ok=True)
    shutil.copytree(prefix / "share/doc/dpv/examples/ttl", example, dirs_exist_ok=True)
    built = run([dpv, "build", "strip.pkt"], example)
    (example / "built.dpv").write_text(built.stdout)
    return [
        says("--version", run([dpv, "--version"], room), f"dpv {VERSION}"),
        says("one", run([dpv, "one", "strip.dpv", "strip.cert", "in.pcap", "out.pcap"], example), "input whole"),
        says("build", built, ""),
        says("infer-one", run([dpv, "infer-one", "built.dpv"], example), "dpv-cert"),
        says("compile", run([dpv, "compile", "ttl.toml"], example), "pub type Programs = Also<Program0, Nothing>;"),
        says("help", run([dpv, "help"], room), "build FILE.pkt"),
        says("help on compile", run([dpv, "help"], room), "compile FILE"),
        says("no words", run([dpv], room), "build FILE.pkt", 2),
        says("filter", run([dpv, "filter", "strip.pkt", "in.pcap", "filtered.pcap"], example), "input whole"),
        is_missing(run([dpv, "filter", "nothing.pkt", "in.pcap", "filtered.pcap"], example)),
    ]


def has_pages(prefix: pathlib.Path) -> list[bool]:
    """The manual page and the completions."""
    completion = prefix / "share/bash-completion/completions/dpv"
    words = f'source "{completion}"; COMP_WORDS=(dpv che); COMP_CWORD=1; _dpv; echo "${{COMPREPLY[@]}}"'
    page = (prefix / "share/man/man1/dpv.1").read_text()
    return [
        says("completion", run(["bash", "-c", words], prefix), "check"),
        page.startswith(".TH DPV") and f"dpv {VERSION}" in page.splitlines()[0],
        (prefix / "share/zsh/site-functions/_dpv").is_file(),
        (prefix / "share/doc/dpv/docs/users/tour.md").is_file(),
    ]


def links(prefix: pathlib.Path, room: pathlib.Path) -> list[bool]:
    """A C program over the library, by pkg-config."""
    if not shutil.which("cc") or not shutil.which("pkg-config"):
        print("install: no C program is linked, since cc or pkg-config is not installed (Debian: gcc, pkg-config)")
        return []
    (room / "caller.c").write_text(CALLER)
    flags = run(["pkg-config", "--cflags", "--libs", "dpv"], room, PKG_CONFIG_PATH=str(prefix / "lib/pkgconfig"))
    made = run(["cc", "caller.c", "-o", "caller", *flags.stdout.split()], room)
    return [says("pkg-config", flags, "-ldpv"), says("cc", made, ""), says("caller", run(["./caller"], room), "1")]


def packs(program: str, archive: str, room: pathlib.Path) -> list[bool]:
    """The Debian package has what is installed."""
    if not shutil.which("dpkg-deb"):
        print("install: no package is made, since dpkg-deb is not installed (Debian: dpkg)")
        return []
    made = subprocess.run([str(TOP / "tools/package"), str(room), program, archive], capture_output=True, text=True)
    file = made.stdout.strip().splitlines()[-1] if made.stdout.strip() else ""
    listed = subprocess.run(["dpkg-deb", "--contents", file], capture_output=True, text=True) if file else made
    return [says("package", made, f"dpv_{VERSION}"), says("contents", listed, "./usr/bin/dpv")]


def library(room: pathlib.Path) -> str:
    """The C library, as `rt` builds it."""
    if not ARCHIVE.is_file():
        subprocess.run(["rt", "lib"], cwd=TOP / "crates/dp_host", check=True, stdout=subprocess.DEVNULL, stderr=subprocess.DEVNULL)
        return str(TOP / "crates/dp_host/out/libdp_host.a")
    return str(ARCHIVE)


def main() -> int:
    """All of it: once where it was installed, and once more where that was moved to."""
    program = asked()
    with tempfile.TemporaryDirectory() as name:
        room = pathlib.Path(name)
        archive, prefix, moved = library(room), room / "first/usr", room / "second/opt"
        put = subprocess.run([str(TOP / "tools/install"), str(prefix), program, archive], capture_output=True, text=True)
        passed = [says("install", put, "installed in")]
        if all(passed):
            passed += runs_programs(prefix, room) + has_pages(prefix)
            moved.parent.mkdir()
            shutil.move(prefix, moved)
            passed += runs_programs(moved, room) + links(moved, room) + packs(program, archive, room)
    return report_cases("install", passed)


if __name__ == "__main__":
    sys.exit(main())
