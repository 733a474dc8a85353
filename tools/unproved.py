#!/usr/bin/env python3
"""Builds the program as its code is written, without a proof, and keeps it.

Usage: tools/unproved.py FILE

`rt try` runs what it builds, and then removes it. So here it runs on a pipe, which opens at this end once the program reads the other: the
program is copied, and `rt try` is stopped. Beside a build `rt try` runs a check, which takes as long and only hints at names that a later check
would refuse: that is stopped as it starts. FILE is then the program, and older ones beside it, which `./dpv --unproved` names by a sum of their
code, are removed. Exits with 70, and prints what the toolchain said, if none was built. `./dpv --unproved` calls it."""
import contextlib
import os
import pathlib
import re
import shutil
import signal
import subprocess
import sys
import tempfile
import time

TOP = pathlib.Path(__file__).resolve().parent.parent
# Words of the check, and the longest build in seconds.
HINT, LONGEST = b"\0--start\0no function\0", "600"


def stop_hint(parent: int) -> bool:
    """Stops the check that a process has as its child. Returns whether there was one."""
    for it in pathlib.Path("/proc").glob("[0-9]*"):
        with contextlib.suppress(OSError):
            words, state = (it / "cmdline").read_bytes(), (it / "stat").read_text().rpartition(")")[2].split()
            if HINT in words and int(state[1]) == parent:
                os.kill(int(it.name), signal.SIGKILL)
                return True
    return False


def open_pipe(pipe: pathlib.Path, trying: subprocess.Popen) -> int | None:
    """This end of the pipe once the program reads the other; nothing if it was not built."""
    is_stopped = False
    while trying.poll() is None:
        is_stopped = is_stopped or stop_hint(trying.pid)
        with contextlib.suppress(OSError):
            return os.open(pipe, os.O_WRONLY | os.O_NONBLOCK)
        time.sleep(0.1)
    return None


def build(into: pathlib.Path, work: pathlib.Path) -> str | None:
    """Builds the program and keeps it. Returns what the toolchain said, if it built none."""
    pipe, said = work / "script", work / "said"
    os.mkfifo(pipe)
    words = ["rt", "try", "--steps", "1", "--seconds", LONGEST, "--", "mem", str(pipe)]
    how = {"cwd": TOP / "crates/dpv", "env": os.environ | {"TMPDIR": str(work)}, "start_new_session": True}
    with said.open("wb") as out, subprocess.Popen(words, stdin=subprocess.DEVNULL, stdout=out, stderr=out, **how) as trying:
        try:
            end = open_pipe(pipe, trying)
            built = next((it for it in work.rglob("program") if it.is_file()), None) if end is not None else None
            if built is not None:
                into.parent.mkdir(parents=True, exist_ok=True)
                for it in into.parent.iterdir():
                    if it == into or it.is_file() and re.fullmatch("[0-9a-f]{16}", it.name):
                        it.unlink()
                shutil.copy(built, into)
        finally:
            with contextlib.suppress(ProcessLookupError):
                os.killpg(trying.pid, signal.SIGTERM)
    return None if built is not None else said.read_text(errors="replace")


def main() -> int:
    """All of it."""
    if len(sys.argv) != 2 or sys.argv[1].startswith("-"):
        sys.exit(__doc__)
    # So that `rt try` is stopped, too, and the folder removed.
    for it in (signal.SIGINT, signal.SIGTERM, signal.SIGHUP):
        signal.signal(it, lambda number, _: sys.exit(128 + number))
    with tempfile.TemporaryDirectory() as work:
        said = build(pathlib.Path(sys.argv[1]).resolve(), pathlib.Path(work))
    if said is not None:
        print(said, "dpv: it could not be built; what the toolchain said is above", sep="\n", file=sys.stderr)
    return 70 if said is not None else 0


if __name__ == "__main__":
    sys.exit(main())
