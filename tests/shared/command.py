"""The program dpv as the tests start it: which one it is, what it prints, and the libraries that are loaded before it."""
import pathlib
import re
import shutil
import subprocess
import sys
import tempfile
from collections.abc import Iterator
from contextlib import chdir, contextmanager
from typing import Any

HERE = pathlib.Path(__file__).resolve().parent
TOP = HERE.parents[1]
sys.path.append(str(TOP / "tools/views"))

from documents import Refused  # noqa: E402
from sayings import Sayings  # noqa: E402

STRIP = TOP / "examples/strip"
MULTICAST = TOP / "examples/multicast"


def built() -> pathlib.Path:
    """The program that ./dpv runs, which builds it if needed."""
    subprocess.run([str(TOP / "dpv"), "help"], check=True, stdout=subprocess.DEVNULL)
    return TOP / "crates/dpv/out/dpv"


def program_of(word: str | None) -> str:
    """The program that this word names, or the one that ./dpv builds and runs."""
    return str(pathlib.Path(word).resolve() if word else built())


def asked() -> str:
    """The program that the first word of this script names."""
    return program_of(sys.argv[1] if len(sys.argv) > 1 else None)


@contextmanager
def new_folder() -> Iterator[pathlib.Path]:
    """A temporary folder."""
    with tempfile.TemporaryDirectory() as name:
        yield pathlib.Path(name)


@contextmanager
def nested_folder() -> Iterator[pathlib.Path]:
    """A folder in a temporary folder of its own, which has nothing else."""
    with new_folder() as outer:
        folder = outer / "files"
        folder.mkdir()
        yield folder


def report_cases(name: str, passed: list[bool]) -> int:
    """Prints how many cases there were and how many failed; returns the status for the script to exit with."""
    print(f"{name}: {len(passed)} cases, {passed.count(False)} failed")
    return 0 if all(passed) else 1


def fixed(reported: str) -> str:
    """The output on standard error, without the details after a fault's line, the documents of these, and the lines on dropped packets."""
    reported = re.sub(r'(?m)^\{"view":.*\n', "", reported)
    return re.sub(r"(?m)^(?:(?:port|ring|pool) \d+: |\d+ node runs? w(?:as|ere) cut|note: (?:port|ring) \d is not compiled).*\n", "", re.sub(r"(?ms)^  (?:file|because|at|help): .*", "", reported))


def put_library(name: str, folder: pathlib.Path) -> pathlib.Path | None:
    """The library of a C file beside this one, built in a folder; or nothing if there is no C compiler."""
    compiler = shutil.which("cc") or shutil.which("gcc") or shutil.which("clang")
    if compiler is None:
        return None
    library = folder / f"{name}.so"
    words = [compiler, "-O2", "-Wall", "-shared", "-fPIC", "-o", str(library), str(HERE / f"{name}.c")]
    subprocess.run(words, check=True)
    return library


def said(printed: str, reported: str = "", folder: pathlib.Path = pathlib.Path()) -> tuple[str, str]:
    """What `dpv` says in a folder where the program prints and reports this: tools/views makes words of its documents."""
    sayings = Sayings()
    with chdir(folder):
        return sayings.of_text(printed), sayings.of_text(reported)


def said_bytes(printed: bytes, reported: bytes = b"") -> tuple[bytes, bytes]:
    """The same of bytes, which may be those of a capture."""
    how = "surrogateescape"
    out, err = said(printed.decode(errors=how), reported.decode(errors=how))
    return out.encode(errors=how), err.encode(errors=how)


def run_said(words: list[str], **how: Any) -> subprocess.CompletedProcess[Any]:
    """Runs a command as `subprocess.run` does, with what `dpv` says in place of what the program prints."""
    done = subprocess.run(words, **how)
    is_text = how.get("text", False)
    try:
        say, empty = (said, "") if is_text else (said_bytes, b"")
        done.stdout, done.stderr = say(done.stdout or empty, done.stderr or empty)
    except Refused as refused:
        done.returncode, done.stdout = refused.status, "" if is_text else b""
        done.stderr = refused.reported if is_text else refused.reported.encode()
    return done


def ran(program: str, folder: pathlib.Path, *words: str) -> tuple[int, str, str]:
    """How a command ends in a folder: its status, and what `dpv` says on both streams."""
    done = subprocess.run([program, *words], cwd=folder, capture_output=True, timeout=60)
    out, err = said_bytes(done.stdout, done.stderr)
    return done.returncode, out.decode(), err.decode()


def saying(program: str, folder: pathlib.Path) -> str:
    """A program that runs this one and says its documents in words, as `dpv` does, made in a folder."""
    made = folder / "saying"
    made.write_text(f"#!/bin/sh\nexec python3 -S '{TOP}/tools/views' '{program}' \"$@\"\n")
    made.chmod(0o755)
    return str(made)
