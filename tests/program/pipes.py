#!/usr/bin/env python3
"""Tests the built program dpv in pipes, and with captures and routes that the command line gives.

Usage: tests/program/pipes.py [PROGRAM]   (the built program; by default the one that ./dpv builds and runs; some seconds)
First, live runs with -U: a record is written to a pipe, and what the program makes of it is read, while the next record has not come. Then
`-` as the capture to read and to write: the capture alone is on standard output, the report on standard error, and a file that the shell
has opened keeps what it had. Then runs with --in, --out, --no-in and --no-out, each beside the run of a pipeline file that was edited to the
same, and runs of eight ports, of which some write elsewhere; and runs with --routes beside one of a pipeline file that has those routes. Then
words that give no captures or routes, ports and tables that the pipeline does not have, outputs that are a file which the run reads, and which
fault is the first. Prints a line for each case that failed, and a count; exits with 1 if a case failed.
"""
import os
import pathlib
import re
import select
import shutil
import struct
import subprocess
import sys
import time
from collections.abc import Callable
from typing import NamedTuple

import paths  # noqa: F401

from command import MULTICAST, STRIP, TOP, asked, new_folder, report_cases, said, saying
from model import captures
from program import written

READ = "the run reads this file, so it is not overwritten"
WRITTEN = "another port writes this file, too"
EMPTY = captures.written(False, [])
TABLE_WORDS = "TABLE a digit from 0 to 3, FILE a file with a route on each line"
IN_WORDS = "PORT a digit from 0 to 7, NAME a capture, or - for the standard stream"


def heads(records: list[captures.Record]) -> list[bytes]:
    """The bytes of a capture of these records: its header, and each record."""
    ends = [len(captures.written(False, records[:count])) for count in range(len(records) + 1)]
    whole = captures.written(False, records)
    return [whole[:24]] + [whole[first:last] for first, last in zip(ends, ends[1:])]


FED = [(second, 0, struct.pack(">I", second) * 15) for second in range(6)]
REPORT = "port 0 received {0} nobuf 0 oversize 0 sent {0} input whole\npool 0 free 64 of 64\ncalls {0} refused 0\n"


class Tried:
    """The program, and a folder with the files of examples/strip and examples/multicast."""

    def __init__(self, program: str, folder: pathlib.Path) -> None:
        self.program, self.folder = program, folder
        for name in (*STRIP.iterdir(), *MULTICAST.iterdir()):
            shutil.copy(name, folder)
        self.text = (MULTICAST / "multicast.toml").read_text()

    def run(self, *words: str, **how: object) -> subprocess.CompletedProcess[bytes]:
        """Runs the program with these words."""
        return subprocess.run([self.program, *words], cwd=self.folder, capture_output=True, timeout=60, **how)

    def by_shell(self, *words: str, suffix: str) -> subprocess.CompletedProcess[bytes]:
        """Runs the program with these words by the shell, with something after them."""
        return subprocess.run(["sh", "-c", f'"$@" {suffix}', "sh", self.program, *words], cwd=self.folder, capture_output=True, timeout=60)

    def data(self, name: str) -> bytes | None:
        """What a file has, if there is one of this name."""
        file = self.folder / name
        return file.read_bytes() if file.exists() else None


def came(case: str, got: object, wanted: object) -> bool:
    """Whether a case went as it should."""
    if got != wanted:
        print(f"pipes: {case}: expected {wanted!r}, came {got!r}")
    return got == wanted


# ---- live runs


def taken(pipe: int, count: int) -> bytes:
    """This number of bytes of a pipe, or those that come in ten seconds."""
    data, end = b"", time.monotonic() + 10
    while len(data) < count and select.select([pipe], [], [], max(0.0, end - time.monotonic()))[0]:
        more = os.read(pipe, count - len(data))
        if not more:
            break
        data += more
    return data


def strips(feed: int, output: int) -> tuple[list[bytes], list[bytes]]:
    """Feeds the header and then each record, and takes what is made of it before the next is fed. Returns what came, and what must come."""
    wanted = heads([(second, nano, data[14:]) for second, nano, data in FED])
    got = []
    for piece, made in zip(heads(FED), wanted):
        os.write(feed, piece)
        got.append(taken(output, len(made)))
    return got, wanted


def live_streams(words: tuple[str, ...]) -> Callable[[Tried], bool]:
    """A live run from standard input to standard output."""

    def case(tried: Tried) -> bool:
        edited = tried.text.split("[[pool]]")[0].replace("10368", "262144") + "[[pool]]\ncount = 64\ncache = 0\nroom = 2176\n"
        port = '[[port]]\npool = 0\nsegs = 1\nqueue = 32\nnode = "strip.dpv"\ncert = "strip.cert"\nin = "none/in"\nout = "none/out"\n'
        (tried.folder / "strip.toml").write_text(edited + port)
        pipes = {"stdin": subprocess.PIPE, "stdout": subprocess.PIPE, "stderr": subprocess.PIPE}
        with subprocess.Popen([tried.program, *words], cwd=tried.folder, bufsize=0, **pipes) as run:
            got, wanted = strips(run.stdin.fileno(), run.stdout.fileno())
            run.stdin.close()
            rest, reported = run.stdout.read(), run.stderr.read().decode()
            status = run.wait(timeout=60)
        return came(" ".join(words), (status, got, rest, reported), (0, wanted, b"", REPORT.format(len(FED))))

    return case


def live_files(tried: Tried) -> bool:
    """A live run from one named pipe to another; the report is on standard output."""
    for name in ("from", "to"):
        os.mkfifo(tried.folder / name)
    words = [tried.program, "one", "-U", "strip.dpv", "strip.cert", "from", "to"]
    with subprocess.Popen(words, cwd=tried.folder, stdout=subprocess.PIPE, stderr=subprocess.PIPE) as run:
        feed, output = os.open(tried.folder / "from", os.O_WRONLY), os.open(tried.folder / "to", os.O_RDONLY)
        got, wanted = strips(feed, output)
        os.close(feed)
        printed, reported = run.communicate(timeout=60)
        os.close(output)
    return came("named pipes", (run.returncode, got, printed.decode(), reported), (0, wanted, REPORT.format(len(FED)), b""))


def by_tools(tried: Tried) -> bool:
    """tcpdump before the program, and tcpdump or tshark after it, where they are installed, as in docs/users/pipes.md."""
    passed = True
    for tool, words in (("tcpdump", "tcpdump -n -t -r -"), ("tshark", "tshark -r -")):
        if shutil.which("tcpdump") is None or shutil.which(tool) is None:
            print(f"pipes: NOT READ by {tool}, which is not installed")
            continue
        live = '"$0" one -U strip.dpv strip.cert - - 2>/dev/null'
        line = f"tcpdump -r - -U -w - < in.pcap 2>/dev/null | {live} | {words} 2>/dev/null"
        run = subprocess.run(["sh", "-c", line, tried.program], cwd=tried.folder, capture_output=True, timeout=60, check=False)
        passed &= came(line, len(run.stdout.splitlines()), 7)
    return passed


def same_unbuffered(tried: Tried) -> bool:
    """A run with -U writes and prints the same as one without."""
    plain = tried.run("run", "multicast.toml")
    files = [tried.data(f"port{port}.pcap") for port in (0, 1)]
    again = tried.run("run", "multicast.toml", "--unbuffered")
    after = [tried.data(f"port{port}.pcap") for port in (0, 1)]
    return came("unbuffered", (again.returncode, again.stdout, again.stderr, after), (0, plain.stdout, plain.stderr, files))


def reported_by(run: "subprocess.CompletedProcess[bytes]") -> str:
    """What is said of what a run reported."""
    return said("", run.stderr.decode())[1]


def left_pipe(tried: Tried) -> bool:
    """Nobody reads standard output any more: the fault names it."""
    reader, writer = os.pipe()
    os.close(reader)
    words = [tried.program, "one", "-U", "strip.dpv", "strip.cert", "in.pcap", "-"]
    run = subprocess.run(words, cwd=tried.folder, stdout=writer, stderr=subprocess.PIPE, timeout=60, check=False)
    os.close(writer)
    reported = reported_by(run).splitlines()[-3:]
    return came("left pipe", (run.returncode, reported[0], reported[1]), (3, "fault: output 0", "  file: -"))


# ---- standard streams

ONE = ("one", "strip.dpv", "strip.cert")


def stripped(tried: Tried) -> tuple[bytes, bytes]:
    """What examples/strip makes of its capture, and the report."""
    run = tried.run(*ONE, "in.pcap", "plain.pcap")
    return tried.data("plain.pcap") or b"", run.stdout


def to_stdout(tried: Tried) -> bool:
    """The capture alone is on standard output, and the report on standard error."""
    capture, report = stripped(tried)
    document = tried.run(*ONE, "in.pcap", "plain.pcap", "--json").stdout
    totals = b"progress: port 0: 8 records read in all\n"
    runs = [tried.run(*ONE, "in.pcap", "-", *more) for more in ([], ["--progress"], ["--progress", "--json"])]
    got = [(run.returncode, run.stdout, run.stderr) for run in runs]
    return came("to -", got, [(0, capture, said) for said in (report, totals + report, totals + document)])


def from_stdin(tried: Tried) -> bool:
    """The capture comes from standard input, also from a file; the report is on standard output."""
    capture, report = stripped(tried)
    given = (tried.folder / "in.pcap").read_bytes()
    runs = [tried.run(*ONE, "-", "made.pcap", input=given), tried.by_shell(*ONE, "-", "made.pcap", suffix="< in.pcap")]
    got = [(run.returncode, run.stdout, run.stderr) for run in runs]
    return came("from -", (got, tried.data("made.pcap")), ([(0, report, b"")] * 2, capture))


def through(tried: Tried) -> bool:
    """Both, with counts: they are on standard error, too."""
    capture, _report = stripped(tried)
    plain = tried.run(*ONE, "in.pcap", "plain.pcap", "--counts")
    run = tried.run(*ONE, "-", "-", "--counts", input=(tried.folder / "in.pcap").read_bytes())
    return came("from - to -", (run.returncode, run.stdout, run.stderr), (0, capture, plain.stdout))


def refused(tried: Tried) -> bool:
    """Where a capture would go to standard output, a program that is refused, a fault and a document are on standard error, and nothing else comes."""
    (tried.folder / "bad.dpv").write_text("adj p0,14\nfree p0\nexit\n")
    (tried.folder / "bad.toml").write_text(tried.text.replace('"multicast.dpv"', '"bad.dpv"').replace('cert = "multicast.cert"\n', ""))
    commands = (("filter", "bad.dpv", "in.pcap"), ("one", "bad.dpv", "strip.cert", "in.pcap"), (*ONE, "none.pcap"))
    pairs = [((*words, "made.pcap"), (*words, "-")) for words in commands] + [(("run", "bad.toml"), ("run", "bad.toml", "--out", "0=-"))]
    passed = []
    for words, piped in pairs:
        for more in ((), ("--json",)):
            plain, run = tried.run(*words, *more), tried.run(*piped, *more)
            wanted = (plain.returncode, b"", plain.stdout + plain.stderr)
            passed.append(came(f"{' '.join(piped)} {' '.join(more)}", (run.returncode, run.stdout, run.stderr), wanted))
    return all(passed)


def kept(tried: Tried) -> bool:
    """A file that the shell opened as standard output keeps what it had, or has the capture alone."""
    capture, report = stripped(tried)
    old = b"what was there before\n"
    (tried.folder / "old").write_bytes(old)
    (tried.folder / "emptied").write_bytes(old)
    more = tried.by_shell(*ONE, "in.pcap", "-", suffix=">> old")
    anew = tried.by_shell(*ONE, "in.pcap", "-", suffix="> emptied")
    got = ([(run.returncode, run.stdout, run.stderr) for run in (more, anew)], tried.data("old"), tried.data("emptied"))
    return came(">> and >", got, ([(0, b"", report)] * 2, old + capture, capture))


def part_of_a_file(tried: Tried) -> bool:
    """What is before and after the capture in the same standard output is kept."""
    capture, _report = stripped(tried)
    words = 'echo before; "$@"; echo after'
    run = subprocess.run(["sh", "-c", f"{{ {words}; }} > all", "sh", tried.program, *ONE, "in.pcap", "-"], cwd=tried.folder, capture_output=True, timeout=60, check=False)
    return came("in the middle", (run.returncode, tried.data("all")), (0, b"before\n" + capture + b"after\n"))


def closed(tried: Tried) -> bool:
    """Standard input that is closed has no header; standard output that is closed takes nothing."""
    empty = tried.by_shell(*ONE, "-", "made.pcap", suffix="<&-")
    full = tried.by_shell(*ONE, "in.pcap", "-", suffix=">&-")
    got = [(run.returncode, [line for line in reported_by(run).splitlines() if line.startswith(("fault", "  file"))]) for run in (empty, full)]
    return came("closed streams", got, [(3, ["fault: input 0 cause 6", "  file: -"]), (3, ["fault: output 0", "  file: -"])])


def stream_clash(words: tuple[str, ...], suffix: str, output: str, other: str) -> Callable[[Tried], bool]:
    """A standard stream that is a file of the run: it is refused with both names, and the file is kept."""

    def case(tried: Tried) -> bool:
        held = tried.data("in.pcap")
        run = tried.by_shell(*words, suffix=suffix)
        reported = f"fault: file {output}\n  file: {other}\n  because: {READ}\n"
        return came(f"{words} {suffix}", (run.returncode, run.stdout, reported_by(run), tried.data("in.pcap")), (3, b"", reported, held))

    return case


def named_dash(tried: Tried) -> bool:
    """In a pipeline file `-` is the name of a file."""
    shutil.copy(tried.folder / "in0.pcap", tried.folder / "-")
    (tried.folder / "dash.toml").write_text(tried.text.replace('"in0.pcap"', '"-"'))
    plain, run = (tried.run("run", name, stdin=subprocess.DEVNULL) for name in ("multicast.toml", "dash.toml"))
    return came("a file -", (run.returncode, run.stdout, run.stderr), (0, plain.stdout, plain.stderr))


# ---- captures that are given


class Given(NamedTuple):
    """Options, what they replace in the pipeline file, and the files that are then written."""

    words: list[str]
    edits: list[tuple[str, str]]
    files: list[str]


IN0, IN1, OUT0, OUT1 = 'in = "in0.pcap"', 'in = "in1.pcap"', 'out = "port0.pcap"', 'out = "port1.pcap"'
GIVEN = [
    Given(["--in", "0=in1.pcap"], [(IN0, IN1)], ["port0.pcap", "port1.pcap"]),
    Given(["--in", "1=in0.pcap"], [(IN1, IN0)], ["port0.pcap", "port1.pcap"]),
    Given(["--in=1=in0.pcap", "--in=0=in1.pcap"], [(IN0, 'in = "?"'), (IN1, IN0), ('in = "?"', IN1)], ["port0.pcap", "port1.pcap"]),
    Given(["--out", "0=a.pcap"], [(OUT0, 'out = "a.pcap"')], ["a.pcap", "port1.pcap"]),
    Given(["--out", "1=a=b.pcap"], [(OUT1, 'out = "a=b.pcap"')], ["port0.pcap", "a=b.pcap"]),
    Given(["--out", "1=a.pcap", "--out", "0=b.pcap"], [(OUT0, 'out = "b.pcap"'), (OUT1, 'out = "a.pcap"')], ["a.pcap", "b.pcap"]),
    Given(["--no-in", "0"], [(IN0, 'in = "empty.pcap"')], ["port0.pcap", "port1.pcap"]),
    Given(["--no-in", "1"], [(IN1, 'in = "empty.pcap"')], ["port0.pcap", "port1.pcap"]),
    Given(["--no-in", "1", "--no-in", "0"], [(IN0, 'in = "empty.pcap"'), (IN1, 'in = "empty.pcap"')], ["port0.pcap", "port1.pcap"]),
    Given(["--no-out", "0"], [(OUT0, 'out = "/dev/null"')], ["port1.pcap"]),
    Given(["--no-out", "1"], [(OUT1, 'out = "/dev/null"')], ["port0.pcap"]),
    Given(["--no-out", "0", "--no-out", "1"], [(OUT0, 'out = "/dev/null"'), (OUT1, 'out = "/dev/null"')], []),
    Given(["--in", "1=in0.pcap", "--no-in", "0", "--out", "1=in1.pcap"], [(IN0, 'in = "empty.pcap"'), (IN1, IN0), (OUT1, 'out = "in1.pcap"')], ["port0.pcap", "in1.pcap"]),
    Given(["--no-in", "0", "--out", "1=in0.pcap"], [(IN0, 'in = "empty.pcap"'), (OUT1, 'out = "in0.pcap"')], ["port0.pcap", "in0.pcap"]),
    Given(["--in", "0=nano.pcap"], [(IN0, 'in = "nano.pcap"')], ["port0.pcap", "port1.pcap"]),
    Given(["--no-in", "0", "--in", "1=nano.pcap"], [(IN0, 'in = "empty.pcap"'), (IN1, 'in = "nano.pcap"')], ["port0.pcap", "port1.pcap"]),
    Given(["--counts", "--no-out", "0", "--refuse", "2"], [(OUT0, 'out = "/dev/null"')], ["port1.pcap"]),
]


def as_edited(given: Given) -> Callable[[pathlib.Path, str], bool]:
    """Whether options do what an edited pipeline does: the same status, report and captures, and no other file changes."""

    def made(folder: pathlib.Path, program: str, text: str, words: list[str]) -> tuple[int, bytes, bytes, dict[str, bytes]]:
        folder.mkdir()
        tried = Tried(program, folder)
        (folder / "empty.pcap").write_bytes(EMPTY)
        (folder / "nano.pcap").write_bytes(captures.written(True, captures.read((folder / "in1.pcap").read_bytes()).records))
        (folder / "case.toml").write_text(text)
        # (a port that is given nowhere must not make its file)
        own = [word for word in ("--counts", "--refuse", "2") if word in given.words] if not words else words
        run = tried.run("run", "case.toml", *own)
        held = {file.name: file.read_bytes() for file in folder.iterdir() if file.name != "case.toml"}
        return run.returncode, run.stdout, run.stderr, held

    def case(folder: pathlib.Path, program: str) -> bool:
        text = edited = (MULTICAST / "multicast.toml").read_text()
        for old, new in given.edits:
            assert old in edited
            edited = edited.replace(old, new, 1)
        wanted, got = made(folder / "edited", program, edited, []), made(folder / "given", program, text, given.words)
        written = all(name in got[3] for name in given.files)
        return came(" ".join(given.words), got, wanted) and came("written", (got[0], written), (0, True))

    return case


def given_streams(tried: Tried) -> bool:
    """A port reads standard input, and another writes standard output: the report is on standard error."""
    plain = tried.run("run", "multicast.toml")
    wanted = (tried.data("port0.pcap"), tried.data("port1.pcap"))
    for name in ("port0.pcap", "port1.pcap"):
        (tried.folder / name).unlink()
    run = tried.run("run", "multicast.toml", "--out", "1=-", "--in", "0=-", input=tried.data("in0.pcap"))
    got = (run.returncode, run.stderr, tried.data("port0.pcap"), run.stdout, tried.data("port1.pcap"))
    return came("given streams", got, (0, plain.stdout, *wanted, None))


def not_opened(tried: Tried) -> bool:
    """What the pipeline names is not opened where the command line gives something else: it need not exist."""
    text = tried.text.replace("in0.pcap", "none/in0.pcap").replace("port1.pcap", "none/port1.pcap").replace("port0.pcap", "in1.pcap")
    (tried.folder / "none.toml").write_text(text)
    run = tried.run("run", "none.toml", "--no-in", "0", "--no-out", "1", "--out", "0=new.pcap")
    return came("not opened", (run.returncode, run.stderr, tried.data("new.pcap")), (0, b"", EMPTY))


# Words of the run of a pipeline of eight ports, each of which reads one record and writes a file of its own; and the ports that write elsewhere, with the
# file in which the record then is, - for standard output, and None for nowhere.
PLACED: list[tuple[list[str], dict[int, str | None]]] = [
    ([], {}),
    (["--out", "0=in.pcap"], {0: "in.pcap"}), (["--out", "7=a=b"], {7: "a=b"}), (["--out", "3=="], {3: "="}), (["--out", "1=-"], {1: "-"}), (["--out", "1=--"], {1: "--"}),
    (["--out", "2= -"], {2: " -"}), (["--out", "4=/dev/null"], {4: None}), (["--out", "5=\u00e9"], {5: "\u00e9"}),
    (["--no-out", "0"], {0: None}), (["--no-out", "3"], {3: None}), (["--no-out", "7"], {7: None}),
    (["--out", "1=a", "--out", "0=b", "--no-out", "7", "--no-out", "2"], {1: "a", 0: "b", 7: None, 2: None}),
    (["--out", "1=-", "--out", "0=/dev/stdin", "--no-out", "2", "--no-out", "3"], {1: "-", 0: "stdin", 2: None, 3: None}),
]
# The words of such runs that end with a fault, and what is reported.
UNPLACED = [
    (["--in", "4=/dev/null"], "fault: input 4 cause 6\n  file: /dev/null\n  because: fewer than the 24 bytes of a header\n"),
    (["--out", "1=a", "--out", "0=a", "--no-out", "7", "--no-out", "2"], f"fault: file a\n  file: a\n  because: {WRITTEN}\n"),
]
EIGHT = "region = 262144\n[[pool]]\ncount = 64\ncache = 0\nroom = 2176\n" + "".join(
    f'[[port]]\npool = 0\nsegs = 1\nqueue = 4\nnode = "back.dpv"\nin = "eight{port}.pcap"\nout = "own{port}"\n' for port in range(8))


def placed(tried: Tried) -> bool:
    """Each word gives its port the file, stream or nothing that it names, and no other port anything."""
    records = [captures.written(False, [(port, 0, bytes([port]) * 20)]) for port in range(8)]
    texts = {"eight.toml": EIGHT.encode(), "back.dpv": b"tx p0,r0,d\nexit\nd: free p0\nexit\n", **{f"eight{port}.pcap": data for port, data in enumerate(records)}}
    for name, data in texts.items():
        (tried.folder / name).write_bytes(data)
    passed = True
    for words, ports in PLACED:
        with open(tried.folder / "stdin", "w+b") as given:
            run = tried.run("run", "eight.toml", *words, stdin=given)
        held = {file.name: file.read_bytes() for file in tried.folder.iterdir() if file.name not in texts} | {"-": run.stdout}
        got = {port: name for name, data in held.items() for port, record in enumerate(records) if data == record}
        wanted = {port: name for port, name in ({port: f"own{port}" for port in range(8)} | ports).items() if name is not None}
        passed &= came(" ".join(words), (run.returncode, got), (0, wanted))
        for name in wanted.values():
            (tried.folder / name).unlink(missing_ok=True)
    for words, said in UNPLACED:
        run = tried.run("run", "eight.toml", *words)
        passed &= came(" ".join(words), (run.returncode, run.stderr.decode()), (3, said))
    return passed


# ---- routes that are given

ROUTER = TOP / "examples/router"
FIRST = "10.0.0.0/8 1", "10.1.0.0/16 2"
INLINE = f'table = [ # ]\n  {{ rules = 16, groups = 4, "rout\\u0065s" = ["{FIRST[0]}", """{FIRST[1]}"""] }}, # ]\n]\n'
# What stands for the key routes of examples/router, whose routes begin with these two; and the words that give the table the others.
ROUTED = [
    ("routes = []", ["0=first.txt", "0=rest.txt"]),
    (f'routes = [ # ] "\n  "{FIRST[0]}", # ]\n  \'\'\'{FIRST[1]}\'\'\',\n] # ]', ["0=rest.txt"]),
    (f'"routes"=["{FIRST[0]}",\'{FIRST[1]}\']', ["0=rest.txt"]),
    ('routes = ["10.1.0.0/16 7", "10.0.0.0/8 7"]', ["0=first.txt", "0=rest.txt"]),
    (None, ["0=rest.txt"]),
]


def router_text(routes: str | None) -> str:
    """The pipeline of examples/router with this in place of the key routes; or with an inline table of the first two."""
    text = (ROUTER / "router.toml").read_text()
    begin, end = text.index("routes = ["), text.index("]\n\n[[port]]") + 1
    if routes is None:
        top = text.index("[[pool]]")
        return text[:top] + INLINE + text[top:text.index("[[table]]")] + text[end:]
    return text[:begin] + routes + text[end:]


def routed(tried: Tried, name: str, words: list[str]) -> list[tuple[int, bytes, bytes]]:
    """What `run`, `check` and `trace` print of a pipeline with these words, and the captures of the run."""
    given = [word for it in words for word in ("--routes", it)]
    runs = [tried.run(*command, name, *given) for command in (["run"], ["check", "--cost"], ["trace", "--json"])]
    made = [tried.folder / f"out{port}.pcap" for port in range(3)]
    written = [(0, it.read_bytes(), b"") for it in made]
    for it in made:
        it.unlink()
    return [(run.returncode, run.stdout, run.stderr) for run in runs] + written


def given_routes(tried: Tried) -> bool:
    """Routes from files are as good as those of the pipeline file, in each form that the key routes may have; and a run keeps their files."""
    for it in ROUTER.iterdir():
        shutil.copy(it, tried.folder)
    text = (ROUTER / "router.toml").read_text()
    rest = re.findall(r'"(\d.*?/.*?)"', text)[len(FIRST):]
    (tried.folder / "first.txt").write_text("# the first\n\n" + "".join(f"{route}\n" for route in FIRST))
    (tried.folder / "rest.txt").write_bytes("\r\n".join(rest).encode())
    wanted, passed = routed(tried, "router.toml", []), len(rest) == 4
    for routes, words in ROUTED:
        (tried.folder / "case.toml").write_text(router_text(routes))
        passed &= came(f"{routes} {words}", routed(tried, "case.toml", words), wanted)
    run = tried.run("run", "router.toml", "--routes", "0=rest.txt", "--out", "1=./rest.txt")
    reported = f"fault: file ./rest.txt\n  file: rest.txt\n  because: {READ}\n"
    return came("routes kept", (run.returncode, run.stdout, reported_by(run)), (3, b"", reported)) and passed


# ---- faults


class Fault(NamedTuple):
    """Words after `dpv run case.toml`, the status, and what is printed on standard error."""

    words: list[str]
    status: int
    reported: str


def usage(text: str) -> str:
    """A line on wrong words."""
    return f"error: {text}\n"


def forms() -> list[Fault]:
    """Words that do not have their form."""
    named = ["", "0", "=", "0=", "=a", "8=a", "9=a", "00=a", "x=a", "-1=a", " 0=a", "port0=a", "0 =a", "0:a", "٠=a", "10=a", "/=a", ":=a"]
    bare = ["", "8", "9", "00", "x", "port0", "0=", "0=a", " 0", "10", "/", ":"]

    def given(option: str, word: str) -> list[str]:
        return [f"{option}={word}"] if word else [option, word]

    faults = [Fault(given(option, word), 2, usage(f"'{word}' is not PORT=NAME: {IN_WORDS}")) for option in ("--in", "--out") for word in named]
    faults += [Fault(given(option, word), 2, usage(f"'{word}' is not a port: a digit from 0 to 7")) for option in ("--no-in", "--no-out") for word in bare]
    tables = ["0", "=", "0=", "=a", "4=a", "9=a", "00=a", "x=a", "-1=a", " 0=a", "table0=a", "0 =a", "0:a", "٠=a", "10=a", "/=a", "[[table]]"]
    return faults + [Fault([f"--routes={word}"], 2, usage(f"'{word}' is not TABLE=FILE: {TABLE_WORDS}")) for word in tables]


def twice() -> list[Fault]:
    """Two words for a port, and a stream for two."""
    faults = []
    for way, kind, stream in (("in", "input", "read standard input"), ("out", "output", "write standard output")):
        one = f"one --{way} or --no-{way} for each port"
        pairs = [
            ([f"--{way}", "0=a", f"--{way}", "0=b"], "0=b", 0, "0=a"), ([f"--{way}", "1=a", f"--{way}", "0=b", f"--{way}", "1=a"], "1=a", 1, "1=a"),
            ([f"--{way}", "7=a", f"--no-{way}", "7"], "7", 7, "7=a"), ([f"--no-{way}", "0", f"--{way}", "0=a"], "0", 0, "0=a"),
            ([f"--no-{way}", "3", f"--no-{way}", "3"], "3", 3, "3"), ([f"--{way}", "0=-", f"--{way}", "0=-"], "0=-", 0, "0=-"),
        ]
        faults += [Fault(words, 2, usage(f"'{word}' gives port {port} another {kind} than '{other}': {one}")) for words, word, port, other in pairs]
        faults.append(Fault([f"--{way}", "0=-", f"--{way}", "1=-"], 2, usage(f"'0=-' and '1=-' both {stream}: one port alone can")))
        faults.append(Fault([f"--{way}=1=-", f"--{way}=2=x", f"--{way}=0=-"], 2, usage(f"'1=-' and '0=-' both {stream}: one port alone can")))
    # Of several words at fault the first counts; those of --no-out come after all of --out.
    one, form = "one --out or --no-out for each port", f"'8=a' is not PORT=NAME: {IN_WORDS}"
    words: list[tuple[list[str], list[str], str]] = [
        (["1=a", "0=b", "1=a"], ["x"], f"'1=a' gives port 1 another output than '1=a': {one}"), (["0=b", "8=a", "0=c"], [], form),
        (["0=b"], ["1", "0"], f"'0' gives port 0 another output than '0=b': {one}"), ([], ["9"], "'9' is not a port: a digit from 0 to 7"),
        (["3=-", "4=-"], [], "'3=-' and '4=-' both write standard output: one port alone can"),
        (["2=a", "3=-", "2=-"], [], f"'2=-' gives port 2 another output than '2=a': {one}"),
    ]
    return faults + [Fault([it for word in named for it in ("--out", word)] + [it for word in bare for it in ("--no-out", word)], 2, usage(said)) for named, bare, said in words]


def missing() -> list[Fault]:
    """Ports that the pipeline does not have."""
    line = "the pipeline has no port {}"
    given = [["--in", "2=a"], ["--no-in", "2"], ["--out", "2=a"], ["--no-out", "2"], ["--out", "2=a", "--no-out", "7"], ["--in", "2=-"]]
    faults = [Fault(words, 2, usage(line.format(2))) for words in given]
    return faults + [Fault(["--out", "2=a", "--no-in", "7"], 2, usage(line.format(7)))]


def clashes() -> list[Fault]:
    """Outputs that are a file that the run reads, or another port's output, under the given names."""

    def clash(output: str, other: str, why: str = READ) -> str:
        return f"fault: file {output}\n  file: {other}\n  because: {why}\n"

    return [
        Fault(["--out", "0=in0.pcap"], 3, clash("in0.pcap", "in0.pcap")),
        Fault(["--out", "1=./in1.pcap"], 3, clash("./in1.pcap", "in1.pcap")),
        Fault(["--out", "0=case.toml"], 3, clash("case.toml", "case.toml")),
        Fault(["--out", "1=forward.dpv"], 3, clash("forward.dpv", "forward.dpv")),
        Fault(["--out", "1=forward.cert"], 3, clash("forward.cert", "forward.cert")),
        Fault(["--in", "0=in.pcap", "--out", "1=./in.pcap"], 3, clash("./in.pcap", "in.pcap")),
        Fault(["--out", "1=port0.pcap"], 3, clash("port0.pcap", "port0.pcap", WRITTEN)),
        Fault(["--out", "0=new.pcap", "--out", "1=./new.pcap"], 3, clash("./new.pcap", "new.pcap", WRITTEN)),
        Fault(["--out", "0=port1.pcap"], 3, clash("port1.pcap", "port1.pcap", WRITTEN)),
    ]


def first_faults() -> list[Fault]:
    """Each fault together with later ones: the first is reported."""
    none = "fault: file none\n  because: No such file or directory (os error 2)\n"
    return [
        Fault(["--refuse", "x", "--in", "y", "--out", "9"], 2, usage("'x' is not a list: numbers from 1 on, each above the one before it, joined by commas")),
        Fault(["--in", "y", "--no-in", "x", "--out", "9"], 2, usage(f"'y' is not PORT=NAME: {IN_WORDS}")),
        Fault(["--no-in", "x", "--out", "9"], 2, usage("'x' is not a port: a digit from 0 to 7")),
        Fault(["--out", "9", "--no-out", "x"], 2, usage(f"'9' is not PORT=NAME: {IN_WORDS}")),
        Fault(["--routes", "y", "--out", "9"], 2, usage(f"'9' is not PORT=NAME: {IN_WORDS}")),
        Fault(["--routes", "0=none", "--routes", "y"], 2, usage(f"'y' is not TABLE=FILE: {TABLE_WORDS}")),
        Fault(["--routes", "3=none", "--in", "7=none"], 3, none),
        Fault(["--routes", "3=/dev/null", "--in", "7=none"], 2, usage("the pipeline has no table 3: its tables are the [[table]] of its file, counted from 0")),
        Fault(["--in", "7=none", "--in", "0=none"], 2, usage("the pipeline has no port 7")),
        Fault(["--out", "0=in0.pcap", "--in", "1=none"], 3, none),
        Fault(["--out", "0=none/none", "--in", "0=none", "--in", "1=none/none"], 3, none),
        Fault(["--out", "0=none/none", "--out", "1=in1.pcap"], 3, f"fault: file in1.pcap\n  file: in1.pcap\n  because: {READ}\n"),
        Fault(["--out", "1=none/none"], 3, none.replace("none\n", "none/none\n", 1)),
        Fault(["--in", "0=forward.dpv"], 3, "fault: input 0 cause 1\n  file: forward.dpv\n  because: no magic number of a pcap file\n"),
        Fault(["--out", "1=/dev/full"], 3, "fault: output 1\n  file: /dev/full\n  because: No space left on device (os error 28)\n"),
    ]


def is_reported(tried: Tried, fault: Fault) -> bool:
    """Whether a run ends with this fault, and no file changes or is made."""
    (tried.folder / "case.toml").write_text(tried.text)
    before = {file.name: file.read_bytes() for file in tried.folder.iterdir()}
    run = tried.run("run", "case.toml", *fault.words, stdin=subprocess.DEVNULL)
    after = {file.name: file.read_bytes() for file in tried.folder.iterdir()}
    report = run.stdout if "input" not in fault.reported and "output" not in fault.reported[:14] else b""
    kept_all = all(after.get(name) == data for name, data in before.items())
    for name in set(after) - set(before):
        (tried.folder / name).unlink()
    return came(" ".join(fault.words), (run.returncode, report, reported_by(run), kept_all), (fault.status, b"", fault.reported, True))


def not_loaded(tried: Tried) -> bool:
    """A pipeline that is not loaded is reported before a port that it does not have, but after the words."""
    (tried.folder / "bad.toml").write_text(tried.text.replace("queue", "quee"))
    port = tried.run("run", "bad.toml", "--in", "7=none")
    words = tried.run("run", "none.toml", "--in", "8=none")
    file = tried.run("run", "none.toml", "--in", "7=none")
    got = [(run.returncode, run.stderr.decode().splitlines()[0]) for run in (port, words, file)]
    return came("not loaded", got, [(3, "fault: pipeline 2 BadKey port 0"), (2, f"error: '8=none' is not PORT=NAME: {IN_WORDS}"), (3, "fault: file none.toml")])


TRIED: list[Callable[[Tried], bool]] = [
    live_streams(("one", "-U", "strip.dpv", "strip.cert", "-", "-")),
    live_streams(("run", "strip.toml", "--unbuffered", "--in", "0=-", "--out", "0=-")),
    live_files, by_tools, same_unbuffered, left_pipe, to_stdout, from_stdin, through, refused, kept, part_of_a_file, closed,
    stream_clash((*ONE, "in.pcap", "-"), ">> in.pcap", "-", "in.pcap"),
    stream_clash((*ONE, "-", "in.pcap"), "< in.pcap", "in.pcap", "-"),
    stream_clash((*ONE, "-", "-"), "< in.pcap >> in.pcap", "-", "-"),
    named_dash, given_streams, not_opened, placed, given_routes, not_loaded,
]


# Words of a command that writes a capture, and whether it goes to standard output.
WRITES = [
    ("run a.toml --out 0=-", True), ("run --out=0=- a.toml", True), ("run a.toml --out 0=a --out 1=-", True), ("run a.toml --no-in 1 -U --out 7=-", True),
    ("run a.toml --in 0=-", False), ("run a.toml --out 0=a=-", False), ("run a.toml --in --out --out 0=-", True), ("run -- a.toml --out=0=-", False),
    ("run a.toml --refuse --out=0=-", False), ("run --in=0=- a.toml", False), ("run a.toml --routes 0=- --out 0=b", False), ("run 0=-", False),
    ("one a b c -", True), ("one a b - c", False), ("one - - - c", False), ("one --json a b c -U - --counts", True), ("one -- a b c -", True),
    ("one a -- b c -", True), ("one a b c", False), ("one a b c d -", False), ("filter a b -", True), ("filter a - b", False), ("filter - - -", True),
    ("filter --name - a b c", False), ("filter --name=- a b -", True), ("filter --room 200 a - b", False), ("filter a b --segs 2 -", True),
    ("filter -- --name a -", True), ("filter --name -- a b -", True), ("filter a b c --name -", False), ("check a.toml -", False), ("", False),
]


def knows_stdout() -> list[bool]:
    """Whether dpv knows by the words whether a capture goes to standard output."""
    return [came(words, "-" in written(words.split()), wanted) for words, wanted in WRITES]


def passed_by(program: str) -> list[bool]:
    """Whether each case went as it should."""
    passed = knows_stdout()
    for case in TRIED:
        with new_folder() as folder:
            passed.append(case(Tried(program, folder)))
    for given in GIVEN:
        with new_folder() as folder:
            passed.append(as_edited(given)(folder, program))
    with new_folder() as folder:
        tried = Tried(program, folder)
        passed += [is_reported(tried, fault) for fault in forms() + twice() + missing() + clashes() + first_faults()]
    return passed


def main() -> int:
    """All of it."""
    with new_folder() as kept:
        return report_cases("pipes", passed_by(saying(asked(), kept)))


if __name__ == "__main__":
    sys.exit(main())
