#!/usr/bin/env python3
"""Runs the gate's tests, or some groups of them: texts, then proofs, then all others side by side. It starts nothing more once one of texts or
proofs failed; another that fails runs once more by itself, when all have ended, and the gate fails if it fails again.

Usage: tests/run.py [--minutes N] [GROUP ..]
       tests/run.py --list

GROUP is one of texts, proofs, bodies, program, tools, library and random; by default all of them. Groups from `bodies` on use what `rt ci`
builds; wrong bodies are tried beside it, too, once the libraries below a crate are proved. Scripts run side by side, one for each processor
and those that take longest first. A line says when one begins; what it prints stands together, at its end. The random cases take N minutes
of processor time (8), with a seed from the commit; a failure names the command that repeats it, and what a script that failed printed last
stands at the end, too. There each missing tool is named with what was skipped, and what all took. Below the lines of `rt ci` stand the seconds
of processor time that each crate took. --list prints the table of docs/developing/testing.md.
"""
import argparse
import collections
import concurrent.futures
import contextlib
import dataclasses
import importlib.util
import os
import pathlib
import re
import shlex
import shutil
import signal
import subprocess
import sys
import tempfile
import threading
import time
from collections.abc import Iterator

TOP = pathlib.Path(__file__).resolve().parent.parent
PROGRAM = "crates/dpv/out/dpv"
PAGE = TOP / "docs/developing/testing.md"
GROUPS = ("texts", "proofs", "bodies", "program", "tools", "library", "random")
PROCESSORS = len(os.sched_getaffinity(0))
# How many lines of a script that failed are printed once more at the end, below those of the scripts that ended after it.
LAST = 40
BEGUN = time.monotonic()


@dataclasses.dataclass(frozen=True)
class Step:
    """A script of the gate. `share` is its part of the time for random cases, and `seconds` is about how long it takes beside those: of the
    scripts that run side by side, the longest begin. `after` is a script that it waits for, since that one builds what it uses."""

    group: str
    script: str
    checks: str
    words: tuple[str, ...] = ()
    share: float = 0.0
    seconds: int = 5
    after: str = ""


@dataclasses.dataclass(frozen=True)
class Ended:
    """How a step ended: its script and status, what it took, in seconds by the clock and of processor time, and the last lines that it printed."""

    script: str
    status: int
    clock: float
    used: float
    last: tuple[str, ...]


ON_PROGRAM = (PROGRAM,)
STEPS = (
    Step("texts", "tests/texts.py", "in some 12 seconds, what needs no proof: the layout of code, definitions and proofs, that each wrong body can be made, and that each link of a page leads somewhere"),
    Step("texts", "tests/proofs/believed.py", "that docs/proofs/definitions.md has the right count of definitions for each promise"),
    Step("proofs", "rt ci", "every proof (the toolchain's release 13f keeps those of an earlier run on the same machine, as far as nothing that they read has changed), that the prover refuses the wrong bodies under `crates/*/must-fail`, every test, and the program as two compilers build it"),
    Step("bodies", "tests/planted.py", "that the prover refuses wrong bodies (edits that make a function wrong; see below) under `crates/*/planted`: all of `planted/always`, and of the others those whose turn it is and those of changed functions, at most 70", ("--gate", "--jobs", str(max(2, PROCESSORS - 1))), seconds=300),
    Step("program", "tests/program/examples.py", "that each example writes the expected captures, to the byte, with its node programs and with those that `dpv build` makes from its .pkt files", ON_PROGRAM),
    Step("program", "tests/program/refusals.py", "that each program of examples/refused is explained as in docs/users/refusals.md, and its cure accepted", ON_PROGRAM),
    Step("program", "tests/program/judged.py", "what `explain`, `show`, `infer-one`, `one`, `check --cost` and `trace` print about programs that are accepted, refused or faulty, against texts that were worked out by hand", ON_PROGRAM),
    Step("program", "tests/program/verdicts.py", "what is answered about texts, programs and certificates, against tables of answers that were worked out by hand: their faults, the rules by which programs are refused, the certificates that are inferred, which facts entail which, and what is known after each instruction", ON_PROGRAM),
    Step("program", "tests/program/engines.py", "what runs send and report, against scripts that were written by hand: for each form of instruction, each limit and each refused call, in a region that is exactly large enough; and writers that fail at each byte", ON_PROGRAM, seconds=8),
    Step("program", "tests/program/tour.py", "that the commands of docs/users/tour.md print what it shows, and that the examples of the manual page run", ON_PROGRAM),
    Step("program", "tests/program/json_output.py", "that the documents of `--json` have the numbers of the text report and of the text counts, and that their sums agree; that a program of pkt is counted by the lines of its source; refusals, faults and traces as documents; and that no run takes more instructions than `check --cost` says", ON_PROGRAM),
    Step("program", "tests/program/pictures.py", "the pictures of all examples and their programs, with counts, against the sources; that graphviz draws them, where it is installed; those of a small pipeline and of two programs, line by line; and the sizes of all examples against a formula", ON_PROGRAM),
    Step("program", "tests/program/compiled.py", "that `dpv compile` prints the module of a program of all instructions as it was read line by line, to the byte; for all examples the instructions that `tests/model` reads; and what it prints where there is no module", ON_PROGRAM),
    Step("program", "tests/program/loaded.py", "why pipeline files are refused, which files their nodes have, and what the others hold, up to the greatest number of each part", ON_PROGRAM),
    Step("program", "tests/program/small_runs.py", "runs over a few records, also onto disks that are full: captures, reports, documents, counts and places, against those that were worked out by hand", ON_PROGRAM),
    Step("program", "tests/program/faults.py", "faults of the command line, files, pipelines and captures, each together with every fault that is tested later", ON_PROGRAM),
    Step("program", "tests/program/outputs.py", "that no run overwrites a file it should not: outputs that are another file of the run, and each cause for which a run ends before its first header", ON_PROGRAM),
    Step("program", "tests/program/pipes.py", "live runs in pipes, a record at a time; `-` for standard input and output, which keep what they had; captures that the command line gives, against edited pipeline files; each wrong word, and which fault is first", ON_PROGRAM),
    Step("program", "tests/program/launched.py", "`dpv filter` with programs of pkt, which the launcher compiles: that no output is a file that the compiler reads, and that nothing is left of a run, even if a signal ends it; and that `./dpv` says so if the toolchain is missing", ON_PROGRAM),
    Step("program", "tests/program/mistakes.py", "60 one-letter mistakes in the examples: each message names the file and the line, and at least 50 of them the word", ON_PROGRAM),
    Step("program", "tests/program/messages.py", "the lines after a fault or a refused certificate, and those of `--progress`", ON_PROGRAM),
    Step("program", "tests/program/helps.py", "what is said to help with each kind of mistake in programs and each key of pipeline files, and of packets that a run lost, in notes, places, documents and traces; and counts by lines and by names", ON_PROGRAM, seconds=30),
    Step("program", "tests/program/cures.py", "that each command of editcap that a message names makes a capture of Ethernet frames with the same packets; skipped without editcap", ON_PROGRAM),
    Step("program", "tests/program/scripts.py", "heap scripts: what they print, and each kind of line that is no command", ON_PROGRAM),
    Step("program", "tests/program/causes.py", "each cause for which a pipeline is refused, at each place, with each of its numbers", ON_PROGRAM, seconds=27),
    Step("program", "tests/program/allocations.py", "runs with each allocation refused in turn, a full disk, and a large region, which must be returned", ON_PROGRAM),
    Step("program", "tests/program/copies.py", "captures that are copied: both byte orders and units, each fault, a reader and a writer that fail after each byte, few bytes a call, records across the end of a buffer, and which records are counted; also a capture of the most records", ("--most", PROGRAM), seconds=20),
    Step("program", "tests/program/rows.py", "certificates that are spelled by hand: facts and rows that are well formed or not, groups, bounds, and what an environment says of its entries, rooms and parts", ON_PROGRAM),
    Step("program", "tests/program/growths.py", "each command with each of its allocations refused in turn", ON_PROGRAM, seconds=75),
    Step("program", "tests/program/each_byte.py", "a capture cut at each byte, and a certificate with each byte changed", ON_PROGRAM, seconds=15),
    Step("program", "tests/program/outside.py", "runs while streams are closed, files are removed and signals arrive", ON_PROGRAM),
    Step("tools", "tests/tools/model_test.py", "`tests/model` itself, on runs that were worked out by hand"),
    Step("tools", "tests/tools/pkt_test.py", "the parts of `tools/pkt`, which compiles pkt, and what compiled programs send"),
    Step("tools", "tests/tools/pkt_model_test.py", "`tests/pkt_model`, an interpreter of pkt written from docs/users/pkt.md alone, on runs worked out by hand, on all examples and tasks"),
    Step("tools", "tests/tools/pkt_mutate.py", "2,000 damaged texts of pkt: each ends within 10 s in a program that assembles or in an error with its place"),
    Step("tools", "tests/tools/pkt_prove.py", "that `dpv build --prove` proves the examples and tasks, with a limit of time for each, and finds no difference; skipped without z3", ("--seconds", "240", "--each", "60"), seconds=60),
    Step("tools", "tests/tools/pkt_tasks.py", "54 programs of real tasks: what they send, by `tests/model`, is what scapy says; skipped without scapy"),
    Step("library", "tests/library/host.py", "random cases through the C library, frames, bursts and changes of routes, against `tests/model`; known calls on tables of routes; passes that were worked out by hand; each byte of two certificates set to each digit and some other values; four engines on four threads, under ThreadSanitizer and helgrind; calls that nobody should make, under the C compiler's sanitizers; the hosts of examples/live, `af_packet.c` over virtual interfaces where a network namespace can be made, and `dpdk.c` with all examples where DPDK is installed", ("--gate",), share=0.15, seconds=130),
    Step("library", "tests/library/install.py", "that what `dpv install` puts into an empty folder works without the toolchain, there and where it is moved to: the program, `dpv build`, the manual page, completions, a C program by pkg-config, and the Debian package", ON_PROGRAM, seconds=20, after="tests/library/host.py"),
    Step("random", "tests/random/fuzz_compiled.py", "builds a program that has some node programs as machine code, over the crates as `rt ci` left them. With the node program of examples/ttl it writes the expected capture, in at least 150 machine instructions a record fewer, if `perf` or `valgrind` is installed; it does what the scripts of `tests/program/engines.py` say; with the others it passes random cases of `tests/random/fuzz.py`", ("--gate", "--families", "4", PROGRAM), share=0.1, seconds=180),
    Step("random", "tests/random/fuzz.py", "random programs, certificates, pipelines, captures and heap scripts, valid and invalid. Everything that the program prints and writes is compared with what `tests/model` computes from the files, also with reads and writes of one byte each, and with allocations refused", ON_PROGRAM, share=0.5),
    Step("random", "tests/random/fuzz_pkt.py", "random programs of pkt are compiled, inferred, checked and run, and what they send is compared with the interpreter", ON_PROGRAM, share=0.25),
)

# What `rt ci` prints once a crate is proved, or its proof taken from an earlier run.
PROVED = re.compile(r"rt: (\w+) (?:proved|is kept: .*)")

# Where Debian's packages put modules, if another Python runs this.
DEBIAN_PYTHON = pathlib.Path("/usr/lib/python3/dist-packages")

# What is skipped where a tool is not installed: how the tool is found, the Debian package that has it, and what is skipped.
TOOLS = (
    ("tcpdump", "tcpdump", "live pipes from tcpdump"),
    ("tshark", "tshark", "live pipes into tshark, and captures read by it"),
    ("editcap", "wireshark-common", "cures that name editcap"),
    ("dot", "graphviz", "the drawing of pictures"),
    ("valgrind", "valgrind", "machine instructions, and invalid accesses of C programs"),
    ("python:scapy", "python3-scapy", "what the examples send, by scapy"),
    ("python:z3", "python3-z3", "proofs of compiled programs for all packets"),
    ("pkg-config:libdpdk", "libdpdk-dev", "dpdk.c over DPDK's devices"),
)


def is_found(tool: str) -> bool:
    """Whether a tool is installed."""
    kind, _, name = tool.rpartition(":")
    if kind == "python":
        return importlib.util.find_spec(name) is not None or (DEBIAN_PYTHON / name).exists()
    if kind == "pkg-config":
        return shutil.which(kind) is not None and subprocess.run([kind, "--exists", name]).returncode == 0
    return shutil.which(name) is not None


def seed() -> str:
    """The seed of the random cases: the commit, or the day where there is none."""
    ran = subprocess.run(["git", "-C", str(TOP), "rev-parse", "--short=12", "HEAD"], capture_output=True, text=True)
    return ran.stdout.strip() or str(int(time.time()) // 86_400)


def words_of(step: Step, minutes: float) -> list[str]:
    """The command of a step."""
    if step.script == "rt ci":
        return ["rt", "ci"]
    words = [sys.executable, step.script, *step.words]
    return words + (["--seed", seed(), "--jobs", "1", "--seconds", f"{60 * minutes * step.share:.0f}"] if step.share else [])


class Early:
    """The wrong bodies while `rt ci` proves: those of a crate once the libraries below it are proved, with the lowest priority, so they take the
    processors that no proof uses. When `rt ci` has ended this ends, too, and the step tries what is left."""

    def __init__(self, step: Step, room: pathlib.Path) -> None:
        self.proved, self.done, self.used = room / "proved", room / "done", 0.0
        self.proved.touch()
        words, around = [*words_of(step, 0), "--early", str(self.proved), "--done", str(self.done)], os.environ | {"TMPDIR": str(room)}
        self.started = subprocess.Popen(words, cwd=TOP, env=around, stdout=subprocess.DEVNULL, stderr=subprocess.DEVNULL, start_new_session=True)

    def see(self, row: str) -> None:
        """Notes the crate that this line of `rt ci` says is proved, if it does."""
        if found := PROVED.fullmatch(row.rstrip("\n")):
            with self.proved.open("a") as file:
                file.write(f"{found[1]}\n")

    def end(self) -> None:
        """Ends it, and says how many were refused."""
        with contextlib.suppress(ProcessLookupError):
            os.killpg(self.started.pid, signal.SIGKILL)
        _, status, usage = os.wait4(self.started.pid, 0)
        self.started.returncode, self.used = os.waitstatus_to_exitcode(status), usage.ru_utime + usage.ru_stime
        refused = len(self.done.read_text().split()) if self.done.exists() else 0
        print(f"tests/planted.py: {refused} refused while rt ci ran, {self.used:.0f} s of processor time", flush=True)


@contextlib.contextmanager
def begun_early(groups: tuple[str, ...]) -> Iterator[Early | None]:
    """The wrong bodies beside `rt ci`, where both are asked for."""
    with tempfile.TemporaryDirectory(prefix="run-", ignore_cleanup_errors=True) as room:
        early = Early(next(it for it in STEPS if it.group == "bodies"), pathlib.Path(room)) if {"proofs", "bodies"} <= {*groups} else None
        try:
            yield early
        finally:
            if early and early.started.returncode is None:
                early.end()


class Costs:
    """What each crate takes of processor time in `rt ci`, by a look every second at the provers that work in its folder."""

    def __init__(self) -> None:
        self.seen: dict[int, tuple[str, float]] = {}
        self.is_over = threading.Event()

    def look(self) -> None:
        """Notes what each prover has taken so far."""
        for it in pathlib.Path("/proc").glob("[0-9]*"):
            with contextlib.suppress(OSError):
                folder = pathlib.Path(os.readlink(it / "cwd"))
                if folder.parent == TOP / "crates" and (it / "comm").read_text() == "rattle\n":
                    ticks = (it / "stat").read_text().rpartition(")")[2].split()[11:13]
                    self.seen[int(it.name)] = folder.name, sum(map(int, ticks)) / os.sysconf("SC_CLK_TCK")

    def watch(self) -> None:
        """Looks until it is over."""
        while not self.is_over.wait(1):
            self.look()

    def __str__(self) -> str:
        sums = collections.Counter[str]()
        for crate, seconds in self.seen.values():
            sums[crate] += round(seconds)
        return ", ".join(f"{crate} {seconds}" for crate, seconds in sums.most_common())


@contextlib.contextmanager
def counted(step: Step) -> Iterator[None]:
    """Prints at the end what each crate took, if the step proves them."""
    costs = Costs()
    watching = threading.Thread(target=costs.watch, daemon=True)
    if step.script == "rt ci":
        watching.start()
    try:
        yield
    finally:
        costs.is_over.set()
        if costs.seen:
            print(f"rt ci: seconds of processor time by crate: {costs}", flush=True)


def run(step: Step, minutes: float, is_alone: bool, early: Early | None = None) -> Ended:
    """Runs a step. What it prints is printed as it comes, or together at the end where others run beside it."""
    begun, words, rows, last = time.monotonic(), words_of(step, minutes), [], collections.deque(maxlen=LAST)
    words += ["--done", str(early.done)] if early and step.group == "bodies" else []
    print(f"{step.script} begins, {(begun - BEGUN) / 60:.1f} minutes into the run", flush=True)
    # (one crate for each processor: the estimate of memory of `rt ci` is twice what the largest takes, and would leave processors idle)
    around = os.environ | ({"RT_JOBS": str(PROCESSORS)} if step.script == "rt ci" else {})
    with subprocess.Popen(words, cwd=TOP, env=around, stdout=subprocess.PIPE, stderr=subprocess.STDOUT, text=True, errors="replace") as started:
        for row in started.stdout:
            last.append(row)
            if early and step.script == "rt ci":
                early.see(row)
            if is_alone:
                print(row, end="", flush=True)
            else:
                rows.append(row)
        _, status, usage = os.wait4(started.pid, 0)
        started.returncode = os.waitstatus_to_exitcode(status)
    ended = Ended(step.script, started.returncode, time.monotonic() - begun, usage.ru_utime + usage.ru_stime, tuple(last))
    rows.append(f"{step.script}: {ended.clock:.0f} s by the clock, {ended.used:.0f} s of processor time\n")
    if ended.status != 0:
        rows.append(f"{step.script} FAILED; this repeats it: {shlex.join(words)}\n")
    print("".join(rows), end="", flush=True)
    return ended


def in_turn(steps: list[Step], minutes: float, early: Early | None = None) -> list[Ended]:
    """Runs steps one after another, up to the first that fails."""
    ended: list[Ended] = []
    for step in steps:
        if not any(it.status for it in ended):
            with counted(step):
                ended.append(run(step, minutes, True, early))
            if early and step.script == "rt ci":
                early.end()
    return ended


def side_by_side(steps: list[Step], minutes: float, early: Early | None = None) -> list[Ended]:
    """Runs steps side by side, the longest first, and then by themselves those that failed: what lacked time or memory passes there."""
    ended, named = [], {it.script for it in steps}
    longest = sorted((it for it in steps if it.after not in named), key=lambda it: it.seconds + 60 * minutes * it.share, reverse=True)
    with concurrent.futures.ThreadPoolExecutor(PROCESSORS) as pool:
        running = {pool.submit(run, it, minutes, len(steps) == 1, early): it for it in longest}
        while running:
            for done in concurrent.futures.wait(running, return_when=concurrent.futures.FIRST_COMPLETED).done:
                step = running.pop(done)
                ended.append(done.result())
                running |= {pool.submit(run, it, minutes, False): it for it in steps if it.after == step.script}
    failed = [it.script for it in ended if it.status]
    if failed:
        print(f"run: failed beside others, and run once more by themselves: {', '.join(failed)}", flush=True)
    return [it for it in ended if not it.status] + in_turn([it for it in steps if it.script in failed], minutes, early)


# The groups, in the order in which they run, and how.
PHASES = ((in_turn, ("texts", "proofs")), (side_by_side, ("bodies", "program", "tools", "library", "random")))


def table() -> str:
    """The table of the page, one row for each script."""
    return "\n".join(["| script | checks |", "|---|---|", *(f"| `{it.script}` | {it.checks} |" for it in STEPS)])


def main() -> int:
    """All of it."""
    parser = argparse.ArgumentParser(usage=__doc__, add_help=False)
    parser.add_argument("--minutes", type=float, default=8.0)
    parser.add_argument("--list", action="store_true")
    parser.add_argument("groups", nargs="*")
    asked = parser.parse_args()
    if asked.list:
        print(table())
        return 0
    unknown = [it for it in asked.groups if it not in GROUPS]
    if unknown:
        parser.error(f"there is no group {unknown[0]}")
    if table() not in PAGE.read_text():
        print("run: docs/developing/testing.md has another table than tests/run.py --list")
        return 1
    groups, begun, used = asked.groups or GROUPS, time.monotonic(), 0.0
    with begun_early(groups) as early:
        for runs, named in PHASES:
            ended = runs([it for it in STEPS if it.group in groups and it.group in named], asked.minutes, early)
            used += sum(it.used for it in ended)
            if failed := [it for it in ended if it.status]:
                for it in failed:
                    print(f"run: {it.script} failed with status {it.status}, and printed last:\n{''.join(it.last)}", end="")
                return 1
    used += early.used if early else 0.0
    print(f"run: {(time.monotonic() - begun) / 60:.1f} minutes by the clock, {used / 60:.1f} of processor time, on {PROCESSORS} processors")
    for tool, package, what in TOOLS:
        if not is_found(tool):
            print(f"skipped, since {tool.rpartition(':')[2]} is not installed (Debian: {package}): {what}")
    return 0


if __name__ == "__main__":
    sys.exit(main())
