#!/usr/bin/env python3
"""Runs the built program dpv on random programs, certificates, pipelines, captures and heap scripts, and compares each run with tests/model.

Usage: tests/random/fuzz.py [--seed N] [--cases N | --seconds N] [--jobs N] [--only KIND,..] [--families N] [--keep FOLDER] [PROGRAM]
       tests/random/fuzz.py --again FOLDER [PROGRAM]
KIND is one of one, check, infer, mem and run. The same seed makes the same cases, whatever the number of jobs; eight in a row share their
programs. PROGRAM is by default the one that ./dpv builds and runs.

tests/model computes the expected result of a case from the files alone: the status, both outputs, and each byte that is written; so the
texts are those of docs/, outputs are whole captures, and all buffers are free at the end. No other file is written. A fourth of the cases
run once more, in one of these ways, with the same result: as they are; without caches, if pools have some; with reads and writes of a few
bytes each; with --json, where the document has what the text has; as a trace of all records, which has to add up to the report. Or an
allocation is refused: then a case does the same, or reports it with status 4 and has written nothing or all. No case may take more than a
minute of processor time, half an hour by the clock, or 3 GiB of memory. Each finding is kept in its own folder: the files, the words, the
expected and the actual result; `--again` tries such a folder once more. Prints a line for each, and a count; exits with 1 if there is a
finding.
"""
import argparse
import contextlib
import itertools
import json
import multiprocessing
import os
import pathlib
import re
import resource
import shutil
import signal
import sys
import tempfile
import time
from collections import Counter
from collections.abc import Callable, Iterator, Sequence
from dataclasses import dataclass, field
from random import Random
from typing import Any, NamedTuple, Self, TypeVar

import paths  # noqa: F401

from cases import MAKERS, Case, Family
from command import fixed, program_of, put_library, said
from json_output import document, says
from model import answers, machine

MAX_SECONDS = 60
MAX_WAIT = 1800
MAX_MEMORY = 3 << 30
WEIGHTS = {"one": 3, "check": 2, "infer": 2, "mem": 1, "run": 6}
FAMILY = 8
Counted = TypeVar("Counted")


class Ended(NamedTuple):
    """What a run of the program did; a signal that ended it is a negative status. Its seconds, and its memory in KiB."""

    status: int
    printed: str
    reported: str
    written: dict[str, bytes]
    seconds: float
    memory: int


@dataclass
class Sums:
    """What each fuzzer counts: its cases by kind, the records that ran, and the findings."""

    cases: Counter[str] = field(default_factory=Counter)
    records: int = 0
    findings: int = 0

    def add(self, other: Self) -> None:
        """Adds what another counted."""
        for name in vars(self):
            setattr(self, name, getattr(self, name) + getattr(other, name))


@dataclass
class Tally(Sums):
    """The cases by status too, those that ran once more by how, and the time and memory of the worst."""

    statuses: Counter[str] = field(default_factory=Counter)
    again: Counter[str] = field(default_factory=Counter)
    seconds: float = 0.0
    memory: int = 0

    def add(self, other: Self) -> None:
        """Adds what another counted; of the worst it keeps the larger."""
        worst = max(self.seconds, other.seconds), max(self.memory, other.memory)
        super().add(other)
        self.seconds, self.memory = worst


class TooLong(Exception):
    """A run that did not end in time."""


def give_up(_signal: int, _frame: object) -> None:
    """Ends the wait for a run."""
    raise TooLong


def bytes_of(name: str) -> bytes:
    """The bytes of a file of this folder."""
    file = os.open(name, os.O_RDONLY)
    data = os.read(file, os.fstat(file).st_size)
    os.close(file)
    return data


class Place:
    """This folder, in which the program runs. Both outputs go to files in memory."""

    def __init__(self, program: str) -> None:
        # Tables are large, and made faster in large pages.
        self.program, self.env = program, {b"GLIBC_TUNABLES": b"glibc.malloc.hugetlb=1"}
        self.streams = [os.memfd_create(name) for name in ("printed", "reported")]
        self.files: dict[str, tuple[bytes, tuple[int, int]]] = {}
        self.folders: list[str] = []

    def put(self, name: str, data: bytes) -> None:
        """Makes the folder hold a file."""
        if name not in self.files or self.files[name][0] != data:
            file = os.open(name, os.O_WRONLY | os.O_CREAT | os.O_TRUNC, 0o600)
            os.write(file, data)
            self.files[name] = data, as_it_is(os.fstat(file))
            os.close(file)

    def put_case(self, case: Case) -> None:
        """Makes the folder hold the files of a case, and no others."""
        for name in self.files.keys() - case.files.keys():
            os.unlink(name)
            del self.files[name]
        for name, data in case.files.items():
            self.put(name, data)
        if self.folders != case.folders:
            for name in self.folders:
                os.rmdir(name)
            for name in case.folders:
                os.mkdir(name)
            self.folders = case.folders

    def start(self, words: list[str], more: dict[bytes, bytes] | None = None) -> Ended:
        """Runs the program, without what it wrote to files."""
        for stream in self.streams:
            os.ftruncate(stream, 0)
            os.lseek(stream, 0, os.SEEK_SET)
        actions = [(os.POSIX_SPAWN_DUP2, stream, fd) for fd, stream in enumerate(self.streams, 1)]
        env = {**self.env, **more} if more else self.env
        child = os.posix_spawn(self.program, ["dpv", *words], env, file_actions=actions)
        with contextlib.suppress(ProcessLookupError):
            resource.prlimit(child, resource.RLIMIT_CPU, (MAX_SECONDS, MAX_SECONDS))
        signal.setitimer(signal.ITIMER_REAL, MAX_WAIT)
        try:
            _, status, used = os.wait4(child, 0)
        except TooLong:
            os.kill(child, signal.SIGKILL)
            _, status, used = os.wait4(child, 0)
        signal.setitimer(signal.ITIMER_REAL, 0)
        printed, reported = said(*(os.pread(stream, os.fstat(stream).st_size, 0).decode(errors="replace") for stream in self.streams))
        return Ended(os.waitstatus_to_exitcode(status), printed, reported, {}, used.ru_utime + used.ru_stime, used.ru_maxrss)

    def taken(self) -> dict[str, bytes]:
        """The contents of files that are new or changed since they were put here; removes them."""
        with os.scandir() as entries:
            names = [it.name for it in entries if it.is_file() and self.files.get(it.name, (b"", ()))[1] != as_it_is(it.stat())]
        written = {name: bytes_of(name) for name in names}
        for name in names:
            os.unlink(name)
            self.files.pop(name, None)
        return written

    def run(self, words: list[str], more: dict[bytes, bytes] | None = None) -> Ended:
        """Runs the program, with what it wrote to files."""
        ended = self.start(words, more)
        return ended._replace(written=self.taken())


def as_it_is(state: os.stat_result) -> tuple[int, int]:
    """What changes when a file is written."""
    return state.st_size, state.st_mtime_ns


def complaint(expected: answers.Answer | None, ended: Ended) -> str | None:
    """What is wrong with how a run ended; for wrong words only the status and the stream of each text are fixed."""
    if expected is None:
        is_usage = (ended.status, ended.printed, ended.written) == (2, "", {}) and ended.reported != ""
        return None if is_usage else "words that are wrong are not reported so"
    ended = ended._replace(reported=fixed(ended.reported))
    for part in ("status", "printed", "reported"):
        if getattr(expected, part) != getattr(ended, part):
            return f"{part}: expected {getattr(expected, part)!r}, came {getattr(ended, part)!r}"
    for name in sorted({*expected.written, *ended.written}) if expected.written is not None else ():
        if expected.written.get(name) != ended.written.get(name):
            return f"{name}: expected {expected.written.get(name)!r}, came {ended.written.get(name)!r}"
    return None


def without_cache(case: Case) -> bytes | None:
    """The pipeline of a case with caches of 0, if it has others."""
    lines = case.files["it.toml"].split(b"\n")
    plain = [b"cache = 0" if line.startswith(b"cache = ") and line[8:].isdigit() else line for line in lines]
    return b"\n".join(plain) if plain != lines else None


def wrong_by(said: str, case: Case, place: Place, ended: Ended | None) -> tuple[Ended, answers.Answer | None, str | None]:
    """How a case ended, how it had to end, given what was printed if that is open, and what is wrong with it."""
    try:
        expected = answers.answer(case.words, answers.Disk(pathlib.Path(), case.files), said)
    except machine.Stuck as stuck:
        return ended or place.run(case.words), None, f"an accepted program is stuck: {stuck}"
    ended = ended or place.run(case.words)
    return ended, expected, complaint(expected, ended)


def fault_of(place: Place, case: Case, tally: Tally) -> tuple[Ended, str | None]:
    """How a case ended, and what is wrong with it. What the documents leave open is reported from what was printed: whether rows are found
    for a program with loops is open too, so that one which is stuck may be one that is not accepted."""
    place.put_case(case)
    ended, expected, wrong = wrong_by("", case, place, None)
    if wrong and not ended.written and (case.kind in ("mem", "infer") or ended.status == 1):
        ended, expected, wrong = wrong_by(ended.printed, case, place, ended)
    tally.cases[case.kind] += 1
    tally.statuses[f"{case.kind} {ended.status}"] += 1
    tally.records += expected.records if expected else 0
    tally.seconds, tally.memory = max(tally.seconds, ended.seconds), max(tally.memory, ended.memory)
    return ended, wrong


def without_link_type(ended: Ended) -> Ended:
    """How a case ended, without the link type that was found and its cure: a first read of fewer than 24 bytes does not have it."""
    return ended._replace(reported=re.sub(r"  because: the link type is .*\n(  help: .*\n)?", "", ended.reported))


def runs_with_short_calls(place: Place, case: Case, ended: Ended, how: str, more: dict[bytes, bytes]) -> str | None:
    """What is wrong if a case, run once more with a few bytes a call, does something else."""
    again = place.run(case.words, more)
    same = without_link_type(again)[:4] == without_link_type(ended)[:4]
    return None if same else f"another answer {how}: {ended[:3]}, then {again[:3]}"


def runs_as(place: Place, case: Case, ended: Ended, how: str, more: dict[bytes, bytes] | None = None) -> str | None:
    """What is wrong if a case, run once more, does something else."""
    again = place.run(case.words, more)
    return None if again[:4] == ended[:4] else f"another answer {how}: {ended[:3]}, then {again[:3]}"


def runs_without_cache(place: Place, case: Case, ended: Ended) -> str | None:
    """What is wrong if a run that went well differs without caches."""
    plain = without_cache(case) if case.kind == "run" and ended.status == 0 else None
    if plain is None:
        return runs_as(place, case, ended, "the second time")
    place.put("it.toml", plain)
    return runs_as(place, case, ended, "without a cache")


def runs_refused(place: Place, case: Case, ended: Ended, more: dict[bytes, bytes]) -> str | None:
    """What is wrong if an allocation is refused, and the case neither does the same nor reports it and wrote nothing or all."""
    refused = place.run(case.words, more)
    tells = (refused.status, refused.reported) == (4, "fault: memory\n") and ended.printed.startswith(refused.printed)
    if tells and all(data in (b"", ended.written.get(name)) for name, data in refused.written.items()):
        return None
    # (the line at fault and the cure are left out where there is no memory for them)
    same = refused._replace(reported=fixed(refused.reported))[:4] == ended._replace(reported=fixed(ended.reported))[:4]
    return None if same else f"allocation {more[b'REFUSE'].decode()} refused: {ended[:3]}, then {refused[:3]}"


def runs_as_document(place: Place, case: Case, ended: Ended) -> str | None:
    """What is wrong if a case, run once more with --json, does something else, or its document has something else than the text."""
    made = place.run([*case.words, "--json"])
    if made._replace(printed=ended.printed)[:4] != ended[:4]:
        return f"another answer with --json: {ended[:3]}, then {made[:3]}"
    if ended.status == 2:
        return made.printed and f"a document for wrong words: {made.printed!r}"
    doc, fault = document(made.printed.encode()), None
    if ended.status > 2:
        fault = {"status": ended.status, "text": ended.reported.split("\n")[0]}
    return None if doc["fault"] == fault and says(doc, ended.printed) else f"another document: {ended[:3]}, then {made.printed!r}"


def runs_as_trace(place: Place, case: Case, ended: Ended) -> str | None:
    """What is wrong if a trace of all records of a run that went well does not add up to what the run reported."""
    words = [word for word in case.words[1:] if word != "--counts"]
    doc, shown = document(place.run(["run", *words, "--json"]).printed.encode()), place.run(["trace", *words, "--records", "1000"])
    text, _ = said(shown.printed)
    turns, ports = Counter(re.findall("^turn ([a-z]+) runs", text, re.M)), doc["ports"]
    sent = sum(int(number) for number in re.findall("^port [0-7] sends ([0-9]+)$", text, re.M))
    calls = re.findall("^ +allocation call ([0-9]+): (made|refused)$", text, re.M)
    refused = sum(it["nobuf"] for it in ports) + sum(it["refused"] for it in doc["pools"])
    adds_up = all(turns[kind] == sum(it[kind] for it in ports) for kind in ("received", "nobuf", "oversize"))
    adds_up = adds_up and sent == sum(it["sent"] for it in ports) and [number for number, _ in calls] == [str(k + 1) for k in range(doc["calls"])]
    adds_up = adds_up and [answer for _, answer in calls].count("refused") == refused
    return None if adds_up and shown.status == 0 else f"a trace does not add up to {ended.printed!r}"


def runs_once_more(place: Place, case: Case, ended: Ended, how: str, number: int, shims: pathlib.Path | None) -> str | None:
    """What is wrong with a case, run once more: as it is or without caches, with this many bytes a call, with this allocation refused, as a document or a trace."""
    place.put_case(case)
    value = str(number).encode()
    if how == "short" and shims is not None:
        return runs_with_short_calls(place, case, ended, f"with {number} bytes a call", {b"LD_PRELOAD": bytes(shims / "short.so"), b"MOST": value})
    if how == "refused" and shims is not None:
        return runs_refused(place, case, ended, {b"LD_PRELOAD": bytes(shims / "refused.so"), b"REFUSE": value})
    if how == "trace" and case.kind == "run" and ended.status == 0:
        return runs_as_trace(place, case, ended)
    if how == "json" and case.kind in ("one", "check", "run"):
        return runs_as_document(place, case, ended)
    return runs_without_cache(place, case, ended)


def judge(place: Place, case: Case, rng: Random, tally: Tally, shims: pathlib.Path | None) -> str | None:
    """Runs a case, and some cases again with other options; returns what is wrong with it."""
    ended, wrong = fault_of(place, case, tally)
    if wrong or rng.random() < 0.75:
        return wrong
    how = rng.choice(("cache", "cache", "json", "trace", "short", "refused"))
    tally.again[how] += 1
    number = rng.choice((1, 1, 2, 7, 1000)) if how == "short" else int(2 ** (rng.random() * 9))
    return runs_once_more(place, case, ended, how, number, shims)


def put_shims(folder: pathlib.Path) -> pathlib.Path | None:
    """Builds the libraries that make reads and writes short and refuse allocations; nothing if there is no C compiler."""
    if not all([put_library(name, folder) for name in ("short", "refused")]):
        print("fuzz: short writes and refused allocations NOT TRIED, since there is no C compiler")
        return None
    return folder


def keep(case: Case, wrong: str, number: int, seed: str, into: pathlib.Path) -> None:
    """Writes a finding to its folder."""
    folder = into / f"{case.kind}-{seed}-{number}"
    shutil.rmtree(folder, ignore_errors=True)
    folder.mkdir(parents=True)
    for name in case.folders:
        (folder / name).mkdir()
    for name, data in case.files.items():
        (folder / name).write_bytes(data)
    (folder / "case.json").write_text(json.dumps({"kind": case.kind, "words": case.words, "folders": case.folders}))
    (folder / "finding.txt").write_text(wrong + "\n")
    print(f"{folder}: dpv {' '.join(case.words)}: {wrong[:300]}", flush=True)


class Dice(Random):
    """A random generator with a faster `choice`."""

    def choice(self, seq: Sequence[Any]) -> Any:
        """One of these."""
        return seq[int(self.random() * len(seq))]


class Maker:
    """Makes cases by their numbers: consecutive ones of a family share their programs."""

    def __init__(self, seed: str, kinds: list[str], families: int = 0) -> None:
        self.seed, self.kinds, self.families = seed, kinds, families
        self.last: tuple[int, Family] | None = None

    def family(self, number: int) -> Family:
        """The family of this number; if there are fewer families, they repeat."""
        number = number % self.families if self.families else number
        if self.last is None or self.last[0] != number:
            rng = Dice(f"{self.seed} {number}")
            kind = rng.choices(self.kinds, [WEIGHTS[kind] for kind in self.kinds])[0]
            self.last = number, MAKERS[kind](rng)
        return self.last[1]

    def case(self, number: int) -> tuple[Case, Random]:
        """The case of this number, and the generator that made it."""
        rng = Dice(f"{self.seed} case {number}")
        return self.family(number // FAMILY)(rng), rng


def numbers(jobs: int, first: int) -> Iterator[int]:
    """The cases of each family whose number is this one plus a multiple of the jobs."""
    return (FAMILY * family + k for family in itertools.count(first, jobs) for k in range(FAMILY))


@contextlib.contextmanager
def own_place(program: str) -> Iterator[Place]:
    """A temporary folder in memory, as the current one."""
    home, shared = os.getcwd(), "/dev/shm" if os.access("/dev/shm", os.W_OK) else None
    with tempfile.TemporaryDirectory(dir=shared) as name:
        os.chdir(name)
        yield Place(program)
        os.chdir(home)


def work(asked: argparse.Namespace, shims: pathlib.Path | None, first: int, until: float) -> Tally:
    """The cases of one job."""
    tally, maker = Tally(), Maker(asked.seed, asked.only, asked.families)
    resource.setrlimit(resource.RLIMIT_AS, (MAX_MEMORY, MAX_MEMORY))
    signal.signal(signal.SIGALRM, give_up)
    with own_place(asked.program) as place:
        for number in numbers(asked.jobs, first):
            if number >= asked.cases or time.monotonic() >= until:
                break
            case, rng = maker.case(number)
            wrong = judge(place, case, rng, tally, shims)
            if wrong:
                tally.findings += 1
                keep(case, wrong, number, asked.seed, asked.keep)
    return tally


def again(program: str, folder: pathlib.Path, shims: pathlib.Path | None) -> int:
    """Tries a finding once more, in each way."""
    reported = json.loads((folder / "case.json").read_text())
    names = [it for it in folder.iterdir() if it.is_file() and it.name not in ("case.json", "finding.txt")]
    case = Case(reported["kind"], reported["words"], {it.name: it.read_bytes() for it in names}, reported["folders"])
    signal.signal(signal.SIGALRM, give_up)
    with tempfile.TemporaryDirectory() as name:
        os.chdir(name)
        place = Place(program)
        ended, wrong = fault_of(place, case, Tally())
        ways = [("short", 1), *(("refused", number) for number in range(1, 100)), ("json", 0), ("trace", 0), ("cache", 0)]
        for how, number in ways:
            wrong = wrong or runs_once_more(place, case, ended, how, number, shims)
        os.chdir("/")
    print(f"dpv {' '.join(case.words)}: {wrong or 'as it has to be'}")
    return 1 if wrong else 0


def parser_of(description: str, findings: str) -> argparse.ArgumentParser:
    """The words of a script that tries random cases, and the folder of its findings."""
    parser = argparse.ArgumentParser(description=description)
    parser.add_argument("program", nargs="?", metavar="PROGRAM")
    parser.add_argument("--seed", default="1")
    parser.add_argument("--cases", type=int, default=0)
    parser.add_argument("--seconds", type=float, default=0)
    parser.add_argument("--jobs", type=int, default=os.cpu_count() or 1)
    parser.add_argument("--keep", type=pathlib.Path, default=pathlib.Path(tempfile.gettempdir()) / findings)
    parser.add_argument("--again", type=pathlib.Path)
    return parser


def words(parser: argparse.ArgumentParser, cases: int) -> argparse.Namespace:
    """The arguments; the usual number of cases if neither cases nor seconds are given."""
    asked = parser.parse_args()
    asked.program = program_of(asked.program)
    asked.keep = asked.keep.resolve()
    asked.cases = asked.cases or (sys.maxsize if asked.seconds else cases)
    return asked


def all_jobs(asked: argparse.Namespace, job: Callable[..., Counted], *more: object) -> Iterator[Counted]:
    """What each job counted; a job is given the words, `more`, its number, and when to end."""
    until = time.monotonic() + (asked.seconds or float("inf"))
    with multiprocessing.Pool(asked.jobs) as pool:
        yield from pool.starmap(job, [(asked, *more, first, until) for first in range(asked.jobs)], chunksize=1)


def main() -> int:
    """All of it."""
    parser, tally = parser_of("Runs dpv on what is made at random, and judges each run.", "dpv_findings"), Tally()
    parser.add_argument("--only", type=lambda text: text.split(","), default=list(WEIGHTS))
    parser.add_argument("--families", type=int, default=0)
    asked = words(parser, 10_000)
    with tempfile.TemporaryDirectory() as folder:
        shims = put_shims(pathlib.Path(folder))
        if asked.again:
            return again(asked.program, asked.again.resolve(), shims)
        begun = time.monotonic()
        for done in all_jobs(asked, work, shims):
            tally.add(done)
    print(f"fuzz: seed {asked.seed}, {tally.cases.total()} cases ({shown(tally.cases)}) in {time.monotonic() - begun:.0f} s")
    print(f"fuzz: by status {shown(tally.statuses)}; once more {shown(tally.again)}; {tally.records} records")
    print(f"fuzz: longest {tally.seconds:.1f} s, largest {tally.memory // 1024} MiB; {tally.findings} findings")
    return 1 if tally.findings else 0


def shown(counts: Counter[str]) -> str:
    """Counts by name."""
    return ", ".join(f"{name}: {number}" for name, number in sorted(counts.items()))


if __name__ == "__main__":
    sys.exit(main())
