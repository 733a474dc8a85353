#!/usr/bin/env python3
"""Runs all benches one after another, and writes their tables in Markdown, so that those of a page come from one run.

Usage: bench/run.py [--quick] [--compiled] [--program PROGRAM] [--library FOLDER] [--page FILE ..] [--out FILE] [BENCH ..]
It first names what is not here, with its package in Debian and what is left out without it; it installs nothing. BENCH is one of those of
BENCHES below, by default all. What a bench prints goes to standard error as it comes, and the tables go to standard output at the end, or to
the file of --out. With --page, which can be given again, they also replace those under their headings on that page, and by default no others
are measured: docs/users/speed.md has most, and docs/users/hosts.md that of several lcores. A table that was not measured stays as it is on
the page, and is named.
  --quick     few records and rounds, to try it out; without what has to be proved first
  --compiled  bench/nodes.py with the nodes as machine code, too, which are built first, in some minutes
  --program   the built program; by default the one that ./dpv builds and runs
  --library   a folder with libdpv.a and dpv.h, as ./dpv library puts them there; by default that is done first
Exits with 1 where a bench failed, or a program wrote other packets than dpv.
"""
import argparse
import contextlib
import datetime
import os
import pathlib
import re
import shutil
import subprocess
import sys
import tempfile
from collections.abc import Callable
from typing import NamedTuple

import calls
import check
import engine
import grow
import heap
import live
import memory
import nodes
import one
from tables import Table
from timing import TOP, built
from wanted import has, missing, of_dpdk, reason


class Asked(NamedTuple):
    """What is run: the program, the library where it is here, and how."""

    program: str
    library: pathlib.Path | None
    is_quick: bool
    is_compiled: bool


class Bench(NamedTuple):
    """A bench: its tables, the heading of the page under which they stand, what it cannot do without, and whether that includes the library."""

    run: Callable[[Asked], list[Table | None]]
    heading: str
    wants: tuple[str, ...] = ()
    wants_library: bool = False

    def lacks(self, library: pathlib.Path | None) -> str:
        """Why it cannot be run, if so."""
        lacking = next((it for it in self.wants if not has(it)), None)
        return reason(lacking) if lacking else "there is no library" if self.wants_library and library is None else ""


def first_line(*words: str) -> str:
    """The first line that a command prints; nothing where it is not here."""
    if not shutil.which(words[0]):
        return ""
    run = subprocess.run(words, capture_output=True, text=True)
    return (run.stdout or run.stderr).strip().partition("\n")[0]


def machine(asked: Asked) -> list[Table | None]:
    """The table of the machine, the day and the versions."""
    model = re.search(r"^model name\s*: (.*)", pathlib.Path("/proc/cpuinfo").read_text(), re.M)
    commit = first_line("git", "-C", str(TOP), "rev-parse", "--short", "HEAD")
    versions = {
        "day": datetime.datetime.now(datetime.UTC).strftime("%-d %B %Y"),
        "processors": f"{os.cpu_count()}, {model[1] if model else 'of unknown model'}",
        "processes that ran or waited when it began": f"{os.getloadavg()[0]:.1f}",
        "dpv": first_line(asked.program, "--version").removeprefix("dpv ") + (f", commit {commit}" if commit else ""),
        "C": first_line("cc", "--version"),
        "Rust": first_line("rustc", "--version"),
        "DPDK": of_dpdk("--modversion"),
        "libpcap": first_line("pcap-config", "--version") or first_line("pkg-config", "--modversion", "libpcap"),
        "editcap": first_line("editcap", "--version"),
        "tcprewrite": first_line("tcprewrite", "--version"),
        "valgrind": first_line("valgrind", "--version").removeprefix("valgrind-"),
    }
    table = Table(["what", "which"], [44, 1])
    for what, which in versions.items():
        if which:
            table.row(what, which)
    return [table]


def in_live(*parts: str) -> Callable[[Asked], list[Table | None]]:
    """Parts of bench/live.py."""
    return lambda it: live.tables(it.library, list(parts), live.Windows(0.3, 1, False) if it.is_quick else live.Windows(2, 5))


def of_nodes(asked: Asked) -> list[Table | None]:
    """The nodes; a page has the first table alone."""
    return nodes.tables(asked.program, asked.is_compiled, ["ttl"] if asked.is_quick else nodes.NODES)[:1]


COUNTING = "valgrind, or perf"
BENCHES = {
    "machine": Bench(machine, "The machine"),
    "one": Bench(lambda it: one.tables(it.program, *((1_000, 1) if it.is_quick else ())), "A filter beside other programs"),
    "nodes": Bench(of_nodes, "Nodes beside C over DPDK, and eBPF", ("cc", "DPDK", COUNTING)),
    "engine": Bench(lambda it: engine.tables([it.program, "run"], *([200] if it.is_quick else [])), "The engine by its parts", (COUNTING,)),
    "alone": Bench(in_live("alone"), "The engine as a library", ("cc",), True),
    "dpdk": Bench(in_live("dpdk"), "Live frames over DPDK's devices", ("cc", "DPDK", "net_pcap"), True),
    "sockets": Bench(in_live("sockets"), "Live frames over packet sockets", ("cc", "ip, run by root"), True),
    "grow": Bench(lambda it: grow.tables(it.program, it.is_quick), "How a cost grows", (COUNTING,)),
    "memory": Bench(lambda it: memory.tables([it.program, "run"], *([[20_000]] if it.is_quick else [])), "Memory"),
    "heap": Bench(lambda it: heap.tables(it.program, it.is_quick), "Heaps"),
    "lcores": Bench(in_live("lcores"), "Several processors", ("cc", "DPDK"), True),
    "threads": Bench(in_live("threads"), "Engines side by side", ("cc",), True),
    "check": Bench(lambda _: check.tables([]), "The checker and the inferrer", ("rt", COUNTING)),
    "calls": Bench(lambda _: calls.tables(), "Calls", ("rt", "cc", COUNTING)),
}


def taken(name: str, asked: Asked) -> tuple[list[Table | None], list[str]]:
    """The tables of a bench, and what went wrong."""
    lacks = BENCHES[name].lacks(asked.library)
    print(f"\n== {name}{': not measured, since ' + lacks if lacks else ''}", flush=True)
    if lacks:
        return [], []
    try:
        found = BENCHES[name].run(asked)
    except (Exception, SystemExit) as failed:
        return [], [f"{name}: {type(failed).__name__}: {failed}"]
    return found, [f"{name}: {fault}" for table in found if table for fault in table.faults]


def replaced(page: str, heading: str, found: list[Table | None]) -> tuple[str, list[str]]:
    """The page with these tables, in order, in place of those under a heading; and a line for each that was not measured."""
    before, title, rest = page.partition(f"\n## {heading}\n")
    part, following, after = rest.partition("\n## ")
    places = list(re.finditer(r"(?:^\|.*\n)+", part, re.M))
    if len(places) != len(found):
        return page, [f"'{heading}' has {len(places)} tables on the page, and {len(found)} were measured: they stay"]
    for place, table in reversed(list(zip(places, found))):
        part = part[: place.start()] + "\n".join([*table.markdown(), ""]) + part[place.end() :] if table else part
    return before + title + part + following + after, [f"'{heading}' has a table that was not measured" for table in found if not table]


def on(pages: list[str], name: str) -> bool:
    """Whether a bench has a heading on one of these pages."""
    return any(f"\n## {BENCHES[name].heading}\n" in page for page in pages)


def put(file: pathlib.Path, results: dict[str, list[Table | None]]) -> None:
    """Replaces the tables of a page, and says which stay."""
    page = file.read_text()
    for name, bench in BENCHES.items():
        if not on([page], name):
            continue
        page, stay = replaced(page, bench.heading, results[name]) if name in results else (page, [f"'{bench.heading}' was not measured"])
        for line in stay:
            print(f"{file}: {line}", file=sys.stderr)
    file.write_text(page)


def shown(results: dict[str, list[Table | None]]) -> str:
    """The tables in Markdown."""
    lines = []
    for name, found in ((name, found) for name, found in results.items() if found):
        lines += ["", f"## {BENCHES[name].heading}"] + [line for table in found if table for line in ["", *table.markdown()]]
    return "\n".join([*lines[1:], ""])


def all_taken(names: list[str], program: str | None, library: pathlib.Path | None, is_quick: bool, is_compiled: bool) -> tuple[dict, list[str]]:
    """The tables of these benches, and what went wrong."""
    results, faults = {}, []
    with tempfile.TemporaryDirectory() as room, contextlib.redirect_stdout(sys.stderr):
        if library is None and has("rt") and any(BENCHES[name].wants_library for name in names):
            library = live.library_in(pathlib.Path(room))
        asked = Asked(str(pathlib.Path(program).resolve()) if program else built(), library, is_quick, is_compiled)
        for name in names:
            found, wrong = taken(name, asked)
            results |= {} if wrong else {name: found}
            faults += wrong
    return results, faults


def words() -> argparse.Namespace:
    """What the command line asks for; without names, those that fit the other options."""
    parser = argparse.ArgumentParser(description="Runs all benches, and writes their tables in Markdown.")
    parser.add_argument("--quick", action="store_true")
    parser.add_argument("--compiled", action="store_true")
    parser.add_argument("--library", type=pathlib.Path)
    parser.add_argument("--out", type=pathlib.Path)
    parser.add_argument("--page", type=pathlib.Path, action="append", default=[])
    parser.add_argument("--program")
    parser.add_argument("names", nargs="*", metavar="BENCH")
    asked = parser.parse_args()
    if unknown := [name for name in asked.names if name not in BENCHES]:
        parser.error(f"no bench {', '.join(unknown)}: there are {', '.join(BENCHES)}")
    proving = [name for name, it in BENCHES.items() if asked.quick and ("rt" in it.wants or (it.wants_library and not asked.library))]
    pages = [page.read_text() for page in asked.page]
    asked.names = asked.names or [name for name in BENCHES if name not in proving and (not pages or on(pages, name))]
    return asked


def main() -> int:
    asked = words()
    print("\n".join(missing() or ["nothing is missing"]), file=sys.stderr)
    results, faults = all_taken(asked.names, asked.program, asked.library, asked.quick, asked.compiled)
    if asked.out:
        asked.out.write_text(shown(results))
    else:
        print(shown(results))
    for page in asked.page:
        put(page, results)
    print("".join(f"failed: {fault}\n" for fault in faults), end="", file=sys.stderr)
    return 1 if faults else 0


if __name__ == "__main__":
    sys.exit(main())
