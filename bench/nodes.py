#!/usr/bin/env python3
"""Counts the machine instructions that the nodes of examples/ take for a record, beside the same nodes in C over DPDK and in eBPF.

Usage: bench/nodes.py [--compiled] [PROGRAM]   (the built program; by default the one that ./dpv builds and runs; needs DPDK's headers and
libraries). With --compiled each example runs once more, in a program that has the node programs of all examples as machine code
(docs/users/compile.md); it is built first, once, in some minutes.
Each example's captures are written over and over until there are some thousand records, and run through `dpv run` and through
bench/nodes/nodes.c, compiled by cc -O3 over DPDK's mbufs, with the same number of buffers and no cache; where clang can make eBPF, three nodes
run in librte_bpf too, interpreted and compiled by it (bench/nodes/programs.c). A count is the difference of two runs, of which one has twice
as many records, as perf or valgrind count them. Prints two tables: a record from capture to capture, and what the node itself adds to a
record that is only sent. Exits with 1 where two of them write different captures.
"""
import pathlib
import shutil
import struct
import subprocess
import sys
import tempfile
import tomllib
from typing import NamedTuple

from tables import Table, number
from timing import dpdk, instructions
from wanted import has

TOP = pathlib.Path(__file__).resolve().parent.parent
sys.path.insert(0, str(TOP / "tests/shared"))
import paths  # noqa: E402 F401
import compiled_nodes  # noqa: E402
from command import program_of  # noqa: E402

HERE = TOP / "bench" / "nodes"
RECORDS = 2_000
NODES = ["strip", "vlan_pop", "vlan_push", "ttl", "router", "acl", "mirror", "splitter", "gre", "stages"]
IN_EBPF = ["ttl", "acl", "splitter"]
# The columns: the ways of running a node, and two of them in times of a third.
WAYS = ["dpv", "dpv compiled", "C", "eBPF", "eBPF compiled"]
RATIOS = [("dpv", "C"), ("dpv compiled", "C")]
SENT = "tx p0,r0,drop\nexit\ndrop: free p0\nexit\n"
HEAD = 24


class Counted(NamedTuple):
    """The cost of a record, and the captures of the shorter run."""

    each: float
    written: list[bytes]


def records_of(capture: bytes) -> list[bytes]:
    """The records of a capture, each with its header."""
    found, at = [], HEAD
    while at < len(capture):
        end = at + 16 + struct.unpack_from("<I", capture, at + 8)[0]
        found.append(capture[at:end])
        at = end
    return found


def repeat(source: bytes, path: pathlib.Path, count: int) -> None:
    """A capture of this many records, those of another over and over."""
    records = records_of(source)
    with open(path, "wb") as out:
        out.write(source[:HEAD])
        out.writelines(records[k % len(records)] for k in range(count if records else 0))


def counted(command: list[str], folder: pathlib.Path, sources: dict[str, bytes], outs: list[str]) -> Counted:
    """The instructions of a record: the inputs hold RECORDS of them, then twice as many."""
    counts, written = [], []
    for times in (1, 2):
        for name, source in sources.items():
            repeat(source, folder / name, times * RECORDS // len(sources))
        counts.append(instructions(command, str(folder)))
        written = written or [(folder / name).read_bytes() for name in outs]
    if None in counts:
        sys.exit(f"{' '.join(command)} failed, or neither perf nor valgrind can count it")
    return Counted((counts[1] - counts[0]) / RECORDS, written)


def compiled(folder: pathlib.Path) -> str:
    """The program of the nodes in C."""
    flags = dpdk()
    if flags is None:
        sys.exit("bench/nodes.py: DPDK's headers and libraries are wanted")
    program = folder / "nodes"
    subprocess.run(["cc", "-O3", str(HERE / "nodes.c"), "-o", str(program), *flags, "-lrte_bpf"], check=True)
    return str(program)


def in_ebpf(name: str, folder: pathlib.Path) -> pathlib.Path | None:
    """A node's eBPF instructions, where they can be made."""
    if name not in IN_EBPF or not has("clang for eBPF"):
        return None
    made, plain = folder / f"{name}.o", folder / f"{name}.bpf"
    words = ["clang", "-target", "bpf", "-ffreestanding", "-mcpu=v2", "-O2", f"-D{name.upper()}", "-c", str(HERE / "programs.c"), "-o", str(made)]
    subprocess.run(words, check=True)
    subprocess.run(["llvm-objcopy", "-O", "binary", "--only-section=.text", str(made), str(plain)], check=True)
    return plain


def example(name: str, folder: pathlib.Path) -> pathlib.Path:
    """A copy of an example's folder; `sent` is that of ttl with a program that only sends."""
    shutil.copytree(TOP / "examples", folder / name)
    pipeline = folder / name / ("ttl" if name == "sent" else name)
    if name == "sent":
        (pipeline / "ttl.dpv").write_text(SENT)
    if name == "strip":
        shutil.copy(folder / name / "ttl" / "ttl.toml", pipeline / "strip.toml")
        (pipeline / "strip.toml").write_text((pipeline / "strip.toml").read_text().replace("ttl.dpv", "strip.dpv"))
    return next(pipeline.glob("*.toml"))


def with_machine_code(program: str, pipeline: pathlib.Path) -> str:
    """The program that has the node programs of a pipeline as machine code, which is built where it has to be."""
    words = [str(TOP / "tools/compiled"), str(pathlib.Path(program).resolve()), pipeline.name]
    return subprocess.run(words, cwd=pipeline.parent, check=True, capture_output=True, text=True).stdout.strip()


def with_all_machine_code(program: str, folder: pathlib.Path) -> str:
    """The program that has the node programs of all examples as machine code."""
    texts = []
    for name in ["sent", *NODES]:
        pipeline = example(name, folder / f"of_{name}")
        setup = tomllib.loads(pipeline.read_text())
        texts += [(pipeline.parent / it["node"]).read_bytes() for it in [*setup["port"], *setup.get("ring", [])]]
    (folder / "programs.rt").write_text(compiled_nodes.module(compiled_nodes.programs_of(texts)))
    words = [str(TOP / "tools/compiled"), str(pathlib.Path(program).resolve()), str(folder / "programs.rt")]
    return subprocess.run(words, check=True, stdout=subprocess.PIPE, text=True).stdout.strip()


def row(name: str, program: str, nodes: str, folder: pathlib.Path, made: str | None) -> dict[str, Counted]:
    """What each way of running a node takes."""
    pipeline = example(name, folder)
    ports = tomllib.loads(pipeline.read_text())["port"]
    home = pipeline.parent
    sources = {port["in"]: (home / port["in"]).read_bytes() for port in ports if "none" not in port["in"]}
    outs = [port["out"] for port in ports]
    files = [*(str(home / it) for it in sources), "--", *(str(home / it) for it in outs)]
    ways = {"dpv": [program, "run", pipeline.name], "C": [nodes, name, "-", *files]}
    if made is not None:
        ways["dpv compiled"] = [made, "run", pipeline.name]
    plain = in_ebpf(name, folder)
    if plain is not None:
        ways |= {"eBPF": [nodes, name, str(plain), *files], "eBPF compiled": [nodes, name, f"jit:{plain}", *files]}
    return {way: counted(command, home, sources, outs) for way, command in ways.items()}


def shown(costs: dict[str, float], ways: list[str], ratios: list[tuple[str, str]]) -> list[str]:
    """The cells of a node."""
    times = [number(costs[one] / costs[other] if one in costs else None, 2) for one, other in ratios]
    return [*(number(costs.get(way)) for way in ways), *times]


def tables(program: str, is_compiled: bool, names: list[str] = NODES) -> list[Table]:
    """Both tables."""
    ways = [it for it in WAYS if is_compiled or it != "dpv compiled"]
    ratios = [it for it in RATIOS if it[0] in ways]
    columns, costs = ["node", *ways, *(f"{one} / {other}" for one, other in ratios)], {}
    with tempfile.TemporaryDirectory() as name:
        folder = pathlib.Path(name)
        nodes, made = compiled(folder), with_all_machine_code(program, folder) if is_compiled else None
        first = Table(columns, [12])
        for node in ["sent", *names]:
            found = row(node, program, nodes, folder, made)
            costs[node] = {way: it.each for way, it in found.items()}
            first.row(node, *shown(costs[node], ways, ratios))
            for way in (it for it in found if found[it].written != found["dpv"].written):
                first.fault(f"{node}: {way} writes other captures than dpv")
    second = Table(["the node alone", *ways], [14])
    base = costs["sent"] | {way: costs["sent"]["C"] for way in WAYS[3:]}
    for node in names:
        second.row(node, *shown({way: cost - base[way] for way, cost in costs[node].items()}, ways, []))
    return [first, second]


def main() -> int:
    words = [it for it in sys.argv[1:] if it != "--compiled"]
    found = tables(program_of(words[0] if words else None), len(words) < len(sys.argv) - 1)
    return 1 if any(it.faults for it in found) else 0


if __name__ == "__main__":
    sys.exit(main())
