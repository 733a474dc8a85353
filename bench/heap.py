#!/usr/bin/env python3
"""Times heap scripts of 10,000 blocks under `dpv mem`, beside rte_malloc if DPDK is installed.

Usage: bench/heap.py [PROGRAM]   (the program dpv; by default what ./dpv begins)
Prints two tables. The first has for each script its commands, the time of one command (the best of three runs, minus that of a script with no
command), the machine instructions of one if perf or valgrind can count them, and the time of rte_malloc with the ratio. The second has the
machine instructions of a block that is taken and freed, by the number of other blocks held. The figures of dpv include reading the script and
printing its results.
"""
import pathlib
import random
import subprocess
import sys
import tempfile

from tables import Table, number
from timing import best, built, dpdk, instructions

REGION = 1 << 27
BLOCKS = 10_000
HELD = [10, 100, 1_000, 10_000]

# The same commands, read from the same script. It prints nanoseconds for the whole of them.
RTE = r"""
#include <stdio.h>
#include <string.h>
#include <time.h>
#include <rte_eal.h>
#include <rte_malloc.h>

static struct { int free; unsigned size, align; } commands[1 << 20];
static void *blocks[1 << 20];

int main(int argc, char **argv) {
    char *args[] = {argv[0], "--no-huge", "--no-pci", "--no-shconf", "-m", "1024", "--log-level=1", NULL};
    if (rte_eal_init(7, args) < 0) return 1;
    FILE *in = fopen(argv[1], "r");
    char line[64];
    unsigned count = 0;
    while (fgets(line, sizeof line, in)) {
        if (sscanf(line, "malloc %u %u", &commands[count].size, &commands[count].align) == 2) count++;
        else if (sscanf(line, "free %u", &commands[count].size) == 1) commands[count++].free = 1;
    }
    struct timespec a, b;
    unsigned taken = 0;
    clock_gettime(CLOCK_MONOTONIC, &a);
    for (unsigned k = 0; k < count; k++) {
        if (commands[k].free) rte_free(blocks[commands[k].size]);
        else if ((blocks[taken + 1] = rte_malloc(NULL, commands[k].size, commands[k].align))) taken++;
    }
    clock_gettime(CLOCK_MONOTONIC, &b);
    printf("%lld\n", (b.tv_sec - a.tv_sec) * 1000000000LL + b.tv_nsec - a.tv_nsec);
    return 0;
}
"""


def fill(sizes: list[tuple[int, int]]) -> list[str]:
    """One malloc per block, sizes and alignments in turn."""
    return ["malloc %d %d" % sizes[k % len(sizes)] for k in range(BLOCKS)]


def scripts() -> dict[str, list[str]]:
    """The commands of each script."""
    draw = random.Random(1)
    every = list(range(1, BLOCKS + 1))
    shuffled = draw.sample(every, BLOCKS)
    mixed = [(64, 0), (100, 0), (2112, 64), (512, 1024), (1500, 128)]
    pairs, live = ["malloc 64 0"] * 100, list(range(1, 101))
    for k in range(BLOCKS):
        spot = draw.randrange(100)
        pairs += [f"free {live[spot]}", "malloc 64 0"]
        live[spot] = 101 + k
    return {
        "taken, freed in order": fill([(64, 0)]) + [f"free {k}" for k in every],
        "taken, freed backwards": fill([(64, 0)]) + [f"free {k}" for k in reversed(every)],
        "mixed, freed at random": fill(mixed) + [f"free {k}" for k in shuffled],
        "pairs at 100 live blocks": pairs,
        "holes too small": fill([(64, 0)]) + [f"free {k}" for k in every[::2]] + ["malloc 512 0"] * (BLOCKS // 2),
    }


def rte(folder: pathlib.Path) -> str | None:
    """The program over rte_malloc, where DPDK is installed."""
    flags = dpdk()
    if flags is None:
        return None
    (folder / "rte.c").write_text(RTE)
    subprocess.run(["cc", "-O2", str(folder / "rte.c"), "-o", str(folder / "rte"), *flags], check=True)
    return str(folder / "rte")


def of_rte(other: str, script: pathlib.Path) -> int:
    """The nanoseconds of the commands of a script over rte_malloc."""
    return min(int(subprocess.run([other, str(script)], check=True, capture_output=True, text=True).stdout) for _ in range(3))


def by_script(program: str, folder: pathlib.Path, is_quick: bool) -> Table:
    """The table of the scripts."""
    table = Table(["script", "commands", "ns each", "machine instructions", "rte_malloc ns", "ratio"], [26])
    script, other = folder / "script", rte(folder)
    script.write_text(f"region {REGION}\n")
    base, none = best([program, "mem", str(script)]), instructions([program, "mem", str(script)])
    for title, commands in list(scripts().items())[: 1 if is_quick else None]:
        script.write_text(f"region {REGION}\n" + "".join(line + "\n" for line in commands))
        command = [program, "mem", str(script)]
        each, counted = (best(command) - base) / len(commands) * 1e9, instructions(command)
        count = None if counted is None or none is None else (counted - none) / len(commands)
        theirs = of_rte(other, script) / len(commands) if other else None
        table.row(title, number(len(commands)), number(each), number(count), number(theirs), number(each / theirs if theirs else None, 1))
    return table


def by_blocks(program: str, folder: pathlib.Path, is_quick: bool) -> Table:
    """The cost of a block that is taken and freed, by the number of other blocks held."""
    table = Table(["blocks held", "a block taken and freed"], [12])
    script = folder / "script"
    for held in HELD[: 1 if is_quick else None]:
        costs = []
        for pairs in (0, 1_000):
            lines = [f"malloc {64 + k % 512} 0" for k in range(held)] + [line for k in range(pairs) for line in ("malloc 64 0", f"free {held + 1 + k}")]
            script.write_text("\n".join([f"region {1 << 26}", *lines, ""]))
            costs.append(instructions([program, "mem", str(script)]))
        table.row(number(held), number(None if None in costs else (costs[1] - costs[0]) / 1_000))
    return table


def tables(program: str, is_quick: bool = False) -> list[Table]:
    """Both tables."""
    with tempfile.TemporaryDirectory() as name:
        return [table(program, pathlib.Path(name), is_quick) for table in (by_script, by_blocks)]


if __name__ == "__main__":
    tables(sys.argv[1] if len(sys.argv) > 1 else built())
