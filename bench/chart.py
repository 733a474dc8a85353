#!/usr/bin/env python3
"""Draws docs/speed.svg from the tables of docs/users/speed.md.

Usage: bench/chart.py [--check]   (with --check it writes nothing, and exits with 1 where the picture is not that of the tables)
Four groups of bars, each from a table: a record of 60 bytes with 14 bytes taken off, by program, in time and in machine instructions; the
nodes of examples/, in times of C over DPDK; and frames of 60 bytes over DPDK's devices. Longer bars are slower. What was not measured has no
bar. Python's standard library alone.
"""
import operator
import pathlib
import sys
from typing import NamedTuple

TOP = pathlib.Path(__file__).resolve().parent.parent
PAGE, PICTURE = TOP / "docs/users/speed.md", TOP / "docs/speed.svg"
WIDTH, LEFT, RIGHT, BAR, GAP, HEAD = 860, 210, 90, 16, 6, 46
OURS, THEIRS, LINE = "#1f6f8b", "#b9c4c9", "#c0392b"


class Bar(NamedTuple):
    """A bar: its name, how long it is, and whether it is one of dpv."""

    name: str
    value: float
    is_ours: bool


class Group(NamedTuple):
    """Bars with one scale; at `mark` there is a line, where it is not 0."""

    title: str
    unit: str
    mark: float
    bars: list[Bar]


def table(page: str, heading: str) -> list[list[str]]:
    """The cells of the first table under a heading: its head, and then its rows."""
    rows = []
    for line in page.partition(f"\n## {heading}\n")[2].splitlines():
        if line.startswith("## ") or (rows and not line.startswith("|")):
            break
        if line.startswith("|"):
            rows.append([cell.strip() for cell in line.strip("|").split("|")])
    return [row for row in rows if not set(row[0]) <= set("-: ")]


def number(cell: str) -> float | None:
    """The number of a cell, if it has one."""
    try:
        return float(cell.replace(",", ""))
    except ValueError:
        return None


def bars(rows: list[list[str]], column: int, names: int = 1, ours: str = "dpv") -> list[Bar]:
    """The bars of a column of rows, each named by its first cells; the last of these shows whether it is one of dpv."""
    return [Bar(", ".join(row[:names]), value, row[names - 1] == ours) for row in rows if (value := number(row[column])) is not None]


def groups(page: str) -> list[Group]:
    """What is drawn."""
    head, *filters = table(page, "A filter beside other programs")
    time, count = head.index("ns, 60 bytes"), head.index("instructions, 60 bytes")
    node, *nodes = table(page, "Nodes beside C over DPDK, and eBPF")
    ratios = [it._replace(is_ours=True) for it in bars(nodes, node.index("dpv / C"))]
    _, *live = table(page, "Live frames over DPDK's devices")
    by_value = operator.attrgetter("value")
    return [
        Group("14 bytes taken off a record of 60", "ns of processor time", 0, sorted(bars(filters, time), key=by_value)),
        Group("the same, without the kernel", "machine instructions", 0, sorted(bars(filters, count), key=by_value)),
        Group("nodes of examples/, in times of C over DPDK", "times", 1, sorted(ratios, key=by_value)),
        Group("a live frame of 60 bytes over DPDK's devices", "ns of processor time", 0, bars(live, 2, names=2, ours="the host")),
    ]


def text(x: float, y: float, words: str, more: str = "") -> str:
    """Words at a place."""
    return f'<text x="{x:.0f}" y="{y:.0f}"{more}>{words}</text>'


def drawn(found: list[Group]) -> str:
    """The picture."""
    parts, y = [], 10
    for group in found:
        most, room = max(bar.value for bar in group.bars), WIDTH - LEFT - RIGHT
        parts.append(text(10, y + 22, f"{group.title} ({group.unit})", ' font-weight="bold"'))
        y += HEAD - 10
        top = y
        for bar in group.bars:
            length = bar.value / most * room
            parts.append(text(LEFT - 8, y + BAR - 3, bar.name, ' text-anchor="end"'))
            parts.append(f'<rect x="{LEFT}" y="{y}" width="{length:.1f}" height="{BAR}" fill="{OURS if bar.is_ours else THEIRS}"/>')
            parts.append(text(LEFT + length + 6, y + BAR - 3, f"{bar.value:,.2f}" if group.mark else f"{bar.value:,.0f}"))
            y += BAR + GAP
        if group.mark:
            x = LEFT + group.mark / most * room
            parts.append(f'<line x1="{x:.1f}" y1="{top - 3}" x2="{x:.1f}" y2="{y - GAP + 3}" stroke="{LINE}" stroke-dasharray="4 3"/>')
        y += 12
    begin = f'<svg xmlns="http://www.w3.org/2000/svg" width="{WIDTH}" height="{y}" font-family="sans-serif" font-size="12" fill="#222">'
    return "\n".join([begin, f'<rect width="{WIDTH}" height="{y}" fill="#ffffff"/>', *parts, "</svg>", ""])


def main() -> int:
    picture = drawn(groups(PAGE.read_text()))
    if "--check" in sys.argv[1:]:
        is_same = PICTURE.exists() and PICTURE.read_text() == picture
        print(f"chart: docs/speed.svg is {'that of the tables' if is_same else 'not that of the tables: run bench/chart.py'}")
        return 0 if is_same else 1
    PICTURE.write_text(picture)
    return 0


if __name__ == "__main__":
    sys.exit(main())
