#!/usr/bin/env python3
"""Draws docs/first.svg, the picture of README: a program goes to the checker, and a capture through the engine.

Usage: bench/first.py [--check]   (with --check it writes nothing, and exits with 1 where the picture differs)
Python's standard library alone.
"""
import pathlib
import sys
from typing import NamedTuple

PICTURE = pathlib.Path(__file__).resolve().parent.parent / "docs/first.svg"
WIDTH, HEIGHT = 860, 260
GREY, BLUE, RED, GREEN = "#b9c4c9", "#1f6f8b", "#c0392b", "#2e7d32"


class Box(NamedTuple):
    """A box with a title and a line of words below it."""

    x: int
    y: int
    colour: str
    title: str
    words: str


class Arrow(NamedTuple):
    """An arrow between two places, with words beside its middle."""

    x1: int
    y1: int
    x2: int
    y2: int
    colour: str
    words: str


BOX_WIDTH, BOX_HEIGHT = 210, 70
BOXES = (
    Box(20, 25, GREY, "program", "in pkt, or in instructions"),
    Box(325, 25, BLUE, "checker", "before the first packet"),
    Box(630, 25, RED, "refused", "the line, the rule and a cure"),
    Box(20, 165, GREY, "in.pcap", "up to eight ports"),
    Box(325, 165, BLUE, "engine", "pools of buffers, clones, rings"),
    Box(630, 165, GREY, "out.pcap", "and no buffer is missing"),
)
ARROWS = (
    Arrow(230, 60, 325, 60, "#222", "dpv check"),
    Arrow(535, 60, 630, 60, RED, "no"),
    Arrow(430, 95, 430, 165, GREEN, "accepted"),
    Arrow(230, 200, 325, 200, "#222", "dpv run"),
    Arrow(535, 200, 630, 200, "#222", "packets"),
)


def box(it: Box) -> list[str]:
    """A box."""
    middle = it.x + BOX_WIDTH // 2
    return [
        f'<rect x="{it.x}" y="{it.y}" width="{BOX_WIDTH}" height="{BOX_HEIGHT}" rx="6" fill="#fff" stroke="{it.colour}" stroke-width="2"/>',
        f'<text x="{middle}" y="{it.y + 30}" text-anchor="middle" font-size="16" font-weight="bold">{it.title}</text>',
        f'<text x="{middle}" y="{it.y + 52}" text-anchor="middle">{it.words}</text>',
    ]


def arrow(it: Arrow) -> list[str]:
    """An arrow: its line, its head, and its words above the line or right of it."""
    is_down = it.x1 == it.x2
    end = (it.x2, it.y2 - 8) if is_down else (it.x2 - 8, it.y2)
    head = f"{it.x2 - 5},{it.y2 - 9} {it.x2 + 5},{it.y2 - 9}" if is_down else f"{it.x2 - 9},{it.y2 - 5} {it.x2 - 9},{it.y2 + 5}"
    place = f'x="{it.x1 + 10}" y="{(it.y1 + it.y2) // 2 + 4}"' if is_down else f'x="{(it.x1 + it.x2) // 2}" y="{it.y1 - 8}" text-anchor="middle"'
    return [
        f'<line x1="{it.x1}" y1="{it.y1}" x2="{end[0]}" y2="{end[1]}" stroke="{it.colour}" stroke-width="2"/>',
        f'<polygon points="{it.x2},{it.y2} {head}" fill="{it.colour}"/>',
        f'<text {place} fill="{it.colour}">{it.words}</text>',
    ]


def drawn() -> str:
    """The picture."""
    begin = f'<svg xmlns="http://www.w3.org/2000/svg" width="{WIDTH}" height="{HEIGHT}" font-family="sans-serif" font-size="13" fill="#222">'
    parts = [part for it in BOXES for part in box(it)] + [part for it in ARROWS for part in arrow(it)]
    return "\n".join([begin, f'<rect width="{WIDTH}" height="{HEIGHT}" fill="#ffffff"/>', *parts, "</svg>", ""])


def main() -> int:
    """Writes the picture, or compares it."""
    if "--check" in sys.argv[1:]:
        is_same = PICTURE.exists() and PICTURE.read_text() == drawn()
        print(f"first: docs/first.svg is {'that of this script' if is_same else 'another one: run bench/first.py'}")
        return 0 if is_same else 1
    PICTURE.write_text(drawn())
    return 0


if __name__ == "__main__":
    sys.exit(main())
