"""Heap scripts."""
from random import Random

from model import heap

from .noise import changed_bytes


def heap_script(rng: Random) -> bytes:
    """A heap script, most of whose commands are not refused."""
    region = rng.choice((4096, 4096, 4160, 8192, 65_536, 1 << 20))
    lines, played = [f"region {region}"], heap.Heap(region)
    for _ in range(rng.choice((3, 10, 40))):
        edge = rng.choice((0, 1, 63, 64, 65, 100, 128, 192, 256, 1000, region - 64, region - 192, rng.randrange(region + 100)))
        size = rng.choice((edge, rng.randrange(600), 64 * rng.randrange(1, 9)))
        align = rng.choice((0, 0, 0, 1, 64, 128, 256, 1024, 4096, 96, rng.randrange(300), 1 << 31))
        held = rng.choice(list(played.held) or [1]) if rng.random() < 0.99 else played.given + 1
        line = rng.choice((f"malloc {size} {align}", f"zmalloc {size} {align}", f"free {held}", f"free {held}", "list", "stats"))
        if not line.startswith("free") or held in played.held or rng.random() < 0.01:
            heap.command(played, line.encode(), [])
            lines.append(line)
    text = "\n".join(lines).encode() + b"\n" * rng.randrange(2)
    return changed_bytes(rng, text) if rng.random() < 0.2 else text
