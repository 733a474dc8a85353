"""What is known of a packet register, and its words."""
from typing import Any, NamedTuple

from documents import plural

# How a packet is shared; from 8 on, the group of registers that have its buffers.
SHARES, FIRST_GROUP = {0: "loose", 1: "head sole", 2: "sole"}, 8
# What is measured of a packet, in the order of a fact.
MEASURES = {"head": "headroom", "tail": "tailroom", "first": "first", "last": "last"}


class Fact(NamedTuple):
    """What is known of a packet in a register: how it is shared, its rooms and lengths, and how many segments it has at most."""

    share: int
    head: int
    tail: int
    first: int
    last: int
    segs: int


def fact_in(numbers: list[Any] | None) -> Fact | None:
    """The fact of a document; none for a register without a packet."""
    return Fact(*numbers) if numbers else None


def segments(count: int) -> str:
    """The most segments that a packet can have."""
    return f"at most {plural(count, 'segment')}"


def measured(name: str, count: int) -> str:
    """A room or a length."""
    return f"{MEASURES[name]} {count}"


def parts_of(fact: Fact) -> list[str]:
    """The parts of a fact."""
    share = SHARES.get(fact.share, f"in group p{max(fact.share - FIRST_GROUP, 0)}")
    return [share, *(measured(name, getattr(fact, name)) for name in MEASURES), segments(fact.segs)]


def words_of(fact: Fact | None) -> str:
    """What is known of a packet register, as `sole, headroom 128, first 14, at most 1 segment`. Rooms and lengths that are not known are left out."""
    unknown = [measured(name, 0) for name in MEASURES]
    return ", ".join(part for part in (parts_of(fact) if fact else ["empty"]) if part not in unknown)


def change_of(now: Fact | None, before: Fact | None) -> str:
    """What is known of a packet register; only what changed, if it held a packet before and does now."""
    if now is None or before is None:
        return words_of(now)
    return ", ".join(part for part, was in zip(parts_of(now), parts_of(before)) if part != was)
