"""Heap scripts: what each command has to print (docs/reference/pipelines.md)."""
import re
from dataclasses import dataclass, field

HEADER = 64
SPLIT = 128
BIGGEST = 4_294_967_295


@dataclass
class Element:
    """A part of the region."""

    place: int
    size: int
    free: bool = True
    pad: int = 0


@dataclass
class Heap:
    """The elements of a region, and where the allocated blocks begin."""

    size: int
    elements: list[Element] = field(init=False)
    held: dict[int, Element] = field(default_factory=dict)
    given: int = 0

    def __post_init__(self) -> None:
        self.elements = [Element(0, self.size)]

    def data(self, element: Element, size: int, align: int) -> int:
        """Where data of this size would begin in a free element: the highest multiple, negative where none fits."""
        place = (element.place + element.size - size) // align * align
        return place if place >= element.place + HEADER else -1

    def malloc(self, size: int, align: int, printed: str) -> str:
        """The line of an allocation. Any free element that fits may be taken: the printed line says which."""
        if size == 0:
            return "refused 1 ZeroSize"
        if align & (align - 1):
            return "refused 2 BadAlign"
        size, align = -(-size // 64) * 64, max(align, 64)
        fitting = [element for element in self.elements if element.free and self.data(element, size, align) >= 0]
        if not fitting:
            return "refused 3 NoRoom"
        reported = re.fullmatch(r"\d+ data (\d+) element \d+ \+ \d+", printed)
        taken = next((e for e in fitting if reported and e.place <= int(reported[1]) < e.place + e.size), fitting[0])
        return self.take(taken, self.data(taken, size, align), size)

    def take(self, element: Element, data: int, size: int) -> str:
        """Splits off what is left before and after the block, if it is more than 128 bytes."""
        at, end = self.elements.index(element), element.place + element.size
        front, behind = data - HEADER - element.place, end - (data + size)
        place = data - HEADER if front > SPLIT else element.place
        stop = data + size if behind > SPLIT else end
        busy = Element(place, stop - place, False, data - HEADER - place)
        before = [Element(element.place, front)] if front > SPLIT else []
        after = [Element(stop, end - stop)] if behind > SPLIT else []
        self.elements[at : at + 1] = [*before, busy, *after]
        self.given += 1
        self.held[self.given] = busy
        return f"{self.given} data {data} element {busy.place} + {busy.size}"

    def give_back(self, number: int) -> str:
        """Frees a block, and merges its free neighbours."""
        busy = self.held.pop(number)
        busy.free, busy.pad = True, 0
        merged: list[Element] = []
        for element in self.elements:
            if merged and merged[-1].free and element.free:
                merged[-1] = Element(merged[-1].place, merged[-1].size + element.size)
            else:
                merged.append(element)
        self.elements = merged
        return f"freed {number}"

    def listed(self) -> list[str]:
        """An element a line."""
        return [f"FREE {e.place} + {e.size}" if e.free else f"BUSY {e.place} + {e.size} pad {e.pad}" for e in self.elements]

    def stats(self) -> str:
        """How many elements are free and busy, and their bytes."""
        free, busy = ([e.size for e in self.elements if e.free == state] for state in (True, False))
        return f"free {len(free)} bytes {sum(free)} busy {len(busy)} bytes {sum(busy)}"


def numbers(words: list[bytes]) -> list[int] | None:
    """The numbers that words spell."""
    if not all(re.fullmatch(rb"[0-9]+", word) for word in words):
        return None
    values = [int(word.lstrip(b"0")[:40] or b"0") for word in words]
    return values if all(value <= BIGGEST for value in values) else None


def command(heap: Heap | None, line: bytes, printed: list[str]) -> tuple[Heap | None, list[str]] | None:
    """The heap after a command, and the lines that it prints; nothing for a bad command."""
    word, *words = line.split(b" ")
    values = numbers(words)
    form = (word, None if values is None else len(values))
    if heap is None:
        is_region = form == (b"region", 1) and values[0] % 64 == 0 and 4096 <= values[0] <= 1 << 30
        return (Heap(values[0]), []) if is_region else None
    if form in ((b"malloc", 2), (b"zmalloc", 2)):
        return heap, [heap.malloc(*values, printed[0] if printed else "")]
    if form == (b"free", 1) and values[0] in heap.held:
        return heap, [heap.give_back(values[0])]
    if form == (b"list", 0):
        return heap, heap.listed()
    return (heap, [heap.stats()]) if form == (b"stats", 0) else None


def answer(script: bytes, printed: str) -> tuple[int, str, str]:
    """The status, and what is printed on both streams, given what was printed."""
    heap, lines, reported = None, [], printed.split("\n")
    for at, line in enumerate(script.split(b"\n"), 1):
        if not line:
            continue
        done = command(heap, line, reported[len(lines) :])
        if done is None:
            return 3, "".join(text + "\n" for text in lines), f"fault: line {at} bad command\n"
        heap = done[0]
        lines += done[1]
    return 0, "".join(text + "\n" for text in lines), ""
