"""What `dpv build --prove` prints."""
import importlib.util
import pathlib
import re
import sys
from collections import Counter

TOP = pathlib.Path(__file__).resolve().parent.parent.parent.parent
# Where Debian has z3, which another Python than Debian's does not look for.
DEBIAN = "/usr/lib/python3/dist-packages"
STATUS = {"proved": 0, "different": 1, "open": 3}
CANNOT = 70


def lacks() -> str:
    """What is needed and not there, if anything; else the modules can be imported."""
    if not (TOP / "tests/pkt_model").is_dir():
        return "the folder tests of the repository"
    if str(TOP / "tests") not in sys.path:
        sys.path.insert(1, str(TOP / "tests"))
    if importlib.util.find_spec("z3") is None and pathlib.Path(DEBIAN, "z3").is_dir():
        sys.path.append(DEBIAN)
    return "" if importlib.util.find_spec("z3") else "python3-z3"


def prove_text(source: str, text: str, folder: pathlib.Path, rounds: int, seconds: float) -> int:
    """Proves that a node program does what its source in a folder says. Returns the status: 0, 1 for a difference, 3 if it is open, 70 without z3."""
    missing = lacks()
    if missing:
        print(f"dpv build --prove needs {missing}", file=sys.stderr)
        return CANNOT
    from .decide import prove
    result = prove(source, text, rounds, seconds, folder=folder)
    print(result.line())
    if result.verdict == "proved":
        print(*unreached(text, result.seen), sep="\n", end="")
    return STATUS[result.verdict]


def unreached(text: str, seen: set[int]) -> list[str]:
    """What is said of instructions that no packet reaches, by their lines of the source; nothing if there are none."""
    rows = [row for row in text.splitlines() if row.startswith(" ")]
    places = (re.search(r"# (?:count \w+: )?((?:[^ :]+:)?\d+): ", row) for k, row in enumerate(rows) if k not in seen)
    lines = Counter(f"line {place[1]}" if place else "the end" for place in places)
    if not lines:
        return []
    total = lines.total()
    said = ", ".join(f"{line} has {count}" for line, count in lines.most_common(5))
    return [f"no packet reaches {total} of {len(rows)} instructions: {said}",
            "  help: what stands before these lines decides what they ask; they may ask less, or a `need` before them may ask it once. "
            "A header after options has tests that only the checker needs", ""]
