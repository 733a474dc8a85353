"""Which records of a trace are printed, and how: the words of --only, --match, --instr and --json."""
import re
from collections.abc import Callable
from typing import NamedTuple

from documents import USAGE, Document, Refused
from program_text import decimal_in
from summary import untagged

# The greatest number of a record, and the greatest number of 16 bits.
MAX_RECORDS, MAX_SHORT = 1 << 27, 65535
OUTCOMES = ("sent", "freed", "refused", "cut")
# What is reported of a word that is not taken.
FORMS = {
    "only": "none of sent, freed, refused and cut, and no number of a record",
    "match": "neither an address A.B.C.D nor BYTES@OFFSET, as 0800@12",
}


def number_in(word: str, greatest: int) -> int | None:
    """A number of decimal digits, if it is not too great."""
    number = decimal_in(word)
    return None if number is None or number > greatest else number


class Pattern(NamedTuple):
    """Bytes of a record and their offset; without one they are an IPv4 address, its source or its destination."""

    data: bytes
    offset: int | None

    def is_in(self, record: bytes) -> bool:
        """Whether a record has the bytes. An address is looked for after VLAN tags, too."""
        if self.offset is not None:
            return record.startswith(self.data, self.offset)
        _, rest = untagged(record)
        return rest.startswith(b"\x08\x00") and (rest.startswith(self.data, 14) or rest.startswith(self.data, 18))


def pattern_in(word: str) -> Pattern | None:
    """What a word of --match means."""
    digits, mark, offset = word.partition("@")
    if not mark:
        parts = [number_in(part, 255) for part in word.split(".")]
        return Pattern(bytes(part for part in parts if part is not None), None) if len(parts) == 4 and None not in parts else None
    at = number_in(offset, MAX_SHORT)
    if at is None or not re.fullmatch(":*([0-9a-fA-F]{2}:*){1,16}", digits):
        return None
    return Pattern(bytes.fromhex(digits.replace(":", "")), at)


def only_in(word: str) -> str | int | None:
    """What a word of --only means: an outcome, or the number of a record."""
    return word if word in OUTCOMES else number_in(word, MAX_RECORDS) or None


class Picked(NamedTuple):
    """How a trace is printed, and which records of it: those that pass each test that is given."""

    only: str | int | None = None
    match: Pattern | None = None
    instr: str | None = None
    is_json: bool = False

    @property
    def is_selective(self) -> bool:
        """Whether a test is given."""
        return (self.only, self.match, self.instr) != (None, None, None)


def picked(given: Document) -> Picked:
    """What the words of a trace ask for. Ends the command if one is not taken."""
    read: dict[str, Callable[[str], object]] = {"only": only_in, "match": pattern_in}
    for name, form in FORMS.items():
        if given[name] is not None and read[name](given[name]) is None:
            raise Refused(f"error: '{given[name]}' is {form}\n", USAGE)
    only, match = given["only"], given["match"]
    return Picked(only_in(only or ""), pattern_in(match or ""), given["instr"], given["to_json"])
