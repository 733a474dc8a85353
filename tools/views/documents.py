"""Documents: those that the program prints, and those of --json; words that are not taken; and numbers with what they count."""
import json
from collections.abc import Callable
from typing import Any

Document = dict[str, Any]
# What is said of a document, with the newlines.
Saying = Callable[[Document], str]
# The largest number that a document of --json has as one; a larger one is a string of its digits.
MOST_NUMBER = 2**53
# The exit statuses of words that are not taken, and of a fault.
USAGE, FAULT = 2, 3


# The numbers of the parts of a run, by their names in the order in which the program prints them; and the states of inputs, by their numbers.
PARTS = {
    "pools": "count free least refused room", "rings": "count full left most",
    "ports": "cut_at full input nobuf oversize pool queue received segs sent truncated",
}
STATES = ("whole", "cut", "open")


class Refused(Exception):
    """A word that is not taken: what is reported, and the exit status with which the command ends at once."""

    def __init__(self, reported: str, status: int) -> None:
        super().__init__(reported)
        self.reported, self.status = reported, status


def number(it: int) -> int | str:
    """A number as a document of --json has it."""
    return it if it <= MOST_NUMBER else str(it)


def facts_of_run(given: Document) -> Document:
    """The facts of a run, with the numbers of its parts by their names."""
    parts = {part: [dict(zip(names.split(), it)) for it in given[part]] for part, names in PARTS.items()}
    for port in parts["ports"]:
        port["input"] = STATES[port["input"]]
        port["cut_at"] = port["cut_at"] if port["input"] == "cut" else None
    return given | parts


def say_document(document: Document) -> str:
    """A document of --json, on one line."""
    return json.dumps(document, ensure_ascii=False, separators=(",", ":"), sort_keys=True) + "\n"


def plural(number: int, one: str, others: str = "") -> str:
    """A number, with the words for one or for any other, which end in an s if they are not given."""
    return f"{number} {one if number == 1 else others or f'{one}s'}"
