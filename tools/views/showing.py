"""`dpv show`: a listing or a picture of what the program judged, perhaps with counts that a run printed."""
import json
from typing import Any

from documents import FAULT, Document, Refused
from drawing import Count, Picture
from faulty_files import because, helps
from node_forms import GREATEST
from node_programs import judged_in, listing_of
from pipeline_drawing import pipeline_text

# What helps if a file has no counts of a node, or those of a program that has changed since.
NO_COUNTS = "give the document that dpv run FILE --counts --json prints"
COUNT_AGAIN = "count again with the program as it is now: dpv run FILE --counts --json"
NUMBER = "a number, or its digits as a text"


class BadMember(Exception):
    """A member of a document of counts that is not what it must be."""


def number_of(value: Any) -> int | None:
    """A number below 2^64: a JSON number, or a string of its decimal digits."""
    if isinstance(value, str) and value.isascii() and value.isdigit():
        value = digits_of(value)
    return value if type(value) is int and 0 <= value <= GREATEST else None


def digits_of(text: str) -> int | float:
    """A whole number of a JSON document; -1.0 for each that is below 0 or far too great. (Python refuses to read thousands of digits.)"""
    digits = text.lstrip("0")
    return -1.0 if len(digits) > 20 or text.startswith("-") else int(digits or "0")


def step_of(step: Any, place: str, number: int) -> Count:
    """The counts of an instruction with this number."""
    step = step if isinstance(step, dict) else {}
    ran, taken = number_of(step.get("ran")), number_of(step.get("taken"))
    label = step.get("label")
    if type(label) is not int or label != number:
        raise BadMember(f"{place}.label is not the number of the instruction, from 0")
    if ran is None:
        raise BadMember(f"{place}.ran is not {NUMBER}")
    if taken is None and step.get("taken", False) is not None:
        raise BadMember(f"{place}.taken is not a number, its digits as a text, or null")
    if taken is not None and taken > ran:
        raise BadMember(f"{place}.taken is not at most ran")
    return Count(ran, taken)


def counts_of(document: Any, name: str) -> list[Count]:
    """The counts of the instructions of the node with this name."""
    if not isinstance(document, dict) or "counts" not in document:
        raise BadMember("counts is not an object")
    counts = document["counts"]
    nodes = counts.get("nodes") if isinstance(counts, dict) else None
    if not isinstance(nodes, list):
        raise BadMember("counts.nodes is not a list")
    for k, node in enumerate(nodes):
        found = node.get("node") if isinstance(node, dict) else None
        if not isinstance(found, str):
            raise BadMember(f"counts.nodes[{k}].node is not a text")
        if found == name:
            steps = node.get("instructions")
            if not isinstance(steps, list):
                raise BadMember(f"counts.nodes[{k}].instructions is not a list")
            return [step_of(step, f"counts.nodes[{k}].instructions[{number}]", number) for number, step in enumerate(steps)]
    raise BadMember(f"it has no counts of {name}")


def not_json(text: str, at: int) -> BadMember:
    """What is wrong with a text that is not JSON from this place on."""
    before = text[:at]
    column = at - before.rfind("\n") - (at == len(text))
    return BadMember(f"line {before.count(chr(10)) + 1} column {column}: the text is not JSON")


def read_json(text: str) -> Any:
    """The document that a text spells. One that ends too soon is at fault where it ends."""

    def constant(word: str) -> float:
        raise not_json(text, text.find(word))

    try:
        return json.loads(text, parse_int=digits_of, parse_constant=constant)
    except json.JSONDecodeError as error:
        is_cut = error.msg.startswith("Unterminated") or error.pos >= len(text.rstrip())
        raise not_json(text, len(text) if is_cut else error.pos) from error
    except RecursionError as error:
        raise BadMember("the text has brackets in too many brackets") from error


def read_counts(document: Document) -> list[Count]:
    """The counts in a file."""
    if "text" not in document:
        raise BadMember("it is not UTF-8")
    return counts_of(read_json(document["text"]), document["node"])


def fault_of(file: str, reason: str, cure: str) -> Refused:
    """The fault of a file of counts."""
    return Refused(f"fault: file {file}\n{because(reason)}{helps(cure)}", FAULT)


class Shows:
    """What is shown in one run of the program. The counts come before the program that they are for."""

    def __init__(self) -> None:
        self.file, self.counts = "", None

    def counted(self, document: Document) -> str:
        """Reads the counts of a node."""
        self.file = document["file"]
        try:
            self.counts = read_counts(document)
        except BadMember as error:
            raise fault_of(self.file, str(error), NO_COUNTS) from error
        return ""

    def show(self, document: Document) -> str:
        """A listing, or a picture."""
        nodes = [judged_in(node) for node in document["nodes"]]
        if document["whole"]:
            return pipeline_text(document["env"], nodes)
        [judged], counts = nodes, self.counts
        if not document["dot"]:
            return listing_of(judged)
        known, count = len(counts or []), len(judged.instructions)
        if counts is not None and known != count:
            reason = f"it has counts of {known} instructions for {judged.node}, whose program has {count}"
            raise fault_of(self.file, reason, COUNT_AGAIN)
        return Picture(judged, counts or [], document["calls"]).text()
