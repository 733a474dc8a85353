"""What is said after the line of a fault: which file, why, where in it, and what helps (docs/reference/faults.md)."""
import re
from typing import NamedTuple

from documents import Document, Saying
from faulty_files import MARKED, ORDER_MARK, because, folder_with, go_to, helps, lines_of, text_in
from pipeline_faults import has_route, pipeline_help
from program_faults import CAUSES, program_help

TOO_LONG = "it is longer than 1048576 bytes"
NOT_FETCHED = "the file cannot be fetched"
ROUTES = "each line is a route, A.B.C.D/DEPTH HOP, or begins with #"
# What helps with a line of a heap script that is no command.
COMMANDS = (
    "region N comes first, with N a multiple of 64 from 4096 to 1073741824; then malloc SIZE ALIGN, zmalloc SIZE ALIGN, "
    "free K of a block that is held, list or stats, with one blank before each number"
)
# The causes of an environment that is none, by their numbers, with the number of the part.
ENVIRONMENTS = {
    1: "there are too few or too many pools, tables, rings or ports",
    2: "pool {} is not within the limits",
    3: "ring {} is not within the limits",
    4: "port {} is not within the limits",
    5: "the pools have too many buffers in all",
}
# The causes of a route that is refused, by their numbers.
ROUTE_CAUSES = {
    1: "the depth is not 1 to 32",
    2: "the hop is above 16777215",
    3: "no room for another rule",
    4: "no group left",
    5: "no such rule",
    6: "the route is not written A.B.C.D/DEPTH HOP",
}
# The causes of a certificate that is none, by their numbers.
CERTIFICATES = {
    1: "this is not the head of a certificate",
    2: "this is not a line of 306 hexadecimal digits",
    3: "this is not a row",
    4: "there are too few or too many lines",
}
BAD_COUNT = 4
BAD_KEY = "a key is missing, unknown, of the wrong type or out of its range"
INFERRED = "the program itself is accepted with an inferred certificate: "
LEAVE_OUT = "leave out the key cert, "


class Failed(NamedTuple):
    """Why a node is not loaded, or has no verdict: the kind of the error, the node, and its numbers."""

    kind: str
    node: str
    line: int
    cause: int


def failed_in(error: str) -> Failed:
    """The error of a node that a text says, as `6 Asm port 0 line 2 cause 5` or `port 0 refused at 2 by J9`."""
    node = re.search(r"(port|ring) (\d+)", error)
    numbers = re.search(r"line (\d+) cause (\d+)", error)
    kind = re.search(r"File|Asm|BadCert|not inferred|refused", error)
    line, cause = (int(numbers[1]), int(numbers[2])) if numbers else (0, 0)
    return Failed(kind[0] if kind else "", f"{node[1]}{node[2]}" if node else "", line, cause)


def reason_of(unread: Document) -> str:
    """Why a file was not read."""
    return str(unread.get("reason", TOO_LONG))


def unread_said(document: Document) -> str:
    """Of a file that was not read."""
    return because(reason_of(document))


def routes_said(document: Document) -> str:
    """Of a file with routes that are not all printable ASCII."""
    text, is_text = text_in(document)
    strange = (number for number, line in enumerate(lines_of(text), 1) if has_route(line) and re.search("[^ -~]", line))
    if not is_text:
        reason = "it is not UTF-8"
    elif text.startswith(ORDER_MARK):
        reason = f"it {MARKED}"
    else:
        reason = f"line {next(strange, 0)} has a character that is not printable ASCII"
    return because(reason) + helps(ROUTES)


def script_said(document: Document) -> str:
    """Of a heap script with a line that is no command."""
    lines, number = lines_of(document["text"]), document["line"]
    line = lines[number - 1] if number <= len(lines) else ""
    return f"  at: {document['file']}:{number}{': ' if line else ''}{line}\n" + helps(COMMANDS)


def cause_of_pipeline(error: str) -> str:
    """Why a text is no pipeline, as its error says."""
    cause, _, *words = error.split()
    if cause == "3":
        return ENVIRONMENTS[int(words[0])].format(words[1])
    if cause == "4":
        return ROUTE_CAUSES[int(words[2])]
    return {"1": "the text is not TOML", "2": BAD_KEY}[cause]


def misread_said(document: Document) -> str:
    """Of a pipeline file that is none."""
    return because(cause_of_pipeline(document["error"])) + pipeline_help(document)


def command(document: Document, verb: str, node: str) -> str:
    """The command of this verb for a node."""
    pipeline = document.get("pipeline")
    return f"dpv {verb}-one {document['program']}" if pipeline is None else f"dpv {verb} {pipeline} {node}"


def certificate_help(document: Document, node: str, is_read: bool) -> str:
    """How to write another certificate than one that is not read or does not fit, or who says why none is inferred."""
    is_single, cert, is_accepted = "pipeline" not in document, document["cert"], document["inferred"][0]
    if is_accepted:
        words = (INFERRED if is_read else "") + ("" if is_single else f"{LEAVE_OUT}or ")
        return helps(f"{words}{command(document, 'infer', node)} > {cert}")
    words = "" if is_read else f"none is inferred: {'' if is_single else f'{LEAVE_OUT}and '}"
    given = f" {cert}" if is_read and is_single else ""
    return helps(f"{words}{command(document, 'explain', node)}{given} explains why")


def unread_node_said(document: Document) -> str:
    """Of a node with a file that was not read. It may be in the folder of the pipeline file."""
    unread = document.get("unread")
    if unread is None:
        return because(NOT_FETCHED)
    folder = folder_with(document.get("pipeline"), unread["file"])
    return f"  file: {unread['file']}\n" + unread_said(unread) + ("" if folder is None else helps(go_to(folder)))


def program_said(document: Document, failed: Failed) -> str:
    """Of a node whose program is none."""
    where = f"line {failed.line}: " if failed.line else ""
    return because(where + CAUSES[failed.cause]) + program_help(document["program"], document, failed.line, failed.cause)


def certificate_said(document: Document, failed: Failed) -> str:
    """Of a node whose certificate is none."""
    where = str(failed.line)
    if failed.cause == BAD_COUNT:
        rows, count = max(text_in(document)[0].count("\n") - 1, 0), document["inferred"][1]
        where = f" it has {rows} rows, and {document['program']} has {count} instructions"
    said = because(f"line {failed.line}: {CERTIFICATES[failed.cause]}") + f"  at: {document['cert']}:{where}\n"
    return said + certificate_help(document, failed.node, False)


def refused_said(document: Document, failed: Failed) -> str:
    """Of a node whose program is refused with its certificate."""
    said = because(f"the certificate {document['cert']} does not fit the program {document['program']}")
    return said + certificate_help(document, failed.node, True)


def uninferred_said(document: Document, failed: Failed) -> str:
    """Of a node whose program has no certificate: who explains why, if it is one of a pipeline."""
    if "pipeline" not in document:
        return ""
    words = "" if document["cert"] is None else f"{LEAVE_OUT}and "
    return helps(f"{words}{command(document, 'explain', failed.node)} explains why")


def unloaded_said(document: Document) -> str:
    """Of a node that is not loaded or has no verdict."""
    failed = failed_in(document["error"])
    said = {"Asm": program_said, "BadCert": certificate_said, "refused": refused_said, "not inferred": uninferred_said}
    return said[failed.kind](document, failed) if failed.kind in said else unread_node_said(document)


SAYINGS: dict[str, Saying] = {
    "misread": misread_said,
    "routes": routes_said,
    "script": script_said,
    "unloaded": unloaded_said,
    "unread": unread_said,
}
