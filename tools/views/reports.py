"""The verdicts of programs: why one is refused, in words, and the document of all of them."""
from documents import Document, say_document
from reasons import refusal_in, words_for


def lines_of(node: Document) -> list[str]:
    """Why a program is refused, in lines."""
    it = refusal_in(node)
    words, line = words_for(it), it.line
    place = f"{it.file}:{line.number}: {line.text}"
    return [place, f"  {words.states}", f"  known:  {words.known}", f"  wanted: {words.wanted}", f"  help:   {words.help}"]


def say_refusal(document: Document) -> str:
    """What stands after the verdict on a program that is refused."""
    return "".join(f"{line}\n" for line in lines_of(document))


def say_refusal_at(document: Document) -> str:
    """What is reported after the verdict on a program by itself that has no certificate."""
    return f"  at: {say_refusal(document)}"


def verdict_of(node: Document) -> tuple[str, str]:
    """The verdict on a refused program in a word or two, and in a line."""
    at = node["refused"]
    word = "refused" if at["given"] else "not inferred"
    return word, f"{node['node']} {word} at {at['label']} by J{at['rule']}"


def explained(node: Document) -> Document:
    """The members of a refused program whose reason is known that only such a one has."""
    it = refusal_in(node)
    words, line = words_for(it), it.line
    place = {"file": it.file, "line": line.number, "instruction": line.code, "comment": line.comment}
    return place | words._asdict() | {"reason": [verdict_of(node)[1], *lines_of(node)]}


def node_of(node: Document) -> Document:
    """A node of the document of a report."""
    at = node.get("refused")
    if not at:
        return {"node": node["node"], "verdict": "accepted"}
    own = {"node": node["node"], "label": at["label"], "rule": f"J{at['rule']}", "verdict": verdict_of(node)[0]}
    return own | (explained(node) if "why" in node else {})


def say_report(document: Document) -> str:
    """The document of a report: the fault that ended the command, if one did, and the verdicts, if it came to them."""
    made: Document = {"fault": document.get("fault")}
    if "nodes" in document:
        made["nodes"] = [node_of(node) for node in document["nodes"]]
    return say_document(made)
