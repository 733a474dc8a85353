"""What is said of a run beyond its report: its counts, and its document of --json."""
from counted_programs import Program, Step, program_of
from counts import LineCounts, Place, lines_of, named_in, places_of, say_lines, say_place, say_refusals
from documents import Document, facts_of_run, number, say_document
from node_forms import ENDS, JUMPS
from program_text import Line, number_in


def programs_in(facts: Document) -> list[Program]:
    """The programs of a run."""
    return [program_of(node) for node in facts.get("nodes", [])]


def say_counts(given: Document) -> str:
    """The counts of a run that are wanted, after the programs with the counts of each instruction."""
    facts, text = facts_of_run(given), ""
    programs = programs_in(facts)
    if facts["counts"]:
        text += say_refusals("port", "full", [it["full"] for it in facts["ports"]])
        text += say_refusals("pool", "refused", [it["refused"] for it in facts["pools"]])
    if facts["lines"]:
        text += "".join(map(say_lines, programs))
    if facts["counts"] or facts["lines"]:
        text += "".join(f"{node} count {name} {packets}\n" for (node, name), packets in named_in(programs).items())
    return text + ("".join(map(say_place, places_of(facts, programs))) if facts["drops"] else "")


def instruction_of(label: int, step: Step) -> Document:
    """An instruction with its counts."""
    line = step.line
    return {
        "comment": line.comment,
        "cut": number(step.cut),
        "ends": ENDS.get(line.word),
        "label": label,
        "ran": number(step.ran),
        "taken": number(step.taken) if line.word in JUMPS - {"jmp"} else None,
        "text": line.code,
    }


def node_of(program: Program) -> Document:
    """A program with its counts."""
    return {"file": program.name, "instructions": [instruction_of(k, it) for k, it in enumerate(program.steps)], "node": program.node}


def steps_on(programs: list[Program], word: str, thing: int) -> list[Step]:
    """The instructions with this word on the table or ring of this number."""
    steps = (step for it in programs for step in it.steps if step.line.word == word)
    return [step for step in steps if number_in(step.line.operands[1]) == thing]


def table_of(programs: list[Program], table: int) -> Document:
    """The lookups in a table."""
    steps = steps_on(programs, "lookup", table)
    return {"hits": number(sum(it.passed for it in steps)), "misses": number(sum(it.refused for it in steps)), "table": table}


def ring_of(programs: list[Program], k: int, ring: Document) -> Document:
    """How full a ring was."""
    full = sum(it.refused for it in steps_on(programs, "enq", k))
    return {"capacity": max(ring["count"] - 1, 0), "full": number(full), "most": ring["most"], "ring": k}


def counts_of(facts: Document, programs: list[Program]) -> Document:
    """The programs with their counts, the sums for each table and ring, and the least free buffers of each pool."""
    return {
        "nodes": [node_of(it) for it in programs],
        "pools": [{"count": it["count"], "least": min(it["least"], it["count"]), "pool": k} for k, it in enumerate(facts["pools"])],
        "rings": [ring_of(programs, k, it) for k, it in enumerate(facts["rings"])],
        "tables": [table_of(programs, table) for table in range(facts["tables"])],
    }


def line_of(line: LineCounts) -> Document:
    """A line of a source with its counts."""
    file, place, text, _ = line.origin
    return {
        "came": number(line.came),
        "dropped": number(line.dropped),
        "file": file,
        "line": None if place is None else number(place),
        "sent": number(line.sent),
        "text": text,
    }


def place_of(place: Place) -> Document:
    """A place where packets ended. What `dpv build` wrote a program from is code alone."""
    it: Document = {"comment": None, "file": None, "line": None, "node": place.node, "packets": number(place.packets), "text": None, "why": place.why}
    if place.origin:
        file, line, text, is_built = place.origin
        own = Line(0, text)
        it |= {"file": file, "line": None if line is None else number(line)}
        it |= {"text": text} if is_built else {"comment": own.comment, "text": own.code}
    return it


def port_of(k: int, port: Document) -> Document:
    """The numbers of a port."""
    names = ("cut_at", "full", "input", "nobuf", "oversize", "port", "received", "sent", "truncated")
    return {name: k if name == "port" else port[name] for name in names}


def parts_of(facts: Document) -> Document:
    """The members of a run's document. What is not wanted has no member."""
    programs = programs_in(facts)
    document: Document = {name: facts[name] for name in ("calls", "cut", "fault", "refused")}
    document["pools"] = [{"count": it["count"], "free": it["free"], "pool": k, "refused": it["refused"]} for k, it in enumerate(facts["pools"])]
    document["ports"] = [port_of(k, it) for k, it in enumerate(facts["ports"])]
    document["rings"] = [{"full": it["full"], "left": it["left"], "ring": k} for k, it in enumerate(facts["rings"])]
    if facts["counts"]:
        document["counts"] = counts_of(facts, programs)
    if facts["drops"]:
        document["drops"] = [place_of(it) for it in places_of(facts, programs)]
    if facts["lines"]:
        document["lines"] = [{"file": it.file, "lines": [line_of(line) for line in lines_of(it)], "node": it.node} for it in programs]
    if facts["counts"] or facts["lines"]:
        named = named_in(programs).items()
        document["named"] = [{"name": name, "node": node, "packets": number(packets)} for (node, name), packets in named]
    return document


def say_run(given: Document) -> str:
    """The document of a run."""
    return say_document(parts_of(facts_of_run(given)))
