"""What a pipeline takes: with `dpv check --cost` the instructions of its programs and of the turn of a record, with `--sizes` the bytes of its parts."""
from documents import Document, say_document


def loops_of(document: Document) -> list[int]:
    """The rings that lead to themselves, perhaps over others."""
    ways = {int(node["node"].split()[1]): set(node["rings"]) for node in document["nodes"] if node["node"].startswith("ring")}
    for over in ways:
        ways = {ring: way | ways[over] if over in way else way for ring, way in ways.items()}
    return [ring for ring in sorted(ways) if ring in ways[ring]]


def text_of(document: Document) -> str:
    """The costs as text."""
    lines = []
    for node in document["nodes"]:
        back = "" if node["back"] is None else f": it can jump back at {node['back']}"
        lines.append(f"{node['node']} takes at most {node['cost']} instructions{back}")
    steps, turn = document["steps"], document["turn"]
    waiting = f", {turn - steps} on packets in rings" if turn > steps else ""
    lines.append(f"the turn of a record takes at most {turn} instructions: {steps} on port {document['port']}{waiting}")
    lines += [f"ring {ring} leads to itself: there is no bound for all turns in which a packet runs" for ring in loops_of(document)]
    return "".join(f"{line}\n" for line in lines)


def say_costs(document: Document) -> str:
    """The costs as text, or as the document of --json."""
    if not document["json"]:
        return text_of(document)
    nodes = [{"back": node["back"], "cost": node["cost"], "node": node["node"], "verdict": "accepted"} for node in document["nodes"]]
    turn = {"cost": document["turn"], "loops": loops_of(document), "port": document["port"]}
    return say_document({"fault": None, "nodes": nodes, "turn": turn})


def say_sizes(document: Document) -> str:
    """A line for each zone that the engine takes, their sum, the size of the region and what is left of it, or missing, all in bytes."""
    env, needed, region = document["env"], document["needed"], document["region"]
    lines = []
    for k, (pool, sizes) in enumerate(zip(env["pools"], document["pools"])):
        words = (f"{pool['count']} buffers with room {pool['room']}", "the queue of free buffers")
        lines += [(f"pool {k}  {it}", size) for it, size in zip(words, sizes)]
    lines += [(f"ring {k}  {slots} slots", size) for k, (slots, size) in enumerate(zip(env["rings"], document["rings"]))]
    lines += [(f"port {k}  transmit list of {port['queue']} slots", size) for k, (port, size) in enumerate(zip(env["ports"], document["lists"]))]
    lines += [("sum", needed), ("region", region), ("left" if needed <= region else "missing", abs(region - needed))]
    return "".join(f"{words:<42}{size:>12}\n" for words, size in lines)
