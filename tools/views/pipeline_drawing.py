"""Draws a pipeline for `dot`: its ports, programs, rings, tables and pools, and where packets go from each."""
from certificates import Row
from documents import Document, plural
from drawing import attributes, escaped
from node_forms import SENDS, fields_of
from node_programs import Judged
from program_text import Instruction, number_in

# The places of a pipeline in the order of their arrows, and how an arrow to each is drawn. A field of an instruction that has the number of one, but
# an output, has the name of its kind.
PLACES = {"out": "", "ring": "", "pool": " [style=dotted]", "table": " [style=dotted]"}
HEAD = """digraph pipeline {
  rankdir=LR;
  node [shape=box, fontname=monospace, margin="0.15,0.1"];
"""


def used_by(it: Instruction, row: Row, ports: int) -> list[tuple[str, int | None]]:
    """The places that an instruction can use: none if it is never reached, and `tx` the ports up to the greatest value of its register."""
    if not row.live:
        return []
    word, operands = it.line.word, it.line.operands
    if SENDS.get(word) == "port":
        return [("out", port) for port in range(min(row.bounds[int(operands[1][1:])] + 1, ports))]
    return [(name, number_in(operand)) for (name, _), operand in zip(fields_of(word), operands) if name in PLACES]


def node_text(judged: Judged, env: Document) -> str:
    """The box of a node's program, the arrow to it from its port or ring, and the arrows from it to all places that it can use."""
    kind, number = judged.node.split()
    name, count = f"program_{kind}{number}", len(judged.instructions)
    rows = zip(judged.instructions, judged.rows)
    used = {place for it, row in rows for place in used_by(it, row, len(env["ports"]))}
    there = {"out": len(env["ports"]), "ring": len(env["rings"]), "pool": len(env["pools"]), "table": env["tables"]}
    label = f"<B>{escaped(judged.file)}</B><BR/>{judged.verdict}<BR/>{plural(count, 'instruction')}"
    box = f"  {name} [style=rounded, label=<{label}>{attributes(True, judged.refused is not None)}];\n"
    arrows = [f"  {name} -> {place}{to}{style};\n" for to in range(8) for place, style in PLACES.items() if to < there[place] and (place, to) in used]
    return f"{box}  {'in' if kind == 'port' else kind}{number} -> {name};\n{''.join(arrows)}"


def pipeline_text(env: Document, nodes: list[Judged]) -> str:
    """The picture of a pipeline: its ports, rings, pools and tables, and its programs."""
    ports = "".join(
        f'  {{ rank=source; in{k} [shape=cds, label="port {k} in\\npool {port["pool"]}"]; }}\n'
        f'  {{ rank=sink; out{k} [shape=cds, label="port {k} out\\nlist of {port["queue"]}"]; }}\n'
        for k, port in enumerate(env["ports"])
    )
    rings = "".join(f'  ring{k} [shape=ellipse, label="ring {k}\\n{slots} slots"];\n' for k, slots in enumerate(env["rings"]))
    pools = "".join(
        f'  pool{k} [shape=cylinder, label="pool {k}\\n{pool["count"]} buffers\\nroom {pool["room"]}"];\n' for k, pool in enumerate(env["pools"])
    )
    tables = "".join(f'  table{k} [shape=note, label="table {k}"];\n' for k in range(env["tables"]))
    return f"{HEAD}{ports}{rings}{pools}{tables}{''.join(node_text(node, env) for node in nodes)}}}\n"
