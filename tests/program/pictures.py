#!/usr/bin/env python3
"""Lets the built program dpv draw all examples, and print the sizes of their parts.

Usage: tests/program/pictures.py [PROGRAM]   (the built program; by default the one that ./dpv builds and runs)
For each pipeline of examples: the picture of the pipeline has an arrow for each ring, pool and table that a program names, and for each `tx`
one to a port at least; the picture of each program has each instruction once, in the words of its source, and an arrow from each box to each
box to which it jumps, with the numbers of a document of counts, both joined and, with `--calls`, by basic blocks; all are accepted by
`dot -Tsvg`, if graphviz is installed. And the table of `dpv check FILE --sizes`
has the bytes that are computed here from the pipeline file. Programs of examples/refused are red where they are refused. Words and documents
that cannot be drawn are reported as faults. Then a pipeline and a program whose boxes and arrows are given here line by line: the numbers in the
boxes, what is never reached, what is refused, and how wide arrows are. Prints a line for each that failed, and a count; exits with 1 if one failed.
"""
import html
import json
import pathlib
import re
import shutil
import subprocess
import sys
import tomllib

import paths  # noqa: F401

from command import TOP, asked, new_folder, saying

EXAMPLES = TOP / "examples"
DOT = shutil.which("dot")
JUMPS = {"alloc", "clone", "ifhead", "iftail", "iflen", "iflast", "jmp", "jeq", "jlt", "lookup", "tx", "enq"}


def run(program: str, words: list[str], folder: pathlib.Path) -> tuple[int, str, str]:
    """The status of dpv with these words, and what it printed and reported."""
    done = subprocess.run([program, *words], cwd=folder, capture_output=True, text=True, timeout=120)
    return done.returncode, done.stdout, done.stderr


def is_drawn(text: str) -> bool:
    """Whether dot draws a text, without a warning; also if there is no dot."""
    if DOT is None:
        return True
    done = subprocess.run([DOT, "-Tsvg"], input=text, capture_output=True, text=True, timeout=120)
    return done.returncode == 0 and done.stderr == "" and "<svg" in done.stdout


def instructions_in(source: str) -> list[tuple[list[str], str, str]]:
    """The instructions of a program, each with its labels, its text and its comment."""
    found, labels = [], []
    for line in source.split("\n"):
        code, _, comment = line.partition("#")
        names, colon, text = code.rpartition(":")
        labels += [name.strip() for name in names.split(":")] if colon else []
        if text.strip():
            found.append((labels, text.strip(), comment.strip()))
            labels = []
    return found


def operands(text: str) -> tuple[str, list[str]]:
    """The word of an instruction, and its operands."""
    word, _, rest = text.partition(" ")
    return word, [part.strip() for part in rest.split(",")]


def nodes_of(pipeline: dict) -> list[tuple[str, int, str]]:
    """The nodes of a pipeline: port or ring, the number, and the name of the program file."""
    return [(kind, number, node["node"]) for kind in ("port", "ring") for number, node in enumerate(pipeline.get(kind, []))]


def named_by(source: str) -> set[str]:
    """The rings, pools and tables that the instructions of a program name, as the picture of the pipeline has them."""
    found = set()
    for _, text, _ in instructions_in(source):
        word, parts = operands(text)
        found |= {"enq": {f"ring{parts[1]}"}, "lookup": {f"table{parts[1]}"}, "alloc": {f"pool{parts[1]}"}}.get(word, set()) if len(parts) > 1 else set()
        found |= {f"pool{parts[2]}"} if word == "clone" else set()
    return found


def is_pipeline(program: str, file: pathlib.Path, pipeline: dict) -> bool:
    """Whether the picture of a pipeline has its nodes and their arrows."""
    status, text, reported = run(program, ["show", file.name, "--dot"], file.parent)
    passed = status == 0 and reported == "" and is_drawn(text)
    arrows = set(re.findall(r"^  (\w+) -> (\w+)", text, re.M))
    for kind, number, name in nodes_of(pipeline):
        source = (file.parent / name).read_text()
        box = f"program_{kind}{number}"
        passed &= (f"in{number}" if kind == "port" else f"ring{number}", box) in arrows and f"<B>{html.escape(name)}</B>" in text
        targets = {to for start, to in arrows if start == box}
        passed &= {to for to in targets if not to.startswith("out")} == named_by(source)
        sends = any(operands(text)[0] == "tx" for _, text, _ in instructions_in(source))
        passed &= sends == any(to.startswith("out") for to in targets)
    return passed


def document_of(pipeline: dict, folder: pathlib.Path) -> dict:
    """A document of counts, in which each instruction of each program has numbers of its own."""
    nodes = []
    for kind, number, name in nodes_of(pipeline):
        steps = []
        for label, (_, text, _) in enumerate(instructions_in((folder / name).read_text())):
            ran = 2 ** 53 + 1000 * label + number
            word = operands(text)[0]
            steps.append({"label": label, "text": text, "ran": str(ran), "taken": 7 * label if word in JUMPS - {"jmp"} else None})
        nodes.append({"node": f"{kind} {number}", "file": name, "instructions": steps})
    return {"counts": {"nodes": nodes}}


def heads_of(words: list[tuple[str, list[str]]], to: list[int | None], text: str, calls: bool) -> list[int]:
    """The instructions with which the boxes of a program begin; in a joined picture also those where a box that is never reached begins or ends."""
    ends = [word == "exit" or (target is not None if calls else word == "jmp") for (word, _), target in zip(words, to)]
    drawn = [int(head) for head in re.findall(r"^  L(\d+) \[label", text, re.M)]
    grey = {int(head) for head in re.findall(r"^  L(\d+) \[label(?:(?!^  L).)*?color=grey", text, re.M | re.S)}
    turns = {head for before, head in zip(drawn, drawn[1:]) if not calls and (before in grey) != (head in grey)}
    return [k for k in range(len(words)) if k == 0 or ends[k - 1] or k in to or k in turns]


def arrows_of(steps: list[dict], source: str, text: str, calls: bool) -> set[tuple[str, str, str, str]]:
    """The arrows between the boxes of a program: from, to, the style and the count."""
    listed = instructions_in(source)
    places = {label: number for number, (labels, _, _) in enumerate(listed) for label in labels}
    words = [operands(text) for _, text, _ in listed]
    to = [places[parts[-1]] if word in JUMPS else None for word, parts in words]
    jumped = [int(step["ran"] if step["taken"] is None else step["taken"]) for step in steps]
    heads, found = heads_of(words, to, text, calls), set()
    for first, end in zip(heads, [*heads[1:], len(words)]):
        if words[end - 1][0] not in ("jmp", "exit"):
            found.add((str(first), str(end), "solid", str(int(steps[end - 1]["ran"]) - (steps[end - 1]["taken"] or 0))))
        for target in {to[k] for k in range(first, end)} - {None}:
            found.add((str(first), str(target), "dashed", str(sum(jumped[k] for k in range(first, end) if to[k] == target))))
    return found


def is_program(program: str, file: pathlib.Path, node: tuple[str, int, str], steps: list[dict], counts: pathlib.Path, calls: bool) -> bool:
    """Whether the picture of a node's program has its instructions and arrows."""
    source = (file.parent / node[2]).read_text()
    show = ["show", file.name, f"{node[0]}{node[1]}", "--dot", *(["--calls"] if calls else [])]
    status, text, reported = run(program, show, file.parent)
    rows = re.findall(r'<TR><TD ALIGN="LEFT">(?:&#160;)*(\d+)&#160; (.*?)</TD><TD ALIGN="LEFT">(?:<FONT COLOR="#607080"># (.*?)</FONT>)?</TD></TR>', text)
    wanted = [(str(k), one, comment) for k, (_, one, comment) in enumerate(instructions_in(source))]
    passed = (status, reported) == (0, "") and is_drawn(text) and [tuple(map(html.unescape, row)) for row in rows] == wanted
    labels = [label for labels, _, _ in instructions_in(source) for label in labels]
    status, text, reported = run(program, [*show, "--counts", str(counts)], file.parent)
    arrows = re.findall(r'^  L(\d+) -> L(\d+) \[style=(\w+), label=" (\d+)", penwidth=[1-8]\.\d\];$', text, re.M)
    wanted_arrows = arrows_of(steps, source, text, calls)
    passed &= (status, reported) == (0, "") and is_drawn(text) and set(arrows) == wanted_arrows and len(arrows) == len(wanted_arrows)
    passed &= ('\n  size="7.5,10.9";\n' in text) != calls
    return passed and all(f"<B>{label}:</B>" in text for label in labels if label in {operands(t)[1][-1] for _, t, _ in instructions_in(source)})


def zone(length: int) -> int:
    """The bytes of a zone of this length: a header, and the length rounded up to 64."""
    return 64 + (length + 63) // 64 * 64


def sizes_of(pipeline: dict) -> list[tuple[str, int]]:
    """The lines of the table of sizes, without the words between: the pool, ring or port, or the name of a sum, and the bytes."""
    lines = []
    for number, pool in enumerate(pipeline["pool"]):
        slots = 1 << pool["count"].bit_length()
        lines += [(f"pool {number}", zone(pool["count"] * ((pool["room"] + 128 + 63) // 64 * 64))), (f"pool {number}", zone(4 * slots))]
    lines += [(f"ring {number}", zone(4 * ring["count"])) for number, ring in enumerate(pipeline.get("ring", []))]
    lines += [(f"port {number}", zone(4 * port["queue"])) for number, port in enumerate(pipeline["port"])]
    total, region = sum(bytes for _, bytes in lines), pipeline["region"]
    return [*lines, ("sum", total), ("region", region), ("left" if total <= region else "missing", abs(region - total))]


def are_sizes(program: str, file: pathlib.Path, pipeline: dict) -> bool:
    """Whether the table of a pipeline's sizes is the one computed here, in columns, after the verdicts."""
    status, text, reported = run(program, ["check", file.name, "--sizes"], file.parent)
    accepted = run(program, ["check", file.name], file.parent)[1]
    lines = text.removeprefix(accepted).splitlines()
    found = [(re.match(r"(?:pool|ring|port) \d|\w+", line)[0], int(line.split()[-1])) for line in lines]
    return status == 0 and reported == "" and text.startswith(accepted) and found == sizes_of(pipeline) and {len(line) for line in lines} == {54}


def is_example(program: str, file: pathlib.Path, folder: pathlib.Path) -> bool:
    """Whether all pictures and sizes of a pipeline are as they should be."""
    pipeline = tomllib.loads(file.read_text())
    document = document_of(pipeline, file.parent)
    counts = folder / "counts.json"
    counts.write_text(json.dumps(document))
    parts = {"pipeline": is_pipeline(program, file, pipeline), "sizes": are_sizes(program, file, pipeline)}
    for node, known in zip(nodes_of(pipeline), document["counts"]["nodes"]):
        for calls in (False, True):
            parts[f"{node[0]}{node[1]}{' --calls' * calls}"] = is_program(program, file, node, known["instructions"], counts, calls)
    for name in (name for name, passed in parts.items() if not passed):
        print(f"{file.relative_to(TOP)}: {name} is not as it should be")
    return all(parts.values())


def is_red(program: str, number: int) -> bool:
    """Whether the refused instruction of a rule's program is red, and no other."""
    node = EXAMPLES / "refused" / f"j{number}.dpv"
    cert = [f"j{number}.cert"] if node.with_suffix(".cert").exists() else []
    if node.with_suffix(".toml").exists():
        status, text, _ = run(program, ["show", f"j{number}.toml", "port0", "--dot"], node.parent)
    else:
        status, text, _ = run(program, ["show-one", node.name, *cert, "--dot"], node.parent)
    at = re.search(r"at (\d+) by J", text)
    red = re.findall(r'<TD ALIGN="LEFT" BGCOLOR="#ff9c9c">(?:&#160;)*(\d+)&#160;', text)
    passed = status == 1 and at is not None and red == [at[1]] and text.count("color=red") == 1 and is_drawn(text)
    if not passed:
        print(f"the refused instruction of examples/refused/j{number}.dpv is not red, or another is")
    return passed


def faults(folder: pathlib.Path) -> list[tuple[list[str], int, str]]:
    """Words that cannot be drawn, the status, and what is reported."""
    texts = {
        "none.json": None,
        "cut.json": '{"counts": {"nodes": [',
        "other.json": '{"verdicts": []}',
        "list.json": '{"counts": {"nodes": 3}}',
        "node.json": '{"counts": {"nodes": [{"node": "port 1", "instructions": []}]}}',
        "short.json": '{"counts": {"nodes": [{"node": "port 0", "instructions": [{"label": 0, "ran": 1, "taken": null}]}]}}',
        "name.json": '{"counts": {"nodes": [{"node": "port 1"}, {"node": 0, "instructions": []}]}}',
        "steps.json": '{"counts": {"nodes": [{"node": "port 0", "instructions": {}}]}}',
        "label.json": '{"counts": {"nodes": [{"node": "ring 0"}, {"node": "port 0", "instructions": [{"label": 0, "ran": "1", "taken": "0"}, {"label": 0}]}]}}',
        "null.json": '{"counts": {"nodes": [{"node": "port 0", "instructions": [{"label": 0, "ran": 1}]}]}}',
        "ran.json": '{"counts": {"nodes": [{"node": "port 0", "instructions": [{"label": 0, "ran": -1, "taken": null}]}]}}',
        "taken.json": '{"counts": {"nodes": [{"node": "port 0", "instructions": [{"label": 0, "ran": 1, "taken": 2}]}]}}',
        "root.json": "[]",
        "nodes.json": '{"counts": {"nodes": [null]}}',
        "true.json": '{"counts": {"nodes": [{"node": "port 0", "instructions": [{"label": false, "ran": 1, "taken": null}]}]}}',
        "minus.json": '{"counts": {"nodes": [{"node": "port 0", "instructions": [{"label": -0, "ran": 1, "taken": null}]}]}}',
        "great.json": '{"counts": {"nodes": [{"node": "port 0", "instructions": [{"label": 0, "ran": 18446744073709551616, "taken": null}]}]}}',
        "long_digits.json": f'{{"counts": {{"nodes": [{{"node": "port 0", "instructions": [{{"label": 0, "ran": {"9" * 300}, "taken": null}}]}}]}}}}',
        "digits.json": '{"counts": {"nodes": [{"node": "port 0", "instructions": [{"label": 0, "ran": "07", "taken": "8"}]}]}}',
        "plus.json": '{"counts": {"nodes": [{"node": "port 0", "instructions": [{"label": 0, "ran": "+5", "taken": null}]}]}}',
    }
    for name, text in texts.items():
        if text is not None:
            (folder / name).write_text(text)
    (folder / "latin.json").write_bytes(b'{"a": "\xff"}')
    number, give = "a number, or its digits as a text", "give the document that dpv run FILE --counts --json prints"
    because = {
        "cut.json": f"line 1 column {len(str(texts['cut.json']))}: the text is not JSON",
        "latin.json": "it is not UTF-8",
        "other.json": "counts is not an object",
        "list.json": "counts.nodes is not a list",
        "name.json": "counts.nodes[1].node is not a text",
        "steps.json": "counts.nodes[0].instructions is not a list",
        "node.json": "it has no counts of port 0",
        "label.json": "counts.nodes[1].instructions[1].label is not the number of the instruction, from 0",
        "ran.json": f"counts.nodes[0].instructions[0].ran is not {number}",
        "plus.json": f"counts.nodes[0].instructions[0].ran is not {number}",
        "root.json": "counts is not an object",
        "nodes.json": "counts.nodes[0].node is not a text",
        **dict.fromkeys(("true.json", "minus.json"), "counts.nodes[0].instructions[0].label is not the number of the instruction, from 0"),
        **dict.fromkeys(("great.json", "long_digits.json"), f"counts.nodes[0].instructions[0].ran is not {number}"),
        "digits.json": "counts.nodes[0].instructions[0].taken is not at most ran",
        "null.json": "counts.nodes[0].instructions[0].taken is not a number, its digits as a text, or null",
        "taken.json": "counts.nodes[0].instructions[0].taken is not at most ran",
    }
    show = ["show", "ttl.toml"]
    count = len(instructions_in((EXAMPLES / "ttl" / "ttl.dpv").read_text()))
    said = {name: f"{text}\n  help: {give}\n" for name, text in because.items()}
    said["none.json"] = "No such file or directory (os error 2)\n"
    again = "count again with the program as it is now: dpv run FILE --counts --json"
    said["short.json"] = f"it has counts of 1 instructions for port 0, whose program has {count}\n  help: {again}\n"
    steps = [{"label": k, "ran": 1, "taken": None} for k in range(count + 1)]
    (folder / "long.json").write_text(json.dumps({"counts": {"nodes": [{"node": "port 0", "instructions": steps}]}}))
    said["long.json"] = f"it has counts of {count + 1} instructions for port 0, whose program has {count}\n  help: {again}\n"
    cases = [([*show, "port0", "--dot", "--counts", str(folder / name)], 3, f"fault: file {folder / name}\n  because: {text}") for name, text in said.items()]
    return [
        *cases,
        (show, 2, "error: WHICH is missing, the node to be shown, such as port0; or --dot, for a picture of the whole pipeline\n"),
        ([*show, "--dot", "--counts", "none.json"], 2, "error: --counts is for the picture of one program: WHICH is missing, such as port0\n"),
        ([*show, "port0", "--counts", "none.json"], 2, "error: --counts is for a picture: add --dot, or leave it out\n"),
        ([*show, "port0", "--calls"], 2, "error: --calls is for a picture: add --dot, or leave it out\n"),
        (["show-one", "ttl.dpv", "--calls"], 2, "error: --calls is for a picture: add --dot, or leave it out\n"),
        (["show", "ttl.dpv", "--dot"], 2, "error: ttl.dpv is a program, and no pipeline file: dpv show-one ttl.dpv prints it\n"),
        (["show", "ttl.dpv"], 2, "error: ttl.dpv is a program, and no pipeline file: dpv show-one ttl.dpv prints it\n"),
        (["check", "ttl.toml", "--json", "--sizes"], 2, "error: --sizes is printed as text alone: leave out --json, or --sizes\n"),
        # (a file of counts is read before the pipeline)
        (["show", "none.toml", "port0", "--dot", "--counts", str(folder / "list.json")], 3,
         f"fault: file {folder / 'list.json'}\n  because: counts.nodes is not a list\n  help: {give}\n"),
        ([*show, "port10"], 2, "error: 'port10' names no node: port or ring, and one digit\n"),
    ]


def is_refused(program: str, words: list[str], status: int, reported: str) -> bool:
    """Whether these words end with this status and report."""
    found = run(program, words, EXAMPLES / "ttl")
    passed = found == (status, "", reported)
    if not passed:
        print(f"dpv {' '.join(words)}: status {found[0]}, reported {found[2]!r}")
    return passed


# A pipeline. Of the programs of its ports the first has instructions that are never reached, the second can send to the first two ports, and the third
# clones; that of the ring is refused.
SMALL = {
    "small.toml": "region = 262144\n[[pool]]\ncount = 8\ncache = 0\nroom = 2176\n[[pool]]\ncount = 4\ncache = 0\nroom = 192\n"
                  "[[table]]\nrules = 1\ngroups = 0\nroutes = []\n"
                  '[[ring]]\ncount = 8\nshare = 0\nhead = 0\ntail = 0\nfirst = 0\nlast = 0\nsegs = 1\nnode = "lost.dpv"\n'
                  + "".join(f'[[port]]\npool = {pool}\nsegs = 1\nqueue = {queue}\nnode = "{node}"\nin = "a"\nout = "b{queue}"\n'
                            for pool, queue, node in ((0, 16, "dead.dpv"), (1, 32, "send.dpv"), (0, 64, "clone.dpv"))),
    "dead.dpv": "lookup r1,0,r2,d\nenq p0,0,d\nexit\nalloc p1,1,e\ne: exit\nd: free p0\nexit\n",
    "send.dpv": "tx p0,r0,d\nexit\nd: free p0\nexit\n",
    "clone.dpv": "clone p1,p0,1,d\nfree p1\nd: free p0\nexit\n",
    "lost.dpv": "exit\n",
}
ROUNDED = "[style=rounded, label=<<B>"
# The lines of its picture that have a box or an arrow.
SMALL_LINES = {
    *(f'{{ rank=source; in{k} [shape=cds, label="port {k} in\\npool {pool}"]; }}' for k, pool in ((0, 0), (1, 1), (2, 0))),
    *(f'{{ rank=sink; out{k} [shape=cds, label="port {k} out\\nlist of {queue}"]; }}' for k, queue in ((0, 16), (1, 32), (2, 64))),
    'ring0 [shape=ellipse, label="ring 0\\n8 slots"];',
    'pool0 [shape=cylinder, label="pool 0\\n8 buffers\\nroom 2176"];',
    'pool1 [shape=cylinder, label="pool 1\\n4 buffers\\nroom 192"];',
    'table0 [shape=note, label="table 0"];',
    f"program_port0 {ROUNDED}dead.dpv</B><BR/>port 0 accepted<BR/>7 instructions>];",
    f"program_port1 {ROUNDED}send.dpv</B><BR/>port 1 accepted<BR/>4 instructions>];",
    f"program_port2 {ROUNDED}clone.dpv</B><BR/>port 2 accepted<BR/>4 instructions>];",
    f"program_ring0 {ROUNDED}lost.dpv</B><BR/>ring 0 not inferred at 0 by J10<BR/>1 instruction>, color=red, penwidth=2];",
    *(f"in{k} -> program_port{k};" for k in range(3)), "ring0 -> program_ring0;",
    "program_port0 -> ring0;", "program_port0 -> table0 [style=dotted];", "program_port1 -> out0;", "program_port1 -> out1;",
    "program_port2 -> pool1 [style=dotted];",
}
# A program with an instruction that is never reached, and one whose arrows are counted: of 2^20 packets none, 2^10 or all.
DEAD = "jmp a\nexit\na: free\tp0 # a\t<b> & \"c\"\nexit\n"
KNOWN, EMPTY = 'p0 sole, headroom 128, at most 1 segment<BR ALIGN="LEFT"/>', 'r0-r7 &lt;= 0<BR ALIGN="LEFT"/>'
ARROWS = {("0", "1", "solid", "1048576", "8.0"), ("0", "3", "dashed", "0", "1.0"), ("1", "3", "dashed", "1024", "4.5")}
COUNTED = [("1048576", 0), ("1048576", 1024), ("1047552", None), ("1024", None), ("1024", None)]


def are_small(program: str, folder: pathlib.Path) -> list[bool]:
    """Whether the pictures of these programs have what they should."""
    for name, text in {**SMALL, "node.dpv": DEAD, "one.dpv": "iflen p0,14,d\n" + SMALL["send.dpv"]}.items():
        (folder / name).write_text(text)
    steps = [{"label": k, "ran": ran, "taken": taken} for k, (ran, taken) in enumerate(COUNTED)]
    (folder / "counts.json").write_text(json.dumps({"counts": {"nodes": [{"node": "port 0", "instructions": steps}]}}))
    (folder / "one.toml").write_text(SMALL["small.toml"].replace("dead.dpv", "one.dpv"))
    drawn = run(program, ["show", "small.toml", "--dot"], folder)
    lines = {line.strip() for line in drawn[1].splitlines() if re.match(r"  (?:\{|(?:in|out|ring|pool|table|program_\w+)\d )", line)}
    dead = run(program, ["show-one", "node.dpv", "--dot"], folder)[1]
    boxes = {first: (known, end) for first, known, end in re.findall(r'^  L(\d) \[label=.*?<FONT POINT-SIZE="11">(.*?)</FONT>.*?</TABLE>>(.*?)\];$', dead, re.M | re.S)}
    counted = run(program, ["show", "one.toml", "port0", "--dot", "--calls", "--counts", "counts.json"], folder)[1]
    arrows = re.findall(r'^  L(\d+) -> L(\d+) \[style=(\w+), label=" (\d+)", penwidth=([1-8]\.\d)\];$', counted, re.M)
    # Two jumps of a box to one label, which together are more than the most runs of an instruction.
    (folder / "jumps.toml").write_text(SMALL["small.toml"].replace("dead.dpv", "jumps.dpv"))
    (folder / "jumps.dpv").write_text("jeq r1,0,d\njeq r2,0,d\nd: free p0\nexit\n")
    steps = [{"label": k, "ran": "1024", "taken": taken} for k, taken in enumerate((1024, 1024, None, None))]
    (folder / "jumps.json").write_text(json.dumps({"counts": {"nodes": [{"node": "port 0", "instructions": steps}]}}))
    jumps = run(program, ["show", "jumps.toml", "port0", "--dot", "--counts", "jumps.json"], folder)[1]
    passed = {
        f"the widest arrow: {jumps}": '\n  L0 -> L2 [style=dashed, label=" 2048", penwidth=8.0];\n' in jumps,
        f"the pipeline: {drawn[0]}, {sorted(lines ^ SMALL_LINES)}": (drawn[0], drawn[2], lines) == (1, "", SMALL_LINES) and is_drawn(drawn[1]),
        f"boxes: {boxes}": boxes == {"0": (KNOWN + EMPTY, ""), "1": ('never reached<BR ALIGN="LEFT"/>', ", color=grey, fontcolor=grey"), "2": (KNOWN + EMPTY, "")},
        f"a comment: {dead}": "&#160; free p0</TD>" in dead and "># a &lt;b&gt; &amp; &quot;c&quot;</FONT>" in dead and is_drawn(dead),
        f"widths: {arrows}": ARROWS < set(arrows) and len(arrows) == 4,
    }
    for what in (what for what, is_so in passed.items() if not is_so):
        print(f"small pictures: {what}")
    return [*passed.values()]


def words_of(picture: str) -> list[str]:
    """The words of a picture, and the names of its boxes and arrows. Their places depend on the version of graphviz."""
    return sorted(re.findall(r"<(?:text|title)\b[^>]*>(.*?)</(?:text|title)>", picture))


def is_shown(program: str, picture: str, page: str) -> bool:
    """Whether a picture of a page has the words of what the page's command for it draws now; also if there is no dot."""
    command = re.search(rf"^dpv (.*) \| dot -Tsvg > {re.escape(picture)}$", page, re.M)
    if command is None or DOT is None:
        return command is not None
    graph = run(program, command[1].split(), EXAMPLES / "router")[1]
    drawn = subprocess.run([DOT, "-Tsvg"], input=graph, capture_output=True, text=True, timeout=120).stdout
    return words_of(drawn) == words_of((TOP / "docs" / "users" / picture).read_text())


def is_page(program: str) -> bool:
    """Whether docs/users/pictures.md has the sizes of examples/router as they are printed, and its pictures as they are drawn."""
    page = (TOP / "docs" / "users" / "pictures.md").read_text()
    table = run(program, ["check", "router.toml", "--sizes"], EXAMPLES / "router")[1]
    others = [name for name in re.findall(r"!\[.*?\]\((.*?)\)", page) if not is_shown(program, name, page)]
    passed = f"$ dpv check router.toml --sizes\n{table}```" in page and not others
    if not passed:
        print(f"docs/users/pictures.md: dpv check router.toml --sizes prints now:\n{table}or these pictures are drawn otherwise now: {others}")
    return passed


def main() -> int:
    """All pictures."""
    files = sorted(file for file in EXAMPLES.glob("*/*.toml") if file.parent.name != "refused")
    with new_folder() as folder:
        program = saying(asked(), folder)
        passed = [is_example(program, file, folder) for file in files]
        passed += [is_red(program, number) for number in range(2, 12)]
        passed += [is_refused(program, *case) for case in faults(folder)]
        passed += are_small(program, folder)
        passed.append(is_page(program))
    word = "" if DOT else "; graphviz is not installed, so nothing was drawn"
    print(f"pictures: {sum(passed)} are as they should be, {len(passed) - sum(passed)} are not{word}")
    return 0 if all(passed) else 1


if __name__ == "__main__":
    sys.exit(main())
