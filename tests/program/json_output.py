#!/usr/bin/env python3
"""Tests the documents that the built program dpv prints with --json.

Usage: tests/program/json_output.py [PROGRAM]   (the built program; by default the one that ./dpv builds and runs)
Each pipeline of examples/ runs twice, as text and with --json, also with --counts: the status, the captures and standard error must be the
same, standard output one line of JSON, and the text that this script writes from the document must be the text that dpv prints, to the byte.
The sums that docs/reference/reports.md names must agree in the document. A program of the language pkt, which the launcher compiles, has to be
counted and its drops listed by the lines of its own source. Then refused programs, explanations, costs and faults: no node run and no turn of
an example takes more instructions than `check --cost` says, which is the longest way through each program. Each example is traced as text and
with --json, where the text that this script writes from the documents must be what dpv prints. Prints a line for each case that
failed, and a count; exits with 1 if a case failed.
"""
import json
import pathlib
import shutil
import struct
import subprocess
import sys
from typing import Any, NamedTuple

import paths  # noqa: F401

from command import TOP, asked, new_folder, said, said_bytes, saying
from model.machine import Instr
from model.programs import assemble
from model.rules import JUMPS

EXAMPLES = TOP / "examples"
# A name with characters that a text in JSON has to escape, and others.
STRANGE = 'a"b\\c\x01\x7f\u00e4\U0001f600'
WORDS = {"freed": "     freed", "ended": "     ended"}

# A program of the language pkt, and the file that it includes.
FIREWALL = """# What may pass.
include "net.pkt"
if arp { send port }
need ipv4 else drop "not IPv4"
if ipv4.pieces & 0x3fff != 0 {
    drop "fragment"
}
if tcp.dport == 22 { count ssh drop "ssh" }
if udp.dport == 53 { count dns } else if udp { count other }
guarded()
send port
"""
NET = """def guarded() {
    need ipv4.dst >> 24 != 127 else drop "loop"
}
"""
# By protocol, destination, port and fragment offset, how many frames its input has; 0 stands for ARP, and 41 for IPv6.
FRAMES = {(0, 0, 0, 0): 1, (41, 0, 0, 0): 2, (17, 10, 53, 8): 3, (6, 10, 22, 0): 2, (17, 10, 53, 0): 4, (17, 127, 54, 0): 1, (6, 10, 80, 0): 1}
# How many of them each line drops, by its file and number, the most first; and what each name counts.
DROPPED = {("firewall.pkt", 6): 3, ("firewall.pkt", 4): 2, ("firewall.pkt", 8): 2, ("net.pkt", 2): 1}
NAMED = {"ssh": 2, "dns": 4, "other": 1}
SENT = 6


# A program that sends each packet on, an IPv4 header of UDP from 10.0.0.1 to 10.0.0.2, and what a trace says of a record whose addresses these
# bytes follow.
PASS = "tx p0,r0,full\nexit\nfull: free p0\nexit\n"
HEADER = "4500001e 0000 0000 4011 0000 0a000001 0a000002"
# The same to another address, the addresses of an IPv6 header, and what is said of each protocol with these ports.
OTHER, IPV6 = HEADER.replace("0a000002", "0a000003"), "20010db8 00000000 00000000 00000001 fe800000 0000000a 00000000 0000ff02"
PROTOCOLS = {
    1: "ICMP", 2: "IGMP", 6: "TCP 7 > 9", 17: "UDP 7 > 9", 47: "GRE", 50: "ESP", 58: "ICMP6", 132: "SCTP", 0: "protocol 0", 99: "protocol 99",
}
SUMMARIES = (
    ("0800", "IP cut short"),
    (f"0800 {HEADER[:-2]}", "IP cut short"),
    (f"0800 {HEADER} 0007 0009", "IP 10.0.0.1 > 10.0.0.2 UDP 7 > 9"),
    (f"0800 {HEADER} 0007 00", "IP 10.0.0.1 > 10.0.0.2 UDP"),
    (f"0800 {HEADER.replace('0000 4011', '0002 4011')} 0007 0009", "IP 10.0.0.1 > 10.0.0.2 UDP"),
    (f"8100 0005 0800 {HEADER} 0007 0009", "vlan 5 IP 10.0.0.1 > 10.0.0.2 UDP 7 > 9"),
    (f"88a8 0006 8100 0005 0800 {HEADER} 0007 0009", "vlan 6 vlan 5 IP 10.0.0.1 > 10.0.0.2 UDP 7 > 9"),
    ("8100 0005", "vlan 5 cut short"),
    ("8100", "ethertype 0x8100"),
    ("86dd 6000" + " 00" * 37, "IP6 cut short"),
    ("", "no Ethernet header"),
    ("08", "no Ethernet header"),
    ("0806", "ARP"),
    ("88cc", "ethertype 0x88cc"),
    *((f"0800 {OTHER.replace('4011', f'40{number:02x}')} 0007 0009", f"IP 10.0.0.1 > 10.0.0.3 {said}") for number, said in PROTOCOLS.items()),
    *((f"86dd 60000000 0004{number:02x}40 {IPV6} 0007 0009", f"IP6 2001:db8:0:0:0:0:0:1 > fe80:0:0:a:0:0:0:ff02 {said}") for number, said in PROTOCOLS.items()),
    # A tag with a priority, a header with options, and the first of several fragments.
    ("8100 a005 0806", "vlan 5 ARP"),
    (f"0800 {OTHER.replace('4500', '4600')} 01010101 0007 0009", "IP 10.0.0.1 > 10.0.0.3 UDP 7 > 9"),
    (f"0800 {OTHER.replace('0000 4011', '2000 4011')} 0007 0009", "IP 10.0.0.1 > 10.0.0.3 UDP 7 > 9"),
)


class Ran(NamedTuple):
    """How a command ended."""

    status: int
    out: bytes
    err: bytes


def run(program: str, folder: pathlib.Path, *words: str) -> Ran:
    """Runs a command in a folder."""
    done = subprocess.run([program, *words], cwd=folder, stdin=subprocess.DEVNULL, capture_output=True, timeout=300)
    return Ran(done.returncode, *said_bytes(done.stdout, done.stderr))


def document(out: bytes) -> Any:
    """The only document of an output, which is one line with sorted members and no blank between."""
    line = out.decode()
    read = json.loads(line)
    ours = json.dumps(read, sort_keys=True, separators=(",", ":"), ensure_ascii=False)
    if line != ours + "\n":
        raise ValueError(f"not one line of sorted JSON: {line!r}")
    return read


def report_text(doc: dict[str, Any]) -> str:
    """The report in a document, as dpv prints it."""
    lines = []
    for port in doc["ports"]:
        state = f"cut {port['cut_at']}" if port["input"] == "cut" else port["input"]
        lines.append(f"port {port['port']} received {port['received']} nobuf {port['nobuf']} oversize {port['oversize']} "
                     f"sent {port['sent']} input {state}")
    lines += [f"ring {ring['ring']} left {ring['left']}" for ring in doc["rings"]]
    lines += [f"pool {pool['pool']} free {pool['free']} of {pool['count']}" for pool in doc["pools"]]
    lines.append(f"calls {doc['calls']} refused {doc['refused']}")
    if doc["cut"]:
        lines.append(f"cut {doc['cut']}")
    return "".join(line + "\n" for line in lines)


def instruction_line(it: dict[str, Any]) -> str:
    """The columns of an instruction, its text and its comment, with one blank between words."""
    beside = f"{it['taken']:>10}" if it["taken"] is not None else WORDS[it["ends"]] if it["ends"] and it["ran"] else ""
    comment = "" if it["comment"] is None else f" # {it['comment']}"
    return " ".join(f"{it['ran']} {beside} {it['text']}{comment}".split())


def counts_lines(doc: dict[str, Any]) -> list[str]:
    """The counts in a document, line by line, with one blank between words, without the lines that have no instruction."""
    counts, lines = doc["counts"], []
    for node in counts["nodes"]:
        lines += [f"{node['node']} {node['file']}", "ran taken"]
        for it in node["instructions"]:
            lines.append(instruction_line(it))
            lines += [f"{it['cut']} cut"] * (it["cut"] > 0)
    lines += [f"table {it['table']} hits {it['hits']} misses {it['misses']}" for it in counts["tables"]]
    lines += [f"ring {it['ring']} waited {it['most']} of {it['capacity']} full {it['full']}" for it in counts["rings"]]
    lines += [f"pool {it['pool']} least {it['least']} of {it['count']}" for it in counts["pools"]]
    lines += [f"port {it['port']} full {it['full']}" for it in doc["ports"] if it["full"] > 0]
    lines += [f"pool {it['pool']} refused {it['refused']}" for it in doc["pools"] if it["refused"] > 0]
    return lines + named_lines(doc)


def named_lines(doc: dict[str, Any]) -> list[str]:
    """The counts with names in a document, as dpv prints them."""
    return [f"{it['node']} count {it['name']} {it['packets']}" for it in doc["named"]]


def printed_lines(text: str) -> list[str]:
    """The counts that dpv prints, likewise: lines of sources without an instruction begin with blanks."""
    kept = [line for line in text.split("\n") if line.strip() and not line.startswith(" " * 20)]
    return [" ".join(line.replace("#", " # ", 1).split()) for line in kept]


def verdict_text(doc: dict[str, Any]) -> str:
    """The verdicts in a document, as dpv prints them."""
    lines = [it["node"] + (" accepted" if it["verdict"] == "accepted" else f" {it['verdict']} at {it['label']} by {it['rule']}") for it in doc["nodes"]]
    return "".join(line + "\n" for line in lines)


def says(doc: dict[str, Any], printed: str) -> bool:
    """Whether a document has what was printed as text: verdicts, or a report, with or without counts, or nothing."""
    if "ports" not in doc:
        return printed == (verdict_text(doc) if "nodes" in doc else "")
    report = report_text(doc)
    rest = printed_lines(printed[len(report):])
    return printed.startswith(report) and rest == (counts_lines(doc) if "counts" in doc else [])


def sums_agree(doc: dict[str, Any]) -> bool:
    """Whether the sums that reports.md names agree."""
    nodes = doc["counts"]["nodes"]
    all_of = [it for node in nodes for it in node["instructions"]]
    jumps_back = any(node["instructions"][0]["text"].split(":")[0] in it["text"].split(",") for node in nodes for it in node["instructions"])
    first = {node["node"]: node["instructions"][0]["ran"] for node in nodes}
    received = all(first[f"port {port['port']}"] == port["received"] for port in doc["ports"])
    runs = all(sum(it["ran"] for it in node["instructions"] if it["ends"] == "ended") + sum(it["cut"] for it in node["instructions"])
               == node["instructions"][0]["ran"] for node in nodes)

    def word(it: dict[str, Any]) -> str:
        return it["text"].split(":")[-1].split()[0]

    def done(name: str) -> int:
        return sum(it["ran"] - (it["taken"] or 0) - it["cut"] for it in all_of if word(it) == name)

    sent = done("tx") == sum(port["sent"] for port in doc["ports"])
    cut = sum(it["cut"] for it in all_of) == doc["cut"]
    came = sum(port["received"] for port in doc["ports"]) + done("alloc") + done("clone")
    left = done("tx") + done("free") + done("chain") + sum(ring["left"] for ring in doc["rings"])
    records = sum(port[it] for port in doc["ports"] for it in ("received", "nobuf"))
    calls = doc["calls"] == records + sum(it["ran"] for it in all_of if word(it) in ("alloc", "clone"))
    return (received and runs or jumps_back) and sent and cut and (came == left or doc["cut"] > 0) and calls


def written(folder: pathlib.Path) -> dict[str, bytes]:
    """The contents of all captures of a folder and of those in it."""
    return {str(it.relative_to(folder)): it.read_bytes() for it in sorted(folder.rglob("*.pcap"))}


def is_same_run(program: str, folder: pathlib.Path, words: list[str]) -> bool:
    """Whether a run as text and one with --json are the same, and the document has what the text has."""
    text = run(program, folder, *words)
    captures = written(folder)
    made = run(program, folder, *words, "--json")
    doc = document(made.out)
    counted = "--counts" in words
    printed = text.out.decode()
    passed = (made.status, made.err, written(folder)) == (text.status, text.err, captures)
    passed = passed and says(doc, printed) and ("counts" in doc) == counted and (not counted or sums_agree(doc))
    if doc["fault"] is None:
        return passed and made.status == 0
    return passed and made.status == doc["fault"]["status"] and made.err.decode().splitlines()[0] == doc["fault"]["text"]


def counts_truncated(program: str, folder: pathlib.Path) -> bool:
    """Whether the document counts the records that were cut by their snap length, as standard error does."""
    whole, cut = struct.pack("<IIII", 1, 2, 60, 60) + bytes(60), struct.pack("<IIII", 1, 2, 60, 1500) + bytes(60)
    (folder / "case.pcap").write_bytes((folder / "in.pcap").read_bytes()[:24] + whole + cut + cut)
    made = run(program, folder, "one", "strip.dpv", "strip.cert", "case.pcap", "out.pcap", "--json")
    said = b"port 0: 2 records were cut by the capture's snap length: capture with a larger -s\n"
    return (made.status, made.err, document(made.out)["ports"][0]["truncated"]) == (0, said, 2)


def runs(program: str, top: pathlib.Path) -> list[tuple[str, bool]]:
    """The pipelines and programs of examples/, with and without counts, with calls refused and with captures that are cut."""
    cases = []
    for pipeline in sorted(top.glob("*/*.toml")):
        if pipeline.parent.name in ("refused", "live"):
            continue
        for more in ([], ["--counts"], ["--counts", "--refuse", "1,3,4,9"], ["--counts", "--progress"]):
            words = ["run", pipeline.name, *more]
            cases.append((f"{pipeline.parent.name}: {words}", is_same_run(program, pipeline.parent, words)))
    strip = top / "strip"
    cases.append(("records cut by their snap length", counts_truncated(program, strip)))
    one = ["one", "strip.dpv", "strip.cert"]
    whole = (strip / "in.pcap").read_bytes()
    for length in (len(whole), len(whole) - 3, 30, 23, 0):
        (strip / "case.pcap").write_bytes(whole[:length])
        for more in ([], ["--counts"]):
            words = [*one, "case.pcap", "out.pcap", *more]
            cases.append((f"{length} bytes: {words}", is_same_run(program, strip, words)))
    words = ["filter", "strip.dpv", "in.pcap", "out.pcap", "--counts", "--name", STRANGE]
    cases.append((f"a strange name: {words}", is_same_run(program, strip, words)))
    return cases


def frame(protocol: int, network: int, port: int, offset: int) -> bytes:
    """An Ethernet frame, of zeros but for what a firewall asks for."""
    kind = {0: 0x0806, 41: 0x86DD}.get(protocol, 0x0800)
    header = struct.pack(">BBHHHBBHII", 0x45, 0, 40, 0, offset, 64, protocol, 0, 0x0A000001, network << 24 | 1)
    ends = struct.pack(">HH", 1024, port)
    return bytes(12) + struct.pack(">H", kind) + (header + ends if kind == 0x0800 else bytes(24)) + bytes(16)


def capture(frames: list[bytes]) -> bytes:
    """A capture of frames."""
    records = (struct.pack("<IIII", 0, 0, len(it), len(it)) + it for it in frames)
    return struct.pack("<IHHIIII", 0xA1B2C3D4, 2, 4, 0, 0, 65_535, 1) + b"".join(records)


def launcher(program: str, folder: pathlib.Path) -> str:
    """A script that starts the program as an installed dpv does."""
    script = folder / "dpv"
    script.write_text(f'#!/bin/sh\nprogram="{program}" pkt="{TOP}/tools/pkt" compiled_nodes="{TOP}/tools/compiled_nodes.py" views="{TOP}/tools/views" version= commit=\n. "{TOP}/tools/launch"\nlaunch "$@"\n')
    script.chmod(0o755)
    return str(script)


def line_text(it: dict[str, Any]) -> str:
    """A line of a source, as dpv prints it after its counts, without the name of the program's own file."""
    return f"{it['file'] + ':' if it['file'] != 'firewall.pkt' else ''}{it['line']}: {it['text']}"


def sources(program: str, folder: pathlib.Path) -> list[tuple[str, bool]]:
    """The counts of a program of the language pkt, and where its packets end: by the lines of its source, with the numbers that belong to them."""
    (folder / "firewall.pkt").write_text(FIREWALL)
    (folder / "net.pkt").write_text(NET)
    frames = [frame(*kind) for kind, count in FRAMES.items() for _ in range(count)]
    (folder / "in.pcap").write_bytes(capture(frames))
    texts = {"firewall.pkt": FIREWALL.splitlines(), "net.pkt": NET.splitlines()}
    dpv, words = launcher(program, folder), ["filter", "firewall.pkt", "in.pcap", "out.pcap", "--counts", "--source", "--drops"]
    doc = document(run(dpv, folder, *words, "--json").out)
    printed = run(dpv, folder, *words).out.decode()[len(report_text(doc)):].splitlines()
    (node,), port = doc["lines"], doc["ports"][0]
    drops = [f"{it['packets']:>10}  port 0 {it['file']}:{it['line']}: {it['text']}" for it in doc["drops"]]
    columns = [f"{it['came']:>10}{it['sent'] or '':>10}{it['dropped'] or '':>10}  {line_text(it)}" for it in node["lines"]]
    of_lines = {(it["file"], it["line"]): it["dropped"] for it in node["lines"]}
    counts = document(run(dpv, folder, *words[:4], "--counts", "--json").out)
    text = run(dpv, folder, *words[:4], "--counts").out.decode()
    return [
        ("pkt: the drops", {(it["file"], it["line"]): it["packets"] for it in doc["drops"]} == DROPPED),
        ("pkt: the drops, the most first", [it["packets"] for it in doc["drops"]] == sorted(DROPPED.values(), reverse=True)),
        ("pkt: dropped by lines", {place: count for place, count in of_lines.items() if count} == DROPPED),
        ("pkt: sent by lines", {it["line"]: it["sent"] for it in node["lines"] if it["sent"]} == {11: SENT}),
        ("pkt: the lines of the source", all(it["text"] == texts[it["file"]][it["line"] - 1].strip() for it in [*node["lines"], *doc["drops"]])),
        ("pkt: the report", (port["received"], port["sent"]) == (len(frames), SENT) and len(frames) - SENT == sum(DROPPED.values())),
        ("pkt: the text", printed == ["port 0 firewall.pkt", "      came      sent   dropped", *columns, *named_lines(doc), *drops]),
        ("pkt: the heading", "port 0 firewall.pkt" in text.splitlines()),
        ("pkt: the names", {it["name"]: it["packets"] for it in doc["named"]} == NAMED and doc["named"] == counts["named"]),
        ("pkt: the names as text", text.splitlines()[-len(NAMED):] == named_lines(doc) and {it["node"] for it in doc["named"]} == {"port 0"}),
        ("pkt: no names", "named" not in document(run(dpv, folder, *words[:4], "--drops", "--json").out)),
    ]


def verdict_lines(node: dict[str, Any]) -> str:
    """The line of a verdict, as dpv prints it."""
    if node["verdict"] == "accepted":
        return f"{node['node']} accepted"
    return f"{node['node']} {node['verdict']} at {node['label']} by {node['rule']}"


def explained_lines(node: dict[str, Any], source: str) -> list[str]:
    """The lines of an explanation, as dpv prints them, from the members of a node."""
    lines = [verdict_lines(node)]
    if node["verdict"] == "accepted":
        return lines
    comment = source.partition("#")[2]
    if (node["comment"] or "") != comment.strip() or node["instruction"] != source.partition("#")[0].strip():
        return []
    return [*lines, f"{node['file']}:{node['line']}: {source.strip()}", f"  {node['states']}", f"  known:  {node['known']}",
            f"  wanted: {node['wanted']}", f"  help:   {node['help']}"]


def is_explained(program: str, folder: pathlib.Path, words: list[str]) -> bool:
    """Whether an explanation as text and one with --json are the same."""
    text = run(program, folder, *words)
    made = run(program, folder, *words, "--json")
    doc = document(made.out)
    if text.status == 3:
        reported = {"text": made.err.decode().splitlines()[0], "status": 3}
        return (made.status, made.err, text.out) == (3, text.err, b"") and doc == {"fault": reported, "nodes": []}
    lines = []
    for node in doc["nodes"]:
        refused = node["verdict"] != "accepted"
        source = (folder / node["file"]).read_text().splitlines()[node["line"] - 1] if refused else ""
        lines += explained_lines(node, source)
        if refused and node["reason"] != explained_lines(node, source):
            return False
    return (made.status, made.err) == (text.status, text.err) and doc["fault"] is None and lines == text.out.decode().splitlines()


def is_checked(program: str, folder: pathlib.Path, words: list[str]) -> bool:
    """Whether a check, or a run of a program that is refused, has the lines of the text."""
    text = run(program, folder, *words)
    made = run(program, folder, *words, "--json")
    doc = document(made.out)
    lines = [verdict_lines(node) for node in doc["nodes"]]
    return (made.status, made.err) == (text.status, text.err) and doc["fault"] is None and lines == text.out.decode().splitlines()


def verdicts(program: str, top: pathlib.Path) -> list[tuple[str, bool]]:
    """Checks and explanations, of programs that are accepted and of those of examples/refused."""
    cases = []
    for pipeline in sorted(top.glob("*/*.toml")):
        if pipeline.parent.name == "live":
            continue
        cases.append((f"check {pipeline.name}", is_checked(program, pipeline.parent, ["check", pipeline.name])))
        cases.append((f"explain {pipeline.name}", is_explained(program, pipeline.parent, ["explain", pipeline.name])))
        cases.append((f"explain {pipeline.name} port0", is_explained(program, pipeline.parent, ["explain", pipeline.name, "port0"])))
    refused = top / "refused"
    for node in sorted(refused.glob("*.dpv")):
        certificate = node.with_suffix(".cert")
        words = ["explain-one", node.name, *([certificate.name] if certificate.exists() else [])]
        cases.append((" ".join(words), is_explained(program, refused, words)))
        if certificate.exists():
            words = ["one", node.name, certificate.name, "../strip/in.pcap", "out.pcap"]
            is_as_text = is_checked if run(program, refused, *words).status == 1 else is_fault
            cases.append((" ".join(words), is_as_text(program, refused, words)))
    return cases


def longest(code: list[Instr]) -> tuple[int, int | None]:
    """The longest way through a program, and no label; or 257 times its length, and the first label that jumps back."""
    for label, instr in enumerate(code):
        if instr.word in JUMPS and instr.args[-1] <= label:
            return 257 * len(code), label
    ways = [0] * (len(code) + 1)
    for label in reversed(range(len(code))):
        instr = code[label]
        after = [ways[label + 1]] * (instr.word not in ("jmp", "exit")) + [ways[instr.args[-1]] for _ in "1" if instr.word in JUMPS]
        ways[label] = 1 + max(after, default=0)
    return ways[0], None


def cost_lines(doc: dict[str, Any]) -> list[str]:
    """What `check --cost` prints, from its document."""
    nodes, turn = doc["nodes"], doc["turn"]
    lines = [verdict_lines(node) for node in nodes]
    lines += [f"{node['node']} takes at most {node['cost']} instructions" + (f": it can jump back at {node['back']}" if node["back"] is not None else "")
              for node in nodes]
    own = next(node["cost"] for node in nodes if node["node"] == f"port {turn['port']}")
    beside = f", {turn['cost'] - own} on packets in rings" if turn["cost"] > own else ""
    lines.append(f"the turn of a record takes at most {turn['cost']} instructions: {own} on port {turn['port']}{beside}")
    return lines + [f"ring {ring} leads to itself: there is no bound for all turns in which a packet runs" for ring in turn["loops"]]


def runs_within(ran: dict[str, Any], nodes: dict[str, int], turn: int) -> bool:
    """Whether a counted run took no more instructions than its node runs and its turns may."""
    total = 0
    for node in ran["counts"]["nodes"]:
        steps = sum(it["ran"] for it in node["instructions"])
        runs = sum(it["cut"] + it["ran"] * (it["ends"] == "ended") for it in node["instructions"])
        total += steps
        if steps > runs * nodes[node["node"]]:
            return False
    return total <= turn * sum(port[it] for port in ran["ports"] for it in ("received", "nobuf", "oversize"))


def has_costs(program: str, pipeline: pathlib.Path) -> bool:
    """Whether the costs of an example are the same as text and with --json, those of its programs, and bounds of its runs and turns."""
    folder, name = pipeline.parent, pipeline.name
    text, made = (run(program, folder, "check", name, "--cost", *more) for more in ([], ["--json"]))
    doc, ran = document(made.out), document(run(program, folder, "run", name, "--counts", "--json").out)
    nodes, files = {it["node"]: it for it in doc["nodes"]}, {it["node"]: it["file"] for it in ran["counts"]["nodes"]}
    exact = all(longest(assemble((folder / file).read_bytes())) == (nodes[node]["cost"], nodes[node]["back"]) for node, file in files.items())
    rings = [it["cost"] for node, it in nodes.items() if node.startswith("ring")]
    turn = max(it["cost"] for node, it in nodes.items() if node.startswith("port")) + 32 * max(rings, default=0)
    traced = [json.loads(line) for line in run(program, folder, "trace", name, "--json", "--records", "100").out.splitlines()[:-1]]
    within = runs_within(ran, {node: it["cost"] for node, it in nodes.items()}, turn) and all(it["steps"] <= turn for it in traced)
    same = (text.status, made.status, text.err, made.err) == (0, 0, b"", b"") and cost_lines(doc) == text.out.decode().splitlines()
    return same and exact and within and doc["turn"]["cost"] == turn


def costs(program: str, top: pathlib.Path) -> list[tuple[str, bool]]:
    """The costs of all examples."""
    pipelines = [it for it in sorted(top.glob("*/*.toml")) if it.parent.name not in ("refused", "live")]
    return [(f"check --cost {it.name}", has_costs(program, it)) for it in pipelines]


def event_lines(event: dict[str, Any]) -> list[str]:
    """The lines of an event of a trace, without the blanks before them."""
    first = event["node"] if event["label"] is None else f"{event['label']}  {event['text']}"
    return [first, *event["changes"]]


def record_lines(doc: dict[str, Any]) -> list[str]:
    """The lines of a record of a trace, without the blanks before them, but for those of a call for a record that was not received."""
    lines = [f"record {doc['record']} port {doc['port']} time {doc['time']}, {doc['bytes']} byte{'' if doc['bytes'] == 1 else 's'}"]
    lines += [doc["summary"]] if doc["summary"] is not None else []
    for event in doc["events"]:
        lines += event_lines(event)
    lines.append(f"turn {doc['outcome']} runs {doc['runs']} cuts {doc['cuts']} steps {doc['steps']}")
    lines += [f"port {it['port']} sends {it['packets']}" for it in doc["sends"]]
    return [*lines, f"record {doc['record']}: {doc['became']}"]


def is_traced(program: str, folder: pathlib.Path, words: list[str]) -> bool:
    """Whether a trace as text and one with --json have the same records, and the last document what ended it."""
    text, made = run(program, folder, *words), run(program, folder, *words, "--json")
    docs = [document(line + b"\n") for line in made.out.splitlines()]
    lines = [line for doc in docs[:-1] for line in record_lines(doc)]
    printed = [line.strip() for line in text.out.decode().splitlines()]
    if any(doc["outcome"] != "received" for doc in docs[:-1]):
        printed = [line for line in printed if line not in [f"allocation call {k}: refused" for k in range(100)] or line in lines]
    fault = {"status": made.status, "text": made.err.decode().splitlines()[0]} if made.status else None
    ended = docs[-1] == {"fault": fault, "printed": len(docs) - 1}
    return ended and lines == printed and (made.status, made.err) == (text.status, text.err)


def traces(program: str, top: pathlib.Path) -> list[tuple[str, bool]]:
    """Traces of all examples, of programs by themselves, and such as print no record or end with a fault."""
    cases = []
    for pipeline in sorted(top.glob("*/*.toml")):
        if pipeline.parent.name in ("refused", "live"):
            continue
        for more in ([], ["--records", "3", "--refuse", "1,3"], ["--only", "freed"], ["--only", "99999"]):
            words = ["trace", pipeline.name, *more]
            cases.append((f"{pipeline.parent.name}: {words}", is_traced(program, pipeline.parent, words)))
    strip = top / "strip"
    (strip / "short.pcap").write_bytes((strip / "in.pcap").read_bytes()[:23])
    one = ["trace-one", "strip.dpv", "strip.cert"]
    for more in (["in.pcap"], ["in.pcap", "-U", "--only", "sent"], ["in.pcap", "--instr", "short"], ["in.pcap", "--match", "0800@12"], ["short.pcap"]):
        cases.append((f"{[*one, *more]}", is_traced(program, strip, [*one, *more])))
    cases.append(("trace-one of a capture that is not there", is_fault(program, strip, [*one, "none.pcap"])))
    cases.append(("trace of a pipeline that is not there", is_fault(program, strip, ["trace", "none.toml"])))
    cases.append(("trace-one of another port", is_silent(program, strip, [*one, "in.pcap", "--port", "1"])))
    piped = subprocess.run([program, *one, "-"], cwd=strip, stdin=open(strip / "in.pcap", "rb"), capture_output=True, check=False)
    cases += summaries(program, strip)
    cases.append(("trace of a record that is refused while a packet waits in a ring", has_refusal(program, strip)))
    cases.append(("trace-one of standard input", piped.stdout == run(program, strip, *one, "in.pcap").out and piped.returncode == 0))
    return cases


def has_refusal(program: str, folder: pathlib.Path) -> bool:
    """Whether a trace says that the call for a record was refused, although a packet in a ring runs in the same turn: the only buffer has the
    first record, which waits in the ring for ever."""
    node = 'node = "again.dpv"\n'
    (folder / "again.dpv").write_text("enq p0,0,full\nexit\nfull: free p0\nexit\n")
    (folder / "two.pcap").write_bytes(capture(2 * [bytes(60)]))
    ring = f"[[ring]]\ncount = 2\nshare = 0\nhead = 0\ntail = 0\nfirst = 0\nlast = 0\nsegs = 1\n{node}"
    port = f'[[port]]\npool = 0\nsegs = 1\nqueue = 2\n{node}in = "two.pcap"\nout = "out.pcap"\n'
    (folder / "again.toml").write_text(f"region = 8192\n[[pool]]\ncount = 1\ncache = 0\nroom = 2176\n{ring}{port}")
    lines = run(program, folder, "trace", "again.toml").out.decode().splitlines()
    second = next((at for at, line in enumerate(lines) if line.startswith("record 2 port")), len(lines))
    shown = [line.strip() for line in lines[second + 1 : second + 4]]
    doc = json.loads(run(program, folder, "trace", "again.toml", "--json").out.splitlines()[1])
    is_said = any("allocation call" in line for event in doc["events"] for line in event["changes"])
    return shown[:2] == ["allocation call 2: refused", "ring 0"] and doc["outcome"] == "nobuf" and not is_said


def summaries(program: str, folder: pathlib.Path) -> list[tuple[str, bool]]:
    """What traces say of records, also of such as are cut short or have several segments, and which of them have an address or some bytes."""
    frames = [bytes(12) + bytes.fromhex(it) for it, _ in SUMMARIES]
    (folder / "pass.dpv").write_text(PASS)
    (folder / "frames.pcap").write_bytes(capture(frames))
    (folder / "pass.cert").write_bytes(run(program, folder, "infer-one", "pass.dpv").out)
    node = 'node = "pass.dpv"\nin = "frames.pcap"\nout = "out.pcap"\n'
    ports = f"[[port]]\npool = 0\nsegs = 9\nqueue = 32\n{node}"
    (folder / "small.toml").write_text(f"region = 262144\n[[pool]]\ncount = 64\ncache = 0\nroom = 136\n{ports}")
    cases = []
    for words in (["trace-one", "pass.dpv", "pass.cert", "frames.pcap"], ["trace", "small.toml"]):
        docs = [document(line + b"\n") for line in run(program, folder, *words, "--json", "--records", "99").out.splitlines()]
        cases += [(f"{words}: {said}", doc["summary"] == said) for doc, (_, said) in zip(docs, SUMMARIES, strict=False)]
        cases.append((f"{words}: all records", len(docs) == len(SUMMARIES) + 1))
        for pattern, wanted in (("10.0.0.2", [3, 4, 5, 6, 7]), ("10.0.0.1", [*range(2, 8), *range(15, 25), 36, 37]), ("0.0.0.0", []), ("0a:00:00:02@30", [3, 4, 5]), ("0800@16", [6])):
            made = run(program, folder, *words, "--match", pattern, "--json").out.splitlines()
            cases.append((f"{words} --match {pattern}", [json.loads(line).get("record") for line in made[:-1]] == wanted))
    (folder / "frames.pcap").write_bytes(capture(12 * [frames[3]]))
    for more, count in ([], 10), (["--instr", "1"], 12), (["--match", "10.0.0.2"], 12), (["--only", "sent"], 12), (["--only", "sent", "--records", "11"], 11):
        made = run(program, folder, "trace-one", "pass.dpv", "pass.cert", "frames.pcap", "--json", *more).out.splitlines()
        cases.append((f"{count} records are traced with {more}", [json.loads(line).get("record") for line in made[:-1]] == [*range(1, count + 1)]))
    return cases


def is_fault(program: str, folder: pathlib.Path, words: list[str]) -> bool:
    """Whether a command that ends with a fault prints only that as its document, and is otherwise as without --json."""
    text = run(program, folder, *words)
    made = run(program, folder, *words, "--json")
    reported = made.err.decode().splitlines()[0]
    same = (made.status, made.err) == (text.status, text.err) and made.status in (3, 4)
    return same and document(made.out) == {"fault": {"text": reported, "status": made.status}} and not text.out


def is_silent(program: str, folder: pathlib.Path, words: list[str]) -> bool:
    """Whether wrong words print nothing on standard output."""
    text = run(program, folder, *words)
    made = run(program, folder, *words, "--json")
    first = text.err.splitlines()[0]
    return (made.status, made.err.splitlines()[0], made.out) == (2, first, b"")


def faults(program: str, top: pathlib.Path) -> list[tuple[str, bool]]:
    """Faults of loading and of files, and wrong words."""
    folder = top / "multicast"
    (folder / "bad.toml").write_text("region = \n")
    text = (folder / "multicast.toml").read_text()
    (folder / "lost.toml").write_text(text.replace("in0.pcap", "none.pcap"))
    (folder / "clash.toml").write_text(text.replace("port0.pcap", "in0.pcap"))
    (folder / "node.toml").write_text(text.replace("multicast.dpv", "none.dpv"))
    cases = [(" ".join(words), is_fault(program, folder, words)) for words in (
        ["run", "none.toml"], ["run", "bad.toml"], ["run", "lost.toml"], ["run", "clash.toml"], ["run", "node.toml", "--counts"],
        ["check", "none.toml"], ["check", "bad.toml"], ["check", "node.toml"], ["explain", "none.toml"], ["explain", "bad.toml"],
        ["one", "none.dpv", "none.cert", "in0.pcap", "out.pcap"], ["filter", "forward.dpv", STRANGE, "out.pcap"], ["check", STRANGE])]
    cases += [(" ".join(words), is_silent(program, folder, words)) for words in (
        ["run", "multicast.toml", "--refuse", "0"], ["run"], ["explain", "multicast.toml", "port7"], ["explain", "multicast.toml", "nobody"])]
    made = run(program, folder, "explain", "node.toml", "--json")
    doc = document(made.out)
    reported = {"text": made.err.decode().splitlines()[0], "status": made.status}
    cases.append(("explain node.toml", made.status == 3 and doc == {"fault": reported, "nodes": []}))
    full = subprocess.run([program, "run", "multicast.toml", "--json"], cwd=folder, stdout=open("/dev/full", "wb"), stderr=subprocess.PIPE, check=False)
    cases.append(("a full standard output", full.returncode == 3))
    return cases


def main() -> int:
    """All of it, in a copy of the examples."""
    program = asked()
    with new_folder() as outer:
        top = outer / "examples"
        shutil.copytree(EXAMPLES, top)
        said = saying(program, outer)
        cases = runs(program, top) + costs(said, top) + traces(said, top)
        # (these add pipelines that are at fault)
        cases += sources(program, outer) + verdicts(program, top) + faults(program, top)
    failed = [name for name, passed in cases if not passed]
    for name in failed:
        print(f"json_output: {name}: another document")
    print(f"json_output: {len(cases)} cases, {len(failed)} failed")
    return 1 if failed else 0


if __name__ == "__main__":
    sys.exit(main())
