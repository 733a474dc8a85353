"""Known calls on tables of routes, and random ones beside tests/model, through the C library: tests/library/host.py plays them.

Calls with answers that were worked out by hand, each script in a new engine: groups that are freed and taken again, refusals in their order,
shallow rules that change below a deep one, the largest table, rules that are counted, a rule of each depth over one address, and tables that
answer by their numbers. Then 1,500 random calls with 115,000 look-ups on a table of few rules and groups, and a table of 1,000 rules that is filled
and half emptied."""
import pathlib
import struct
import subprocess
from collections.abc import Iterator
from typing import NamedTuple

import paths  # noqa: F401

from model import machine, pipelines

ADD, DELETE, LOOK_UP = 1, 2, 3
OK, NO_TABLE, BAD_DEPTH, BAD_HOP, RULES_FULL, GROUPS_FULL, NO_RULE, NO_ROUTE = 0, 24, 25, 26, 27, 28, 29, 30
# What the library answers for a cause of tests/model, and the hop that the driver has before a look-up.
ANSWERS = {0: OK, 1: BAD_DEPTH, 2: BAD_HOP, 3: RULES_FULL, 4: GROUPS_FULL, 5: NO_RULE}
UNTOUCHED = 77
MOST_HOP = 16_777_215


class Call(NamedTuple):
    """A call, its answer, and the hop that a look-up finds."""

    kind: int
    table: int
    address: int
    depth: int
    hop: int
    answer: int
    found: int = UNTOUCHED


def number_of(address: str) -> int:
    """An address A.B.C.D as a number."""
    return int.from_bytes(bytes(map(int, address.split("."))), "big")


def add(prefix: str, hop: int, answer: int = OK) -> Call:
    """A rule of an address and a depth is added, or refused."""
    address, depth = prefix.split("/")
    return Call(ADD, 0, number_of(address), int(depth), hop, answer)


def delete(prefix: str, answer: int = OK) -> Call:
    """The rule of an address and a depth is deleted, or refused."""
    address, depth = prefix.split("/")
    return Call(DELETE, 0, number_of(address), int(depth), 0, answer)


def look_up(address: int | str, hop: int | None, table: int = 0) -> Call:
    """Packets to this address go to this hop, or to none."""
    place = address if isinstance(address, int) else number_of(address)
    return Call(LOOK_UP, table, place, 0, 0, NO_ROUTE if hop is None else OK, UNTOUCHED if hop is None else hop)


class Script(NamedTuple):
    """The most rules, the most groups and the routes of each table, and calls."""

    tables: list[tuple[int, int, list[str]]]
    calls: list[Call]


SCRIPTS = [
    # One group is freed and taken again.
    Script([(4, 1, [])], [
        add("10.0.0.0/8", 1), add("10.1.2.128/25", 2), look_up("10.1.2.200", 2), look_up("10.1.2.100", 1), look_up("11.0.0.1", None),
        add("10.1.3.128/25", 3, GROUPS_FULL), delete("10.1.2.128/25"), look_up("10.1.2.200", 1), delete("10.1.2.128/25", NO_RULE),
        add("10.1.3.128/25", 3), look_up("10.1.3.200", 3),
    ]),
    # Refusals, in their order.
    Script([(1, 0, [])], [
        add("10.1.3.128/0", 16_777_216, BAD_DEPTH), add("10.1.3.128/33", 0, BAD_DEPTH), add("10.1.3.128/25", 16_777_216, BAD_HOP),
        add("10.1.3.128/25", 3, GROUPS_FULL), add("10.0.0.0/8", MOST_HOP), add("10.1.3.128/25", 3, RULES_FULL), add("10.200.0.1/8", 4),
        look_up("10.1.3.128", 4), delete("10.0.0.0/0", BAD_DEPTH), delete("10.0.0.0/9", NO_RULE),
    ]),
    # Shallow rules change below a deep one.
    Script([(4, 1, [])], [
        add("10.0.0.0/8", 1), add("10.1.2.0/24", 5), add("10.1.2.128/25", 6), delete("10.1.2.0/24"), look_up("10.1.2.100", 1),
        look_up("10.1.2.200", 6), add("10.1.2.129/25", 7), look_up("10.1.2.200", 7), delete("10.1.2.128/25"), look_up("10.1.2.200", 1),
        add("10.9.9.9/32", MOST_HOP), look_up("10.9.9.9", MOST_HOP), look_up("10.9.9.8", 1),
    ]),
    # There is memory for a table of 65,536 rules and 256 groups.
    Script([(65_536, 256, [])], [add("255.255.255.254/32", MOST_HOP), look_up("255.255.255.254", MOST_HOP), look_up("255.255.255.255", None)]),
    # Rules are counted: one that replaces another takes no room.
    Script([(4, 1, [])], [
        add("10.1.2.0/24", 5), add("10.1.2.128/25", 6), add("10.1.2.255/24", 7), add("11.0.0.0/8", 1), add("12.0.0.0/8", 1), add("13.0.0.0/8", 1, RULES_FULL),
    ]),
    # Tables with one rule each answer by their numbers.
    Script([(1, 0, ["10.0.0.0/8 5"]), (1, 0, ["11.0.0.0/8 6"]), (1, 0, ["10.1.0.0/16 7"])], [
        look_up("10.1.2.3", 5, 0), look_up("10.1.2.3", None, 1), look_up("11.1.2.3", 6, 1), look_up("10.1.2.3", 7, 2), look_up("10.2.2.3", None, 2),
        look_up("10.1.2.3", None, 3)._replace(answer=NO_TABLE),
    ]),
]


def each_depth(address: int) -> Script:
    """A rule of each depth over one address, whose hop is the depth: each decides, an address that leaves the prefix at one bit gets the rule above
    that bit, and as they are deleted again, the shallowest first, the deepest decides until it goes."""
    calls = []
    for depth in range(1, 33):
        calls += [Call(ADD, 0, address, depth, depth, OK), look_up(address, depth)]
    calls += [look_up(address ^ 1 << (31 - bit), bit or None) for bit in range(32)]
    for depth in range(1, 33):
        calls += [Call(DELETE, 0, address, depth, 0, OK), look_up(address, None if depth == 32 else 32)]
    return Script([(32, 1, [])], calls)


class Numbers:
    """Random numbers, the same in each run."""

    def __init__(self, seed: int) -> None:
        self.state = seed

    def next(self) -> int:
        """The next number of 32 bits."""
        self.state = (self.state * 6_364_136_223_846_793_005 + 1_442_695_040_888_963_407) % 2**64
        return self.state >> 32

    def address(self) -> int:
        """A random address, mostly in one of four blocks of 256."""
        at_will = self.next()
        return at_will if self.next() % 8 == 0 else 0x0A01_0000 + at_will % 1024

    def depth(self) -> int:
        """A random depth from 1 to 32, mostly a large one."""
        at_will = self.next()
        return at_will % 32 + 1 if self.next() % 4 == 0 else at_will % 12 + 21


class Random:
    """Random calls on a table of this many rules and groups, with the answers of tests/model."""

    def __init__(self, rules: int, groups: int, seed: int) -> None:
        self.limits, self.numbers = {"rules": rules, "groups": groups}, Numbers(seed)
        self.known: pipelines.Routes = {}
        self.calls: list[Call] = []

    def add(self) -> int:
        """Adds a random rule; returns the answer."""
        address, depth, hop = self.numbers.address(), self.numbers.depth(), self.numbers.next() % 16_777_216
        answer = ANSWERS[pipelines.add_route(self.known, self.limits, address, depth, hop)]
        self.calls.append(Call(ADD, 0, address, depth, hop, answer))
        return answer

    def delete(self) -> int:
        """Deletes a random rule; returns the answer."""
        address, depth = self.numbers.address(), self.numbers.depth()
        answer = ANSWERS[pipelines.delete_route(self.known, address, depth)]
        self.calls.append(Call(DELETE, 0, address, depth, 0, answer))
        return answer

    def look_up(self, count: int) -> None:
        """Looks up random addresses."""
        for _ in range(count):
            address = self.numbers.address()
            self.calls.append(look_up(address, machine.hop_for(self.known, address)))

    def script(self) -> Script:
        """All of it."""
        return Script([(self.limits["rules"], self.limits["groups"], [])], self.calls)


def few_rules() -> Script:
    """Random calls, of which some are refused, each with look-ups after it, and many look-ups at the end."""
    table, refused = Random(300, 6, 7), 0
    for _ in range(1500):
        if table.numbers.next() % 4 == 0:
            table.delete()
        else:
            refused += table.add() != OK
        table.look_up(10)
    assert refused > 0
    table.look_up(100_000)
    return table.script()


def many_rules() -> Script:
    """Random rules until 100 are refused, as the rules run out before the groups do, and then deletions until half of them are gone."""
    table, answers, deleted = Random(1000, 256, 11), [], 0
    while answers.count(RULES_FULL) < 100:
        answers.append(table.add())
    assert {*answers} == {OK, RULES_FULL} and len(table.known) == 1000
    table.look_up(20_000)
    while deleted < 500:
        deleted += table.delete() == OK
    assert len(table.known) == 500
    table.look_up(20_000)
    return table.script()


PIPELINE = """region = 65536
pool = [{ count = 4, cache = 0, room = 256 }]
port = [{ pool = 0, segs = 1, queue = 4, node = "free", in = "none", out = "none" }]
"""
FREE = b"free p0\nexit\n"
# The answer to a pipeline that is opened with the size of its batch, a record for each of its buffers with all their bytes; and the bytes of the
# numbers of one port, one pool and of all.
OPENED, NUMBERS = bytes(8) + struct.pack("<QQ", 4, 4 * 256), 8 * (4 + 2 + 4)


def spelled(script: Script) -> bytes:
    """A script as the driver reads it."""
    text = PIPELINE
    for rules, groups, routes in script.tables:
        texts = ", ".join(f'"{route}"' for route in routes)
        text += f"[[table]]\nrules = {rules}\ngroups = {groups}\nroutes = [{texts}]\n"
    packed = struct.pack("<II", 4, len(FREE)) + b"free" + FREE
    files = b"".join(struct.pack("<I", len(it)) + it for it in (text.encode(), packed))
    return files + struct.pack("<II", 0, len(script.calls)) + b"".join(struct.pack("<IIIII", *call[:5]) for call in script.calls)


def scripts() -> Iterator[tuple[str, Script]]:
    """All scripts, with their names."""
    yield from ((f"script {k}", script) for k, script in enumerate(SCRIPTS))
    yield "each depth", each_depth(number_of("170.85.204.51"))
    yield "few rules", few_rules()
    yield "many rules", many_rules()


def differs(program: pathlib.Path, script: Script) -> str | None:
    """Where a driver that plays a script differs from it."""
    run = subprocess.run([str(program)], input=spelled(script), capture_output=True, timeout=120)
    size = len(OPENED) + 8 * len(script.calls) + NUMBERS
    if run.returncode != 0 or len(run.stdout) != size or not run.stdout.startswith(OPENED):
        return f"status {run.returncode}, {len(run.stdout)} bytes and not {size}, {run.stdout[:100]!r}, {run.stderr[-500:]!r}"
    for k, (call, came) in enumerate(zip(script.calls, struct.iter_unpack("<II", run.stdout[len(OPENED) : -NUMBERS]))):
        if came != (call.answer, call.found):
            return f"call {k}, {call}: {came}"
    return None


def findings(program: pathlib.Path) -> int:
    """How many scripts a driver plays otherwise."""
    bad, calls = 0, 0
    for name, script in scripts():
        wrong = differs(program, script)
        calls += len(script.calls)
        if wrong:
            bad += 1
            print(f"host: routes, {name}: {wrong}")
    print(f"host: {calls} known calls on tables of routes, {bad} findings")
    return bad
