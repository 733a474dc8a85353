"""Pipeline files, as docs/reference/pipelines.md defines them."""
import re
from collections.abc import Callable
from functools import lru_cache
from typing import Any, NamedTuple

from . import programs, rules, toml
from .machine import Env, Instr, Pool, Port, Ring

LONGEST = 1_048_576
REGIONS = range(4096, (1 << 30) + 1, 64)
NUMBERS = range(1 << 32)
PLAIN, LENGTH, SMALL = NUMBERS, range(65_536), range(256)
KEYS = {
    "pool": {"count": PLAIN, "cache": PLAIN, "room": PLAIN},
    "table": {"rules": range(1, 65_537), "groups": range(257), "routes": None},
    "ring": {
        "count": PLAIN,
        "share": SMALL,
        **dict.fromkeys(("head", "tail", "first", "last"), LENGTH),
        "segs": SMALL,
        "node": str,
        "cert": str,
    },
    "port": {"pool": PLAIN, "segs": SMALL, "queue": PLAIN, "node": str, "cert": str, "in": str, "out": str},
}
COUNTS = {2**k for k in range(1, 17)}
ROUTE = re.compile(r"([0-9]{1,3})\.([0-9]{1,3})\.([0-9]{1,3})\.([0-9]{1,3})/([0-9]{1,2}) ([0-9]{1,8})")


class Node(NamedTuple):
    """A port or ring of a file."""

    name: str
    node: str
    cert: str | None
    reads: str = ""
    writes: str = ""


class Pipeline(NamedTuple):
    """A pipeline that is loaded: its region, its environment, and its nodes and their programs, ports first."""

    region: int
    env: Env
    nodes: list[Node]
    programs: list[list[Instr]]
    rows: list[rules.Rows]


class Fault(NamedTuple):
    """Why a pipeline is not loaded: the status, and both outputs."""

    status: int
    printed: str
    reported: str


def fault(text: str) -> Fault:
    """A fault of the files."""
    return Fault(3, "", f"fault: pipeline {text}\n")


def fits(value: Any, kind: Any) -> bool:
    """Whether the value of a key is of its type and range."""
    if kind is str:
        return isinstance(value, str)
    if kind is None:
        return isinstance(value, list) and all(isinstance(route, str) for route in value)
    return isinstance(value, int) and not isinstance(value, bool) and value in kind


def bad_key(top: dict[str, Any]) -> str | None:
    """The first part with a bad key."""
    arrays = {name: top.get(name, []) for name in KEYS}
    are_tables = all(isinstance(parts, list) and all(isinstance(part, dict) for part in parts) for parts in arrays.values())
    if not are_tables or not fits(top.get("region"), REGIONS) or set(top) - {"region", *KEYS}:
        return "top 0"
    for name, keys in KEYS.items():
        for k, part in enumerate(arrays[name]):
            are_there = set(keys) - {"cert"} <= set(part) <= set(keys)
            if not are_there or not all(fits(value, keys[key]) for key, value in part.items()):
                return f"{name} {k}"
    return None


def bad_env(top: dict[str, Any]) -> str | None:
    """Why there is no such environment."""
    pools, tables, rings, ports = (top.get(name, []) for name in ("pool", "table", "ring", "port"))
    if not (1 <= len(pools) <= 8 and len(tables) <= 4 and len(rings) <= 8 and 1 <= len(ports) <= 8):
        return "1 0"
    for k, pool in enumerate(pools):
        count, cache, room = pool["count"], pool["cache"], pool["room"]
        if not (1 <= count <= 65_535 and cache <= 512 and 3 * cache <= 2 * count and room <= 4096):
            return f"2 {k}"
    for k, ring in enumerate(rings):
        if ring["count"] not in COUNTS or ring["share"] > 2 or not 1 <= ring["segs"] <= 64:
            return f"3 {k}"
    for k, port in enumerate(ports):
        has_pool = port["pool"] < len(pools) and pools[port["pool"]]["room"] >= 129
        if not has_pool or not 1 <= port["segs"] <= 64 or port["queue"] not in COUNTS:
            return f"4 {k}"
    return "5 0" if sum(pool["count"] for pool in pools) > 65_535 else None


Routes = dict[tuple[int, int], int]


def prefix_of(address: int, depth: int) -> int:
    """The address without its bits below the depth."""
    return address >> (32 - depth) << (32 - depth)


def add_route(known: Routes, table: dict[str, Any], address: int, depth: int, hop: int) -> int:
    """Adds a route to those of a table; or returns the cause of its refusal, from 1."""
    if not 1 <= depth <= 32 or hop > rules.HIGHEST_HOP:
        return 1 if not 1 <= depth <= 32 else 2
    key = prefix_of(address, depth), depth
    if key not in known:
        groups = {place >> 8 for place, deep in [*known, key] if deep > 24}
        if len(known) >= table["rules"] or depth > 24 and len(groups) > table["groups"]:
            return 3 if len(known) >= table["rules"] else 4
    known[key] = hop
    return 0


def delete_route(known: Routes, address: int, depth: int) -> int:
    """Deletes a route of a table; or returns the cause of its refusal."""
    if not 1 <= depth <= 32:
        return 1
    return 0 if known.pop((prefix_of(address, depth), depth), None) is not None else 5


def routes(table: dict[str, Any]) -> Routes | str:
    """The routes of a table; or the place and cause of the first that is refused."""
    known: Routes = {}
    for k, text in enumerate(table["routes"]):
        parts = ROUTE.fullmatch(text)
        if not parts or any(int(part) > 255 for part in parts.groups()[:4]):
            return f"{k} 6"
        *address, depth, hop = map(int, parts.groups())
        cause = add_route(known, table, int.from_bytes(bytes(address), "big"), depth, hop)
        if cause:
            return f"{k} {cause}"
    return known


def limits(text: bytes) -> list[dict[str, Any]]:
    """The tables of a pipeline file that is loaded, with their limits."""
    tables: list[dict[str, Any]] = toml.read(text.decode()).get("table", [])
    return tables


def environment(top: dict[str, Any]) -> Env | Fault:
    """What the programs are written for; or the first bad route."""
    tables = []
    for k, table in enumerate(top.get("table", [])):
        known = routes(table)
        if isinstance(known, str):
            return fault(f"4 BadTable {k} {known}")
        tables.append(known)
    pools = [Pool(pool["count"], pool["cache"], pool["room"]) for pool in top["pool"]]
    fact = ("share", "head", "tail", "first", "last", "segs")
    rings = [Ring(ring["count"], tuple(ring[key] for key in fact)) for ring in top.get("ring", [])]
    return Env(pools, tables, rings, [Port(port["pool"], port["segs"], port["queue"]) for port in top["port"]])


def nodes_of(top: dict[str, Any]) -> list[Node]:
    """The nodes, ports first."""
    ports = [
        Node(f"port {k}", part["node"], part.get("cert"), part["in"], part["out"]) for k, part in enumerate(top["port"])
    ]
    return ports + [Node(f"ring {k}", part["node"], part.get("cert")) for k, part in enumerate(top.get("ring", []))]


Files = Callable[[str], bytes | None]


Loaded = tuple[list[Instr], rules.Rows]


class Judged:
    """The results for nodes in the last environment: files are read each time, but checked once."""

    env: Env | None = None
    nodes: dict[tuple[Any, ...], Loaded | Fault] = {}


def node_of(node: Node, env: Env, place: int, files: Files, said: str) -> Loaded | Fault:
    """The program and the certificate of a node, checked. `said` is what was printed."""
    asked = place, files(node.node), node.cert is not None, files(node.cert or ""), said
    if Judged.env is not env or len(Judged.nodes) > 1000:
        Judged.env, Judged.nodes = env, {}
    if asked not in Judged.nodes:
        Judged.nodes[asked] = judged(node.name, env, *asked)
    return Judged.nodes[asked]


def judged(name: str, env: Env, place: int, text: bytes | None, has_cert: bool, cert: bytes | None, said: str) -> Loaded | Fault:
    """The program and the certificate of these texts; or why they are not loaded."""
    if text is None:
        return fault(f"5 File {name}")
    program = programs.assemble(text)
    if isinstance(program, programs.Fault):
        return fault(f"6 Asm {name} line {program.line} cause {program.cause}")
    if has_cert and cert is None:
        return fault(f"5 File {name}")
    rows = inferred_for(name, program, env, place, said) if cert is None else named_for(name, program, env, place, cert)
    return rows if isinstance(rows, Fault) else (program, rows)


def named_for(name: str, program: list[Instr], env: Env, place: int, cert: bytes) -> rules.Rows | Fault:
    """The certificate that the file names for a node, checked."""
    rows = rules.decode(cert, len(program))
    if isinstance(rows, tuple):
        return fault(f"7 BadCert {name} line {rows[0]} cause {rows[1]}")
    refused = rules.check(env, program, rows, rules.entry_row(env, place))
    return Fault(1, f"{name} refused at {refused[0]} by J{refused[1]}\n", "") if refused else rows


def inferred_for(name: str, program: list[Instr], env: Env, place: int, said: str) -> rules.Rows | Fault:
    """The certificate that is inferred for a node. Of a program with loops any refusal of it that was printed is open."""
    forward, rows = rules.is_forward(program), rules.infer(env, program, rules.entry_row(env, place))
    reported = re.fullmatch(rf"{name} (not inferred|refused) at \d+ by J\d+\n", said)
    is_open = reported and (reported[1] == "not inferred" or not forward)
    if is_open and (rows is None or not forward):
        return Fault(1, said, "")
    return rows or ([] if not forward else Fault(1, f"{name} not inferred at some label by some rule\n", ""))


@lru_cache(16)
def settings(text: bytes) -> tuple[int, Env, list[Node]] | Fault:
    """The region, the environment and the nodes of a text; or why it is no pipeline."""
    try:
        top = toml.read(text.decode())
    except (ValueError, RecursionError):
        return fault("1 NotToml")
    if any(beyond(value) for value in top.values()):
        return fault("1 NotToml")
    bad = bad_key(top)
    if bad:
        return fault(f"2 BadKey {bad}")
    bad = bad_env(top)
    if bad:
        return fault(f"3 BadEnv {bad}")
    env = environment(top)
    return env if isinstance(env, Fault) else (top["region"], env, nodes_of(top))


def load(files: Files, text: bytes, inferred: bool, said: str) -> Pipeline | Fault:
    """The pipeline of a text, with the certificates that are named or with all of them inferred; or why it is not loaded."""
    known = settings(text)
    if isinstance(known, Fault):
        return known
    pipeline = Pipeline(*known, [], [])
    for place, node in enumerate(pipeline.nodes):
        loaded = node_of(node._replace(cert=None) if inferred else node, pipeline.env, place, files, said)
        if isinstance(loaded, Fault):
            return loaded
        pipeline.programs.append(loaded[0])
        pipeline.rows.append(loaded[1])
    return pipeline


def beyond(value: Any) -> bool:
    """Whether there is a whole number beyond 64 bits."""
    if isinstance(value, dict):
        return any(map(beyond, value.values()))
    if isinstance(value, list):
        return any(map(beyond, value))
    return isinstance(value, int) and not -(2**63) <= value < 2**63
