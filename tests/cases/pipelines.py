"""Pipelines: environments, their nodes' files, and the text that names them, right or changed somewhere."""
from collections.abc import Iterator
from dataclasses import dataclass
from random import Random
from typing import Any

from model import pipelines, rules
from model.machine import Env, Pool, Port, Ring

from .certs import cert_of
from .noise import changed_bytes
from .programs import any_instr, changed_program, changed_text, refused_program, text_of
from .toml import is_array, toml_of
from .writer import program

ROOMS = (0, 1, 64, 127, 128, 129, 130, 160, 192, 256, 512, 2176, 4096)
EDGES = (-1, 0, 1, 3, 64, 65, 127, 129, 255, 256, 512, 4096, 4097, 65_535, 65_536, 65_537, (1 << 32) - 1, 1 << 32, 1 << 63, -(1 << 63))
TYPES = (True, 1.5, "1", "", [], [1], {}, [[]], {"a": 1}, "none", "\0", "é", "a\nb", "/")


def fact_of_ring(rng: Random) -> tuple[int, ...]:
    """What a ring declares."""
    some = rng.choice(((0, 0, 0, 0), (0, 0, 0, 0), (128, 0, 14, 0), (14, 4, 1, 1)))
    return (rng.choice((0, 0, 1, 2)), *some, rng.choice((1, 2, 64)))


def routes_of(rng: Random, number: int) -> Iterator[tuple[int, int, int]]:
    """Addresses, depths and hops of routes: many are near another, so prefixes are nested, replaced, and in one group."""
    depths = (1, 8, 16, 23, 24, 24, 25, 26, 31, 32, 32, rng.randrange(1, 33))
    bases = [rng.randrange(1 << 32) for _ in range(rng.choice((1, 2, 4)))]
    for _ in range(number):
        apart = rng.choice((0, 1, 128, 255, 256, rng.randrange(1 << 12), 1 << rng.randrange(32)))
        yield rng.choice(bases) ^ apart, rng.choice(depths), rng.choice((0, 1, 2, 255, rules.HIGHEST_HOP))


def table_of(rng: Random, takes_all: bool) -> dict[str, Any]:
    """A table. Of the routes that it has no room for it gets none, or rarely one, unless it takes all."""
    table = {"rules": rng.choice((1, 4, 16, 64, 65_536)), "groups": rng.choice((0, 1, 2, 8, 256)), "routes": []}
    known: pipelines.Routes = {}
    for address, depth, hop in routes_of(rng, rng.choice((0, 2, 6, 20, 60))):
        if not pipelines.add_route(known, table, address, depth, hop) or not takes_all and rng.random() < 0.1:
            table["routes"].append(f"{'.'.join(str(byte) for byte in address.to_bytes(4, 'big'))}/{depth} {hop}")
    return table


def tables_of(rng: Random, has_more: bool, takes_all: bool) -> list[dict[str, Any]]:
    """The tables of a pipeline. Each takes 64 MiB, so most have none, unless it has more of them."""
    number = rng.choice((1, 1, 2) if has_more else (0,) * 96 + (1, 1, 2))
    return [table_of(rng, takes_all) for _ in range(number)]


def env_of(rng: Random, tables: list[dict[str, Any]]) -> Env:
    """An environment."""
    counts = (1, 2, 3, 4, 4, 5, 8, 8, 16, 64, 300)
    number = rng.choice((1, 1, 2, 2, 3, 8))
    pools = [(rng.choice(counts), rng.choice(ROOMS if k else ROOMS[5:])) for k in range(number)]
    pools = [Pool(count, rng.choice((0, 0, rng.randrange(min(512, 2 * count // 3) + 1))), room) for count, room in pools]
    usable = [k for k, pool in enumerate(pools) if pool.room >= 129]
    ports = [
        Port(rng.choice(usable), rng.choice((1, 1, 1, 2, 3, 4, 64)), rng.choice((2, 4, 4, 8, 32)))
        for _ in range(rng.choice((1,) * 12 + (2,) * 12 + (3, 3, 4, 8)))
    ]
    rings = [Ring(rng.choice((2, 4, 4, 8)), fact_of_ring(rng)) for _ in range(rng.choice((0,) * 12 + (1,) * 12 + (2, 2, 3, 8)))]
    known = [pipelines.routes(table) for table in tables]
    return Env(pools, [{} if isinstance(table, str) else table for table in known], rings, ports)


@dataclass
class Parts:
    """A pipeline as it is spelled, and the files that it names."""

    top: dict[str, Any]
    env: Env
    files: dict[str, bytes]


def node_files(rng: Random, parts: Parts, place: int, sound: bool) -> dict[str, str]:
    """Makes the program of a node and its certificate, if one is named, and returns the keys that name them."""
    wrong = rng.choice((0, 0, 0, 1, 1, 2, 2, 2, 3)) if not sound and rng.random() < 0.9 / len(parts.env.ports) else -1
    code, rows = program(rng, parts.env, place)
    if wrong == 0 and rng.random() < 0.5:
        code, rows = refused_program(rng, parts.env, code, rows)
    elif wrong == 0:
        code = [any_instr(rng, 6) for _ in range(6)] if rng.random() < 0.3 else changed_program(rng, code)
        rows = rows if len(rows) == len(code) and rng.random() < 0.5 else None
    text = text_of(rng, code)
    names = {"node": f"n{place}"}
    parts.files[names["node"]] = changed_text(rng, text) if wrong == 1 else text
    if rng.random() < 0.6 or not rules.is_forward(code):
        names["cert"] = f"c{place}"
        parts.files[names["cert"]] = cert_of(rng, parts.env, code, rows, place, wrong != 2)
    if wrong == 3:
        names[rng.choice(("node", "cert"))] = rng.choice(("none", "", "folder", ".", "none/none", "n0/n0", "x" * 300))
    return names


def parts_of(rng: Random, sound: bool, has_tables: bool) -> Parts:
    """A pipeline and its programs."""
    tables = tables_of(rng, has_tables, sound)
    env = env_of(rng, tables)
    region = max(4096, env.need()) + rng.choice((0, 0, 64, 4096, -64 if rng.random() < 0.3 else 0))
    parts = Parts({"region": max(region, 4096)}, env, {})
    parts.top["pool"] = [pool._asdict() for pool in env.pools]
    parts.top["table"] = tables
    nodes = [node_files(rng, parts, place, sound) for place in range(len(env.ports) + len(env.rings))]
    facts = ("share", "head", "tail", "first", "last", "segs")
    parts.top["ring"] = [
        {"count": ring.count, **dict(zip(facts, ring.fact)), **names} for ring, names in zip(env.rings, nodes[len(env.ports) :])
    ]
    parts.top["port"] = [
        {**port._asdict(), **names, "in": f"i{k}", "out": f"o{k}"} for k, (port, names) in enumerate(zip(env.ports, nodes))
    ]
    return parts


def changed_top(rng: Random, top: dict[str, Any]) -> None:
    """Changes a pipeline by a key, a type, a limit, or how many parts there are."""
    kinds = [kind for kind in ("pool", "table", "ring", "port") if top.get(kind) and is_array(top[kind])]
    kind = rng.choice(kinds or ["pool"])
    part = rng.choice([rng.choice(top[kind]), top]) if kinds else top
    key, how = rng.choice(list(part) or ["count"]), rng.randrange(6)
    if how == 0 and key in part:
        del part[key]
    elif how == 1:
        part[rng.choice(("counts", "cert", "routes", "pool", "Count", "a b", ""))] = rng.choice((*EDGES, *TYPES))
    elif how == 2:
        part[key] = rng.choice(TYPES)
    elif how == 3 and isinstance(part.get(key), int):
        part[key] = rng.choice((part[key] - 1, part[key] + 1, rng.choice(EDGES)))
    elif how == 4 and kinds:
        top[kind] = top[kind] * rng.choice((0, 2, 9))
    else:
        part[key] = rng.choice(EDGES)


def pipeline_files(rng: Random, sound: bool, has_tables: bool = False) -> Parts:
    """A pipeline with its files, at fault somewhere unless it is sound. Few have tables, unless they all should."""
    parts = parts_of(rng, sound, has_tables)
    if not sound and rng.random() < 0.4:
        for _ in range(rng.choice((1, 1, 2))):
            changed_top(rng, parts.top)
    text = toml_of(rng, parts.top)
    if not sound and rng.random() < 0.1:
        text = changed_bytes(rng, text)
    parts.files["it.toml"] = text
    return parts
