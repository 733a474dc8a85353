"""Environments of pipelines as rows of tables, the files of a pipeline in one of them, and node programs that several tables have."""
import pathlib
from collections.abc import Iterable, Mapping, Sequence
from typing import NamedTuple

from model.machine import Env, Pool, Port, Ring

# Cuts fourteen bytes off; sends a packet out of the port that it came from; puts it into ring 0. Each drops it where that cannot be.
STRIP = "iflen p0,14,L4\nadj p0,14\ntx p0,r0,L4\nexit\nL4:\nfree p0\nexit\n"
FORWARD = "tx p0,r0,d\nexit\nd: free p0\nexit\n"
LOOP = "enq p0,0,d\nexit\nd: free p0\nexit\n"
MULTICAST = (
    "alloc p1,0,a\nappend p1,4\nset r1,0x0a0b0c0d\nstore p1,0,4,r1\nclone p2,p0,1,b\nclone p3,p0,1,c\nfree p0\nchain p1,p2\nset r2,1\n"
    "tx p1,r2,d\ntx p3,r0,e\nexit\nd: free p1\ne: free p3\nexit\nc: free p2\nb: free p1\na: free p0\nexit\n"
)
# Counts to 257 before it sends.
COUNT = "set r1,0\na: add r1,1\njlt r1,257,a\ntx p0,r0,d\nexit\nd: free p0\nexit\n"


class Table(NamedTuple):
    """The most rules and groups of a table, and its routes."""

    rules: int
    groups: int
    routes: tuple[str, ...] = ()


def any_of(count: int) -> Ring:
    """A ring with this number of slots, which takes any packet."""
    return Ring(count, (0, 0, 0, 0, 0, 64))


class World(NamedTuple):
    """An environment."""

    pools: tuple[Pool, ...]
    ports: tuple[Port, ...]
    rings: tuple[Ring, ...] = ()
    tables: tuple[Table, ...] = ()

    def region(self) -> int:
        """The least number of bytes that a region for it may have."""
        return max(4096, Env([*self.pools], [{} for _ in self.tables], [*self.rings], [*self.ports]).need())

    def parts(self) -> Mapping[str, Sequence[dict[str, object]]]:
        """Its parts by the keys of a pipeline file. The programs of ports and then of rings are files that begin with n and their number."""
        facts = [dict(zip(("share", "head", "tail", "first", "last", "segs"), it.fact)) for it in self.rings]
        ports = [port._asdict() | {"node": f"n{k}.dpv", "in": f"in{k}.pcap", "out": f"out{k}.pcap"} for k, port in enumerate(self.ports)]
        rings = [{"count": ring.count} | fact | {"node": f"n{k}.dpv"} for k, (ring, fact) in enumerate(zip(self.rings, facts), len(ports))]
        return {"pool": [it._asdict() for it in self.pools], "table": [it._asdict() for it in self.tables], "ring": rings, "port": ports}


def shown(value: object) -> str:
    """A value as TOML has it."""
    if isinstance(value, tuple):
        return "[" + ", ".join(map(shown, value)) + "]"
    return f'"{value}"' if isinstance(value, str) else str(value)


def toml_of(world: World, certs: Iterable[int] = (), region: int | None = None) -> str:
    """The text of a pipeline file; the nodes with these numbers have certificates."""
    parts = world.parts()
    for k in certs:
        [*parts["port"], *parts["ring"]][k]["cert"] = f"n{k}.cert"
    lines = [f"[[{kind}]]\n" + "".join(f"{key} = {shown(value)}\n" for key, value in part.items()) for kind, all_of in parts.items() for part in all_of]
    return f"region = {region or world.region()}\n" + "".join(lines)


def put(folder: pathlib.Path, world: World, nodes: Sequence[str], certs: Mapping[int, bytes] = {}, region: int | None = None) -> None:
    """Writes it.toml and the node programs of ports and then of rings into a folder, and certificates by the numbers of their nodes."""
    files = {f"n{k}.dpv": text.encode() for k, text in enumerate(nodes)} | {f"n{k}.cert": text for k, text in certs.items()}
    for name, text in (files | {"it.toml": toml_of(world, certs, region).encode()}).items():
        (folder / name).write_bytes(text)
