"""Pipelines of programs of the language pkt: pools that run out, lists that are full, rings that declare little or much."""
from dataclasses import dataclass, field, replace
from random import Random

from model.captures import Record, written
from model.machine import Env, Pool, Port, Ring

from .frames import frames
from .programs import MAX_SEGMENTS, Setting, program

# What rings declare, and what their programs are given.
FACTS = {"any": (0, 0, 0, 0, 0, MAX_SEGMENTS), "alone": (2, 64, 0, 0, 0, 1), "ipv4": (2, 64, 0, 34, 0, 1)}
GIVEN = {
    "any": ("given shared", "given headroom 0"),
    "alone": ("given headroom 64",),
    "ipv4": ("given headroom 64", "given length 34", "given eth/ipv4"),
}
ROUTES = ("10.0.0.0/8 1", "10.1.0.0/16 2", "192.0.2.0/24 0", "203.0.113.9/32 2", "8.0.0.0/6 16777215")


@dataclass(frozen=True)
class Case:
    """An environment, the text of each node's program, ports first, the frames that come at each port, and the calls that are refused."""

    env: Env
    texts: tuple[str, ...]
    inputs: tuple[tuple[bytes, ...], ...]
    refused: tuple[int, ...] = ()
    routes: tuple[str, ...] = field(default=())

    def records(self, port: int) -> list[Record]:
        """The records of a port, each with its time."""
        return [(number, 1000 * port, data) for number, data in enumerate(self.inputs[port])]

    def capture(self, port: int) -> bytes:
        """The capture of a port."""
        return written(False, self.records(port))

    def toml(self) -> str:
        """The pipeline file: node K runs nK.dpv, port K reads iK and writes oK."""
        region = max(4096, self.env.need())
        text = f"region = {region}\n"
        for pool in self.env.pools:
            text += f"[[pool]]\ncount = {pool.count}\ncache = {pool.cache}\nroom = {pool.room}\n"
        for _ in self.env.tables:
            text += "[[table]]\nrules = 16\ngroups = 4\nroutes = [" + ", ".join(f'"{route}"' for route in self.routes) + "]\n"
        for number, port in enumerate(self.env.ports):
            text += f"[[port]]\npool = {port.pool}\nsegs = {port.segs}\nqueue = {port.queue}\n"
            text += f'node = "n{number}.dpv"\nin = "i{number}"\nout = "o{number}"\n'
        for number, ring in enumerate(self.env.rings):
            names = ("share", "head", "tail", "first", "last", "segs")
            facts = "".join(f"{name} = {value}\n" for name, value in zip(names, ring.fact))
            text += f'[[ring]]\ncount = {ring.count}\n{facts}node = "n{len(self.env.ports) + number}.dpv"\n'
        return text

    def with_text(self, node: int, text: str) -> "Case":
        """The same with another program."""
        return replace(self, texts=(*self.texts[:node], text, *self.texts[node + 1 :]))


def address_of(text: str) -> int:
    """The number of an IPv4 address."""
    return int.from_bytes(bytes(int(part) for part in text.split(".")), "big")


def table_of(routes: tuple[str, ...]) -> dict[tuple[int, int], int]:
    """A table with these routes."""
    found = {}
    for route in routes:
        prefix, hop = route.split(" ")
        address, depth = prefix.split("/")
        found[address_of(address), int(depth)] = int(hop)
    return found


def environment(rng: Random) -> tuple[Env, tuple[str, ...]]:
    """An environment, and the routes of its table."""
    segs = rng.choice((1,) * 8 + (2, 4))
    room = rng.choice((2176, 2176, 2176, 512)) if segs == 1 else rng.choice((144, 160, 192, 256, 2176))
    pools = [Pool(rng.choice((4 * segs, 16 * segs, 64)), 0, room), Pool(rng.choice((1, 2, 16, 64)), rng.choice((0, 0, 1)), rng.choice((0, 128, 2176)))]
    pools[1] = pools[1]._replace(cache=0 if pools[1].count < 2 else pools[1].cache)
    rings = [Ring(rng.choice((2, 4, 16)), rng.choice(list(FACTS.values()))) for _ in range(rng.choice((0, 0, 0, 1, 1, 2)))]
    ports = [Port(0, segs, rng.choice((2, 4, 32))) for _ in range(rng.choice((1, 3, 4, 4)))]
    routes = ROUTES[: rng.randrange(1, len(ROUTES) + 1)] if rng.random() < 0.25 else ()
    return Env(pools, [table_of(routes)] if routes else [], rings, ports), routes


def refused_calls(rng: Random) -> tuple[int, ...]:
    """The allocation calls that are refused at will; most often none."""
    if rng.random() < 0.75:
        return ()
    return tuple(sorted(rng.sample(range(1, 100), rng.choice((1, 5, 30)))))


def case(rng: Random, prelude: str, wild: bool) -> Case:
    """A pipeline in which each port and each ring has a program of its own."""
    env, routes = environment(rng)
    takes = tuple(next(name for name, fact in FACTS.items() if fact == ring.fact) for ring in env.rings)
    setting = Setting(len(env.ports), env.ports[0].segs, len(env.pools), len(env.tables), takes)
    texts = [program(rng, setting, prelude, wild) for _ in env.ports]
    for name in takes:
        is_any = name == "any"
        texts.append(program(rng, replace(setting, given=GIVEN[name], is_shared=is_any, segments=MAX_SEGMENTS if is_any else 1), prelude, wild))
    inputs = [tuple(frames(rng, rng.choice((10, 20, 40)))) for _ in env.ports]
    return Case(env, tuple(texts), tuple(inputs), refused_calls(rng), routes)
