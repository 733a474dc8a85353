"""Captures of both orders and units, with records at the limits of an environment, and faulty captures."""
import struct
from random import Random

from model import captures
from model.machine import BIGGEST, Env

from .noise import changed_bytes
from .writer import address_near


def lengths_for(env: Env) -> list[int]:
    """Lengths of records at some limit."""
    edges = {0, 1, 13, 14, 60, 100}
    for port in env.ports:
        size = env.pools[port.pool].room - 128
        edges |= {max(0, size * k + d) for k in (1, 2, port.segs) for d in (-1, 0, 1)}
    return sorted(edge for edge in edges if edge <= captures.LONGEST)


def record(rng: Random, env: Env, length: int) -> bytes:
    """The bytes of a record; if there are tables, most are addresses near routes."""
    kind = rng.randrange(3)
    if env.tables and rng.random() < 0.8:
        return b"".join(address_near(rng, env).to_bytes(4, "big") for _ in range(min(length // 4 + 1, 16))).ljust(length)[:length]
    if kind == 0:
        return rng.randbytes(length)
    return bytes([rng.randrange(256)]) * length if kind == 1 else (bytes(range(256)) * (length // 256 + 1))[:length]


def capture(rng: Random, env: Env, most: int, sound: bool) -> bytes:
    """A capture of some records, in either order and unit; or one that is at fault somewhere."""
    order, magic = rng.choice("<>"), rng.choice((0xA1B2C3D4, 0xA1B23C4D))
    data = struct.pack(order + "IHHIIII", magic, 2, 4, rng.choice((0, BIGGEST >> 32)), 0, rng.choice((0, 65_535)), 1)
    edges, units = lengths_for(env), captures.MAGICS[magic]
    for _ in range(rng.randrange(most + 1)):
        length = rng.choice((60, rng.choice(edges), rng.choice(edges), rng.randrange(200)))
        length = length if length < 5000 or rng.random() < 0.05 else 60
        fraction = rng.choice((0, 1, units - 1, rng.randrange(units)))
        head = struct.pack(order + "IIII", rng.randrange(1 << 32), fraction, length, rng.choice((length, 0, 1 << 31)))
        data += head + record(rng, env, length)
    return data if sound else spoiled(rng, data, order, units)


def spoiled(rng: Random, data: bytes, order: str, units: int) -> bytes:
    """A capture that is cut, has a byte changed, or ends in a faulty record."""
    how = rng.randrange(6)
    if how == 0:
        return data[: rng.randrange(len(data) + 1)]
    if how == 1:
        return changed_bytes(rng, data)
    if how == 2:
        at = rng.randrange(24)
        return data[:at] + bytes([rng.randrange(256)]) + data[at + 1 :]
    length = rng.choice((0, 1, 60, captures.LONGEST, captures.LONGEST + 1, (1 << 32) - 1))
    fraction = rng.choice((0, units - 1, units, (1 << 32) - 1))
    tail = struct.pack(order + "IIII", 1, fraction, length, length) + bytes(rng.choice((0, 1, 59, 60, 61)))
    return data + tail + (data[24:] if rng.random() < 0.5 else b"")
