"""Captures (classic pcap 2.4), as they are read and written."""
import struct
from typing import NamedTuple

MAGICS = {0xA1B2C3D4: 1_000_000, 0xA1B23C4D: 1_000_000_000}
LONGEST = 262_144
MOST = 16_777_216
Record = tuple[int, int, bytes]


class Capture(NamedTuple):
    """How many units a second has, or the cause of a bad header; the records, and how they end: `whole`, `cut BYTE` or a cause."""

    units: int
    records: list[Record]
    ending: str
    has_header: bool


def read(data: bytes) -> Capture:
    """What is read of a capture."""
    if len(data) < 24:
        return Capture(0, [], "6", False)
    order = next((order for order in "<>" if struct.unpack_from(order + "I", data)[0] in MAGICS), None)
    if order is None:
        return Capture(0, [], "1", False)
    magic, major, minor, _zone, _accuracy, _snap, link = struct.unpack_from(order + "IHHIIII", data)
    if (major, minor) != (2, 4):
        return Capture(0, [], "2", False)
    if link != 1:
        return Capture(0, [], "3", False)
    records, ending = read_records(data, order, MAGICS[magic])
    return Capture(MAGICS[magic], records, ending, True)


def read_records(data: bytes, order: str, units: int) -> tuple[list[Record], str]:
    """The records after the header, and how they end."""
    records: list[Record] = []
    at = 24
    while at < len(data):
        if len(records) == MOST:
            return records, "7"
        if len(data) - at < 16:
            return records, f"cut {at}"
        seconds, fraction, length, _original = struct.unpack_from(order + "IIII", data, at)
        if fraction >= units:
            return records, "4"
        if length > LONGEST:
            return records, "5"
        if len(data) - at - 16 < length:
            return records, f"cut {at}"
        records.append((seconds, fraction * (1_000_000_000 // units), data[at + 16 : at + 16 + length]))
        at += 16 + length
    return records, "whole"


def written(nano: bool, records: list[Record]) -> bytes:
    """The one text of these records; times in microseconds are rounded down."""
    head = struct.pack("<IHHIIII", 0xA1B23C4D if nano else 0xA1B2C3D4, 2, 4, 0, 0, LONGEST, 1)
    step = 1 if nano else 1000
    return head + b"".join(struct.pack("<IIII", s, n // step, len(data), len(data)) + data for s, n, data in records)
