"""What a run lost, with what helps."""
from typing import NamedTuple

from documents import Document, facts_of_run, plural
from limits import HEADROOM, LINE, MAX_BUFFERS, MAX_RING, MAX_ROOM, MAX_SEGMENTS, MIN_REGION


class Helps(NamedTuple):
    """What helps where a number is too small: raising it, or these options in its place."""

    number: str = ""
    options: str = ""

    def of(self, facts: Document, is_most: bool) -> str:
        """The end of a note."""
        if is_most:
            return ": no pipeline may have more\n"
        if facts["in_file"]:
            return f": raise {self.number}\n"
        return f": raise {self.options}\n" if facts["in_options"] and self.options else ": a pipeline file may give more\n"


def end_of_pool(facts: Document, pool: int) -> str:
    """The end of a note where a pool has too few buffers."""
    if facts["refused"]:
        return f": --refuse refused {plural(facts['refused'], 'call')}\n"
    is_most = pool >= len(facts["pools"]) or facts["pools"][pool]["count"] >= MAX_BUFFERS
    return Helps(f"the count of pool {pool}").of(facts, is_most)


def of_records(facts: Document, k: int, port: Document) -> str:
    """Which records of a port were not received."""
    text = ""
    room = facts["pools"][port["pool"]]["room"]
    if port["oversize"]:
        most = plural(port["segs"] * max(room - HEADROOM, 0), "byte")
        text += f"port {k}: {plural(port['oversize'], 'record is', 'records are')} longer than it takes ({most})"
        text += Helps("segs or room", "--segs or --room").of(facts, port["segs"] == MAX_SEGMENTS and room == MAX_ROOM)
    if port["nobuf"]:
        found = "got no" if facts["refused"] else "found too few free"
        text += f"port {k}: {plural(port['nobuf'], 'record')} {found} buffers{end_of_pool(facts, port['pool'])}"
    return text


def of_full(facts: Document, what: str, full: int, places: int, number: str) -> str:
    """How often a list or a ring of this number of places was full, if it was."""
    if not full:
        return ""
    return f"{what} was full {plural(full, 'time')} when a packet came{Helps(number).of(facts, places >= MAX_RING)}"


def of_port(facts: Document, k: int, port: Document) -> str:
    """What a port lost, and which record of its input is not read."""
    text = of_records(facts, k, port) + of_full(facts, f"port {k}: its transmit list", port["full"], port["queue"], "its queue")
    if port["input"] == "cut":
        text += f"port {k}: its input ends within the record at byte {port['cut_at']}, which is not read\n"
    return text


def of_ring(facts: Document, k: int, ring: Document) -> str:
    """What a ring lost."""
    text = of_full(facts, f"ring {k}: it", ring["full"], ring["count"], "its count")
    if ring["left"]:
        were = plural(ring["left"], "packet was", "packets were")
        text += f"ring {k}: {were} left at the end: a turn runs 32 packets from rings at most; let programs put fewer into rings for each record\n"
    return text


def of_pool(facts: Document, k: int, pool: Document) -> str:
    """Which buffers programs did not get."""
    if not pool["refused"]:
        return ""
    return f"pool {k}: alloc or clone got no buffers {plural(pool['refused'], 'time')}{end_of_pool(facts, k)}"


def of_cut(cut: int) -> str:
    """That node runs were cut, if some were."""
    runs = plural(cut, "node run was cut: it", "node runs were cut: each")
    return f"{runs} took more than 256 backward jumps, and its packets were freed; --counts shows which loop\n" if cut else ""


def of_run(facts: Document) -> str:
    """What was lost; or the size of a region that is large enough, if the run could not begin."""
    if facts["region"] < facts["needed"]:
        region = -(-max(facts["needed"], MIN_REGION) // LINE) * LINE
        return f"  help: the pools, rings and ports need {facts['needed']} bytes (dpv check FILE --sizes shows the parts): region = {region}\n"
    parts = (("ports", of_port), ("rings", of_ring), ("pools", of_pool))
    return "".join(say(facts, k, it) for name, say in parts for k, it in enumerate(facts[name])) + of_cut(facts["cut"])


def of_truncated(k: int, records: int) -> str:
    """How many records of a port were cut, if some were."""
    were = plural(records, "record was", "records were")
    return f"port {k}: {were} cut by the capture's snap length: capture with a larger -s\n" if records else ""


def say_losses(given: Document) -> str:
    """What a run lost."""
    facts = facts_of_run(given)
    return of_run(facts) + "".join(of_truncated(k, port["truncated"]) for k, port in enumerate(facts["ports"]))
