"""The words of each reason for which a program is refused: the rule, what is known, what is wanted, and what helps."""
from collections.abc import Callable
from dataclasses import dataclass
from typing import NamedTuple

from documents import Document
from facts import Fact, fact_in, measured, segments, words_of
from node_forms import GREATEST, RANGES
from program_text import BUILT, Instruction, Line, instructions_in

# The most bytes for which an instruction can test, the measures by their numbers, and the instruction that tests each.
MAX_TESTED, TESTS = RANGES["c"][1], {"head": "ifhead", "tail": "iftail", "first": "iflen", "last": "iflast"}
PARTS = tuple(TESTS)
RULES = {
    1: "J1: the certificate has a row for each instruction",
    2: "J2: what is known at the entry is enough for the first row",
    3: "J3: the pool, the table, the ring and each label exist",
    4: "J4: each packet register that is used holds a packet",
    5: "J5: the target of alloc and clone is empty, and those of chain differ",
    6: "J6: the packet has the bytes or the room that the instruction needs",
    7: "J7: what it writes is not shared",
    8: "J8: chained packets have at most 64 segments",
    9: "J9: the port exists, and the packet satisfies what the ring declares",
    10: "J10: at exit no register holds a packet",
    11: "J11: the facts after the instruction satisfy the row of each successor",
}


# The names of the numbers of each reason, in the order in which the program prints them, and which facts it has.
NUMBERS = {
    "row_count": "known wanted", "row_packet": "packet", "row_group": "packet group", "row_number": "register known wanted",
    "no_pool": "pool known", "no_table": "table known", "no_ring": "ring known", "no_instruction": "to known", "not_held": "packet",
    "not_empty": "packet", "one_register": "packet", "too_little": "packet part known start count", "not_alone": "packet wanted",
    "too_long": "packet other known more", "no_port": "register known ports", "less_than_ring": "packet ring", "left_over": "packet",
}
FACTS = {
    "row_packet": ("known", "wanted"), "row_group": ("known", "wanted"), "not_empty": ("known",), "not_alone": ("known",),
    "less_than_ring": ("known", "wanted"), "left_over": ("known",),
}


@dataclass(frozen=True)
class Refusal:
    """A refused program: its node, whether its certificate was given, the label, from 0, and the rule; its file, its instructions, and whether
    `dpv build` wrote it; the most segments of a packet, if its node is a port; and the case of its reason, with the members of that."""

    node: str
    given: bool
    label: int
    rule: int
    file: str
    listing: list[Instruction]
    is_built: bool
    segs: int | None
    case: str
    members: Document

    @property
    def line(self) -> Line:
        """The line of the instruction."""
        return self.listing[self.label].line if self.label < len(self.listing) else Line(0, "")

    def number(self, name: str) -> int:
        """A member that is a number."""
        return int(self.members.get(name, 0))

    def fact(self, name: str) -> Fact | None:
        """A member that is a fact."""
        return fact_in(self.members.get(name))


def members_of(reason: Document) -> Document:
    """The members of a reason, by their names. A number above 2^53 is a string."""
    case = reason["case"]
    members = {name: int(number) for name, number in zip(NUMBERS.get(case, "").split(), reason["numbers"])}
    if "part" in members:
        members["part"] = PARTS[members["part"]]
    if "to" in reason:
        members["to"] = reason["to"]
    return members | {name: reason[name] for name in FACTS.get(case, ())}


def refusal_in(node: Document) -> Refusal:
    """The refusal that a document has."""
    at, why = node["refused"], node["why"]
    text, reason = why["text"], why["reason"]
    place = (node["node"], at["given"], at["label"], at["rule"], why["file"])
    return Refusal(*place, instructions_in(text), text.startswith(f"# {BUILT}"), why["segs"], reason["case"], members_of(reason))


Test = Callable[[Refusal], bool]


class Cure(NamedTuple):
    """What helps, and whether it does."""

    words: str
    helps: Test = lambda it: True


def is_for_port(it: Refusal) -> bool:
    """Whether `dpv build` wrote it for a port."""
    return it.is_built and it.segs is not None


def is_for_ring(it: Refusal) -> bool:
    """Whether `dpv build` wrote it for a ring."""
    return it.is_built and it.node.startswith("ring")


def is_for_either(it: Refusal) -> bool:
    """Whether `dpv build` wrote it for a port or a ring."""
    return is_for_port(it) or is_for_ring(it)


def lacks_room(it: Refusal) -> bool:
    """Whether a packet that `dpv build` made has too little headroom."""
    return is_for_either(it) and it.members["part"] == "head" and it.number("packet") > 0


def last_byte(it: Refusal) -> int:
    """The number of bytes that are wanted."""
    return min(it.number("start") + it.number("count"), GREATEST)


def has_share(least: int, most: int) -> Test:
    """Whether what is known of the packet has one of these shares."""
    return lambda it: least <= getattr(it.fact("known"), "share", -1) <= most


def wants_none(it: Refusal) -> bool:
    """Whether the row of a successor wants a packet register to be empty, and was inferred."""
    return not it.given and it.case == "row_packet" and it.fact("wanted") is None


INFER = "let dpv infer write the certificate"
DECLARE = "declare one more in the pipeline, or name another"
GIVEN = "let the ring declare what given states in its source (share = 2 and head = 128 where it states nothing), or state what the ring declares"
BOUND = "bound the index before it by jlt or and: it can be {start}"
ROW = (
    Cure(INFER, lambda it: "to" not in it.members),
    Cure("free p{packet} before control goes there, or let this path end with exit: another path arrives with p{packet} empty", wants_none),
    Cure("test or bound it again before control goes there, or leave the loop with what it began with", lambda it: not it.given),
    Cure("let dpv infer write the certificate, or test for more before it"),
)
TOO_LITTLE = (
    Cure("let new take its packet from a pool whose room is at least 128", lacks_room),
    Cure(GIVEN, is_for_ring),
    Cure("write segments {segs} in its source, as the port takes packets of {segs} segments, and build it again",
         lambda it: is_for_port(it) and it.segs > 1),
    Cure("{test} before it", lambda it: it.number("start") == 0),
    Cure(BOUND, lambda it: last_byte(it) > MAX_TESTED),
    Cure(BOUND + "; {test} would do, too, but sends each shorter packet to L"),
)
NOT_ALONE = (
    Cure(GIVEN, is_for_ring),
    Cure("append before chain", has_share(1, 1)),
    Cure("free its clones before it, or write before clone", has_share(8, 255)),
    Cure("write before clone, or into a packet of its own from alloc"),
)
NO_PORT = (
    Cure("write ports {ports} in its source, the number of ports, and build it again; or run it in a pipeline with more ports", is_for_either),
    Cure("jlt r{register},{ports},L before it, and at L the tx"),
)


class Row(NamedTuple):
    """The words of a reason: what is known, what is wanted, and what helps: the first cure that does."""

    known: str
    wanted: str
    cures: tuple[Cure, ...]


ROWS = {
    "row_count": Row("{known} rows", "{wanted} rows", (Cure(INFER),)),
    "no_entry": Row("no such port or ring", "a port or ring of the environment", (Cure("name a port or ring that is there"),)),
    "row_dead": Row("control comes there", "that control never comes there", ROW),
    "row_packet": Row("p{packet} {known_fact}", "p{packet} {wanted_fact}", ROW),
    "row_group": Row("p{packet} {known_fact}", "p{packet} {wanted_fact}", ROW),
    "row_number": Row("r{register} <= {known}", "r{register} <= {wanted}", ROW),
    "no_pool": Row("the number of pools is {known}", "a pool with the number {pool}, from 0", (Cure(DECLARE),)),
    "no_table": Row("the number of tables is {known}", "a table with the number {table}, from 0", (Cure(DECLARE),)),
    "no_ring": Row("the number of rings is {known}", "a ring with the number {ring}, from 0", (Cure(DECLARE),)),
    "no_instruction": Row(
        "the number of instructions is {known}", "an instruction with the number {to}, from 0", (Cure("end the program with exit or jmp"),)),
    "not_held": Row(
        "p{packet} empty", "a packet in p{packet}",
        (Cure("use p{packet} before it is sent, queued or freed; or put a packet into it by alloc or clone"),)),
    "not_empty": Row("p{packet} {known_fact}", "p{packet} empty", (Cure("free p{packet} before it, or take another register"),)),
    "one_register": Row("both are p{packet}", "two registers", (Cure("clone the packet, and chain the clone"),)),
    "too_little": Row("p{packet} {known_bytes}", "p{packet} {wanted_bytes}", TOO_LITTLE),
    "not_alone": Row("p{packet} {known_fact}", "p{packet} {alone}", NOT_ALONE),
    "too_long": Row(
        "p{packet} {known_segments}, p{other} {more_segments}", "at most 64 together",
        (Cure("let the port or ring take packets of fewer segments"),)),
    "no_port": Row("r{register} <= {known}", "r{register} below {ports}, the number of ports", NO_PORT),
    "less_than_ring": Row(
        "p{packet} {known_fact}", "p{packet} {wanted_fact}", (Cure("test for what is missing before it, or let the ring declare less"),)),
    "left_over": Row("p{packet} {known_fact}", "p{packet} empty", (Cure("free p{packet} before it"),)),
}


def of_bytes(it: Refusal) -> dict[str, object]:
    """What the words of a packet with too few bytes name: what there is, what is wanted, and the instruction that tests for it."""
    part, start, count = it.members["part"], it.number("start"), it.number("count")
    wanted = f"{measured(part, start)} + {count}" if start else measured(part, count)
    test = f"{TESTS[part]} p{it.number('packet')},{last_byte(it)},L"
    return {"known_bytes": measured(part, it.number("known")), "wanted_bytes": wanted, "test": test}


def of_facts(it: Refusal) -> dict[str, object]:
    """What the words name of facts."""
    return {"known_fact": words_of(it.fact("known")), "wanted_fact": words_of(it.fact("wanted"))}


def of_segments(it: Refusal) -> dict[str, object]:
    """What the words of two packets of too many segments name."""
    return {"known_segments": segments(it.number("known")), "more_segments": segments(it.number("more"))}


def of_sharing(it: Refusal) -> dict[str, object]:
    """What the words of a packet that is shared name."""
    return {"known_fact": words_of(it.fact("known")), "alone": "sole" if it.number("wanted") == 2 else "sole or head sole"}


# What the words of a case name beside its members.
NAMED = {"not_alone": of_sharing, "too_little": of_bytes, "too_long": of_segments} | dict.fromkeys(
    ("row_packet", "row_group", "not_empty", "less_than_ring", "left_over"), of_facts)


class Words(NamedTuple):
    """A reason in words."""

    states: str
    known: str
    wanted: str
    help: str


def successor(it: Refusal) -> str:
    """The instruction whose row wants more, if it is a successor, with its first label."""
    if not it.case.startswith("row_") or "to" not in it.members:
        return ""
    to = it.number("to")
    labels = it.listing[to].labels if to < len(it.listing) else []
    return f"at {to}, {labels[0]}: " if labels else f"at {to}: "


def words_for(it: Refusal) -> Words:
    """The words of a refusal."""
    row = ROWS[it.case]
    named = it.members | NAMED.get(it.case, lambda it: {})(it) | {"segs": it.segs}
    cure = next(cure for cure in row.cures if cure.helps(it))
    return Words(RULES[it.rule], row.known.format_map(named), successor(it) + row.wanted.format_map(named), cure.words.format_map(named))
