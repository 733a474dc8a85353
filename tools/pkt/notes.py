"""Notes on what is no error and is seldom meant: checksums that stay as they were, packets that are made and never sent, blocks that nothing
uses, headers that come before the Ethernet header or are read after it was taken off, `after` clauses that no search uses, and so on."""
from collections.abc import Iterable, Iterator

from .headers import Headers, asked_of
from .parser import Program
from .syntax import (
    OWN, THIS, And, Assign, Binary, Block, Chain, Clone, Compare, Cut, Field, Found, Free, If, Inline, Let, Mend, Name, Need, New, Node, Not, Number, Or, Place,
    Pop, Push, Send, Truncate, While, children, goes_on, has, parts,
)

# How many notes are shown.
MAX_NOTES = 10
Noted = tuple[Place, str]
# The fields with how many hops a packet goes on.
HOPS = {"ipv4": "ttl", "ipv6": "hops", "mpls": "ttl"}
# The fields that say what follows, where 0 is hop-by-hop options.
NEXT = {"ipv4": "proto", "ipv6": "next"}
# The parts of a text of which one is read after another; in others the headers are used in the order of their declarations.
ORDERED = (If, Need, While, Inline, And, Or, Not)
NAMES, PROTO = {1: "icmp", 6: "tcp", 17: "udp", 47: "gre"}, Field(Place(0, 0, ""), "ipv4", "proto")
TYPE = Field(Place(0, 0, ""), "eth", "type")
# The notes on a header at the front of a packet: the header, the packet, and the header that should come before.
FRONT = {
    "tag": "{0} is put before the Ethernet header, with the headers pushed with it; a tag that is pushed alone is put after it: the inner one first",
    THIS: "{0} is put at the front of the packet, with no {2} before it; cut 14 and push eth {{ .. }} {0} {{ .. }} put an Ethernet header there",
    "other": "{0} is put at the front of {1}, with no {2} before it; push {2} {{ .. }} {0} {{ .. }} on {1} puts one there",
}  # fmt: skip


def notes_of(program: Program) -> list[str]:
    """The notes on a text, in its order, each with its line."""
    statements = list(parts(program.statements))
    found = [*program.notes.items(), *stale(statements, program.headers), *kept(statements), *in_front(statements, program.headers), *unasked(program)]
    found += [*taken_off(program), *zeros(statements), *untyped(statements, program.headers), *cleared(statements, program.headers), *sent_nowhere(program), *sent_to_a_field(statements)]
    found += [*tags_late(program), *without_pieces(program, statements), *negated(program, statements), *forgotten(program.statements)]
    said = dict.fromkeys(f"{program.rows[at.line].place}: {OWN.sub('', text)}" for at, text in sorted(found, key=lambda it: it[0][:2]))
    return [*list(said)[:MAX_NOTES], *([f"{len(said) - MAX_NOTES} notes more"] if len(said) > MAX_NOTES else [])]


def stale(statements: list[Node], headers: Headers) -> Iterator[Noted]:
    """Assignments without `mend` to fields that the checksum of their header covers, where the program does not write that. Fields that are
    exchanged leave it as it is, and a header that is pushed without a checksum may have none."""
    changed = [it for it in statements if isinstance(it, (Assign, Mend)) and isinstance(it.target, Field)]
    plain = [it for it in changed if isinstance(it, Assign)]
    written = {it.target.header for it in changed if it.target.name == headers[it.target.header].sum}
    lets = {it.name: it.value for it in statements if isinstance(it, Let)}
    exchanged = {it.target.header for it in plain if exchanges(it, lets)}
    pushed = [it for part in statements if isinstance(part, Push) for it in part.headers if headers[it.header].optional]
    without = {it.header for it in pushed if headers[it.header].sum not in dict(it.values)}
    for it in plain:
        name, header = f"{it.target.header}.{it.target.name}", headers[it.target.header]
        if header.name in written | exchanged | without:
            continue
        if header.sum:
            yield it.at, f"{header.name}.{header.sum} stays as it was; mend {name} = .. updates what covers {name}"
        elif header.name == "l4":
            yield it.at, f"the checksum of TCP or UDP stays as it was; mend tcp.{it.target.name} = .. updates that of TCP"


def exchanges(it: Assign, lets: dict[str, Node]) -> bool:
    """Whether a field gets another one of its header, itself, by way of a variable, or with ^ as a ^= b, b ^= a, a ^= b exchanges both."""
    value = lets.get(it.value.name, it.value) if isinstance(it.value, Name) else it.value
    sides = (value.left, value.right) if isinstance(value, Binary) and value.sign == "^" else (value,)
    return all(isinstance(side, Field) and isinstance(it.target, Field) and side.header == it.target.header for side in sides)


def kept(statements: list[Node]) -> Iterator[Noted]:
    """Packets that a program makes and then does not use."""
    used = {it.packet for it in statements if isinstance(it, (Send, Chain, Free))}
    for it in statements:
        if isinstance(it, (Clone, New)) and it.name not in used:
            yield it.at, f"{it.name} is never sent, and is dropped at the end of its block; send {it.name} to 1 sends it"


def blocks_of(text: Block) -> Iterator[Block]:
    """A block, and all blocks in its statements."""
    pending: list[object] = [text]
    while pending:
        part = pending.pop()
        if isinstance(part, tuple) and any(isinstance(it, Node) for it in part):
            yield part
        pending += children(part)


def taken_off(program: Program) -> Iterator[Noted]:
    """Headers that are read after a statement took them off, or the Ethernet header that they follow. A program that asks for the type of an
    Ethernet header, or is for a ring, may know of another one after it."""
    asks = (it for it in parts(program.statements) if isinstance(it, Compare) and TYPE in parts(it))
    if not program.is_for_ring and next(asks, None) is None:
        for block in blocks_of(program.statements):
            yield from read_in(block, program)


def read_in(block: Block, program: Program) -> Iterator[Noted]:
    """The same in one block, until other bytes are put in front."""
    before, gone = Place(0, 0, ""), set[str]()
    for it in block:
        changes = has(it, Push, Pop, Cut, Truncate, Chain) if gone else isinstance(it, (Pop, Cut))
        asked = it.condition if changes and isinstance(it, (If, Need, While)) else it
        name = next((name for part in parts(asked) for name in headers_of(part, program.headers) if name in gone), "") if gone else ""
        if name:
            what = f"{name} is read after {program.rows[before.line].place} took {name if len(gone) == 1 else 'the Ethernet header'} off"
            yield it.at, f"{what}, and is no longer there; let x = .. before that keeps a number"
        before, gone = (it.at, gone_after(it, program.headers)) if changes or name else (before, gone)


def gone_after(it: Node, headers: Headers) -> set[str]:
    """The headers that are not found after a statement: those after Ethernet if it took that off, or the last one of a path."""
    path = it.path if isinstance(it, Pop) else ("eth",) if isinstance(it, Cut) and (it.packet, it.count) == (THIS, headers["eth"].size) else ()
    if path[:1] != ("eth",):
        return set()
    is_bare = all(name == "eth" or headers[name].next for name in path)
    return {name for name in headers if "eth" in headers[name].before} if is_bare else {path[-1]}


def zeros(statements: list[Node]) -> Iterator[Noted]:
    """Limits of hops that a push leaves at 0, where the program writes nothing else there."""
    written = {(it.target.header, it.target.name) for it in statements if isinstance(it, (Assign, Mend)) and isinstance(it.target, Field)}
    for part in (part for it in statements if isinstance(it, Push) for part in it.headers):
        name = HOPS.get(part.header, "")
        if name and name not in dict(part.values) and (part.header, name) not in written:
            yield part.at, f"{part.header}.{name} is not named, and is 0: the next router drops such a packet; {name} = 64 is usual"


def untyped(statements: list[Node], headers: Headers) -> Iterator[Noted]:
    """Protocols that a push leaves at 0, as neither a value nor the header after it says them, where the program writes nothing else there."""
    written = {(it.target.header, it.target.name) for it in statements if isinstance(it, (Assign, Mend)) and isinstance(it.target, Field)}
    pushes = [it.headers for it in statements if isinstance(it, Push)]
    for part, inner in (pair for it in pushes for pair in zip(it, [*it[1:], None])):
        name, condition = NEXT.get(part.header, ""), headers[inner.header].follows.get(part.header) if inner else None
        said = {*dict(part.values), *(asked_of(condition) if condition else {})}
        if name and name not in said and (part.header, name) not in written:
            yield part.at, f"{part.header}.{name} is not named, and is 0, as nothing pushed after it says what it carries; {name} = 4 is IPv4, and 41 IPv6"


def cleared(statements: list[Node], headers: Headers) -> Iterator[Noted]:
    """Checksums that are set to 0 and updated, where the program writes nothing else there."""
    changed = [it for it in statements if isinstance(it, (Assign, Mend)) and isinstance(it.target, Field)]
    for it in changed:
        header, values = headers[it.target.header], [other.value for other in changed if other.target == it.target]
        covered = any(isinstance(other, Mend) and (other.target.header == header.name or other.target in header.over) for other in changed)
        if it.target.name == header.sum and not header.optional and covered and all(value == Number(it.at, 0) for value in values):
            yield it.at, f"`mend` updates {header.name}.{header.sum}, and calculates none from 0: a checksum that was right stays right without this line"


def tags_late(program: Program) -> Iterator[Noted]:
    """A tag that is looked for first after a rule about a header that may follow it: of a tagged packet the rule asked nothing."""
    rule: Place | None = None
    for it in program.statements:
        asked = it.condition if isinstance(it, (If, While)) else it
        used = [name for part in parts(asked) for name in headers_of(part, program.headers)]
        tag = next((name for name in used if program.headers[name].next), "")
        if tag and rule:
            place = program.rows[rule.line].place
            said = f"{tag} is looked for after the rule in {place}, which tagged packets pass by"
            yield it.at, f"{said}; `if {tag} {{}}` before the rule makes it one for them too"
        if any(program.headers[name].next for part in parts(it) for name in headers_of(part, program.headers)):
            return
        if rule is None and isinstance(it, If) and has(it.condition, Compare) and any(follows_tags(name, program.headers) for name in used):
            rule = it.at


def follows_tags(name: str, headers: Headers) -> bool:
    """Whether a header may follow a tag."""
    return any(headers[other].next for other in headers[name].before)


def without_pieces(program: Program, statements: list[Node]) -> Iterator[Noted]:
    """Statements that need TCP and so on after a test of the protocol alone, which later fragments pass and are dropped. A program that asks for
    fragments, or says what happens otherwise, knows of them."""
    knows = program.otherwise or any(isinstance(it, Field) and it.header == "ipv4" and it.name in ("frag", "pieces", "flags") for it in statements)
    for it in () if knows else statements:
        if isinstance(it, If) and it.body and not isinstance(it.body[0], (If, Need, While)):
            asked = {part.right.value for part in parts(it.condition) if isinstance(part, Compare) and part.left == PROTO and isinstance(part.right, Number)}
            named = {name for part in parts(it.condition) for name in headers_of(part, program.headers)}
            used = {part.header for part in parts(it.body[0]) if isinstance(part, Field)} - named
            name = min(used & {NAMES[value] for value in asked & NAMES.keys()}, default="")
            if name:
                said = f"a later fragment has no {name}, and is dropped here"
                yield it.body[0].at, f"{said}; if {name} {{ .. }} in place of the test of the protocol passes it by"


def negated(program: Program, statements: list[Node]) -> Iterator[Noted]:
    """Blocks after `not` with a test of a header, which packets without the header come to as well, and are dropped by what needs it there. A program
    that says what happens otherwise knows of them."""
    headers = program.headers
    for it in () if program.otherwise else statements:
        asked = joined_by_and(it.condition) if isinstance(it, If) else []
        said = {name for one in asked if not isinstance(one, (Not, Or)) for part in parts(one) for name in headers_of(part, headers)}
        for one in asked:
            tested = {part.header for part in parts(one) if isinstance(part, Field)} if isinstance(one, Not) and isinstance(one.condition, Compare) else set[str]()
            name = min(tested - said.union(*(always_before(other, headers) for other in said)), default="")
            place = needed_in(it.body, name, headers) if name and isinstance(it, If) else None
            if place:
                where = "here" if place.line == it.at.line else f"in {program.rows[place.line].place}"
                yield it.at, f"`not` holds for packets without {name} too, which are dropped {where}; `{name} and not ..` passes them by"


def joined_by_and(it: Node) -> list[Node]:
    """The conditions that `and` joins."""
    found = list[Node]()
    while isinstance(it, And):
        found, it = [it.right, *found], it.left
    return [it, *found]


def always_before(name: str, headers: Headers) -> set[str]:
    """The headers without which this one is never found."""
    found = set[str]()
    while len(headers[name].follows) == 1:
        name = next(iter(headers[name].follows))
        found.add(name)
    return found


def needed_in(text: Block, name: str, headers: Headers) -> Place | None:
    """The first statement of a block that needs a header, for which no condition before it asks."""
    for it in text:
        is_asked = isinstance(it, (If, Need, While))
        used = {other for part in parts(it.condition if is_asked else it) for other in headers_of(part, headers)}
        if is_asked and name in used | set[str]().union(*(headers[other].before for other in used)):
            return None
        if any(isinstance(part, Field) and part.header == name for part in (() if is_asked else parts(it))):
            return it.at
    return None


def forgotten(text: Block) -> Iterator[Noted]:
    """Values that a variable gets before the program ends, where nothing reads it: it begins anew with each packet."""
    for block in blocks_of(text):
        for number, it in enumerate(block):
            rest = block[number + 1 :]
            if isinstance(it, Assign) and isinstance(it.target, Name) and rest and not goes_on(rest):
                if all(part.name != it.target.name for part in parts(rest) if isinstance(part, Name)):
                    yield it.at, f"nothing reads {it.target.name} before the program ends, and no variable is kept from packet to packet"


def sent_nowhere(program: Program) -> Iterator[Noted]:
    """A program that sends nothing, and does not say so by a `drop` at its end; also one without a statement, of which the last line is named."""
    statements = program.statements
    if goes_on(statements) and not has((statements, program.otherwise), Send):
        yield statements[-1].at if statements else Place(len(program.rows) - 1, 1, ""), "no packet is sent: all are dropped at the end of the text; send port sends them, and a `drop` there says that none is"


def sent_to_a_field(statements: list[Node]) -> Iterator[Noted]:
    """Packets that are sent to the port of TCP or UDP."""
    lets = {it.name: it.value for it in statements if isinstance(it, Let)}
    for it in statements:
        port = lets.get(it.port.name, it.port) if isinstance(it, Send) and isinstance(it.port, Name) else it.port if isinstance(it, Send) else None
        if isinstance(port, Field) and port.name in ("sport", "dport"):
            yield it.at, f"{port.header}.{port.name} is the port of a program on a host, and `send` takes one of the pipeline: send port, or send 1"


def in_front(statements: list[Node], headers: Headers) -> Iterator[Noted]:
    """Headers that a push puts at the front of a packet, where none that they may follow is put before them. A packet of a ring needs none."""
    pushes = [it for it in statements if isinstance(it, Push) and not is_inserted(it, headers)]
    fronts = {it.headers[0].header for it in pushes}
    has_ring = any(isinstance(it, Send) and isinstance(it.port, int) for it in statements)
    for it in pushes:
        header = headers[it.headers[0].header]
        if header.follows and not has_ring and fronts.isdisjoint(header.before - {header.name}):
            cure = FRONT["tag" if header.next and it.packet == THIS else THIS if it.packet == THIS else "other"]
            yield it.at, cure.format(header.name, it.packet, next(iter(header.follows)))


def is_inserted(it: Push, headers: Headers) -> bool:
    """Whether a push puts a tag after the header that it follows."""
    return it.packet == THIS and len(it.headers) == 1 and headers[it.headers[0].header].next != ""


def unasked(program: Program) -> Iterator[Noted]:
    """The `after` clauses of the text that no search uses, as nothing looks for the header that they name."""
    used = [name for it in parts((program.statements, program.otherwise)) for name in headers_of(it, program.headers)]
    looked_for = {*program.given}.union(*(program.headers.looked_for(name) for name in {*used}))
    for name, at in program.clauses:
        if name in looked_for and at.word not in looked_for and program.rows[at.line].path is None:
            yield at, f"{at.word} is named nowhere else, so {name} is never looked for after it; if {at.word} {{}} looks for it, before {name} is used"
        elif name in looked_for and program.rows[at.line].path is None and is_late(program, name, at.word):
            yield at, f"{at.word} is looked for later than {name}, which is never looked for after it; if {at.word} {{}} looks for it, before {name} is used"


def is_late(program: Program, name: str, other: str) -> bool:
    """Whether a header is first looked for after the last use of one that may follow it, which does not look for it itself."""
    headers = program.headers
    if other in headers.looked_for(name) or other in program.given:
        return False
    used = [{it for inner in (parts(part) if not isinstance(part, ORDERED) else (part,)) for it in headers_of(inner, headers)}
            for part in parts(program.statements)]
    searches = {it: headers.looked_for(it) for it in set().union(*used)}
    users, lookers = ([k for k, names in enumerate(used) if any(wanted in searches[it] for it in names)] for wanted in (name, other))
    return max(users, default=0) < min(lookers, default=0)


def headers_of(it: Node, headers: Headers) -> Iterable[str]:
    """The headers that a node looks for itself."""
    match it:
        case Field(_, header):
            return [header]
        case Found(_, path) | Pop(_, path):
            return path
        case Push() if is_inserted(it, headers):
            return headers.tried(it.headers[0].header)
        case Mend(_, target):
            return headers.covering(target)
    return []
