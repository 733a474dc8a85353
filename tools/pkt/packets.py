"""Lowering of changes of packets: freeing, chaining, and changing their length."""
from collections.abc import Sequence
from dataclasses import replace
from itertools import combinations

from . import checksums, conditions, registers
from .checksums import Others
from .conditions import MAX_BYTES
from .headers import Span, Start, asked_of
from .registers import Value
from .state import ALL, NEAR, SOMEBODY, SOMEBODY_THE_REST
from .syntax import THIS, Chain, Cut, Field, Free, Name, Node, Number, Pop, Push, Pushed, Truncate, parts, require
from .ways import Join, Way, pieces

MAX_BUFFER, MAX_SEGMENTS = 4_096, 64
CHAINED = "push before `clone`, or chain the headers before it: new h from 0, push .. on h, chain h before this; then the clone is what goes on as it was"


def register_of(way: Way, name: str) -> int:
    """The register of a packet."""
    require(name in way.held, way.at, f"{name} may be gone here: it was sent, chained or freed on a way that leads here",
            "use it before that, or have clone or new make another one")
    return way.held[name]


def free_register(way: Way) -> int:
    """A packet register that is empty."""
    free = {*range(8)} - {*way.held.values()}
    require(free, way.at, "this needs a ninth packet", "free or send one before")
    return min(free)


def free_packet(way: Way, name: str) -> None:
    """Frees a packet."""
    way.emit("free", f"p{register_of(way, name)}")
    way.leave(way.held.pop(name))


def do_free(way: Way, it: Free, _: Join[Way]) -> None:
    free_packet(way, it.packet)


def do_chain(way: Way, it: Chain, _: Join[Way]) -> None:
    """The segments of a packet come before those of the packet of the program."""
    p, q = register_of(way, it.packet), way.held[THIS]
    come_near(way)
    way.emit("chain", f"p{p}", f"p{q}")
    way.dissolve(p)
    way.dissolve(q)
    mine, yours = way.packets[p], way.packets.pop(q)
    require(mine.segments + yours.segments <= MAX_SEGMENTS, way.at, f"a packet has at most {MAX_SEGMENTS} segments")
    sharers = {SOMEBODY} if SOMEBODY in mine.sharers else {SOMEBODY_THE_REST} if mine.sharers or yours.sharers else set()
    way.know(p, sharers=frozenset(sharers), segments=mine.segments + yours.segments)
    way.held[THIS] = way.held.pop(it.packet)
    way.loaded, way.bits = {}, {}
    way.found = {}


def come_near(way: Way) -> None:
    """Removes the zeros after the packet, and the facts about headers at an offset in a register."""
    if way.far != NEAR:
        way.emit("trim", f"p{way.held[THIS]}", way.far.padding)
        way.far = NEAR
        way.found = {name: at for name, at in way.found.items() if not way.is_far(name)}
        way.loaded = {it: r for it, r in way.loaded.items() if not it.is_far}
        way.bits = {(is_far, bit): it for (is_far, bit), it in way.bits.items() if not is_far}


def prepend(way: Way, name: str, count: int, cure: str = "") -> int:
    """Prepends zero bytes to a packet; returns its register."""
    p = register_of(way, name)
    registers.may_write(way, p, cure)
    if name == THIS:
        come_near(way)
    if way.packets[p].headroom < count:
        way.emit("ifhead", f"p{p}", count, to=Join()).drop()
    way.emit("prepend", f"p{p}", count)
    if name == THIS:
        way.move(count)
        way.found = {}
    return p


def move_bytes(way: Way, count: int, source: int, target: int) -> None:
    """Copies bytes of the packet to another place, in pieces, in an order that overwrites no byte before it is read."""
    for at, width in list(pieces(range(count)))[:: 1 if target < source else -1]:
        value = registers.load(way, Span(8 * (source + at), 8 * width))
        registers.may_write(way, way.held[THIS])
        registers.access(way, "store", way.held[THIS], Start(False, target + at), width, value)
        way.overwrite(Span(8 * (target + at), 8 * width))
        registers.release(way, value)


def do_cut(way: Way, it: Cut, after: Join[Way], missing: Join[Way]) -> None:
    p, is_this = register_of(way, it.packet), it.packet == THIS
    if is_this:
        come_near(way)
    conditions.has_bytes(way, it.count, missing if is_this else after, it.packet)
    if it.count:
        way.emit("adj", f"p{p}", it.count)
    if is_this:
        way.move(-it.count, it.count)
        way.found = {}
    way.jump(after)


def do_pop(way: Way, it: Pop, after: Join[Way], missing: Join[Way]) -> None:
    come_near(way)
    last = way.headers[it.path[-1]]
    for s, size in conditions.each_length(way, last, missing):
        begin, end = s.begins(it.path[0]), s.begins(last.name) + size
        kept = last.fields[last.next].bits // 8 if last.next and begin else 0
        count = end - begin
        if end > MAX_BYTES or end <= begin or begin < kept:
            s.jump(missing)
            continue
        conditions.has_bytes(s, end, missing)
        if kept:
            ends = s.begins(last.name) + last.size
            begin -= kept
            if ends != end:
                move_bytes(s, kept, ends - kept, end - kept)
        move_bytes(s, begin, 0, count)
        s.emit("adj", f"p{s.held[THIS]}", count)
        s.move(-count, begin + count)
        s.found = {}
        s.jump(after)


def do_truncate(way: Way, it: Truncate, _: Join[Way]) -> None:
    if it.packet == THIS:
        come_near(way)
        way.found = {}
    p = register_of(way, it.packet)
    require(way.packets[p].segments == 1, way.at, "a packet of several segments cannot be truncated",
            "truncate before `chain`, and leave out `segments`")
    for k in reversed(range((MAX_BUFFER - it.count).bit_length())):
        short = way.emit("iflast", f"p{p}", it.count + (1 << k), to=Join())
        way.emit("trim", f"p{p}", 1 << k)
        way.unite([short])


def do_push(way: Way, it: Push, _: Join[Way]) -> None:
    for pushed in it.headers:
        require_apart(way, pushed)
    it = replace(it, headers=completed(way, it.headers))
    if way.unit.tag_follows(it) and (before := conditions.header_before(way, it.headers[0].header)):
        push_tag(way, it.headers[0], before)
    else:
        size = sum(way.headers[pushed.header].size for pushed in it.headers)
        require(size <= MAX_BUFFER, way.at, f"these headers have {size:,} bytes, and a buffer has at most {MAX_BUFFER:,}", "push fewer")
        if way.unit.is_in_turn:
            return push_in_turn(way, it)
        data, others = values_of(way, it.headers)
        others += checksums.sums_of(way, it.headers, data, others)
        write_headers(way, data, others, 0, prepend(way, it.packet, len(data), CHAINED))


def require_apart(way: Way, pushed: Pushed) -> None:
    """Refuses two named fields with bits in common."""
    header, named = way.headers[pushed.header], [name for name, _ in pushed.values]
    for other, name in sorted(combinations(named, 2), key=lambda pair: named.index(pair[1])):
        is_apart = not header.fields[name].meets(header.fields[other])
        require(is_apart, pushed.at, f"{header.name}.{name} and {header.name}.{other} have bits in common", "name one of them")


def completed(way: Way, pushed: tuple[Pushed, ...]) -> tuple[Pushed, ...]:
    """Pushed headers with the values that those pushed after them ask for, before the named ones."""
    found = list[Pushed]()
    for it, inner in zip(pushed, pushed[1:]):
        asked = asked_of(way.headers[inner.header].follows.get(it.header, it))
        more = [(name, Number(it.at, value)) for name, value in asked.items() if name not in dict(it.values)]
        found.append(replace(it, values=(*more, *it.values)))
    return (*found, pushed[-1])


def push_in_turn(way: Way, it: Push) -> None:
    """Pushes headers whose values are calculated one after another when they are written, so few registers are in use. What they are read from is
    further back then; fields at an offset in a register are read before."""
    data, others = values_of(way, it.headers, is_late=True)
    found, known, at = dict(way.found), dict(enumerate(data)), 0
    packet = prepend(way, it.packet, len(data), CHAINED)
    if it.packet == THIS:
        way.found = {name: place._replace(byte=place.byte + len(data)) for name, place in found.items() if place and not place.is_far}
    write_headers(way, data, [], 0, packet)
    for pushed in it.headers:
        end = at + way.headers[pushed.header].size
        own = [(span.moved(-at), value) for span, value in others if 8 * at <= span.bit < 8 * end]
        for span, value in own + checksums.sums_of(way, (pushed,), data[at:end], own):
            place = span.moved(at)
            registers.store(way, place, registers.evaluate(way, value) if isinstance(value, Node) else value, packet, known)
            known = {k: byte for k, byte in known.items() if k not in place.bytes}
        at = end
        forget_variables(way, [value for span, value in others if span.bit >= 8 * at])
    if it.packet == THIS:
        way.found = {}


def forget_variables(way: Way, later: Sequence[object]) -> None:
    """Forgets the variables that no later statement needs, and none of these values."""
    wanted = way.unit.needs | {part.name for part in parts(tuple(later)) if isinstance(part, Name)}
    if ALL not in wanted:
        way.variables = {name: r for name, r in way.variables.items() if name in wanted or name.startswith("$")}


def push_tag(way: Way, pushed: Pushed, before: str) -> None:
    """Inserts a tag between a header that was found and the bytes after it."""
    tag, header = way.headers[pushed.header], way.headers[before]
    named = next((name for name, _ in pushed.values if tag.fields[name].meets(tag.fields[tag.next])), "")
    require(not named, pushed.at, f"{tag.name}.{tag.next} is what stood in {before}", f"take {named} out")
    data, others = values_of(way, (pushed,))
    come_near(way)
    (kind,) = asked_of(tag.follows[before]).values()
    width = tag.fields[tag.next].bits // 8
    front = way.begins(before) + header.size - width
    others += sums_of_tag(way, pushed, data, others, Span(8 * front, 8 * width))
    p = prepend(way, THIS, tag.size)
    move_bytes(way, front, tag.size, 0)
    whole = kind.to_bytes(width, "big") + data[: tag.size - width]
    write_headers(way, whole, [(span.moved(width), value) for span, value in others], front, p, over_zeros=False)


def sums_of_tag(way: Way, pushed: Pushed, data: bytes, others: Others, kind: Span) -> Others:
    """The checksum of an inserted tag that is `auto`, given where the packet has what its `next` field gets."""
    tag = way.headers[pushed.header]
    whole = replace(pushed, values=(*pushed.values, (tag.next, Number(pushed.at, 0))))
    if not checksums.automatic(tag, dict(whole.values)):
        return []
    kept = registers.load(way, kind)
    found = checksums.sums_of(way, (whole,), data, [*others, (tag.fields[tag.next], kept)])
    registers.release(way, kept)
    return found


def values_of(way: Way, pushed: tuple[Pushed, ...], is_late: bool = False) -> tuple[bytes, Others]:
    """The constant bytes of headers, and the other fields with their values. Late ones are calculated when they are written, if that is possible."""
    left, whole, others = 8 * sum(way.headers[it.header].size for it in pushed), 0, Others()
    size = left // 8
    for it in pushed:
        header, named, at = way.headers[it.header], dict(it.values), size - left // 8
        for name in [*(it for it in header.fields if it not in named), *named]:
            span, value = header.fields[name], named.get(name, Number(it.at, header.defaults.get(name) or 0))
            constant = value.value if isinstance(value, Number) else 0
            if name in named:
                whole &= ~(span.largest << left - span.end)
            whole |= (constant & span.largest) << left - span.end
            if isinstance(value, Node) and not isinstance(value, Number):
                is_near = not any(way.is_far(part.header) for part in parts(value) if isinstance(part, Field))
                others.append((span.moved(at), value if is_late and is_near else registers.in_register(way, registers.evaluate(way, value))))
        left -= 8 * header.size
    return whole.to_bytes(size, "big"), others


def write_headers(way: Way, data: bytes, others: Others, front: int, packet: int, over_zeros: bool = True) -> None:
    """Writes headers, perhaps over zeros: constants in pieces as large as possible, and then the other fields."""
    known = {front + k: byte for k, byte in enumerate(data)}
    # The constant bits of a byte that a field covers in part are written first, unless its store writes only bytes that are known.
    is_known = len(others) == 1 and {*registers.bytes_written(way, others[0][0].moved(front), packet)} <= known.keys()
    later = {k for span, _ in others for k in span.bytes if is_known or span.bit <= 8 * k and 8 * k + 8 <= span.end}
    zeros = {at for at, byte in enumerate(data) if over_zeros and not byte}
    for at, width in pieces({*range(len(data))} - later, zeros):
        registers.store(way, Span(8 * (front + at), 8 * width), Value(int.from_bytes(data[at : at + width], "big")), packet)
    if packet == way.held[THIS]:
        way.learn(Span(8 * front, 8 * len(data)), int.from_bytes(data, "big"))
    for span, value in others:
        place = span.moved(front)
        registers.store(way, place, value, packet, known)
        known = {k: byte for k, byte in known.items() if k not in place.bytes}
