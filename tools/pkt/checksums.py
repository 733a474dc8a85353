"""Lowering of Internet checksums: those that `mend` updates, and those of pushed headers."""
from . import conditions, registers
from .headers import Header, Span, may_both_hold
from .registers import Value
from .state import EVERYTHING, Needs
from .syntax import Field, Mend, Node, Pushed, require
from .ways import Join, Way, paths

# The variables with the difference of the words of the field that is mended, and with that of the checksums that were updated so far.
DIFFERENCE, CHANGES = "$difference", "$changes"
# The fields of pushed headers that are not constant, each with its value, or the number that is calculated when it is written.
Others = list[tuple[Span, Value | Node]]


def without_sum(way: Way, target: Field) -> tuple[str, str]:
    """The error for a field that no checksum covers, and what to do: headers at the same place, as tcp and udp at that of l4, may have it with
    one, and so may the header itself after another one."""
    own, name = way.headers[target.header], target.name
    fault = f"no checksum covers {own.name}.{name}"
    alike = [it for it in way.headers.values() if it.sum and it.fields.get(name) == own.fields[name]]
    others = [it.name for it in alike if any(may_both_hold(own.follows[g], it.follows[g]) for g in it.follows.keys() & own.follows.keys())]
    after = [it for it in own.follows if any(way.headers[other].payload for other in way.headers[it].before)]
    if others or not after:
        return fault, " else ".join(f"if {it} {{ mend {it}.{name} = .. }}" for it in others) or "assign without `mend`"
    cases = " else ".join(f"if {it} {{ mend {own.name}.{name} = .. }}" for it in after)
    return f"{fault} where it is after {conditions.header_before(way, own.name)}", f"{cases} else {{ {own.name}.{name} = .. }}"


def do_mend(way: Way, it: Mend, after: Join[Way], _: Join[Way]) -> None:
    """Assigns to a field, and updates each checksum that covers it, or a checksum that changes; the headers were found."""
    own, over, field = way.headers[it.target.header], way.headers.covering(it.target), f"{it.target.header}.{it.target.name}"
    names = [name for name in chain(way, own.name) if way.headers[name].payload or name == own.name and own.sum]
    require(names or over, way.at, *without_sum(way, it.target))
    require(own.sum != it.target.name, way.at, f"{field} is the checksum itself", f"`mend` of what it covers updates it, and {field} = .. writes it")
    for name in names:
        require_even(way, name, own.name)
    assign_field(way, it.target, registers.evaluate(way, it.value))
    is_nested = len(names) > 1 or own.payload and {*over} - {own.name}
    if not is_nested and id(it) in way.unit.joined and is_apart(way, own.name, names, over):
        return way.jump(after)
    difference, sites = Value(register=way.variables[DIFFERENCE]), len(names) + len(over) * (2 if own.bits else 1)
    if sites > 4:
        reduce(way, difference)
    elif sites > 1:
        fold(way, difference)
    needs, way = after.needs | way.unit.needs_of(it), way
    if is_nested:
        return cover_nested(way, own.name, names, over, needs, after)
    absent = Join[Way](needs)
    ways = [(s, [name]) for s, name in conditions.first_of(way, over, absent, needs)] if way.unit.decides(own, over, way.found) else [(way, over)]
    for s, left in [*ways, *((s, list[str]()) for s in absent.begin())]:
        update_plain(s, own.name, names, left, needs, after)


def is_apart(way: Way, own: str, names: list[str], over: list[str]) -> bool:
    """Whether these checksums are neither within the header that was mended nor looked for by the bytes of another one, which may have the same place:
    a program that writes `eth.type` between two searches finds both IPv4 and IPv6."""
    others = {it for name in over if name != own for it in way.headers[name].follows if it != own}
    ends = [[at + way.headers[name].size for at in way.places(name)] for name in names if name != own]
    return all(way.found.get(it) is None for it in others) and all(end <= at for found in ends for end, at in zip(found, way.places(own)))


def update_plain(way: Way, own: str, names: list[str], over: list[str], needs: Needs, after: Join[Way]) -> None:
    """Updates the checksum of a header, and that of the first of others that is present."""
    way = way
    for name in names:
        (way,) = paths(lambda updated: update_sum(way, name, updated, [DIFFERENCE]))
    for s in paths(lambda done: cover(way, over, own, done), needs):
        end_mend(s, after)


def end_mend(way: Way, after: Join[Way]) -> None:
    """Ends a path after `mend`."""
    for name in {DIFFERENCE, CHANGES} & way.variables.keys():
        del way.variables[name]
    way.jump(after)


def chain(way: Way, name: str | None) -> list[str]:
    """A header that was found, and those before it, the nearest first."""
    return [name, *chain(way, conditions.header_before(way, name))] if name else []


def require_even(way: Way, outer: str, inner: str) -> None:
    """Refuses a checksum whose words begin at other bytes than those of a header within what it covers."""
    is_even = all((at - begin) % 2 == 0 for at, begin in zip(way.places(inner), way.places(outer)))
    require(is_even, way.at, f"the words of the checksum of {outer} begin at other bytes", "`mend` needs a header at an even place")


def cover_nested(way: Way, own: str, names: list[str], over: list[str], needs: Needs, after: Join[Way]) -> None:
    """Updates checksums that cover one another, those furthest back first."""
    absent = Join[Way](needs)
    for s, name in conditions.first_of(way, over, absent, needs):
        is_before = name in chain(s, own)
        require(is_before or own in chain(s, name), s.at, f"{name} and {own} are side by side, and a checksum covers both", "assign without `mend`")
        update_chain(update_inside(s, name, own, is_counted=True), names, name if is_before else "", after)
    for s in absent.begin():
        update_chain(s, names, "", after)


def update_inside(way: Way, name: str, own: str, is_counted: bool) -> Way:
    """Updates a checksum over a field, and those of headers between it and the field's header that cover it. Returns the path after that."""
    found, way = chain(way, name), way
    if own not in found[1:]:
        return way
    between = [it for it in found[1 : found.index(own)] if way.headers[it].payload]
    for it in between:
        require_even(way, it, name)
    for it in (name, *between):
        terms, is_last = [CHANGES if it in between else DIFFERENCE], it == (name, *between)[-1]
        (way,) = paths(lambda updated: update_sum(way, it, updated, terms, is_counted or not is_last))
    return way


def update_chain(way: Way, names: list[str], twice: str, after: Join[Way]) -> None:
    """Updates the checksums of headers, those furthest back first, each by what changed in the words that it covers."""
    way = way
    for name in names:
        terms = [DIFFERENCE] * (1 + (name == twice)) + [CHANGES] * (way.headers[name].payload and CHANGES in way.variables)
        (way,) = paths(lambda updated: update_sum(way, name, updated, terms, name != names[-1]))
    end_mend(way, after)


def words_of(way: Way, it: Field, span: Span) -> Span:
    """The 16-bit words of its header that a field has bits in."""
    base = 8 * way.begins(it.header)
    first, end = (span.bit - base) // 16 * 16, (span.end - base + 15) // 16 * 16
    words = Span(base + first, end - first, span.is_far)
    is_whole = (words.bits == 16 or words == span) and end <= 8 * way.headers[it.header].size
    require(is_whole, way.at, f"{it.header}.{it.name} is neither within one 16-bit word of its header nor made of whole ones",
            "split it; in place of a known header, declare one of your own for the same bytes, with fields of 16 or 32 bits")
    return words


def assign_field(way: Way, target: Field, value: Value) -> None:
    """Assigns, and keeps the difference: the new words plus the complement of the old ones."""
    span = registers.span_of(way, target)
    words = words_of(way, target, span)
    total = registers.own(way, registers.load(way, words))
    registers.apply(way, total, "^", Value(words.largest))
    halve(way, total)
    if words != span:
        registers.store(way, span, value)
        new = registers.load(way, words)
    else:
        new = registers.shifted(way, value, span, 0)
    if words.bits > 32:
        new = registers.own(way, new)
        registers.store(way, span, Value(register=new.r))
        way.pins[new.r] += 1
        halve(way, new)
    registers.apply(way, total, "+", new)
    if words == span and words.bits <= 32:
        registers.store(way, span, new)
    else:
        registers.release(way, new)
    if DIFFERENCE in way.variables:
        # The statement before this one left its own: both are one sum.
        registers.apply(way, total, "+", Value(register=way.variables.pop(DIFFERENCE)))
    way.variables[DIFFERENCE] = total.r


def cover(way: Way, names: list[str], own: str, done: Join[Way]) -> None:
    """Updates the checksum of the first of these headers that is present."""
    behind = [name for name in names if own in way.headers[name].follows]
    if conditions.may_share(way, behind, own):
        absent = Join[Way](EVERYTHING)
        for s, name in conditions.first_behind(way, behind, own, absent):
            update_covering(s, name, own, done)
        for s in absent.begin():
            cover(s, [name for name in names if name not in behind], own, done)
        return
    if not names:
        return way.jump(done)
    no = Join[Way](done.needs)
    for s in paths(lambda yes: conditions.look_for(way, names[0], yes, no)):
        update_covering(s, names[0], own, done)
    for s in no.begin():
        cover(s, names[1:], own, done)


def update_covering(way: Way, name: str, own: str, done: Join[Way]) -> None:
    """Updates the checksum over a field, and those between it and the field's header."""
    if own not in chain(way, name)[1:]:
        return update_sum(way, name, done, [DIFFERENCE])
    way = update_inside(way, name, own, is_counted=False)
    way.variables.pop(CHANGES, None)
    way.jump(done)


def update_sum(way: Way, name: str, done: Join[Way], terms: list[str], is_counted: bool = False) -> None:
    """Updates a checksum by differences. One that is counted adds to the variable of changes what changes in a sum of words, plus 0xffff."""
    header, same = way.headers[name], Join[Way](done.needs)
    span = registers.span_of(way, Field(way.at, name, header.sum))
    if is_counted and CHANGES not in way.variables:
        way.variables[CHANGES] = registers.own(way, Value(0)).r
    total = registers.load(way, span)
    if header.optional:
        way.emit("jeq", total, 0, to=same if is_counted else done)
    total = registers.own(way, total)
    registers.apply(way, total, "^", Value(0xFFFF))
    old = registers.fresh(way) if is_counted else Value()
    if is_counted:
        registers.copy_to(way, old, total)
    for term in terms:
        registers.apply(way, total, "+", Value(register=way.variables[term]))
    most = sum(way.bounds[way.variables[term]] for term in terms)
    if header.optional and not is_counted and most <= 0xFFFF:
        # What was there is not 0, so the sum is below 0x1fffe: its complement is 0 only if it is 0xffff, which is what is written then.
        zero = way.emit("jeq", total, 0xFFFF, to=Join())
        complement(way, total, is_exact=False)
        way.unite([zero])
    else:
        complement(way, total, header.optional or is_counted)
        if header.optional:
            zero = way.emit("jeq", total, 0, to=Join())
            zero.emit("set", total, "0xffff")
            way.unite([zero])
    if is_counted:
        for part in (old, total):
            registers.apply(way, Value(register=way.variables[CHANGES]), "+", part)
        registers.release(way, old)
    registers.store(way, span, total)
    way.jump(done)
    for s in same.ways:
        registers.apply(s, Value(register=s.variables[CHANGES]), "+", Value(0xFFFF))
        s.jump(done)


def halve(way: Way, value: Value) -> None:
    """Makes room in a sum for more; as a checksum it is unchanged."""
    if registers.bound_of(way, value) >> 34:
        fold(way, value)


def complement(way: Way, total: Value, is_exact: bool = True) -> None:
    """The complement of a sum, folded to 16 bits; unless it is exact, higher bits are not 0."""
    while registers.bound_of(way, total) > 0x1FFFE:
        fold(way, total)
    if registers.bound_of(way, total) > 0xFFFF:
        fold(way, total, keeps=True)
        if is_exact:
            registers.apply(way, total, "&", Value(0xFFFF))
    registers.apply(way, total, "^", Value(0xFFFF))


def reduce(way: Way, total: Value) -> None:
    """Folds a sum to 16 bits."""
    while registers.bound_of(way, total) > 0xFFFF:
        is_last = registers.bound_of(way, total) <= 0x1FFFE
        fold(way, total)
        if is_last:
            way.bounds[total.r] = 0xFFFF


def fold(way: Way, total: Value, keeps: bool = False) -> None:
    """Adds the bits above the low ones of a sum to them; `keeps` also leaves them there."""
    shift = 32 if registers.bound_of(way, total) >> 40 else 16
    high = registers.fresh(way)
    registers.copy_to(way, high, total)
    registers.apply(way, high, ">>", Value(shift))
    if not keeps:
        registers.apply(way, total, "&", Value((1 << shift) - 1))
    registers.apply(way, total, "+", high)
    registers.release(way, high)


def automatic(header: Header, named: dict[str, Node | None]) -> list[str]:
    """The fields of a pushed header that get its checksum. Named fields come after what is by default."""
    values, taken = header.defaults | named, [header.fields[name] for name in named]
    found = [name for name in header.fields if values.get(name, 0) is None]
    return [name for name in found if name in named or not any(header.fields[name].meets(span) for span in taken)]


def sums_of(way: Way, pushed: tuple[Pushed, ...], data: bytes, others: Others) -> Others:
    """The checksums of pushed headers that are `auto`, given their constant bytes and the other fields."""
    found, at = Others(), 0
    for it in pushed:
        header = way.headers[it.header]
        names = automatic(header, dict(it.values))
        found += [(header.fields[name].moved(at), sum_of(way, header, at, data, others)) for name in names]
        at += header.size
    return found


def sum_of(way: Way, header: Header, at: int, data: bytes, others: Others) -> Value:
    """The checksum of one pushed header."""
    own = data[at : at + header.size] + bytes(header.size % 2)
    total = sum(int.from_bytes(own[k : k + 2], "big") for k in range(0, len(own), 2))
    inside = [(span, value) for span, value in others if 8 * at <= span.bit < 8 * (at + header.size)]
    if not inside:
        return Value(0xFFFF - (total and (total - 1) % 0xFFFF + 1))
    result = registers.own(way, Value(total))
    for span, value in inside:
        if isinstance(value, Value):
            way.pins[value.r] += 1
        part = registers.evaluate(way, value) if isinstance(value, Node) else Value(register=value.r)
        part, shift = registers.shifted(way, part, span, 0), -(span.end - 8 * at) % 16
        if shift or registers.bound_of(way, part) >> 34:
            part = registers.own(way, part)
            halve(way, part)
            registers.apply(way, part, "<<", Value(shift))
        registers.apply(way, result, "+", part)
        registers.release(way, part)
    complement(way, result)
    return result
