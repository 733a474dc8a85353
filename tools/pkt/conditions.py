"""Comparisons, and the search for headers."""
from collections.abc import Iterable, Iterator
from dataclasses import replace
from itertools import pairwise
from typing import cast

from .headers import Header, Span, Start
from .parser.grammar import COMPARISONS
from .parser.nodes import substituted
from . import registers
from .registers import Value
from .state import ALL, EVERYTHING, FAR, NEAR, SOMEBODY_THE_REST, Far, Needs
from .syntax import THIS, And, Bits, Compare, Field, Found, Length, Node, Not, Number, Or, parts, require
from .ways import Join, Way, paths

# No packet has more bytes in its first segment, and so many zeros are appended at most where a header is at an offset in a register.
MAX_BYTES, MAX_PADDING = 65_535, 36
# The variable with how far a header reaches, in the first bits of the one before it.
REACH = "$reach"
CONTRARY = {"!=": "==", ">": "<=", ">=": "<"}


def decide(way: Way, it: Node, yes: Join[Way], no: Join[Way]) -> None:
    """Ends this path."""
    match it:
        case And() | Or():
            decide_all(way, it, yes, no)
        case Not(_, condition):
            decide(way, condition, no, yes)
        case Found(_, path):
            touch(way, path, yes, no)
        case Compare():
            for s in paths(lambda found: touch(way, headers_of(way, it), found, no)):
                s.unit.needs = yes.needs | no.needs
                compare(s, it, yes, no)


def decide_all(way: Way, it: And | Or, yes: Join[Way], no: Join[Way]) -> None:
    """Way joined by the same word, one after another."""
    kind, tests, left = type(it), list[Node](), cast(Node, it)
    while isinstance(left, kind):
        tests.append(left.right)
        left = left.left
    ways, needs = [way], way.unit.needs_from(tuple(reversed(tests)))
    for number, condition in enumerate([left, *reversed(tests)]):
        more = Join[Way](yes.needs | no.needs | needs[min(number, len(tests))])
        for way in ways:
            if number == len(tests):
                decide(way, condition, yes, no)
            else:
                decide(way, condition, *((more, no) if kind is And else (yes, more)))
        ways = list(more.begin())


def headers_of(way: Way, it: object) -> list[str]:
    """The headers whose fields a part of the text uses."""
    return way.headers.in_order(part.header for part in parts(it) if isinstance(part, Field))


def compare(way: Way, it: Compare, yes: Join[Way], no: Join[Way]) -> None:
    """A comparison whose headers were found."""
    sign, left, right = it.sign, it.left, it.right
    if isinstance(left, Number):
        left, right, sign = right, left, COMPARISONS[sign]
    if sign in CONTRARY:
        yes, no, sign = no, yes, CONTRARY[sign]
    match left, right:
        case Number(_, a), Number(_, b):
            way.jump(yes if {"==": a == b, "<": a < b, "<=": a <= b}[sign] else no)
        case Length(), Number(_, value) if value + (sign == "<=") + way.far.padding > MAX_BYTES:
            way.jump(yes)
        case Length(), Number(_, value):
            has_bytes(way, value + (sign == "<="), yes)
            way.jump(no)
        case _, Number(_, value):
            compare_constant(way, sign, left, value, yes, no)
        case _ if sign == "==":
            a = registers.in_register(way, registers.evaluate(way, left))
            way.emit("jeq", a, registers.evaluate(way, right), to=yes)
            way.jump(no)
        case _ if sign == "<":
            compare_less(way, left, right, yes, no)
        case _:
            compare_less(way, right, left, no, yes)


def compare_constant(way: Way, sign: str, left: Node, value: int, yes: Join[Way], no: Join[Way]) -> None:
    """A number and a constant: ==, < or <=."""
    is_equal, span = sign == "==", registers.bits_of(way, left)
    if is_equal and span:
        mask, known = way.known(span)
        if value > span.largest or (known ^ value) & mask:
            return way.jump(no)
        if mask == span.largest:
            return way.jump(yes)
    value += sign == "<="
    a = registers.in_register(way, registers.evaluate(way, left))
    if value > way.bounds[a.r] or not is_equal and value == 0:
        return way.jump(no if is_equal or value == 0 else yes)
    registers.release(way, a)
    there = way.emit("jeq" if is_equal else "jlt", a, value, to=yes)
    there.bounds[a.r] = value - (not is_equal)
    if is_equal and span:
        there.learn(span, value)
    way.jump(no)


def compare_less(way: Way, left: Node, right: Node, yes: Join[Way], no: Join[Way]) -> None:
    """Whether one number is less than another; both may have 64 bits."""
    a, b = registers.evaluate(way, left), registers.evaluate(way, right)
    if not max(registers.bound_of(way, a), registers.bound_of(way, b)) >> 63:
        return test_sign(way, a, b, yes, no)
    b, alike = registers.in_register(way, b), Join[Way]()
    t = registers.fresh(way)
    registers.copy_to(way, t, a)
    registers.apply(way, t, "^", b)
    way.emit("shr", t, 63)
    way.emit("jeq", t, 0, to=alike)
    registers.copy_to(way, t, b)
    way.emit("shr", t, 63)
    way.emit("jeq", t, 0, to=no)
    way.jump(yes)
    for s in alike.begin():
        s.pins.update({r: 1 for r in (a.register, b.register) if r is not None})
        test_sign(s, a, b, yes, no)


def test_sign(way: Way, a: Value, b: Value, yes: Join[Way], no: Join[Way]) -> None:
    """Whether a - b wraps, of numbers whose highest bits are equal."""
    t = registers.own(way, a)
    registers.apply(way, t, "-", b)
    way.emit("shr", t, 63)
    way.bounds[t.r] = 1
    way.emit("jeq", t, 0, to=no)
    way.jump(yes)


def has_bytes(way: Way, count: int, no: Join[Way], packet: str = THIS) -> None:
    """Jumps if the first segment of a packet has fewer bytes."""
    p = way.held[packet]
    count += way.far.padding if packet == THIS else 0
    if way.packets[p].first < count:
        way.emit("iflen", f"p{p}", count, to=no)


def touch(way: Way, names: Iterable[str], yes: Join[Way], no: Join[Way]) -> None:
    """Looks for headers one after another, until one is absent."""
    left = [name for name in names if way.found.get(name) is None]
    if not left:
        return way.jump(yes)
    for s in paths(lambda found: look_for(way, left[0], found, no)):
        touch(s, left[1:], yes, no)


def look_for(way: Way, name: str, yes: Join[Way], no: Join[Way]) -> None:
    """Looks for one header: a path for each place where it can be."""
    if name in way.found:
        return way.jump(no if way.found[name] is None else yes)
    missing = Join[Way]()
    for s in paths(lambda found: search(way, way.headers[name], found, missing)):
        s.found = {it: at for it, at in s.found.items() if at is not None or name not in way.headers[it].before or it == name}
        s.jump(yes)
    for s in missing.begin():
        s.found[name] = None
        s.jump(no)


def find_early(way: Way, condition: Node, names: list[str], later: Needs) -> list[Way]:
    """Looks for headers that later conditions use, once the first header of this condition was found. Ends this path."""
    while isinstance(condition, (And, Or, Not)):
        condition = condition.condition if isinstance(condition, Not) else condition.left
    first = list(condition.path) if isinstance(condition, Found) else headers_of(way, condition)
    names = [name for name in names if name not in way.found and name not in first and may_be_early(way, name, first, later)]
    if not names:
        return [way]
    absent = Join[Way]()
    ways = list(paths(lambda found: touch(way, first, found, absent)))
    for name in names:
        done = Join[Way]()
        for way in ways:
            look_for(way, name, done, done)
        ways = list(done.begin())
    return ways + list(absent.begin())


def may_be_early(way: Way, name: str, first: list[str], later: Needs) -> bool:
    """Whether no statement can tell that a header was looked for here: all that it may follow are known, looked for with it, or not later."""
    header, search = way.headers[name], way.headers.looked_for(name)
    is_settled = all(other in way.found or later.isdisjoint({ALL, (other, False)}) for other in header.before - search if other in way.unit.used_headers)
    is_long = any(way.headers[other].bits and other not in first and other not in way.found for other in search - {name})
    return is_settled and not is_long and way.unit.is_early(name)


def search(way: Way, header: Header, found: Join[Way], missing: Join[Way]) -> None:
    """Looks for a header after the one that it follows."""
    if not header.follows:
        return at_place(way, header, 0, found, missing)
    last = header_before(way, header.name)
    for s, before in first_of(way, [last] if last else way.headers.tried(header.name), missing):
        search_at(s, header, before, found, missing)


def first_of(way: Way, names: list[str], absent: Join[Way], needs: Needs = EVERYTHING) -> Iterator[tuple[Way, str]]:
    """The paths on which one of these headers is the first that is present, with its name. Ends this path."""
    ways = [way]
    for name in names:
        no = Join[Way](needs)
        for way in ways:
            for s in paths(lambda yes: look_for(way, name, yes, no), needs):
                yield s, name
        ways = list(no.begin())
    for way in ways:
        way.jump(absent)


def search_at(way: Way, header: Header, before: str, found: Join[Way], missing: Join[Way]) -> None:
    """Looks for a header after one that was found."""
    for s in paths(lambda here: decide(way, header.follows[before], here, missing)):
        search_behind(s, header, way.headers[before], found, missing)


def header_before(way: Way, name: str) -> str | None:
    """The header that a header follows: among those that were found, the one that begins last."""
    found = [it for it in way.headers[name].follows if way.found.get(it) is not None]
    last = {found[places.index(max(places))] for places in zip(*map(way.places, found))}
    require(len(last) < 2, way.at, *after_two(name, way.far.before))
    return min(last, default=None)


def after_two(name: str, before: str) -> tuple[str, str]:
    """The error where it is not known which header one follows, or where."""
    return f"{name} is after two headers whose lengths vary", f"`need` one length of {before} before"


def at_place(way: Way, header: Header, at: int, found: Join[Way], missing: Join[Way]) -> None:
    """Looks for a header at a constant place, where all its bytes have to be."""
    if at + header.size + way.far.padding > MAX_BYTES:
        return way.jump(missing)
    has_bytes(way, at + header.size, missing)
    way.found[header.name] = Start(False, at)
    way.jump(found)


def search_behind(way: Way, header: Header, before: Header, found: Join[Way], missing: Join[Way]) -> None:
    """Looks for a header after one that was found and has a variable length."""
    base = way.begins(before.name)
    if not before.bits:
        look = behind_far if way.is_far(before.name) else at_place
        return look(way, header, base + before.size, found, missing)
    is_one = not way.is_far(before.name) and (way.far == NEAR or way.far.base == base)
    require(is_one, way.at, *after_two(header.name, before.name))
    # The register has where this header begins, unless it was computed for another one or from bits that changed.
    is_there = way.far.before == before.name and not way.far.is_old
    if is_there and header.size <= way.far.size and may_be_far(way, header, before):
        way.found[header.name] = FAR
        return way.jump(found)
    left = sizes_left(way, before)
    is_dense = len(left) > 2 and max(left) - min(left) == len(left) - 1
    may_use = (is_there or way.far == NEAR) and may_be_far(way, header, before)
    if is_dense and all(a < b for a, b in pairwise(left.values())) and may_use:
        return at_register(way, header, before, left, found, missing)
    for s, size in each_length(way, before, missing):
        if is_there:
            s.far = replace(s.far, lengths=tuple(it for it in s.far.lengths if it[1] == size))
        at_place(s, header, base + size, found, missing)


def sizes_left(way: Way, header: Header) -> dict[int, int]:
    """The lengths of a header that are still possible, by the value of its first bits."""
    mask, known = way.known(first_bits(way, header))
    return {value: size for value, size in header.sizes.items() if (known ^ value) & mask == 0}


def first_bits(way: Way, header: Header) -> Span:
    """The bits that give the length of a header that was found."""
    return Span(8 * way.begins(header.name), header.bits)


def each_length(way: Way, header: Header, missing: Join[Way]) -> Iterator[tuple[Way, int]]:
    """A path for each length that a header can have. Ends this path."""
    span, left = first_bits(way, header), sizes_left(way, header)
    if left and way.known(span)[0] == span.largest:
        yield way, min(left.values())
        return
    for value, size in left.items():
        yield if_length(way, span, value), size
    way.jump(missing)


def if_length(way: Way, span: Span, value: int) -> Way:
    """The path for one value of a header's first bits."""
    a = registers.load(way, span)
    there = way.emit("jeq", a, value, to=Join())
    there.pins[a.r] -= 1
    there.learn(span, value)
    registers.release(way, a)
    return there


def may_be_far(way: Way, header: Header, before: Header) -> bool:
    """Whether a header may be at an offset in a register, and those after it that are used too: few zeros can be appended, and between them no
    length varies."""
    this, most, behind = way.packets[way.held[THIS]], max(before.sizes.values()), way.headers.after(header.name) & way.unit.used_headers
    end = way.begins(before.name) + most + sum(way.headers[name].size for name in {header.name} | behind)
    is_short = most - min(before.sizes.values()) <= MAX_PADDING + 4 and end + MAX_PADDING <= MAX_BYTES
    may_append = is_short and this.sharers <= {SOMEBODY_THE_REST} and this.segments == 1
    is_even = not any(way.headers[name].bits and way.headers.after(name) & behind for name in {header.name} | behind)
    return may_append and is_even and way.unit.near.isdisjoint({header.name} | behind)


def behind_far(way: Way, header: Header, at: int, found: Join[Way], missing: Join[Way]) -> None:
    """Looks for a header this number of bytes after the offset in a register, at each value of which all its bytes have to be."""
    far, ready, end = way.far, Join[Way](), at + header.size
    if end > far.size:
        sizes = [size for _, size in far.lengths]
        for size in sizes:
            way.emit("iflen", f"p{way.held[THIS]}", far.base + size + end + far.padding, to=missing)
            if size != sizes[-1]:
                way.emit("jlt", f"r{far.register}", size + 1, to=ready)
    way.jump(ready)
    for s in ready.begin():
        s.far = replace(s.far, size=max(end, far.size))
        s.found[header.name] = Start(True, at)
        s.jump(found)


def at_register(way: Way, header: Header, before: Header, left: dict[int, int], found: Join[Way], missing: Join[Way]) -> None:
    """Looks for a header at its usual place; for all other lengths of the one before it, tested in order, at an offset in a register."""
    base, span, ready = way.begins(before.name), first_bits(way, before), Join[Way]()
    if way.far.lengths:
        left = dict(way.far.lengths)
    else:
        first = min(left)
        at_place(if_length(way, span, first), header, base + left.pop(first), found, missing)
    s = between(way, span, min(left), max(left), missing)
    value = registers.load(s, span)
    for it, size in left.items():
        s.emit("iflen", f"p{s.held[THIS]}", base + size + header.size + s.far.padding, to=missing)
        if it != max(left):
            s.emit("jlt", value, it + 1, to=ready)
    s.jump(ready)
    for s in ready.begin():
        far = s.far if s.far != NEAR else go_far(s, before, left)
        s.far, s.found[header.name] = replace(far, size=header.size), FAR
        s.jump(found)


def between(way: Way, span: Span, low: int, high: int, missing: Join[Way]) -> Way:
    """The path on which bits are from one value to another."""
    value = registers.load(way, span)
    way.emit("jlt", value, low, to=missing)
    if high < span.largest:
        there = way.emit("jlt", value, high + 1, to=Join())
        way.jump(missing)
        way = there
    way.pins.clear()
    return way


def may_share(way: Way, names: list[str], own: str) -> bool:
    """Whether known headers, of which at most one is present, can be looked for together after one whose length varies."""
    header = way.headers[own]
    if len(names) < 2 or not header.bits or way.is_far(own) or way.far != NEAR or len(way.used()) > 4:
        return False
    left = sizes_left(way, header)
    steps = {size - other for other, size in pairwise(left.values())}
    is_even = len(left) > 2 and max(left) - min(left) == len(left) - 1 and len(steps) == 1 and min(steps) > 0
    are_new = all(way.headers[name].is_known and name not in way.found for name in names)
    are_even = are_new and is_even and len({way.headers[name].size % min(steps) for name in names}) == 1
    # Another header that they may follow, and that begins later, is the one that they follow.
    return are_even and all(header_before(way, name) == own and may_be_far(way, way.headers[name], header) for name in names)


def first_behind(way: Way, names: list[str], own: str, absent: Join[Way]) -> Iterator[tuple[Way, str]]:
    """The paths on which one of these headers is present after another whose length varies, with its name. Ends this path. At an offset in a
    register they share the tests of the length: each as if the header before it were longer by what it is longer than the shortest one."""
    missing, ways = Join[Way](), [way]
    for it in common_tests(way, names, own):
        yes = Join[Way]()
        for way in ways:
            decide(way, it, yes, missing)
        ways = list(yes.begin())
    for way in ways:
        yield from first_at(way, names, own, missing, absent)
    for way in missing.begin():
        way.found |= dict.fromkeys(names)
        way.jump(absent)


def common_tests(way: Way, names: list[str], own: str) -> list[Node]:
    """The tests that each of these headers needs."""
    found = list[list[Node]]()
    for name in names:
        tests, it = list[Node](), way.headers[name].follows[own]
        while isinstance(it, And):
            tests, it = [it.right, *tests], it.left
        found.append([it, *tests])
    return [it for it in found[0] if all(it in tests for tests in found)]


def first_at(way: Way, names: list[str], own: str, missing: Join[Way], absent: Join[Way]) -> Iterator[tuple[Way, str]]:
    """The same, after the tests that all of these headers need."""
    before, span, ready, inside, impossible = way.headers[own], first_bits(way, way.headers[own]), Join[Way](), Join[Way](), Join[Way]()
    left, first, shortest = sizes_left(way, before), min(sizes_left(way, before)), min(way.headers[name].size for name in names)
    step = left[first + 1] - left[first]
    yield from first_of(if_length(way, span, first), names, absent)
    del left[first]
    far = between(way, span, first + 1, max(left), missing)
    far.variables[REACH] = registers.fresh(far).r
    registers.copy_to(far, Value(register=far.variables[REACH]), registers.load(far, span))
    last = max(left)
    for s, name in each_allowed(far, names, own, missing):
        more = (s.headers[name].size - shortest) // step
        registers.apply(s, Value(register=s.variables[REACH]), "+", Value(more))
        last = max(last, max(left) + more)
        s.jump(ready)
    for s in ready.begin():
        for value in range(first + 1, last + 1):
            s.emit("iflen", f"p{s.held[THIS]}", s.begins(own) + left[first + 1] + step * (value - first - 1) + shortest, to=missing)
            if value != last:
                s.emit("jlt", f"r{s.variables[REACH]}", value + 1, to=inside)
        s.jump(inside)
    for s in inside.begin():
        del s.variables[REACH]
        s.far = go_far(s, before, left)
        for t, name in each_allowed(s, names, own):
            # A longer header is there: this test, which never jumps, says so to the checker.
            has_bytes(t, t.begins(own) + left[first + 1] + t.headers[name].size, impossible)
            t.far = replace(t.far, size=t.headers[name].size)
            t.found |= {**dict.fromkeys(names[: names.index(name)]), name: FAR}
            yield t, name
    for s in impossible.ways:
        s.drop()
    for s in missing.ways:
        s.variables.pop(REACH, None)


def each_allowed(way: Way, names: list[str], own: str, none: Join[Way] | None = None) -> Iterator[tuple[Way, str]]:
    """The paths on which a header may allow one of these behind it, with its name. Ends this path. Without a place for none, one is allowed."""
    ways = [way]
    for name in names:
        no = Join[Way]()
        for way in ways:
            if none is None and name == names[-1]:
                yield way, name
                continue
            for s in paths(lambda yes: decide(way, way.headers[name].follows[own], yes, no)):
                yield s, name
        ways = list(no.begin())
    for way in ways:
        assert none is not None
        way.jump(none)


def go_far(way: Way, before: Header, left: dict[int, int]) -> Far:
    """Appends zeros, so that the register's greatest value is within the packet, and computes the register."""
    p, base, padding = way.held[THIS], way.begins(before.name), max(before.sizes.values()) - min(left.values())
    assert before.formula is not None
    way.emit("iftail", f"p{p}", padding, to=Join()).drop()
    way.emit("append", f"p{p}", padding)
    place = registers.own(way, registers.evaluate(way, substituted(before.formula, Bits(way.at, 8 * base, before.bits))))
    greatest = max(before.sizes.values())
    if way.bounds[place.r] > greatest:
        # The checker knows no more than what the formula gives for any number; it learns the rest from a test that always jumps.
        inside = way.emit("jlt", place, greatest + 1, to=Join())
        way.drop()
        way.last, way.bounds[place.r] = inside.last, greatest
    return Far(padding, base, 0, tuple(left.items()), place.r, before.name, first_bits(way, before))
