"""Paths: one for each way through the conditions that some packet takes. Each condition that is open is decided by what is known, by packets
found before, or by z3. Where both answers are possible, the state before the step is kept, from which the other path begins."""
from __future__ import annotations

import time
from collections.abc import Iterable
from copy import copy
from functools import cache
from typing import TYPE_CHECKING, Any, NamedTuple

import z3

from .ask import of_cond
from .known import Known, Model
from .terms import Cond, Val, atoms_in, const, eq, extend, fold, known, lin, negated, part, range_of, whole

if TYPE_CHECKING:
    from .decide import Twins

# For how many seconds one question may be asked, and how many packets are kept for each path.
QUESTION, PACKETS = 20, 12


class Left(Exception):
    """A path that is left out, with the reason."""


class Bounded(Exception):
    """A path that goes on after the rounds of loops that are looked at."""


class Undecided(Exception):
    """A condition that what is known does not decide, where only that is asked for."""


class Decision(NamedTuple):
    """A decision: its answer, whether the other one is possible too, and packets for each answer."""

    choice: bool
    both: bool
    models: dict[bool, list[Model]]


@cache
def is_heavy(c: Cond) -> bool:
    """Whether a condition is about a folded sum."""
    return any(a.is_heavy for a in atoms_in(c))


class Explorer:
    """Runs a source and its program on all paths until the processor time is up."""

    def __init__(self, until: float) -> None:
        self.solver, self.until = z3.Solver(), until
        self.stack: list[Cond] = []
        self.asked = self.paths = self.limit = 0

    def query(self, conditions: list[Cond], more: Iterable[Cond]) -> Model | bool | None:
        """A packet that meets these conditions, None if there is none, False if z3 does not know. The first ones are kept for the next question."""
        same = next((k for k, pair in enumerate(zip(self.stack, conditions)) if pair[0] != pair[1]), min(len(self.stack), len(conditions)))
        self.solver.pop(len(self.stack) - same)
        for it in conditions[same:]:
            self.solver.push()
            self.solver.add(of_cond(it))
        self.stack = list(conditions)
        self.solver.push()
        found = self.answer(self.solver, more)
        self.solver.pop()
        return found

    def query_alone(self, conditions: list[Cond]) -> Model | bool | None:
        """As `query`, by a solver that translates to bits first: better for sums."""
        return self.answer(z3.Tactic("qfufbv" if "hit" in repr(conditions) else "qfbv").solver(), conditions)

    def answer(self, solver: Any, more: Iterable[Cond]) -> Model | bool | None:
        """What a solver says, which also has to meet these conditions."""
        left = self.until - time.process_time()
        if left <= 0:
            raise TimeoutError
        self.asked += 1
        limit = min(QUESTION, 1 + int(left))
        if solver is not self.solver or limit != self.limit:
            # To set it takes as long as a short question.
            solver.set("timeout", 1000 * limit)
            self.limit = limit if solver is self.solver else self.limit
        solver.add(*map(of_cond, more))
        found = solver.check()
        return Model(solver.model()) if found == z3.sat else None if found == z3.unsat else False

    def run(self, state: Twins) -> None:
        """Takes a source and its program through their steps, on all paths. The step that decides is made again from the state before it, with the other answer."""
        pending: list[tuple[Twins, list[Decision]]] = [(state, [])]
        while pending:
            state, made = pending.pop()
            self.paths += 1
            goes_on = True
            while goes_on:
                if time.process_time() > self.until:
                    raise TimeoutError
                before, state = state, state.fork()
                state.path.made, state.path.at = list(made), 0
                goes_on = state.step()
                for k, it in enumerate(state.path.made[len(made):], len(made)):
                    if it.both:
                        pending.append((before, [*state.path.made[:k], it._replace(choice=not it.choice)]))
                made = []


class Path:
    """One path: what is known on it, the spans of numbers, the conditions that it took, packets that take it, and the decisions of its present
    step; none is made while only what `is_known` is asked for."""

    def __init__(self, explorer: Explorer) -> None:
        self.explorer, self.made, self.at, self.is_known = explorer, list[Decision](), 0, False
        self.known, self.spans, self.literals, self.models = Known(), dict[Val, tuple[int, int]](), list[Cond](), [Model()]

    def fork(self) -> Path:
        """A copy that goes its own way."""
        it = copy(self)
        it.known, it.spans, it.literals = self.known.fork(), dict(self.spans), list(self.literals)
        return it

    def range(self, v: Val) -> tuple[int, int]:
        """The least and the greatest value of a number, as far as it is known simply."""
        v = self.known.val(extend(v))
        bounds = [range_of(v), self.spans.get(v, range_of(v))]
        a = v[0][0]
        if a is not None and a.kind == "sum" and a.args[2] and len(a.args[0]) < 4 and v == whole(a):
            bounds.append(self.range_of_sum(dict(a.args[0]), a.args[1]))
        return max(low for low, _ in bounds), min(high for _, high in bounds)

    def range_of_sum(self, parts: dict[Any, int], c: int) -> tuple[int, int]:
        """The range of a linear form over the integers."""
        low = high = c
        for w, (l, h) in self.spans.items():
            d, c = lin(w)
            if len(d) > 1 and all(parts.get(key) == -coef for key, coef in d.items()):
                # The complement of a number of several parts, of which more is known than of each part.
                parts, low, high = {key: coef for key, coef in parts.items() if key not in d}, low + c - h, high + c - l
        for key, coef in parts.items():
            ends = [coef * it for it in self.range(((*key, False),))]
            low, high = low + min(ends), high + max(ends)
        return low, high

    def value(self, v: Val) -> int | None:
        """The one value of a number, or None."""
        low, high = self.range(v)
        return low if low == high else None

    def decide(self, c: Cond) -> bool | None:
        """Whether a condition holds, if that is simply known."""
        c = self.known.cond(c)
        if isinstance(c, bool):
            return c
        if c[0] == "not":
            found = self.decide(c[1])
            return None if found is None else not found
        if c[0] in ("eq", "lt") and (k := known(c[2])) is not None:
            low, high = self.range(c[1])
            if c[0] == "lt":
                return True if high < k else False if low >= k else None
            return False if not low <= k <= high else True if low == high else None
        return None

    def about_folded(self, c: Cond) -> Cond:
        """A condition in its one form: whether a sum with a folded one is 0xffff is whether the sum is 0xffff once folded, below 0x1fffe."""
        if not isinstance(c, bool) and c[0] == "eq" and known(c[2]) == 0xFFFF:
            a = c[1][0][0]
            is_sum = a is not None and a.kind == "sum" and a.args[2] and c[1] == ((a, 0, a.width, False),)
            if is_sum and any(key[0].kind == "fold" for key, _ in a.args[0]) and self.range(c[1])[1] < 0x1FFFE:
                return self.known.cond(eq(fold(whole(a)), const(0xFFFF)))
        return c

    def branch(self, c: Cond) -> bool:
        """Whether a condition holds on this path."""
        plain = self.known.cond(c)
        in_one_form = self.about_folded(plain)
        found = self.decide(in_one_form)
        if found is None:
            found = self.answer(in_one_form)
        if found and in_one_form != plain:
            self.known.learn_eq(plain[1], 0xFFFF)
        return found

    def answer(self, c: Cond) -> bool:
        """Decides a condition that is open."""
        if self.is_known:
            raise Undecided
        if self.at == len(self.made):
            self.made.append(self.fresh(c))
        choice, both, models = self.made[self.at]
        self.at += 1
        if both:
            self.literals.append(c if choice else negated(c))
        self.assume(c, choice)
        self.models = models[choice]
        return choice

    def fresh(self, c: Cond) -> Decision:
        """Which answers some packet of this path gives."""
        if c[0] == "is":
            return Decision(False, True, {side: [it.answered(c, side) for it in self.models] for side in (True, False)})
        models: dict[bool, list[Model]] = {True: [], False: []}
        for it in self.models:
            models[it.holds(c)].append(it)
        can = {side: bool(found) for side, found in models.items()}
        for side in (it for it in models if not can[it]):
            can[side], models[side] = self.search(c if side else negated(c))
        if not any(can.values()):
            raise Left("z3 finds no packet")
        return Decision(can[True], all(can.values()), {side: found[-PACKETS:] for side, found in models.items()})

    def search(self, c: Cond) -> tuple[bool, list[Model]]:
        """Whether some packet of this path may meet a condition, and such packets. Conditions on folded sums are only tried: a path that no
        packet takes costs time alone."""
        near = next(filter(None, (it.near(c, self.literals, 60 if is_heavy(c) else 0) for it in self.models)), None)
        if near or is_heavy(c):
            return True, [near] if near else []
        found = self.explorer.query([it for it in self.literals if it[0] != "is" and not is_heavy(it)], [c])
        if found is None:
            return False, []
        if not found:
            return True, []
        found.answers = self.answers()
        for it in self.literals:
            if not found.holds(it):
                near = found.near(it, [*self.literals, c], 0)
                return True, [near] if near else []
        return True, [found]

    def answers(self) -> dict[Cond, bool]:
        """The answers to what is free."""
        return {c: it is c for it in self.literals for c in [it[1] if it[0] == "not" else it] if c[0] == "is"}

    def assume(self, c: Cond, holds: bool) -> None:
        """Takes the answer of a condition as known."""
        for it in (c, self.known.cond(c)):
            is_yes = holds
            if isinstance(it, bool):
                continue
            if it[0] == "not":
                it, is_yes = it[1], not is_yes
            self.known.facts[it] = is_yes
            self.known.memo = {}
        if it[0] in ("eq", "lt") and (k := known(it[2])) is not None:
            self.learn(it[0], it[1], k, is_yes)

    def learn(self, kind: str, v: Val, k: int, is_yes: bool) -> None:
        """Notes the range of a number that is compared with a constant, and bits that this decides."""
        if kind == "eq" and is_yes:
            self.known.learn_eq(v, k)
            return
        v = extend(v)
        low, high = self.spans.get(v, range_of(v))
        if kind == "lt":
            low, high = (low, min(high, k - 1)) if is_yes else (max(low, k), high)
        else:
            low, high = low + (k == low), high - (k == high)
        self.spans[v] = low, high
        same = (low ^ high).bit_length()
        if same < 64:
            self.known.learn_eq(part(v, same, 64 - same), low >> same)

    def concrete(self, v: Val, most: int = 64) -> int:
        """The value of a number; one path for each."""
        v = self.known.val(extend(v))
        if (value := known(v)) is not None:
            return value
        low, high = self.range(v)
        bits = [k for k in range(64) if known(part(v, k, 1)) is None]
        if high - low >= most and len(bits) > 6:
            raise Left("an offset with too many values")
        base = sum((known(part(v, k, 1)) or 0) << k for k in range(64))
        spread = (base + sum((n >> j & 1) << k for j, k in enumerate(bits)) for n in range(1 << len(bits)))
        for k in range(low, high + 1) if high - low < most else sorted(spread):
            if low <= k <= high and self.branch(eq(v, const(k))):
                return k
        raise Left("no value")
