"""Certificates: right ones, and those with a field, a row or a byte changed."""
from random import Random

from model import rules
from model.machine import BIGGEST, Env, Instr

from .noise import changed_bytes
from .writer import LENGTHS


def changed_rows(rng: Random, rows: rules.Rows) -> rules.Rows:
    """Rows with a field or a row changed."""
    rows, at = list(rows), rng.randrange(len(rows))
    row, how = rows[at], rng.randrange(11)
    if how == 0:
        rows[at] = None if row else rules.Row(rules.EMPTY, (0,) * 8)
    elif how == 1:
        other = rng.randrange(len(rows))
        rows[at], rows[other] = rows[other], rows[at]
    elif how == 2:
        rows = rng.choice((rows[:at] + rows[at + 1 :], rows[:at] + rows[at:][:1] + rows[at:]))
    elif row is None:
        rows[at] = rows[at - 1]
    elif how == 3:
        r, step = rng.randrange(8), rng.choice((-1, 1, BIGGEST))
        rows[at] = row._replace(bounds=row.bounds[:r] + (min(max(row.bounds[r] + step, 0), BIGGEST),) + row.bounds[r + 1 :])
    elif how < 7:
        change_groups(rng, rows)
    else:
        p = rng.choice([p for p, fact in enumerate(row.facts) if fact] or [0])
        rows[at] = rules.with_fact(row, p, changed_fact(rng, row.facts[p]))
    return rows


def change_groups(rng: Random, rows: rules.Rows) -> None:
    """Changes who belongs to a group in some row and, often, in the rows after it."""
    many = [k for k, row in enumerate(rows) if row and sum(fact is not None for fact in row.facts) > 1]
    at = rng.choice(many or [0])
    held = [p for p, fact in enumerate(rows[at].facts) if fact] if many else []
    chosen = rng.sample(held, rng.randrange(1, len(held) + 1)) if held else []
    share = rng.choice((0, 0, 1, 2, *[8 + min(chosen)] * 3)) if chosen else 0
    for k in range(at, len(rows) if rng.random() < 0.5 else at + 1):
        row = rows[k] and rules.with_shares(rows[k], chosen, share)
        if row and rules.is_well_formed(row):
            rows[k] = row


def changed_fact(rng: Random, fact: rules.Fact | None) -> rules.Fact | None:
    """A fact with a part changed."""
    if fact is None or rng.random() < 0.1:
        return None if fact else rules.Fact(2, 0, 0, 0, 0, 1)
    part = rng.choice(rules.Fact._fields)
    most = {"share": 255, "segs": 255}.get(part, 65_535)
    near = getattr(fact, part) + rng.choice((-1, 1))
    value = rng.choice((near, rng.choice((0, 1, 2, 8, 9, 64, 65)) if most == 255 else rng.choice(LENGTHS)))
    return fact._replace(**{part: min(max(value, 0), most)})


def cert_of(rng: Random, env: Env, code: list[Instr], rows: rules.Rows | None, place: int, sound: bool) -> bytes:
    """The text of a certificate: of these rows or of those that are inferred, as they are or with something changed."""
    inferred = rules.infer(env, code, rules.entry_row(env, place)) if rows is None or rng.random() < 0.3 else None
    rows = inferred or rows or [rules.entry_row(env, place)] * len(code)
    if sound:
        return rules.spelled(rows)
    if rng.random() < 0.7:
        return rules.spelled(changed_rows(rng, rows), rng.choice((None, None, 1, 2)))
    return changed_bytes(rng, rules.spelled(rows))
