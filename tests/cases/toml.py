"""Texts of pipeline files, as people may write them."""
from random import Random
from typing import Any


def shown(rng: Random, value: Any, plain: bool) -> str:
    """A value of a pipeline file."""
    if isinstance(value, bool):
        return str(value).lower()
    if isinstance(value, dict):
        between, last = (", ", "") if plain or rng.random() < 0.7 else (rng.choice((", ", ",\n", ", # one more\n")), rng.choice(("", ",", ",\n")))
        return "{" + between.join(f"{key_of(key)} = {shown(rng, part, plain)}" for key, part in value.items()) + (last if value else "") + "}"
    if isinstance(value, list):
        return "[" + ", ".join(shown(rng, part, plain) for part in value) + rng.choice(("", "," if value else "")) + "]"
    if isinstance(value, str):
        is_simple = value.isascii() and value.isprintable() and "'" not in value
        return f"'{value}'" if is_simple and not plain and rng.random() < 0.3 else quoted(value)
    if isinstance(value, int) and value >= 0 and not plain and rng.random() < 0.2:
        return rng.choice((f"0x{value:x}", f"0o{value:o}", f"+{value}", f"{value:_}", f"0b{value:b}"))
    return str(value)


def quoted(text: str) -> str:
    """A basic string."""
    escape = lambda c: f"\\u{ord(c):04x}" if ord(c) < 32 or c in '"\\\x7f' else c
    return '"' + "".join(map(escape, text)) + '"'


def key_of(key: str) -> str:
    """A key, quoted where it has to be."""
    return key if key and all(c.isalnum() and c.isascii() or c in "_-" for c in key) else quoted(key)


def toml_of(rng: Random, top: dict[str, Any]) -> bytes:
    """A text of a pipeline: arrays of tables by their heads or in a line, in any order, with numbers and strings as TOML has them."""
    plain = rng.random() < 0.6
    arrays = [kind for kind, parts in top.items() if kind != "region" and is_array(parts)]
    inline = [kind for kind in arrays if not plain and rng.random() < 0.2 or not top[kind]]
    single = [kind for kind in top if kind not in arrays]
    said = [key for key in [*single, *inline] if top[key] != [] or rng.random() < 0.5]
    lines = [f"{key_of(key)} = {shown(rng, top[key], plain)}" for key in said]
    rest = [kind for kind in arrays if kind not in inline]
    if not plain:
        rng.shuffle(rest)
        rng.shuffle(lines)
    for kind in rest:
        for part in top[kind]:
            items = list(part.items())
            rng.shuffle(items)
            lines.append(f"[[{kind}]]" + rng.choice(("", " # one more")))
            lines += [f"{key_of(key)} = {shown(rng, value, plain)}" for key, value in items]
    return (rng.choice(("\n", "\n", "\r\n", "\n\n")).join(lines) + "\n").encode()


def is_array(parts: Any) -> bool:
    """Whether this is an array of tables."""
    return isinstance(parts, list) and all(isinstance(part, dict) for part in parts)
