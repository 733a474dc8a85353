"""TOML 1.1, read by `tomllib`, which knows 1.0: what is new in 1.1 is first rewritten for 1.0.

New are newlines, comments and a comma after the last value in inline tables, the escapes for ESC and of two digits, and times without
seconds. A carriage return and a newline are one newline; a carriage return is refused anywhere else, also before these two,
which `tomllib` alone would take once the first pair is replaced.
"""
import re
import tomllib
from typing import Any

STRING = r'"""(?:[^\\]|\\.)*?"{3,5}|"(?:[^"\\\n]|\\.)*"|' + r"'''.*?'{3,5}|'[^'\n]*'"
# A time without seconds, or at the second that is put in now and then, which the library of the program takes.
TIME = r"(?<![\d:.+-])\d\d:\d\d(?::60(?!\d)|(?![:\d]))"
# Strings, comments, such times, and each other character by itself.
PARTS = re.compile(rf"{STRING}|#[^\n]*|{TIME}|.", re.S)
# Without an inline table, an escape or such a time, a text of 1.1 is one of 1.0.
NEW = re.compile(rf"[{{\\]|{TIME}")
# What no comment may have.
CONTROL = re.compile(r"[\x00-\x08\x0b-\x1f\x7f]")


def is_blank(part: str) -> bool:
    """Whether a part has no meaning of its own."""
    return part in " \t\n" or part[0] == "#"


def escape(found: re.Match[str]) -> str:
    """An escape as 1.0 has it."""
    return r"\u001b" if found[1] == "e" else rf"\u00{found[2]}" if found[2] else found[0]


def older(text: str) -> str:
    """A text of TOML 1.1 as one of 1.0, which is refused exactly if the first is."""
    text = text.replace("\r\n", "\n")
    if "\r" in text:
        raise ValueError("a carriage return without a newline")
    if not NEW.search(text):
        return text
    parts, out, open_ = PARTS.findall(text), [], []
    meant = [k for k, part in enumerate(parts) if not is_blank(part)]
    after = dict(zip([-1, *meant], [*(parts[k] for k in meant), ""]))
    last = -1
    for k, part in enumerate(parts):
        within, before, behind = open_[-1:] == ["{"], parts[last] if last >= 0 else "", after[last if is_blank(part) else k]
        if not is_blank(part):
            last = k
        if part in "[{":
            open_.append(part)
        elif part in "]}":
            del open_[-1:]
        if within and is_blank(part) and (before in "{," or behind in "},") and not CONTROL.search(part):
            part = " "
        elif within and part == "," and behind == "}" and before not in "{,":
            part = " "
        elif part[0] == '"':
            part = re.sub(r"\\(x([0-9A-Fa-f]{2})|.)", escape, part, flags=re.S)
        elif re.fullmatch(TIME, part):
            part = part[:5] + ":00"
        out.append(part)
    return "".join(out)


def read(text: str) -> dict[str, Any]:
    """The table of a text; raises ValueError if it is not TOML."""
    return tomllib.loads(older(text))
