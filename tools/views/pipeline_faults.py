"""What is said of a text that is no pipeline: which line of it is at fault, and what helps (docs/reference/pipelines.md)."""
import contextlib
import re
import tomllib
from collections.abc import Callable
from dataclasses import dataclass
from typing import Any, NamedTuple

from documents import Document
from faulty_files import helps, is_capture, line_at, lines_of, meant, place, text_in, trim
from limits import LINE, MAX_BUFFERS, MAX_CACHE, MAX_FACT, MAX_GROUPS, MAX_POOL, MAX_REGION, MAX_RING, MAX_ROOM, MAX_RULES, MAX_SEGMENTS, MIN_REGION
from program_text import Line

# A table of TOML.
Table = dict[str, Any]


class Wanted(NamedTuple):
    """What the value of a key must be: in words, and as a test."""

    words: str
    is_met_by: Callable[[Any], bool]


def is_table(value: Any) -> bool:
    """Whether a value is a table."""
    return isinstance(value, dict)


def is_whole(value: Any) -> bool:
    """Whether a value is a whole number."""
    return isinstance(value, int) and not isinstance(value, bool)


def number(least: int, most: int) -> Wanted:
    """A whole number in a range."""
    return Wanted(f"a whole number from {least} to {most}", lambda it: is_whole(it) and least <= it <= most)


REGION = Wanted(
    f"a multiple of {LINE} from {MIN_REGION} to {MAX_REGION}", lambda it: is_whole(it) and MIN_REGION <= it <= MAX_REGION and it % LINE == 0
)
POWER = Wanted(f"a power of two from 2 to {MAX_RING}", lambda it: is_whole(it) and 2 <= it <= MAX_RING and it & (it - 1) == 0)
FACT = number(0, MAX_FACT)
TEXT = Wanted("a text in quotes", lambda it: isinstance(it, str))
TEXTS = Wanted('an array of texts, as ["10.0.0.0/8 1"]', lambda it: isinstance(it, list) and all(isinstance(one, str) for one in it))
TABLES = Wanted("given by tables in double brackets, as [[port]]", lambda it: isinstance(it, list) and all(is_table(one) for one in it))
# The greatest number of rules and of groups of a table.
MOST = {"rules": MAX_RULES, "groups": MAX_GROUPS}
# The keys of each part, and what the value of each must be. Those that may be missing.
KEYS = {
    "top": {"region": REGION, "pool": TABLES, "table": TABLES, "ring": TABLES, "port": TABLES},
    "pool": {"count": number(1, MAX_BUFFERS), "cache": number(0, MAX_CACHE), "room": number(0, MAX_ROOM)},
    "table": {"rules": number(1, MOST["rules"]), "groups": number(0, MOST["groups"]), "routes": TEXTS},
    "ring": {
        "count": POWER, "share": number(0, 2), "head": FACT, "tail": FACT, "first": FACT, "last": FACT, "segs": number(1, MAX_SEGMENTS),
        "node": TEXT, "cert": TEXT,
    },
    "port": {"pool": number(0, MAX_POOL), "segs": number(1, MAX_SEGMENTS), "queue": POWER, "node": TEXT, "cert": TEXT, "in": TEXT, "out": TEXT},
}
OPTIONAL = [*(("top", it) for it in ("pool", "table", "ring", "port")), ("ring", "cert"), ("port", "cert")]
# The causes of an environment that is none, by their numbers; the part that has each, and the key of it.
BAD_NUMBER, BAD_POOL, BAD_RING, BAD_PORT, TOO_MANY = range(1, 6)
PART_OF = {BAD_POOL: ("pool", "cache"), BAD_RING: ("ring", "share"), BAD_PORT: ("port", "pool")}
# The causes of a route that is refused, by their numbers, and the key that is too small.
SMALL = {3: "rules", 4: "groups"}
SYNTAX = "a route is A.B.C.D/DEPTH HOP, as 10.1.0.0/16 3: DEPTH 1 to 32, HOP at most 16777215"


def list_at(table: Table, key: str) -> list[Any]:
    """The values of an array at a key."""
    values = table.get(key)
    return values if isinstance(values, list) else []


# The parts of a text of TOML: strings, comments, and what tables in braces are made of.
TOKENS = re.compile(r'"""(?:\\.|[^\\])*?"""|\'\'\'.*?\'\'\'|"(?:\\.|[^"\\])*"|\'[^\']*\'|#[^\n]*|[{},\n]|[^"\'#{},\n]+', re.DOTALL)


def as_toml_1_0(text: str) -> str:
    """A text with each table in braces on one line and without a last comma, as TOML 1.0 has it: the program takes more."""
    said: list[str] = []
    depth = 0
    for token in TOKENS.findall(text):
        depth += (token == "{") - (token == "}")
        while token == "}" and said and said[-1].strip() in ("", ","):
            said.pop()
        is_left_out = depth > 0 and (token == "\n" or token.startswith("#"))
        said.append(" " if is_left_out else token)
    return "".join(said)


def table_in(text: str) -> Table | None:
    """The table of a text that the program reads as one; nothing if Python does not."""
    for given in (text, as_toml_1_0(text)):
        with contextlib.suppress(tomllib.TOMLDecodeError):
            return tomllib.loads(given)
    return None


def array_header(line: str) -> str | None:
    """The name in the header of an array's table, as `[[port]]`."""
    name, end, _ = line.removeprefix("[[").partition("]]")
    return trim(name) if line.startswith("[[") and end else None


def key_in(line: str) -> str | None:
    """The key to which a line assigns a value."""
    key, mark, _ = line.partition("=")
    return trim(key).strip('"') if mark else None


def has_route(line: str) -> bool:
    """Whether a line of a file with routes has one."""
    return line != "" and not line.startswith("#")


def syntax_help(words: str) -> str:
    """What helps with a route that is not one."""
    depth, _, given = words.partition("/")[2].partition(" ")
    hop = trim(given)
    return f'DEPTH is 1 to 32, and all addresses are two routes: "0.0.0.0/1 {hop}", "128.0.0.0/1 {hop}"' if depth == "0" else SYNTAX


def route_help(table: Table, words: str, cause: int) -> str:
    """What helps with a route of a table that was refused."""
    if cause not in SMALL:
        return syntax_help(words)
    key = SMALL[cause]
    given, most = table.get(key), MOST[key]
    count = given if is_whole(given) else 0
    cure = f"raise {key}, to at most {most}" if count < most else f"no table may have more {key}"
    return f"{key} = {count} is too small for it: {cure}"


def unknown_help(part: str, table: Table, key: str) -> str:
    """What helps with a key that no part of this kind has."""
    free = [name for name, wanted in KEYS[part].items() if name not in table or wanted is TABLES]
    return f"there is no key '{key}' here{meant(key, free)}"


def value_help(part: str, table: Table, name: str) -> str | None:
    """What helps with a known key that is missing or has a value that it must not have, if it is so."""
    wanted = KEYS[part][name]
    if name in table:
        return None if wanted.is_met_by(table[name]) else f"'{name}' has to be {wanted.words}"
    return None if (part, name) in OPTIONAL else f"the key '{name}' is missing: it has to be {wanted.words}"


@dataclass
class PipelineFile:
    """A pipeline file: its name, its text, its table, and the files with more routes."""

    name: str
    text: str
    top: Table
    routes: list[Document]

    def table(self, part: str, index: int) -> Table | None:
        """The table of a part."""
        if part == "top":
            return self.top
        tables = list_at(self.top, part)
        return tables[index] if index < len(tables) and is_table(tables[index]) else None

    def line_of(self, part: str, index: int, key: str) -> Line | None:
        """The line that assigns a value to a key of a part, or else its header. The part is the one with this index among its kind."""
        headers, is_inside, header = 0, part == "top", None
        for number, line in enumerate(lines_of(self.text), 1):
            text = trim(line)
            array = array_header(text)
            if text.startswith("["):
                is_inside = array == part and headers == index
                headers += array == part
                header = Line(number, text) if is_inside else header
            if is_inside and key_in(text) == key or part == "top" and array == key:
                return Line(number, text)
        return header

    def key_help(self, part: str, index: int) -> str | None:
        """Which key of a part is at fault, if one is: the first that is not known, else one that is missing or has another value."""
        table = self.table(part, index)
        if table is None:
            return None
        cures = [(key, unknown_help(part, table, key)) for key in sorted(table) if key not in KEYS[part]][:1]
        cures += [(key, cure) for key in KEYS[part] if (cure := value_help(part, table, key)) is not None][:1]
        if not cures:
            return None
        key, cure = cures[0]
        return place(self.name, self.line_of(part, index, key)) + helps(cure)

    def environment_help(self, cause: int, index: int) -> str:
        """Why there is no environment."""
        part, key = PART_OF.get(cause, ("top", ""))
        said = None if part == "top" else self.key_help(part, index)
        if said is not None:
            return said
        pools, tables, rings, ports = (len(list_at(self.top, it)) for it in ("pool", "table", "ring", "port"))
        cures = {
            BAD_POOL: "3 x cache is at most 2 x count",
            BAD_RING: "with one segment 'first' and 'last' are equal, and no packet is longer than the room of a buffer",
            BAD_PORT: f"pools are counted from 0 (here {pools}), and a port needs one with a room of at least 129",
            TOO_MANY: f"the counts of all pools together are at most {MAX_BUFFERS}",
            BAD_NUMBER: f"pools are 1 to 8 (here {pools}), tables 0 to 4 ({tables}), rings 0 to 8 ({rings}), ports 1 to 8 ({ports})",
        }
        return place(self.name, None if part == "top" else self.line_of(part, index, key)) + helps(cures[cause])

    def line_of_route(self, index: int, words: str, equal: int) -> Line | None:
        """The line on which a route of a table stands in quotes after this number of equal ones, or else that of all its routes."""
        first, left = self.line_of("table", index, "routes"), equal
        if first is None:
            return None
        for number, line in enumerate(lines_of(self.text)[first.number - 1 :], first.number):
            left -= line.split('"').count(words) + line.split("'").count(words)
            if left < 0:
                return Line(number, trim(line))
        return first

    def given_route(self, index: int, at: int) -> tuple[str, Line] | None:
        """The file and the line of a route that files give a table, by its place from 0 among those, if it has one."""
        lines = [
            (file["file"], Line(number, line))
            for file in self.routes if file["table"] == index
            for number, line in enumerate(lines_of(text_in(file)[0]), 1) if has_route(line)
        ]
        return lines[at] if 0 <= at < len(lines) else None

    def refused_help(self, index: int, route: int, cause: int) -> str:
        """Which route of a table is refused: one of the pipeline file, or of a file with more routes."""
        table = self.table("table", index)
        if table is None:
            return ""
        own = list_at(table, "routes")
        words = own[route] if route < len(own) else ""
        file, line = self.name, self.line_of_route(index, words, own[:route].count(words))
        given = self.given_route(index, route - len(own))
        if given is not None:
            file, line = given
            words = line.text
        return place(file, line) + helps(f"route {route} is '{words}'; {route_help(table, words, cause)}")


def other_help(file: str, document: Document) -> str | None:
    """What helps if a file is given in place of a pipeline that is something else, or is no text."""
    if file.endswith(".pkt"):
        cure = f"dpv filter {file} IN OUT runs it, and dpv build {file} > {file[:-4]}.dpv compiles it for a pipeline"
        return f"it is a program of the language pkt: {cure}"
    if file.endswith(".dpv"):
        return f"it is a program: dpv filter {file} IN OUT runs it, dpv explain-one {file} judges it, and dpv show-one {file} prints it"
    if is_capture(document):
        return f"it is a capture: dpv filter PROGRAM {file} OUT runs a program on it"
    return None if text_in(document)[1] else "a pipeline file is UTF-8"


def pipeline_help(document: Document) -> str:
    """The lines that say where in a pipeline file, or in a file with more routes, a fault is, and what helps."""
    file, (text, _) = document["file"], text_in(document)
    other = other_help(file, document)
    if other is not None:
        return place(file, None) + helps(other)
    if "message" in document:
        before = text.encode()[: document.get("offset", 0)]
        return place(file, line_at(text, before.count(b"\n") + 1)) + helps(document["message"])
    table = table_in(text)
    if table is None:
        return place(file, None)
    it, (cause, *words) = PipelineFile(file, text, table, document["routes"]), document["error"].split()
    if cause == "2":
        return it.key_help(words[1], int(words[2])) or ""
    if cause == "3":
        return it.environment_help(int(words[1]), int(words[2]))
    return it.refused_help(*map(int, words[1:])) if cause == "4" else ""
