#!/usr/bin/env python3
"""Keeps the table of docs/proofs/definitions.md that lists, for each main promise, the definitions that a reader has to believe.

Usage: tests/proofs/believed.py [--write | --list PROMISE]
A promise is the contract of a public function. It names definitions of specs/, these name others, and so on down to the library's own and
to the types of the code. If contracts see a type of the call, or of a field of such a type, by a view (`impl Model`), the view has to be
believed too. The table has for each promise the modules of the definitions, the types whose views count, and the number of lines of both,
without comments and imports. Without --write it reports where the table is wrong, and exits with 1; with --write it updates the table. With
--list and a promise, as dp_pipe::run, it prints the definitions of that promise, a line for each module."""
import collections
import dataclasses
import pathlib
import re
import sys

TOP = pathlib.Path(__file__).resolve().parents[2]
PAGE = TOP / "docs" / "proofs" / "definitions.md"
BEGIN, END = "<!-- believed: begin -->", "<!-- believed: end -->"
# Each promise: its crate, the file of src/ that has it, the function, and a short description.
PROMISES = (
    ("dp_pipe", "running", "run", "captures to captures"),
    ("dp_load", "loading", "load", "a pipeline is what its text says"),
    ("dp_copies", "laws", "clones_are_copies", "clones are copies"),
    ("dp_model", "laws", "accepted_programs_are_safe", "accepted programs are never stuck"),
    ("dp_check", "checked", "check", "the checker is exact"),
    ("dp_infer", "inferring", "infer", "the inferrer is exact for programs that never jump back"),
    ("dp_lang", "assembler", "assemble", "a text is read as the program that it spells"),
    ("dp_cert", "decoding", "decode", "a certificate is read exactly"),
    ("dp_engine", "engine/turns", "turn", "a turn of an engine is one of the buffer machine"),
    ("dp_pcap", "reading", "next_record", "a capture is read exactly"),
    ("dp_heap", "heap", "malloc", "memory is taken where some free element fits"),
)
IMPORT = re.compile(r"^(?:ghost )?use Rattle\.([\w.]+?)(?:\.\{(.*)\}| as (\w+))?;?$", re.M)
HEAD = re.compile(r"^(?:abbrev |unfoldable |pub )*(?:record |data )?(\w+|◌\S+◌)(?= |$)")
INFIX = re.compile(r"^\w+ (\S+) \w+ =")
WORD = re.compile(r"(?:(\w+)\.)?([A-Za-z_]\w*)|(?<= )([^\w\s(){}\[\].,;]+)(?= )")
MODEL = re.compile(r"^impl(?:<[^>]*>)? Model for (\w+).*?^}", re.M | re.S)
VIEW = re.compile(r"^    ghost view = \{.*?\};$", re.M | re.S)
TYPE = re.compile(r"\b[A-Z]\w*")


@dataclasses.dataclass
class Module:
    """A module of specs/: what its imports bring in, and its definitions, each a list of lines."""

    names: dict[str, tuple[str, str]]
    others: dict[str, str]
    definitions: dict[str, list[str]]


def imports_of(text: str) -> tuple[dict[str, tuple[str, str]], dict[str, str]]:
    """The names that a text imports, with module and name there, and the modules that it names as a whole."""
    names, others = {}, {}
    for path, listed, other in IMPORT.findall(text):
        for item in filter(None, (word.strip() for word in listed.split(","))):
            there, _, here = item.partition(" as ")
            names[here or there] = (path, there)
        if not listed:
            others[other or path.rsplit(".", 1)[-1]] = path
    return names, others


def definitions_of(text: str) -> dict[str, list[str]]:
    """The definitions of a module: a name's clauses are adjacent, and an indented line belongs to the line above it."""
    found: dict[str, list[str]] = collections.defaultdict(list)
    name = None
    for line in text.splitlines():
        if not line.strip() or line.lstrip().startswith("--") or line.startswith(("use ", "pub mod ", "mod ", "infix")):
            continue
        infix = INFIX.match(line)
        if infix and f"◌{infix.group(1)}◌" in found:
            name = f"◌{infix.group(1)}◌"
        elif not line[0].isspace():
            head = HEAD.match(line)
            name = head.group(1) if head else name
        if name is not None:
            found[name].append(line)
    return found


def module_at(path: str, known: dict[str, Module | None]) -> Module | None:
    """The module of this path where it is one of the repository's specs; else None, as for the library's and for types of the code."""
    if path not in known:
        crate, _, rest = path.partition(".specs.")
        file = TOP / "crates" / crate / "specs" / (rest.replace(".", "/") + ".antt")
        known[path] = None
        if rest and file.is_file():
            text = file.read_text()
            known[path] = Module(*imports_of(text), definitions_of(text))
    return known[path]


def named_in(lines: list[str], here: str, module: Module) -> list[tuple[str, str]]:
    """The definitions, each with its module, that these lines may name. A name that the module defines is its own."""
    named = []
    for line in lines:
        for before, word, sign in WORD.findall(line):
            word = f"◌{sign}◌" if sign else "◌>>=◌" if word == "do" else word
            if before in module.others:
                named.append((module.others[before], word))
            elif before in module.definitions:
                named.append((here, before))
            elif word in module.definitions:
                named.append((here, word))
            elif word in module.names:
                named.append(module.names[word])
    return named


def contract_of(crate: str, file: str, function: str) -> tuple[list[str], str]:
    """The lines of a function's contract, and the text of its file."""
    path = TOP / "crates" / crate / "src" / f"{file}.rt"
    if not path.is_file():
        raise SystemExit(f"believed: {path.relative_to(TOP)} is not there, which has {crate}::{function}")
    text = path.read_text()
    found = re.search(rf"^ *pub fn {function}\b.*?^ *{{", text, re.M | re.S)
    if not found or "ensures" not in found.group(0):
        raise SystemExit(f"believed: {path.relative_to(TOP)} has no contract of {function}")
    return found.group(0).splitlines(), text


def viewed() -> dict[tuple[str, str], tuple[str, str]]:
    """The types that contracts see by a view, by crate and name: the text of the view, and the text of the type's file."""
    found = {}
    for path in sorted(TOP.glob("crates/*/src/**/*.rt")):
        text = path.read_text()
        for block in filter(lambda block: VIEW.search(block.group(0)), MODEL.finditer(text)):
            found[path.relative_to(TOP).parts[1], block.group(1)] = (block.group(0), text)
    return found


def types_in(words: str, crate: str, text: str) -> list[tuple[str, str]]:
    """The types that some words of a file name, each with its crate."""
    crates = {}
    for path, listed, one in re.findall(r"^use (\w+)(?:::\w+)*::(?:\{([^}]*)\}|(\w+));", text, re.M):
        for name in TYPE.findall(listed or one):
            crates[name] = crate if path in ("crate", "super") else path
    return [(crates.get(name, crate), name) for name in TYPE.findall(words)]


def views_of(crate: str, lines: list[str], text: str, views: dict[tuple[str, str], tuple[str, str]]) -> dict[tuple[str, str], tuple[str, str]]:
    """The views of the types that a call names, or whose method it is, and of the types of their fields."""
    signature = " ".join(line for line in lines if not line.strip().startswith(("requires", "ensures", "//")))
    of = [found for found in re.findall(r"^impl(?:<[^>]*>)? (\w+)|^ *pub fn (\w+)", text, re.M)]
    name = re.search(r"fn (\w+)", lines[0]).group(1)
    own = next((before[0] for before in reversed(of[: of.index(("", name))]) if before[0]), "")
    waiting, found = types_in(signature.replace("self", own), crate, text), {}
    while waiting:
        key = waiting.pop()
        if key not in views or key in found:
            continue
        block, there = found[key] = views[key]
        fields = re.search(rf"^pub(?:\(crate\))? struct {key[1]}\b.*?^}}", there, re.M | re.S)
        waiting += types_in(fields.group(0) if fields else "", key[0], there)
    return found


def believed(crate: str, file: str, function: str, known: dict[str, Module | None]) -> tuple[dict[str, set[str]], dict[str, int]]:
    """All definitions that a contract rests on, by module, and the lines of each view."""
    lines, text = contract_of(crate, file, function)
    found: dict[str, set[str]] = collections.defaultdict(set)
    waiting = named_in(lines, "", Module(*imports_of(text), {}))
    views = {}
    for (home, name), (block, there) in views_of(crate, lines, text, viewed()).items():
        uses = block if "ghost use" in block else there
        views[f"{home}::{name}"] = view = VIEW.search(block).group(0).splitlines()
        waiting += named_in(view, "", Module(*imports_of(re.sub("^ +", "", uses, flags=re.M)), {}))
    while waiting:
        path, name = waiting.pop()
        module = module_at(path, known)
        if module is None or name in found[path] or name not in module.definitions:
            continue
        found[path].add(name)
        waiting += named_in(module.definitions[name], path, module)
    return {path: names for path, names in found.items() if names}, {name: len(view) for name, view in views.items()}


def table() -> str:
    """The table, a line for each promise."""
    known: dict[str, Module | None] = {}
    rows = ["| promise | contract of | lines | definitions | modules | views |", "|---|---|---|---|---|---|"]
    for crate, file, function, words in PROMISES:
        found, views = believed(crate, file, function, known)
        lines = sum(len(known[path].definitions[name]) for path, names in found.items() for name in names) + sum(views.values())
        crates: dict[str, list[str]] = collections.defaultdict(list)
        for path in sorted(found):
            crates[path.partition(".")[0]].append(path.rsplit(".", 1)[-1])
        modules = "; ".join(f"{name}: {', '.join(parts)}" for name, parts in crates.items())
        rows.append(f"| {words} | `{crate}::{function}` | {lines} | {sum(map(len, found.values()))} | {modules} | {', '.join(sorted(views))} |")
    return "\n".join(rows)


def listed(promise: str) -> int:
    """Prints the definitions of a promise, by module. Returns 2 if there is no such promise."""
    for crate, file, function, _ in PROMISES:
        if promise == f"{crate}::{function}":
            found, views = believed(crate, file, function, {})
            for path in sorted(found):
                print(f"{path}: {', '.join(sorted(found[path]))}")
            print(f"views: {', '.join(sorted(views))}")
            return 0
    print(f"believed: no promise {promise}; there are {', '.join(f'{crate}::{function}' for crate, _, function, _ in PROMISES)}")
    return 2


def main() -> int:
    """Checks the page, writes its table, or prints the definitions of a promise."""
    if sys.argv[1:2] == ["--list"]:
        return listed(" ".join(sys.argv[2:]))
    text = PAGE.read_text()
    before, _, rest = text.partition(BEGIN)
    there, _, behind = rest.partition(END)
    wanted = f"\n{table()}\n"
    if there == wanted:
        return 0
    if "--write" not in sys.argv[1:]:
        print("believed: the table in docs/proofs/definitions.md is not what is counted; tests/proofs/believed.py --write puts it right")
        return 1
    PAGE.write_text(before + BEGIN + wanted + END + behind)
    return 0


if __name__ == "__main__":
    sys.exit(main())
