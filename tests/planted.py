#!/usr/bin/env python3
"""Tries wrong bodies that the prover must refuse: crates/NAME/planted/*.edit and planted/always/*.edit, each written as an edit of
must-fail/ is. Those of planted/always are the ones that matter most: the gate tries them each time, as `rt ci` tries those of must-fail/,
which only dp_ring has, since `rt ci` proves the whole crate once more before the first.

Usage: tests/planted.py [--jobs N] [--alone] [--must-fail] [--since COMMIT] [--part N OF] [--most N] [CRATE ..]
       tests/planted.py [--jobs N] [--alone] FILE.edit ..
       tests/planted.py [--jobs N] --gate [--early PROVED] [--done DONE]
       tests/planted.py --count

Where nothing says which, all are tried.
  CRATE        those of this crate
  FILE.edit    this one
  --since C    those of the crates whose code, definitions or proofs differ from commit C, and those that are new since
  --part N OF  the N-th part of all (0 <= N < OF): the parts 0 .. OF - 1 have each once, and which has one never changes
  --most N     of what CRATE and --since ask for beyond the part no more than N, beginning with the part after it; the others
               are left for another time, and counted
  --must-fail  those of must-fail/ as well, which `rt ci` tries each time
  --gate       what the gate tries at this commit, at most 70: all of planted/always; then part N of 48, where N is the number of
               changes so far by 48, or the day where there is no such history; then edits that are new since the commit 8
               changes back, then those of functions whose text has changed since, and last the other half of part N of 24
  --early P    while `rt ci` runs, with the lowest priority: those of a crate once the file P names all crates below it, the lowest crates first
  --done D     leaves out those that the file D names, and adds to it each that is refused
  --count      tries none: writes how many each crate has into the table of docs/developing/notes/wrong_bodies.md
  --alone      each in a check of its own, with all functions as they are
  --jobs N     N checks side by side (by default as many as there are processors and memory)

Edits of different functions share a check, which proves those functions alone. A proof uses only the contracts of what its function calls,
so all other functions are left out of the copy that is checked: they have other bodies, and a hole for a proof. An edit is refused if the
check reports that a function it changes has no proof for its own cause; if only a callee has none, it is tried again, at last beside few
and then alone, with all functions as they are. The checks that edits share reuse what the ones before them in the run proved; one alone
starts from nothing. A check ends with the lines of these functions. An edit that cannot be tried (a text of it has several lines; its old
text occurs twice, or not at all, or outside of a function) counts as not refused.

It reads the libraries below a crate as `rt ci` left them in crates/*/out/rlib; `rt all check` makes them too.
Prints a line for each check and each edit, a table by crate, and last 'planted: N refused, M not'; exits with 1 where M is not 0."""
import argparse
import collections
import concurrent.futures
import contextlib
import dataclasses
import functools
import itertools
import os
import pathlib
import re
import shutil
import signal
import subprocess
import sys
import tempfile
import threading
import time
import zlib
from collections.abc import Iterable

TOP = pathlib.Path(__file__).resolve().parent.parent
# How many parts take turns in the gate, how many changes back the gate looks, and how many edits it tries at most.
PARTS, BACK, MOST = 48, 8, 70
# The folders of wrong bodies: those that `rt ci` tries, those that the gate tries each time, and those that have a turn.
MUST_FAIL, ALWAYS, PLANTED = FOLDERS = ("must-fail", "planted/always", "planted")
# How many edits share a check at first, and again if something else hid the result of one.
SHARING = (32, 4, 1)
# A check's memory, in bytes.
ROOM = 3 << 30
FUNCTION = re.compile(r'( *)(?:pub(?:\([^)]*\))? )?(?:const )?(?:unsafe )?(?:extern "C" )?fn (\w+)')
IMPL = re.compile(r"(?:unsafe )?impl\b(?:<(?:[^<>]|<[^<>]*>)*>)? *(?:([\w:]+)(?:<.*>)? for )?&?(?:'\w+ )?(?:mut )?(\w+)")
# A type over another one, as `OfBufWriter<Guarded<W>>`, of which a check prints both.
OVER = re.compile(r".* for &?(?:'\w+ )?(?:mut )?\w+<(\w+)<")
# A conversion, whose source a check prints after the trait.
CONVERSION = re.compile(r"impl\b(?:<(?:[^<>]|<[^<>]*>)*>)? *From<&?(?:'\w+ )?(?:\w+::)*(\w+)[^ ]* for (?:\w+::)*(\w+)")
# An impl of a type at other types, which a check prints after a plus.
IMPL_AT = re.compile(r"(?:unsafe )?impl (\w+)<(\w+)>(?! for)")
TYPE = re.compile(r"^(?:pub(?:\([^)]*\))? )?(?:struct|enum) (\w+)", re.M)
TRAIT = re.compile(r"(?:pub )?(?:unsafe )?trait (\w+)")
# An impl, and functions of a file and of an impl: the head, to the brace before the body, and the body.
IMPLS = re.compile(r"^(?:unsafe )?impl\b.*?^\}$", re.M | re.S)
WHOLE = r"^%s(?:pub(?:\([^)]*\))? )?(?:unsafe )?fn \w(?:[^\n]*\{\}$|.*?^%s\}$)"
OF_FILE, OF_IMPL = (re.compile(WHOLE % (indent, indent), re.M | re.S) for indent in ("", "    "))
# Impls whose functions a check prints by other names, or not at all: they stay.
OTHERWISE_NAMED = re.compile(r"[^\n]*(?:\bDrop|>) for ")
# A proof that is left out.
LEFT_OUT = "use Rattle.{module}.Statement.{{statement}}\npub {name}_spec : {{M : Type 1}} → statement M\n{name}_spec = ?\n"
CALL = re.compile(r"(?:\.|\b[A-Z]\w*::|\b)[a-z_]\w*(?=\()")
# What a check prints for a function that has no proof, and where that names one that has none either.
UNPROVED = re.compile(r"^fn (\S+): (?:not proved|no proof).*$", re.M)
NAMES_OTHERS = re.compile(r"it calls|it passes|a call of")
PRINTING = threading.Lock()


def say(*lines: str) -> None:
    """Prints lines without others between them."""
    with PRINTING:
        print(*lines, sep="\n", flush=True)


@functools.cache
def toolchain() -> pathlib.Path:
    """The toolchain's folder."""
    page = subprocess.run(["rt", "doc"], capture_output=True, text=True, check=True).stdout
    return pathlib.Path(page.strip()).parent


@dataclasses.dataclass(frozen=True)
class Crate:
    """A line of crates.txt."""

    name: str
    is_static: bool
    uses: tuple[str, ...]

    @property
    def folder(self) -> pathlib.Path:
        return TOP / "crates" / self.name

    @property
    def library(self) -> pathlib.Path:
        return self.folder / "out/rlib" / f"{self.name}.rlib"

    def below(self) -> list["Crate"]:
        """The crates that it depends on, lowest first."""
        found: dict[str, Crate] = {}
        for dep in (CRATES[it] for it in self.uses if it in CRATES):
            found |= {it.name: it for it in [*dep.below(), dep]}
        return list(found.values())

    def words(self) -> list[str]:
        """What a check of the crate is asked for."""
        kit, is_program = toolchain(), (self.folder / "src/main.rt").is_file()
        words = ["--crate-name", self.name, "src/main.rt" if is_program else "src/lib.rt"]
        for name in ["std", *(it for it in self.uses if it not in CRATES)]:
            words += ["--extern", f"{name}={kit}/rlibs/{name}.rlib"]
        for name in (it for it in self.uses if it in CRATES):
            words += ["--extern", f"{name}={CRATES[name].library}"]
        for folder in [kit / "rlibs", *(it.library.parent for it in self.below())]:
            words += ["-L", f"dependency={folder}"]
        words += ["--antt-project", f"{kit}/rattle/logic/antt-project.json", "--logic-built", f"{kit}/logic_built"]
        words += ["--crate-type", "staticlib"] if self.is_static else []
        # All of a crate of tests is read with its tests only.
        words += ["--test"] if self.name.endswith("_tests") else []
        return [*words, "--jobs", "1", "--links", f"{self.name}="]


def listed() -> dict[str, Crate]:
    """The crates by name, as crates.txt lists them."""
    rows = [it.partition("#")[0].partition(":") for it in (TOP / "crates.txt").read_text().splitlines()]
    named = [(head.split(), tuple(uses.split())) for head, _, uses in rows if head.strip()]
    return {name: Crate(name, "staticlib" in kind, uses) for (name, *kind), uses in named}


CRATES = listed()


def function_at(text: str, at: int) -> tuple[str, ...] | None:
    """The end of the name by which a check prints the function around this place, if there is one."""
    rows = (text[:at] + text[at:].partition("\n")[0]).split("\n")
    depth, name = len(rows[-1]) - len(rows[-1].lstrip()), ""
    for row in reversed(rows):
        found = FUNCTION.match(row)
        if found and not name and (len(found[1]) < depth or row is rows[-1]):
            name, depth = found[2], len(found[1])
            if depth == 0:
                return (name,)
        if name and row and not row[0].isspace():
            impl, impl_at, trait = IMPL.match(row), IMPL_AT.match(row), TRAIT.match(row)
            conversion = CONVERSION.match(row)
            if conversion:
                return f"{conversion[2]}From{conversion[1]}", name
            if impl_at:
                return f"{impl_at[1]}+{impl_at[2]}", name
            if impl:
                over = OVER.match(row)
                return impl[2] + (over[1] if over else "") + (impl[1] or "").rpartition("::")[2], name
            if trait:
                return trait[1], name
    return None


def end_of(path: str, text: str, at: int) -> str | None:
    """The same, after the module of a function that is in no type; `path` is the file's, from the crate's folder."""
    found = function_at(text, at)
    return "::".join(found if len(found) == 2 else [*modules_of(path)[-1:], *found]) if found else None


def modules_of(path: str) -> list[str]:
    """The modules that a file of src stands for."""
    return [it for it in path.removeprefix("src/").removesuffix(".rt").split("/") if it not in ("lib", "main", "mod")]


@functools.cache
def calls_of(crate: Crate) -> dict[str, set[str]]:
    """The calls in each function, by the ends of the functions' names: `name`, `Type::name`, or `.name` of any type."""
    found: dict[str, set[str]] = collections.defaultdict(set)
    for text in (it.read_text() for it in sorted((crate.folder / "src").rglob("*.rt"))):
        around = name = ""
        for row in text.split("\n"):
            if row and not row[0].isspace() and (impl := IMPL.match(row) or TRAIT.match(row)):
                around = impl[impl.re.groups]
            if begun := FUNCTION.match(row):
                name = f"{around}::{begun[2]}" if begun[1] else begun[2]
            else:
                found[name].update(it.replace("Self::", f"{around}::") for it in CALL.findall(row))
    return found


@functools.cache
def below(crate: Crate, name: str) -> set[str]:
    """The functions that this one may call, itself or through others, by the ends of their names."""
    calls, found, new = calls_of(crate), set(), {name}
    while new:
        said = set().union(*(calls[it] for it in new))
        found, new = found | new, {it for it in calls if it in said or "::" in it and f".{it.rpartition('::')[2]}" in said} - found - new
    return found - {name}


class Unfit(Exception):
    """Why an edit cannot be tried."""


def pairs_of(text: str) -> list[tuple[str, str, str]]:
    """The changes that an edit makes, each as its file, its old text and its new text. Unfit where it is not written as it has to be."""
    pairs: list[tuple[str, str, str]] = []
    path = old = ""
    for number, line in enumerate(text.removesuffix("\n").split("\n"), 1):
        if line.startswith("file: ") and not old:
            path = line[6:].strip()
        elif line.startswith("old: ") and path and not old:
            old = line[5:]
        elif line.startswith("new:") and old:
            pairs.append((path, old, line[4:].removeprefix(" ")))
            old = ""
        else:
            raise Unfit(f"line {number}: expected `{'new: TEXT' if old else 'old: TEXT' if path else 'file: PATH'}`, and each text is one line")
    if old or not pairs:
        raise Unfit(f"it ends without `{'new: TEXT' if old else 'old: TEXT' if path else 'file: PATH'}`")
    return pairs


class Edit:
    """A wrong body: the old text, its place, and the new text."""

    def __init__(self, crate: Crate, file: pathlib.Path) -> None:
        self.crate, self.file, self.name = crate, file, f"{crate.name}/{file.name}"
        # Whether the gate tries it each time.
        self.is_always = file.parent == crate.folder / ALWAYS
        # Whether a check that it shared gave no result for it.
        self.was_hidden = False

    @property
    def path(self) -> str:
        """Its file, from the repository's top."""
        return str(self.file.relative_to(TOP))

    @functools.cached_property
    def pairs(self) -> list[tuple[str, str, str]]:
        """Its changes; Unfit where it is not written as an edit has to be."""
        return pairs_of(self.file.read_text())

    def text_of(self, path: str) -> str:
        """A file of its crate as it is; Unfit where there is none."""
        try:
            return (self.crate.folder / path).read_text()
        except OSError as why:
            raise Unfit(f"{path}: {why.strerror}") from why

    def applied(self, texts: dict[str, str]) -> dict[str, str]:
        """These texts, and those of the crate's own that it changes, with the edit made."""
        texts = dict(texts)
        for path, old, new in self.pairs:
            text = texts.get(path) or self.text_of(path)
            if text.count(old) != 1:
                raise Unfit(f"its old text stands in {path} {text.count(old)} times, and not once")
            texts[path] = text.replace(old, new)
        return texts

    @functools.cached_property
    def functions(self) -> set[str]:
        """The ends of the names of the functions that it changes."""
        found, texts = set(), {}
        for path, old, new in self.pairs:
            text = texts.get(path) or self.text_of(path)
            end = end_of(path, text, text.index(old))
            if not end:
                raise Unfit("it changes what is in no function, so no check of functions judges it")
            found.add(end)
            texts[path] = text.replace(old, new)
        return found

    def is_hidden_by(self, other: "Edit") -> bool:
        """Whether a check gave no result for it, and a function that it changes may call one that the other changes."""
        if not self.was_hidden:
            return False
        ends = [{end if end[0].isupper() else end.rpartition("::")[2] for end in it.functions} for it in (self, other)]
        return any(below(self.crate, end) & ends[1] for end in ends[0])

    def turn(self, parts: int) -> int:
        """The part that it is in."""
        return zlib.crc32(self.name.encode()) % parts


def edits_in(crate: Crate, folder: str) -> list[Edit]:
    """The wrong bodies of a crate in one of the folders that it has for them."""
    return [Edit(crate, it) for it in sorted((crate.folder / folder).glob("*.edit"))]


@dataclasses.dataclass
class Tally:
    """The results of a crate's edits, and the cost of their checks. `done` is the file that names what was refused, if there is one."""

    done: pathlib.Path | None = None
    refused: int = 0
    passed: list[str] = dataclasses.field(default_factory=list)
    unfit: list[str] = dataclasses.field(default_factory=list)
    checks: int = 0
    seconds: float = 0.0


def judged(words: list[str], room: str, names: list[str]) -> tuple[bool, str, float]:
    """Runs a check in a folder, up to the lines of these functions, since what comes after them is advice: whether it judges them, its output,
    and the seconds of processor time that it took."""
    said, stages = pathlib.Path(room, "said"), pathlib.Path(room, "stages")

    def has_judged() -> bool:
        if not (stages.exists() and "\nstage lines " in stages.read_text()):
            return False
        text = said.read_text(errors="replace")
        return all(re.search(rf"^fn \S+::{re.escape(it)}: ", text, re.M) for it in names)

    with said.open("w") as out:
        whole = [f"{toolchain()}/bin/rattle", "check", *words, "--stage-times", str(stages)]
        started, is_over = subprocess.Popen(whole, cwd=room, stdin=subprocess.DEVNULL, stdout=out, stderr=subprocess.STDOUT), False
        while not (ended := os.wait4(started.pid, os.WNOHANG))[0]:
            time.sleep(0.1)
            if not is_over and has_judged():
                is_over = True
                # (Popen's own call would reap a check that has just ended)
                os.kill(started.pid, signal.SIGTERM)
    started.returncode = os.waitstatus_to_exitcode(ended[1])
    text = said.read_text(errors="replace")
    is_whole = started.returncode in (0, 1) and text.rstrip("\n").rpartition("\n")[2].startswith("only=")
    return is_whole or is_over, text, ended[2].ru_utime + ended[2].ru_stime


def refused_of(crate: Crate, edits: list[Edit], tally: Tally, kept: str | None) -> dict[Edit, str] | None:
    """Tries these edits in one check, over what checks kept in that folder, if there is one. Those that are refused, each with what was
    said of it, or None where nothing was judged."""
    names, texts = sorted(set().union(*(it.functions for it in edits))), functools.reduce(lambda texts, it: it.applied(texts), edits, {})
    with tempfile.TemporaryDirectory(prefix="planted-") as room:
        for part in (it for it in ("src", "specs", "proofs") if (crate.folder / it).is_dir()):
            shutil.copytree(crate.folder / part, f"{room}/{part}")
        for path, text in texts.items():
            pathlib.Path(room, path).write_text(text)
        if kept:
            leave_out(crate, pathlib.Path(room), set(names))
        only = [word for name in names for word in ("--only", name)]
        over = ["--incremental", kept, "--allow-holes"] if kept else []
        is_judged, said, seconds = judged([*crate.words(), *over, *only], room, names)
    tally.checks, tally.seconds = tally.checks + 1, tally.seconds + seconds
    found = {it: why for it in edits for name, why in own_causes(said).items() if any(name.endswith(f"::{end}") for end in it.functions)}
    last = said.rstrip("\n").rpartition("\n")[2]
    shown = f"{len(edits)} tried, {len(found)} refused" if is_judged else f"{len(edits)} tried, nothing judged: {last[:200]}"
    say(f"{crate.name}: check {tally.checks}: {shown}, {seconds:.0f} s", *(f"{it.name}: refused: {why[:160]}" for it, why in found.items() if is_judged))
    return found if is_judged else None


def together(edits: list[Edit], most: int) -> list[Edit]:
    """As many of these edits as one check can tell apart: each changes other functions, and no text that another changes."""
    chosen: list[Edit] = []
    texts: dict[str, str] = {}
    for it in edits:
        if len(chosen) == most:
            break
        if any(it.functions & other.functions or it.is_hidden_by(other) or other.is_hidden_by(it) for other in chosen):
            continue
        try:
            texts = it.applied(texts)
        except Unfit:
            continue
        chosen.append(it)
    return chosen


def own_causes(said: str) -> dict[str, str]:
    """What a check prints for each function that has no proof for its own cause: a goal of its own is open, or all that it calls have one."""
    unproved = {it[1]: it[0] for it in UNPROVED.finditer(said)}

    def is_own(name: str, row: str) -> bool:
        crate, _, path = name.partition("::")
        if not NAMES_OTHERS.search(row) or "did not prove" in row or f"`Rattle.{crate}.proofs.{path.replace('::', '.')}." in row:
            return True
        return not any(f"`{other}`" in row for other in unproved if other != name)

    return {name: row for name, row in unproved.items() if is_own(name, row)}


def leave_out(crate: Crate, room: pathlib.Path, kept: set[str]) -> None:
    """Leaves out, in a copy of a crate, the bodies of all functions but these, and the proofs of the others: a check proves none of them."""
    for file in sorted((room / "src").rglob("*.rt")):
        path, text = str(file.relative_to(room)), file.read_text()
        impls = [it for it in IMPLS.finditer(text) if CONVERSION.match(it[0]) or not OTHERWISE_NAMED.match(it[0])]
        places = [it.span() for it in OF_FILE.finditer(text)]
        places += [(found.start() + it.start(), found.start() + it.end()) for found in impls for it in OF_IMPL.finditer(found[0])]
        for start, end in sorted(places, reverse=True):
            if end_of(path, text, start) in kept:
                continue
            name = proof_of(crate, path, text, start)
            proof = room.joinpath("proofs", *name)
            for part in ("Answers", "Invariants"):
                (proof / f"{part}.antt").unlink(missing_ok=True)
            proof.mkdir(parents=True, exist_ok=True)
            (proof / "Proof.antt").write_text(LEFT_OUT.format(module=".".join([crate.name, "proofs", *name]), name=name[-1]))
            if not text[start:end].endswith("{}"):
                text = text[:start] + without_body(text[start:end]) + text[end:]
        file.write_text(text)


@functools.cache
def types_in(crate: Crate) -> dict[str, list[str]]:
    """The modules of each type of a crate."""
    files = [(it, str(it.relative_to(crate.folder))) for it in sorted((crate.folder / "src").rglob("*.rt"))]
    return {found[1]: modules_of(path) for file, path in files for found in TYPE.finditer(file.read_text())}


def proof_of(crate: Crate, path: str, text: str, at: int) -> list[str]:
    """The folder of proofs for the function here: by its type's module, or by its own where it is of no type, or of a trait's impl."""
    name = function_at(text, at)
    return [*types_in(crate).get(name[0], modules_of(path)), *name] if len(name) == 2 else [*modules_of(path), *name]


def without_body(text: str) -> str:
    """A function with a body that only has to compile."""
    rows = text.split("\n")
    indent = rows[-1][:-1]
    opens = next((k for k, row in enumerate(rows) if row == indent + "{"), None)
    opens = next(k for k, row in enumerate(rows) if row.endswith("{")) if opens is None else opens
    return "\n".join([*rows[: opens + 1], f"{indent}    loop {{}}", rows[-1]])


def fit(edits: list[Edit], tally: Tally) -> list[Edit]:
    """Those that can be tried; prints the others."""
    found = []
    for it in edits:
        try:
            it.applied({})
            found += [it] * bool(it.functions)
        except Unfit as why:
            tally.unfit.append(it.name)
            say(f"{it.name}: NOT TRIED: {why}")
    return found


def note_done(done: pathlib.Path | None, edits: list[Edit]) -> None:
    """Adds the names of edits that were refused to the file of those that are done, if there is one."""
    if done:
        with PRINTING, done.open("a") as file:
            file.writelines(f"{it.path}\n" for it in edits)


def await_proofs(crate: Crate, proved: pathlib.Path) -> None:
    """Waits until the file names all crates below this one."""
    while not {it.name for it in crate.below()} <= set(proved.read_text().split()):
        time.sleep(1)


def try_beside(crate: Crate, edits: list[Edit], most: int, tally: Tally, kept: str | None) -> list[Edit]:
    """Tries these edits, this number to a check. Returns those without a result."""
    again, waiting = [], edits
    while waiting:
        now = together(waiting, most)
        refused = refused_of(crate, now, tally, kept)
        hidden = [it for it in now if it not in (refused or ())]
        for it in hidden:
            it.was_hidden = True
        tally.refused += len(now) - len(hidden)
        note_done(tally.done, [it for it in now if it not in hidden])
        waiting = [it for it in waiting if it not in now]
        if refused:
            waiting += hidden
        elif refused is None or most > 1:
            again += hidden
        else:
            say(f"{now[0].name}: NOT REFUSED")
            tally.passed.append(now[0].name)
    return again


def try_crate(crate: Crate, edits: list[Edit], by: argparse.Namespace) -> Tally:
    """Tries a crate's edits, in as few checks as can tell them apart."""
    tally = Tally(by.done)
    if by.early:
        await_proofs(crate, by.early)
    left = fit(edits, tally)
    with tempfile.TemporaryDirectory(prefix="planted-kept-") as kept:
        if (crate.folder / "out/incremental").is_dir():
            shutil.copytree(crate.folder / "out/incremental", kept, dirs_exist_ok=True)
        for most in () if by.alone else SHARING[:-1]:
            left = try_beside(crate, left, most, tally, kept)
    left = try_beside(crate, left, SHARING[-1], tally, None)
    for it in left:
        say(f"{it.name}: NOT TRIED: its check judged nothing; the edited text has to compile")
    tally.unfit += [it.name for it in left]
    return tally


def git(*words: str) -> str | None:
    """The output of git, or None if it fails."""
    ran = subprocess.run(["git", "-C", str(TOP), *words], capture_output=True, text=True)
    return ran.stdout.strip() if ran.returncode == 0 else None


def changed_since(commit: str) -> tuple[set[str], set[str]]:
    """The crates whose code, definitions or proofs differ from a commit, and the edits that are new or other than there."""
    said = git("diff", "--name-status", "-M", commit, "--", "crates")
    if said is None:
        sys.exit(f"planted: there is no commit {commit} here")
    rows = [row.split("\t") for row in said.splitlines()]
    places = [(row[0], path.split("/")) for row in rows for path in row[1:]]
    crates = {at[1] for _, at in places if len(at) > 3 and at[2] in ("src", "specs", "proofs") and at[1] in CRATES}
    return crates, {f"{at[1]}/{at[-1]}" for how, at in places if how in ("A", "M") and at[-1].endswith(".edit")}


def at_this_commit() -> tuple[int, str | None]:
    """The gate's turn, and the commit whose differences it tries whole, if the history goes back that far."""
    count = git("rev-list", "--count", "--first-parent", "HEAD")
    if count is None or git("rev-parse", "--is-shallow-repository") != "false":
        return int(time.time()) // 86_400 % PARTS, None
    return int(count) % PARTS, git("rev-parse", "-q", "--verify", f"HEAD~{BACK}")


def changed_functions(commit: str) -> dict[str, set[str]]:
    """For each crate the ends of the names of the functions whose text differs from a commit."""
    said = git("diff", "-U0", "--no-renames", commit, "--", "crates/*/src/*.rt") or ""
    found: dict[str, set[str]] = collections.defaultdict(set)
    crate, path, text = "", "", ""
    for row in said.splitlines():
        if row.startswith("+++ "):
            at = row[4:].removeprefix("b/").split("/")
            is_there = row[4:] != "/dev/null" and at[1] in CRATES
            crate, path, text = (at[1], "/".join(at[2:]), (TOP / "/".join(at)).read_text()) if is_there else ("", "", "")
        hunk = re.match(r"@@ -\S+ \+(\d+)(?:,(\d+))? @@", row)
        if hunk and crate:
            starts = [0, *itertools.accumulate(len(it) + 1 for it in text.split("\n"))]
            for line in range(int(hunk[1]) - 1, int(hunk[1]) - 1 + max(1, int(hunk[2] or 1))):
                end = end_of(path, text, starts[max(0, line)]) if line < len(starts) else None
                found[crate] |= {end} if end else set()
    return found


def all_edits(folders: Iterable[str]) -> list[Edit]:
    """The wrong bodies of all crates in these of their folders."""
    return [it for crate in CRATES.values() for name in folders for it in edits_in(crate, name)]


def asked() -> argparse.Namespace:
    """The arguments of the command line."""
    words = argparse.ArgumentParser(usage=__doc__, add_help=False)
    words.add_argument("--jobs", type=int, default=0)
    words.add_argument("--alone", action="store_true")
    words.add_argument("--must-fail", action="store_true")
    words.add_argument("--since")
    words.add_argument("--part", type=int, nargs=2)
    words.add_argument("--most", type=int)
    words.add_argument("--gate", action="store_true")
    words.add_argument("--early", type=pathlib.Path)
    words.add_argument("--done", type=pathlib.Path)
    words.add_argument("--count", action="store_true")
    words.add_argument("crates", nargs="*")
    by = words.parse_args()
    by.files = [pathlib.Path(it).resolve() for it in by.crates if it.endswith(".edit")]
    by.crates = [it for it in by.crates if not it.endswith(".edit")]
    unknown = [it for it in by.crates if it not in CRATES]
    if unknown:
        words.error(f"crates.txt lists no crate {unknown[0]}")
    astray = [it for it in by.files if it not in {edit.file for edit in all_edits(FOLDERS)}]
    if astray:
        words.error(f"{astray[0]} is no file of a crate's {', '.join(FOLDERS)}")
    return by


def ends_of(edit: Edit) -> set[str]:
    """The ends of the names of the functions that an edit changes; none where it cannot be tried."""
    try:
        return edit.functions
    except (Unfit, ValueError):
        return set()


def of_the_gate(edits: list[Edit]) -> tuple[list[Edit], int]:
    """The edits that the gate tries at this commit, the ones that matter most first, and how many are left for another time."""
    turn, since = at_this_commit()
    news, changed = (changed_since(since)[1], changed_functions(since)) if since else (set(), {})
    ranks = (
        lambda it: it.is_always,
        lambda it: it.turn(PARTS) == turn,
        lambda it: it.name in news,
        lambda it: bool(ends_of(it) & changed.get(it.crate.name, set())),
        lambda it: it.turn(PARTS // 2) == turn % (PARTS // 2),
    )
    ranked = [(next((k for k, is_so in enumerate(ranks) if is_so(it)), len(ranks)), it) for it in edits]
    asked = [it for rank, it in sorted(ranked, key=lambda pair: pair[0]) if rank < len(ranks)]
    return asked[:MOST], len(edits) - len(asked[:MOST])


def chosen(by: argparse.Namespace) -> tuple[list[Edit], int]:
    """The edits to try, and how many are left for another time."""
    if by.files:
        return [it for it in all_edits(FOLDERS) if it.file in by.files], 0
    edits = all_edits([PLANTED, ALWAYS] + [MUST_FAIL] * by.must_fail)
    if by.gate:
        return of_the_gate(edits)
    part, crates, news, most = by.part, set(by.crates), set(), by.most
    if by.since:
        found = changed_since(by.since)
        crates, news = crates | found[0], news | found[1]
    if not (crates or by.since or part):
        crates = set(CRATES)
    turn, parts = part or (0, 1)
    distance = lambda it: (it.turn(parts) - turn) % parts
    first = [it for it in edits if part and distance(it) == 0]
    others = sorted((it for it in edits if it not in first and (it.crate.name in crates or it.name in news)), key=distance)
    return first + others[:most], len(others) - len(others[:most])


def counted(text: str) -> str:
    """The page of wrong bodies, with each crate's counts of today in its table's second to fourth column."""
    rows, sums = [], [0, 0, 0]
    for row in text.split("\n"):
        cells = row.split("|")
        name = cells[1].strip(" `") if len(cells) == 7 else ""
        if name in CRATES:
            counts = [len(edits_in(CRATES[name], folder)) for folder in FOLDERS]
            sums = [so_far + more for so_far, more in zip(sums, counts)]
            row = "|".join([*cells[:2], *(f" {it} " for it in counts), *cells[5:]])
        rows.append("|".join([*cells[:2], *(f" {it} " for it in sums), *cells[5:]]) if name == "all" else row)
    return "\n".join(rows)


def lanes(jobs: int) -> int:
    """How many checks run side by side."""
    memory = os.sysconf("SC_PHYS_PAGES") * os.sysconf("SC_PAGE_SIZE")
    return jobs or max(1, min(len(os.sched_getaffinity(0)), memory // ROOM))


def yield_to_others() -> None:
    """Takes only processors that nothing else wants, also where Linux weighs sessions against each other before processes."""
    os.nice(19)
    with contextlib.suppress(OSError):
        pathlib.Path("/proc/self/autogroup").write_text("19")


def main() -> int:
    by, page = asked(), TOP / "docs/developing/notes/wrong_bodies.md"
    if by.count:
        page.write_text(counted(page.read_text()))
        return 0
    if by.gate and page.read_text() != counted(page.read_text()):
        sys.exit("planted: docs/developing/notes/wrong_bodies.md counts what was there before: run tests/planted.py --count")
    edits, left = chosen(by)
    done = set(by.done.read_text().split()) if by.done and by.done.exists() else set()
    edits, before = [it for it in edits if it.path not in done], len(edits)
    groups: dict[Crate, list[Edit]] = collections.defaultdict(list)
    for it in edits:
        groups[it.crate].append(it)
    lacking = sorted({dep.name for it in groups for dep in it.below() if not dep.library.is_dir()})
    if lacking and not by.early:
        sys.exit(f"planted: no library of {', '.join(lacking)} is built yet: run `rt ci` or `rt all check` at the top of the repository first")
    tasks = sorted(groups.items(), key=lambda it: len(it[0].below()) if by.early else -len(it[1]))
    if by.early:
        yield_to_others()
    with concurrent.futures.ThreadPoolExecutor(lanes(by.jobs)) as pool:
        tallies = list(pool.map(lambda it: try_crate(*it, by), tasks))
    for (crate, tried), it in zip(tasks, tallies):
        said = f"{it.checks} checks, {it.refused} refused, {len(it.passed)} not refused, {len(it.unfit)} not tried, {it.seconds:.0f} s"
        say(f"{crate.name}: {len(tried)} edits, {said}")
    failed, unfit = [[name for it in tallies for name in names(it)] for names in (lambda it: it.passed + it.unfit, lambda it: it.unfit)]
    reported = [f"planted: {sum(it.refused for it in tallies)} refused, {len(failed)} not{': ' * bool(failed)}{' '.join(failed)}"]
    reported += [f"{before - len(edits)} were refused before"] * (before > len(edits))
    reported += [f"{len(unfit)} of them could not be tried"] * bool(unfit) + [f"{left} are left for another time"] * bool(left)
    say("; ".join([*reported, f"{sum(it.seconds for it in tallies):.0f} s of processor time"]))
    return 1 if failed else 0


if __name__ == "__main__":
    sys.exit(main())
