"""Makes the cases of tests/random/fuzz.py. Everything comes from a random generator, so the same seed makes the same case.

writer.py    programs that are accepted, and the rows that they are accepted with
programs.py  programs by the grammar alone, changes to programs, and texts of them
certs.py     certificates, and changes to them
pipelines.py pipelines with all their files
toml.py      texts of pipeline files
captures.py  captures
heap.py      heap scripts
noise.py     changed bytes
"""
from collections.abc import Callable
from dataclasses import dataclass, field
from random import Random

from model import rules
from model.answers import ONE
from model.machine import BIGGEST
from model.programs import assemble

from .captures import capture
from .certs import changed_rows
from .heap import heap_script
from .noise import changed_bytes
from .pipelines import Parts, node_files, pipeline_files
from .programs import changed_text


@dataclass
class Case:
    """Files, and the words after `dpv` that run in their folder."""

    kind: str
    words: list[str]
    files: dict[str, bytes]
    folders: list[str] = field(default_factory=list)


# Makes cases that share their programs: the same files but for captures and words, or but for one program or certificate.
Family = Callable[[Random], Case]


def make_one(rng: Random) -> Family:
    """`dpv one`, on other captures."""
    parts = Parts({}, ONE, {})
    names = node_files(rng, parts, 0, rng.random() < 0.7)
    if "cert" not in names:
        names["cert"] = "c0"
        code = assemble(parts.files.get("n0", b""))
        rows = rules.infer(ONE, code, rules.entry_row(ONE, 0)) if isinstance(code, list) else None
        parts.files["c0"] = rules.spelled(rows or [None])
    words = ["one", names["node"], names["cert"], "i0", "o0"]
    return lambda rng: Case("one", words + counted(rng), {**parts.files, "i0": capture(rng, ONE, 24, rng.random() < 0.7)}, ["folder"])


def make_check(rng: Random) -> Family:
    """`dpv check`, with a changed file now and then."""
    files = pipeline_files(rng, rng.random() < 0.5).files
    return lambda rng: Case("check", ["check", "it.toml"], changed_files(rng, files), ["folder"])


def make_infer(rng: Random) -> Family:
    """`dpv infer`, of other nodes."""
    parts = pipeline_files(rng, rng.random() < 0.6)
    which = lambda rng: rng.choice(("port",) * 4 + ("ring",)) + str(rng.choice((0,) * 9 + (1, 1, 2, 9)))
    return lambda rng: Case("infer", ["infer", "it.toml", which(rng)], parts.files, ["folder"])


def make_mem(_rng: Random) -> Family:
    """`dpv mem`."""
    return lambda rng: Case("mem", ["mem", "script"], {"script": heap_script(rng)})


def make_run(rng: Random) -> Family:
    """`dpv run`, on other captures and with other calls refused."""
    sound = rng.random() < 0.75
    parts = pipeline_files(rng, sound)

    def case(rng: Random) -> Case:
        files, words = dict(parts.files), ["run", "it.toml"]
        for k in range(len(parts.env.ports)):
            if rng.random() < (1 if sound else 0.97):
                files[f"i{k}"] = capture(rng, parts.env, 10, rng.random() < 0.85)
        if rng.random() < 0.5:
            calls = sorted(rng.sample(range(1, 40), rng.choice((1, 2, 5, 20))))
            text = ",".join(map(str, calls))
            words += ["--refuse", text if rng.random() < 0.95 else changed_list(rng, text)]
        return Case("run", words + counted(rng), files, ["folder"])

    return case


def counted(rng: Random) -> list[str]:
    """The word by which a third of the runs print their counts."""
    return ["--counts"] if rng.random() < 0.33 else []


def changed_files(rng: Random, files: dict[str, bytes]) -> dict[str, bytes]:
    """The files of a pipeline, of which a program or a certificate may be changed."""
    name = rng.choice([name for name in files if name[0] in "nc"] or ["none"])
    if name == "none" or rng.random() < 0.2:
        return files
    rows = rules.decode(files[name], files[name].count(b"\n") - 1) if name[0] == "c" else ()
    if isinstance(rows, list) and rows and rng.random() < 0.8:
        return {**files, name: rules.spelled(changed_rows(rng, rows))}
    return {**files, name: changed_text(rng, files[name]) if name[0] == "n" else changed_bytes(rng, files[name])}


def changed_list(rng: Random, text: str) -> str:
    """A list of calls that may be none."""
    wrong = (text + ",", "," + text, text + ",1", "0," + text, text + " ", str(BIGGEST + 1), "", "1,1", "+1", "1,,2", "0x1")
    return rng.choice((*wrong, str(BIGGEST), "01", f"1,{BIGGEST}"))


MAKERS: dict[str, Callable[[Random], Family]] = {
    "one": make_one,
    "check": make_check,
    "infer": make_infer,
    "mem": make_mem,
    "run": make_run,
}
