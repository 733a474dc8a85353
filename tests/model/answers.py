"""What a command of `dpv` prints, reports, writes and ends with, given its words and files."""
import os.path
import pathlib
from typing import NamedTuple

from . import captures, counts, heap, pipelines, rules
from .machine import BIGGEST, Env, Input, Pool, Port, World, report, run

LONGEST = pipelines.LONGEST
MAX_NAME = 255
ONE = Env([Pool(64, 0, 2176)], [], [], [Port(0, 1, 32)])


class Answer(NamedTuple):
    """How a command ends. `written` has the captures by name; nothing is said of those that it lacks, nor of any where it is None."""

    status: int
    printed: str
    reported: str
    written: dict[str, bytes] | None = {}
    records: int = 0


class Disk:
    """The files of a folder, as they are before the run; some of them may be known."""

    def __init__(self, folder: pathlib.Path, known: dict[str, bytes] | None = None) -> None:
        self.folder, self.known = str(folder), known or {}

    def path(self, name: str) -> str:
        """Where a file is."""
        return os.path.join(self.folder, name)

    def read(self, name: str) -> bytes | None:
        """The bytes of a file that can be read."""
        if name in self.known:
            return self.known[name]
        try:
            return pathlib.Path(self.path(name)).read_bytes() if name and os.path.exists(self.path(name)) else None
        except (OSError, ValueError):
            return None

    def text(self, name: str) -> bytes | None:
        """The bytes of a text that is not too long."""
        data = self.read(name)
        return data if data is not None and len(data) <= LONGEST else None

    def may_open(self, name: str) -> bool:
        """Whether a capture is opened, be it a folder."""
        return name in self.known or name != "" and os.path.exists(self.path(name))

    def are_same(self, name: str, other: str) -> bool:
        """Whether two names are of one plain file."""
        try:
            return os.path.isfile(self.path(name)) and os.path.samefile(self.path(name), self.path(other))
        except (OSError, ValueError):
            return False

    def are_same_new(self, name: str, other: str) -> bool:
        """Whether two names are of one file that is not there, and would be made in one folder."""
        if os.path.exists(self.path(name)) or os.path.exists(self.path(other)):
            return False
        (folder, last), (other_folder, its) = os.path.split(self.path(name)), os.path.split(self.path(other))
        try:
            return last == its and os.path.samefile(folder or ".", other_folder or ".")
        except (OSError, ValueError):
            return False

    def may_make(self, name: str) -> bool:
        """Whether a capture can be made."""
        folder, last = os.path.split(self.path(name))
        is_name = 1 <= len(last.encode()) <= MAX_NAME and "\0" not in name
        return name != "" and is_name and os.path.isdir(folder) and not os.path.isdir(self.path(name))


def mem(disk: Disk, file: str, said: str) -> Answer:
    """`dpv mem FILE`."""
    script = disk.text(file)
    return Answer(3, "", f"fault: file {file}\n") if script is None else Answer(*heap.answer(script, said))


def loaded(disk: Disk, file: str, inferred: bool, said: str) -> pipelines.Pipeline | Answer:
    """The pipeline of a file; or how the command ends that loads it."""
    text = disk.text(file)
    if text is None:
        return Answer(3, "", f"fault: file {file}\n")
    pipeline = pipelines.load(disk.text, text, inferred, said)
    return Answer(*pipeline) if isinstance(pipeline, pipelines.Fault) else pipeline


def check(disk: Disk, file: str, said: str) -> Answer:
    """`dpv check FILE`."""
    pipeline = loaded(disk, file, False, said)
    if isinstance(pipeline, Answer):
        return pipeline
    return Answer(0, "".join(f"{node.name} accepted\n" for node in pipeline.nodes), "")


def infer(disk: Disk, file: str, which: str, said: str) -> Answer:
    """`dpv infer FILE WHICH`. The certificate of a program with loops is open, as far as it is accepted."""
    kind, place = which[:4], int(which[4:])
    pipeline = loaded(disk, file, True, said)
    if isinstance(pipeline, Answer):
        return pipeline
    ports = len(pipeline.env.ports)
    if place >= (ports if kind == "port" else len(pipeline.env.rings)):
        return Answer(2, "", f"error: the pipeline has no {kind} {place}\n")
    at = place if kind == "port" else ports + place
    program, rows = pipeline.programs[at], pipeline.rows[at]
    if rules.is_forward(program):
        return Answer(0, rules.spelled(rows).decode(), "")
    given = rules.decode(said.encode(), len(program))
    accepted = isinstance(given, list) and rules.check(pipeline.env, program, given, rules.entry_row(pipeline.env, at)) is None
    spelled = accepted and rules.spelled(given).decode() == said
    return Answer(0, said if spelled else "an accepted certificate, spelled as it has to be\n", "")


def clash(ports: list[pipelines.Node], reads: list[str], disk: Disk) -> str | None:
    """The first output that is a file that the run reads, or the output of an earlier port."""
    for k, node in enumerate(ports):
        earlier = [it.writes for it in ports[:k]]
        if any(disk.are_same(node.writes, name) for name in [*reads, *earlier]) or any(disk.are_same_new(node.writes, name) for name in earlier):
            return node.writes
    return None


def unopened(ports: list[pipelines.Node], reads: list[str], disk: Disk) -> str | None:
    """The first capture that cannot be opened or made. Inputs are opened in port order, then no output may be a file that the run reads or that
    another port writes, then outputs are made."""
    bad = next((node.reads for node in ports if not disk.may_open(node.reads)), None) or clash(ports, reads, disk)
    return bad or next((node.writes for node in ports if not disk.may_make(node.writes)), None)


def forward(pipeline: pipelines.Pipeline, disk: Disk, pattern: frozenset[int], file: str | None, is_counted: bool) -> Answer:
    """The run of a pipeline, with its counts if they are requested."""
    world = World(pipeline.env, pipeline.programs, pattern)
    answer = forwarded(world, pipeline, disk, file)
    if not is_counted or not answer.printed:
        return answer
    shown = counts.text(world, pipeline.nodes, [disk.text(node.node) or b"" for node in pipeline.nodes])
    return answer._replace(printed=answer.printed + shown)


def forwarded(world: World, pipeline: pipelines.Pipeline, disk: Disk, file: str | None) -> Answer:
    """The run of a pipeline: once captures are opened and made, the region is taken, and then headers are read. A run that ends before that leaves
    no new file, and an output that was there as it was."""
    ports = pipeline.nodes[: len(pipeline.env.ports)]
    texts = [name for node in pipeline.nodes for name in (node.node, node.cert) if name is not None]
    bad = unopened(ports, [*texts, *(node.reads for node in ports), *([] if file is None else [file])], disk)
    if bad is not None:
        return Answer(3, "", f"fault: file {bad}\n")
    if pipeline.region < pipeline.env.need():
        return Answer(3, report(world, ["open"] * len(ports)), "fault: region\n")
    sources = []
    for k, node in enumerate(ports):
        data = disk.read(node.reads)
        source = captures.Capture(0, [], "8", False) if data is None else captures.read(data)
        if not source.has_header:
            reported = f"fault: input {k} cause {source.ending}\n"
            return Answer(3, report(world, ["open"] * len(ports)), reported)
        sources.append(source)
    nano = any(source.units == 1_000_000_000 for source in sources)
    done = run(world, [Input(source.records, source.ending) for source in sources])
    sent = {node.writes: captures.written(nano, records) for node, records in zip(ports, done.sent)}
    reported = "" if done.fault is None else done.fault + "\n"
    return Answer(3 if reported else 0, done.report, reported, sent, sum(map(len, done.sent)))


def one(disk: Disk, node: str, cert: str, reads: str, writes: str, is_counted: bool) -> Answer:
    """`dpv one NODE CERT IN OUT [--counts]`: a pipeline of one port."""
    port = pipelines.Node("port 0", node, cert, reads, writes)
    loaded = pipelines.node_of(port, ONE, 0, disk.text, "")
    if isinstance(loaded, pipelines.Fault):
        return Answer(*loaded)
    program, rows = loaded
    return forward(pipelines.Pipeline(262_144, ONE, [port], [program], [rows]), disk, frozenset(), None, is_counted)


def pattern_of(text: str) -> frozenset[int] | None:
    """The calls that a list of words names, strictly ascending from 1."""
    words = text.split(",")
    if not all(word.isascii() and word.isdigit() for word in words):
        return None
    numbers = [int(word.lstrip("0")[:40] or "0") for word in words]
    ascending = all(a < b for a, b in zip([0, *numbers], numbers))
    return frozenset(numbers) if ascending and numbers[-1] <= BIGGEST else None


def run_file(disk: Disk, file: str, refuse: str | None, is_counted: bool, said: str) -> Answer | None:
    """`dpv run FILE [--refuse LIST] [--counts]`; nothing if the words are wrong, which is reported in other words."""
    pattern = frozenset() if refuse is None else pattern_of(refuse)
    if pattern is None:
        return None
    pipeline = loaded(disk, file, False, said)
    return pipeline if isinstance(pipeline, Answer) else forward(pipeline, disk, pattern, file, is_counted)


def answer(words: list[str], disk: Disk, said: str) -> Answer | None:
    """How `dpv` ends with these words in this folder, given what it printed if that is open."""
    command, *operands = (word for word in words if word != "--counts")
    is_counted = "--counts" in words
    if command == "one":
        return one(disk, *operands, is_counted)
    if command == "check":
        return check(disk, operands[0], said)
    if command == "infer":
        return infer(disk, *operands, said)
    if command == "mem":
        return mem(disk, operands[0], said)
    return run_file(disk, operands[0], operands[2] if len(operands) > 1 else None, is_counted, said)
