#!/usr/bin/env python3
"""Tests `dpv compile`, which tools/compiled_nodes.py runs, and with --build a program dpv with compiled nodes.

Usage: tests/program/compiled.py [--build] [PROGRAM]   (the built program; by default the one that ./dpv builds and runs)
The module of a program with all 32 instructions has to be modules/all.txt, which was read line by line, to the byte. In those of all examples
the two forms of each program have to be the instructions that tests/model reads from its text. Then the ways of writing a program, programs
that are equal or too long, pipelines in TOML 1.1, and what is printed where there is no module; `dpv compile` is a command of ./dpv as well.
With --build, the module of examples/ttl is built into a program, as by `./dpv --compiled`, once. That program has to write the expected
capture, also if its node program was edited, and then has to report that it is interpreted; if perf or valgrind is installed, a record has to
take at least 150 machine instructions fewer than with an interpreted program. Prints a line for each case that failed or was built, and a
count; exits with 1 if one failed.
"""
import os
import pathlib
import re
import shutil
import subprocess
import sys
import tomllib

import paths  # noqa: F401

import nodes
from command import TOP, new_folder, program_of, report_cases
from model.machine import Number
from model.programs import FORMS, assemble

MODULE = pathlib.Path(__file__).resolve().parent / "modules/all.txt"
WIDTHS = {"One": 1, "Two": 2, "Four": 4, "Eight": 8}
# The least gain of a compiled examples/ttl per record, whatever programs are compiled beside it.
GAIN = 150
# A program of all instructions; what it does to a packet does not matter.
ALL = """ifhead p0,4,drop
iftail p0,4,drop
iflen p0,34,drop
iflast p0,4,drop
prepend p0,4
adj p0,4
append p0,2
trim p0,2
load r1,p0,0,1
load r1,p0,0,8
set r2,18446744073709551615
and r2,7
loadx r3,p0,r2,1,2
storex p0,r2,1,4,r3
store p0,0,2,r3
mov r4,r3
add r4,r3
add r4,1
sub r4,r2
or r4,1
xor r4,r1
shl r4,3
shr r4,63
jeq r4,r1,drop
jeq r4,0,on
jmp drop
on: jlt r4,9,more
jmp drop
more: lookup r5,0,r4,drop
clone p1,p0,0,drop
alloc p2,0,both
append p2,1
chain p1,p2
set r6,0
tx p1,r6,lost
enq p0,0,drop
exit
lost: free p1
drop: free p0
exit
both: free p1
free p0
exit
"""
PIPELINE = """region = 262144
pool = [{count = 16, cache = 0, room = 2176}]
table = [{rules = 1, groups = 1, routes = []}]
ring = [{count = 4, share = 0, head = 4, tail = 0, first = 34, last = 0, segs = 1, node = "ring.dpv"}]
port = [{pool = 0, segs = 1, queue = 4, node = "all.dpv", in = "in.pcap", out = "out.pcap"}]
"""
# A pipeline with two ports, whose node programs have these names.
PORTS = """region = 262144
pool = [{{count = 16, cache = 0, room = 2176}}]
port = [{{pool = 0, segs = 1, queue = 4, node = "{}", in = "in.pcap", out = "out0.pcap"}},
        {{pool = 0, segs = 1, queue = 4, node = "{}", in = "in.pcap", out = "out1.pcap"}}]
"""
# The same in the words of TOML 1.1: inline tables over several lines, with comments and a last comma, and its two new escapes.
NEWER = r"""region = 262144
pool = [{count = 16, # not the end }
  cache = 0, room = 2176, # , }
}]
port = [{pool = 0, segs = 1, queue = 4,
  node = "\x61\e\\e#{,}.dpv", in = 'in.p"#,ap', out = "out.pcap",
  # the last
  }]
"""
NEWER_NODE = "a\x1b\\e#{,}.dpv"
# Ways of writing one program: comments, blanks, labels before and above an instruction, and numbers.
PLAIN = "iflen p0,255,L2\nset r1,10\nL2: free p0\nexit\n"
WAYS = [
    "# a: b\n\tiflen  p0 , 0xfF ,end # p0,r0: x\r\nset r1,\t0x000A\nend:free p0\n \nexit",
    "start: again:iflen p0,000255,_1\nset r1,0010\n_1:\n# free p0\n  Z9: free p0\nexit # the end",
]
PLAIN_TERMS = ["IfLen 0 255 2", "Set 1 10", "Free 0", "Exit"]
PLAIN_CODES = ["Instr::IfLen { packet: PacketRegister::new(0), least: 255, less: 2 }", "Instr::Set { into: NumberRegister::new(1), value: 10 }",
               "Instr::Free { packet: PacketRegister::new(0) }", "Instr::Exit"]
FREE = "free p0\nexit\n"
USAGE = "Usage: dpv compile <FILE>\n"
# Words, the status, the stream that is printed to, and its first line.
WORDS = [
    ([], 2, "error: the following required arguments were not provided:"),
    (["--"], 2, "error: the following required arguments were not provided:"),
    (["two.toml", "more"], 2, "error: unexpected argument 'more' found"),
    (["two.toml", "--", "more"], 2, "error: unexpected argument 'more' found"),
    (["--json", "two.toml"], 2, "error: unexpected argument '--json' found"),
    (["two.toml", "--routes=0=routes.txt"], 2, "error: unexpected argument '--routes' found"),
    (["-U", "two.toml"], 2, "error: unexpected argument '-U' found"),
    (["-Ux", "two.toml"], 2, "error: unexpected argument '-U' found"),
    (["--help"], 0, "Prints the Rattle module with which dpv is built for a pipeline's programs"),
    (["-h"], 0, "Prints the Rattle module with which dpv is built for a pipeline's programs"),
]
# Pipelines for which there is no module: the status, and the first line, on standard output for a refused program.
FAULTS = {
    "refused.toml": (1, "port 1 not inferred at 0 by J6"),
    "not.toml": (3, "fault: pipeline 1 NotToml"),
    "none.toml": (3, "fault: file none.toml"),
    "no_node.toml": (3, "fault: pipeline 5 File port 1"),
    "wrong.toml": (3, "fault: pipeline 6 Asm port 1 line 1 cause 2"),
    "cert.toml": (3, "fault: pipeline 7 BadCert port 0 line 1 cause 1"),
    "other_cert.toml": (1, "port 0 refused at 0 by J11"),
}


class Compiling:
    """The launcher of a built program, in a folder."""

    def __init__(self, program: str, folder: pathlib.Path) -> None:
        self.program, self.folder, self.script = program, folder, folder / "dpv"
        writer = TOP / "tools/compiled_nodes.py"
        self.script.write_text(f'#!/bin/sh\nset -eu\nprogram="{program}" compiled_nodes="{writer}" views="{TOP}/tools/views" version= commit=\n. "{TOP}/tools/launch"\nlaunch "$@"\n')
        self.script.chmod(0o755)

    def run(self, *words: str, cwd: pathlib.Path | None = None) -> tuple[int, str, str]:
        """The status of a command, and what it prints to both streams."""
        run = subprocess.run([str(self.script), *words], cwd=cwd or self.folder, capture_output=True, text=True, timeout=60)
        return run.returncode, run.stdout, run.stderr

    def write(self, **texts: str) -> None:
        """Writes node programs, by their names."""
        for name, text in texts.items():
            (self.folder / f"{name}.dpv").write_text(text, newline="")

    def module(self, *names: str) -> str:
        """The module of a pipeline with two ports, whose programs have these names; what else happened if there is none."""
        (self.folder / "ports.toml").write_text(PORTS.format(*(f"{name}.dpv" for name in names)))
        status, out, err = self.run("compile", "ports.toml")
        return out if (status, err) == (0, "") else f"status {status}, {err}"

    def is_golden(self) -> bool:
        """Whether the module with all instructions is the stored one."""
        self.write(all=ALL, ring=FREE)
        (self.folder / "all.toml").write_text(PIPELINE)
        return self.run("compile", "all.toml") == (0, MODULE.read_text(), "")

    def is_written(self, way: str) -> bool:
        """Whether a way of writing a program has the same module as the plain one, with these instructions."""
        self.write(plain=PLAIN, way=way)
        module = self.module("way", "plain")
        return module == self.module("plain", "plain") and bodies(module) == [(PLAIN_TERMS, PLAIN_CODES)]

    def are_kept(self) -> list[bool]:
        """Whether equal and too long programs are left out, and different ones are in the order of the ports."""
        self.write(free=FREE, same="x: free p0 # as the other\nexit", most=long_program(256), more=long_program(257))
        lens = {names: re.findall(r"^/// A program of (\d+) instructions\.$", self.module(*names), re.M) for names in
                (("free", "same"), ("free", "most"), ("most", "free"), ("more", "free"), ("more", "more"), ("most", "more"))}
        wanted = [["2"], ["2", "256"], ["256", "2"], ["2"], [], ["256"]]
        lists = [self.module("more", "more"), self.module("free", "same"), self.module("most", "free")]
        types = ["Nothing", "Also<Program0, Nothing>", "Also<Program0, Also<Program1, Nothing>>"]
        are_listed = [text.endswith(f"\n/// All of them.\npub type Programs = {it};\n") for text, it in zip(lists, types)]
        return [found == its for found, its in zip(lens.values(), wanted)] + are_listed

    def is_newer(self) -> bool:
        """Whether a pipeline in TOML 1.1 is read, also with carriage returns."""
        (self.folder / NEWER_NODE).write_text(PLAIN)
        found = []
        for name, text in {"newer.toml": NEWER, "returns.toml": NEWER.replace("\n", "\r\n")}.items():
            (self.folder / name).write_text(text, newline="")
            found.append(self.run("compile", name))
        return found[0] == found[1] and found[0][0] == 0 and bodies(found[0][1]) == [(PLAIN_TERMS, PLAIN_CODES)]

    def says(self, words: list[str], status: int, line: str) -> bool:
        """Whether words end so, with this line first on standard error, or on standard output with status 0."""
        ended, out, err = self.run("compile", *words)
        shown, silent = (out, err) if status == 0 else (err, out)
        return ended == status and silent == "" and shown.startswith(f"{line}\n") and f"\n{USAGE}" in shown

    def make_faults(self) -> None:
        """Makes the pipelines without a module. The certificate other.cert is one of another program of three instructions."""
        self.write(free=FREE, cuts="adj p0,14\nfree p0\nexit\n", wrong="foo p0\n", first="free p0\njmp end\nend: exit\n", last="jmp end\nend: free p0\nexit\n")
        for name, node in {"refused": "cuts", "no_node": "nothing", "wrong": "wrong"}.items():
            (self.folder / f"{name}.toml").write_text(PORTS.format("free.dpv", f"{node}.dpv"))
        (self.folder / "not.toml").write_text("region = = 3\n")
        (self.folder / "cert.cert").write_text("no certificate\n")
        (self.folder / "other_cert.cert").write_text(self.run("infer-one", "last.dpv")[1])
        for name in ("cert", "other_cert"):
            (self.folder / f"{name}.toml").write_text(PORTS.format(f'first.dpv", cert = "{name}.cert', "free.dpv"))

    def is_checked(self, name: str, status: int, line: str) -> bool:
        """Whether a pipeline has no module, with this status and first line; what is printed is what `dpv check` prints."""
        found = self.run("compile", name)
        shown = found[1] if status == 1 else found[2]
        return found == self.run("check", name) and found[0] == status and shown.startswith(f"{line}\n")

    def is_heard(self) -> bool:
        """Whether a module that cannot be written ends with status 3, and says so."""
        with open("/dev/full", "w") as full:
            run = subprocess.run([str(self.script), "compile", "all.toml"], cwd=self.folder, stdout=full, stderr=subprocess.PIPE, text=True, timeout=60)
        return (run.returncode, run.stderr) == (3, "fault: standard output cannot be written\n")

    def reads(self) -> list[bool]:
        """Whether a pipeline file may begin with a dash, `-` is a file of that name, and a program that is read from a pipe is a fault."""
        self.write(free=FREE)
        for name in ("-x.toml", "-"):
            (self.folder / name).write_text(PORTS.format("free.dpv", "free.dpv"))
        (self.folder / "piped.toml").write_text(PORTS.format("/dev/stdin", "free.dpv"))
        run = subprocess.run([str(self.script), "compile", "piped.toml"], cwd=self.folder, input=FREE, capture_output=True, text=True, timeout=60)
        fault = "fault: file /dev/stdin\n  because: it is read twice, so it has to be a plain file\n"
        module = self.module("free", "free")
        return [self.run("compile", "--", "-x.toml") == self.run("compile", "-") == (0, module, ""), (run.returncode, run.stdout, run.stderr) == (3, "", fault)]

    def helps(self) -> list[bool]:
        """Whether help has the command: that of the launcher, and that of ./dpv, which then builds nothing and needs no toolchain."""
        shown, around = self.run("compile", "--help"), os.environ | {"PATH": f"{pathlib.Path(sys.executable).parent}:/usr/bin:/bin"}
        ways = (["compile", "--help"], ["compile", "-h"], ["help", "compile"])
        runs = [subprocess.run([str(TOP / "dpv"), *words], env=around, capture_output=True, text=True, timeout=60) for words in ways]
        of_launcher = [self.run("help", "compile") == shown, "\n  compile FILE " in self.run("help")[1]]
        return of_launcher + [(it.returncode, it.stdout, it.stderr) == shown for it in runs]


def long_program(count: int) -> str:
    """A program of this many instructions."""
    return "set r1,7\n" * (count - 2) + FREE


def bodies(module: str) -> list[tuple[list[str], list[str]]]:
    """The programs of a module: the terms of each, and its instructions as code, whose labels have to count from 0."""
    found = []
    for text in module.split("\npub struct ")[1:]:
        terms = re.findall(r"^        (.*) ∷$", text, re.M)
        codes = re.findall(r"^            (\d+) => (.*),$", text, re.M)
        counts_on = [int(label) for label, _ in codes] == list(range(len(terms))) and f"\n        {len(terms)}\n" in text
        found.append((terms, [code for _, code in codes] if counts_on else []))
    return found


def term_of(word: str, args: tuple[int, ...]) -> str:
    """An instruction of tests/model as a term, with its word in small letters."""
    names = {number: name for name, number in WIDTHS.items()}
    shown = {"w": lambda it: names[it], "x": lambda it: f"({'Register' if isinstance(it, Number) else 'Constant'} {int(it)})"}
    return " ".join([word, *(shown.get(kind, lambda it: str(int(it)))(arg) for kind, arg in zip(FORMS[word], args))])


def term_in(code: str) -> str:
    """An instruction as code as a term, with its word in small letters."""
    values = re.findall(r": (?:(?:Packet|Number)Register::new\((\d+)\)|Width::(\w+)|Operand::(\w+)\((?:NumberRegister::new\()?(\d+)\)?\)|(\d+))", code)
    word = re.match(r"Instr::(\w+)", code)[1].lower()
    return " ".join([word, *(f"({kind} {of})" if kind else register or width or number for register, width, kind, of, number in values)])


def lowered(term: str) -> str:
    """A term with its first word in small letters."""
    word, *rest = term.split(" ", 1)
    return " ".join([word.lower(), *rest])


def is_of_model(compiling: Compiling, pipeline: pathlib.Path) -> bool:
    """Whether both forms of each program in the module of a pipeline are the instructions that tests/model reads, each program once."""
    setup, wanted = tomllib.loads(pipeline.read_text()), []
    for node in [*setup["port"], *setup.get("ring", [])]:
        terms = [term_of(word, args) for word, args in assemble((pipeline.parent / node["node"]).read_bytes())]
        wanted += [terms] if terms not in wanted and len(terms) <= 256 else []
    status, out, err = compiling.run("compile", pipeline.name, cwd=pipeline.parent)
    found = bodies(out)
    return (status, err) == (0, "") and [[lowered(it) for it in terms] for terms, _ in found] == wanted == [list(map(term_in, codes)) for _, codes in found]


def examples(folder: pathlib.Path) -> list[pathlib.Path]:
    """The pipelines of the examples, in a copy of them."""
    shutil.copytree(TOP / "examples", folder / "examples")
    return [it for it in sorted((folder / "examples").glob("*/*.toml")) if it.parent.name != "refused"]


def cases(compiling: Compiling, folder: pathlib.Path) -> list[tuple[str, bool]]:
    """Each case with its name, and whether it passed."""
    found = [("all instructions", compiling.is_golden()), ("TOML 1.1", compiling.is_newer()), ("a full disk", compiling.is_heard())]
    found += [(f"way {k}", compiling.is_written(way)) for k, way in enumerate(WAYS)]
    found += [(f"programs left out {k}", it) for k, it in enumerate(compiling.are_kept())]
    found += [(f"{it.parent.name}/{it.name}", is_of_model(compiling, it)) for it in examples(folder)]
    found += [(f"files {k}", it) for k, it in enumerate(compiling.reads())]
    found += [(f"words {words}", compiling.says(words, status, line)) for words, status, line in WORDS]
    compiling.make_faults()
    found += [(name, compiling.is_checked(name, *it)) for name, it in FAULTS.items()]
    return found + [(f"help {k}", it) for k, it in enumerate(compiling.helps())]


def is_run(program: str, pipeline: pathlib.Path, reported: str) -> bool:
    """Whether a run writes the expected capture, and this on standard error."""
    run = subprocess.run([program, "run", pipeline.name], cwd=pipeline.parent, capture_output=True, text=True, timeout=60)
    setup = tomllib.loads(pipeline.read_text())
    written = (pipeline.parent / setup["port"][0]["out"]).read_bytes()
    passed = (run.returncode, run.stderr) == (0, reported) and written == (pipeline.parent / "expected.pcap").read_bytes()
    print(f"{pipeline.parent.name}{', ' + reported.strip() if reported else ''}: {'as expected' if passed else f'status {run.returncode}, {run.stderr!r}, not as expected'}")
    return passed


def is_fast(program: str, made: str, pipeline: pathlib.Path, gain: int) -> bool:
    """Whether a record takes at least `gain` machine instructions fewer with the compiled program; skipped if none can be counted."""
    if not shutil.which("perf") and not shutil.which("valgrind"):
        print("no instructions are counted: neither perf nor valgrind is installed")
        return True
    port = tomllib.loads(pipeline.read_text())["port"][0]
    source = {port["in"]: (pipeline.parent / port["in"]).read_bytes()}
    each = [nodes.counted([it, "run", pipeline.name], pipeline.parent, source, [port["out"]]).each for it in (program, made)]
    passed = each[0] - each[1] >= gain
    print(f"a record of {pipeline.parent.name} takes {each[0]:.0f} machine instructions, compiled {each[1]:.0f}{'' if passed else f', and not {gain} fewer'}")
    return passed


def does_the_same(program: str, made: str, pipeline: pathlib.Path, gain: int) -> list[bool]:
    """Whether a program with this pipeline's node program compiled does the same, faster by this gain, and reports what it interprets."""
    passed = [is_run(made, pipeline, ""), is_fast(program, made, pipeline, gain)]
    node = pipeline.parent / tomllib.loads(pipeline.read_text())["port"][0]["node"]
    node.write_text(node.read_text() + "exit\n")
    shutil.copy(TOP / "examples" / pipeline.parent.name / "in.pcap", pipeline.parent / "in.pcap")
    return [*passed, is_run(made, pipeline, "note: port 0 is not compiled: its program is interpreted\n")]


def main() -> int:
    """All of it."""
    words = [it for it in sys.argv[1:] if it != "--build"]
    program = program_of(words[0] if words else None)
    with new_folder() as folder:
        found = cases(Compiling(program, folder), folder)
        for name in (name for name, passed in found if not passed):
            print(f"compiled: {name} is not as expected")
        passed = [it for _, it in found]
        if len(words) < len(sys.argv) - 1:
            pipeline = folder / "examples" / "ttl" / "ttl.toml"
            passed += does_the_same(program, nodes.with_machine_code(program, pipeline), pipeline, GAIN)
    return report_cases("compiled", passed)


if __name__ == "__main__":
    sys.exit(main())
