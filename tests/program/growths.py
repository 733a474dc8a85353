#!/usr/bin/env python3
"""Runs each command of the built program dpv with each of its allocations refused in turn.

Usage: tests/program/growths.py [PROGRAM]   (the built program; by default the one that ./dpv builds and runs; some seconds)
The pipeline has a part of each kind, so that each allocating call is made: texts of programs and certificates are read, certificates are
inferred and written, programs are printed, tables are made and filled, an engine is opened, captures are read and written. Some commands
end with a refused program or a fault of a file; with a refused allocation they either end in the same way or report the lack of memory.
tests/program/allocations.py does the same with the examples. Prints a line for each command, and exits with 1 if one failed.
"""
import pathlib
import sys

import paths  # noqa: F401

from allocations import Ended, shim_in
from command import asked, fixed, new_folder, said_bytes
from faults import capture
from model import answers, rules
from model.machine import Env, Pool, Port, Ring
from model.programs import assemble

COUNTING = "set r1,0\na: add r1,1 # count rounds: of each packet\njlt r1,200,a\ntx p0,r0,e\nexit\ne: free p0\nexit\n"
LOOKING = "lookup r2,0,r1,d\nd: free p0\nexit\n"
COPYING = "clone p1,p0,1,d\nfree p1\niflen p0,1,d\nset r1,7\nstore p0,0,1,r1\nd: enq p0,0,e\nexit\ne: free p0\nexit\n"
SENDING = "set r1,1\ntx p0,r1,d\nexit\nd: free p0\nexit\n"
LOST = "alloc p1,0,d\nexit\nd: free p0\nexit\n"
POOLS = [Pool(8, 4, 2176), Pool(8, 0, 0)]
FACT = (2, 128, 0, 0, 0, 1)
ENV = Env(POOLS, [{}], [Ring(4, FACT)], [Port(0, 1, 4)] * 2)
TABLE = '[[table]]\nrules = 8\ngroups = 2\nroutes = ["10.0.0.0/8 1", "0.0.0.128/25 2", "0.0.1.0/32 3"]\n'


def pipeline(names: list[str], table: str = "") -> str:
    """A pipeline whose two ports and ring have these programs and certificates, with a table or without, which is large."""
    text = f"region = {ENV.need()}\n" + "".join(f"[[pool]]\ncount = {p.count}\ncache = {p.cache}\nroom = {p.room}\n" for p in POOLS)
    nodes = ["".join(f'{key} = "{name}"\n' for key, name in zip(("node", "cert"), words.split())) for words in names]
    ring = "[[ring]]\ncount = 4\n" + "".join(f"{key} = {value}\n" for key, value in zip(("share", "head", "tail", "first", "last", "segs"), FACT))
    ports = [f'[[port]]\npool = 0\nsegs = 1\nqueue = 4\n{nodes[k]}in = "in{k}.pcap"\nout = "port{k}.pcap"\n' for k in range(2)]
    return text + table + ring + nodes[2] + "".join(ports)


def make_files(folder: pathlib.Path) -> None:
    """The programs, a certificate, captures and pipelines."""
    code = assemble(COPYING.encode())
    files = {"counting": COUNTING, "looking": LOOKING, "copying": COPYING, "sending": SENDING, "lost": LOST, "broken": "exit\nfree p9\n"}
    files["copying.cert"] = rules.spelled(rules.infer(ENV, code, rules.entry_row(ENV, 1))).decode()
    one = rules.infer(answers.ONE, assemble(COUNTING.encode()), rules.entry_row(answers.ONE, 0))
    files["counting.cert"] = rules.spelled(one).decode()
    files["broken.cert"] = files["copying.cert"][:-2] + "\n"
    files["sound.toml"] = pipeline(["counting", "copying copying.cert", "sending"])
    files["refused.toml"] = pipeline(["counting", "copying copying.cert", "lost"])
    files["broken.toml"] = pipeline(["counting", "copying copying.cert", "broken"])
    files["cert.toml"] = pipeline(["counting", "copying broken.cert", "sending"])
    files["table.toml"] = pipeline(["counting", "copying copying.cert", "looking"], TABLE)
    files["route.toml"] = files["table.toml"].replace("/25 2", "/99 2")
    files["text.toml"] = files["sound.toml"] + "port]] # one more\n"
    files["routes.txt"] = "# more\n10.1.0.0/16 2\n10.0.0.0/8 5\n"
    files["beside/program.toml"] = files["sound.toml"].replace('"sending"', '"its"')
    files["beside/capture.toml"] = files["sound.toml"].replace('"in1.pcap"', '"its"')
    files["beside/its"], files["counting.dpv"] = SENDING, COUNTING
    (folder / "beside").mkdir()
    for name, text in files.items():
        (folder / name).write_text(text)
    for k in range(2):
        (folder / f"in{k}.pcap").write_bytes(capture(b"a record", b"another"))


# The words of each command, and the status that it ends with where nothing is refused.
COMMANDS = [
    (["check", "sound.toml"], 0),
    (["check", "refused.toml"], 1),
    (["check", "broken.toml"], 3),
    (["check", "cert.toml"], 3),
    (["check", "route.toml"], 3),
    (["check", "text.toml"], 3),
    (["infer", "text.toml", "port0"], 3),
    (["explain", "text.toml", "--json"], 3),
    (["run", "text.toml"], 3),
    (["infer", "sound.toml", "port0"], 0),
    (["infer", "sound.toml", "port1"], 0),
    (["infer", "refused.toml", "port0"], 1),
    (["infer", "sound.toml", "port7"], 2),
    (["explain", "sound.toml"], 0),
    (["explain", "refused.toml"], 1),
    (["explain-one", "lost"], 1),
    (["infer-one", "counting"], 0),
    (["infer-one", "lost"], 1),
    (["filter", "lost", "in0.pcap", "port0.pcap"], 1),
    (["filter", "counting", "sound.toml", "port0.pcap"], 3),
    (["run", "beside/program.toml"], 3),
    (["run", "beside/capture.toml"], 3),
    (["run", "counting.dpv"], 3),
    (["show", "sound.toml", "port1"], 0),
    (["show", "sound.toml", "ring0", "--dot"], 0),
    (["show", "sound.toml", "--dot"], 0),
    (["show", "refused.toml", "--dot"], 1),
    (["check", "sound.toml", "--sizes"], 0),
    (["show-one", "lost", "copying.cert"], 3),
    (["check", "sound.toml", "--cost"], 0),
    (["check", "sound.toml", "--cost", "--json"], 0),
    (["trace", "sound.toml", "--port", "1", "--refuse", "2"], 0),
    (["trace", "sound.toml", "--only", "99"], 0),
    (["trace", "sound.toml", "--instr", "d", "--json"], 0),
    (["trace-one", "counting", "counting.cert", "in0.pcap"], 0),
    (["run", "sound.toml"], 0),
    (["run", "table.toml", "--refuse", "2,3"], 0),
    (["run", "table.toml", "--routes", "0=routes.txt"], 0),
    (["check", "table.toml", "--routes", "0=routes.txt", "--routes", "0=table.toml"], 3),
    (["trace", "table.toml", "--routes", "1=routes.txt"], 2),
    (["run", "sound.toml", "-U", "--in", "0=in1.pcap", "--no-in", "1", "--out", "1=other.pcap", "--no-out", "0"], 0),
    (["run", "sound.toml", "--out", "1=a", "--out", "1=b"], 2),
    (["run", "sound.toml", "--no-in", "7"], 2),
    (["run", "refused.toml"], 1),
    (["run", "sound.toml", "--refuse", "3,2"], 2),
    (["run", "sound.toml", "--json", "--counts"], 0),
    (["run", "sound.toml", "--counts", "--drops"], 0),
    (["run", "sound.toml", "--counts", "--source"], 0),
    (["run", "sound.toml", "--counts", "--source", "--drops", "--json"], 0),
    (["run", "refused.toml", "--json"], 1),
    (["check", "sound.toml", "--json"], 0),
    (["check", "broken.toml", "--json"], 3),
    (["explain", "refused.toml", "--json"], 1),
    (["explain", "broken.toml", "--json"], 3),
    (["help"], 0),
    (["nothing"], 2),
]


def ended_by(words: list[str], shim: pathlib.Path, number: int) -> Ended:
    """How a command ends with an allocation refused. What it prints of verdicts with --json and of a trace are documents of facts, which are compared
    as `dpv` says them."""
    ended = Ended(words, shim, number)
    if ended.printed.startswith((b'{"view":"report"', b'{"view":"trace"')):
        ended.printed, _ = said_bytes(ended.printed)
    return ended


def is_like(ended: Ended, whole: Ended) -> bool:
    """Whether a run did all that another did."""
    # (the line at fault and the cure are left out where there is no memory for them)
    same = fixed(ended.reported.decode()) == fixed(whole.reported.decode())
    return same and (ended.status, ended.printed, ended.written) == (whole.status, whole.printed, whole.written)


def refuse_each(program: str, words: list[str], status: int, shim: pathlib.Path) -> bool:
    """Whether a command ends as it has to with each of its allocations refused; prints how many there were."""
    whole, refused, bad = ended_by([program, *words], shim, 0), 0, 0
    for number in range(1, whole.allocations + 1):
        ended = ended_by([program, *words], shim, number)
        refused += ended.is_refused(whole)
        if not ended.is_refused(whole) and not is_like(ended, whole):
            bad += 1
            print(f"allocation {number}: status {ended.status}, reported {ended.reported!r}, printed {ended.printed[-200:]!r}")
    print(f"dpv {' '.join(words)}: {whole.allocations} allocations, {refused} runs ended with fault: memory, {bad} failed")
    if whole.status != status:
        print(f"it ended with status {whole.status} and not {status}: {whole.printed!r} {whole.reported!r}")
    return whole.status == status and bad == 0 and refused > 0


def main() -> int:
    """All of it."""
    program = asked()
    with new_folder() as folder:
        make_files(folder)
        shim = shim_in(folder)
        passed = [refuse_each(program, words, status, shim) for words, status in COMMANDS] if shim else []
    return 0 if all(passed) else 1


if __name__ == "__main__":
    sys.exit(main())
