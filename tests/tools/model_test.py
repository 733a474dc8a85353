#!/usr/bin/env python3
"""Tests tests/model itself on runs whose result was worked out by hand, and how tests/random/fuzz.py handles a run.

Usage: tests/tools/model_test.py   (needs no program; some seconds)
"""
import json
import os
import pathlib
import signal
import struct
import tempfile
import unittest
from unittest import mock

import paths  # noqa: F401

import fuzz
from causes import TEXTS
from model import answers, captures, heap, pipelines, programs, rules, toml
from model.machine import Env, Pool, Port, Ring, World, hop_for

STRIP = b"iflen p0,14,L4\nadj p0,14\ntx p0,r0,L4\nexit\nL4:\nfree p0\nexit\n"
FORWARD = b"tx p0,r0,d\nexit\nd: free p0\nexit\n"
LOOP = b"enq p0,0,d\nexit\nd: free p0\nexit\n"
MULTICAST = b"""alloc p1,0,a
append p1,4
set r1,0x0a0b0c0d
store p1,0,4,r1
clone p2,p0,1,b
clone p3,p0,1,c
free p0
chain p1,p2
set r2,1
tx p1,r2,d
tx p3,r0,e
exit
d: free p1
e: free p3
exit
c: free p2
b: free p1
a: free p0
exit
"""
HEADS = ["010102008000000000000001", "01010200800000000e000001", "010102008e00000000000001", "01"]
STRIP_CERT = "dpv-cert 1\n" + "".join(head.ljust(306, "0") + "\n" for head in [*HEADS, HEADS[0], HEADS[3]])
SIXTY = bytes(range(1, 61))


def capture(*records: tuple[int, int, bytes], magic: int = 0xA1B2C3D4, order: str = "<") -> bytes:
    """A capture of these records."""
    head = struct.pack(order + "IHHIIII", magic, 2, 4, 0, 0, 65_535, 1)
    return head + b"".join(struct.pack(order + "IIII", s, f, len(data), len(data)) + data for s, f, data in records)


def tables(kind: str, parts: list[dict[str, object]]) -> str:
    """An array of tables of a pipeline file."""
    shown = ("".join(f"{key} = {repr(value)}\n" for key, value in part.items()) for part in parts)
    return "".join(f"[[{kind}]]\n{part}" for part in shown)


def port(k: int, node: str, pool: int = 0, segs: int = 1, queue: int = 4) -> dict[str, object]:
    """The keys of a port that reads `inK` and writes `outK`."""
    return {"pool": pool, "segs": segs, "queue": queue, "node": node, "in": f"in{k}", "out": f"out{k}"}


def pipeline(pools: list[Pool], ports: list[dict[str, object]], region: int = 10_368, rings: str = "") -> str:
    """A pipeline file."""
    return f"region = {region}\n" + tables("pool", [pool._asdict() for pool in pools]) + rings + tables("port", ports)


TWO = pipeline([Pool(4, 0, 2176), Pool(4, 0, 0)], [port(0, "multicast"), port(1, "forward")])
ANY = "share = 0\nhead = 0\ntail = 0\nfirst = 0\nlast = 0\nsegs = 64\n"


class Case(unittest.TestCase):
    """Commands in a folder of their own."""

    def setUp(self) -> None:
        made = tempfile.TemporaryDirectory()
        self.addCleanup(made.cleanup)
        self.folder = pathlib.Path(made.name)
        for name, text in {"strip": STRIP, "forward": FORWARD, "loop": LOOP, "multicast": MULTICAST}.items():
            (self.folder / name).write_bytes(text)
        (self.folder / "strip.cert").write_text(STRIP_CERT)

    def one(self, data: bytes) -> answers.Answer:
        """Runs strip on a capture."""
        (self.folder / "in").write_bytes(data)
        return answers.answer(["one", "strip", "strip.cert", "in", "out"], answers.Disk(self.folder), "")

    def run_on(self, text: str, *inputs: bytes, refuse: str | None = None) -> answers.Answer:
        """Runs a pipeline on captures."""
        (self.folder / "it.toml").write_text(text)
        for k, data in enumerate(inputs):
            (self.folder / f"in{k}").write_bytes(data)
        return answers.answer(["run", "it.toml", *([] if refuse is None else ["--refuse", refuse])], answers.Disk(self.folder), "")


class Runs(Case):
    """Whole runs."""

    def test_strip(self) -> None:
        done = self.one(capture((1, 2, SIXTY)))
        head = bytes.fromhex("d4c3b2a1020004000000000000000000000004000100000001000000020000002e0000002e000000")
        self.assertEqual(done.written, {"out": head + SIXTY[14:]})
        lines = "port 0 received 1 nobuf 0 oversize 0 sent 1 input whole\npool 0 free 64 of 64\ncalls 1 refused 0\n"
        self.assertEqual(done[:3], (0, lines, ""))

    def test_short_records(self) -> None:
        done = self.one(capture((1, 2, SIXTY[:13]), (1, 2, b"")))
        self.assertEqual(len(done.written["out"]), 24)
        lines = "port 0 received 2 nobuf 0 oversize 0 sent 0 input whole\npool 0 free 64 of 64\ncalls 2 refused 0\n"
        self.assertEqual(done[:3], (0, lines, ""))

    def test_cut_at_each_byte(self) -> None:
        whole = capture((1, 2, SIXTY))
        for size in range(len(whole) + 1):
            done = self.one(whole[:size])
            ending = "whole" if size in (24, 100) else "open" if size < 24 else "cut 24"
            self.assertIn(f"sent {size // 100} input {ending}\n", done.printed)
            self.assertEqual(done.reported, "fault: input 0 cause 6\n" if size < 24 else "")

    def test_multicast(self) -> None:
        done = self.run_on(TWO, capture((1, 2, SIXTY)), capture())
        self.assertEqual(done.written["out0"][40:], SIXTY)
        self.assertEqual(done.written["out1"][40:], b"\n\v\f\r" + SIXTY)
        lines = (
            "port 0 received 1 nobuf 0 oversize 0 sent 1 input whole\nport 1 received 0 nobuf 0 oversize 0 sent 1 input whole\n"
            "pool 0 free 4 of 4\npool 1 free 4 of 4\ncalls 4 refused 0\n"
        )
        self.assertEqual(done[:3], (0, lines, ""))

    def test_each_call_refused(self) -> None:
        two = capture((1, 2, SIXTY), (1, 3, SIXTY))
        expected = {"1,2": (0, 2, 0, 2, 2), "9": (2, 0, 2, 8, 0)}
        for number, row in enumerate([(1, 1, 1, 5, 1), (2, 0, 1, 6, 1), (2, 0, 1, 7, 1), (2, 0, 1, 8, 1)], 1):
            expected |= {str(number): row, str(number + 4): row}
        for refuse, (received, nobuf, sent, calls, refused) in expected.items():
            done = self.run_on(TWO, two, capture(), refuse=refuse)
            self.assertIn(f"port 0 received {received} nobuf {nobuf} oversize 0 sent {sent} input whole\n", done.printed)
            self.assertIn(f"port 1 received 0 nobuf 0 oversize 0 sent {sent} input whole\n", done.printed)
            self.assertIn(f"pool 0 free 4 of 4\npool 1 free 4 of 4\ncalls {calls} refused {refused}\n", done.printed)

    def test_refused_clone_keeps_the_other_record(self) -> None:
        done = self.run_on(TWO, capture((1, 2, SIXTY), (1, 3, SIXTY[::-1])), capture(), refuse="3")
        self.assertEqual((done.written["out0"][40:], done.written["out1"][40:]), (SIXTY[::-1], b"\n\v\f\r" + SIXTY[::-1]))

    def test_most_segments(self) -> None:
        text = pipeline([Pool(64, 0, 192)], [port(0, "forward", segs=64)], 65_536)
        done = self.run_on(text, capture((1, 2, bytes(4096)), (1, 2, bytes(4097))))
        self.assertIn("received 1 nobuf 0 oversize 1 sent 1 input whole\npool 0 free 64 of 64\ncalls 1 refused 0\n", done.printed)

    def test_orders_and_units(self) -> None:
        big = capture((10, 5, SIXTY[:14]), magic=0xA1B23C4D, order=">")
        cut = capture((10, 7, SIXTY[:14]), (10, 8, SIXTY[:20]))[:-17]
        done = self.run_on(pipeline([Pool(4, 0, 2176)], [port(0, "forward"), port(1, "forward")]), big, cut)
        heads = [bytes.fromhex(f"0a000000{time}0e0000000e000000") for time in ("05000000", "581b0000")]
        for k, head in enumerate(heads):
            data = done.written[f"out{k}"]
            self.assertEqual((len(data), data[:4], data[24:40]), (54, b"\x4d\x3c\xb2\xa1", head))
        self.assertIn("port 1 received 1 nobuf 0 oversize 0 sent 1 input cut 54\n", done.printed)

    def test_loop_of_a_ring(self) -> None:
        rings = f'[[ring]]\ncount = 2\n{ANY}node = "loop"\n'
        done = self.run_on(pipeline([Pool(4, 0, 2176)], [port(0, "loop")], rings=rings), capture((1, 2, SIXTY)))
        lines = "port 0 received 1 nobuf 0 oversize 0 sent 0 input whole\nring 0 left 1\npool 0 free 4 of 4\ncalls 1 refused 0\n"
        self.assertEqual(done[:3], (0, lines, ""))
        env = Env([Pool(4, 0, 2176)], [], [Ring(2, (0, 0, 0, 0, 0, 64))], [Port(0, 1, 4)])
        self.assertEqual(World(env, [programs.assemble(LOOP)] * 2).turn(0, SIXTY), 33)

    def test_region(self) -> None:
        self.assertEqual(answers.ONE.need(), 148_288)
        done = self.run_on(TWO.replace("10368", "10304"), capture(), capture())
        self.assertEqual((done.status, done.reported), (3, "fault: region\n"))
        self.assertIn("sent 0 input open\npool 0 free 4 of 4\npool 1 free 4 of 4\ncalls 0 refused 0\n", done.printed)

    def test_names_of_outputs(self) -> None:
        (self.folder / "folder").mkdir()
        text = pipeline([Pool(4, 0, 2176)], [port(0, "forward")])
        made = ("x" * 255, "\u00e9", "a\nb", "./out", "folder/out", "folder/../out")
        for name in (*made, "", "\0", "a\0b", "x" * 256, "none/out", "out/", "folder", "folder/", ".", "..", "in0/out"):
            done = self.run_on(text.replace("'out0'", json.dumps(name)), capture((1, 2, SIXTY)))
            self.assertEqual((done.status, done.reported), (0, "") if name in made else (3, f"fault: file {name}\n"))
            self.assertEqual([*done.written], [name] if name in made else [])

    def test_output_that_is_there(self) -> None:
        text = pipeline([Pool(4, 0, 2176)], [port(0, "forward"), port(1, "forward")])
        one, two = capture((1, 2, SIXTY)), capture((1, 2, b""), (1, 2, b""))
        for name in ("in0", "./in1", "forward", "./forward"):
            done = self.run_on(text.replace("out1", name), one, two)
            self.assertEqual((done.status, done.reported, done.written), (3, f"fault: file {name}\n", {}))
        (self.folder / "old").write_bytes(b"old")
        self.assertEqual([*self.run_on(text.replace("out1", "old"), one, two).written], ["out0", "old"])
        self.assertEqual(self.run_on(text.replace("out1", "old"), one, b"").written, {})

    def test_output_that_is_named_twice(self) -> None:
        text = pipeline([Pool(4, 0, 2176)], [port(0, "forward"), port(1, "forward")])
        for first, second in (("out0", "out0"), ("out0", "./out0"), ("old", "old"), ("./old", "old")):
            (self.folder / "old").write_bytes(b"old")
            done = self.run_on(text.replace("out0", first).replace("out1", second), capture(), capture())
            self.assertEqual((done.status, done.reported, done.written), (3, f"fault: file {second}\n", {}))

    def test_backward_jumps(self) -> None:
        env = answers.ONE
        for text, counts in {b"a: jmp a\n": (0, 257, 1), count(257): (1, 517, 0), count(258): (0, 515, 1)}.items():
            world = World(env, [programs.assemble(text)])
            world.turn(0, SIXTY)
            self.assertEqual((len(world.drain(0)), world.steps, world.cuts, world.free), (*counts, [64]))


def count(to: int) -> bytes:
    """A program that counts to a number, and then sends."""
    return b"set r1,0\na: add r1,1\njlt r1,%d,a\ntx p0,r0,d\nexit\nd: free p0\nexit\n" % to


class Buffers(unittest.TestCase):
    """How many buffers are free."""

    def test_a_clone_keeps_the_buffer(self) -> None:
        world = World(Env([Pool(2, 0, 2176)], [], [], [Port(0, 1, 4)]), [])
        self.assertTrue(world.takes(0, 1))
        packet = world.receive(Port(0, 1, 4), bytes(10))
        self.assertTrue(world.takes(0, 1))
        packet[0].buffer.refs += 1
        clone = [type(packet[0])(128, bytearray(10), 2038, packet[0].buffer, 0)]
        world.give_up(packet)
        self.assertEqual((world.free, world.takes(0, 1)), ([0], False))
        world.give_up(clone)
        self.assertEqual(world.free, [2])

    def test_segments(self) -> None:
        packet = World(Env([Pool(6, 0, 256)], [], [], []), []).receive(Port(0, 64, 4), bytes(300))
        self.assertEqual([(s.head, len(s.data), s.tail) for s in packet], [(128, 128, 0), (128, 128, 0), (128, 44, 84)])


class Rules(unittest.TestCase):
    """Certificates and what the checker asks."""

    def setUp(self) -> None:
        self.entry = rules.entry_row(answers.ONE, 0)

    def refused(self, text: bytes, cert: str | bytes) -> tuple[int, int] | None:
        """The first label and rule that fails."""
        program = programs.assemble(text)
        rows = rules.decode(cert.encode() if isinstance(cert, str) else cert, len(program))
        return rules.check(answers.ONE, program, rows, self.entry)

    def test_strip(self) -> None:
        program = programs.assemble(STRIP)
        self.assertEqual(programs.spelled(program), STRIP)
        self.assertEqual(rules.spelled(rules.infer(answers.ONE, program, self.entry)).decode(), STRIP_CERT)
        self.assertIsNone(self.refused(STRIP, STRIP_CERT))
        lines = STRIP_CERT.split("\n")
        self.assertEqual(self.refused(STRIP, "\n".join([lines[0], lines[1][:-1] + "1", *lines[2:]])), (0, 11))
        self.assertEqual(self.refused(STRIP, "\n".join([*lines[:4], "0" * 306, *lines[5:]])), (2, 11))
        self.assertEqual(self.refused(STRIP, "\n".join([lines[0], "0" * 306, *lines[2:]])), (0, 2))
        self.assertEqual(self.refused(STRIP.replace(b"adj p0,14", b"adj p0,15"), STRIP_CERT), (1, 6))
        self.assertEqual(rules.decode(STRIP_CERT.encode(), 7), (8, 4))
        self.assertEqual(rules.decode("\n".join([lines[0], lines[1][:-1], *lines[2:]]).encode(), 6), (2, 2))

    def test_groups(self) -> None:
        text = b"clone p1,p0,0,d\nfree p1\niflen p0,1,d\nset r1,7\nstore p0,0,1,r1\ntx p0,r0,d\nexit\nd: free p0\nexit\n"
        rows = rules.infer(answers.ONE, programs.assemble(text), self.entry)
        lines = rules.spelled(rows).decode().split("\n")
        self.assertEqual(lines[0], "dpv-cert 2")
        self.assertEqual(lines[2], "0101080080000000000000010108008000000000000001".ljust(306, "0"))
        loose = rules.with_shares(rows[1], [0, 1], 0)
        self.assertEqual(self.refused(text, rules.spelled([rows[0], loose, *rows[2:]], 1)), (1, 11))
        for shares in ((8, 2), (9, 9)):
            wrong = rules.with_shares(rules.with_shares(rows[1], [0], shares[0]), [1], shares[1])
            self.assertEqual(rules.decode(rules.spelled([rows[0], wrong, *rows[2:]], 2), 9), (3, 3))

    def test_counting(self) -> None:
        program = programs.assemble(count(257))
        rows = rules.infer(answers.ONE, program, self.entry)
        self.assertEqual([row.bounds[1] for row in rows[1:4]], [256, 257, 257])

    def test_refused(self) -> None:
        self.assertIsNone(rules.infer(answers.ONE, programs.assemble(b"free p0\n"), self.entry))
        self.assertIsNone(rules.infer(answers.ONE, programs.assemble(b"exit\n"), self.entry))
        self.assertIsNotNone(rules.infer(answers.ONE, programs.assemble(b"a: jmp a\n"), self.entry))


class Texts(unittest.TestCase):
    """Causes for which texts are refused."""

    def test_programs(self) -> None:
        for text, (line, cause) in TEXTS.items():
            self.assertEqual(programs.assemble(text), (line, cause), text)

    def test_heap(self) -> None:
        script = b"region 4096\nmalloc 100 0\nmalloc 64 1024\nlist\nfree 1\nfree 2\nlist\nmalloc 0 96\nmalloc 64 96\nmalloc 4033 0\n"
        lines = (
            "1 data 3968 element 3904 + 192\n2 data 3072 element 3008 + 128\nFREE 0 + 3008\nBUSY 3008 + 128 pad 0\n"
            "FREE 3136 + 768\nBUSY 3904 + 192 pad 0\nfreed 1\nfreed 2\nFREE 0 + 4096\nrefused 1 ZeroSize\n"
            "refused 2 BadAlign\nrefused 3 NoRoom\n"
        )
        self.assertEqual(heap.answer(script, lines), (0, lines, ""))
        pad = "1 data 192 element 0 + 4096\nBUSY 0 + 4096 pad 128\nfreed 1\nfree 1 bytes 4096 busy 0 bytes 0\n"
        self.assertEqual(heap.answer(b"region 4096\nmalloc 3904 0\nlist\nfree 1\nstats", pad), (0, pad, ""))
        self.assertEqual(heap.answer(b"region 4096\nfree 1\n", ""), (3, "", "fault: line 2 bad command\n"))

    def test_routes(self) -> None:
        table = {"rules": 4, "groups": 1, "routes": ["10.0.0.0/8 1", "10.1.2.128/25 2", "10.1.3.128/25 3"]}
        self.assertEqual(pipelines.routes(table), "2 4")
        known = pipelines.routes({**table, "routes": table["routes"][:2]})
        hops = [answers_hop(known, address) for address in ((10, 1, 2, 200), (10, 1, 2, 100), (11, 0, 0, 1))]
        self.assertEqual(hops, [2, 1, None])
        self.assertEqual(pipelines.routes({"rules": 1, "groups": 0, "routes": ["10.0.0.0/8 1", "10.0.0.1/8 2", "10.0.0.0/9 2"]}), "2 3")

    def test_pipelines(self) -> None:
        reported = {
            b"=": "1 NotToml",
            b"": "2 BadKey top 0",
            b"region = 4097": "2 BadKey top 0",
            b"region = 4096": "3 BadEnv 1 0",
        }
        for text, cause in reported.items():
            self.assertEqual(pipelines.load(lambda _: None, text, False, ""), pipelines.fault(cause))

    def test_newer_toml(self) -> None:
        both = {"a = {b = 1, # one\n c = [2,\n3],\n}": {"a": {"b": 1, "c": [2, 3]}}, r'a = "\e\x41\\e"': {"a": "\x1bA\\e"}, "a = {\n}": {"a": {}}}
        for text, read in both.items():
            self.assertEqual(toml.read(text), read)
        for text in ("a = {,}", "a = {b = 1,,}", "a = {b\n= 1}", "a = {b =\n1}", "a = {b = 1\nc = 2}", r'a = "\xg0"', "a = {b = 1, # \x01\n}"):
            with self.assertRaises(ValueError):
                toml.read(text)

    def test_carriage_returns(self) -> None:
        """A carriage return belongs to one newline or is refused, in blanks, comments and strings."""
        for text in ("# x\r\na = 1\r\n", "a = 1\r\n\r\n", "\r\na = 1"):
            self.assertEqual(toml.read(text), {"a": 1})
        self.assertEqual(toml.read('a = """\r\nb\r\n"""'), {"a": "b\n"})
        for text in ("# x\r\r\n", "a = 1\r\r\n", "a = 1\r", "\r", "a =\r1", "# x\r# y\n", 'a = """b\r\r\n"""', "a = '''b\r'''", "a = [1,\r2]"):
            with self.assertRaises(ValueError):
                toml.read(text)

    def test_captures(self) -> None:
        self.assertEqual(captures.read(capture(magic=0xA1B2C3D3)).ending, "1")
        self.assertEqual(captures.read(capture((1, 1_000_000, b""))).ending, "4")
        self.assertEqual(captures.read(capture((1, 999_999, b""))).records, [(1, 999_999_000, b"")])


class Limits(unittest.TestCase):
    """How a run that does not end is ended."""

    def setUp(self) -> None:
        for name, value in {"MAX_SECONDS": 1, "MAX_WAIT": 3}.items():
            changed = mock.patch.object(fuzz, name, value)
            changed.start()
            self.addCleanup(changed.stop)
        signal.signal(signal.SIGALRM, fuzz.give_up)

    def status(self, text: str) -> int:
        """How a script of the shell ends."""
        return fuzz.Place("/bin/sh").start(["-c", text]).status

    def test_time_of_the_processor(self) -> None:
        self.assertIn(self.status("while :; do :; done"), (-signal.SIGXCPU, -signal.SIGKILL))
        self.assertEqual(self.status("sleep 1.5"), 0)

    def test_time_by_the_clock(self) -> None:
        self.assertEqual(self.status("exec sleep 60"), -signal.SIGKILL)

    def test_files(self) -> None:
        with tempfile.TemporaryDirectory() as folder:
            self.addCleanup(os.chdir, os.getcwd())
            os.chdir(folder)
            place = fuzz.Place("/bin/sh")
            place.put_case(fuzz.Case("", [], {"in": b"a", "other": b"b"}, ["folder"]))
            ended = place.run(["-c", "cat in; echo c > in; echo d > out; cat none"])
            self.assertEqual((ended.status, ended.printed, ended.written), (1, "a", {"in": b"c\n", "out": b"d\n"}))
            place.put_case(fuzz.Case("", [], {"in": b"a"}, []))
            self.assertEqual((place.run(["-c", "cat in"]).printed, os.listdir()), ("a", ["in"]))


def answers_hop(known: dict[tuple[int, int], int], address: tuple[int, ...]) -> int | None:
    """The hop for an address of four numbers."""
    return hop_for(known, int.from_bytes(bytes(address), "big"))


if __name__ == "__main__":
    unittest.main()
