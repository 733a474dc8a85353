#!/usr/bin/env python3
"""Compiles damaged texts of the language pkt: each has to end in a program that the assembler takes, or in an error with its place.

Usage: tests/tools/pkt_mutate.py [--seed N] [--cases N | --seconds N] [--jobs N]   (needs no program)
A case is an example, a task, a program that once was a finding, or one made at random, in which words are deleted, doubled, exchanged, or
replaced by others. Any exception but SourceError, more than 10 s of processor time, and a text that tests/model cannot assemble are findings. Exits with 1 if
there is one."""
import argparse
import re
import sys
import time
from collections import Counter
from random import Random

import paths  # noqa: F401

from command import TOP
from fuzz import all_jobs, parser_of
from model import programs as assembler
from pkt_cases.pipelines import case
from pkt.compiler import compile_text, error_text
from pkt.syntax import SourceError

PRELUDE = (TOP / "tools/pkt/prelude.pkt").read_text()
SOURCES = [it.read_text() for it in sorted([*TOP.glob("examples/*/*.pkt"), *TOP.glob("tests/pkt_found/*.pkt")])]
WORD = re.compile(r"\w+(?:[.:]+\w+)*|\.\.|[<>=!&|^+*-]=|<<|>>|\S|\n")
# Words that are put in place of others: the grammar's, and numbers at limits.
OTHERS = """after and auto chain clone const count cut def drop else extend free given header if in include length let lookup mend need new next not on
optional or otherwise over pool pop port ports push queue ring segments send set sum table this truncate while { } ( ) , . .. / : @ ~ = == != < > <=
>= + - * << >> & | ^ += -= 0 1 2 5 8 32 48 64 65 128 255 256 4096 65535 65536 18446744073709551615 18446744073709551616 0x0800 10.0.0.0/8 192.0.2.1
256.1.1.1 02:00:00:00:00:01 2001:db8::/32 ::1 :: 1::2::3 eth vlan qinq mpls arp ipv4 ipv6 tcp udp icmp icmp6 l4 gre vxlan eth.type ipv4.src
ipv4.ihl ipv6.src ipv6.src_lo tcp.dport udp.sum x y "why" # ? \u00e4""".split()
MAX_SECONDS = 10.0


def damaged(rng: Random, text: str) -> str:
    """A text with some words changed."""
    words = WORD.findall(text)
    for _ in range(rng.choice((1, 1, 1, 2, 3, 6))):
        at, kind = rng.randrange(len(words) + 1), rng.randrange(6)
        if kind == 0:
            del words[at : at + rng.choice((1, 1, 2, 5))]
        elif kind == 1:
            words[at:at] = [rng.choice(OTHERS)]
        elif kind == 2:
            words[at : at + 1] = [rng.choice(OTHERS)]
        elif kind == 3 and words:
            words[at : at + 1] = [rng.choice(words)]
        elif kind == 4:
            words[at:at] = words[at : at + rng.choice((1, 3, 10, 40))] * rng.choice((1, 1, 2, 30))
        else:
            words[at : at + 2] = words[at : at + 2][::-1]
    return " ".join(words)


def judged(text: str) -> tuple[str, str]:
    """How a text ends, and what is wrong with that."""
    begun = time.process_time()
    try:
        built = assembler.assemble(compile_text(text).encode())
        kind, wrong = "compiled", "" if isinstance(built, list) else f"the assembler refuses it: {built}"
    except SourceError as error:
        kind, wrong = "refused", "" if error.at.line > 0 and error_text(error, "x", text) else "the error has no place"
    except BaseException as error:
        kind, wrong = "broken", repr(error)[:300]
    seconds = time.process_time() - begun
    return kind, wrong or (f"{seconds:.0f} s" if seconds > MAX_SECONDS else "")


def work(asked: argparse.Namespace, first: int, until: float) -> Counter[str]:
    """The cases of one job."""
    counts: Counter[str] = Counter()
    for number in range(first, asked.cases, asked.jobs):
        if time.monotonic() >= until:
            break
        rng = Random(f"{asked.seed} {number}")
        text = damaged(rng, rng.choice(SOURCES) if rng.random() < 0.7 else case(rng, PRELUDE, False).texts[0])
        kind, wrong = judged(text)
        counts[kind] += 1
        if wrong:
            counts["findings"] += 1
            print(f"case {number}: {wrong}\n{text}\n", flush=True)
    return counts


def main() -> int:
    """Runs all jobs and prints the counts."""
    asked = parser_of("Compiles damaged texts of the language pkt.", "").parse_args()
    asked.cases = asked.cases or (sys.maxsize if asked.seconds else 2_000)
    counts: Counter[str] = sum(all_jobs(asked, work), Counter())
    print(f"pkt_mutate: seed {asked.seed}, {counts.total() - counts['findings']} texts, {dict(counts)}")
    return 1 if counts["findings"] else 0


if __name__ == "__main__":
    sys.exit(main())
