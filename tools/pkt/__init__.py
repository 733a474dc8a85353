"""Compiles the language of docs/users/pkt.md to node programs.

The compiler is not trusted: `dpv` infers a certificate for its output and checks it like any other node program. A mistake here can change
the meaning of a program, but cannot make it read or write outside a packet.

lexer.py and the folder parser read a text; syntax.py has its parts, headers.py the headers and their fields, prelude.pkt those that are known.
A path through the program appends instructions and keeps the facts known at its end:
    state.py         the facts at one place: packets, headers, bytes, registers
    ways.py          paths, appending instructions to them, merge points, and the facts that a merge point has to keep
    registers.py     register allocation; loads, stores, arithmetic
    conditions.py    comparisons, and the search for headers
    checksums.py     `mend`, and checksums of pushed headers
    packets.py       changes of packets: push, pop, cut, truncate, chain, free
    statements.py    assignments, branches, loops, and packets that are made or sent
The instructions are a graph (graph.py), which is made smaller: liveness.py, tail_merging.py, peephole.py. writer.py writes them in order.
"""
