"""`dpv build --prove`: whether a node program does what its source says, for all packets, decided with z3.

Source and program run on one symbolic packet, path by path under one condition, and attempt the same sends in the same order, with equal bytes.
    terms.py     numbers over the packet in a canonical form
    known.py     what is known of them on a path, and under one packet
    ask.py       numbers and conditions for z3
    paths.py     one run for each way through the conditions that some packet takes
    packets.py   the segments of a symbolic packet, and what can be seen from outside
    numbers.py   numbers that are not known, as Python's
    source.py    the source: the interpreter of tests/pkt_model on such numbers
    node.py      the program: the machine of tests/model, likewise
    replay.py    the interpreters of tests/, which have to confirm a difference
    decide.py    the verdict
    command.py   what is printed, and the status
The verdict depends on terms.py to node.py, z3, tests/pkt_model and tests/model."""
