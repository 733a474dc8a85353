"""Makes what tests/random/fuzz_pkt.py compiles and runs: programs of the language pkt (docs/users/pkt.md), pipelines of them, and captures.

numbers.py       numbers and conditions
declarations.py  headers of the program's own, and further places for known headers
programs.py      statements, and whole programs
frames.py        Ethernet frames of all known headers
pipelines.py     pipelines: pools, tables, rings and ports, and what each node runs
shrinking.py     a smaller case with the same finding
"""
