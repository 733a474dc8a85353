"""An interpreter of the language pkt, written from docs/users/pkt.md alone: it shares no code with the compiler in tools/pkt.

syntax.py      what a text consists of
reader.py      the grammar
arithmetic.py  numbers of 64 bits, and checksums
fields.py      bits of headers
machine.py     what a program does with a packet
"""
