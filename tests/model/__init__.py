"""The expected results of `dpv`, written only from the documents in docs/, not from its code.

machine.py   node runs, turns and runs of packets that are plain lists, and how many buffers each pool has left
captures.py  captures, as they are read and written
rules.py     rows, what is known after each instruction, the rules of the checker, certificates, inference
programs.py  program texts
pipelines.py pipeline files
heap.py      heap scripts
answers.py   what a command prints and writes, and its status
"""
