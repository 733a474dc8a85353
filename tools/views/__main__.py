"""Runs the program dpv, and says in words what it found: listings, pictures, traces, counts, and what helps against a fault.

Usage: python3 tools/views PROGRAM [WORD ..]

The program judges and runs. Where words are to stand it prints what they say as a document: one JSON object, on a line of its own that
begins with {"view":. Here each becomes text, or a document of --json; all other lines stay as they are. The exit status is the program's,
but 3 if standard output cannot be written. `dpv` starts the program so, unless Python is missing.
"""
import pathlib
import signal
import sys

if signal.getsignal(signal.SIGINT) is signal.default_int_handler:
    signal.signal(signal.SIGINT, signal.SIG_DFL)
sys.path.insert(0, str(pathlib.Path(__file__).resolve().parent))

from program import run  # noqa: E402

if __name__ == "__main__":
    if len(sys.argv) < 2:
        sys.exit(__doc__)
    sys.exit(run(sys.argv[1], sys.argv[2:]))
