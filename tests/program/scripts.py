#!/usr/bin/env python3
"""Lets the built program dpv run heap scripts, and compares all that it prints.

Usage: tests/program/scripts.py [PROGRAM]   (the built program; by default the one that ./dpv builds and runs)
Scripts with the lines that they print; scripts whose command at one line is no command or may not come there, with what the lines before
it print. Each is run with a newline at its end and without. Prints a line for each that failed, and a count; exits with 1 if one did.
"""
import subprocess
import sys

import paths  # noqa: F401

from command import asked, new_folder, report_cases, said

# what helps with a line that is no command
COMMANDS = (
    "region N comes first, with N a multiple of 64 from 4096 to 1073741824; then malloc SIZE ALIGN, zmalloc SIZE ALIGN, free K of a block that is held, "
    "list or stats, with one blank before each number"
)

# the commands of a script, and the lines that they print
PRINTED = [
    ("", ""),
    ("|", ""),
    ("region 4096", ""),
    ("||region 4096|", ""),
    ("region 4096|malloc 100 0", "1 data 3968 element 3904 + 192"),
    ("region 04096|malloc 0100 00", "1 data 3968 element 3904 + 192"),
    (
        "region 4096|malloc 0 96|malloc 64 96|malloc 4033 0|list|malloc 4032 0",
        "refused 1 ZeroSize|refused 2 BadAlign|refused 3 NoRoom|FREE 0 + 4096|1 data 64 element 0 + 4096",
    ),
    ("region 4096|zmalloc 0 96|zmalloc 64 96|zmalloc 4033 0", "refused 1 ZeroSize|refused 2 BadAlign|refused 3 NoRoom"),
    ("region 4096|malloc 4294967295 4294967295|malloc 1 2147483648", "refused 2 BadAlign|refused 3 NoRoom"),
    (
        "region 4096|malloc 64 0|malloc 64 0|malloc 64 0|free 2|stats|malloc 64 256|malloc 64 0",
        "1 data 4032 element 3968 + 128|2 data 3904 element 3840 + 128|3 data 3776 element 3712 + 128|freed 2|"
        "free 2 bytes 3840 busy 2 bytes 256|4 data 3584 element 3520 + 192|5 data 3904 element 3840 + 128",
    ),
    # one block, with the elements while it is held and when it is freed
    ("region 4096|malloc 100 0|list|free 1|list", "1 data 3968 element 3904 + 192|FREE 0 + 3904|BUSY 3904 + 192 pad 0|freed 1|FREE 0 + 4096"),
    ("region 4096|malloc 3840 64|list|free 1|list", "1 data 256 element 192 + 3904|FREE 0 + 192|BUSY 192 + 3904 pad 0|freed 1|FREE 0 + 4096"),
    ("region 4096|malloc 3904 0|list|free 1|list", "1 data 192 element 0 + 4096|BUSY 0 + 4096 pad 128|freed 1|FREE 0 + 4096"),
    ("region 4096|malloc 192 256|list|free 1|list", "1 data 3840 element 3776 + 320|FREE 0 + 3776|BUSY 3776 + 320 pad 0|freed 1|FREE 0 + 4096"),
    ("region 4096|malloc 4032 0|list|free 1|list", "1 data 64 element 0 + 4096|BUSY 0 + 4096 pad 0|freed 1|FREE 0 + 4096"),
    ("region 4096|malloc 128 256|list|free 1|list", "1 data 3840 element 3776 + 320|FREE 0 + 3776|BUSY 3776 + 320 pad 0|freed 1|FREE 0 + 4096"),
    (
        "region 4096|malloc 64 256|list|free 1|list",
        "1 data 3840 element 3776 + 128|FREE 0 + 3776|BUSY 3776 + 128 pad 0|FREE 3904 + 192|freed 1|FREE 0 + 4096",
    ),
    # a block in the middle is freed last, and joined with both of its neighbours
    (
        "region 4096|malloc 64 0|malloc 128 512|malloc 256 0|malloc 256 0|list|free 3|free 2|list|free 4|free 1|list|zmalloc 4032 0",
        "1 data 4032 element 3968 + 128|2 data 3584 element 3520 + 192|3 data 3264 element 3200 + 320|4 data 2944 element 2880 + 320|FREE 0 + 2880|"
        "BUSY 2880 + 320 pad 0|BUSY 3200 + 320 pad 0|BUSY 3520 + 192 pad 0|FREE 3712 + 256|BUSY 3968 + 128 pad 0|freed 3|freed 2|FREE 0 + 2880|"
        "BUSY 2880 + 320 pad 0|FREE 3200 + 768|BUSY 3968 + 128 pad 0|freed 4|freed 1|FREE 0 + 4096|5 data 64 element 0 + 4096",
    ),
    # a small block is taken from a small element, and one that fits in none of those from the next list that has room
    (
        "region 4096|malloc 64 0|malloc 64 0|malloc 64 0|free 2|malloc 64 256|malloc 64 0|list|free 1|free 3|free 4|free 5|list",
        "1 data 4032 element 3968 + 128|2 data 3904 element 3840 + 128|3 data 3776 element 3712 + 128|freed 2|4 data 3584 element 3520 + 192|"
        "5 data 3904 element 3840 + 128|FREE 0 + 3520|BUSY 3520 + 192 pad 0|BUSY 3712 + 128 pad 0|BUSY 3840 + 128 pad 0|BUSY 3968 + 128 pad 0|"
        "freed 1|freed 3|freed 4|freed 5|FREE 0 + 4096",
    ),
    # two blocks, of which either is freed first
    (
        "region 4096|malloc 100 0|stats|malloc 64 1024|list|free 1|free 2|list",
        "1 data 3968 element 3904 + 192|free 1 bytes 3904 busy 1 bytes 192|2 data 3072 element 3008 + 128|FREE 0 + 3008|BUSY 3008 + 128 pad 0|"
        "FREE 3136 + 768|BUSY 3904 + 192 pad 0|freed 1|freed 2|FREE 0 + 4096",
    ),
    (
        "region 4096|malloc 100 0|stats|malloc 64 1024|list|free 2|free 1|list",
        "1 data 3968 element 3904 + 192|free 1 bytes 3904 busy 1 bytes 192|2 data 3072 element 3008 + 128|FREE 0 + 3008|BUSY 3008 + 128 pad 0|"
        "FREE 3136 + 768|BUSY 3904 + 192 pad 0|freed 2|freed 1|FREE 0 + 4096",
    ),
    ("region 4096|zmalloc 100 0|stats", "1 data 3968 element 3904 + 192|free 1 bytes 3904 busy 1 bytes 192"),
    ("region 4096|malloc 4032 0|free 1|zmalloc 4032 0|free 2|stats", "1 data 64 element 0 + 4096|freed 1|2 data 64 element 0 + 4096|freed 2|free 1 bytes 4096 busy 0 bytes 0"),
    (f"region {'0' * 50}4096|malloc {'0' * 50}1 0", "1 data 4032 element 3968 + 128"),
    ("region 1073741824|list", "FREE 0 + 1073741824"),
]

# the commands of a script, what is printed before the one that is at fault, and its line
FAULTY = [
    ("malloc 1 1", "", 1),
    ("list|region 4096", "", 1),
    ("region 4097", "", 1),
    ("region 4032", "", 1),
    ("region 1073741888", "", 1),
    ("region +4096", "", 1),
    ("region 4096 ", "", 1),
    (" region 4096", "", 1),
    ("|region", "", 2),
    ("region 4096|region 4096", "", 2),
    ("region 4096||free 1", "", 3),
    ("region 4096|malloc 1 0|free 1|free 1", "1 data 4032 element 3968 + 128|freed 1", 4),
    ("region 4096|malloc 1 0|free 0|free 1", "1 data 4032 element 3968 + 128", 3),
    ("region 4096|malloc  1 0", "", 2),
    ("region 4096|malloc 1 0 ", "", 2),
    ("region 4096|malloc 1 0\r", "", 2),
    ("region 4096|malloc\t1 0", "", 2),
    ("region 4096|malloc 1", "", 2),
    ("region 4096|malloc 1 0 0", "", 2),
    ("region 4096|zmalloc 1 -1", "", 2),
    ("region 4096|malloc 4294967296 0", "", 2),
    ("region 4096|malloc 1 +0", "", 2),
    ("region 4096|malloc 0x1 0", "", 2),
    ("region 4096|malloc 1 ", "", 2),
    ("region 4096|free", "", 2),
    ("region 4096|list 1", "", 2),
    ("region 4096|stats 1 2", "", 2),
    ("region 4096|LIST", "", 2),
    ("region 4096|li\xe9st", "", 2),
    ("region 4096|stats|\xff", "free 1 bytes 4096 busy 0 bytes 0", 3),
    ("region 4096|stats|show|list", "free 1 bytes 4096 busy 0 bytes 0", 3),
]


def lines(text: str) -> bytes:
    """A line for each part of a text."""
    return b"".join(part.encode("latin-1") + b"\n" for part in text.split("|")) if text else b""


def fault(script: bytes, number: int) -> bytes:
    """What is reported of a script whose line of this number is no command: the line stands there if the script is UTF-8."""
    try:
        line = ": " + script.decode().replace("\r\n", "\n").split("\n")[number - 1]
    except UnicodeDecodeError:
        line = ""
    return f"fault: line {number} bad command\n  at: script:{number}{line}\n  help: {COMMANDS}\n".encode()


def cases() -> list[tuple[bytes, tuple[int, bytes, bytes]]]:
    """The scripts, each with a newline at its end and without, and how each ends."""
    found = [(lines(script), lines(printed), 0) for script, printed in PRINTED] + [(lines(script), lines(printed), line) for script, printed, line in FAULTY]
    found += [(script[:-1], printed, line) for script, printed, line in found]
    return [(script, (3, printed, fault(script, line)) if line else (0, printed, b"")) for script, printed, line in found]


def main() -> int:
    """Runs each script."""
    program, passed = asked(), []
    with new_folder() as folder:
        for script, wanted in cases():
            (folder / "script").write_bytes(script)
            done = subprocess.run([program, "mem", "script"], cwd=folder, capture_output=True, timeout=60)
            ended = done.returncode, done.stdout, said("", done.stderr.decode())[1].encode()
            passed.append(ended == wanted)
            if not passed[-1]:
                print(f"{script!r} ended with {ended!r}, and not with {wanted!r}")
    return report_cases("scripts", passed)


if __name__ == "__main__":
    sys.exit(main())
