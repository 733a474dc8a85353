"""Usage: dpv build FILE.pkt > FILE.dpv
       dpv build --prove [--rounds N] [--seconds N] FILE.pkt

Compiles a program of docs/users/pkt.md to a node program. An error is printed to standard error with its line, and gives status 1; a file that
cannot be read or written gives status 3.
With --prove it says whether the program does what its source says, for all packets: proved, different (status 1) or open (status 3). It takes
N seconds of processor time (300) and N rounds of loops (256, which are all) at most, and needs z3 and the repository (else status 70)."""
import argparse
import os
import pathlib
import stat
import sys

if sys.version_info < (3, 11):
    print("dpv: the language pkt needs Python 3.11, and python3 is Python %d.%d" % sys.version_info[:2], file=sys.stderr)
    sys.exit(70)
sys.path.insert(0, str(pathlib.Path(__file__).resolve().parent.parent))

from pkt.compiler import compiled, error_text, parse  # noqa: E402
from pkt.filtering import require_filter  # noqa: E402
from pkt.parser.grammar import LIMITS  # noqa: E402
from pkt.prove.command import prove_text  # noqa: E402
from pkt.syntax import SourceError  # noqa: E402


def main() -> int:
    words = sys.argv[1:]
    if words in (["-h"], ["--help"]):
        print(__doc__)
        return 0
    is_filter, is_proof = words[:1] == ["--filter"] and len(words) == 5, "--prove" in words
    if not is_filter and not is_proof and len(words) != 1:
        print(f"{wrong(words)}{__doc__.split(chr(10) * 2)[0]}", file=sys.stderr)
        return 2
    asked = asked_to_prove([word for word in words if word != "--prove"]) if is_proof and not is_filter else None
    path = pathlib.Path(asked.file if asked else words[-1])
    try:
        source = path.read_text(encoding="utf-8")
        text, note = compiled(source, path.name, path.parent, segments=segments_in(words[3]) if is_filter else 1)
        if is_filter:
            require_filter(parse(source, path.parent))
    except UnicodeDecodeError as error:
        row = error.object.count(b"\n", 0, error.start) + 1
        print(f"{path}:{row}: this line is no UTF-8 text\n  help: save the file as UTF-8", file=sys.stderr)
        return 3
    except OSError as error:
        print(f"{path}: {error.strerror}", file=sys.stderr)
        return 3
    except SourceError as error:
        print(error_text(error, str(path), source), file=sys.stderr)
    else:
        for it in note.splitlines():
            print(f"{path}: note: {it}", file=sys.stderr)
        if is_filter:
            return made(text, source, path, words[1], words[2])
        return prove_text(source, text, path.parent, asked.rounds, asked.seconds) if asked else written(text)
    return 1


def segments_in(word: str) -> int:
    """The number of segments that an option gives; 1 for a word that is none, which the program reports."""
    number = int(word) if word.isascii() and word.isdigit() and len(word) < 10 else 1
    return number if number <= LIMITS["number of segments"] else 1


def wrong(words: list[str]) -> str:
    """What is wrong with words that are not one file, as a line."""
    if not words:
        return "error: FILE.pkt is missing\n"
    if words[0].partition("=")[0] in ("--rounds", "--seconds") or words[1].partition("=")[0] in ("--rounds", "--seconds"):
        return "error: --rounds and --seconds are for --prove\n"
    return "error: one FILE.pkt is compiled, and printed on standard output\n"


def asked_to_prove(words: list[str]) -> argparse.Namespace:
    """The words after --prove."""
    parser = argparse.ArgumentParser(prog="dpv build --prove", description="Decides for all packets whether the output does what the source says.")
    parser.add_argument("--rounds", type=int, default=256, help="the rounds of loops that are looked at (256, which are all)")
    parser.add_argument("--seconds", type=float, default=300, help="the limit of processor time (300)")
    parser.add_argument("file", help="FILE.pkt")
    return parser.parse_args(words)


def made(text: str, source: str, path: pathlib.Path, output: str, to: str) -> int:
    """Writes a program to a file, for `dpv filter` (tools/launch), unless its output is a plain file that was read. Returns the status: 0 or 3."""
    try:
        its = os.fstat(1) if output == "-" else os.stat(output)
    except OSError:
        its = None
    read = [path, *dict.fromkeys(pathlib.Path(str(row.path)) for row in parse(source, path.parent).rows if row.path is not None)]
    same = next((it for it in read if its and stat.S_ISREG(its.st_mode) and os.path.samestat(its, it.stat())), None)
    if same is not None:
        print(f"fault: file {output}\n  file: {same}\n  because: the run reads this file, so it is not overwritten", file=sys.stderr)
        return 3
    pathlib.Path(to).write_text(text, encoding="utf-8")
    return 0


def written(text: str) -> int:
    """Prints a program. Returns the status: 0, or 3 for an output that cannot be written."""
    try:
        sys.stdout.write(text)
        sys.stdout.flush()
    except OSError as error:
        print(f"the program cannot be written: {error.strerror}", file=sys.stderr)
        # What is left of it would be written, and fail, once more at the end.
        os.dup2(os.open(os.devnull, os.O_WRONLY), 1)
        return 3
    return 0


if __name__ == "__main__":
    sys.exit(main())
