"""The program while it runs: its lines as they come, what is said of them, and its end."""
import contextlib
import os
import selectors
import signal
import stat
import subprocess
from collections.abc import Callable, Iterable, Iterator

from documents import FAULT, Refused
from sayings import Sayings

# What is reported if standard output cannot be written.
UNWRITTEN = "fault: standard output cannot be written\n"
# The commands of which a word may still be refused after they began: what the program reports is kept until they have ended.
KEPT = ("trace", "trace-one")
OUT, ERR = 1, 2
# The numbers under which the program has the streams to which its lines go in the end: no capture may be written to those files (dp_captures).
LEFT = {OUT: 98, ERR: 99}
# The options of the commands that write captures, as far as the word after each is its value.
VALUED = frozenset(("--in", "--out", "--no-in", "--no-out", "--routes", "--refuse", "--room", "--segs", "--name"))
# The commands that name the capture that they write as an operand, and its place among them.
WRITES = {"one": 3, "filter": 2}
# Other names of the standard streams.
NAMES = {OUT: ("/dev/stdout", "/dev/fd/1", "/proc/self/fd/1"), ERR: ("/dev/stderr", "/dev/fd/2", "/proc/self/fd/2")}
# The signals that end the program, too, where they end what runs it.
ENDING = (signal.SIGINT, signal.SIGTERM, signal.SIGHUP, signal.SIGQUIT, signal.SIGUSR1, signal.SIGUSR2, signal.SIGALRM)


def parts(words: list[str]) -> Iterator[tuple[str, str]]:
    """The words after a command: each option with its value, and each operand with no option. After a word -- all are operands."""
    option, are_operands = "", False
    for word in words:
        if option or are_operands or word == "-" or not word.startswith("-"):
            yield option, word
            option = ""
        elif word == "--":
            are_operands = True
        elif word in VALUED:
            option = word
        else:
            name, _, value = word.partition("=")
            yield name, value


def written(words: list[str]) -> list[str]:
    """The captures that the words give to be written."""
    command, given = "".join(words[:1]), list(parts(words[1:]))
    if command == "run":
        return [value[2:] for name, value in given if name == "--out" and value[1:2] == "="]
    operands = [value for name, value in given if not name]
    return operands[WRITES[command]:][:1] if command in WRITES else []


def is_taken(stream: int, words: list[str]) -> bool:
    """Whether a capture goes to a standard stream: then the program has that itself. By another name than - it is refused where it is a file."""
    names = written(words)
    is_file = stat.S_ISREG(os.fstat(stream).st_mode)
    return stream == OUT and "-" in names or is_file and any(it in names for it in NAMES[stream])


def open_streams() -> None:
    """Opens the null device for each standard stream that is closed, so that no pipe is taken for one. A write to it fails."""
    while (number := os.open(os.devnull, os.O_RDONLY)) <= ERR:
        os.set_inheritable(number, True)
    os.close(number)


def is_written(stream: int, text: str) -> bool:
    """Writes a text. Returns whether that could be done."""
    left = text.encode(errors="surrogateescape")
    try:
        while left:
            left = left[os.write(stream, left):]
    except OSError:
        return False
    return True


def waiting_for(pipes: Iterable[int]) -> selectors.BaseSelector:
    """What waits for pipes."""
    waiting = selectors.DefaultSelector()
    for pipe in pipes:
        waiting.register(pipe, selectors.EVENT_READ)
    return waiting


def pieces(pipes: dict[int, int]) -> Iterator[tuple[int, bytes]]:
    """What comes out of pipes, each piece with its pipe, and an empty one at the end of a pipe. What is there of standard output comes first."""
    with waiting_for(pipes) as waiting:
        while waiting.get_map():
            for pipe in sorted((key.fd for key, _ in waiting.select()), key=lambda it: pipes[it]):
                if not (data := os.read(pipe, 1 << 16)):
                    waiting.unregister(pipe)
                yield pipe, data


def lines(pipes: dict[int, int]) -> Iterator[tuple[int, str]]:
    """The lines that come out of pipes, each with the stream that it is for."""
    begun = dict.fromkeys(pipes, b"")
    for pipe, data in pieces(pipes):
        *whole, begun[pipe] = (begun[pipe] + data).split(b"\n")
        yield from ((pipes[pipe], it.decode(errors="surrogateescape") + "\n") for it in whole)
        if not data and begun[pipe]:
            yield pipes[pipe], begun[pipe].decode(errors="surrogateescape")


def ended(started: subprocess.Popen[bytes]) -> int:
    """The exit status of the program. If a signal ended it, that ends this, too."""
    status = started.wait()
    if status < 0:
        # (the disposition of SIGKILL cannot be set)
        with contextlib.suppress(OSError):
            signal.signal(-status, signal.SIG_DFL)
        os.kill(os.getpid(), -status)
    return status


def say(started: subprocess.Popen[bytes], sayings: Sayings, is_kept: bool) -> int:
    """Says the lines of the program, and returns its exit status; or 3 if one cannot be written. A stream is not written again after that."""
    pipes = {pipe.fileno(): stream for pipe, stream in ((started.stdout, OUT), (started.stderr, ERR)) if pipe}
    are_written, kept = {OUT: True, ERR: True}, []
    for stream, line in lines(pipes):
        if stream == ERR and is_kept:
            kept.append(line)
        else:
            are_written[stream] = are_written[stream] and is_written(stream, sayings.of_line(line))
    if are_written[OUT]:
        # (else a trace reports nothing more)
        are_written[ERR] = are_written[ERR] and is_written(ERR, "".join(map(sayings.of_line, kept)))
    status = ended(started)
    if not are_written[OUT]:
        is_written(ERR, UNWRITTEN)
    return status if all(are_written.values()) else FAULT


def handle(numbers: list[int], do: Callable[[int], None]) -> None:
    """Does this at each of these signals."""
    for number in numbers:
        signal.signal(number, lambda number, frame: do(number))


def run(program: str, words: list[str]) -> int:
    """Runs the program with these words, and says its lines. Returns the exit status."""
    open_streams()
    for stream, number in LEFT.items():
        os.dup2(stream, number)
    out, err = (None if is_taken(stream, words) else subprocess.PIPE for stream in (OUT, ERR))
    came: list[int] = []
    handled = [number for number in ENDING if signal.getsignal(number) != signal.SIG_IGN]
    handle(handled, came.append)
    # (a program that was compiled just now is open under a number)
    with subprocess.Popen([program, *words], stdout=out, stderr=err, close_fds=False) as started:
        handle(handled, started.send_signal)
        for number in came:
            started.send_signal(number)
        try:
            return say(started, Sayings(), words[:1] in [[it] for it in KEPT])
        except Refused as refused:
            started.kill()
            is_written(ERR, refused.reported)
            return refused.status
