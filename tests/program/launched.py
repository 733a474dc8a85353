#!/usr/bin/env python3
"""Runs `dpv filter` on programs of the language pkt through the launcher, which compiles them first, and `dpv build`.

Usage: tests/program/launched.py [PROGRAM]   (the built program; by default the one that ./dpv builds and runs; some seconds)
The output may be no file that the compiler reads, under whichever name; the words after -- are operands; a name that the words give is
kept; wrong words and files that cannot be read are answered as without the launcher; help has its commands, too; a program that wants more
than one port and one pool is an error with its place; without the toolchain ./dpv says so, and builds nothing; and no temporary file is
left, even if a signal ends the run. Prints each case that failed, and a count; exits with 1 if one did.
"""
import os
import pathlib
import shutil
import signal
import subprocess
import sys
import time

import paths  # noqa: F401

from command import TOP, asked, new_folder, report_cases

SEND = "send port\n"
INCLUDES = 'include "net.pkt"\ninclude "empty.pkt"\nsend A\n'
NET = "const A = 0\n"
# reads beyond what is known of the first segment
READS = "if udp.dport == 9 { mend ipv4.dscp = 46 }\nsend port\n"
# programs that want more than `dpv filter` gives, by their files
MORE = {
    "table.pkt": "include \"net.pkt\"\nlet hop = lookup A ipv4.dst else drop\nsend port\n",
    "ring.pkt": "if ipv4 {\n  queue 0\n}\nsend port\n",
    "pool.pkt": "clone copy from 1 else drop\nsend copy to port\nsend port\n",
    "port.pkt": "ports 2\nif ipv4 { send port }\nsend 1\n",
    "given.pkt": "given eth\nsend port\n",
}
REPORT = "port 0 received 20 nobuf 0 oversize 0 sent 20 input whole\npool 0 free 64 of 64\ncalls 20 refused 0\n"
# what is read, the output, and the name under which the file is read
READ = [
    ("send.pkt", "send.pkt", "send.pkt"),
    ("./send.pkt", "send.pkt", "send.pkt"),
    ("send.pkt", "./send.pkt", "send.pkt"),
    ("send.pkt", "link.pcap", "send.pkt"),
    ("send.pkt", "hard.pcap", "send.pkt"),
    ("includes.pkt", "net.pkt", "net.pkt"),
]
# words that run a program, and the first line after the report, if there is one
RUN = [
    (["send.pkt", "in.pcap", "out.pcap"], None),
    (["--", "-x.pkt", "in.pcap", "out.pcap"], None),
    (["my -x.pkt", "in.pcap", "out.pcap"], None),
    (["--counts", "--", "--name=x.pkt", "in.pcap", "out.pcap"], "port 0 --name=x.pkt"),
    (["--", "--segs=9.pkt", "in.pcap", "out.pcap"], None),
    (["--counts", "send.pkt", "in.pcap", "out.pcap"], "port 0 send.pkt"),
    (["--name", "mine", "send.pkt", "in.pcap", "out.pcap", "--counts"], "port 0 mine"),
    (["send.pkt", "in.pcap", "out.pcap", "--counts", "--name=send.pkt"], "port 0 send.pkt"),
    (["--room", "2000", "includes.pkt", "in.pcap", "out.pcap"], None),
    (["--segs", "3", "reads.pkt", "in.pcap", "out.pcap"], None),
    (["reads.pkt", "--segs=64", "in.pcap", "out.pcap"], None),
]
# programs whose names look like options
OPTIONS = ("--name=x.pkt", "--segs=9.pkt")
# what help says of the launcher's own commands
COMMANDS = """
More commands:
  build FILE.pkt         Compiles a program of the language pkt, and prints the node program
  compile FILE           Prints the Rattle module with which dpv is built for a pipeline's programs
"""
# words, the status, and what standard error has
WRONG = [
    (["filter", "send.pkt", "in.pcap"], 2, "Usage: dpv filter <PROGRAM> <IN> <OUT>\n"),
    (["filter", "send.pkt", "in.pcap", "out.pcap", "more"], 2, "error: unexpected argument 'more' found\n"),
    (["filter", "--sorce", "send.pkt", "in.pcap", "out.pcap"], 2, "Usage: dpv filter --source <PROGRAM> <IN> <OUT>\n"),
    (["filter", "send.pkt", "in.pcap", "out.pcap", "--room"], 2, "error: a value is required for '--room <N>' but none was supplied\n"),
    (["filter", "folder.pkt", "in.pcap", "out.pcap"], 3, "fault: pipeline 5 File port 0\n  file: folder.pkt\n"),
    (["filter", "none.pkt", "in.pcap", "out.pcap"], 3, "fault: pipeline 5 File port 0\n  file: none.pkt\n"),
    (["filter", "bytes.pkt", "in.pcap", "out.pcap"], 3, "bytes.pkt:1: this line is no UTF-8 text\n  help: save the file as UTF-8\n"),
    (["filter", "wrong.pkt", "in.pcap", "out.pcap"], 1, "wrong.pkt:1:1: "),
    (["filter", "table.pkt", "in.pcap", "out.pcap"], 1, "table.pkt:2:1: dpv filter has no table\n"),
    (["filter", "ring.pkt", "in.pcap", "out.pcap"], 1, "ring.pkt:2:3: dpv filter has no ring\n"),
    (["filter", "pool.pkt", "in.pcap", "out.pcap"], 1, "pool.pkt:1:1: dpv filter has pool 0 alone\n"),
    (["filter", "port.pkt", "in.pcap", "out.pcap"], 1, "port.pkt:3:1: dpv filter has port 0 alone\n"),
    (["filter", "given.pkt", "in.pcap", "out.pcap"], 1, "given.pkt:1:7: `given` is for a ring"),
    (["filter", "--segs", "65", "reads.pkt", "in.pcap", "out.pcap"], 2, "error: --segs '65' is not a number from 1 to 64\n"),
    (["build", "folder.pkt"], 3, "folder.pkt: Is a directory\n"),
    (["build", "none.pkt"], 3, "none.pkt: No such file or directory\n"),
    (["build", "wrong.pkt"], 1, "wrong.pkt:1:1: "),
    (["build"], 2, "Usage: dpv build FILE.pkt > FILE.dpv\n"),
]


class Launched:
    """The launcher of a built program, in a folder with programs and a capture."""

    def __init__(self, program: str, folder: pathlib.Path) -> None:
        self.folder, self.temporary, self.script = folder, folder / "temporary", folder / "dpv"
        self.temporary.mkdir()
        self.script.write_text(f'#!/bin/sh\nset -eu\nprogram="{program}" pkt="{TOP}/tools/pkt" compiled_nodes="{TOP}/tools/compiled_nodes.py" views="{TOP}/tools/views" version= commit=\n. "{TOP}/tools/launch"\nlaunch "$@"\n')
        self.script.chmod(0o755)
        shutil.copy(TOP / "examples/nat/in.pcap", folder)
        texts = {"send.pkt": SEND, "-x.pkt": SEND, "my -x.pkt": SEND, **dict.fromkeys(OPTIONS, SEND), "includes.pkt": INCLUDES, "net.pkt": NET, "empty.pkt": "", "wrong.pkt": "sned\n"}
        for name, text in (texts | MORE | {"reads.pkt": READS}).items():
            (folder / name).write_text(text)
        (folder / "bytes.pkt").write_bytes(b"\xff")
        (folder / "folder.pkt").mkdir()
        (folder / "link.pcap").symlink_to("send.pkt")
        os.link(folder / "send.pkt", folder / "hard.pcap")

    def begin(self, *words: str, stdout: int = subprocess.PIPE) -> "subprocess.Popen[str]":
        """Begins a run."""
        env = os.environ | {"TMPDIR": str(self.temporary), "LC_ALL": "C"}
        return subprocess.Popen([str(self.script), *words], cwd=self.folder, env=env, stdin=subprocess.DEVNULL, stdout=stdout, stderr=subprocess.PIPE, text=True)

    def run(self, *words: str) -> tuple[int, str, str]:
        """The status of a run, and what it prints."""
        run = self.begin(*words)
        out, err = run.communicate(timeout=60)
        return run.returncode, out, err

    def reads(self, source: str, output: str, name: str) -> bool:
        """Whether an output that the compiler reads is refused, and kept."""
        before = (self.folder / output).read_bytes()
        fault = f"fault: file {output}\n  file: {name}\n  because: the run reads this file, so it is not overwritten\n"
        status, _, err = self.run("filter", source, "in.pcap", output)
        return (status, err.replace("./", "")) == (3, fault.replace("./", "")) and (self.folder / output).read_bytes() == before

    def appends(self) -> bool:
        """Whether a source that is standard output is refused, and kept."""
        with open(self.folder / "send.pkt", "a", encoding="utf-8") as out:
            run = self.begin("filter", "send.pkt", "in.pcap", "-", stdout=out.fileno())
            err = run.communicate(timeout=60)[1]
        return (run.returncode, err.splitlines()[:2]) == (3, ["fault: file -", "  file: send.pkt"]) and (self.folder / "send.pkt").read_text() == SEND

    def helps(self) -> list[bool]:
        """Whether help has the launcher's commands, and the word help those of a command; without words all of it is an error."""
        asked_for, wrong, build = self.run("help"), self.run(), self.run("build", "--help")
        return [
            (asked_for[0], asked_for[2]) == (0, "") and asked_for[1].endswith(COMMANDS) and self.run("--help") == self.run("-h") == asked_for,
            wrong[:2] == (2, "") and wrong[2].endswith(COMMANDS),
            build[0] == 0 and build[1].startswith("Usage: dpv build FILE.pkt > FILE.dpv\n") and self.run("help", "build") == build,
        ]

    def ends(self, seconds: float) -> bool:
        """Whether a signal ends a run that waits for its input, after this time, and nothing is left of it."""
        pipe = self.folder / f"pipe{seconds}"
        os.mkfifo(pipe)
        run = self.begin("filter", "send.pkt", pipe.name, "out.pcap")
        time.sleep(seconds)
        run.send_signal(signal.SIGTERM)
        run.communicate(timeout=60)
        return run.returncode in (-signal.SIGTERM, 128 + signal.SIGTERM) and not list(self.temporary.iterdir())


def lacks_toolchain(folder: pathlib.Path) -> bool:
    """Whether ./dpv, without a command rt, says in one line that it cannot build."""
    tools = folder / "tools"
    tools.mkdir()
    for name in ("sh", "env", "python3", "dirname", "readlink", "cat", "git"):
        (tools / name).symlink_to(shutil.which(name) or "/bin/false")
    for words in (["--unproved", "check", "x.toml"], ["library", str(folder / "installed")]):
        run = subprocess.run([str(TOP / "dpv"), *words], env={"PATH": str(tools)}, capture_output=True, text=True, timeout=60)
        said = run.stderr.splitlines()
        if (run.returncode, run.stdout, len(said)) != (70, "", 1) or "rt is not on the PATH" not in said[0]:
            return False
    return not (folder / "installed").exists()


def main() -> int:
    """All cases."""
    with new_folder() as folder:
        tried = Launched(asked(), folder)
        cases = {f"{source} to {output}": tried.reads(source, output, name) for source, output, name in READ}
        cases["send.pkt to itself by >>"] = tried.appends()
        for words, line in RUN:
            status, out, err = tried.run("filter", *words)
            rest = out.removeprefix(REPORT).splitlines()
            cases[" ".join(words)] = (status, err) == (0, "") and out.startswith(REPORT) and (rest[:1] or [None]) == [line]
        for words, wanted, text in WRONG:
            status, _, err = tried.run(*words)
            cases[" ".join(words)] = status == wanted and text in err
        cases["ended at once"], cases["ended later"] = tried.ends(0.05), tried.ends(3)
        cases |= {f"help {k}": it for k, it in enumerate(tried.helps())}
        cases["no toolchain"] = lacks_toolchain(folder)
        cases["nothing is left"] = not list(tried.temporary.iterdir())
    for name, is_right in cases.items():
        if not is_right:
            print(f"launched: {name}: not as it should be")
    return report_cases("launched", list(cases.values()))


if __name__ == "__main__":
    sys.exit(main())
