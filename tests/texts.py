#!/usr/bin/env python3
"""Checks what needs no proof, before the proofs: the layout of code, definitions and proofs; that each wrong body can be made, and how many
there are; the links of pages; and the syntax files.

Usage: tests/texts.py   (some 12 seconds)
Prints a line for each file that `rt fmt` would change, for each line of more than 160 columns, and for each edit whose old text does not
occur exactly once, for each lemma that a tactic is to use from a module that is not there, for each page with the marks of a merge, for
each link of a page to a file or a heading that is not there, for each name of a page or a script that is not there, for each word of a
language that its syntax files lack, and if the table of the gate's scripts is another; exits with 1 if there is one."""
import collections
import concurrent.futures
import functools
import pathlib
import re
import shutil
import subprocess
import sys
import tempfile

import shared.paths  # noqa: F401

from model.programs import FORMS
from pkt.lexer import RESERVED
from pkt.parser.grammar import WORDS
from planted import CRATES, FOLDERS, TOP, Tally, counted, edits_in, fit, lanes

# What `rt fmt` lays out in a crate.
PARTS = ("src", "specs", "proofs")
WIDTH = 160


def laid_otherwise(crate: str, room: pathlib.Path) -> list[str]:
    """The files of a crate that `rt fmt` would change; it runs in a copy."""
    here, there = TOP / "crates" / crate, room / "crates" / crate
    for part in (it for it in PARTS if (here / it).is_dir()):
        shutil.copytree(here / part, there / part)
    subprocess.run(["rt", "fmt"], cwd=there, check=True, stdout=subprocess.DEVNULL)
    files = [it for part in PARTS for it in sorted((here / part).rglob("*.*t"))]
    return [str(it.relative_to(TOP)) for it in files if it.read_bytes() != (there / it.relative_to(here)).read_bytes()]


def too_wide(crate: str) -> list[str]:
    """The lines of a crate that are wider than a line may be."""
    files = [it for part in PARTS for it in sorted((TOP / "crates" / crate / part).rglob("*.*t"))]
    return [f"{it.relative_to(TOP)}:{number}" for it in files for number, line in enumerate(it.read_text().splitlines(), 1) if len(line) > WIDTH]


def missing_lemmas(crate: str) -> list[str]:
    """The places where code names a lemma of a proof module that the crate does not have."""
    found, here = [], TOP / "crates" / crate
    for file in sorted((here / "src").rglob("*.rt")):
        for path in re.findall(r"crate::proofs::([\w:]+)", file.read_text()):
            words = path.split("::")
            if not any((here / "proofs").joinpath(*words[:k]).with_suffix(".antt").is_file() for k in range(1, len(words))):
                found.append(f"{file.relative_to(TOP)}: there is no module of {path}")
    return found


def pages() -> list[pathlib.Path]:
    """The pages of the repository."""
    return [*sorted(TOP.glob("*.md")), TOP / "examples/README.md", *sorted((TOP / "docs").rglob("*.md"))]


def merged_pages() -> list[str]:
    """The pages with the marks that a merge leaves."""
    return [f"{it.relative_to(TOP)}: the marks of a merge" for it in pages() if re.search(r"^(<{7}|>{7}) ", it.read_text(), re.MULTILINE)]


def without_code(page: pathlib.Path) -> str:
    """The text of a page without its blocks of code."""
    return re.sub(r"^ *```.*?^ *```", "", page.read_text(), flags=re.MULTILINE | re.DOTALL)


@functools.cache
def anchors(page: pathlib.Path) -> frozenset[str]:
    """The anchors of a page's headings: their words in small letters, with - between them, and a number from the second of the same name on."""
    seen: collections.Counter = collections.Counter()
    found = set(re.findall(r'<a (?:id|name)="([^"]+)"', page.read_text()))
    for heading in re.findall(r"^#+ +(.*?) *#*$", without_code(page), re.MULTILINE):
        words = re.sub(r"\[([^\]]*)\]\([^)]*\)", r"\1", heading).lower()
        name = re.sub(r"[^\w\- ]", "", words).replace(" ", "-")
        found.add(f"{name}-{seen[name]}" if seen[name] else name)
        seen[name] += 1
    return frozenset(found)


def broken_links(page: pathlib.Path) -> list[str]:
    """The relative links of a page that lead nowhere."""
    found, text = [], re.sub(r"`[^`\n]*`", "", without_code(page))
    for link in re.findall(r"\]\(\s*<?([^)\s>]+)>?[^)]*\)", text) + re.findall(r"^\[[^\]]+\]: +(\S+)", text, re.MULTILINE):
        path, _, anchor = link.partition("#")
        to = (page.parent / path).resolve() if path else page
        if re.match(r"[a-z]+:", link):
            continue
        if not to.exists() or (anchor and to.suffix == ".md" and anchor not in anchors(to)):
            found.append(f"{page.relative_to(TOP)}: the link {link} leads nowhere")
    return found


def dead_names() -> list[str]:
    """The pages and scripts that pages, code, scripts, the manual page and the gate name and that are not there."""
    code = [it for part in (*PARTS, "planted") for it in sorted((TOP / "crates").glob(f"*/{part}/**/*")) if it.is_file()]
    files = [TOP / ".ci/run", *(it for name in ("bench", "share", "tests", "tools") for it in sorted((TOP / name).rglob("*")) if it.is_file())]
    found = []
    # (the list of changes names what was there once)
    for file in code + files + [it for it in pages() if it.name != "CHANGELOG.md"]:
        for name in re.findall(r"(?<![\w/.-])(?:docs|tests|tools|bench)/[\w/]+\.(?:md|py|c)\b", file.read_text(errors="replace")):
            if not (TOP / name).is_file():
                found.append(f"{file.relative_to(TOP)}: there is no {name}")
    return found


def unlisted_words() -> list[str]:
    """The words of node programs and of the language pkt that a file of their syntax does not have."""
    words = {"dpv": set(FORMS), "pkt": RESERVED | set(WORDS)}
    files = [(TOP / f"share/syntax/{kind}.{end}", listed) for kind, listed in words.items() for end in ("vim", "tmLanguage.json")]
    found = [(file, word) for file, listed in files for word in sorted(listed - set(re.findall(r"\w+", file.read_text().replace("\\b", " "))))]
    return [f"{file.relative_to(TOP)}: the word {word} is missing" for file, word in found]


def other_table() -> list[str]:
    """The page on the gate, if it does not have the table of scripts as they are."""
    table = subprocess.run([sys.executable, TOP / "tests/run.py", "--list"], check=True, capture_output=True, text=True).stdout
    page = TOP / "docs/developing/testing.md"
    return [] if table in page.read_text() else [f"{page.relative_to(TOP)} has another table than tests/run.py --list"]


def main() -> int:
    with tempfile.TemporaryDirectory(prefix="texts-") as room:
        shutil.copy(TOP / "crates.txt", room)
        with concurrent.futures.ThreadPoolExecutor(lanes(0)) as pool:
            files = [file for found in pool.map(lambda it: laid_otherwise(it, pathlib.Path(room)), CRATES) for file in found]
    for file in files:
        print(f"{file}: rt fmt lays it out otherwise")
    wide = [line for crate in CRATES for line in too_wide(crate)]
    for line in wide:
        print(f"{line}: more than {WIDTH} columns")
    other = [line for crate in CRATES for line in missing_lemmas(crate)] + merged_pages() + dead_names() + unlisted_words() + other_table()
    other += [line for page in pages() for line in broken_links(page)]
    for line in other:
        print(line)
    tally = Tally()
    for crate in CRATES.values():
        fit([it for name in FOLDERS for it in edits_in(crate, name)], tally)
    page = (TOP / "docs/developing/notes/wrong_bodies.md").read_text()
    is_counted = page == counted(page)
    if not is_counted:
        print("docs/developing/notes/wrong_bodies.md counts what was there before: run tests/planted.py --count")
    print(f"texts: {len(files)} laid out otherwise, {len(wide)} lines too wide, {len(tally.unfit)} wrong bodies that cannot be made")
    return 1 if files or wide or other or tally.unfit or not is_counted else 0


if __name__ == "__main__":
    sys.exit(main())
