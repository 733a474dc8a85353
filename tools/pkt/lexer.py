"""The lexer: the words of a text, and reading them one after another."""
import re
from itertools import pairwise
from pathlib import Path as File

from .cures import RANGE, cure_of, field_meant, header_meant
from .headers import Headers
from .syntax import PORT, Path, Place, Row, SourceError, require

WORD = re.compile(
    r"(?P<blank>[ \t\r]+|\#[^\n]*)|(?P<line>\n)"
    r"|(?P<ip6>(?:(?:[0-9a-fA-F]{1,4}:){6}|[0-9a-fA-F:]*::(?:[0-9a-fA-F]{1,4}:)*)\d+\.\d+\.\d+\.\d+(?!\d|\.\d)"
    r"|(?:[0-9a-fA-F]{1,4}:){7}[0-9a-fA-F]{1,4}(?![\w:])|[0-9a-fA-F:]*::[0-9a-fA-F:]*)"
    r"|(?P<foreign>[0-9a-fA-F]{2}(?:-[0-9a-fA-F]{2}){5}(?![\w-])|[0-9a-fA-F]{4}\.[0-9a-fA-F]{4}\.[0-9a-fA-F]{4}(?![\w.]))"
    r"|(?P<ethernet>[0-9a-fA-F]{2}(?::[0-9a-fA-F]{2}){5}(?![0-9a-fA-F:]))"
    r"|(?P<ip>\d+\.\d+\.\d+\.\d+(?!\d|\.\d))|(?P<number>0x[0-9a-fA-F]+|\d+)|(?P<name>[A-Za-z_]\w*)|(?P<string>\"[^\"\n]*\")"
    r"|(?P<sign>\.\.|<<=|>>=|<<|>>|==|!=|<=|>=|[-+*&|^]=|[-+*&|^~<>=(){}.,:/@])|(?P<wrong>.)",
    re.ASCII,
)
# The kinds of words that are none, and of numbers.
WRONG, NUMBERS = ("wrong", "foreign"), ("number", "ip", "ip6", "ethernet")
RESERVED = frozenset(
    "after and auto chain clone const cut drop else free given header if in length let lookup mend need new next not on optional or otherwise over"
    " pop port ports push queue segments send sum this truncate while".split()
)


def words_of(text: str, line: int = 1) -> list[tuple[str, Place]]:
    """The words of a text that begins in this line, each with its kind, and one for its end. What is no word is one too, for an error."""
    found, begin = [], 0
    for match in WORD.finditer(text):
        kind, at = str(match.lastgroup), Place(line, match.start() - begin + 1, match.group())
        if kind == "line":
            line, begin = line + 1, match.end()
        elif kind != "blank":
            found.append((kind, at))
    return [*found, ("end", Place(line, len(text) - begin + 1, "the end of the text"))]


def require_word(holds: object, at: Place, message: str, kind: str = "") -> None:
    """Raises an error, with the cure for the word at its place."""
    if not holds:
        raise SourceError(at, message, cure_of(at.word, RESERVED, kind=kind))


def is_right_after(before: Place, at: Place) -> bool:
    """Whether a word stands right after another one, without a blank between them."""
    return at[:2] == (before.line, before.column + len(before.word))


def no_word(kind: str, at: Place) -> SourceError:
    """The error for what is no word."""
    if kind == "foreign":
        return SourceError(at, f"{at.word} is no number", "an Ethernet address has colons, as in 02:00:00:00:00:01")
    return SourceError(at, f"no word begins with {at.word!r}", cure_of(at.word))


class Lexer:
    """Reads the words of one text; headers may be declared already. `names` has the meaning of each name, and `rows` its lines, from 1 on, and then those of the files it includes."""

    def __init__(self, text: str, headers: Headers) -> None:
        self.words, self.next, self.headers = words_of(text), 0, headers
        self.names: dict[str, str] = {**dict.fromkeys(headers, "a header"), PORT: "a variable"}
        self.rows = [Row(None, number, row) for number, row in enumerate(["", *text.split("\n")])]

    def insert(self, path: File, text: str) -> None:
        """Puts the words of a file before the next word."""
        first = len(self.rows)
        self.rows += [Row(path, number, row) for number, row in enumerate(text.split("\n"), 1)]
        self.words[self.next : self.next] = words_of(text, first)[:-1]

    def starts(self, *words: str) -> bool:
        """Whether the next word is one of these, and a name or a text is after it."""
        return self.sees(*words) and self.words[min(self.next + 1, len(self.words) - 1)][0] in ("name", "string")

    def place(self, further: int = 0) -> Place:
        """The next word, or one further on."""
        return self.words[min(self.next + further, len(self.words) - 1)][1]

    @property
    def kind(self) -> str:
        """The kind of the next word."""
        return self.words[self.next][0]

    def sees(self, *words: str) -> bool:
        """Whether the next word is one of these."""
        return self.kind != "string" and self.place().word in words

    def sees_header(self, sign: str) -> bool:
        """Whether the next two words are a header and this sign."""
        return self.place().word in self.headers and self.place(1).word == sign

    def take(self, wanted: str = "", cure: str = "") -> Place:
        """The next word, which must be this one."""
        place = self.place()
        if self.kind in WRONG:
            raise no_word(self.kind, place)
        if wanted and not self.sees(wanted):
            # A colon right before a word is one of an address.
            is_in_address = place.word == ":" and is_right_after(place, self.place(1))
            cure = cure or cure_of(place.word, RESERVED, "" if is_in_address else wanted, self.kind)
            raise SourceError(place, f"{wanted!r} is expected here, and this is {place.word!r}", cure)
        self.next = min(self.next + 1, len(self.words) - 1)
        return place

    def clearer(self, error: SourceError) -> SourceError:
        """The error itself, or what is wrong with the word where the parser is: it is none, or letters come right after a number."""
        if self.kind in WRONG:
            return no_word(self.kind, self.place())
        for (other, before), (kind, at) in pairwise(self.words[max(self.next - 2, 0) : self.next + 1]):
            is_joined = is_right_after(before, at) and other in NUMBERS and kind == "name"
            if is_joined and error.at == at:
                whole = before._replace(word=before.word + at.word)
                return SourceError(whole, f"{whole.word} is no number", "a number is decimal, or hexadecimal as 0x1f, and has only digits")
        error.cure = self.cure_of_joined(error.at) or error.cure
        return error

    def around(self, at: Place) -> list[tuple[str, Place]]:
        """A word, the two before it and the two after it, each with its kind."""
        index, end = next((k for k, (_, it) in enumerate(self.words) if it == at), 0), ("end", Place(0, 0, ""))
        return [self.words[it] if 0 <= it < len(self.words) else end for it in range(index - 2, index + 3)]

    def cure_of_joined(self, at: Place) -> str:
        """The cure for words that stand right after one another and were meant as one: a name with a dash, a number with a dot or a colon."""
        (_, first), (before, left), (kind, _), (after, right), (beyond, last) = self.around(at)
        is_left, is_right = is_right_after(left, at), is_right_after(at, right)
        if at.word == "-" and is_left and is_right and before == "name" and after in ("name", "number"):
            return f"a name has letters, digits and _, and no dash: {left.word}_{right.word}"
        if kind == "name" and right.word == "-" and is_right and beyond == "name" and is_right_after(right, last) and self.names_nothing(at):
            return f"a name has letters, digits and _, and no dash: {at.word}_{last.word}"
        if at.word == "." and (left.word == ".." or before == after == "number" and first.word == "in" and last.word not in (".", "/")):
            return RANGE
        if at.word == "." and before == after == "number" and is_left and is_right and last.word not in (".", "/"):
            return "a number is a whole one; an IPv4 address has four parts"
        if at.word == ":" and before == after == "number" and first.word == "in" and last.word != ":":
            return RANGE
        return ""

    def names_nothing(self, at: Place) -> bool:
        """Whether a word is the name of nothing that was declared."""
        return at.word not in RESERVED and at.word not in self.names

    def may(self, word: str) -> bool:
        """Whether the next word is this one; takes it then."""
        return bool(self.sees(word) and self.take())

    def name(self, what: str, may_be_reserved: bool = False, cure: str = "") -> Place:
        """The next word, which must be a name."""
        at = self.place()
        is_name, is_now = self.kind == "name" and (at.word not in RESERVED or may_be_reserved), "a reserved word" if at.word in RESERVED else "none"
        cure = cure or ("take another name" if at.word in RESERVED else cure_of(at.word) or "a name begins with a letter")
        require(is_name, at, f"the name of {what} is expected here, and {at.word!r} is {is_now}", cure)
        return self.take()

    def header_name(self) -> Place:
        """The name of a header."""
        at = self.place()
        if self.kind != "name" or at.word not in self.headers:
            raise SourceError(at, f"a header is expected here, and {at.word!r} is none", self.known_headers(at.word))
        return self.take()

    def known_headers(self, word: str) -> str:
        """The headers, and the one that may be meant by a word, for an error."""
        is_name = word.isidentifier() and word not in RESERVED
        near = header_meant(word, self.headers) if word.isidentifier() else ""
        declared = f"; header {word} {{ a:8 }} after udp if udp.dport == 7, before it, declares one"
        return f"{f'did you mean {near}? ' if near else ''}the known headers are {', '.join(self.headers)}{'' if near or not is_name else declared}"

    def field_name(self, header: str) -> str:
        """The name of a field of a header."""
        name, fields = self.name("a field", may_be_reserved=True), {**self.headers[header].fields, **self.headers[header].wide}
        if name.word not in fields:
            near = name.word if name.word in self.headers else field_meant(header, name.word, fields)
            are_halves = f"{name.word}_hi" in fields and f"{name.word}_lo" in fields
            meant = f"{name.word}:128 in the declaration has both halves; " if are_halves else f"did you mean {near}? " if near else ""
            cure = f"{meant}its fields are {', '.join(fields)}"
            raise SourceError(name, f"{header} has no field {name.word}", cure)
        return name.word

    def path(self) -> Path:
        """Headers that follow each other."""
        names = [self.header_name().word]
        while self.may("/"):
            at = self.header_name()
            before = self.headers[at.word].follows
            cure = f"it follows {', '.join(before)}" if before else "it follows no other"
            require(before.keys() & {*names}, at, f"{at.word} cannot follow {names[-1]}", cure)
            names.append(at.word)
        require(not self.sees("."), self.place(), "a path has headers, and no fields", f"{names[-1]} alone, or its field alone")
        return tuple(names)
