"""What the parser knows where it is in a text: the meaning of each name, what it has counted, and what it has noted."""
from collections.abc import Iterator
from contextlib import contextmanager
from pathlib import Path as File

from ..cures import CURES, call_meant, number_meant
from ..headers import Headers
from ..lexer import Lexer
from ..syntax import Node, Number, Place, SourceError, Wide, require
from .grammar import MAX_IN_ALL, MAX_NESTING
from .program import Function, Item


class ParserState(Lexer):
    """A text that is being read. `unknown` has the names that are not numbers. The names of a `def` have a `suffix` where it
    is used, `active` are those that are being used. `below` is the `else` whose one statement, in a later line, was just read,
    and the blanks before that. `begun` is where the statement begins that is being read."""

    def __init__(self, text: str, headers: Headers, folder: File | None = None) -> None:
        super().__init__(text, headers)
        self.folder, self.included = folder, set[File]()
        self.sets: dict[str, list[Item]] = {}
        self.numbered: dict[str, tuple[str, int]] = {}
        self.functions: dict[str, Function] = {}
        self.suffix, self.inlined, self.active = "", 0, list[str]()
        self.constants: dict[str, Number | Wide] = {}
        self.unknown: list[Place] = []
        self.ended: set[str] = set()
        self.depth = self.statements = self.operators = 0
        self.given: set[str] = set()
        self.looked_up = ""
        self.notes, self.used, self.limits = dict[Place, str](), set[str](), dict[Node, int]()
        self.clauses, self.ordered = list[tuple[str, Place]](), set[frozenset[Node]]()
        self.below: tuple[Place, str] | None = None
        self.begun = self.place()

    def declare(self, at: Place, name: str, what: str) -> None:
        """Gives a new name its meaning."""
        is_now = self.names.get(name)
        cure = f"write {name} = .., or take another name" if is_now == "a variable" else "take another name"
        require(not is_now, at, f"{name} is {is_now} already", cure)
        self.names[name] = what

    def refuse_unknown(self) -> None:
        """Refuses names that are not numbers."""
        numbers = [word for word, what in self.names.items() if what in ("a variable", "a constant")]
        for at in self.unknown:
            fields = [(header, name) for header, it in self.headers.items() for name in (*it.fields, *it.wide)]
            cure = f"the `else` part has no {at.word}, and ends the program" if at.word == self.looked_up else number_meant(at.word, fields, numbers)
            _, (_, left), _, (_, right), _ = self.around(at)
            if cure.startswith("let ") and right.word == "(":
                cure = call_meant(at.word)
            elif cure.startswith("let ") and right.word == ":":
                cure = CURES[":"]
            elif cure.startswith("let ") and left.word in ("send", "to"):
                cure = f"port {at.word} = 0, before it, names a port; {cure}"
            if at.word in self.ended and not self.active and at.word != self.looked_up:
                cure = f"{at.word} ended with its block: let {at.word} = 0 before that block, and {at.word} = .. in it"
            if self.active and cure.startswith("let "):
                cure = f"a `def` sees no variables from outside: a parameter may have it; {cure}"
            raise SourceError(at, f"{at.word} is no variable here", cure)

    def count_operators(self, number: int) -> None:
        """Refuses more operators and items of lists in all than any program has."""
        self.operators += number
        fault = f"more than {MAX_IN_ALL:,} operators and items of lists in all"
        require(self.operators <= MAX_IN_ALL, self.place(), fault, "a program has at most 1,024 instructions; a table has many addresses")

    @contextmanager
    def nested(self, what: str) -> Iterator[None]:
        """What lies within parentheses or braces; refuses too many of them in one another."""
        self.depth += 1
        cure = "let x = .. has a part of it, or `else if` the next case"
        require(self.depth <= MAX_NESTING, self.place(), f"more than {MAX_NESTING} {what} in one another", cure)
        yield
        self.depth -= 1
