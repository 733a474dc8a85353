"""Reads declarations: constants, sets, numbers with a name, a `def`, included files, and what is `given`."""
from collections.abc import Callable
from dataclasses import replace

from ..cures import ALONE
from ..lexer import RESERVED
from ..syntax import PORT, THIS, Drop, Name, Number, Send, SourceError, Wide, require
from .grammar import NUMBERS
from .headers import HeaderDeclarations
from .nodes import as_number, constant_of
from .program import Function, Program
from .statements import Statements


class Declarations(Statements, HeaderDeclarations):
    """Reads declarations."""

    def declare_ports(self, program: Program) -> None:
        program.ports, program.has_ports = self.limited("number of ports", 1), True

    def declare_segments(self, program: Program) -> None:
        program.segments = self.limited("number of segments", 1)

    def declare_number(self, what: str) -> None:
        """A name for a number of a table, a pool or a ring."""
        at = self.name(f"a {what}")
        self.declare(at, at.word, f"a {what}")
        self.take("=", f"{what} {at.word} = 0" + (f"; {ALONE}" if self.place().line == at.line and self.kind == "name" or self.sees("{") else ""))
        self.numbered[at.word] = what, self.limited(what)

    def declare_table(self, _: Program) -> None:
        self.declare_number("table")

    def declare_pool(self, _: Program) -> None:
        self.declare_number("pool")

    def declare_ring(self, _: Program) -> None:
        self.declare_number("ring")

    def declare_port(self, _: Program) -> None:
        at = self.name("a port")
        self.declare(at, at.word, "a port")
        self.take("=", f"port {at.word} = 0")
        self.constants[at.word] = Number(at, self.limited("port"))

    def declare_set(self, _: Program) -> None:
        at = self.name("a set")
        self.declare(at, at.word, "a set")
        self.take("=", f"set {at.word} = {{80, 443}}")
        require(self.sees("{"), self.place(), f"'{{' is expected here, and this is {self.place().word!r}", "set WEB = {80, 443}")
        self.sets[at.word] = self.listed()
        for item in self.sets[at.word]:
            number = item.number.high if isinstance(item.number, Wide) else item.number
            constant_of(number, "a set has constants; x == y compares two numbers")

    def declare_def(self, _: Program) -> None:
        at, parameters = self.name("a def"), list[str]()
        self.declare(at, at.word, "a def")
        self.take("(")
        while not self.may(")"):
            name = self.name("a parameter", cure="take another name" if self.place().word in RESERVED else f"def {at.word}(a, b) {{ .. }} has two")
            is_new = name.word not in self.names and name.word not in parameters
            require(is_new, name, f"{name.word} is {self.names.get(name.word, 'a parameter')} already", "take another name")
            parameters.append(name.word)
            self.comma_before(")")
        self.functions[at.word] = Function(at, tuple(parameters), self.next)
        begin, depth = self.take("{"), 1
        while depth:
            require(self.kind != "end", begin, f"the block of {at.word} has no end", "a block ends with }")
            depth += self.sees("{") - self.sees("}")
            self.take()

    def declare_include(self, _: Program) -> None:
        at = self.place()
        require(self.kind == "string", at, f"a file in quotes is expected here, and this is {at.word!r}", 'include "net.pkt"')
        self.take()
        folder = self.rows[at.line].path.parent if self.rows[at.line].path else self.folder  # type: ignore[union-attr]
        if folder is None:
            raise SourceError(at, "a text that is no file includes none")
        path = folder / at.word.strip('"')
        if path.resolve() in self.included:
            return
        self.included.add(path.resolve())
        try:
            self.insert(path, path.read_text(encoding="utf-8"))
        except (OSError, UnicodeDecodeError, ValueError) as error:
            why = error.strerror if isinstance(error, OSError) else "it is no UTF-8 text"
            raise SourceError(at, f"{path} cannot be read: {why}", "the file is looked for beside the one that names it") from None

    def declare_const(self, _: Program) -> None:
        at = self.name("a constant")
        self.declare(at, at.word, "a constant")
        is_typed = self.sees("<") or self.kind == "name" and self.place().line == at.line
        self.take("=", f"a constant has no type: const {self.place().word if self.kind == 'name' else 'A'} = 1" if is_typed else f"const {at.word} = 1")
        require(not self.sees("{"), self.place(), "a number is expected here, and this is '{'", f"set {at.word} = {{1, 2}} names a list")
        value = self.operation(NUMBERS)
        require(not self.sees("/", ".."), self.place(), "a prefix or a range is no number", f"set {at.word} = {{10.0.0.0/8, 80..90}}, and x in {at.word}")
        if not isinstance(value, Wide) or not isinstance(value.high, Number):
            constant_of(as_number(value), f"let {at.word} = .. has a number that the packet gives")
        is_whole = not isinstance(value, Number) or not value.wraps
        require(is_whole, value.at, f"the calculation of {at.word} leaves 0 to 2^64 - 1, and would be cut to 64 bits", "~0 has all 64 bits")
        self.constants[at.word] = replace(value, is_masked=False) if isinstance(value, Number) else value  # type: ignore[assignment]

    def declare_otherwise(self, program: Program) -> None:
        require(not self.sees("{", ":"), self.place(), f"after `otherwise` is a statement, and this is {self.place().word!r}", "otherwise drop")
        at, (it, *_) = self.place(), self.statement()
        is_sent = isinstance(it, Send) and it.packet == THIS and it.fallback is None and (isinstance(it.port, (int, Number)) or it.port == Name(at, PORT))
        require(is_sent or isinstance(it, Drop), at, "after `otherwise` is `drop`, `send port`, `send` with a constant, or `queue`, and no `else`")
        program.otherwise = it

    def declare_given(self, program: Program) -> None:
        at = self.place()
        program.given_at = program.given_at or at
        require(not self.sees("ports", "segments"), at, f"`given` has no {at.word}", f"{at.word} 4 is a declaration of its own")
        what = at.word if self.sees("shared", "length") or at.word == "headroom" else "a path"
        require(what not in self.given, at, f"`given` has {what} already", "one of each is enough")
        self.given.add(what)
        if self.may("shared"):
            program.is_shared = True
        elif self.may("headroom"):
            program.headroom = self.limited("headroom")
        elif self.may("length"):
            program.length = self.limited("count")
        else:
            program.given = self.path()
            is_fixed = not self.headers[program.given[0]].follows and not any(self.headers[name].bits for name in program.given[:-1])
            cure = "as in given eth/ipv4; `need` asks for the rest"
            require(is_fixed, at, "a given path begins at byte 0, and each header but the last has one length", cure)


# What reads each declaration.
DECLARATIONS: dict[str, Callable[[Declarations, Program], None]] = {
    "const": Declarations.declare_const, "ports": Declarations.declare_ports, "segments": Declarations.declare_segments,
    "otherwise": Declarations.declare_otherwise, "given": Declarations.declare_given, "header": Declarations.declare_header,
    "set": Declarations.declare_set, "def": Declarations.declare_def, "include": Declarations.declare_include,
    "extend": Declarations.declare_extend, "table": Declarations.declare_table, "pool": Declarations.declare_pool, "ring": Declarations.declare_ring,
    "port": Declarations.declare_port,
}  # fmt: skip
