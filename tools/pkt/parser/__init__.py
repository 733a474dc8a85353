"""The parser: reads a text by the grammar of docs/users/pkt.md, and resolves each name.

grammar.py has the tables of the grammar, program.py what is made of a text, and nodes.py makes the nodes of expressions. The parser is a
class in parts, each of which uses those before it:
    state.py         what is known where the parser is: names, counts, notes
    checks.py        what is refused or noted in conditions and operations
    expressions.py   numbers, conditions, the items after `in`
    statements.py    statements and blocks
    headers.py       the declarations of headers
    declarations.py  all other declarations
"""
from ..syntax import require
from .declarations import DECLARATIONS, Declarations
from .program import Program


class Parser(Declarations):
    """Reads a whole text."""

    def program(self) -> Program:
        """The whole text."""
        program, said = Program(self.headers), set[str]()
        while self.kind != "end":
            at = self.place()
            if not self.declares():
                path = self.rows[at.line].path
                require(path is None, at, "an included file has only declarations", "def f() { .. } has statements, and f() uses them")
                program.statements += self.statement(program.statements[-2:])
                continue
            require(at.word not in said & {"ports", "segments", "otherwise"}, at, f"{at.word} is declared twice", "one of them is enough")
            said.add(self.take().word)
            DECLARATIONS[at.word](self, program)
        unused = [it for name, it in self.functions.items() if name not in self.used and self.rows[it.at.line].path is None]
        self.notes |= {it.at: f"{it.at.word} is used nowhere, so its block was not read" for it in unused}
        program.rows, program.notes, program.clauses = self.rows, self.notes, self.clauses
        return program
