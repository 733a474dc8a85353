"""The sayings of a trace: its words, its programs, its records as they end, and its last lines."""
from documents import USAGE, Document, Refused, Saying, say_document
from program_text import instructions_in
from records import Programs, Record, is_picked, label_in
from selection import Picked, picked

UNSELECTED = "note: no record of the trace was selected\n"


class Tracing:
    """A trace as it is said."""

    def __init__(self) -> None:
        self.picked = Picked()
        self.programs: Programs = {}
        self.printed = 0

    def by_name(self) -> dict[str, Saying]:
        """What is said of each document of a trace."""
        return {"trace": self.words, "programs": self.load, "record": self.record, "traced": self.last, "selection": self.note}

    def words(self, given: Document) -> str:
        """The words of the trace are known."""
        self.picked = picked(given)
        return ""

    def load(self, given: Document) -> str:
        """The programs are loaded."""
        self.programs = {it["node"]: instructions_in(it["text"]) for it in given["programs"]}
        word = self.picked.instr
        if word is not None and all(label_in(it, word) is None for it in self.programs.values()):
            raise Refused(f"error: no program has an instruction '{word}'\n", USAGE)
        return ""

    def record(self, given: Document) -> str:
        """A record's turn is over: the record, if it is selected."""
        if not is_picked(given, self.programs, self.picked):
            return ""
        record = Record(given, self.programs)
        said = say_document(record.document()) if self.picked.is_json else record.text()
        self.printed += 1
        return said

    def last(self, given: Document) -> str:
        """The trace has ended, maybe by a fault: its last document."""
        return say_document({"fault": given["fault"], "printed": self.printed}) if self.picked.is_json else ""

    def note(self, _given: Document) -> str:
        """The trace has ended well: the note that no record was selected, if some were to be."""
        return UNSELECTED if self.picked.is_selective and not self.printed else ""
