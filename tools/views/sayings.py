"""The sayings: what is said of a line that the program prints."""
import io
import json

import fault_words
from capture_faults import say_capture
from costs import say_costs, say_sizes
from documents import Saying
from losses import say_losses
from reports import say_refusal, say_refusal_at, say_report
from runs import say_counts, say_run
from showing import Shows
from tracing import Tracing

# How a line begins that is a document.
MARK = '{"view":"'
# What is raised where a document lacks a member or has an odd one: the program prints none, but a name or a text in a line of its own may look so.
ODD = (ArithmeticError, AttributeError, LookupError, RecursionError, TypeError, ValueError)

# What is said of a document, by its member `view`.
SAYINGS: dict[str, Saying] = {
    **fault_words.SAYINGS,
    "capture": say_capture,
    "costs": say_costs,
    "counts": say_counts,
    "losses": say_losses,
    "refusal": say_refusal,
    "refusal_at": say_refusal_at,
    "report": say_report,
    "run": say_run,
    "sizes": say_sizes,
}


class Sayings:
    """What is said of the documents of one run of the program."""

    def __init__(self) -> None:
        shows = Shows()
        self.by_name = {**SAYINGS, **Tracing().by_name(), "counted": shows.counted, "show": shows.show}

    def of_line(self, line: str) -> str:
        """What is said of a line: the line itself, if it is no document that the program prints."""
        if not line.startswith(MARK):
            return line
        try:
            document = json.loads(line)
            said = self.by_name[document["view"]](document)
            # (half of a surrogate pair cannot be written)
            said.encode(errors="surrogateescape")
        except ODD:
            return line
        return said

    def of_text(self, text: str) -> str:
        """What is said of all lines of a text."""
        return "".join(self.of_line(line) for line in io.StringIO(text, newline="\n"))
