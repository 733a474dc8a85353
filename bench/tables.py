"""The tables of the benches: their lines are printed as they come, and kept in the form that pages have them."""


def number(value: float | None, places: int = 0) -> str:
    """A number as pages have it; nothing where there is none."""
    # (the sum makes 0 of -0)
    return "" if value is None else f"{round(value, places) + 0.0:,.{places}f}"


class Table:
    """A table. Its first columns have words, the others numbers; an empty cell is one that was not measured."""

    def __init__(self, columns: list[str], widths: list[int]) -> None:
        """Prints the head. There are as many widths as columns of words."""
        self.columns, self.widths = columns, widths
        self.rows: list[list[str]] = []
        self.faults: list[str] = []
        print(f"\n{self.line(columns)}", flush=True)

    def line(self, cells: list[str]) -> str:
        """A line of cells below each other."""
        count = len(self.widths)
        words = [f"{cell:<{width}}" for cell, width in zip(cells, self.widths)]
        numbers = [f"{cell or '-':>{max(len(title), 9)}}" for cell, title in zip(cells[count:], self.columns[count:])]
        return "  ".join(words + numbers)

    def row(self, *cells: str) -> None:
        """Prints a line, and keeps it."""
        self.rows.append(list(cells))
        print(self.line(list(cells)), flush=True)

    def fault(self, words: str) -> None:
        """Says what is wrong, so that nobody takes the table for a measurement."""
        self.faults.append(words)
        print(words, flush=True)

    def markdown(self) -> list[str]:
        """The lines of the table on a page."""
        lines = [self.columns, *self.rows]
        shown = ["|" + "".join(f" {cell} |" if cell else " |" for cell in cells) for cells in lines]
        return [shown[0], "|---" * len(self.columns) + "|", *shown[1:]]
