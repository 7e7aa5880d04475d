"""Writes rows of figures as aligned tables for people, or as CSV for programs."""
import csv
from typing import Any, Dict, Iterable, List, Sequence, TextIO, Tuple

# a column: the key of its values in a row, and its head
Column = Tuple[str, str]
Row = Dict[str, Any]


def shown(value: Any, decimals: int, missing: str) -> str:
    """Returns a value as it is printed: a float with `decimals` decimals, None as `missing`."""
    if value is None:
        return missing
    return f"{value:.{decimals}f}" if isinstance(value, float) else str(value)


def write_table(output: TextIO, columns: Sequence[Column], rows: Iterable[Row], names: Sequence[str]) -> None:
    """Writes a head line and one line per row. Columns of `names` are set left, the others right."""
    cells = [[head for _, head in columns]]
    cells += [[shown(row.get(key), 2, "-") for key, _ in columns] for row in rows]
    widths = [max(map(len, column)) for column in zip(*cells)]
    for line in cells:
        words = [cell.ljust(width) if key in names else cell.rjust(width)
                 for cell, width, (key, _) in zip(line, widths, columns)]
        output.write(" ".join(words).rstrip() + "\n")


def write_csv(output: TextIO, keys: List[str], rows: Iterable[Row]) -> None:
    """Writes a head line and one line per row, with an empty field for what a row does not have."""
    writer = csv.writer(output, lineterminator="\n")
    writer.writerow(keys)
    for row in rows:
        writer.writerow([shown(row.get(key), 4, "") for key in keys])
