"""The programs of rows: a row of a table, and the rows that stand in a crate."""
from pathlib import Path

CRATES = Path(__file__).resolve().parent.parent / "crates"


def table_row(table, columns):
    """The line that asks a table of these columns."""
    return f"{table}\t{columns}\n"


def put(crate, first, last, asked, wanted):
    """Puts rows, and what is wanted of them, in place of those between two headings of a crate; without a last one, up to the end."""
    for name, made in (("stdin", asked), ("stdout", wanted)):
        file = CRATES / crate / name
        lines = file.read_text(encoding="utf-8").split("\n")
        start = lines.index(first) + 1
        end = lines.index(last) if last else len(lines) - 1
        file.write_text("\n".join(lines[:start]) + "\n" + made + "\n".join(lines[end:]), encoding="utf-8")
