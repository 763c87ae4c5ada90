"""Tables in Markdown as the scripts of this folder and compare/figures print them, read back."""
import glob
import re


def tables_of(text):
    """Each table as its head and its rows, lists of cells."""
    for table in re.findall(r"(?:^\|.*\n?)+", text, re.M):
        lines = [[cell.strip() for cell in line.strip().strip("|").split("|")] for line in table.splitlines()]
        if len(lines) > 2:
            yield lines[0], lines[2:]


def tables_in(folder):
    """Each table of the pages below the folder with its file; of names that begin with a date the newest first."""
    found = []
    for path in sorted(glob.glob(f"{folder}/**/*.md", recursive=True), reverse=True):
        with open(path, encoding="utf-8") as file:
            found += [(path, head, rows) for head, rows in tables_of(file.read())]
    return found


def rows_of(tables, head):
    """File and rows of the first table whose head begins with such a cell; none where there is none."""
    for path, heads, rows in tables:
        if re.fullmatch(head, heads[0]):
            return path, rows
    return None, []


def number(row, column):
    """The cell's number; None where it is empty or the column is None."""
    if column is None or column >= len(row) or not row[column]:
        return None
    return float(row[column].replace(",", ""))
