"""Reads what utd printed: tables, answers of ASK, and lines of refusals."""
import re
from dataclasses import dataclass

CELL = r"\| ('(?:[^']|'')*'|[^' |]+) *"
LINE = re.compile(rf'(?:{CELL})*\|')
ANSWERS = ('TRUE', 'FALSE')
REFUSAL = re.compile(r'statement [0-9]+ refused: ')


class NotPrinted(ValueError):
    """Text that utd does not print."""


@dataclass
class Table:
    """A table as it was printed: the values of its rows are as they stand in their cells."""
    number: int
    names: list[str]
    rows: list[list[str]]
    text: str

    def intervals(self):
        """The places of the attributes that are intervals; a table without rows does not tell."""
        return [place for place, value in enumerate(self.rows[0]) if value.startswith('[')] if self.rows else []


def cells_of(line, at):
    if not LINE.fullmatch(line):
        raise NotPrinted(f'line {at + 1} is no line of a table')
    return re.findall(CELL, line)


def table_of(lines, at, number):
    """The table whose heading is at this line, and the line behind it."""
    names, rows, end = cells_of(lines[at], at), [], at + 1
    while lines[end].startswith('|'):
        rows.append(cells_of(lines[end], end))
        end += 1
    if lines[end] != f'rows: {len(rows)}' or any(len(row) != len(names) for row in rows):
        raise NotPrinted(f'the table at line {at + 1} is not whole')
    return Table(number, names, rows, '\n'.join(lines[at:end + 1])), end + 1


def read(text):
    """The tables and the lines of refusals of what was printed. Only a line feed ends a line, as texts may hold other ends of lines."""
    lines, at = text.split('\n'), 0
    tables, refusals = [], []
    while at < len(lines) - 1:
        if lines[at].startswith('|'):
            table, at = table_of(lines, at, len(tables) + 1)
            tables.append(table)
            continue
        if REFUSAL.match(lines[at]):
            refusals.append(lines[at])
        elif lines[at] not in ANSWERS:
            raise NotPrinted(f'line {at + 1} is none that utd prints')
        at += 1
    if lines[-1]:
        raise NotPrinted('the last line is not whole')
    return tables, refusals


def shown(value):
    """A value as a picture shows it: a text without its quotes, unless it is empty."""
    return value[1:-1].replace("''", "'") if value.startswith("'") and value != "''" else value
