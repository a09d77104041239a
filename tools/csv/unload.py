"""What the program prints into CSV or JSON lines."""
import csv
import datetime
import io
import json
import os
import re

import kinds
from kinds import Fault, shown
from progress import Progress

CELL = re.compile(r" (?:('(?:[^']|'')*')|([^'|]*?)) *\|")
INTERVAL = re.compile(rf'\[{kinds.ENDS.pattern}\]')
REFUSED = re.compile('statement [0-9]+ refused: ')
ROWS = re.compile('rows: ([0-9]+)')
LABEL = '_'
ANSWER = 'ANSWER'
NOT_UNDERSTOOD = 3


# ---------------------------------------------------------------- reading

def cells_of(line):
    """The entries of a line of a table, texts with their quotes."""
    found, at = [], 1
    while at < len(line):
        cell = CELL.match(line, at)
        if not cell:
            raise Fault('this is no line of a table')
        found.append(cell[1] or cell[2])
        at = cell.end()
    return found


class Reader:
    """Reads lines and hands on what they say: to `sink` the tables, by begin, row and end; to `errors` the refusals."""

    def __init__(self, sink, errors, progress):
        self.sink, self.errors, self.progress = sink, errors, progress
        self.width, self.rows, self.all_rows = None, 0, 0
        self.is_refused = False

    def read(self, line):
        count = ROWS.fullmatch(line)
        if line.startswith('|'):
            self.read_entries(cells_of(line))
        elif self.width is not None and count:
            self.end(int(count[1]))
        elif self.width is not None:
            raise Fault('a table ends without its number of rows')
        elif line in ('TRUE', 'FALSE'):
            self.sink.begin([ANSWER])
            self.sink.row([line])
            self.sink.end()
        elif REFUSED.match(line):
            self.is_refused = True
            self.sink.forget()
            self.progress.clear()
            print(line, file=self.errors, flush=True)
        else:
            raise Fault(f'the program does not print {shown(line)}')

    def read_entries(self, cells):
        if self.width is None:
            self.width, self.rows = len(cells), 0
            self.sink.begin(cells)
        elif len(cells) != self.width:
            raise Fault(f'the number of entries is {len(cells)}, and not {self.width}')
        else:
            self.rows += 1
            self.all_rows += 1
            self.progress.tell(self.all_rows)
            self.sink.row(cells)

    def end(self, number):
        if number != self.rows:
            raise Fault(f'the number of rows before it is {self.rows}')
        self.width = None
        self.sink.end()

    def finish(self):
        if self.width is not None:
            raise Fault('the last table does not end')


# ---------------------------------------------------------------- values

class Values:
    """Writes entries as fields, by the columns that were named; the others as they stand."""

    def __init__(self, wanted, options):
        self.columns = {column.name: column for column in wanted}
        self.date_format, self.is_json = options.date_format, options.json
        self.first, self.last = (given[-1] if given else None for given in (options.first, options.last))

    def fields_of(self, name):
        """The names of the fields of an attribute."""
        return self.columns[name].fields if name in self.columns else [name]

    def values_of(self, name, cell):
        """What stands in these fields for the entry."""
        column, parts = self.columns.get(name), INTERVAL.fullmatch(cell)
        try:
            if column is None:
                return [f'[{self.text_of(parts[1], None)}:{self.text_of(parts[2], None)}]' if parts else self.point_of(cell, None)]
            if not isinstance(column.kind, kinds.Interval):
                return [self.point_of(cell, column.kind)]
            if not parts:
                raise Fault(f'{cell} is no interval')
            return self.interval_of(parts[1], parts[2], column)
        except Fault as fault:
            raise Fault(f'{name}: {fault}') from None

    def interval_of(self, begin, end, column):
        begin, end = self.begin_of(begin, column.kind.point, column.left), self.end_of(end, column.kind.point, column.right)
        if len(column.fields) == 2:
            return [begin, end]
        if isinstance(column.kind.point, kinds.Moment) and column.is_bracketed:
            begin, end = (f'"{bound}"' if ' ' in bound else bound for bound in (begin, end))
        # with a comma where a colon would not be told from one of an end
        between = ',' if column.is_bracketed or ':' in begin + end else ':'
        return [f'{column.left}{begin}{between}{end}{column.right}']

    def point_of(self, cell, kind):
        """The value of an entry that is no interval, for JSON of its type."""
        text = self.text_of(cell, kind)
        if cell.startswith("'"):
            return text[1:-1].replace("''", "'")
        if self.is_json and cell in ('TRUE', 'FALSE'):
            return cell == 'TRUE'
        return int(cell) if self.is_json and cell == text and kinds.Integer.printed.fullmatch(cell) else text

    def text_of(self, cell, kind):
        """How a file has a value that the program prints so."""
        if kind is not None and not kind.printed.fullmatch(cell):
            raise Fault(f'{cell} is no {kind.name}')
        if isinstance(kind, (kinds.Integer, kinds.Moment)):
            return kind.written(cell)
        if self.date_format and kinds.Date.printed.fullmatch(cell):
            return kinds.day_in(self.date_format, datetime.date.fromisoformat(cell))
        return cell

    def begin_of(self, cell, kind, bracket):
        """The first field of an interval: its first point, or the one before where the bracket is round."""
        number, (low, _) = number_of(cell, kind), kind.numbers()
        if self.first is not None and number is not None and number == low:
            return self.first
        return self.text_of(cell if bracket == '[' else neighbour_of(number, -1, kind, '--first'), kind)

    def end_of(self, cell, kind, bracket):
        """The second field of an interval: its last point, or the one behind where the bracket is round."""
        number, (_, high) = number_of(cell, kind), kind.numbers()
        if self.last is not None and number is not None and number == high:
            return self.last
        return self.text_of(cell if bracket == ']' else neighbour_of(number, 1, kind, '--last'), kind)


def number_of(cell, kind):
    """The number of a point as the program prints it."""
    if not kind.printed.fullmatch(cell):
        raise Fault(f'{cell} is no {kind.name}')
    if isinstance(kind, kinds.Integer):
        return int(cell)
    if isinstance(kind, kinds.Date):
        return datetime.date.fromisoformat(cell).toordinal()
    return kind.read(cell)[1]


def neighbour_of(number, step, kind, option):
    """The point before or behind the one of this number, as the program prints it."""
    low, high = kind.numbers()
    if number is None:
        raise Fault(f'the values of {kind.name} are not known; tell them by --type')
    if not low <= number + step <= high:
        raise Fault(f'the interval has the {"last" if step == 1 else "first"} {kind.name}, and no bound beyond it; {option} says what to write')
    if isinstance(kind, kinds.Date):
        return datetime.date.fromordinal(number + step).isoformat()
    if isinstance(kind, kinds.Moment):
        return kind.printed_of(number + step)
    return kind.values[number + step] if isinstance(kind, kinds.Ordinal) else str(number + step)


# ---------------------------------------------------------------- writing

class Tables:
    """Writes the tables one after the other, to one stream or each to a file of its own in a folder."""

    def __init__(self, values, options, stream):
        self.values, self.options, self.stream, self.file = values, options, stream, stream
        self.number, self.names, self.fields, self.taken = 0, [], [], set()
        self.label, self.is_label = None, False

    def begin(self, names):
        self.names = names
        self.is_label = bool(self.options.into) and names == [LABEL]
        if self.is_label:
            return
        self.number += 1
        if self.options.into:
            self.file = self.opened()
        self.fields = [field for name in names for field in self.values.fields_of(name)]
        if len(set(self.fields)) < len(self.fields):
            raise Fault('two fields have the same name')
        if self.options.json:
            return
        if self.number > 1 and not self.options.into:
            self.file.write('\n')
        self.write_record(self.fields)

    def row(self, cells):
        if self.is_label:
            self.label = self.values.point_of(cells[0], None)
            return
        found = [value for name, cell in zip(self.names, cells) for value in self.values.values_of(name, cell)]
        if self.options.json:
            self.file.write(json.dumps(dict(zip(self.fields, found)), ensure_ascii=False) + '\n')
        else:
            self.write_record(found)

    def write_record(self, found):
        csv.writer(self.file, delimiter=self.options.delimiter, lineterminator='\n').writerow(found)

    def end(self):
        if not self.is_label:
            self.forget()
            self.close()

    def forget(self):
        """Takes the label from the table that comes next."""
        self.label = None

    def close(self):
        if self.file is not self.stream:
            self.file.close()

    def opened(self):
        """The file of the next table, named by its label or else by its number."""
        name = str(self.label or self.number)
        if '/' in name or name.startswith('.') or name in self.taken:
            raise Fault(f'no file can be named {shown(name)}' if name not in self.taken else f'two tables are named {shown(name)}')
        self.taken.add(name)
        os.makedirs(self.options.into, exist_ok=True)
        path = os.path.join(self.options.into, f'{name}.{"jsonl" if self.options.json else "csv"}')
        return open(path, 'w', encoding='utf-8', newline='')


def unload(options, wanted, source, sink, errors):
    """Writes the tables that are read; gives the status."""
    progress = Progress(errors, 'csv out')
    tables = Tables(Values(wanted, options), options, sink)
    reader = Reader(tables, errors, progress)
    number = 0
    try:
        for number, line in enumerate(io.TextIOWrapper(source, encoding='utf-8', newline='\n'), 1):
            reader.read(line.removesuffix('\n'))
        reader.finish()
        status = 1 if reader.is_refused else 0
    except (Fault, UnicodeDecodeError) as fault:
        progress.clear()
        print(f'csv out: line {number}: {fault}', file=errors)
        status = NOT_UNDERSTOOD
    finally:
        tables.close()
    progress.clear()
    sink.flush()
    return status
