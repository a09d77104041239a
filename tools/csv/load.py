"""CSV into INSERT statements."""
import csv
import io

import columns
from kinds import Fault, shown
from progress import Progress

# below the 1,048,576 bytes that a statement may have, with room for what stands before the first one in a script
STATEMENT_BYTES = 1_000_000
SCRIPT_BYTES = 16_777_216
RELATION_ROWS = 100_000
REFUSALS_TOLD = 20


class Refusals:
    """What is refused in the file: the first of it is told, the rest counted."""

    def __init__(self, stream):
        self.stream, self.number = stream, 0

    def tell(self, text):
        self.number += 1
        if self.number <= REFUSALS_TOLD:
            print(f'csv in: {text}', file=self.stream)

    def end(self):
        if self.number > REFUSALS_TOLD:
            print(f'csv in: {self.number - REFUSALS_TOLD} more refusals', file=self.stream)


# ---------------------------------------------------------------- the file

def text_of(source):
    """The text of a file in UTF-8, with or without a byte-order mark."""
    data = source.read()
    try:
        return data.decode('utf-8-sig')
    except UnicodeDecodeError as error:
        lines = error.object[:error.start + 1].split(b'\n')
        raise Fault(f'line {len(lines)}: byte {len(lines[-1])} of it is not UTF-8') from None


def records_of(source, delimiter):
    """The records of the file that are not empty, each with the number of the line on which it begins."""
    reader = csv.reader(io.StringIO(text_of(source), newline=''), delimiter=delimiter, strict=True)
    line = 1
    try:
        for record in reader:
            if record:
                yield line, record
            line = reader.line_num + 1
    except csv.Error as error:
        raise Fault(f'line {line}: no CSV: {error}') from None


def header_of(records, has_header):
    """The names of the fields, and the records that follow; without a header the fields are named 1, 2, and so on."""
    first = next(records, None)
    if first is None:
        raise Fault('the file is empty; its first line has to name the fields')
    if has_header:
        return first[1], records
    return [str(number + 1) for number in range(len(first[1]))], (record for part in ([first], records) for record in part)


def places_of(wanted, header):
    """Where the fields of these names stand in a record."""
    for field in wanted:
        if header.count(field) != 1:
            lacking = f'no field {shown(field)}; there are {", ".join(map(shown, header))}'
            raise Fault(f'two fields are named {shown(field)}' if field in header else lacking)
    return {field: header.index(field) for field in wanted}


# ---------------------------------------------------------------- rows

class Rows:
    """Makes tuples of records."""

    def __init__(self, wanted, header, empty):
        self.wanted, self.width, self.empty = wanted, len(header), empty
        fields = [field for column in wanted for field in column.fields]
        self.places = places_of([*dict.fromkeys([*fields, *empty])], header)

    def text_of(self, record, field, may_be_empty):
        text = record[self.places[field]]
        if text:
            return text
        if field not in self.empty and not may_be_empty:
            raise Fault('the field is empty')
        return self.empty.get(field, text)

    def ends_may_be_empty(self, column, index):
        """Whether an empty field tells an end of an interval."""
        return len(column.fields) == 2 and '' in (column.kind.last if index else column.kind.first)

    def value_of(self, column, record):
        """The column's value; a fault says in which field it is."""
        texts = []
        try:
            for index, field in enumerate(column.fields):
                texts.append(self.text_of(record, field, self.ends_may_be_empty(column, index)))
            return column.literal(texts)
        except Fault as fault:
            fields = column.fields if len(texts) == len(column.fields) else [column.fields[len(texts)]]
            named = ' and '.join(f'{self.places[field] + 1} ({field})' for field in fields)
            raise Fault(f'column {named}: {fault}') from None

    def tuple_of(self, record):
        if len(record) != self.width:
            raise Fault(f'the number of fields is {len(record)}, and not {self.width}')
        return 'TUPLE {' + ', '.join(f'{column.name} {self.value_of(column, record)}' for column in self.wanted) + '}'


def tuples_of(records, rows, refusals, progress, is_distinct):
    """The tuples of the records; what is refused is told, with its line."""
    found, lines = [], {}
    for number, (line, record) in enumerate(records):
        progress.tell(number)
        try:
            made = rows.tuple_of(record)
            if is_distinct and made in lines:
                raise Fault(f'the same row as on line {lines[made]}')
            lines.setdefault(made, line)
            found.append(made)
        except Fault as fault:
            progress.clear()
            refusals.tell(f'line {line}, {fault}' if str(fault).startswith('column ') else f'line {line}: {fault}')
    return found, len(lines)


# ---------------------------------------------------------------- statements

def statements_of(head, tuples, most_rows, most_bytes=STATEMENT_BYTES):
    """INSERT statements of at most so many rows and bytes, a line end before them counted."""
    begin, between, end = f'{head} RELATION {{\n  ', ',\n  ', '\n};\n'
    around = len((begin + end).encode())
    held, size = [], around
    for made in tuples:
        more = len((between + made).encode())
        if held and (len(held) == most_rows or size + more > most_bytes):
            yield begin + between.join(held) + end
            held, size = [], around
        held.append(made)
        size += more
    if held:
        yield begin + between.join(held) + end


def declarations_of(relvar, wanted, known):
    """The types of which the values are told, and the relvar."""
    types = [f'TYPE {name} ORDINAL {{{", ".join(values)}}};\n' for name, values in known.types.items()]
    heading = ', '.join(f'{column.name} {column.kind.name}' for column in wanted)
    return ''.join(types) + f'VAR {relvar} RELATION {{{heading}}};\n'


def check_sizes(parts, differing, options):
    """Limits of the language that the statements alone would break."""
    size = sum(len(part.encode()) for part in parts)
    if size > SCRIPT_BYTES:
        raise Fault(f'the statements have {size:,} bytes; a script has at most {SCRIPT_BYTES:,}')
    if differing > RELATION_ROWS and not options.using:
        raise Fault(f'there are {differing:,} different rows; a relation has at most {RELATION_ROWS:,}')


def load(options, wanted, known, source, sink, errors):
    """Writes the statements to the sink, or nothing where something is refused; gives the status."""
    refusals, progress = Refusals(errors), Progress(errors, 'csv in')
    try:
        header, records = header_of(records_of(source, options.delimiter), options.header)
        tuples, differing = tuples_of(records, Rows(wanted, header, options.empty), refusals, progress, options.distinct)
        head = f'USING ({", ".join(options.using)}): INSERT {options.relvar}' if options.using else f'INSERT {options.relvar}'
        parts = [declarations_of(options.relvar, wanted, known)] if options.var else []
        parts += statements_of(head, tuples, options.rows)
        check_sizes(parts, differing, options)
    except Fault as fault:
        progress.clear()
        refusals.tell(str(fault))
    progress.clear()
    refusals.end()
    if refusals.number:
        return 1
    for part in parts:
        sink.write(part)
    sink.flush()
    return 0
