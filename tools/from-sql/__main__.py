"""Runs docs/from-sql.sql on a PostgreSQL of its own, and compares: python3 tools/from-sql

It makes a database in a temporary folder, starts PostgreSQL there, runs the file statement by statement, and stops and removes all of it at the end.
That takes some seconds. PostgreSQL 15 or later is wanted, as Debian's package postgresql has it; tools/sql/postgresql.py starts it.

Behind each query of the file stands as a comment what PostgreSQL has to answer, in the form of the tables of utd:

    -- as here           the page docs/from-sql.md prints the same table for the script beside the query
    -- other than here   the page prints no such table; behind a colon it may say why
    -- refused: 23P01    the statement fails with this SQLSTATE

Each SQL of the page has to stand in the file: what is fenced as sql and nothing more, and the left column of its dictionary. SQL that is fenced with a
further word, as Teradata, is not run. Says nothing and ends with status 0 where all agrees, names what differs and ends with 1 where something does, and
with 2 for wrong words or where there is no PostgreSQL.
"""
import csv
import datetime
import os
import re
import sys

sys.dont_write_bytecode = True

ROOT = os.path.dirname(os.path.dirname(os.path.dirname(os.path.abspath(__file__))))
sys.path.insert(1, f'{ROOT}/tools/sql')

import postgresql  # noqa: E402

PAGE = 'docs/from-sql.md'
FILE = 'docs/from-sql.sql'
# lines up to one that ends with a semicolon, and the comment directly behind it
STATEMENT = re.compile(r'((?:(?!--).*\n)*?.*;)\n((?:--.*\n)*)')
INTEGER = re.compile(r'-?[0-9]+')
DATE = re.compile(r'[0-9]{4}-[0-9]{2}-[0-9]{2}')
MOMENT = re.compile(f'{DATE.pattern} [0-9]{{2}}:[0-9]{{2}}:[0-9]{{2}}')
RANGE = re.compile(rf'\["?({MOMENT.pattern}|[0-9-]+)"?,"?({MOMENT.pattern}|[0-9-]+)"?\)')
INTERVAL = re.compile(r'\[(-?[0-9]+):(-?[0-9]+)\]')


class Statement:
    """A statement, and the comment behind it: how it is marked, and the lines of the answer."""

    def __init__(self, text, comment):
        self.text = text.strip()
        self.mark, *self.answer = [line[3:] for line in comment.splitlines()] or ['']


def text_of(path):
    with open(f'{ROOT}/{path}', encoding='utf-8') as file:
        return file.read()


def statements_of(text):
    """The statements of SQL; a comment that begins a paragraph belongs to none."""
    paragraphs = [re.sub(r'\A(--.*\n)+', '', part + '\n') for part in re.split(r'\n\n+', text)]
    return [Statement(*found.groups()) for part in paragraphs for found in STATEMENT.finditer(part)]


def words_of(sql):
    """A statement as it is compared: one space between two words, and no semicolon."""
    return ' '.join(sql.rstrip(';').split())


def sql_of_the_page():
    """The statements of the page: those that are fenced as sql, and the left column of the dictionary."""
    text = text_of(PAGE)
    fenced = [statement.text for block in re.findall(r'^```sql\n(.*?)^```$', text, re.S | re.M) for statement in statements_of(block)]
    dictionary = text.partition('\n## Dictionary\n')[2].partition('\nWhat has no line there')[0]
    return fenced + re.findall(r'^\| `(.*?)` \|', dictionary, re.M)


def closed(first, behind):
    """A range without its end as an interval is printed: with its last point."""
    if MOMENT.fullmatch(behind):
        last = datetime.datetime.fromisoformat(behind) - datetime.timedelta(seconds=1)
        return f'[{printed(first)}:{last.isoformat()}]'
    if DATE.fullmatch(behind):
        return f'[{first}:{datetime.date.fromisoformat(behind) - datetime.timedelta(days=1)}]'
    return f'[{first}:{int(behind) - 1}]'


def printed(value):
    """A value of PostgreSQL, told by its form, as utd prints it."""
    found = RANGE.fullmatch(value)
    if found:
        return closed(*found.groups())
    if MOMENT.fullmatch(value):
        return value.replace(' ', 'T')
    if INTEGER.fullmatch(value) or DATE.fullmatch(value) or value in ('NULL', 'empty'):
        return value
    return {'t': 'TRUE', 'f': 'FALSE'}.get(value) or "'" + value.replace("'", "''") + "'"


def place_of(value):
    """Where a printed value stands among others: integers and intervals of them by their size, all else by its text."""
    found = INTERVAL.fullmatch(value)
    ends = found.groups() if found else [value] if INTEGER.fullmatch(value) else []
    return [int(end) for end in ends], value


def table_of(output):
    """The lines of a table as utd prints it, of what psql writes as CSV; none where there is no answer."""
    rows = list(csv.reader(output.splitlines()))
    if not rows:
        return []
    columns = sorted([heading.upper(), *map(printed, values)] for heading, *values in zip(*rows))
    widths = [max(map(len, column)) for column in columns]
    heading, *body = zip(*columns)
    body.sort(key=lambda row: list(map(place_of, row)))
    lines = ['| ' + ' | '.join(map(str.ljust, row, widths)) + ' |' for row in [heading, *body]]
    return lines + [f'rows: {len(body)}']


def fault_of(statement, output, errors):
    """In which way the answer to a statement is not the one that its comment tells; none where it is."""
    state = re.search(r'ERROR: +([0-9A-Z]{5})', errors)
    if state or statement.mark.startswith('refused'):
        told = f'refused: {state[1]}' if state else 'accepted'
        return '' if told == statement.mark else told
    table = table_of(output)
    return '' if table == statement.answer else '\n'.join(['PostgreSQL answers', *table])


def faults_of_marks(statements):
    """The tables that the page does not print in this order, though they are marked so, and those that it prints though they are not."""
    page = text_of(PAGE)
    place = 0
    found = []
    for statement in statements:
        table = '\n' + '\n'.join(statement.answer) + '\n'
        if statement.mark == 'as here':
            at = page.find(table, place)
            if at < 0:
                found.append(f'{FILE}: {statement.text}\n{PAGE} prints no such table behind the one before it')
            place = max(place, at)
        elif statement.answer and (table in page or not statement.mark.startswith('other than here')):
            found.append(f'{FILE}: {statement.text}\nis not marked as it has to be')
    return found


def faults(programs):
    statements = statements_of(text_of(FILE))
    there = {words_of(statement.text) for statement in statements}
    found = [f'{PAGE}: {FILE} has no {sql}' for sql in sql_of_the_page() if words_of(sql) not in there]
    with postgresql.Server(programs) as server:
        answers = server.answers([statement.text for statement in statements])
    if len(answers) < len(statements):
        found.append(f'{FILE}: psql ended behind {len(answers)} of {len(statements)} statements')
    for statement, answer in zip(statements, answers):
        fault = fault_of(statement, *answer)
        if fault:
            found.append(f'{FILE}: {statement.text}\n{fault}')
    return found + faults_of_marks(statements)


def main(words):
    if words:
        print(__doc__.strip(), file=sys.stderr)
        return 2
    programs = postgresql.programs()
    if not programs:
        print(f'from-sql: {postgresql.ABSENT}', file=sys.stderr)
        return 2
    found = faults(programs)
    for fault in found:
        print(fault)
    return 1 if found else 0


sys.exit(main(sys.argv[1:]))
