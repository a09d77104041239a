"""Plays scripts in PostgreSQL and compares the answers with those of the program."""
import collections
import csv
import datetime
import glob
import os
import re
import subprocess

from functions import EXTENSION, FUNCTIONS, SCHEMA
from kinds import CHAR, LAST_INTEGER, BOOLEAN, MOMENT, SECOND, columns_of, point
from statements import translated
from syntax import NoForm

ROOT = os.path.dirname(os.path.dirname(os.path.dirname(os.path.abspath(__file__))))
# refusals that docs/to-sql.md tells of: limits that SQL does not have
LIMITS = {'E03', 'E05', 'E22', 'E35', 'E36', 'E46'}
# faults of values; SQL does not work out what an answer does not need
FAULTS = {'E30', 'E31', 'E32', 'E33', 'E34'}
RANGE = re.compile(r'\[(.+),(.*)\)')
REFUSED = re.compile(r'statement ([0-9]+) refused: (E[0-9]{2})')
SECONDS = 20
# its rows are run with --dump, and tell no answers
DUMPS = 'dump.txt'
# what stands before a script, which has a schema of its own
FRESH = "SET client_min_messages = error;\nSET jit = off;\nSET statement_timeout = '{seconds}s';\nCREATE SCHEMA {schema};\nSET search_path = {schema};\n"

Script = collections.namedtuple('Script', 'title text output')


# ---------------------------------------------------------------- what is played

def text_of(path):
    with open(path, encoding='utf-8', newline='') as file:
        return file.read()


def examples():
    for path in sorted(glob.glob(f'{ROOT}/examples/*.td')):
        yield Script(os.path.relpath(path, ROOT), text_of(path), text_of(f'{path[:-3]}.out'))


def in_full(text):
    """A script that is written short: `<<COUNT TEXT>>` is the text so many times, in which `#` is the number of the time and `#+1` the next one."""
    def repeated(match):
        return ''.join(match[2].replace('#+1', str(number + 1)).replace('#', str(number)) for number in range(int(match[1])))
    return re.sub(r'<<([0-9]+) (.*?)>>', repeated, text, flags=re.S)


def rows():
    """The rows that the gate runs, among them every script of the pages."""
    for path in sorted({*glob.glob(f'{ROOT}/crates/utd_rows/data/*.txt')} - {f'{ROOT}/crates/utd_rows/data/{DUMPS}'}):
        for row in re.split('^=== ', text_of(path), flags=re.M)[1:]:
            title, _, rest = row.partition('\n')
            text, _, output = rest.partition('\n--- ')
            yield Script(f'{os.path.basename(path)}: {title}', in_full(text), output.partition('\n')[2])


def scripts_in(folder, command):
    """The scripts of a folder, and what the command prints for them."""
    for path in sorted(glob.glob(f'{folder}/*')):
        with open(path, 'rb') as file:
            done = subprocess.run(command, stdin=file, capture_output=True, check=False)
        yield Script(path, text_of(path), done.stdout.decode())


# ---------------------------------------------------------------- answers of PostgreSQL as the program prints them

def closed(points, text):
    """A range as an interval is printed: with its last point."""
    found = RANGE.fullmatch(text)
    if not found:
        return text
    first, behind = found.groups()
    if points.sql == 'date':
        day = datetime.date.max if behind == '10000-01-01' else datetime.date.fromisoformat(behind) - datetime.timedelta(days=1)
        return f'[{first}:{day}]'
    if points == MOMENT:
        begin, behind = (end.strip('"') for end in found.groups())
        last = datetime.datetime.max.replace(microsecond=0) if behind == '10000-01-01 00:00:00' else datetime.datetime.fromisoformat(behind) - SECOND
        return f'[{begin.replace(" ", "T")}:{last.isoformat()}]'
    return f'[{first}:{int(behind) - 1 if behind else LAST_INTEGER}]'


def printed(kind, text):
    if kind == CHAR:
        return "'" + text.replace("'", "''") + "'"
    if kind == BOOLEAN:
        return {'t': 'TRUE', 'f': 'FALSE'}[text]
    if kind == point(MOMENT):
        return text.replace(' ', 'T')
    return closed(kind.points, text) if kind.form == 'INTERVAL' else text


def table_of(heading, output):
    """The lines of a table, of what psql writes as CSV."""
    # an empty line is a row whose only value is an empty text
    lines = [line or [''] for line in csv.reader(output.split('\n')[:-1])]
    if not heading:
        return ['|'] * len(lines) + [f'rows: {len(lines) - 1}']
    names = columns_of(heading)
    body = [[printed(heading[name], text) for name, text in zip(names, line)] for line in lines[1:]]
    widths = [max(map(len, column)) for column in zip(names, *body)]
    return ['| ' + ' | '.join(map(str.ljust, row, widths)) + ' |' for row in [names, *body]] + [f'rows: {len(body)}']


def answered(statement, output, errors):
    """The lines that the program would print of a statement; of a refusal its SQLSTATE alone."""
    state = re.search(r'ERROR: +([0-9A-Z]{5})', errors)
    if state:
        return f'refused: {state[1]}'
    if statement.prints is None:
        return []
    return ['TRUE' if 't' in output.split('\n')[1] else 'FALSE'] if statement.prints == 'truth' else table_of(statement.prints, output)


# ---------------------------------------------------------------- comparison

def entries_of(output):
    """What the program printed, statement by statement: tables, truth values and refusals."""
    found, table = [], []
    for line in output.split('\n')[:-1]:
        table.append(line)
        if not line.startswith('|'):
            found.append(table)
            table = []
    return found


def is_print(statement):
    return re.sub(r'/\*.*?\*/|//[^\n]*', '', statement.text, flags=re.S).lstrip().startswith(('PRINT', 'ASK'))


class Comparison:
    """Goes through the statements of scripts, and keeps what differs and how many were alike."""

    def __init__(self):
        self.counts = collections.Counter()
        self.faults = []

    def play(self, server, script):
        broken = {int(number) for number, code in REFUSED.findall(script.output) if code in ('E45', 'E46')}
        statements = list(translated(script.text, broken=broken))
        self.counts['scripts'] += 1
        fresh = FRESH.format(seconds=SECONDS, schema=f'script_{self.counts["scripts"]}')
        answers = server.answers([statement.sql for statement in statements], fresh)
        entries = entries_of(script.output)
        for statement, answer in zip(statements, answers):
            refusal = REFUSED.match(entries[0][0]) if entries else None
            if refusal and int(refusal[1]) == statement.number:
                entries.pop(0)
                if not self.refused(script, statement, refusal[2], answered(statement, *answer)):
                    return
                continue
            expected = entries.pop(0) if entries and is_print(statement) else []
            if not self.accepted(script, statement, expected, str(statement.refusal) if statement.refusal else answered(statement, *answer)):
                return
        if len(answers) < len(statements):
            self.fault(script, statements[len(answers)], 'psql ended before it')

    def fault(self, script, statement, words):
        self.counts['differ'] += 1
        self.faults.append(f'{script.title}: statement {statement.number}: {words}\n{statement.text}')

    def refused(self, script, statement, code, answer):
        """A statement that the program refuses; says whether the next one can be looked at."""
        if statement.refusal or isinstance(answer, str):
            self.counts['refused in both'] += 1
            return True
        if code in LIMITS or code in FAULTS and is_print(statement):
            self.counts[f'told {code}'] += 1
            return is_print(statement)
        self.fault(script, statement, f'{code} there, and accepted here')
        return False

    def accepted(self, script, statement, expected, answer):
        if answer == expected:
            self.counts['accepted in both'] += 1
            return True
        if statement.refusal and statement.refusal.code == 'SQL':
            self.counts['told names'] += 1
            return is_print(statement)
        if isinstance(statement.refusal, NoForm):
            self.counts['told logs'] += 1
            return is_print(statement) or statement.refusal.declared is not None
        found = answer if isinstance(answer, str) else '\n'.join(answer)
        self.fault(script, statement, f'{found}\nin place of\n' + '\n'.join(expected))
        return False


def prepare(server):
    """Makes the functions, of which each script calls some."""
    bodies = [body for found in FUNCTIONS.values() for body in found]
    answers = server.answers([SCHEMA, EXTENSION.replace(';', ' SCHEMA utd;'), *bodies])
    errors = [f'{body}\n{error}' for (_, error), body in zip(answers, ['', '', *bodies]) if 'ERROR' in error]
    assert not errors, '\n'.join(errors)


def compared(server, scripts):
    prepare(server)
    comparison = Comparison()
    for script in scripts:
        comparison.play(server, script)
    return comparison
