"""Tests tools/csv and tools/where: python3 tools/csv/tests.py

Says how many tests passed, or what failed, with status 1.
"""
import contextlib
import csv
import importlib.util
import io
import os
import random
import re
import subprocess
import sys
import tempfile
import unittest
from unittest import mock

import kinds
import load
from progress import Progress

HERE = os.path.dirname(os.path.abspath(__file__))
ROOT = os.path.dirname(os.path.dirname(HERE))
SPEC = importlib.util.spec_from_file_location('tool', f'{HERE}/__main__.py')
TOOL = importlib.util.module_from_spec(SPEC)
SPEC.loader.exec_module(TOOL)


# ---------------------------------------------------------------- calls

def call(words, given):
    """The status of a call, what it wrote and what it told."""
    source = io.BytesIO(given if isinstance(given, bytes) else given.encode())
    sink, errors = io.StringIO(newline=''), io.StringIO()
    with contextlib.redirect_stderr(errors), contextlib.redirect_stdout(sink):
        try:
            status = TOOL.run(words, source, sink, errors)
        except SystemExit as end:
            status = end.code
    return status, sink.getvalue(), errors.getvalue()


def run(command, given):
    """The same of a command, as a process of its own."""
    ran = subprocess.run(command, cwd=ROOT, input=given.encode(), capture_output=True, check=False)
    return ran.returncode, ran.stdout.decode(), ran.stderr.decode()


def where(number, script):
    return run(['tools/where', str(number)], script)


# ---------------------------------------------------------------- what the program would print

LITERAL = re.compile(r"""(?:(?:DATE|MOMENT)\ )?'(?:[^']|'')*' | LAST\(\w+\) | FIRST\(\w+\) | -?[0-9]+ | TRUE | FALSE | \w+\.\w+""", re.X)
NAMED = {'LAST(DATE)': '9999-12-31', 'FIRST(DATE)': '0001-01-01', 'LAST(INTEGER)': str(2**63 - 1), 'FIRST(INTEGER)': str(-2**63)}


def entry_of(literal):
    """A literal as a table has it."""
    if literal.startswith(('DATE ', 'MOMENT ')):
        return literal.partition(' ')[2][1:-1]
    return NAMED.get(literal, literal if literal.startswith("'") else literal.rpartition('.')[2])


def entries_of(made):
    """The entries of a tuple, by their names; its intervals are closed."""
    found, at = {}, len('TUPLE {')
    while made[at - 1] != '}':
        name, at = re.compile(r'(\w+) ').match(made, at)[1], made.index(' ', at) + 1
        parts = []
        is_interval = made[at] == '['
        for _ in range(2 if is_interval else 1):
            literal = LITERAL.match(made, at + is_interval)
            parts.append(entry_of(literal[0]))
            at = literal.end()
        found[name] = f'[{parts[0]}:{parts[1]}]' if is_interval else parts[0]
        at += is_interval + (1 if made[at + is_interval] == '}' else 2)
    return found


def printed(script):
    """The table of the rows that a script inserts."""
    rows = [entries_of(line.strip().rstrip(',')) for line in script.split('\n') if line.strip().startswith('TUPLE')]
    names = sorted(rows[0])
    lines = [names] + [[row[name] for name in names] for row in rows]
    wide = [max(len(line[at]) for line in lines) for at in range(len(names))]
    text = ''.join('|' + ''.join(f' {entry.ljust(width)} |' for entry, width in zip(line, wide)) + '\n' for line in lines)
    return f'{text}rows: {len(rows)}\n'


# ---------------------------------------------------------------- in

class In(unittest.TestCase):
    def loads(self, words, given, wanted):
        """What stands in the braces of the only tuple."""
        status, script, told = call(['in', *words], given)
        self.assertEqual((status, told), (0, ''))
        self.assertEqual(re.findall(r'TUPLE \{(.*)\}', script), [wanted])

    def refuses(self, words, given, *wanted):
        status, script, told = call(['in', *words], given)
        self.assertEqual((status, script, told), (1, '', ''.join(f'csv in: {line}\n' for line in wanted)))

    def is_wrong(self, words, wanted):
        status, script, told = call(['in', *words], 'a,b\n1,2\n')
        self.assertEqual((status, script), (2, ''))
        self.assertIn(wanted, told)

    def test_whole_script(self):
        given = 'name,no,start,stop\nO\'Hara,1,2023-01-01,2023-07-01\n"Zoë, B",-02,2023-03-01,\n'
        words = ['--var', '--last', '', 'P', 'NAME=CHAR:name', 'NO=INTEGER:no', 'VALID=INTERVAL(DATE):[start,stop)']
        wanted = ('VAR P RELATION {NAME CHAR, NO INTEGER, VALID INTERVAL(DATE)};\nINSERT P RELATION {\n'
                  "  TUPLE {NAME 'O''Hara', NO 1, VALID [DATE '2023-01-01':DATE '2023-07-01')},\n"
                  "  TUPLE {NAME 'Zoë, B', NO -2, VALID [DATE '2023-03-01':LAST(DATE)]}\n};\n")
        self.assertEqual(call(['in', *words], given), (0, wanted, ''))

    def test_texts(self):
        self.loads(['R', 'a=CHAR'], 'a\n" it\'s ""x"" | ; , é"\n', "a ' it''s \"x\" | ; , é'")
        self.loads(['R', 'a=CHAR'], 'a\n' + 'é' * 127 + 'x\n', "a '" + 'é' * 127 + "x'")

    def test_byte_order_mark_and_line_ends(self):
        self.loads(['R', 'a=INTEGER'], b'\xef\xbb\xbfa,b\r\n1,2\r\n\r\n', 'a 1')
        self.loads(['R', 'a=INTEGER'], 'a,b\n1,2', 'a 1')

    def test_delimiters_and_no_header(self):
        self.loads(['--delimiter', ';', 'R', 'a=CHAR'], 'a;b\n1,2;3\n', "a '1,2'")
        self.loads(['--delimiter', 'tab', 'R', 'a=CHAR'], 'a\tb\n1,2\t3\n', "a '1,2'")
        self.loads(['--no-header', 'R', 'A=INTEGER:2', 'B=CHAR:1'], 'x,7\n', "A 7, B 'x'")
        self.loads(['R', 'A=CHAR:"x, y"'], '"x, y",z\n1,2\n', "A '1'")

    def test_integers(self):
        self.loads(['R', 'a=INTEGER'], 'a\n-9223372036854775808\n', 'a -9223372036854775808')
        self.loads(['R', 'a=INTEGER'], 'a\n +007 \n', 'a 7')
        self.refuses(['R', 'a=INTEGER'], 'a\n9223372036854775808\n', "line 2, column 1 (a): '9223372036854775808' is beyond 64 bits")
        self.refuses(['R', 'a=INTEGER'], 'a\n' + '9' * 5000 + '\n', f"line 2, column 1 (a): '{'9' * 60}'.. is beyond 64 bits")
        self.refuses(['R', 'a=INTEGER'], 'a\n4.5\n1_0\n٣\n', *(f"line {line}, column 1 (a): '{text}' is no integer" for line, text in
                                                                ((2, '4.5'), (3, '1_0'), (4, '٣'))))

    def test_decimals_and_times(self):
        for text, number in (('4.50', 450), ('-0.5', -50), ('4', 400), ('4.', 400), ('4.5000', 450), ('0.00', 0)):
            self.loads(['R', 'a=DECIMAL(2)'], f'a\n{text}\n', f'a {number}')
        self.refuses(['R', 'a=DECIMAL(2)'], 'a\n4.505\n', "line 2, column 1 (a): '4.505' is no number with at most 2 digits behind the point")
        self.loads(['R', 'a=INTERVAL(TIME(MINUTES)):[b,e)'], 'b,e\n8:30,24:00:00\n', 'a [510:1440)')
        self.refuses(['R', 'a=TIME(MINUTES)'], 'a\n24:01\n08:30:05\n', "line 2, column 1 (a): '24:01' is no time of day as HH:MM",
                     "line 3, column 1 (a): '08:30:05' is no time of day as HH:MM")

    def test_timestamps(self):
        self.loads(['R', 'a=INTERVAL(TIMESTAMP(MINUTES)):[b,e)'], 'b,e\n1970-01-02 00:00,2023-02-01T08:30:00.000\n', 'a [1440:27920670)')
        self.loads(['R', 'a=TIMESTAMP(SECONDS)'], 'a\n1969-12-31 23:59:59\n', 'a -1')
        self.refuses(['R', 'a=TIMESTAMP(MINUTES)'], 'a\n2023-02-01\n2023-02-01 08:30:05\n2023-02-30 08:30\n2023-02-01 08:30+01:00\n', *(
            f"line {line}, column 1 (a): '{text}' {why}" for line, text, why in (
                (2, '2023-02-01', 'is no day and time as YYYY-MM-DD HH:MM'), (3, '2023-02-01 08:30:05', 'has seconds'),
                (4, '2023-02-30 08:30', 'is no day and time as YYYY-MM-DD HH:MM'), (5, '2023-02-01 08:30+01:00', 'is no day and time as YYYY-MM-DD HH:MM'))))

    def test_moments(self):
        self.loads(['R', 'a=MOMENT'], 'a\n2023-02-01 08:30:05\n', "a MOMENT '2023-02-01T08:30:05'")
        self.loads(['R', 'a=MOMENT'], 'a\n 0001-01-01T00:00 \n', "a MOMENT '0001-01-01T00:00:00'")
        self.loads(['R', 'a=INTERVAL(MOMENT):[b,e)'], 'b,e\n2023-02-01 22:00:00,2023-02-02 06:00:00.000\n',
                   "a [MOMENT '2023-02-01T22:00:00':MOMENT '2023-02-02T06:00:00')")
        for field in ('"[""2023-02-01 22:00:00"",""2023-02-02 06:00:00"")"', '"[2023-02-01 22:00:00,2023-02-02 06:00:00)"',
                      '[2023-02-01T22:00:00:2023-02-02T06:00:00)'):
            self.loads(['R', 'a=INTERVAL(MOMENT):v'], f'v\n{field}\n', "a [MOMENT '2023-02-01T22:00:00':MOMENT '2023-02-02T06:00:00')")
        self.loads(['--last', 'infinity', 'R', 'a=INTERVAL(MOMENT):v'], 'v\n"[""2023-02-01 22:00:00"",infinity)"\n', "a [MOMENT '2023-02-01T22:00:00':LAST(MOMENT)]")
        self.loads(['--last', '', 'R', 'a=INTERVAL(MOMENT):v'], 'v\n"[""2023-02-01 22:00:00"",)"\n', "a [MOMENT '2023-02-01T22:00:00':LAST(MOMENT)]")
        self.assertIn('VAR R RELATION {a MOMENT, b INTERVAL(MOMENT)};\n', call(['in', '--var', 'R', 'a=MOMENT', 'b=INTERVAL(MOMENT):c,d'], 'a,c,d\n')[1])
        self.refuses(['R', 'a=MOMENT'], 'a\n2023-02-01\n2023-02-30 08:30:00\n2023-02-01 24:00:00\n2023-02-01 08:30:05.5\n2023-02-01 08:30:00+01\n', *(
            f"line {line}, column 1 (a): '{text}' is no moment as YYYY-MM-DD HH:MM:SS" for line, text in (
                (2, '2023-02-01'), (3, '2023-02-30 08:30:00'), (4, '2023-02-01 24:00:00'), (5, '2023-02-01 08:30:05.5'), (6, '2023-02-01 08:30:00+01'))))
        self.refuses(['R', 'a=INTERVAL(MOMENT):[b,e)'], 'b,e\n2023-02-01 08:30:00,2023-02-01 08:30:00\n2023-02-01 08:30:00,9999-12-31 23:59:59\n',
                     'line 2, column 1 (b) and 2 (e): there is no MOMENT in [2023-02-01 08:30:00:2023-02-01 08:30:00)',
                     "line 3, column 1 (b) and 2 (e): 9999-12-31 23:59:59 would be left out; --last '9999-12-31 23:59:59' takes it for the last point")

    def test_truth_values(self):
        for text, truth in (('t', 'TRUE'), ('TRUE', 'TRUE'), ('Yes', 'TRUE'), ('1', 'TRUE'), ('f', 'FALSE'), ('no', 'FALSE'), ('0', 'FALSE')):
            self.loads(['R', 'a=BOOLEAN'], f'a\n{text}\n', f'a {truth}')
        self.refuses(['R', 'a=BOOLEAN'], 'a\nperhaps\n', "line 2, column 1 (a): 'perhaps' is no truth value")

    def test_dates(self):
        self.loads(['R', 'a=DATE'], 'a\n2024-02-29\n', "a DATE '2024-02-29'")
        self.loads(['--date-format', '%d.%m.%Y', 'R', 'a=DATE'], 'a\n1.2.2023\n', "a DATE '2023-02-01'")
        self.loads(['--date-format', '%Y-%m-%d %H:%M:%S', 'R', 'a=DATE'], 'a\n2023-02-01 00:00:00\n', "a DATE '2023-02-01'")
        self.refuses(['R', 'a=DATE'], 'a\n2023-2-8\n2023-02-29\n20230208\n', *(
            f"line {line}, column 1 (a): '{text}' is no date of the form YYYY-MM-DD" for line, text in ((2, '2023-2-8'), (3, '2023-02-29'), (4, '20230208'))))
        self.refuses(['--date-format', '%Y-%m-%d %H:%M', 'R', 'a=DATE'], 'a\n2023-02-01 08:30\nx\n',
                     "line 2, column 1 (a): '2023-02-01 08:30' has a time of day", "line 3, column 1 (a): 'x' is no date of the form %Y-%m-%d %H:%M")

    def test_ordinal_types(self):
        self.loads(['R', 'a=SIZE', 'b=INTERVAL(SIZE):[a,b)'], 'a,b\nS,L\n', 'a SIZE.S, b [SIZE.S:SIZE.L)')
        told = ['--type', 'SIZE=S,M,L', 'R', 'a=INTERVAL(SIZE):a,b']
        self.loads(['--last', '', *told], 'a,b\nS,\n', 'a [SIZE.S:LAST(SIZE)]')
        self.refuses(told, 'a,b\nL,S\nS,X\n', 'line 2, column 1 (a) and 2 (b): there is no SIZE in [L:S]',
                     "line 3, column 1 (a) and 2 (b): 'X' is no value of SIZE")
        self.refuses(['R', 'a=SIZE', 'b=SIZE'], 'a,b\n1a,x\nS,END\n', "line 2, column 1 (a): '1a' is no name", 'line 3, column 2 (b): END is a reserved word')
        self.assertIn('TYPE SIZE ORDINAL {S, M, L};\nVAR R RELATION {a INTERVAL(SIZE)};\n', call(['in', '--var', *told], 'a,b\n')[1])

    def test_ends_of_intervals(self):
        words = ['R', 'V=INTERVAL(DATE):[b,e)']
        self.loads(['--last', '9999-12-31', *words], 'b,e\n2023-01-01,9999-12-31\n', "V [DATE '2023-01-01':LAST(DATE)]")
        self.loads(['--first=-infinity', '--last', 'infinity', *words], 'b,e\n-infinity,infinity\n', 'V [FIRST(DATE):LAST(DATE)]')
        self.loads(['--first', '', 'R', 'V=INTERVAL(INTEGER):(b,e]'], 'b,e\n,5\n', 'V [FIRST(INTEGER):5]')
        self.loads(['R', 'V=INTERVAL(DATE):b,e'], 'b,e\n2023-01-01,9999-12-31\n', "V [DATE '2023-01-01':DATE '9999-12-31']")
        self.refuses(words, 'b,e\n2023-01-01,9999-12-31\n',
                     'line 2, column 1 (b) and 2 (e): 9999-12-31 would be left out; --last 9999-12-31 takes it for the last point')
        self.loads(['--empty', 'e=2023-12-31', *words], 'b,e\n2023-01-01,\n', "V [DATE '2023-01-01':DATE '2023-12-31')")
        self.refuses(words, 'b,e\n2023-01-01,\n,2023-01-01\n2023-01-01,2023-01-01\n2023-01-02,2023-01-01\n', 'line 2, column 2 (e): the field is empty',
                     'line 3, column 1 (b): the field is empty', 'line 4, column 1 (b) and 2 (e): there is no DATE in [2023-01-01:2023-01-01)',
                     'line 5, column 1 (b) and 2 (e): there is no DATE in [2023-01-02:2023-01-01)')

    def test_intervals_in_one_field(self):
        self.loads(['R', 'V=INTERVAL(DATE):v'], 'v\n[2023-01-01:2023-01-31]\n', "V [DATE '2023-01-01':DATE '2023-01-31']")
        self.loads(['--last', '', 'R', 'V=INTERVAL(DATE):v'], 'v\n"[2023-01-01,)"\n', "V [DATE '2023-01-01':LAST(DATE)]")
        self.loads(['R', 'V=INTERVAL(INTEGER):v'], 'v\n"(3,8)"\n', 'V (3:8)')
        self.refuses(['R', 'V=INTERVAL(INTEGER):v'], 'v\n3-8\nempty\n"[3,)"\n"(3,4)"\n', *(f'line {line}, column 1 (v): {why}' for line, why in (
            (2, "'3-8' is no interval as [b:e] or [b,e)"), (3, "'empty' is no interval as [b:e] or [b,e)"), (4, 'an end of the interval is empty'),
            (5, 'there is no INTEGER in (3:4)'))))

    def test_empty_fields(self):
        self.loads(['--empty', 'a=0', '--empty', 'b=', 'R', 'a=INTEGER', 'b=CHAR'], 'a,b\n,\n', "a 0, b ''")
        self.refuses(['R', 'a=INTEGER', 'b=CHAR'], 'a,b\n,x\n1,\n', 'line 2, column 1 (a): the field is empty', 'line 3, column 2 (b): the field is empty')

    def test_texts_that_cannot_be(self):
        self.refuses(['R', 'a=CHAR'], 'a\n"x\ny"\n' + 'é' * 128 + '\n', r"line 2, column 1 (a): 'x\ny' has a control character, '\n'",
                     f"line 4, column 1 (a): '{'é' * 60}'.. has 256 bytes; a text has at most 255")

    def test_files_that_are_no_csv(self):
        self.refuses(['R', 'a=CHAR'], '', 'the file is empty; its first line has to name the fields')
        self.refuses(['R', 'a=CHAR'], 'b,c\n1,2\n', "no field 'a'; there are 'b', 'c'")
        self.refuses(['R', 'a=CHAR'], 'a,a\n1,2\n', "two fields are named 'a'")
        self.refuses(['R', 'a=CHAR'], 'a,b\n1\n2,3,4\n', 'line 2: the number of fields is 1, and not 2', 'line 3: the number of fields is 3, and not 2')
        self.refuses(['R', 'a=CHAR'], b'a\nx\n\xc3\xa9\xff\n', 'line 3: byte 3 of it is not UTF-8')
        self.refuses(['R', 'a=CHAR'], 'a\nx\n"y\nz\n', 'line 3: no CSV: unexpected end of data')
        self.refuses(['R', 'a=CHAR'], 'a\n"x"y\n', 'line 2: no CSV: \',\' expected after \'"\'')

    def test_many_refusals(self):
        status, script, told = call(['in', 'R', 'a=INTEGER'], 'a\n' + 'x\n' * 25)
        self.assertEqual((status, script, told.count('\n')), (1, '', 21))
        self.assertTrue(told.endswith('csv in: 5 more refusals\n'))

    def test_equal_rows(self):
        self.assertEqual(call(['in', 'R', 'a=INTEGER'], 'a\n1\n01\n')[1].count('TUPLE'), 2)
        self.refuses(['--distinct', 'R', 'a=INTEGER'], 'a\n1\n01\n2\n', 'line 3: the same row as on line 2')

    def test_statements_are_cut_by_rows(self):
        given = 'a\n' + ''.join(f'{number}\n' for number in range(2500))
        self.assertEqual([part.count('TUPLE') for part in call(['in', 'R', 'a=INTEGER'], given)[1].split(';')], [1000, 1000, 500, 0])
        self.assertEqual([part.count('TUPLE') for part in call(['in', '--rows', '2000', 'R', 'a=INTEGER'], given)[1].split(';')], [2000, 500, 0])

    def test_statements_are_cut_by_bytes(self):
        given = 'a,n\n' + ''.join(f'{"é" * 127},{number}\n' for number in range(10_000))
        status, script, _ = call(['in', '--rows', '100000', 'R', 'a=CHAR', 'n=INTEGER'], given)
        parts = script.encode().split(b';')
        self.assertEqual((status, script.count('TUPLE'), len(parts)), (0, 10_000, 4))
        self.assertTrue(all(990_000 < len(part) + 1 <= load.STATEMENT_BYTES < 1_048_576 for part in parts[:2]))
        self.assertEqual(list(load.statements_of('I', ['xx', 'yy', 'zz'], 9, 31)),
                         ['I RELATION {\n  xx,\n  yy\n};\n', 'I RELATION {\n  zz\n};\n'])

    def test_using(self):
        script = call(['in', '--using', 'V', 'R', 'V=INTERVAL(INTEGER):b,e'], 'b,e\n1,2\n')[1]
        self.assertEqual(script, 'USING (V): INSERT R RELATION {\n  TUPLE {V [1:2]}\n};\n')

    def test_no_rows(self):
        self.assertEqual(call(['in', 'R', 'a=INTEGER'], 'a\n'), (0, '', ''))

    def test_limits(self):
        given = 'a\n' + ''.join(f'{number}\n' for number in (1, 2, 3, 3))
        self.assertEqual((load.RELATION_ROWS, load.SCRIPT_BYTES), (100_000, 16_777_216))
        with mock.patch.object(load, 'RELATION_ROWS', 3):
            self.assertEqual(call(['in', 'R', 'a=INTEGER'], given)[0], 0)
            self.refuses(['R', 'a=INTEGER'], given + '4\n', 'there are 4 different rows; a relation has at most 3')
        script = call(['in', 'R', 'a=INTEGER'], given)[1]
        with mock.patch.object(load, 'SCRIPT_BYTES', len(script)):
            self.assertEqual(call(['in', 'R', 'a=INTEGER'], given)[0], 0)
            self.refuses(['R', 'a=INTEGER'], given.replace('1', '10'), f'the statements have {len(script) + 1} bytes; a script has at most {len(script)}')

    def test_wrong_words(self):
        for words, wanted in (
                ([], 'required'), (['R'], 'required'), (['R', 'a'], "'a' is no NAME=KIND:FIELD"), (['R', 'a='], "'' is no kind"),
                (['R', 'a=INTERVAL'], "'INTERVAL' is no kind"), (['R', 'a=INTERVAL(CHAR)'], "'CHAR' is no kind"), (['R', 'a=DECIMAL(0)'], 'is no kind'),
                (['R', 'a=INTEGER', 'a=CHAR:b'], 'a is named twice'), (['END', 'a=CHAR'], 'END is a reserved word'), (['1R', 'a=CHAR'], "'1R' is no name"),
                (['R', 'a b=CHAR'], "'a b' is no name"), (['R', 'a' * 65 + '=CHAR'], 'has more than 64 bytes'), (['R', 'a=CHAR:a,b'], 'too many fields'),
                (['R', 'a=INTERVAL(DATE):a,b,c'], 'too many fields'), (['R', *(f'a{number}=CHAR' for number in range(17))], 'there are 17 columns'),
                (['--rows', '0', 'R', 'a=CHAR'], 'no number of rows'), (['--rows', 'x', 'R', 'a=CHAR'], 'no number of rows'),
                (['--empty', 'a', 'R', 'a=CHAR'], "'a' is no FIELD=TEXT"), (['--delimiter', ';;', 'R', 'a=CHAR'], 'one character'),
                (['--type', 'S=A,A', 'R', 'a=CHAR'], 'a value of S stands twice'), (['--type', 'S', 'R', 'a=CHAR'], "'' is no name"),
                (['--using', 'b', 'R', 'a=CHAR'], '--using names b'), (['--what', 'R', 'a=CHAR'], 'unrecognized'),
                (['--date-format', '%d.%m.', 'R', 'a=DATE'], "'%d.%m.' is no format that tells the day"), (['R', 'a=CHAR:"b'], 'unexpected end of data')):
            with self.subTest(words=words):
                self.is_wrong(words, wanted)
        self.assertEqual(call([], '')[0], 2)
        self.assertEqual(call(['up'], '')[0], 2)


# ---------------------------------------------------------------- out

TABLE = ("| A       | B         | D                       | N  |\n| 'x | y' | 'it''s'   | [2023-01-01:2023-06-30] | -1 |\n"
         "| ''      | 'a, \"b\"' | [2023-03-01:9999-12-31] | 2  |\nrows: 2\n")


class Out(unittest.TestCase):
    def gives(self, words, given, wanted, status=0, told=''):
        self.assertEqual(call(['out', *words], given), (status, wanted, told))

    def breaks(self, words, given, told):
        status, _, errors = call(['out', *words], given)
        self.assertEqual((status, errors), (3, f'csv out: {told}\n'))

    def test_one_table(self):
        self.gives([], TABLE, 'A,B,D,N\nx | y,it\'s,[2023-01-01:2023-06-30],-1\n,"a, ""b""",[2023-03-01:9999-12-31],2\n')
        self.gives(['--delimiter', 'tab'], "| A | B |\n| 1 | 2 |\nrows: 1\n", 'A\tB\n1\t2\n')
        self.gives([], '', '')

    def test_columns(self):
        wanted = 'A,B,from,to,no\nx | y,it\'s,2023-01-01,2023-06-30,-1\n,"a, ""b""",2023-03-01,9999-12-31,2\n'
        self.gives(['D=INTERVAL(DATE):from,to', 'N=INTEGER:no'], TABLE, wanted)
        wanted = 'A,B,from,to,N\nx | y,it\'s,2023-01-01,2023-07-01,-1\n,"a, ""b""",2023-03-01,,2\n'
        self.gives(['--last', '', 'D=INTERVAL(DATE):[from,to)'], TABLE, wanted)
        self.gives(['D=INTERVAL(DATE):from,to'], '| D |\nrows: 0\n', 'from,to\n')
        self.gives(['D=INTERVAL(INTEGER):(b,e]', 'N=INTEGER'], '| D     |\n| [1:2] |\nrows: 1\n', 'b,e\n0,2\n')

    def test_intervals_in_one_field(self):
        given = '| D     |\n| [1:2] |\nrows: 1\n'
        for column, wanted in (('D=INTERVAL(INTEGER)', 'D\n[1:2]\n'), ('D=INTERVAL(INTEGER):[d)', 'd\n"[1,3)"\n'), ('D=INTERVAL(INTEGER):[]', 'D\n"[1,2]"\n')):
            self.gives([column], given, wanted)

    def test_points(self):
        self.gives(['A=DECIMAL(2):price', 'B=INTERVAL(TIME(MINUTES)):[b,e)'],
                   '| A  | B         |\n| -5 | [510:1439] |\nrows: 1\n', 'price,b,e\n-0.05,08:30,24:00\n')
        self.gives(['--date-format', '%d.%m.%Y'], '| A          | B                       |\n| 2023-02-01 | [2023-02-01:2023-02-02] |\nrows: 1\n',
                   'A,B\n01.02.2023,[01.02.2023:02.02.2023]\n')
        self.gives(['A=TIMESTAMP(SECONDS)', 'B=INTERVAL(TIMESTAMP(MINUTES)):[b,e)'],
                   '| A  | B               |\n| -1 | [1440:27920669] |\nrows: 1\n',
                   'A,b,e\n1969-12-31 23:59:59,1970-01-02 00:00,2023-02-01 08:30\n')
        self.gives(['--last', '', 'A=INTERVAL(TIME(MINUTES)):a'], '| A                         |\n| [510:9223372036854775807] |\nrows: 1\n', 'a\n"[08:30,]"\n')
        self.gives(['--date-format', '%Y/%m/%d'], '| A                       |\n| [0001-01-01:0999-12-31] |\nrows: 1\n', 'A\n[0001/01/01:0999/12/31]\n')
        sizes = '| A     |\n| [S:M] |\nrows: 1\n'
        self.gives(['--type', 'SIZE=S,M,L', 'A=INTERVAL(SIZE):[b,e)'], sizes, 'b,e\nS,L\n')
        self.gives(['A=INTERVAL(SIZE):b,e'], sizes, 'b,e\nS,M\n')
        self.breaks(['A=INTERVAL(SIZE):[b,e)'], sizes, 'line 2: A: the values of SIZE are not known; tell them by --type')
        self.breaks(['--type', 'SIZE=S,M', 'A=INTERVAL(SIZE):[b,e)'], sizes,
                    'line 2: A: the interval has the last SIZE, and no bound beyond it; --last says what to write')

    def test_moments(self):
        given = '| A                   | B                                         |\n| 2023-02-01T08:30:05 | [2023-02-01T22:00:00:2023-02-02T05:59:59] |\nrows: 1\n'
        self.gives(['A=MOMENT:a', 'B=INTERVAL(MOMENT):[b,e)'], given, 'a,b,e\n2023-02-01 08:30:05,2023-02-01 22:00:00,2023-02-02 06:00:00\n')
        self.gives(['B=INTERVAL(MOMENT):b,e'], given, 'A,b,e\n2023-02-01T08:30:05,2023-02-01 22:00:00,2023-02-02 05:59:59\n')
        self.gives(['A=MOMENT', 'B=INTERVAL(MOMENT):[b)'], given, 'A,b\n2023-02-01 08:30:05,"[""2023-02-01 22:00:00"",""2023-02-02 06:00:00"")"\n')
        self.gives([], given, 'A,B\n2023-02-01T08:30:05,[2023-02-01T22:00:00:2023-02-02T05:59:59]\n')
        self.gives(['--json', 'A=MOMENT'], given, '{"A": "2023-02-01 08:30:05", "B": "[2023-02-01T22:00:00:2023-02-02T05:59:59]"}\n')
        endless = '| B                                         |\n| [0001-01-01T00:00:00:9999-12-31T23:59:59] |\nrows: 1\n'
        self.gives(['--last', '', '--first', '', 'B=INTERVAL(MOMENT):[b)'], endless, 'b\n"[,)"\n')
        self.breaks(['B=INTERVAL(MOMENT):[b)'], endless, 'line 2: B: the interval has the last MOMENT, and no bound beyond it; --last says what to write')
        self.breaks(['A=MOMENT'], '| A          |\n| 2023-02-01 |\nrows: 1\n', 'line 2: A: 2023-02-01 is no MOMENT')
        self.breaks(['A=DATE'], given, 'line 2: A: 2023-02-01T08:30:05 is no DATE')

    def test_json(self):
        wanted = ('{"A": "x | y", "B": "it\'s", "from": "2023-01-01", "to": "2023-06-30", "N": -1}\n'
                  '{"A": "", "B": "a, \\"b\\"", "from": "2023-03-01", "to": "9999-12-31", "N": 2}\n')
        self.gives(['--json', 'D=INTERVAL(DATE):from,to'], TABLE, wanted)
        self.gives(['--json', '--date-format', '%Y%m%d', 'B=DECIMAL(1):B'],
                   '| A          | B |\n| 2023-02-01 | 5 |\nrows: 1\n', '{"A": "20230201", "B": "0.5"}\n')
        self.gives(['--json'], "| A    | B   | C    | é     |\n| TRUE | '1' | S    | [1:2] |\nrows: 1\n", '{"A": true, "B": "1", "C": "S", "é": "[1:2]"}\n')

    def test_several_tables_and_answers(self):
        given = "| A |\n| 1 |\nrows: 1\nTRUE\n| B |\nrows: 0\n"
        self.gives([], given, 'A\n1\n\nANSWER\nTRUE\n\nB\n')
        self.gives(['--json'], given, '{"A": 1}\n{"ANSWER": true}\n')

    def test_no_attributes(self):
        self.gives(['--json'], '|\n|\nrows: 1\n|\nrows: 0\n', '{}\n')
        self.gives([], '|\n|\nrows: 1\n', '\n\n')

    def test_refusals(self):
        refused = 'statement 2 refused: E10 unknown name at 2:7\n'
        self.gives([], f'| A |\n| 1 |\nrows: 1\n{refused}FALSE\n', 'A\n1\n\nANSWER\nFALSE\n', 1, refused)

    def test_what_the_program_does_not_print(self):
        self.breaks([], 'hello\n', "line 1: the program does not print 'hello'")
        self.breaks([], '| A |\n| 1 |\n', 'line 2: the last table does not end')
        self.breaks([], '| A |\n| 1 |\nTRUE\n', 'line 3: a table ends without its number of rows')
        self.breaks([], '| A |\n| 1 |\nrows: 2\n', 'line 3: the number of rows before it is 1')
        self.breaks([], '| A |\n| 1 | 2 |\nrows: 1\n', 'line 2: the number of entries is 2, and not 1')
        self.breaks([], "| A |\n| 'x |\nrows: 1\n", 'line 2: this is no line of a table')
        self.breaks(['A=INTERVAL(DATE):b,e'], '| A |\n| 1 |\nrows: 1\n', 'line 2: A: 1 is no interval')
        self.breaks(['A=INTEGER'], '| A     |\n| [1:2] |\nrows: 1\n', 'line 2: A: [1:2] is no INTEGER')
        self.breaks(['D=INTERVAL(DATE):[b,e)'], TABLE, 'line 3: D: the interval has the last DATE, and no bound beyond it; --last says what to write')
        self.breaks(['A=CHAR:B'], '| A | B |\nrows: 0\n', 'line 1: two fields have the same name')
        self.breaks(['A=DECIMAL(2)'], "| A   |\n| S   |\nrows: 1\n", 'line 2: A: S is no INTEGER')
        self.breaks(['D=INTERVAL(INTEGER):b,e'], TABLE, 'line 2: D: 2023-01-01 is no INTEGER')
        self.breaks(['A=TIME(MINUTES)'], '| A    |\n| 1441 |\nrows: 1\n', 'line 2: A: 1441 is no number of minutes since midnight')
        self.breaks(['A=TIMESTAMP(MINUTES)'], '| A            |\n| 999999999999 |\nrows: 1\n', 'line 2: A: 999999999999 is no time of the years 1 to 9999')

    def test_files(self):
        given = "| A |\n| 1 |\nrows: 1\n| _        |\n| 'prices' |\nrows: 1\n| B |\n| 2 |\nrows: 1\nTRUE\n"
        with tempfile.TemporaryDirectory() as folder:
            self.gives(['--into', f'{folder}/new'], given, '')
            found = {name: open(f'{folder}/new/{name}', encoding='utf-8').read() for name in os.listdir(f'{folder}/new')}
            self.assertEqual(found, {'1.csv': 'A\n1\n', 'prices.csv': 'B\n2\n', '3.csv': 'ANSWER\nTRUE\n'})
            refused = 'statement 3 refused: E10 unknown name at 3:7\n'
            self.gives(['--into', folder], f"| _   |\n| 'x' |\nrows: 1\n{refused}| C |\nrows: 0\n", '', 1, refused)
            self.assertEqual(sorted(os.listdir(folder)), ['1.csv', 'new'])
            self.gives(['--json', '--into', folder], '| A |\n| 1 |\nrows: 1\n', '')
            self.assertEqual(open(f'{folder}/1.jsonl', encoding='utf-8').read(), '{"A": 1}\n')
            label = "| _ |\n| '{}' |\nrows: 1\n| A |\nrows: 0\n"
            self.breaks(['--into', folder], label.format('../x'), "line 4: no file can be named '../x'")
            self.breaks(['--into', folder], 2 * label.format('x'), "line 9: two tables are named 'x'")
        self.gives([], "| _        |\n| 'prices' |\nrows: 1\n| B |\nrows: 0\n", '_\nprices\n\nB\n')

    def test_wrong_words(self):
        for words in (['A'], ['--into'], ['A=CHAR:a,b'], ['--var'], ['A=CHAR', 'A=CHAR:b']):
            with self.subTest(words=words):
                self.assertEqual(call(['out', *words], '')[0], 2)


# ---------------------------------------------------------------- there and back

class Both(unittest.TestCase):
    COLUMNS = ['A=CHAR:text', 'B=INTEGER:number', 'C=INTERVAL(DATE):[from,to)', 'D=BOOLEAN:truth', 'E=INTERVAL(INTEGER):range', 'F=DECIMAL(2):price',
               'G=DATE:day', 'H=SIZE:size', 'I=TIMESTAMP(MINUTES):stamp', 'J=INTERVAL(TIME(MINUTES)):times', 'K=MOMENT:moment', 'L=INTERVAL(MOMENT):[call]']
    HEADER = ['text', 'number', 'from', 'to', 'truth', 'range', 'price', 'day', 'size', 'stamp', 'times', 'moment', 'call']

    def row(self, chance):
        """A random row of the fields."""
        begin, more = chance.randrange(-50, 50), chance.randrange(0, 50)
        day = kinds.datetime.date(2023, 1, 1) + kinds.datetime.timedelta(chance.randrange(700))
        to = '' if chance.random() < 0.2 else (day + kinds.datetime.timedelta(1 + more)).isoformat()
        text = ''.join(chance.choice('ab\'",|;é :[]{}/*') for _ in range(chance.randrange(8)))
        price = f'{chance.randrange(-999, 999) / 100:.2f}'
        return [text, str(begin), day.isoformat(), to, chance.choice(['TRUE', 'FALSE']), f'[{begin}:{begin + more}]', price, day.isoformat(),
                chance.choice('SML'), f'{day} 08:{more:02}', f'[08:{more:02},{9 + more % 9:02}:00]', f'{day} 23:59:{more:02}',
                f'["{day} 08:00:{more:02}","{day} {9 + more % 9:02}:00:00"]']

    def test_round_trips(self):
        chance = random.Random(1)
        for delimiter in (',', ';', 'tab'):
            sheet, options = io.StringIO(newline=''), ['--delimiter', delimiter, '--last', '']
            rows = [self.row(chance) for _ in range(200)]
            csv.writer(sheet, delimiter=delimiter.replace('tab', '\t'), lineterminator='\n').writerows([self.HEADER, *rows])
            status, script, told = call(['in', *options, '--empty', 'text=', 'R', *self.COLUMNS], sheet.getvalue())
            self.assertEqual((status, told), (0, ''))
            back = call(['out', *options, *self.COLUMNS], printed(self.closed(script)))
            self.assertEqual(back, (0, sheet.getvalue(), ''))

    @staticmethod
    def closed(script):
        """The script with its half-open intervals of days written closed."""
        def close(match):
            return f"{match[1]}DATE '{kinds.datetime.date.fromisoformat(match[2]) - kinds.datetime.timedelta(1)}'], D"
        return re.sub(r"(C \[DATE '[0-9-]*':)DATE '([0-9-]*)'\), D", close, script)

    def test_reserved_words_are_those_of_the_language(self):
        with open(f'{ROOT}/docs/language.md', encoding='utf-8') as file:
            told = re.search(r'^The reserved words:\n\n((?:    .*\n)+)', file.read(), re.M)
        self.assertEqual(kinds.KEYWORDS, set(told[1].split()))

    def test_progress_is_told_on_terminals(self):
        terminal = io.StringIO()
        terminal.isatty = lambda: True
        for stream, wanted in ((terminal, '\r\033[Kcsv in: 2,000 rows\r\033[K'), (io.StringIO(), '')):
            progress = Progress(stream, 'csv in')
            progress.tell(1000)
            progress.next = progress.next and 0
            progress.tell(2000)
            progress.tell(3000)
            progress.clear()
            self.assertEqual(stream.getvalue(), wanted)

    def test_processes(self):
        status, script, told = run([sys.executable, 'tools/csv', 'in', 'R', 'a=CHAR'], 'a\né\n')
        self.assertEqual((status, script, told), (0, "INSERT R RELATION {\n  TUPLE {a 'é'}\n};\n", ''))
        self.assertEqual(run([sys.executable, 'tools/csv', 'out'], "| a   |\n| 'é' |\nrows: 1\nstatement 2 refused: E46 database full\n"),
                         (1, 'a\né\n', 'statement 2 refused: E46 database full\n'))
        self.assertEqual(run(['bash', '-c', 'python3 tools/csv out > /dev/full'], '| a |\nrows: 0\n'),
                         (4, '', 'csv out: [Errno 28] No space left on device\n'))
        self.assertEqual(run([sys.executable, 'tools/csv', 'out', '--into', '/dev/null/x'], '| a |\nrows: 0\n')[0], 4)


# ---------------------------------------------------------------- where

class Where(unittest.TestCase):
    SCRIPT = "// one; two\nVAR R RELATION {A CHAR}; /* ; */ ;\n  INSERT R RELATION {\n  TUPLE {A 'a;''//'}}; PRINT R\n  {A}; é; PRINT R WHERE A = '/*'; /"

    def test_places(self):
        places = (('2:1', 'VAR R RELATION {A CHAR};'), ('2:34', ';'), ('3:3', 'INSERT R RELATION {'), ('4:24', 'PRINT R'), ('5:8', 'é;'),
                  ('5:12', "PRINT R WHERE A = '/*';"), ('5:36', '/'))
        for number, (place, line) in enumerate(places, 1):
            with self.subTest(number=number):
                self.assertEqual(where(number, self.SCRIPT), (0, f'statement {number} begins at {place}\n{line}\n', ''))

    def test_there_is_none(self):
        self.assertEqual(where(8, self.SCRIPT), (1, '', 'there is no statement 8; the script has 7\n'))
        self.assertEqual(where(1, ' \n/* ; */ // ;'), (1, '', 'there is no statement 1; the script has 0\n'))

    def test_what_does_not_end(self):
        self.assertEqual(where(2, "PRINT R;\nINSERT R {TUPLE {A 'b}};\nPRINT R WHERE A = 'x';\n")[1],
                         "statement 2 begins at 2:1\nINSERT R {TUPLE {A 'b}};\nthe text that begins at 2:20 does not end on its line\n")
        self.assertEqual(where(1, "PRINT R WHERE A = 'x")[1],
                         "statement 1 begins at 1:1\nPRINT R WHERE A = 'x\nthe text that begins at 1:19 does not end on its line\n")
        self.assertEqual(where(2, 'PRINT R; /* ;')[1], 'statement 2 begins at 1:10\n/* ;\nthe comment that begins at 1:10 does not end\n')

    def test_wrong_words(self):
        for words in ([], ['0'], ['x'], ['-1'], ['1', '2']):
            with self.subTest(words=words):
                status, written, told = run(['tools/where', *words], 'PRINT R;')
                self.assertEqual((status, written), (2, ''))
                self.assertIn('tools/where N < SCRIPT', told)


def main():
    told = io.StringIO()
    suite = unittest.defaultTestLoader.loadTestsFromModule(sys.modules[__name__])
    result = unittest.TextTestRunner(stream=told, verbosity=0).run(suite)
    if not result.wasSuccessful():
        print(told.getvalue())
        return 1
    print(f'{result.testsRun} tests of tools/csv and tools/where passed')
    return 0


if __name__ == '__main__':
    sys.exit(main())
