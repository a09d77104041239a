#!/usr/bin/env python3
"""text: what it costs to read rows from text and to print them, and what SQLite takes for the same rows.

    text.py [TIMES]

runs the program on five scripts, TIMES each (3 if not said), and prints the least seconds of processor and the most megabytes of memory: a literal of 1 MB;
15 MB of literals in 15 statements; 16 MB of small statements that ask, and as many that insert a row each; and a table of 100,000 rows, where the figure is
what a second PRINT of it adds. SQLite reads the rows of the first two from INSERT statements of as many rows each, into a table in memory with the same key,
and as many small statements of its own; what Python takes to start falls out. The program is crates/utd/out/utd, as the gate leaves it.
"""
import os
import subprocess
import sys
import tempfile

ROOT = os.path.dirname(os.path.dirname(os.path.dirname(os.path.abspath(__file__))))
PROGRAM = f'{ROOT}/crates/utd/out/utd'
HEAD = 'VAR R RELATION {K INTEGER, D INTERVAL(INTEGER)} KEY {K};\n'
TABLE = 'CREATE TABLE r (k INTEGER PRIMARY KEY, b INTEGER, e INTEGER);\n'
SQLITE = "import sqlite3, sys; sqlite3.connect(':memory:').executescript(sys.stdin.read())"
# the word before those of a run that is to be measured
MEASURE = '--measure'
# so many rows of some 40 bytes make a literal of 1 MB, the most that a statement may have
IN_A_LITERAL = 25_000
LITERALS = 15
PRINTED = 100_000
SMALL = 16_000_000
# rows that single insertions put into one relvar
SINGLE = 1_000


def numbers(rows):
    """Keys in no order, and the interval of each."""
    return [(7919 * i % 99991 * 1000 + i % 1000, 1_000_000 + i, 2_000_000 + 7 * i) for i in range(rows)]


def literals(rows, each):
    """Statements that insert the rows, so many in each."""
    tuples = ['TUPLE {K %d, D [%d:%d]}' % row for row in rows]
    return ''.join('INSERT R RELATION {%s};\n' % ',\n'.join(tuples[i:i + each]) for i in range(0, len(rows), each))


def in_sql(rows, each):
    """The same for SQLite."""
    values = ['(%d, %d, %d)' % row for row in rows]
    return TABLE + ''.join('INSERT INTO r VALUES %s;\n' % ',\n'.join(values[i:i + each]) for i in range(0, len(rows), each))


def emptied(rows):
    """Statements with a literal each, every one of which empties the relvar first, since it holds no more than 100,000 rows."""
    parts = (literals(rows[i:i + IN_A_LITERAL], IN_A_LITERAL) for i in range(0, len(rows), IN_A_LITERAL))
    return HEAD + ''.join(part.replace('INSERT R', 'R :=', 1) for part in parts)


def asked(size):
    """Statements that ask for little, so many bytes of them, and as many for SQLite."""
    one, other = 'ASK IS_EMPTY (RELATION {A INTEGER} {});\n', 'SELECT NOT EXISTS (SELECT 1 AS a WHERE FALSE);\n'
    many = size // len(one)
    return one * many, other * many


def added(size):
    """Insertions of a row each, each relvar emptied before it has too many: so many bytes of them, and as many for SQLite."""
    one, other, many, length = ['VAR R RELATION {A INTEGER};\n'], ['CREATE TABLE r (a INTEGER);\n'], 0, 0
    while length < size:
        if many % SINGLE == SINGLE - 1:
            one.append('DELETE R WHERE TRUE;\n')
            other.append('DELETE FROM r;\n')
        one.append(f'INSERT R RELATION {{TUPLE {{A {many}}}}};\n')
        other.append(f'INSERT INTO r VALUES ({many});\n')
        many, length = many + 1, length + len(one[-1])
    return ''.join(one), ''.join(other)


def measure(words):
    """Runs the words on standard input, and prints the seconds of processor and the megabytes of the run."""
    child = os.fork()
    if child == 0:
        nowhere = os.open(os.devnull, os.O_WRONLY)
        os.dup2(nowhere, 1)
        os.execv(words[0], words)
    _, status, used = os.wait4(child, 0)
    print(used.ru_utime + used.ru_stime, used.ru_maxrss / 1024)
    return os.waitstatus_to_exitcode(status)


def run(words, script):
    """The seconds of processor and the megabytes of a run, started by a process of its own, which is small: what forks counts as memory of the run."""
    with tempfile.TemporaryFile() as file:
        file.write(script.encode())
        file.seek(0)
        done = subprocess.run([sys.executable, __file__, MEASURE, *words], stdin=file, stdout=subprocess.PIPE, check=False)
    if done.returncode != 0:
        sys.exit(f'text: {words[0]} ended with status {done.returncode}')
    seconds, size = done.stdout.split()
    return float(seconds), float(size)


def least(times, words, script):
    """The least seconds of some runs, and the most megabytes."""
    runs = [run(words, script) for _ in range(times)]
    return min(seconds for seconds, _ in runs), max(size for _, size in runs)


def told(name, seconds, size=None):
    print(f'{name:<34} {1000 * seconds:7.0f} ms' + (f' {size:7.0f} MB' if size else ''))


def main():
    if not os.access(PROGRAM, os.X_OK):
        sys.exit(f'text: {PROGRAM} is not there: build it first')
    times = int(sys.argv[1]) if sys.argv[1:] else 3
    rows = numbers(LITERALS * IN_A_LITERAL)
    one, many = HEAD + literals(rows[:IN_A_LITERAL], IN_A_LITERAL), emptied(rows)
    printed = HEAD + literals(rows[:PRINTED], IN_A_LITERAL)
    python, sqlite = [sys.executable, '-c', 'import sqlite3, sys'], [sys.executable, '-c', SQLITE]
    start = least(times, python, '')[0]
    for name, script, sql in ('a literal', one, in_sql(rows[:IN_A_LITERAL], IN_A_LITERAL)), ('literals in 15 statements', many, in_sql(rows, IN_A_LITERAL)):
        told(f'{name}, {len(script) / 1e6:.1f} MB', *least(times, [PROGRAM], script))
        told('  SQLite', least(times, sqlite, sql)[0] - start)
    for name, (script, sql) in ('small questions', asked(SMALL)), ('insertions of a row', added(SMALL)):
        told(f'{name}, {len(script) / 1e6:.0f} MB', *least(times, [PROGRAM], script))
        told('  SQLite', least(times, sqlite, sql)[0] - start)
    once, twice = (least(times, [PROGRAM], printed + 'PRINT R;\n' * n) for n in (1, 2))
    told('a table of 100,000 rows', twice[0] - once[0], twice[1])


if sys.argv[1:2] == [MEASURE]:
    sys.exit(measure(sys.argv[2:]))
main()
