#!/usr/bin/env python3
"""counts: instructions and allocations of the program for one tuple, one value of it, one statement and one printed cell.

    counts.py            counts with valgrind, and compares with counts.txt: status 1 where a figure is more than 2 % above its own
    counts.py --write    counts, and writes counts.txt

Each figure is the difference of two runs of fixed scripts, by what the longer one has more, so that what every run costs falls out. Counts do not
swing with the load of a machine, but they hang on its C library. The program is crates/utd/out/utd, as the gate leaves it.
"""
import os
import re
import subprocess
import sys

HERE = os.path.dirname(os.path.abspath(__file__))
ROOT = os.path.dirname(os.path.dirname(HERE))
PROGRAM = f'{ROOT}/crates/utd/out/utd'
STORED = f'{HERE}/counts.txt'
SLACK = 0.02
MORE = 1000


def literal(rows, values):
    """A test over a literal of so many tuples, each of so many values."""
    names = ['A', 'B', 'C', 'D']
    tuples = (', '.join(f'{names[j]} {i + j}' for j in range(values)) for i in range(rows))
    return 'ASK IS_EMPTY (RELATION {%s});\n' % ', '.join('TUPLE {%s}' % t for t in tuples)


def printed(times):
    """A relvar of a thousand rows with two attributes, printed so many times."""
    tuples = ', '.join(f'TUPLE {{A {i}, B {i + 1}}}' for i in range(MORE))
    return 'VAR R RELATION {A INTEGER, B INTEGER} KEY {A};\nR := RELATION {%s};\n' % tuples + 'PRINT R;\n' * times


def tests(many):
    """So many statements that ask for little."""
    return 'ASK IS_EMPTY (RELATION {A INTEGER} {});\n' * many


# what is counted: a shorter script, a longer one, and what the longer one has more
COUNTED = {
    'a tuple of two values': (literal(MORE, 2), literal(2 * MORE, 2), MORE),
    'a value of a tuple': (literal(MORE, 2), literal(MORE, 3), MORE),
    'a statement': (tests(MORE), tests(2 * MORE), MORE),
    'a printed cell': (printed(1), printed(2), 2 * MORE),
}


def run(tool, script, pattern):
    """The number that valgrind tells of a run."""
    done = subprocess.run(['valgrind', *tool, PROGRAM], input=script.encode(), capture_output=True)
    found = re.search(pattern, done.stderr.decode(errors='replace'))
    if done.returncode not in (0, 1) or not found:
        sys.exit(f'counts: valgrind or the program failed:\n{done.stderr.decode(errors="replace")[-2000:]}')
    return int(found[1].replace(',', ''))


def instructions(script):
    return run(['--tool=callgrind', '--callgrind-out-file=/dev/null'], script, r'Collected : (\d+)')


def allocations(script):
    return run(['--tool=memcheck', '--leak-check=no', '--undef-value-errors=no'], script, r'total heap usage: ([\d,]+) allocs')


def counted():
    """What is counted, with its instructions and allocations."""
    figures = {}
    for name, (short, long, more) in COUNTED.items():
        figures[name] = tuple((count(long) - count(short)) / more for count in (instructions, allocations))
    return figures


def text_of(figures):
    lines = [f'{name}: {i:.0f} instructions, {a:.2f} allocations' for name, (i, a) in figures.items()]
    return '\n'.join(lines) + '\n'


def stored():
    with open(STORED, encoding='utf-8') as file:
        found = re.findall(r'(.+): (\d+) instructions, ([\d.]+) allocations', file.read())
    return {name: (float(i), float(a)) for name, i, a in found}


def main():
    if not os.access(PROGRAM, os.X_OK):
        sys.exit(f'counts: {PROGRAM} is not there: build it first')
    figures = counted()
    if sys.argv[1:] == ['--write']:
        with open(STORED, 'w', encoding='utf-8') as file:
            file.write(text_of(figures))
        return 0
    status = 0
    for name, before in stored().items():
        now = figures[name]
        for what, one, other in zip(('instructions', 'allocations'), before, now):
            is_more = other > one * (1 + SLACK)
            print(f'{name}: {other:,.2f} {what}, {one:,.2f} stored{", MORE" if is_more else ""}')
            status = status or is_more
    return int(status)


sys.exit(main())
