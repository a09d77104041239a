#!/usr/bin/env python3
"""sides: how long PACK takes on several attributes.

    sides.py PROGRAM SIDES ROWS LABELS [TIMES]

ROWS rows with LABELS labels on SIDES integer intervals: each begins at random below SPREAD and is at most LONGEST long on each side, so
that rows overlap on some sides and meet on others. They stand in a relvar. Prints the processor time of one statement that packs them and
counts what comes, less that of one that counts them as they are: the least of five runs, each with TIMES (20) such statements, in
milliseconds; and how many rows come.
"""
import os
import random
import subprocess
import sys
import tempfile

SPREAD, LONGEST, RUNS = 100, 20, 5
NAMES = 'ABCD'


def box(random_, sides):
    ends = []
    for name in NAMES[:sides]:
        begin = random_.randrange(SPREAD)
        ends.append('%s [%d:%d]' % (name, begin, begin + random_.randrange(LONGEST)))
    return ', '.join(ends)


# The rows in a relvar.
def rows_in(sides, rows, labels):
    random_ = random.Random(1)
    names = NAMES[:sides]
    heading = ', '.join('%s INTERVAL(INTEGER)' % name for name in names)
    tuples = ', '.join('TUPLE {N %d, %s}' % (random_.randrange(labels), box(random_, sides)) for _ in range(rows))
    return 'VAR R RELATION {N INTEGER, %s} KEY {N, %s};\nINSERT R RELATION {%s};\n' % (heading, ', '.join(names), tuples)


def script(sides, rows, labels, packs, times):
    operand = '(PACK R ON (%s))' % ', '.join(NAMES[:sides]) if packs else 'R'
    return rows_in(sides, rows, labels) + times * ('PRINT SUMMARIZE %s BY {}: {ROWS_ := COUNT()};\n' % operand)


# The processor time of one run in milliseconds, and the count that it printed.
def run(program, text):
    with tempfile.TemporaryFile() as stdin:
        stdin.write(text.encode())
        stdin.seek(0)
        before = os.times()
        out = subprocess.run([program], stdin=stdin, stdout=subprocess.PIPE, check=False).stdout.decode()
        after = os.times()
    spent = after.children_user + after.children_system - before.children_user - before.children_system
    lines = out.splitlines()
    return 1000 * spent, lines[1].strip('| ') if len(lines) > 1 else out.strip()


def least(program, text):
    found = [run(program, text) for _ in range(RUNS)]
    return min(found)[0], found[0][1]


def main():
    program = sys.argv[1]
    sides, rows, labels = map(int, sys.argv[2:5])
    times = int(sys.argv[5]) if len(sys.argv) > 5 else 20
    plain, _ = least(program, script(sides, rows, labels, False, times))
    packed, count = least(program, script(sides, rows, labels, True, times))
    print('%d sides, %d rows, %d labels: %.2f ms; %s rows come' % (sides, rows, labels, (packed - plain) / times, count))


if __name__ == '__main__':
    main()
