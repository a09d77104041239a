#!/usr/bin/env python3
"""kernels: what operators over numbered cells take, in sorts of the same rows.

    kernels.py [RUNS] [KIND ROWS]..

Runs out/operator_benchmarks, which `python3 tools/build --benchmarks` builds, RUNS times (9 if it is not given); each run sorts the rows of both lists once and times each operator. Of each
the least and the middle run are told, in milliseconds and in sorts of the rows of both lists; and the middle one in sorts of the rows that the operator takes and gives, reckoned
from that sort by rows times their logarithm. With no kinds named all are measured.
"""
import math
import os
import re
import subprocess
import sys

ROOT = os.path.dirname(os.path.dirname(os.path.dirname(os.path.abspath(__file__))))
PROGRAM = os.environ.get('KERNELS', f'{ROOT}/out/operator_benchmarks')
CELLS = [(kind, rows)
         for kind, sizes in (('tenth', (1000, 10000, 100000)), ('one', (1000, 10000, 100000)), ('each', (1000, 10000, 100000)), ('cover', (1000, 10000)),
                             ('two', (300, 1000, 3000)), ('quarter', (1000, 10000, 100000)))
         for rows in sizes]
LINE = re.compile(r'(.+): (\d+) ns, \d+ hundredths of the sort, (\d+) rows')


def run(kind, rows):
    out = subprocess.run([PROGRAM, 'boxes', kind, str(rows)], capture_output=True, text=True, check=True).stdout
    return {name: (int(spent) / 1e6, int(count)) for name, spent, count in LINE.findall(out)}


def middle(values):
    return sorted(values)[len(values) // 2]


def sorts_of(rows, count):
    """How many sorts of `rows` rows one of `count` rows is."""
    return count * math.log(count) / (rows * math.log(rows))


def main():
    words = sys.argv[1:]
    runs = int(words.pop(0)) if words and words[0].isdigit() else 9
    cells = [(words[i], int(words[i + 1])) for i in range(0, len(words), 2)] or CELLS
    print('| Rows | Operator | rows given | least ms | middle ms | in sorts, least | middle | of rows taken and given |')
    print('|---|---|---|---|---|---|---|---|')
    for kind, rows in cells:
        found = [run(kind, rows) for _ in range(runs)]
        names = list(found[0])
        sorts = [one[names[0]][0] for one in found]
        taken = found[0][names[0]][1]
        print(f'| {kind} {rows:,} | one sort | {taken:,} | {min(sorts):.3f} | {middle(sorts):.3f} | 1.0 | 1.0 | |')
        for name in names[1:]:
            times, given = [one[name][0] for one in found], found[0][name][1]
            in_sorts = middle(times) / middle(sorts)
            print(f'| {kind} {rows:,} | {name} | {given:,} | {min(times):.3f} | {middle(times):.3f} | {min(times) / min(sorts):.1f} | {in_sorts:.1f} | '
                  f'{in_sorts / sorts_of(taken, taken + given):.1f} |', flush=True)


main()
