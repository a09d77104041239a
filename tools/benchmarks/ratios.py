#!/usr/bin/env python3
"""ratios: what operators under USING take, in sorts of the same rows.

    ratios.py [RUNS] [SHAPE ROWS OPERATOR]..

Runs crates/utd/out/utd, which the gate builds, and out/operator_benchmarks, which `python3 tools/build --benchmarks` builds. One statement is a run of a script of `using.py` that asks
the operator many times, less a run of that with no operator, divided by how many times; a sort is what operator_benchmarks prints for as many rows as the operands
have together. The three runs are made in turn, RUNS times (9 if it is not given), and of each the least and the middle one are taken. With no cells named all are measured.
"""
import os
import re
import subprocess
import sys
import time

ROOT = os.path.dirname(os.path.dirname(os.path.dirname(os.path.abspath(__file__))))
PROGRAM = os.environ.get('UTD', f'{ROOT}/crates/utd/out/utd')
SORTS = os.environ.get('SORTS', f'{ROOT}/out/operator_benchmarks')
CELLS = [(shape, rows, operator)
         for shape, sizes in (('tenth', (1000, 10000, 100000)), ('each', (1000, 10000, 100000)), ('one', (1000, 10000, 100000)), ('two', (300, 1000, 3000)))
         for rows in sizes
         for operator in (('counts',) if shape == 'one' else ('minus', 'join', 'not_matching'))
         if not (shape == 'each' and rows == 100000 and operator == 'join')]
# operators of one operand
SINGLE = ('counts', 'pack')
# rows that are asked for in one run, so that it takes long enough
ENOUGH = 200_000


def script(rows, shape, operator, times):
    made = subprocess.run([sys.executable, f'{ROOT}/tools/benchmarks/using.py', str(rows), shape, operator, str(times)], capture_output=True, check=True)
    return made.stdout


def spent(text):
    start = time.perf_counter()
    subprocess.run([PROGRAM], input=text, stdout=subprocess.DEVNULL, check=False)
    return (time.perf_counter() - start) * 1e3


def sort(shape, rows):
    out = subprocess.run([SORTS, 'relations', shape, str(rows)], capture_output=True, text=True, check=True).stdout
    return int(re.search(r'(\d+) ns', out).group(1)) / 1e6


def middle(values):
    return sorted(values)[len(values) // 2]


def measure(shape, rows, operator, runs):
    times = max(5, ENOUGH // rows)
    none, many = script(rows, shape, operator, 0), script(rows, shape, operator, times)
    both = rows if operator in SINGLE else 2 * rows
    found = [(spent(none), spent(many), sort(shape, both)) for _ in range(runs)]
    statements = [(many_ms - none_ms) / times for none_ms, many_ms, _ in found]
    sorts = [ms for _, _, ms in found]
    least, mid = (min(f[1] for f in found) - min(f[0] for f in found)) / times, middle(statements)
    return least, mid, min(sorts), middle(sorts)


def main():
    words = sys.argv[1:]
    runs = int(words.pop(0)) if words and words[0].isdigit() else 9
    cells = [(words[i], int(words[i + 1]), words[i + 2]) for i in range(0, len(words), 3)] or CELLS
    print('| Rows | Operator | least ms | middle ms | least sort | middle sort | in sorts, least | middle |')
    print('|---|---|---|---|---|---|---|---|')
    for shape, rows, operator in cells:
        least, mid, sort_least, sort_mid = measure(shape, rows, operator, runs)
        print(f'| {shape} {rows:,} | {operator} | {least:.3f} | {mid:.3f} | {sort_least:.3f} | {sort_mid:.3f} | {least / sort_least:.1f} | {mid / sort_mid:.1f} |', flush=True)


main()
