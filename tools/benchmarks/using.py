#!/usr/bin/env python3
"""using: a script that asks operators under USING of two histories in relvars.

    using.py ROWS tenth|one|each|cover|few|two|second OPERATOR TIMES > script

Each relvar gets ROWS rows (at most 100,000) of a key, a value of its own and an interval of integers: a tenth as many keys; one key over
intervals that all overlap; a key for each row over intervals that all overlap; no common key, and 40 intervals at each point; a
fiftieth as many keys; a tenth as many keys and two intervals; or one key and two intervals, of which the first ones all overlap and the
second ones hardly do. OPERATOR is one of those below; it is asked TIMES times, and what it gives is counted. A run with 0 is what it costs to read and keep the rows.
"""
import random
import sys

# the attributes that both have, before the interval
SHARED = {'tenth': ['K'], 'one': ['K'], 'each': ['K'], 'few': ['K'], 'two': ['K'], 'second': ['K'], 'cover': []}
# the attributes of intervals
SIDES = {'two': ['D', 'E'], 'second': ['D', 'E']}
COUNTED = 'PRINT SUMMARIZE (%s) BY {}: {N := COUNT()};\n'
# the operators of relations of one heading, and of two
ALIKE = {
    'union': COUNTED % 'USING (D): R UNION S',
    'intersect': COUNTED % 'USING (D): R INTERSECT S',
    'minus': COUNTED % 'USING (D): R MINUS S',
    'pack': COUNTED % 'PACK R ON (D)',
    'equal': 'ASK USING (D): R = S;\n',
    'within': 'ASK USING (D): R <= S;\n',
    'less': 'ASK USING (D): R < S;\n',
    'where': COUNTED % 'USING (D): R WHERE BEGIN(D) <> ROWS',
    'extend': COUNTED % 'USING (D): EXTEND R : {C := 1, E := BEGIN(D) < ROWS}',
    'counts': COUNTED % 'USING (D): SUMMARIZE R BY {D} : {M := COUNT(), T := SUM(C)}',
    'counts_by_key': COUNTED % 'USING (D): SUMMARIZE R BY {K, D} : {M := COUNT(), T := SUM(C)}',
    'extremes': COUNTED % 'USING (D): SUMMARIZE R BY {D} : {L := MIN(C), G := MAX(C)}',
}
OTHER = {
    'join': COUNTED % 'USING (D): R JOIN S',
    'matching': COUNTED % 'USING (D): R MATCHING S',
    'not_matching': COUNTED % 'USING (D): R NOT MATCHING S',
    'project': COUNTED % 'USING (D): R {K, D}',
}


def keys(rows, shape):
    parts = {'tenth': 10, 'few': 50, 'two': 10, 'each': 1}
    return max(1, rows // parts[shape]) if shape in parts else 1


def interval(shape, side, rows, numbers):
    if shape == 'second' and side == 'E':
        begin = numbers.randrange(20 * rows)
        return begin, begin + numbers.randrange(10)
    if shape in ('tenth', 'few'):
        begin = numbers.randrange(2000)
        return begin, begin + numbers.randrange(30)
    if shape == 'cover':
        begin = numbers.randrange(10 * rows)
        return begin, begin + 399
    if shape == 'two':
        begin = numbers.randrange(300)
        return begin, begin + numbers.randrange(21)
    begin = numbers.randrange(rows)
    return begin, rows + numbers.randrange(rows)


def sides(shape):
    return SIDES.get(shape, ['D'])


def rows_of(rows, shape, numbers):
    found = set()
    count = keys(rows, shape)
    while len(found) < rows:
        found.add((len(found) % count, tuple(interval(shape, side, rows, numbers) for side in sides(shape))))
    return sorted(found, key=lambda _: numbers.random())


def relvar(name, own, rows, shape, numbers, write):
    attributes = [a + ' INTEGER' for a in SHARED[shape] + own] + [a + ' INTERVAL(INTEGER)' for a in sides(shape)]
    write('VAR %s RELATION {%s};\n' % (name, ', '.join(attributes)))
    for start in range(0, len(rows), 5000):
        tuples = []
        for key, spans in rows[start:start + 5000]:
            values = ['K %d' % key] * len(SHARED[shape]) + ['%s %d' % (a, spans[0][0] % 97) for a in own]
            values += ['%s [%d:%d]' % (a, begin, end) for a, (begin, end) in zip(sides(shape), spans)]
            tuples.append('TUPLE {%s}' % ', '.join(values))
        write('INSERT %s RELATION {%s};\n' % (name, ', '.join(tuples)))


def main():
    rows, shape, operator, times = int(sys.argv[1]), sys.argv[2], sys.argv[3], int(sys.argv[4])
    numbers = random.Random(1)
    write = sys.stdout.write
    alike = operator in ALIKE
    for name, own in ('R', 'A'), ('S', 'B'):
        relvar(name, ['C'] if alike else [own], rows_of(rows, shape, numbers), shape, numbers, write)
    text = (ALIKE if alike else OTHER)[operator].replace('ROWS', str(rows))
    write(text.replace('(D)', '(%s)' % ', '.join(sides(shape))) * times)


main()
