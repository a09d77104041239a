#!/usr/bin/env python3
"""statements: a script that puts rows into a relvar with a key, many or few in a statement.

    statements.py ROWS EACH [--count MORE] [--change FORM] [--front] [--key-using] [--insert-using] [--turn] [--log] > script

ROWS rows, EACH of them in an INSERT, in no order; the last statement counts them. With --count, MORE statements with one row each
follow. With --front the key's attribute is the first by its name, so that rows stand in the order of the key. With --key-using the key is one
under USING of the interval, so that rows are packed and keys are asked at each point; with --insert-using the INSERTs are under USING.
With --change the statements that follow are changes of one key each in place of insertions: delete, update, portion-delete, portion-update, or
meet, an INSERT under USING of a row that goes on where one that is there ends; or insert, a new row beside those that are there; or they change
nothing: again, an INSERT of a row that is there, none, a DELETE that finds no row, and print, of a literal. With --turn there is a second relvar
with the same rows, and each statement that follows is asked of both in turn. With --log the relvar has a log from its rows on.
"""
import argparse
import random
import sys

HEAD = 'VAR R RELATION {%s INTEGER, T CHAR, D INTERVAL(DATE)} %s;\n'
LOG = 'LOG L OF R (N);\n'
TAIL = 'PRINT SUMMARIZE R BY {}: {N := COUNT()};\n'


def tuple_of(number, key):
    day = number % 28 + 1
    month = number // 28 % 12 + 1
    return "TUPLE {%s %d, T 'row %d', D [DATE '2012-%02d-%02d':DATE '2013-12-31']}" % (key, number, number % 97, month, day)


def inserts(numbers, each, key, insert):
    for start in range(0, len(numbers), each):
        yield '%s R RELATION {%s};\n' % (insert, ', '.join(tuple_of(number, key) for number in numbers[start:start + each]))


# The same statement of the second relvar.
def of_second(statement):
    return statement.replace(' R ', ' S ', 1)


# What changes the rows of one key.
CHANGES = {
    'delete': 'DELETE R WHERE {key} = {number};\n',
    'update': "UPDATE R WHERE {key} = {number}: {{T := 'changed'}};\n",
    'portion-delete': "DELETE R PORTION {{D [DATE '2013-03-01':DATE '2013-03-31']}} WHERE {key} = {number};\n",
    'portion-update': "UPDATE R PORTION {{D [DATE '2013-03-01':DATE '2013-03-31']}} WHERE {key} = {number}: {{T := 'changed'}};\n",
    'insert': 'INSERT R RELATION {{{new}}};\n',
    'again': 'INSERT R RELATION {{{old}}};\n',
    'none': 'DELETE R WHERE {key} = {absent};\n',
    'print': 'PRINT RELATION {{TUPLE {{X {number}}}}};\n',
    'meet': "USING (D): INSERT R RELATION {{TUPLE {{{key} {number}, T 'row {name}', D [DATE '2014-01-01':DATE '2014-01-31']}}}};\n",
}


def main():
    words = argparse.ArgumentParser()
    words.add_argument('rows', type=int)
    words.add_argument('each', type=int)
    words.add_argument('--count', type=int, default=0)
    words.add_argument('--change', choices=CHANGES)
    for name in '--front', '--key-using', '--insert-using', '--turn', '--log':
        words.add_argument(name, action='store_true')
    asked = words.parse_args()
    key = 'A' if asked.front else 'K'
    insert = 'USING (D): INSERT' if asked.insert_using else 'INSERT'
    numbers = list(range(asked.rows + (0 if asked.change else asked.count)))
    random.Random(1).shuffle(numbers)
    write = sys.stdout.write
    head = HEAD % (key, ('USING (D): KEY {%s, D}' if asked.key_using else 'KEY {%s}') % key)
    write(head)
    for statement in inserts(numbers[:asked.rows], asked.each, key, insert):
        write(statement)
    if asked.log:
        write(LOG)
    if asked.turn:
        write(of_second(head) + 'S := R;\n')
    more = list(inserts(numbers[asked.rows:], 1, key, insert))
    for number in numbers[:asked.count if asked.change else 0]:
        absent = asked.rows + number
        rows = {'old': tuple_of(number, key), 'new': tuple_of(absent, key)}
        more.append(CHANGES[asked.change].format(key=key, number=number, absent=absent, name=number % 97, **rows))
    for statement in more:
        write(statement + (of_second(statement) if asked.turn else ''))
    write(TAIL)


main()
