"""Brings CSV into scripts, and what the program prints into CSV or JSON lines.

    python3 tools/csv in [OPTION..] RELVAR COLUMN.. < FILE.csv
    python3 tools/csv out [OPTION..] [COLUMN..] < OUTPUT

`in` reads a CSV file in UTF-8, whose first line names the fields, and writes INSERT statements for the relvar, each below one megabyte. `out` reads what the
program prints and writes its tables. A column is an attribute, its kind, and the fields of the file in which it stands:

    NAME=KIND                           in the field NAME
    NAME=KIND:FIELD                     in another one
    NAME=INTERVAL(POINT):FIELD          an interval in one field, as [b:e] or [b,e)
    NAME=INTERVAL(POINT):[FIELD)        the same, which `out` writes as [b,e), as PostgreSQL has ranges
    NAME=INTERVAL(POINT):FIRST,LAST     in two fields, the last point taken in
    NAME=INTERVAL(POINT):[FIRST,LAST)   in two fields, the last one left out

A KIND is INTEGER, CHAR, BOOLEAN, DATE, an ordinal type or an INTERVAL of a point kind. Some INTEGERs stand otherwise in a file: DECIMAL(2) is one of
hundredths that stands as 4.50, TIME(MINUTES) one of minutes since midnight that stands as 08:30, and TIMESTAMP(MINUTES) or TIMESTAMP(SECONDS) one since the
beginning of 1970 that stands as 2023-02-01 08:30. A field name with a comma stands in double quotes.

Neither writes anything on standard error but refusals, and on a terminal a line that says how far it is. The status is 0 where nothing was refused; 1 where
something in the file was, so that `in` wrote nothing, or a statement by the program, whose line `out` passes on to standard error; 2 where the words are
wrong; 3 where `out` reads what the program does not print or what ends too early, or cannot write a value as it is asked to; 4 where writing failed.
"""
import argparse
import csv
import io
import os
import sys

import columns
import kinds
import load
import unload

CANNOT_WRITE = 4


def delimiter_of(word):
    if word in ('tab', '\\t'):
        return '\t'
    if len(word) != 1 or word in '"\r\n':
        raise argparse.ArgumentTypeError('the delimiter is one character, or tab')
    return word


def filling_of(word):
    field, equals, text = word.partition('=')
    if not equals:
        raise argparse.ArgumentTypeError(f'{word!r} is no FIELD=TEXT')
    return field, text


def number_of(word):
    if not word.isascii() or not word.isdigit() or int(word) == 0:
        raise argparse.ArgumentTypeError(f'{word!r} is no number of rows')
    return int(word)


def parser():
    """The words of both ways."""
    head = argparse.RawDescriptionHelpFormatter
    whole = argparse.ArgumentParser(prog='python3 tools/csv', description=__doc__, formatter_class=head, allow_abbrev=False)
    ways = whole.add_subparsers(dest='way', required=True, metavar='in|out')
    both = argparse.ArgumentParser(add_help=False)
    both.add_argument('--delimiter', type=delimiter_of, default=',', metavar='C', help='what stands between fields; also the word tab')
    both.add_argument('--date-format', metavar='FORMAT', help='how dates are written, as strftime has it; else YYYY-MM-DD')
    both.add_argument('--type', action='append', default=[], metavar='NAME=A,B,..', help='the values of an ordinal type, in their order')
    both.add_argument('--first', action='append', default=[], metavar='TEXT', help='what stands for the first point at the beginning of an interval')
    both.add_argument('--last', action='append', default=[], metavar='TEXT', help="what stands for the last point at its end, as '' or 9999-12-31")
    into = ways.add_parser('in', parents=[both], allow_abbrev=False, help='CSV into INSERT statements')
    into.add_argument('--empty', type=filling_of, action='append', default=[], metavar='FIELD=TEXT', help='what an empty field is read as; else it is refused')
    into.add_argument('--no-header', dest='header', action='store_false', help='the first line is a row; the fields are named 1, 2, and so on')
    into.add_argument('--distinct', action='store_true', help='equal rows are refused; else they fall together')
    into.add_argument('--rows', type=number_of, default=1000, metavar='N', help='at most so many rows in a statement; else 1000')
    into.add_argument('--using', type=lambda word: word.split(','), metavar='NAME,..', help='write USING (NAME, ..): INSERT, which packs')
    into.add_argument('--var', action='store_true', help='write a VAR statement first, and a TYPE statement for each --type')
    into.add_argument('relvar', metavar='RELVAR')
    into.add_argument('columns', nargs='+', metavar='COLUMN')
    into.set_defaults(parser=into)
    out = ways.add_parser('out', parents=[both], allow_abbrev=False, help='tables into CSV or JSON lines')
    out.add_argument('--json', action='store_true', help='write each row as a JSON object on a line of its own')
    out.add_argument('--into', metavar='FOLDER', help='write each table to a file of its own in this folder')
    out.add_argument('columns', nargs='*', metavar='COLUMN')
    out.set_defaults(parser=out)
    return whole


def checked(options):
    """The columns and the kinds of the words; a fault where they do not fit together."""
    known = columns.Kinds(options.date_format, options.type, options.first, options.last)
    found = columns.columns_of(options.columns, known)
    if options.way == 'in':
        kinds.check_name(options.relvar)
        options.empty = dict(options.empty)
        if len(found) > columns.ATTRIBUTES:
            raise kinds.Fault(f'there are {len(found)} columns; a relation has at most {columns.ATTRIBUTES} attributes')
        intervals = [column.name for column in found if isinstance(column.kind, kinds.Interval)]
        for name in options.using or []:
            if name not in intervals:
                raise kinds.Fault(f'--using names {name}, which is no interval among the columns')
    return found, known


def run(words, source, sink, errors):
    """Does what the words ask for, between streams of bytes and of text; gives the status."""
    options = parser().parse_args(words)
    try:
        found, known = checked(options)
    except (kinds.Fault, csv.Error) as fault:
        options.parser.error(str(fault))
    try:
        if options.way == 'in':
            return load.load(options, found, known, source, sink, errors)
        return unload.unload(options, found, source, sink, errors)
    except OSError as error:
        print(f'csv {options.way}: {error}', file=errors)
        return CANNOT_WRITE


def main():
    sink = io.TextIOWrapper(sys.stdout.buffer, encoding='utf-8', newline='')
    status = run(sys.argv[1:], sys.stdin.buffer, sink, sys.stderr)
    if status == CANNOT_WRITE:
        # what is held for a reader that has gone is not tried again at the end
        os.dup2(os.open(os.devnull, os.O_WRONLY), sys.stdout.fileno())
    return status


if __name__ == '__main__':
    sys.exit(main())
