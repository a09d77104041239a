"""Draws the tables that utd printed: python3 tools/timeline [words] < OUTPUT > PAGE.html

Each table with an interval attribute becomes a picture: rows that have all other values in common are bars on one line, overlapping ones below one
another, on an axis of dates, moments, integers or values of an ordinal type. An arrow stands where an interval goes on to the first or last point of its type;
of an ordinal type these are not known. A table of several interval attributes is drawn by the first of dates or moments, or else by the first, and the others
are values like any other. The
pictures are on one HTML page on standard output, or each in a file. A table without an interval attribute or without rows is left out, with a line
on standard error, to which the lines of refusals go too.

    --svg PREFIX     writes an SVG for each table, PREFIX-1.svg for the first that is printed and so on, and no page
    --title TEXT     a title; the first is for the first table that is drawn, and so on
    --by NAME        draws a table by the interval attribute of this name, where it has it
    --order A,B,C    the values of an ordinal type in their order; without it they stand in the order in which they come
    --most N         draws the first N rows of a table at most; without it 500

The status is 0, or 1 where a statement was refused, 2 where the words are wrong, 3 where the input is not what utd prints or a file cannot be written.
"""
import argparse
import sys

sys.dont_write_bytecode = True

from picture import Picture, page  # noqa: E402
from points import is_of_dates, is_of_moments  # noqa: E402
from tables import read  # noqa: E402

USAGE = 'tools/timeline [--svg PREFIX] [--title TEXT].. [--by NAME].. [--order A,B,C].. [--most N] < OUTPUT'


def count(word):
    number = int(word)
    if number < 1:
        raise ValueError
    return number


def words_of(words):
    parser = argparse.ArgumentParser(prog='tools/timeline', usage=USAGE, description=__doc__, allow_abbrev=False,
                                     formatter_class=argparse.RawDescriptionHelpFormatter)
    parser.add_argument('--svg', metavar='PREFIX')
    parser.add_argument('--title', metavar='TEXT', action='append', default=[])
    parser.add_argument('--by', metavar='NAME', action='append', default=[])
    parser.add_argument('--order', metavar='A,B,C', action='append', default=[], type=lambda word: word.split(','))
    parser.add_argument('--most', metavar='N', type=count, default=500)
    return parser.parse_args(words)


def tell(line):
    print(line, file=sys.stderr)


def place_of(table, by):
    """The place of the attribute by which a table is drawn: one that is told, or of dates or moments, or the first; none where it cannot be drawn."""
    places = table.intervals()
    told = [place for place in places if table.names[place] in by]
    of_time = [place for place in places if is_of_dates(table.rows[0][place]) or is_of_moments(table.rows[0][place])]
    return next(iter(told + of_time + places), None)


def pictures_of(tables, words):
    """The pictures of those tables that can be drawn; what one has to know of the others and of orders that were not told goes to standard error."""
    found, titles = [], iter(words.title)
    for table in tables:
        place = place_of(table, words.by)
        if place is None:
            tell(f'table {table.number} has no {"interval attribute" if table.rows else "rows"} and is left out')
            continue
        picture = Picture(table, place, next(titles, None), words.order, words.most)
        if not picture.is_order_told:
            tell(f'table {table.number}: the values of {picture.name} stand in the order in which they come; --order tells another')
        if len(picture.rows) < len(table.rows):
            tell(f'table {table.number}: the first {len(picture.rows)} of {len(table.rows)} rows are drawn; --most draws more')
        found.append(picture)
    return found


def write(pictures, prefix):
    """Writes each picture into a file, or all as a page to standard output."""
    if prefix is None:
        sys.stdout.buffer.write(page(pictures).encode())
        sys.stdout.flush()
        return
    for picture in pictures:
        with open(f'{prefix}-{picture.table.number}.svg', 'w', encoding='utf-8', newline='\n') as file:
            file.write(picture.svg())


def main(words):
    words = words_of(words)
    try:
        tables, refusals = read(sys.stdin.buffer.read().decode())
        write(pictures_of(tables, words), words.svg)
    except (ValueError, OSError) as fault:
        tell(f'tools/timeline: {fault}')
        return 3
    for line in refusals:
        tell(line)
    return 1 if refusals else 0


if __name__ == '__main__':
    sys.exit(main(sys.argv[1:]))
