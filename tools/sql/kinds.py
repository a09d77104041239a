"""The kinds of the language and what they are in PostgreSQL, and headings.

INTEGER is int8, DATE date, MOMENT timestamp, and an ordinal type int4: the numbers of its values from 0, with a table of their names. Their intervals are the
ranges of these, of which PostgreSQL leaves the end out. The end behind the last integer is no int8, so an interval up to the last integer has no end there.
Between two seconds PostgreSQL has other times: so each range of moments is written from a second up to, and without, another one.
"""
import collections
import dataclasses
import datetime

from syntax import Refusal

FIRST_INTEGER, LAST_INTEGER = -2**63, 2**63 - 1
# identifiers are cut there behind this many bytes
NAME_BYTES = 63
# columns that each table has anyway
SYSTEM_COLUMNS = ('tableoid', 'xmin', 'cmin', 'xmax', 'cmax', 'ctid')
# moments are numbered by the seconds from here on
EPOCH = datetime.datetime(1970, 1, 1)
SECOND = datetime.timedelta(seconds=1)
# the column of a relation without attributes
NO_ATTRIBUTE = '-'

# `form` is BOOLEAN, CHAR, POINT or INTERVAL; `points` are those of the latter two
Kind = collections.namedtuple('Kind', 'form points', defaults=[None])
BOOLEAN, CHAR = Kind('BOOLEAN'), Kind('CHAR')


# what ranges of a type are named after, the distance of its points, and the word of its literals, where these are others than of integers
SHORT = {'timestamp': 'ts'}
STEPS = {'timestamp': "interval '1 second'"}
WORDS = {'date': 'DATE', 'timestamp': 'TIMESTAMP'}


def seconds_of(time):
    """The number of a moment."""
    return (time - EPOCH) // SECOND


@dataclasses.dataclass(frozen=True)
class Points:
    """A point type: its name, the type of its points, and of an ordinal type the names of its values."""
    name: str
    sql: str
    values: tuple = ()

    @property
    def range(self):
        return f'{SHORT.get(self.sql, self.sql)}range'

    @property
    def multirange(self):
        return f'{SHORT.get(self.sql, self.sql)}multirange'

    @property
    def step(self):
        """What is between a point and the next one."""
        return STEPS.get(self.sql, '1')

    @property
    def word(self):
        """What stands before the quotes of a literal, of a type that has such."""
        return WORDS.get(self.sql)

    @property
    def ends(self):
        """The numbers of the first and the last point."""
        if self.sql == 'date':
            return datetime.date.min.toordinal(), datetime.date.max.toordinal()
        if self.sql == 'timestamp':
            return seconds_of(datetime.datetime.min), seconds_of(datetime.datetime.max)
        return (0, len(self.values) - 1) if self.values else (FIRST_INTEGER, LAST_INTEGER)

    def written(self, number):
        """The point of this number, as it stands between quotes."""
        if self.sql == 'timestamp':
            return '10000-01-01 00:00:00' if number > self.ends[1] else (EPOCH + number * SECOND).isoformat(' ')
        if self.sql != 'date':
            return str(number)
        if number > datetime.date.max.toordinal():
            return '10000-01-01'
        return datetime.date.fromordinal(number).isoformat()

    def between(self, begin, end):
        """The range of these numbers, both taken in, as it stands between quotes."""
        behind = '' if end == LAST_INTEGER else self.written(end + 1)
        return f'[{self.written(begin)},{behind})'


INTEGER, DATE, MOMENT = Points('INTEGER', 'int8'), Points('DATE', 'date'), Points('MOMENT', 'timestamp')


def point(points):
    return Kind('POINT', points)


def interval(points):
    return Kind('INTERVAL', points)


def type_of(kind):
    """The type of a column of the kind."""
    if kind.form == 'POINT':
        return kind.points.sql
    if kind.form == 'INTERVAL':
        return kind.points.range
    return 'boolean' if kind == BOOLEAN else 'text'


def by_bytes(names):
    return sorted(names, key=str.encode)


def quoted(name):
    """A name as an identifier."""
    if len(name.encode()) > NAME_BYTES:
        raise Refusal('SQL', f'PostgreSQL would cut the name {name}')
    if name in SYSTEM_COLUMNS:
        raise Refusal('SQL', f'PostgreSQL keeps the name {name} to itself')
    return f'"{name}"'


def text_literal(text):
    return "'" + text.replace("'", "''") + "'"


def columns_of(heading):
    """The names of the columns, in their order."""
    return by_bytes(heading) or [NO_ATTRIBUTE]


def identifiers(names):
    return ', '.join(map(quoted, names))
