"""The words that name columns, NAME=KIND:FIELD, with the same meaning on the way in and on the way out."""
import csv
import re
import typing

import kinds
from kinds import Fault, shown

ATTRIBUTES = 16


class Column(typing.NamedTuple):
    """An attribute of this kind, and the fields of a file in which it stands: two for the ends of an interval, else one. Of an interval also the brackets,
    and whether they were named."""
    name: str
    kind: object
    fields: list
    left: str = '['
    right: str = ']'
    is_bracketed: bool = False

    def literal(self, texts):
        """The value of the texts of the fields, as a script writes it."""
        if len(texts) == 1:
            return self.kind.literal(texts[0])
        return self.kind.between(*texts, self.left, self.right)


class Kinds:
    """The kinds that a call can name, with what its options say of dates, of ordinal types and of the ends of intervals."""

    def __init__(self, date_format=None, types=(), first=(), last=()):
        if date_format and not kinds.tells_days(date_format):
            raise Fault(f'{shown(date_format)} is no format that tells the day')
        self.date_format, self.first, self.last = date_format, frozenset(first), frozenset(last)
        self.types = dict(type_of(word) for word in types)

    def kind_of(self, text):
        if text == 'CHAR':
            return kinds.Char()
        if text == 'BOOLEAN':
            return kinds.Boolean()
        inner = re.fullmatch(r'INTERVAL\((.*)\)', text)
        return kinds.Interval(self.point_of(inner[1]), self.first, self.last) if inner else self.point_of(text)

    def point_of(self, text):
        if text == 'INTEGER':
            return kinds.Integer()
        if text == 'DATE':
            return kinds.Date(self.date_format)
        if text == 'MOMENT':
            return kinds.Moment()
        if text == 'TIME(MINUTES)':
            return kinds.Minutes()
        if text in ('TIMESTAMP(MINUTES)', 'TIMESTAMP(SECONDS)'):
            return kinds.Timestamp(60 if 'MINUTES' in text else 1)
        places = re.fullmatch(r'DECIMAL\(([1-9]|1[0-8])\)', text)
        if places:
            return kinds.Decimal(int(places[1]))
        if kinds.why_no_name(text):
            raise Fault(f'{shown(text)} is no kind')
        return kinds.Ordinal(text, self.types.get(text))


def type_of(word):
    """NAME=A,B,..: an ordinal type and its values."""
    name, _, values = word.partition('=')
    found = [kinds.check_name(value.strip()) for value in values.split(',')]
    if len(set(found)) < len(found):
        raise Fault(f'a value of {name} stands twice')
    return kinds.check_name(name), found


def column_of(word, known):
    """NAME=KIND, NAME=KIND:FIELD, or of an interval also NAME=KIND:FIELD,FIELD, and its fields in brackets."""
    name, equals, rest = word.partition('=')
    if not equals:
        raise Fault(f'{shown(word)} is no NAME=KIND:FIELD')
    named, _, fields = rest.partition(':')
    kind = known.kind_of(named)
    is_interval = isinstance(kind, kinds.Interval)
    brackets = re.fullmatch(r'([\[(])(.*)([\])])', fields) if is_interval else None
    found = next(csv.reader([brackets[2] if brackets else fields], strict=True), None) or [name]
    if len(found) > (2 if is_interval else 1):
        raise Fault(f'{shown(word)} names too many fields')
    left, right = (brackets[1], brackets[3]) if brackets else ('[', ']')
    return Column(kinds.check_name(name), kind, found, left, right, bool(brackets))


def columns_of(words, known):
    """The columns of the words, no attribute twice."""
    found = [column_of(word, known) for word in words]
    names = [column.name for column in found]
    twice = next((name for name in names if names.count(name) > 1), None)
    if twice:
        raise Fault(f'{twice} is named twice')
    return found
