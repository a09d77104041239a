"""Expressions of values in SQL.

A fault is an error of the statement there. AND and OR become CASE where a side may have one, so that it counts where it does in the language.
What is constant and may have a fault is kept from being worked out before there is a row.
"""
import dataclasses
import datetime
import re
import typing

from kinds import BOOLEAN, CHAR, DATE, FIRST_INTEGER, INTEGER, LAST_INTEGER, MOMENT, Kind, interval, point, quoted, seconds_of, text_literal
from syntax import Refusal

# the text of a MOMENT
MOMENTS = re.compile('[0-9]{4}-[0-9]{2}-[0-9]{2}T[0-9]{2}:[0-9]{2}:[0-9]{2}')
COMPARISONS = {'Equal': '=', 'NotEqual': '<>', 'Less': '<', 'LessEqual': '<=', 'Greater': '>', 'GreaterEqual': '>='}
RANGES = {'Includes': '@>', 'IncludedIn': '<@', 'Before': '<<', 'After': '>>', 'Meets': '-|-', 'Overlaps': '&&'}
RANGE_FUNCTIONS = {'Merges': 'merges', 'Begins': 'begins', 'Ends': 'ends'}
ARITHMETIC = {'Plus': ('+', 'sum'), 'Minus': ('-', 'difference'), 'Times': ('*', 'product'), 'Divide': ('/', 'quotient')}
PAIRS = {'Union': '{} + {}', 'Intersect': 'utd.filled({} * {})', 'Minus': 'utd.filled({} - {})'}


@dataclasses.dataclass
class Scalar:
    """An expression: its SQL, its kind, whether it may have a fault, whether it names no attribute, and of a literal its number or its two."""
    sql: str
    kind: Kind
    faults: bool = False
    constant: bool = False
    number: typing.Any = None
    # whether it stands as it is among operators
    whole: bool = False
    # how a literal stands where its type is known
    short: str = ''

    @property
    def part(self):
        return self.sql if self.whole else f'({self.sql})'


@dataclasses.dataclass
class Scope:
    """What names stand for: the kinds of attributes and their SQL, and the point types. Where it is quiet a fault gives NULL."""
    types: dict
    heading: dict = dataclasses.field(default_factory=dict)
    references: dict = dataclasses.field(default_factory=dict)
    quiet: bool = False
    # whether an expression is worked out for each of some rows, perhaps none
    over_rows: bool = False


def over(heading, types, alias='', references=None, quiet=False):
    """The scope of the rows of a relation with this alias."""
    before = f'{alias}.' if alias else ''
    found = {name: before + quoted(name) for name in heading} | (references or {})
    return Scope(types, heading, found, quiet, True)


def scalar_of(tree, scope):
    return SCALARS[tree[0]](scope, *tree[1:])


def condition_of(tree, scope):
    found = scalar_of(tree, scope)
    if found.kind != BOOLEAN:
        raise Refusal('E12', 'a condition is a truth value')
    return found


def need(holds, words):
    if not holds:
        raise Refusal('E12', words)


def combined(sql, kind, parts, faults=False, whole=False):
    """An expression that is made of these parts."""
    return Scalar(sql, kind, faults or any(part.faults for part in parts), all(part.constant for part in parts), whole=whole)


def held(scope, *parts):
    """The parts of what may have a fault: where all are constant it has to wait for a row."""
    if not scope.over_rows or not all(part.constant for part in parts):
        return parts
    first, *others = parts
    return [Scalar(f'utd.kept({first.sql})', first.kind, first.faults, whole=True), *others]


# ---------------------------------------------------------------- literals and names

def point_of(points, number):
    """The literal of a point."""
    short = points.written(number)
    if points.word:
        sql = f"{points.word} '{short}'"
    else:
        sql = f'{short}::{points.sql}' if number >= 0 else f"'{short}'::{points.sql}"
    return Scalar(sql, point(points), False, True, number, True, f"'{short}'" if points.word else short)


def interval_of(points, begin, end):
    short = f"'{points.between(begin, end)}'"
    return Scalar(f'{points.range} {short}', interval(points), False, True, (begin, end), True, short)


def integer_literal(scope, digits):
    bare = digits.lstrip('-').lstrip('0') or '0'
    number = LAST_INTEGER + 1 if len(bare) > 19 else int(bare) * (-1 if digits[0] == '-' else 1)
    if not FIRST_INTEGER <= number <= LAST_INTEGER:
        raise Refusal('E06', 'an integer has 64 bits')
    return point_of(INTEGER, number)


def negative_integer(scope, digits):
    return integer_literal(scope, f'-{digits}')


def text_of(scope, text):
    if len(text.encode()) > 255 or min(text, default=' ') < ' ':
        raise Refusal('E06', 'a text has at most 255 bytes and no control characters')
    return Scalar(f'{text_literal(text)}::text', CHAR, False, True, whole=True, short=text_literal(text))


def date_literal(scope, text):
    try:
        day = datetime.date.fromisoformat(text) if len(text) == 10 else None
    except ValueError:
        day = None
    if not day:
        raise Refusal('E06', f'{text} is no day')
    return point_of(DATE, day.toordinal())


def moment_literal(scope, text):
    try:
        time = datetime.datetime.strptime(text, '%Y-%m-%dT%H:%M:%S') if MOMENTS.fullmatch(text) else None
    except ValueError:
        time = None
    if not time:
        raise Refusal('E06', f'{text} is no moment')
    return point_of(MOMENT, seconds_of(time))


def truth(value):
    return lambda scope: Scalar(value, BOOLEAN, False, True, whole=True, short=value)


def attribute(scope, name):
    if name not in scope.heading:
        raise Refusal('E14', f'there is no attribute {name}')
    return Scalar(scope.references[name], scope.heading[name], whole=True)


def points_of(tree, types):
    """The point type that a tree names."""
    if tree[0] != 'NamedType':
        return {'IntegerType': INTEGER, 'DateType': DATE, 'MomentType': MOMENT}[tree[0]]
    if tree[1] not in types:
        raise Refusal('E10', f'there is no type {tree[1]}')
    return types[tree[1]]


def dotted(scope, name, value):
    points = points_of(('NamedType', name), scope.types)
    if value not in points.values:
        raise Refusal('E10', f'{name} has no value {value}')
    return point_of(points, points.values.index(value))


def extreme(scope, which, tree):
    points = points_of(tree, scope.types)
    return point_of(points, points.ends[0 if which == 'First' else 1])


# ---------------------------------------------------------------- operators

def logical(word):
    def make(scope, left, right):
        left, right = scalar_of(left, scope), scalar_of(right, scope)
        need(left.kind == right.kind == BOOLEAN, f'{word} is of truth values')
        if left.faults or right.faults:
            held, other = (right.sql, 'false') if word == 'AND' else ('true', right.sql)
            return combined(f'CASE WHEN {left.sql} THEN {held} ELSE {other} END', BOOLEAN, [left, right])
        return combined(f'{left.part} {word} {right.part}', BOOLEAN, [left, right])
    return make


def negation(scope, tree):
    found = scalar_of(tree, scope)
    need(found.kind == BOOLEAN, 'NOT is of a truth value')
    return combined(f'NOT {found.part}', BOOLEAN, [found])


def compare(scope, left, word, right):
    left, right = scalar_of(left, scope), scalar_of(right, scope)
    parts = [left, right]
    if word in COMPARISONS:
        is_ordered = left.kind == CHAR or left.kind.form == 'POINT'
        need(left.kind == right.kind and (is_ordered or word in ('Equal', 'NotEqual')), 'these are not compared')
        order = ' COLLATE "C"' if left.kind == CHAR and word not in ('Equal', 'NotEqual') else ''
        return combined(f'{left.part}{order} {COMPARISONS[word]} {right.part}{order}', BOOLEAN, parts)
    if word == 'In':
        need(left.kind.form == 'POINT' and right.kind == interval(left.kind.points), 'IN is of a point and an interval')
        return combined(f'{left.part} <@ {right.part}', BOOLEAN, parts)
    need(left.kind.form == 'INTERVAL' and left.kind == right.kind, 'these words are of two intervals')
    if word in RANGES:
        return combined(f'{left.part} {RANGES[word]} {right.part}', BOOLEAN, parts)
    return combined(f'utd.{RANGE_FUNCTIONS[word]}({left.sql}, {right.sql})', BOOLEAN, parts, whole=True)


def arithmetic(scope, left, word, right):
    left, right = scalar_of(left, scope), scalar_of(right, scope)
    if word == 'Concat':
        need(left.kind == right.kind == CHAR, '|| is of texts')
        return combined(f'{left.part} || {right.part}', CHAR, [left, right])
    need(left.kind == right.kind == point(INTEGER), 'arithmetic is of integers')
    left, right = held(scope, left, right)
    sign, name = ARITHMETIC[word]
    if scope.quiet:
        return combined(f'utd.quiet_{name}({left.sql}, {right.sql})', point(INTEGER), [left, right], whole=True)
    return combined(f'{left.part} {sign} {right.part}', point(INTEGER), [left, right], True)


def negative(scope, tree):
    found = scalar_of(tree, scope)
    need(found.kind == point(INTEGER), 'a negative is of an integer')
    found, = held(scope, found)
    if scope.quiet:
        return combined(f'utd.quiet_difference(0::int8, {found.sql})', found.kind, [found], whole=True)
    return combined(f'- {found.part}', found.kind, [found], True)


def stepped(scope, found, name):
    """The point beside another one: `next` or `prior`."""
    found, = held(scope, found)
    points = found.kind.points
    last = f', {points.ends[1]}' if points.values and name == 'next' else ''
    return combined(f'utd.{"quiet_" if scope.quiet else ""}{name}({found.sql}{last})', found.kind, [found], True, True)


def selector(scope, before, left, right, behind):
    left, right = scalar_of(left, scope), scalar_of(right, scope)
    need(left.kind.form == 'POINT' and left.kind == right.kind, 'an interval has two ends of one type')
    points = left.kind.points
    first, last = points.ends
    if left.number is not None and right.number is not None:
        begin, end = left.number + (before == 'Open'), right.number - (behind == 'Open')
        if first <= begin <= end <= last:
            return interval_of(points, begin, end)
    # up to the last point, and from the first one on, there is always some
    faults = (before, behind) != ('Closed', 'Closed') or (left.number != first and right.number != last)
    left, right = held(scope, left, right)
    if before == 'Open':
        left = stepped(scope, left, 'next')
    if behind == 'Open':
        right = stepped(scope, right, 'prior')
    quiet = 'quiet_' if scope.quiet else ''
    return combined(f'utd.{quiet}interval({left.sql}, {right.sql})', interval(points), [left, right], faults, True)


def end_of(scope, found):
    """The last point of an interval."""
    points = found.kind.points
    if points == INTEGER:
        return combined(f'utd.last({found.sql})', point(points), [found], whole=True)
    return combined(f'upper({found.sql}) - {points.step}', point(points), [found])


def begin_of(scope, found):
    return combined(f'lower({found.sql})', point(found.kind.points), [found], whole=True)


def function(scope, word, tree):
    found = scalar_of(tree, scope)
    if word in ('Next', 'Prior'):
        need(found.kind.form == 'POINT', f'{word.upper()} is of a point')
        return stepped(scope, found, word.lower())
    need(found.kind.form == 'INTERVAL', f'{word.upper()} is of an interval')
    if word == 'Count':
        found, = held(scope, found)
        quiet = 'quiet_' if scope.quiet else ''
        return combined(f'utd.{quiet}count({found.sql})', point(INTEGER), [found], found.kind.points == INTEGER, True)
    if word in ('Begin', 'Pre'):
        first = begin_of(scope, found)
        return first if word == 'Begin' else stepped(scope, first, 'prior')
    last = end_of(scope, found)
    return last if word == 'End' else stepped(scope, last, 'next')


def pair_function(scope, word, left, right):
    left, right = scalar_of(left, scope), scalar_of(right, scope)
    need(left.kind.form == 'INTERVAL' and left.kind == right.kind, f'{word.upper()} is of two intervals')
    left, right = held(scope, left, right)
    if scope.quiet:
        sql = f'utd.quiet_{word.lower()}({left.sql}, {right.sql})'
    else:
        sql = PAIRS[word].format(left.part, right.part)
    return combined(sql, left.kind, [left, right], True, scope.quiet or word != 'Union')


# a later form is one more function here
SCALARS = {
    'Or': logical('OR'), 'And': logical('AND'), 'Not': negation, 'Compare': compare, 'Add': arithmetic, 'Multiply': arithmetic,
    'Negate': negative, 'NegativeInteger': negative_integer, 'IntegerLiteral': integer_literal, 'TextLiteral': text_of,
    'DateLiteral': date_literal, 'MomentLiteral': moment_literal, 'TrueLiteral': truth('true'), 'FalseLiteral': truth('false'),
    'AttributeName': attribute, 'Dotted': dotted, 'Selector': selector, 'Extreme': extreme, 'Function': function, 'PairFunction': pair_function,
}


# ---------------------------------------------------------------- expressions under USING

def parts_of(tree):
    """The expressions in an expression."""
    return [part for part in tree[1:] if isinstance(part, tuple) and part[0] in SCALARS]


def is_end(tree, names):
    """Whether it is an attribute of the list, its beginning or its end."""
    if tree[0] == 'Function' and tree[1] in ('Begin', 'End'):
        tree = tree[2]
    return tree[0] == 'AttributeName' and tree[1] in names


def named_of(tree, names):
    """The attributes of the list that an expression names."""
    if tree[0] == 'AttributeName':
        return {tree[1]} & set(names)
    return {name for part in parts_of(tree) for name in named_of(part, names)}


def sides_of(tree, names):
    """Of a comparison with an attribute of the list: the attribute, and the other side."""
    if tree[0] == 'Compare':
        for side, other in ((tree[1], tree[3]), (tree[3], tree[1])):
            if is_end(side, names) and not named_of(other, names):
                return named_of(side, names).pop(), other
    return None


def swept(tree, names):
    """The comparisons with attributes of the list, each as the attribute and the other side; E18 where one stands elsewhere."""
    sides = sides_of(tree, names)
    if sides:
        return [sides]
    if tree[0] == 'AttributeName' and tree[1] in names:
        raise Refusal('E18', f'{tree[1]} is not one side of a comparison')
    return [found for part in parts_of(tree) for found in swept(part, names)]
