"""Relational expressions in SQL: each a SELECT whose columns stand in the order of the names of its attributes, without repeated rows.

A relation without attributes has one column, which is true. Where what stands above a relation may have a fault, OFFSET 0 keeps it from being worked out for
rows that the relation does not have.
"""
import dataclasses
import typing

from kinds import CHAR, INTEGER, NO_ATTRIBUTE, Kind, by_bytes, columns_of, identifiers, interval, point, quoted, type_of
from kinds import BOOLEAN
from scalars import Scope, condition_of, over, points_of, scalar_of
from syntax import Refusal

SETS = {'Union': 'UNION', 'Intersect': 'INTERSECT', 'Minus': 'EXCEPT'}


@dataclasses.dataclass
class Relation:
    """A relation: the kinds of its attributes, its SELECT, the list on which it is known to be packed, and sets of attributes on which no two rows agree."""
    heading: dict
    sql: str
    # the table or the view that it is
    table: str = ''
    packed: typing.Any = None
    keys: tuple = ()

    @property
    def source(self):
        """How it stands behind FROM."""
        return self.table or nested(self.sql)

    def is_packed(self, names):
        """Whether it is known to be packed: it is where no two rows agree besides the list."""
        return self.packed == tuple(names) or any(key.isdisjoint(names) for key in self.keys)


def nested(sql):
    """A SELECT in parentheses, one step further in."""
    return '(\n' + ''.join(f'  {line}\n' for line in sql.split('\n')) + ')'


def of_table(heading, table, packed=None, keys=()):
    return Relation(heading, f'SELECT {identifiers(columns_of(heading))} FROM {table}', table, packed, keys)


def equal(names, left='l', right='r'):
    """The condition that two rows agree on attributes."""
    return ' AND '.join(f'{left}.{quoted(name)} = {right}.{quoted(name)}' for name in by_bytes(names)) or 'true'


def listed(expressions):
    """The columns of a SELECT: each expression under its name, in the order of the names."""
    named = [(sql, quoted(name)) for name, sql in sorted(expressions.items(), key=lambda item: item[0].encode())] or [('true', quoted(NO_ATTRIBUTE))]
    return ', '.join(sql if sql in (name, f'l.{name}', f'r.{name}', f't.{name}') else f'{sql} AS {name}' for sql, name in named)


def from_alias(names, alias):
    return {name: f'{alias}.{quoted(name)}' for name in names}


def kept_apart(relation):
    """The relation, so that what stands above it is worked out for its rows alone."""
    is_apart = relation.table or relation.sql.endswith('OFFSET 0')
    return relation.source if is_apart else nested(f'{relation.sql}\nOFFSET 0')


# ---------------------------------------------------------------- what is asked of operands

def same_heading(left, right):
    if left.heading != right.heading:
        raise Refusal('E13', 'headings differ')


def same_kinds(left, right):
    for name in left.heading.keys() & right.heading.keys():
        if left.heading[name] != right.heading[name]:
            raise Refusal('E12', f'{name} has two kinds')


def distinct(names, words='stands twice'):
    for name in names:
        if names.count(name) > 1:
            raise Refusal('E15', f'{name} {words}')


def known(names, heading):
    for name in names:
        if name not in heading:
            raise Refusal('E14', f'there is no attribute {name}')
    distinct(names)


def limited(heading):
    if len(heading) > 16:
        raise Refusal('E17', 'there are more than 16 attributes')
    return heading


def interval_list(names, *relations):
    """Looks at a list of interval attributes of the relations."""
    for name in names:
        for relation in relations:
            if name not in relation.heading:
                raise Refusal('E14', f'there is no attribute {name}')
        distinct(names)
        if relations[0].heading[name].form != 'INTERVAL':
            raise Refusal('E16', f'{name} is no interval')
        if relations[-1].heading[name] != relations[0].heading[name]:
            raise Refusal('E12', f'{name} has two kinds')
    if len(names) > 4:
        raise Refusal('E17', 'a list has at most four attributes')


# ---------------------------------------------------------------- names and literals

def kind_of(tree, types):
    if tree[0] == 'BooleanKind':
        return BOOLEAN
    if tree[0] == 'CharKind':
        return CHAR
    return interval(points_of(tree[1], types)) if tree[0] == 'IntervalKind' else point(points_of(tree, types))


def heading_of(tree, types):
    names = [name for _, name, _ in tree[1]]
    distinct(names)
    return limited({name: kind_of(kind, types) for _, name, kind in tree[1]})


def tuple_of(tree, types):
    """The values of a tuple by their names."""
    distinct([name for _, name, _ in tree[1]])
    return limited({name: scalar_of(value, Scope(types)) for _, name, value in tree[1]})


def rows_of(heading, rows):
    """A relation that lists its rows; the first one tells the types of the columns."""
    columns = by_bytes(heading)
    if not rows:
        return f'SELECT {listed({name: f"NULL::{type_of(kind)}" for name, kind in heading.items()})} WHERE false'
    if not columns:
        return f'SELECT true AS {quoted(NO_ATTRIBUTE)}'
    if len(rows) == 1:
        return f'SELECT {listed({name: rows[0][name].sql for name in columns})}'
    values = [', '.join((row[name].short if number else '') or row[name].sql for name in columns) for number, row in enumerate(rows)]
    lines = ',\n  '.join(f'({line})' for line in values)
    return f'SELECT DISTINCT * FROM (VALUES\n  {lines}\n) AS t ({identifiers(columns)})'


def literal(names, trees, heading=None):
    rows = [tuple_of(tree, names.types) for tree in trees]
    for row in rows:
        own = {name: value.kind for name, value in row.items()}
        heading = own if heading is None else heading
        if own != heading:
            raise Refusal('E13', 'headings differ')
    return Relation(heading, rows_of(heading, rows))


def tuples(names, first, others):
    return literal(names, [first, *others])


def headed(names, heading, trees):
    return literal(names, trees, heading_of(heading, names.types))


def relvar(names, name):
    return names.relation(name)


# ---------------------------------------------------------------- operators

def infix(names, left, word, right):
    return PLAIN[word](relation_of(left, names), relation_of(right, names))


def of_sets(word):
    def make(left, right):
        same_heading(left, right)
        return Relation(left.heading, f'{arm(left)}\n{SETS[word]}\n{arm(right)}')
    return make


def arm(relation):
    """A side of UNION and the like."""
    return relation.sql if relation.table else nested(relation.sql)


def join(left, right):
    same_kinds(left, right)
    heading = limited(left.heading | right.heading)
    columns = from_alias(right.heading, 'r') | from_alias(left.heading, 'l')
    common = left.heading.keys() & right.heading.keys()
    return Relation(heading, f'SELECT {listed(columns)}\nFROM {left.source} l JOIN {right.source} r ON {equal(common)}')


def matching(word):
    def make(left, right):
        same_kinds(left, right)
        common = left.heading.keys() & right.heading.keys()
        columns = listed(from_alias(left.heading, 'l'))
        return Relation(left.heading, f'SELECT {columns}\nFROM {left.source} l\nWHERE {word} (SELECT FROM {right.source} r WHERE {equal(common)})')
    return make


def not_matching(names, left, right):
    return PLAIN['NotMatching'](relation_of(left, names), relation_of(right, names))


def kept_by(projection, heading):
    """The attributes that a projection keeps."""
    form, *parts = projection
    named = parts[0] if form == 'Onto' else [parts[0], *parts[1]]
    known(named, heading)
    return named if form == 'Onto' else [name for name in heading if name not in named]


def projected(relation, kept):
    heading = {name: relation.heading[name] for name in kept}
    if heading == relation.heading:
        return relation
    keys = tuple(key for key in relation.keys if key <= heading.keys())
    distinct_rows = '' if keys else 'DISTINCT '
    return Relation(heading, f'SELECT {distinct_rows}{listed(from_columns(heading))}\nFROM {relation.source} t', keys=keys)


def from_columns(heading):
    return {name: quoted(name) for name in heading}


def project(names, operand, projection):
    relation = relation_of(operand, names)
    return projected(relation, kept_by(projection, relation.heading))


def restricted(relation, tree, types):
    condition = condition_of(tree, over(relation.heading, types))
    source = kept_apart(relation) if condition.faults else relation.source
    sql = f'SELECT {identifiers(columns_of(relation.heading))}\nFROM {source} t\nWHERE {condition.sql}'
    # of a relation that is packed on one attribute any rows are
    return Relation(relation.heading, sql, packed=relation.packed if relation.packed and len(relation.packed) == 1 else None, keys=relation.keys)


def restrict(names, operand, tree):
    return restricted(relation_of(operand, names), tree, names.types)


def rename(names, operand, pairs):
    relation = relation_of(operand, names)
    old = [before for _, before, _ in pairs]
    known(old, relation.heading)
    new = {before: after for _, before, after in pairs}
    found = [new.get(name, name) for name in relation.heading]
    distinct(found, 'would stand twice')
    columns = {new.get(name, name): quoted(name) for name in relation.heading}
    heading = {new.get(name, name): kind for name, kind in relation.heading.items()}
    return Relation(heading, f'SELECT {listed(columns)}\nFROM {relation.source} t')


def values_set(sets, scope):
    """What is set, by the names."""
    found = {}
    for _, name, tree in sets:
        if name in found:
            raise Refusal('E15', f'{name} is set twice')
        found[name] = scalar_of(tree, scope)
    return found


def extended(relation, sets, types):
    values = values_set(sets, over(relation.heading, types))
    heading = limited(relation.heading | {name: value.kind for name, value in values.items()})
    columns = from_columns(relation.heading) | {name: value.sql for name, value in values.items()}
    faults = any(value.faults for value in values.values())
    # a value that replaces another one may make rows equal
    again = 'DISTINCT ' if values.keys() & relation.heading.keys() else ''
    behind = '\nOFFSET 0' if faults else ''
    return Relation(heading, f'SELECT {again}{listed(columns)}\nFROM {relation.source} t{behind}')


def extend(names, operand, sets):
    return extended(relation_of(operand, names), sets, names.types)


# ---------------------------------------------------------------- SUMMARIZE

@dataclasses.dataclass
class Aggregate:
    """An aggregate: its word, what it is taken of, and the kind of what it gives."""
    word: str
    value: typing.Any
    kind: Kind

    @property
    def order(self):
        return ' COLLATE "C"' if self.kind == CHAR else ''

    @property
    def exact(self):
        """It as it is added up, where a sum may be beyond 64 bits."""
        return 'count(*)' if self.word == 'Count' else f'{self.word.lower()}({self.value.sql}{self.order})'

    @property
    def sql(self):
        return f'({self.exact})::int8' if self.word == 'Sum' else self.exact

    def over(self, part):
        """It, of what it is of some parts."""
        return f'sum({part})::int8' if self.word in ('Count', 'Sum') else f'{self.word.lower()}({part}{self.order})'


def aggregate_of(tree, scope):
    if tree[0] == 'CountRows':
        return Aggregate('Count', None, point(INTEGER))
    _, word, operand = tree
    value = scalar_of(operand, scope)
    is_right = value.kind == point(INTEGER) if word == 'Sum' else value.kind == CHAR or value.kind.form == 'POINT'
    if not is_right:
        raise Refusal('E12', f'{word.upper()} does not take this kind')
    return Aggregate(word, value, value.kind)


def aggregates_of(relation, kept, trees, scope):
    known(kept, relation.heading)
    found = {}
    for _, name, tree in trees:
        if name in found or name in kept:
            raise Refusal('E15', f'{name} stands twice')
        found[name] = aggregate_of(tree, scope)
    limited(dict.fromkeys([*kept, *found]))
    return found


def grouped(names):
    """GROUP BY these attributes; without any there is a group where there is a row."""
    return f'GROUP BY {identifiers(by_bytes(names))}' if names else 'HAVING count(*) > 0'


def summarized(relation, kept, trees, types):
    found = aggregates_of(relation, kept, trees, over(relation.heading, types))
    heading = {name: relation.heading[name] for name in kept} | {name: aggregate.kind for name, aggregate in found.items()}
    columns = from_columns(kept) | {name: aggregate.sql for name, aggregate in found.items()}
    faults = any(aggregate.value and aggregate.value.faults for aggregate in found.values())
    source = kept_apart(relation) if faults else relation.source
    return Relation(heading, f'SELECT {listed(columns)}\nFROM {source} t\n{grouped(kept)}', keys=(frozenset(kept),))


def summarize(names, operand, kept, aggregates):
    return summarized(relation_of(operand, names), kept, aggregates, names.types)


PLAIN = {
    'Union': of_sets('Union'), 'Intersect': of_sets('Intersect'), 'Minus': of_sets('Minus'), 'Join': join, 'Matching': matching('EXISTS'),
    'NotMatching': matching('NOT EXISTS'),
}

# a later form is one more function here; `points` adds those that look into intervals
RELATIONS = {
    'Relvar': relvar, 'Tuples': tuples, 'Headed': headed, 'Infix': infix, 'NotMatching': not_matching, 'Project': project, 'Filter': restrict,
    'Rename': rename, 'Extend': extend, 'Summarize': summarize,
}


def relation_of(tree, names):
    """The relation of an expression, where `names` tells what names stand for."""
    return RELATIONS[tree[0]](names, *tree[1:])
