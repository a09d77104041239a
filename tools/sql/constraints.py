"""Constraints of relvars: keys, exclusions, and triggers for what neither of them says.

A trigger looks at the end of a transaction at the rows with the values of the row that was changed, so that a constraint holds for whoever writes.
"""
import dataclasses
import hashlib
import typing

from kinds import NAME_BYTES, by_bytes, columns_of, identifiers, quoted, text_literal
from points import by_points, packed
from relations import Relation, equal, from_alias, interval_list, known, listed, nested
from syntax import Refusal


@dataclasses.dataclass
class Constraint:
    """A constraint by its form: key, packed, when, foreign, history; with its list, its key, and what it references."""
    form: str
    number: int
    names: list
    key: list = dataclasses.field(default_factory=list)
    other: str = ''
    history: typing.Any = None


def constraint_of(tree, number):
    """A constraint and its parts: USING (D): KEY is three, a list of no attribute is none."""
    if isinstance(tree, list):
        return [Constraint('key', number, [], tree)]
    form, *parts = tree
    if form == 'PackedOn':
        return [Constraint('packed', number, parts[0])]
    if form == 'WhenUnpacked':
        return [Constraint('when', number, *parts)]
    if form == 'Foreign':
        return [Constraint('foreign', number, [], *parts)]
    names, part = parts
    if isinstance(part, list):
        return [Constraint('packed', number, names), Constraint('when', number, names, part), Constraint('key', number, [], part)]
    return [Constraint('foreign', number, names, *part[1:])]


def check(constraint, own_name, heading, names):
    """Looks at the names of a constraint."""
    interval_list(constraint.names, Relation(heading, ''))
    if constraint.form == 'packed':
        return
    known(constraint.key, heading)
    for name in constraint.names:
        if name not in constraint.key:
            raise Refusal('E19', f'the key lacks {name}')
    if constraint.form == 'foreign':
        check_other(constraint, names.base_heading(constraint.other) if constraint.other != own_name else heading, heading)


def check_other(constraint, other, heading):
    for name in constraint.key:
        if name not in other:
            raise Refusal('E14', f'{constraint.other} has no attribute {name}')
        if other[name] != heading[name]:
            raise Refusal('E12', f'{name} has two kinds')


# ---------------------------------------------------------------- names

def name_of(relvar, constraint, word=''):
    """The name of what holds a constraint, not longer than PostgreSQL keeps it."""
    name = f'{relvar} constraint {constraint.number} {word or constraint.form}'
    if len(name.encode()) > NAME_BYTES:
        name = f'constraint {constraint.number} {word or constraint.form} {hashlib.sha256(name.encode()).hexdigest()[:16]}'
    return quoted(name)


# ---------------------------------------------------------------- keys and exclusions

def is_key(constraint):
    return constraint.form == 'key' or constraint.form == 'when' and not constraint.names


def keys_of(constraints):
    """The keys as lists of attributes, without those that stand before."""
    found = []
    for constraint in filter(is_key, constraints):
        if set(constraint.key) not in [set(key) for _, key in found]:
            found.append((constraint, constraint.key))
    return found


def in_table(relvar, heading, constraints):
    """What of the constraints stands in CREATE TABLE, and what has to follow it."""
    inside, behind, first = [], [], True
    for constraint, key in keys_of(constraints):
        if key:
            inside.append(f'CONSTRAINT {name_of(relvar, constraint)} {"PRIMARY KEY" if first else "UNIQUE"} ({identifiers(key)})')
            first = False
        else:
            behind.append(f'CREATE UNIQUE INDEX {name_of(relvar, constraint)} ON {quoted(relvar)} ((true));')
    if first:
        inside.append(f'PRIMARY KEY ({identifiers(columns_of(heading))})')
    for constraint in constraints:
        if constraint.form in ('packed', 'when') and constraint.names:
            inside += exclusion(relvar, heading, constraint, constraints)
    return inside, behind


def excluded(same, names):
    """The parts of an exclusion: equal there, and these."""
    return ', '.join([*(f'{quoted(name)} WITH =' for name in by_bytes(same)), *names])


def is_packed(names, constraints):
    return any(constraint.form == 'packed' and set(constraint.names) == set(names) for constraint in constraints)


def rest_of(heading, constraint):
    """The attributes that are neither of the key nor of the list."""
    return [name for name in heading if name not in constraint.key and name not in constraint.names]


def exclusion(relvar, heading, constraint, constraints):
    """PACKED ON one attribute; and WHEN UNPACKED ON for rows that are packed, of which no two are alike besides and overlap."""
    if constraint.form == 'packed':
        if len(constraint.names) > 1:
            return []
        name, = constraint.names
        same, parts = [other for other in heading if other != name], [f'utd.touched({quoted(name)}) WITH &&']
    else:
        if not rest_of(heading, constraint) or not is_packed(constraint.names, constraints):
            return []
        same, parts = same_in(constraint), [f'{quoted(name)} WITH &&' for name in constraint.names]
    return [f'CONSTRAINT {name_of(relvar, constraint)} EXCLUDE USING gist ({excluded(same, parts)})']


# ---------------------------------------------------------------- foreign keys and triggers

def is_native(constraint, other_constraints):
    """Whether PostgreSQL has the foreign key: its attributes are a key there."""
    return not constraint.names and constraint.key and any(set(key) == set(constraint.key) for _, key in keys_of(other_constraints))


def native(relvar, constraint):
    key = identifiers(constraint.key)
    return (f'ALTER TABLE {quoted(relvar)} ADD CONSTRAINT {name_of(relvar, constraint)} FOREIGN KEY ({key})'
            f' REFERENCES {quoted(constraint.other)} ({key}) DEFERRABLE INITIALLY DEFERRED;')


def rows_like(heading, table, kept, same, changed, within=()):
    """The rows of a table that agree with a row that was changed; of some attributes what lies within its intervals."""
    heading = {name: heading[name] for name in kept}
    columns = from_alias(heading, 't') | {name: f't.{quoted(name)} * {changed}.{quoted(name)}' for name in within}
    overlap = ''.join(f' AND t.{quoted(name)} && {changed}.{quoted(name)}' for name in within)
    distinct = 'DISTINCT ' if heading else ''
    return Relation(heading, f'SELECT {distinct}{listed(columns)}\nFROM {quoted(table)} t\nWHERE {equal(same, "t", changed)}{overlap}')


def same_in(constraint):
    """The attributes of the key that are not in the list."""
    return [name for name in constraint.key if name not in constraint.names]


def lacking(relvar, constraint, heading, other_heading):
    """What of a foreign key is not there, for the values and at the points of a row that was changed."""
    def query(changed):
        here = rows_like(heading, relvar, constraint.key, same_in(constraint), changed, constraint.names)
        there = rows_like(other_heading, constraint.other, constraint.key, same_in(constraint), changed, constraint.names)
        return by_points('NotMatching', here, there, constraint.names).sql
    return query


def index(relvar, constraint):
    """An index by which rows are found that agree with others and overlap them."""
    columns = identifiers([*by_bytes(same_in(constraint)), *constraint.names])
    return f'CREATE INDEX {name_of(relvar, constraint, "index")} ON {quoted(relvar)} USING gist ({columns});'


def unpacked_rows(relvar, constraint, heading):
    """The rows that packing would change."""
    same = [name for name in heading if name not in constraint.names]

    def query(changed):
        rows = rows_like(heading, relvar, heading, same, changed)
        return f'{nested(rows.sql)}\nEXCEPT\n{nested(packed(rows, constraint.names).sql)}'
    return query


def doubled(relvar, constraint, heading):
    """Rows that agree on the key with a changed one at some point, and are not like it besides."""
    overlap = ''.join(f' AND t.{quoted(name)} && {{0}}.{quoted(name)}' for name in constraint.names)
    rest = [quoted(name) for name in by_bytes(rest_of(heading, constraint))]

    def query(changed):
        there, here = (', '.join(f'{side}.{name}' for name in rest) for side in ('t', changed))
        return (f'SELECT FROM {quoted(relvar)} t\n'
                f'WHERE {equal(same_in(constraint), "t", changed)}{overlap.format(changed)} AND ({there}) <> ({here})')
    return query


def contradicted(constraint):
    """What runs and has ended no earlier, or ran on from its end."""
    history = constraint.history
    end, since = f'd.{quoted(history.interval)}', f's.{quoted(history.point)}'

    def query(changed):
        same = equal(history.key, 's', changed)
        return (f'SELECT FROM {quoted(history.since)} s JOIN {quoted(history.during)} d ON {equal(history.key, "s", "d")}\n'
                f'WHERE {same} AND (upper_inf({end}) OR upper({end}) > {since} OR upper({end}) = {since} AND {equal(history.heading, "s", "d")})')
    return query


def trigger(relvar, constraint, query, state, tables):
    """A function that looks for what breaks a constraint, and the triggers that call it."""
    name = name_of(relvar, constraint)
    old, new = (''.join(f'      {line}\n' for line in query(row).split('\n')) for row in ('OLD', 'NEW'))
    words = text_literal(f'constraint {constraint.number} of {relvar} is broken')
    # the rows that are alike are few, and found by an index; PostgreSQL takes them for many
    function = (f"CREATE FUNCTION {name}() RETURNS trigger LANGUAGE plpgsql SET enable_seqscan = off AS $$\nBEGIN\n"
                f"  IF TG_OP <> 'INSERT' AND EXISTS (\n{old}    ) OR TG_OP <> 'DELETE' AND EXISTS (\n{new}    ) THEN\n"
                f"    RAISE EXCEPTION USING ERRCODE = '{state}', MESSAGE = {words};\n  END IF;\n  RETURN NULL;\nEND\n$$;")
    triggers = [f'CREATE CONSTRAINT TRIGGER {name_of(relvar, constraint, word)} AFTER {events} ON {quoted(table)}'
                f' DEFERRABLE INITIALLY DEFERRED FOR EACH ROW EXECUTE FUNCTION {name}();' for word, events, table in tables]
    return [function, *triggers]


def behind_table(relvar, heading, constraints, names):
    """The foreign keys and triggers of a table that is there, and the functions of these."""
    found, functions = [], []
    for constraint in constraints:
        if constraint.form == 'foreign':
            is_own = constraint.other == relvar
            if is_native(constraint, constraints if is_own else names.relvars[constraint.other].constraints):
                found.append(native(relvar, constraint))
                continue
            if constraint.names:
                found.append(index(relvar, constraint))
            query = lacking(relvar, constraint, heading, heading if is_own else names.base_heading(constraint.other))
            tables = [('here', 'INSERT OR UPDATE', relvar), ('there', 'DELETE OR UPDATE', constraint.other)]
            found += trigger(relvar, constraint, query, '23503', tables)
        elif constraint.form == 'packed' and len(constraint.names) > 1:
            tables = [('here', 'INSERT OR UPDATE OR DELETE', relvar)]
            found += trigger(relvar, constraint, unpacked_rows(relvar, constraint, heading), '23P01', tables)
        elif constraint.form == 'when' and constraint.names and rest_of(heading, constraint) and not is_packed(constraint.names, constraints):
            found.append(index(relvar, constraint))
            found += trigger(relvar, constraint, doubled(relvar, constraint, heading), '23P01', [('here', 'INSERT OR UPDATE', relvar)])
        elif constraint.form == 'history':
            history = constraint.history
            tables = [('ended', 'INSERT OR UPDATE', relvar), ('runs', 'INSERT OR UPDATE', history.since)]
            found += trigger(relvar, constraint, contradicted(constraint), 'UTE44', tables)
        else:
            continue
        functions.append(name_of(relvar, constraint))
    return found, functions
