"""Statements in SQL, and what is declared before each.

Whatever changes a relvar gives it a new value: at the end of one transaction the rows that the value lacks are deleted, and those that the relvar lacks inserted.
Where a DELETE, an INSERT or an UPDATE of SQL says the same, that stands instead.
"""
import collections
import dataclasses
import typing

from constraints import Constraint, behind_table, check, constraint_of, in_table, keys_of
from kinds import CHAR, NO_ATTRIBUTE, Points, by_bytes, columns_of, identifiers, interval, point, quoted, text_literal, type_of
from points import by_points
from relations import Relation, distinct, equal, heading_of, interval_list, known, listed, nested, of_table, relation_of, same_heading, values_set
from scalars import Scope, condition_of, over, points_of, scalar_of, swept
from syntax import NoForm, Refusal, statements_of, tree_of

# a translated statement: its number, its text, its SQL, the refusal where there is none, and what it prints: the kinds of a heading, 'truth' or nothing
Translated = collections.namedtuple('Translated', 'number text sql refusal prints')
History = collections.namedtuple('History', 'since point during interval key heading points')

NOTHING = ('NoCondition',)
COMPARISONS = {
    'Equal': '{fewer} AND {more}', 'NotEqual': 'NOT ({fewer} AND {more})', 'LessEqual': '{fewer}', 'Less': '{fewer} AND NOT {more}',
    'GreaterEqual': '{more}', 'Greater': '{more} AND NOT {fewer}',
}


@dataclasses.dataclass
class Relvar:
    heading: dict
    constraints: list
    functions: list = dataclasses.field(default_factory=list)

    @property
    def packed(self):
        """The one attribute on which it is packed."""
        lists = [tuple(constraint.names) for constraint in self.constraints if constraint.form == 'packed' and len(constraint.names) == 1]
        return lists[0] if lists else None

    @property
    def keys(self):
        return tuple(frozenset(key) for _, key in keys_of(self.constraints))


@dataclasses.dataclass
class View:
    heading: dict
    tree: typing.Any
    packed: typing.Any
    keys: tuple
    history: typing.Any = None


class Names:
    """What names stand for: types, relvars, views, rules and logs, each log with its relvar, and the tables in whose place a new value stands during an
    assignment.
    """

    def __init__(self):
        self.types, self.relvars, self.views, self.rules, self.logs, self.values = {}, {}, {}, {}, {}, {}

    def free(self, name, *others):
        if any(name in taken for taken in (self.types, self.relvars, self.views, self.rules, self.logs, others)):
            raise Refusal('E11', f'the name {name} is taken')
        return quoted(name)

    def relation(self, name):
        if name in self.relvars:
            relvar = self.relvars[name]
            if name in self.values:
                return of_table(relvar.heading, self.values[name])
            return of_table(relvar.heading, quoted(name), relvar.packed, relvar.keys)
        if name in self.logs:
            raise NoForm('E01', f'{name} is a log, which has no form in SQL')
        if name not in self.views:
            raise Refusal('E10', f'there is no relvar {name}')
        view = self.views[name]
        return relation_of(view.tree, self) if self.values else of_table(view.heading, quoted(name), view.packed, view.keys)

    def base_heading(self, name):
        """The heading of a relvar that is no view and no log."""
        if name in self.views or name in self.logs:
            raise Refusal('E20', f'{name} is a {"view" if name in self.views else "log"}')
        if name not in self.relvars:
            raise Refusal('E10', f'there is no relvar {name}')
        return self.relvars[name].heading

    def with_value(self, name, table):
        """The names where a new value stands for a relvar."""
        found = Names()
        found.types, found.relvars, found.views, found.rules, found.logs = self.types, self.relvars, self.views, self.rules, self.logs
        found.values = {name: table} if table else {}
        return found


# ---------------------------------------------------------------- declarations

def declare_type(names, name, values):
    table = names.free(name)
    distinct(values)
    names.types[name] = Points(name, 'int4', tuple(map(str, values)))
    rows = ', '.join(f'({number}, {text_literal(value)})' for number, value in enumerate(values))
    return f'CREATE TABLE {table} (number int4 PRIMARY KEY, name text NOT NULL);\nINSERT INTO {table} VALUES {rows};'


def column(name, kind):
    order = ' COLLATE "C"' if kind == CHAR else ''
    return f'{quoted(name)} {type_of(kind)}{order} NOT NULL'


def table_of(names, name, heading, constraints):
    """The table of a relvar, which is declared with it."""
    inside, behind = in_table(name, heading, constraints)
    columns = [column(attribute, kind) for attribute, kind in heading.items()] or [f'{quoted(NO_ATTRIBUTE)} boolean NOT NULL CHECK ({quoted(NO_ATTRIBUTE)})']
    lines = ',\n  '.join(columns + inside)
    more, functions = behind_table(name, heading, constraints, names)
    names.relvars[name] = Relvar(heading, constraints, functions)
    return '\n'.join([f'CREATE TABLE {quoted(name)} (\n  {lines}\n);', *behind, *more])


def declare_log(names, name, relvar, attribute):
    """Refuses a log, and remembers it: the program has it."""
    names.free(name)
    heading = names.base_heading(relvar)
    if attribute in heading:
        raise Refusal('E15', f'{relvar} has {attribute}')
    if len(heading) > 15:
        raise Refusal('E17', 'a relvar with a log has at most 15 attributes')
    names.logs[name] = relvar
    raise NoForm('E01', 'a log has no form in SQL', name)


def declare_relvar(names, name, form):
    names.free(name)
    if form[0] == 'View':
        return declare_view(names, name, form[1])
    if form[0] == 'Kept':
        return declare_kept(names, name, *form[1])
    _, heading, trees = form
    heading = heading_of(heading, names.types)
    constraints = [part for number, tree in enumerate(trees, 1) for part in constraint_of(tree, number)]
    for constraint in constraints:
        check(constraint, name, heading, names)
    return table_of(names, name, heading, constraints)


def declare_view(names, name, tree, history=None):
    relation = relation_of(tree, names)
    names.views[name] = View(relation.heading, tree, relation.packed, relation.keys, history)
    return f'CREATE VIEW {quoted(name)} AS\n{relation.sql};'


def kept_infix(attributes, left, word, right):
    return ('Using', attributes, ('UsingInfix', ('Relvar', left), word, ('Relvar', right)))


def kept_not_matching(attributes, left, right):
    return ('Using', attributes, ('UsingNotMatching', ('Relvar', left), ('Relvar', right)))


def kept_project(attributes, operand, projection):
    return ('Using', attributes, ('UsingProject', ('Relvar', operand), projection))


def kept_pack(operand, attributes):
    return ('PackOn', 'Pack', ('Relvar', operand), attributes)


# the expression that a kept view stands for
KEPT = {'KeptInfix': kept_infix, 'KeptNotMatching': kept_not_matching, 'KeptProject': kept_project, 'KeptPack': kept_pack}


def declare_kept(names, name, form, *parts):
    """A view, whose rows the program stores: PostgreSQL brings no stored rows up to date."""
    tree = KEPT[form](*parts)
    for operand in operands_of(tree):
        names.base_heading(operand)
    return declare_view(names, name, tree)


def ended(history, rows, end):
    """What ended of a history, and these rows that ran, with this end."""
    sets = [('SetItem', history.interval, ('Selector', 'Closed', ('AttributeName', history.point), end, 'Closed'))]
    fresh = ('Project', ('Extend', rows, sets), ('AllBut', history.point, []))
    return ('Using', [history.interval], ('UsingInfix', ('Relvar', history.during), 'Union', fresh))


def declare_history(names, name, heading, key, since, at, during, interval_name, over_points):
    names.free(name)
    names.free(since, name)
    names.free(during, name, since)
    heading = heading_of(heading, names.types)
    if len(heading) > 14:
        raise Refusal('E17', 'a history has at most 14 attributes')
    known(key, heading)
    kinds = points_of(over_points, names.types)
    if at in heading or interval_name in heading or at == interval_name:
        raise Refusal('E15', f'{at} or {interval_name} stands twice')
    history = History(since, at, during, interval_name, key, heading, kinds)
    runs = table_of(names, since, heading | {at: point(kinds)}, [Constraint('key', 1, [], key)])
    whole = [*key, interval_name]
    constraints = [Constraint('packed', 1, [interval_name]), Constraint('when', 1, [interval_name], whole), Constraint('key', 1, [], whole),
                   Constraint('history', 2, [], key, since, history)]
    ran = table_of(names, during, heading | {interval_name: interval(kinds)}, constraints)
    return '\n'.join([runs, ran, declare_view(names, name, ended(history, ('Relvar', since), ('Extreme', 'Last', over_points)), history)])


def operands_of(tree):
    """The names of relvars and views in an expression, as they stand in it from left to right."""
    if isinstance(tree, tuple) and tree[:1] == ('Relvar',):
        return [tree[1]]
    return [name for part in tree for name in operands_of(part)] if isinstance(tree, (tuple, list)) else []


def relvars_in(tree):
    """The names of relvars and views in an expression."""
    return {*operands_of(tree)}


def group_of(names, name):
    """What goes with a name: the view of a history takes its two relvars along."""
    history = names.views[name].history if name in names.views else None
    return [name, history.during, history.since] if history else [name]


def users_of(names, group):
    """The views, relvars and rules besides the group itself that name one of it."""
    found = [other for other, view in names.views.items() if other not in group and relvars_in(view.tree) & {*group}]
    found += [other for other, relvar in names.relvars.items() if other not in group and any(part.other in group for part in relvar.constraints)]
    return found + [rule for rule, test in names.rules.items() if relvars_in(test) & {*group}]


def drop_one(names, name):
    if name in names.views:
        del names.views[name]
        return [f'DROP VIEW {quoted(name)};']
    functions = names.relvars.pop(name).functions
    return [f'DROP TABLE {quoted(name)};', *(f'DROP FUNCTION {function} CASCADE;' for function in functions)]


def drop(names, name):
    if name in names.logs:
        del names.logs[name]
        return ''
    if name not in names.relvars and name not in names.views:
        raise Refusal('E10', f'there is no relvar {name}')
    if any(view.history and name in (view.history.since, view.history.during) for view in names.views.values()):
        raise Refusal('E21', f'{name} is one of a history')
    group = group_of(names, name)
    users = [log for log, relvar in names.logs.items() if relvar in group] + users_of(names, group)
    if users:
        raise Refusal('E21', f'{users[0]} uses {name}')
    return '\n'.join(line for part in group for line in drop_one(names, part))


# ---------------------------------------------------------------- rules of the database

def tables_under(names, tree):
    """The relvars on which an expression or a test leans, itself or through views."""
    found = set()
    for name in relvars_in(tree):
        found |= tables_under(names, names.views[name].tree) if name in names.views else {name}
    return found


def rule_function(name):
    return quoted(f'{name} constraint')


def asked_in(names, name, test):
    """Lines of a PL/pgSQL block that fail where the test does not hold; a fault of it breaks the rule too."""
    query = truth(names, test).replace('\n', '\n      ')
    return (f"DECLARE held boolean;\nBEGIN\n  BEGIN\n    held := (\n      {query});\n  EXCEPTION WHEN OTHERS THEN held := false;\n  END;\n"
            f"  IF NOT held THEN\n    RAISE EXCEPTION USING ERRCODE = 'UTE45', MESSAGE = {text_literal(f'constraint {name} is broken')};\n  END IF;")


def declare_rule(names, name, test):
    names.free(name)
    asked, function = asked_in(names, name, test), rule_function(name)
    tables = by_bytes(tables_under(names, test))
    names.rules[name] = test
    # in one transaction, so that a rule that does not hold leaves nothing
    return '\n'.join([
        'BEGIN;',
        f'DO $$\n{asked}\nEND\n$$;',
        f'CREATE FUNCTION {function}() RETURNS trigger LANGUAGE plpgsql AS $$\n{asked}\n  RETURN NULL;\nEND\n$$;',
        *(f'CREATE CONSTRAINT TRIGGER {function} AFTER INSERT OR UPDATE OR DELETE ON {quoted(table)}'
          f' DEFERRABLE INITIALLY DEFERRED FOR EACH ROW EXECUTE FUNCTION {function}();' for table in tables),
        'COMMIT;'])


def drop_rule(names, name):
    if name not in names.rules:
        raise Refusal('E10', f'there is no rule {name}')
    del names.rules[name]
    return f'DROP FUNCTION {rule_function(name)} CASCADE;'


# ---------------------------------------------------------------- PRINT and ASK

def shown(name, kind):
    """A column as it is printed: values of ordinal types by their names."""
    column_name = f't.{quoted(name)}'
    if not kind.points or not kind.points.values:
        return column_name

    def value(number):
        return f'(SELECT n.name FROM {quoted(kind.points.name)} n WHERE n.number = {number})'
    if kind.form == 'POINT':
        return value(column_name)
    return f"'[' || {value(f'lower({column_name})')} || ':' || {value(f'upper({column_name}) - 1')} || ']'"


def print_relation(names, tree):
    relation = relation_of(tree, names)
    columns = listed({name: shown(name, kind) for name, kind in relation.heading.items()})
    order = ', '.join(f't.{quoted(name)}' + (' COLLATE "C"' if relation.heading[name] == CHAR else '') for name in by_bytes(relation.heading))
    return f'SELECT {columns}\nFROM {relation.source} t' + (f'\nORDER BY {order};' if order else ';'), relation.heading


def truth(names, tree):
    """A query of one truth value."""
    form, *parts = tree
    if form == 'Emptiness':
        word, operand = parts
        return f'SELECT {"NOT " if word == "IsEmpty" else ""}EXISTS {nested(relation_of(operand, names).sql)} AS answer'
    attributes, comparison = parts if form == 'UsingTest' else ([], parts[0])
    _, left, word, right = comparison
    left, right = relation_of(left, names), relation_of(right, names)
    interval_list(attributes, left, right)
    same_heading(left, right)
    sides = [of_table(side.heading, table) for side, table in ((left, '"the first side"'), (right, '"the second side"'))]
    fewer, more = (f'NOT EXISTS {nested(by_points("Minus", *pair, attributes).sql)}' for pair in (sides, sides[::-1]))
    tables = ',\n'.join(f'{side.table} AS {nested(operand.sql)}' for side, operand in zip(sides, (left, right)))
    return f'WITH {tables}\nSELECT {COMPARISONS[word].format(fewer=fewer, more=more)} AS answer'


def ask(names, tree):
    return f'{truth(names, tree)};', 'truth'


# ---------------------------------------------------------------- assignments

def target(names, name):
    names.base_heading(name)
    return ('Relvar', name)


def checked_sets(names, heading, attributes, sets):
    found = values_set(sets, over(heading, names.types))
    for name, value in found.items():
        known([name], heading)
        if value.kind != heading[name]:
            raise Refusal('E12', f'{name} has another kind')
        if name in attributes:
            raise Refusal('E19', f'{name} is set')


def under(attributes, part):
    """The part under USING; without a list the part itself."""
    if attributes is None:
        plain = {'UsingInfix': 'Infix', 'UsingFilter': 'Filter'}
        return (plain.get(part[0], part[0]), *part[1:])
    return ('Using', attributes, part)


def changed_rows(names, attributes, name, condition, sets):
    """The value of a relvar whose rows, or whose points, are changed or, where nothing is set, deleted by a condition."""
    own = target(names, name)
    heading = names.base_heading(name)
    condition_of(condition, over(heading, names.types))
    interval_list(attributes or [], Relation(heading, ''))
    others = under(attributes, ('UsingFilter', own, ('Not', condition)))
    if sets is None:
        swept(condition, attributes or [])
        return others
    checked_sets(names, heading, attributes or [], sets)
    chosen = under(attributes, ('UsingFilter', own, condition))
    return under(attributes, ('UsingInfix', others, 'Union', under(attributes, ('Extend', chosen, sets))))


def portion_of(names, name, elements, condition):
    """The list of a portion, and its condition."""
    heading = names.base_heading(name)
    attributes = [attribute for _, attribute, _ in elements]
    interval_list(attributes, Relation(heading, ''))
    found = None
    for _, attribute, tree in elements:
        if scalar_of(tree, Scope(names.types)).kind != heading[attribute]:
            raise Refusal('E12', f'{attribute} has another kind')
        inside = ('Compare', ('AttributeName', attribute), 'IncludedIn', tree)
        found = inside if found is None else ('And', found, inside)
    return attributes, found if condition == NOTHING else ('And', found, condition)


def whole(condition):
    return ('TrueLiteral',) if condition == NOTHING else condition


def delete_item(names, name, deletion, attributes=None):
    form, *parts = deletion
    if form in ('DeleteWhere', 'UsedDeleteWhere'):
        return [(name, changed_rows(names, attributes, name, parts[0], None))]
    if form == 'DeletePortion':
        attributes, condition = portion_of(names, name, *parts)
        return [(name, changed_rows(names, attributes, name, condition, None))]
    return [(name, under(attributes, ('UsingInfix', target(names, name), 'Minus', parts[0])))]


def insert_item(names, name, tree, attributes=None):
    return [(name, under(attributes, ('UsingInfix', target(names, name), 'Union', tree)))]


def update_item(names, name, portion, condition, sets):
    target(names, name)
    if portion == ('NoPortion',):
        return [(name, changed_rows(names, None, name, whole(condition), sets))]
    attributes, condition = portion_of(names, name, portion, condition)
    return [(name, changed_rows(names, attributes, name, condition, sets))]


def set_item(names, name, tree):
    target(names, name)
    return [(name, tree)]


def terminate_item(names, name, end, condition):
    view = names.views.get(name)
    if not view or not view.history:
        raise Refusal('E20' if view or name in names.relvars else 'E10', f'{name} is no history')
    history, condition = view.history, whole(condition)
    if scalar_of(end, Scope(names.types)).kind != point(history.points):
        raise Refusal('E12', 'the end is another kind of point')
    own = ('Relvar', history.since)
    condition_of(condition, over(names.base_heading(history.since), names.types))
    return [(history.during, ended(history, ('Filter', own, condition), end)), (history.since, ('Filter', own, ('Not', condition)))]


def using_item(names, attributes, item):
    form, name, *parts = item
    if form == 'UsedInsert':
        return insert_item(names, name, parts[0], attributes)
    if form == 'UsedDelete':
        return delete_item(names, name, parts[0], attributes)
    return [(name, changed_rows(names, attributes, name, whole(parts[0]), parts[1]))]


ITEMS = {'SetRelvar': set_item, 'Insert': insert_item, 'Delete': delete_item, 'Update': update_item, 'Terminate': terminate_item, 'UsingItem': using_item}


def value_of(names, name, tree):
    relation = relation_of(tree, names)
    if relation.heading != names.base_heading(name):
        raise Refusal('E13', 'headings differ')
    return relation


def exchanged(heading, name, table):
    """Gives a relvar the rows of a table."""
    columns, same = identifiers(columns_of(heading)), equal(heading)
    return [f'DELETE FROM {quoted(name)} l WHERE NOT EXISTS (SELECT FROM {table} r WHERE {same});',
            f'INSERT INTO {quoted(name)} ({columns})\nSELECT {columns} FROM {table} l WHERE NOT EXISTS (SELECT FROM {quoted(name)} r WHERE {same});']


def assign(names, items):
    pairs = [pair for item in items for pair in ITEMS[item[0]](names, *item[1:])]
    values = [value_of(names, name, tree) for name, tree in pairs]
    if len(items) == 1:
        short = shorter(names, items[0])
        if short:
            return short
    lines, tables = ['BEGIN;'], {}
    for number, (name, tree) in enumerate(pairs, 1):
        relation = value_of(names.with_value(name, tables[name]), name, tree) if name in tables else values[number - 1]
        tables[name] = f'"the new value {number}"'
        lines.append(f'CREATE TEMPORARY TABLE {tables[name]} ON COMMIT DROP AS\n{relation.sql};')
    for name, table in tables.items():
        lines += exchanged(names.base_heading(name), name, table)
    return '\n'.join([*lines, 'COMMIT;'])


def shorter(names, item):
    """A single statement of SQL that says the same, or none."""
    form, name, *parts = item
    if form == 'Insert':
        return inserted(names, name, parts[0])
    if form == 'Delete' and parts[0][0] == 'DeleteWhere':
        condition = condition_of(parts[0][1], over(names.base_heading(name), names.types))
        return f'DELETE FROM {quoted(name)}\nWHERE {condition.sql};'
    if form == 'Delete' and parts[0][0] == 'DeleteRows':
        rows = relation_of(parts[0][1], names)
        return f'DELETE FROM {quoted(name)} l USING {rows.source} r\nWHERE {equal(rows.heading)};'
    if form == 'Update' and parts[0] == ('NoPortion',):
        return updated(names, name, *parts[1:])
    return None


def inserted(names, name, tree):
    rows = relation_of(tree, names)
    columns = identifiers(columns_of(rows.heading))
    return (f'INSERT INTO {quoted(name)} ({columns})\nSELECT {columns} FROM {rows.source} l\n'
            f'WHERE NOT EXISTS (SELECT FROM {quoted(name)} r WHERE {equal(rows.heading)});')


def updated(names, name, condition, sets):
    """An UPDATE where a key keeps its values, so that no rows become equal."""
    relvar = names.relvars[name]
    fresh = values_set(sets, over(relvar.heading, names.types))
    if not any(not set(key) & fresh.keys() for _, key in keys_of(relvar.constraints)) or relvar.packed:
        return None
    values = ', '.join(f'{quoted(attribute)} = {value.sql}' for attribute, value in fresh.items())
    where = '' if condition == NOTHING else f'\nWHERE {condition_of(condition, over(relvar.heading, names.types)).sql}'
    return f'UPDATE {quoted(name)} SET {values}{where};'


# ---------------------------------------------------------------- scripts

# a later statement is one more function here
STATEMENTS = {
    'Nothing': lambda names: '', 'DeclareOrdinal': declare_type, 'DeclareRelvar': declare_relvar, 'DeclareHistory': declare_history, 'Drop': drop,
    'DeclareRule': declare_rule, 'DropRule': drop_rule, 'DeclareLog': declare_log,
    'Print': print_relation, 'Ask': ask, 'Assignment': assign,
}


def translated(script, names=None, broken=()):
    """The statements of a script, each in SQL or with what refuses it, over names that are declared already. Whether a rule holds where it is
    declared, and whether there is room for a log, only rows tell: broken has the numbers of statements that are known to be refused for it.
    """
    names = names or Names()
    for number, (text, tokens) in enumerate(statements_of(script), 1):
        try:
            if isinstance(tokens, Refusal):
                raise tokens
            form, *parts = tree_of(tokens)
            found = STATEMENTS[form](names, *parts)
            if form == 'DeclareRule' and number in broken:
                del names.rules[parts[0]]
            sql, prints = found if isinstance(found, tuple) else (found, None)
            yield Translated(number, text, sql, None, prints)
        except Refusal as refusal:
            if number in broken and isinstance(refusal, NoForm):
                names.logs.pop(refusal.declared, None)
            yield Translated(number, text, '', refusal, None)
