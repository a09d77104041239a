"""The functions that translated scripts call, in a schema of their own; a script has those that it needs."""
import re

SCHEMA = 'CREATE SCHEMA IF NOT EXISTS utd;'
EXTENSION = 'CREATE EXTENSION IF NOT EXISTS btree_gist;'
# cells are counted up to a power of two
MOST_LEVELS = 40

STEP = "interval '1 second'"

# for each type of points: its ranges, how the points behind and before another one, the last one and the number of those of an interval d are written, and
# what lists them as p
TYPES = {
    'int8': {
        'span': 'int8range', 'behind': 'nullif({}, 9223372036854775807) + 1', 'before': 'CASE WHEN {0} > -9223372036854775808 THEN {0} - 1 END',
        'last': 'coalesce(upper(d) - 1, 9223372036854775807)', 'count': '({last} - lower(d))::int8 + 1', 'series': 'generate_series(lower(d), {last}) p',
    },
    'date': {
        'span': 'daterange', 'behind': '{} + 1', 'before': '{} - 1', 'last': 'upper(d) - 1', 'count': '({last} - lower(d))::int8 + 1',
        'series': 'generate_series(0, upper(d) - lower(d) - 1) k, LATERAL (SELECT lower(d) + k AS p) s',
    },
    'timestamp': {
        'span': 'tsrange', 'behind': "{} + interval '1 second'", 'before': "{} - interval '1 second'", 'last': "upper(d) - interval '1 second'",
        'count': 'extract(epoch FROM upper(d) - lower(d))::int8', 'series': "generate_series(lower(d), {last}, interval '1 second') p",
    },
    'int4': {
        'span': 'int4range', 'behind': '{} + 1', 'before': '{} - 1', 'last': 'upper(d) - 1', 'count': '({last} - lower(d))::int8 + 1',
        'series': 'generate_series(lower(d), {last}) p',
    },
}

FAULT = "RAISE EXCEPTION USING ERRCODE = 'UTE{}', MESSAGE = '{}'"


def of_sql(name, parameters, returns, body, kind='IMMUTABLE'):
    return f'CREATE OR REPLACE FUNCTION utd.{name}({parameters}) RETURNS {returns} LANGUAGE sql {kind} AS $$\n  {body}\n$$;'


def of_steps(name, parameters, returns, body, kind='IMMUTABLE STRICT'):
    return f'CREATE OR REPLACE FUNCTION utd.{name}({parameters}) RETURNS {returns} LANGUAGE plpgsql {kind} AS $$\nBEGIN\n  {body}\nEND\n$$;'


def quiet(name, parameters, returns, value):
    """A function that gives NULL where the value has a fault."""
    return of_steps(f'quiet_{name}', parameters, returns, f'RETURN {value};\nEXCEPTION WHEN OTHERS THEN\n  RETURN NULL;')


def checked(condition, code, words, value):
    return f'IF {condition} THEN\n    {FAULT.format(code, words)};\n  END IF;\n  RETURN {value};'


def of_points(sql):
    """The functions of the intervals of a type of points."""
    span, behind, before, last = (TYPES[sql][name] for name in ('span', 'behind', 'before', 'last'))
    count, series = (TYPES[sql][name].format(last=last) for name in ('count', 'series'))
    single = f'{span}(p, {behind.format("p")})'
    after = behind.format('lower(d)')
    beyond = behind.format(f'({last})')
    return [
        of_sql('first', f'd {span}', span, f'SELECT {span}(lower(d), {behind.format("lower(d)")})'),
        of_sql('parts', f'd {span}, ends {sql}[]', f'SETOF {span}',
               f'SELECT {span}(p, coalesce(lead(p) OVER (ORDER BY p), upper(d)))\n'
               '  FROM (SELECT lower(d) AS p UNION SELECT p FROM unnest(ends) p WHERE p <@ d) t', 'IMMUTABLE ROWS 4'),
        *of_pieces(sql, span, behind, before, last),
        of_sql('points', f'd {span}', f'SETOF {span}', f'SELECT {single} FROM {series}'),
        of_sql('changes', f'p {sql}', f'{sql}[]', f'SELECT ARRAY[p, {behind.format("p")}]'),
        of_sql('changes', f'd {span}', f'{sql}[]',
               f'SELECT ARRAY[{before.format("lower(d)")}, lower(d), {after}, {last}, {beyond}, {behind.format(f"({beyond})")}]'),
        of_sql('touched', f'd {span}', span, f'SELECT {span}(lower(d), {behind.format("upper(d)")})'),
        of_steps('interval', f'b {sql}, e {sql}', span, checked('e < b', 33, 'empty interval', f'{span}(b, {behind.format("e")})')),
        of_steps('filled', f'd {span}', span, checked('isempty(d)', 34, 'not one interval', 'd')),
        of_sql('count', f'd {span}', 'int8', f'SELECT {count}'),
        quiet('interval', f'b {sql}, e {sql}', span, 'utd.interval(b, e)'),
        quiet('count', f'd {span}', 'int8', 'utd.count(d)'),
        quiet('union', f'i {span}, j {span}', span, 'i + j'),
        quiet('intersect', f'i {span}, j {span}', span, 'utd.filled(i * j)'),
        quiet('minus', f'i {span}, j {span}', span, 'utd.filled(i - j)'),
    ]


def of_pieces(sql, span, behind, before, last):
    """The functions that seek among pieces which are told by their first and their last points, in order."""
    parameters = f'd {span}, starts {sql}[], stops {sql}[]'
    # the numbers of the first piece that ends no earlier than d begins, and of the last one that begins no later than d ends
    first, final = f'1 + coalesce(width_bucket({before.format("lower(d)")}, stops), 0)', f'width_bucket({last}, starts)'
    # a piece with another one behind it does not end with the last integer
    after = f'stops[n - 1] + {STEP}' if sql == 'timestamp' else 'stops[n - 1] + 1'
    return [
        of_sql('last', f'd {span}', sql, f'SELECT {last}'),
        of_sql('inside', parameters, f'SETOF {span}', f'SELECT d * {span}(starts[n], {behind.format("stops[n]")})\n  FROM generate_series({first}, {final}) n'),
        of_sql('outside', parameters, f'SETOF {span}',
               f'SELECT {span}(CASE n WHEN f THEN lower(d) ELSE {after} END, CASE n WHEN b THEN upper(d) ELSE starts[n] END)\n'
               f'  FROM (SELECT {first} AS f, 1 + {final} AS b) t, generate_series(f, b) n\n'
               f'  WHERE (n > f OR n = b OR starts[n] > lower(d)) AND (n < b OR n = f OR stops[n - 1] < {last})'),
    ]


def beside():
    """The points beside others."""
    found = [
        of_sql('next', 'p int8', 'int8', 'SELECT p + 1'), of_sql('prior', 'p int8', 'int8', 'SELECT p - 1'),
        of_steps('next', 'p date', 'date', checked("p = DATE '9999-12-31'", 32, 'no such point', 'p + 1')),
        of_steps('prior', 'p date', 'date', checked("p = DATE '0001-01-01'", 32, 'no such point', 'p - 1')),
        of_steps('next', 'p timestamp', 'timestamp', checked("p = TIMESTAMP '9999-12-31 23:59:59'", 32, 'no such point', f'p + {STEP}')),
        of_steps('prior', 'p timestamp', 'timestamp', checked("p = TIMESTAMP '0001-01-01 00:00:00'", 32, 'no such point', f'p - {STEP}')),
        of_steps('next', 'p int4, last int4', 'int4', checked('p = last', 32, 'no such point', 'p + 1')),
        of_steps('prior', 'p int4', 'int4', checked('p = 0', 32, 'no such point', 'p - 1')),
    ]
    found += [quiet(name, f'p {sql}', sql, f'utd.{name}(p)') for name in ('next', 'prior') for sql in TYPES if (name, sql) != ('next', 'int4')]
    return [*found, quiet('next', 'p int4, last int4', 'int4', 'utd.next(p, last)')]


def of_others():
    signs = {'sum': '+', 'difference': '-', 'product': '*', 'quotient': '/'}
    two = 'i anyrange, j anyrange'
    return [
        of_sql('merges', two, 'boolean', 'SELECT i && j OR i -|- j'),
        of_sql('begins', two, 'boolean', 'SELECT lower(i) = lower(j) AND i <@ j'),
        of_sql('ends', two, 'boolean', 'SELECT upper(i) IS NOT DISTINCT FROM upper(j) AND i <@ j'),
        of_sql('levels', 'number int8', 'SETOF int4', f"SELECT k FROM unnest('{{{','.join(map(str, range(MOST_LEVELS)))}}}'::int4[]) k WHERE 1::int8 << k <= number"),
        of_sql('blocks', 'first int8, behind int8', 'TABLE (level int4, block int8)',
               'SELECT k, CASE side WHEN 0 THEN l ELSE r - 1 END\n'
               '  FROM (SELECT k, (first + (1::int8 << k) - 1) >> k AS l, behind >> k AS r FROM utd.levels(behind - first) k) t, (VALUES (0), (1)) s (side)\n'
               '  WHERE l < r AND CASE side WHEN 0 THEN l ELSE r END % 2 = 1'),
        of_steps('kept', 'value anyelement', 'anyelement', 'RETURN value;', 'VOLATILE'),
        *[quiet(name, 'a int8, b int8', 'int8', f'a {sign} b') for name, sign in signs.items()],
    ]


def all_functions():
    found = {}
    for text in [*beside(), *(text for sql in TYPES for text in of_points(sql)), *of_others()]:
        found.setdefault(re.search(r'utd\.(\w+)', text)[1], []).append(text)
    return found


FUNCTIONS = all_functions()


def called(text):
    return set(re.findall(r'\butd\.(\w+)', text)) & FUNCTIONS.keys()


def needed(text):
    """What has to stand before a translated script: what it calls, and what that calls."""
    names, fresh = set(), called(text)
    while fresh:
        names |= fresh
        fresh = called('\n'.join(body for name in fresh for body in FUNCTIONS[name])) - names
    found = [EXTENSION] if 'USING gist' in text else []
    if names:
        found += [SCHEMA, *(body for name in FUNCTIONS if name in names for body in FUNCTIONS[name])]
    return '\n'.join(found)
