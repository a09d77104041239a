"""Relational expressions that look into intervals, by the ends of these alone.

On one attribute the points of equal rows are a multirange, which range_agg makes and the operators of multiranges join and part. What changes with the point
is worked out between the points at which it may change. On several attributes rows are cut on all but the first, so that what they have there is equal or
apart, and the operator is then one on the first attribute alone. The answer is packed.
"""
from kinds import by_bytes, columns_of, identifiers, quoted
from relations import PLAIN, RELATIONS, Relation, aggregates_of, equal, extended, from_alias, from_columns, grouped, interval_list, kept_by
from relations import limited, listed, nested, of_table, projected, relation_of, restricted, same_heading, same_kinds, summarized, values_set
from scalars import condition_of, named_of, over, scalar_of, swept
from syntax import Refusal

# columns and tables that are made on the way have names that no attribute has
POINT, NUMBER, CELL, PLACE, LEVEL, BLOCK = '"the point"', '"the number"', '"the cell"', '"the place"', '"the level"', '"the block"'
STARTS, STOPS, FIRST, BEHIND = '"the starts"', '"the stops"', '"the first"', '"the one behind"'


def others_of(heading, *names):
    """The attributes besides these."""
    return [name for name in heading if name not in names]


def comma_list(names):
    """Columns, each with the comma behind it."""
    return ''.join(f'{quoted(name)}, ' for name in by_bytes(names))


def with_parts(heading, parts, sql):
    """A SELECT behind the tables of a WITH, each a name and its SELECT."""
    tables = ',\n'.join(f'{name} AS {nested(part)}' for name, part in parts)
    return Relation(heading, f'WITH {tables}\n{sql}')


# ---------------------------------------------------------------- PACK and UNPACK

def packed_on(relation, name):
    """Packed on one attribute."""
    others = others_of(relation.heading, name)
    columns = from_columns(others) | {name: f'unnest(range_agg({quoted(name)}))'}
    return Relation(relation.heading, f'SELECT {listed(columns)}\nFROM {relation.source} t\n{grouped(others)}', packed=(name,))


def packed(relation, names):
    """Packed on a list: on the first attribute, point by point of the others, and so on."""
    if not names or relation.is_packed(names):
        return relation
    if len(names) == 1:
        return packed_on(relation, names[0])
    *before, last = names
    cut = cut_on(relation, last, others_of(relation.heading, *names))
    found = packed_on(packed(cut, before), last)
    return Relation(found.heading, found.sql, packed=tuple(names))


def ends_sql(sources, name, group):
    """For each group the points at which an interval of it begins or has ended."""
    every = '\nUNION ALL\n'.join(
        f'SELECT {comma_list(group)}{end}({quoted(name)}) AS {POINT} FROM {source} t'
        for source in sources for end in ('lower', 'upper')
    )
    return f'SELECT {comma_list(group)}array_agg(DISTINCT {POINT}) AS ends\nFROM {nested(every)} t\n{grouped(group)}'


def cut_sql(heading, source, ends, name, group):
    """The rows, cut on an attribute at the ends of their group."""
    columns = from_alias(heading, 't') | {name: 'part.part'}
    return (f'SELECT {listed(columns)}\nFROM {source} t JOIN {ends} e ON {equal(group, "t", "e")}'
            f' CROSS JOIN LATERAL utd.parts(t.{quoted(name)}, e.ends) part')


def cut_on(relation, name, group):
    """The relation, cut on an attribute at the ends that rows with the same values of the group have there."""
    parts = [('"the rows"', relation.sql), ('"the ends"', ends_sql(['"the rows"'], name, group))]
    return with_parts(relation.heading, parts, cut_sql(relation.heading, '"the rows"', '"the ends"', name, group))


def unpacked(relation, names):
    """A row for each point."""
    if not names:
        return relation
    columns = from_alias(relation.heading, 't') | {name: f'p{number}.p{number}' for number, name in enumerate(names)}
    points = ''.join(f' CROSS JOIN LATERAL utd.points(t.{quoted(name)}) p{number}' for number, name in enumerate(names))
    return Relation(relation.heading, f'SELECT DISTINCT {listed(columns)}\nFROM {relation.source} t{points}', packed=None)


def pack_on(names, word, operand, attributes):
    relation = relation_of(operand, names)
    interval_list(attributes, relation)
    return packed(relation, attributes) if word == 'Pack' else unpacked(relation, attributes)


# ---------------------------------------------------------------- operators of two relations on one attribute

def pieces_of(relation, name, others):
    """For each value of the other attributes their points, as a multirange."""
    if any(key <= set(others) for key in relation.keys):
        columns = from_columns(others) | {name: f'{relation.heading[name].points.multirange}({quoted(name)})'}
        return nested(f'SELECT {listed(columns)}\nFROM {relation.source} t')
    columns = from_columns(others) | {name: f'range_agg({quoted(name)})'}
    return nested(f'SELECT {listed(columns)}\nFROM {relation.source} t\n{grouped(others)}')


def common_of(left, right, name):
    return [other for other in left.heading if other in right.heading and other != name]


def lists_of(relation, name, common):
    """For each value of the common attributes the first and the last points of their pieces, in order."""
    pieces = f'SELECT {comma_list(common)}unnest(range_agg({quoted(name)})) AS {CELL} FROM {relation.source} t {grouped(common)}'
    lists = ', '.join(f'array_agg({end}({CELL}) ORDER BY {CELL}) AS {ends}' for end, ends in (('lower', STARTS), ('utd.last', STOPS)))
    return nested(f'SELECT {comma_list(common)}{lists}\nFROM {nested(pieces)} t\n{grouped(common)}')


def sought(left, right, name, join_word, function):
    """The pieces of each row of the left one that a function finds by the ordered pieces of the right one with the same common attributes."""
    common = common_of(left, right, name)
    columns = from_alias(left.heading, 'l') | {name: 'p.p'}
    lists = ', '.join(f"coalesce(r.{ends}, '{{}}')" for ends in (STARTS, STOPS))
    sql = (f'SELECT {listed(columns)}\nFROM {packed(left, [name]).source} l {join_word} {lists_of(right, name, common)} r ON {equal(common)}'
           f' CROSS JOIN LATERAL utd.{function}(l.{quoted(name)}, {lists}) p')
    return Relation(left.heading, sql, packed=(name,))


def meeting(left, right, name):
    """What the left one says where the right one has a partner."""
    common = common_of(left, right, name)
    if len(common) + 1 < len(left.heading):
        return sought(left, right, name, 'JOIN', 'inside')
    column = quoted(name)
    columns = from_alias(left.heading, 'l') | {name: f'unnest(l.{column} * r.{column})'}
    return Relation(left.heading, f'SELECT {listed(columns)}\nFROM {pieces_of(left, name, others_of(left.heading, name))} l'
                    f' JOIN {pieces_of(right, name, common)} r ON {equal(common)} AND l.{column} && r.{column}', packed=(name,))


def remaining(left, right, name):
    """What the left one says where the right one has no partner."""
    common = common_of(left, right, name)
    if len(common) + 1 < len(left.heading):
        return sought(left, right, name, 'LEFT JOIN', 'outside')
    column = quoted(name)
    columns = from_alias(left.heading, 'l') | {name: f"unnest(l.{column} - coalesce(r.{column}, '{{}}'))"}
    return Relation(left.heading, f'SELECT {listed(columns)}\nFROM {pieces_of(left, name, others_of(left.heading, name))} l'
                    f' LEFT JOIN {pieces_of(right, name, common)} r ON {equal(common)}', packed=(name,))


def joining(left, right, name):
    """What both say, for the points at which both hold."""
    common = common_of(left, right, name)
    column = quoted(name)
    heading = limited(left.heading | right.heading)
    columns = from_alias(right.heading, 'r') | from_alias(left.heading, 'l') | {name: f'unnest(l.{column} * r.{column})'}
    return Relation(heading, f'SELECT {listed(columns)}\nFROM {pieces_of(left, name, others_of(left.heading, name))} l'
                    f' JOIN {pieces_of(right, name, others_of(right.heading, name))} r ON {equal(common)} AND l.{column} && r.{column}', packed=(name,))


def uniting(left, right, name):
    """What either of them says."""
    return packed_on(Relation(left.heading, f'{nested(left.sql)}\nUNION ALL\n{nested(right.sql)}'), name)


BY_POINTS = {'Union': uniting, 'Intersect': meeting, 'Minus': remaining, 'Join': joining, 'Matching': meeting, 'NotMatching': remaining}


def over_cells(left, right, attributes, operate):
    """An operator on several attributes: both sides are cut on all but the first, which are then attributes like any other."""
    group = [name for name in left.heading if name in right.heading and name not in attributes]
    parts = [('"the left"', left.sql), ('"the right"', right.sql)]
    sides = ['"the left"', '"the right"']
    for number, name in enumerate(attributes[1:], 2):
        ends, cut = f'"the ends {number}"', [f'{side[:-1]} {number}"' for side in ('"the left"', '"the right"')]
        parts.append((ends, ends_sql(sides, name, group)))
        parts += [(new, cut_sql(side.heading, old, ends, name, group)) for new, old, side in zip(cut, sides, (left, right))]
        sides = cut
    found = operate(of_table(left.heading, sides[0]), of_table(right.heading, sides[1]), attributes[0])
    return packed(with_parts(found.heading, parts, found.sql), attributes)


def by_points(word, left, right, attributes):
    """An operator of two relations under USING."""
    (same_heading if word in ('Union', 'Intersect', 'Minus') else same_kinds)(left, right)
    if not attributes:
        return PLAIN[word](left, right)
    if len(attributes) == 1:
        return BY_POINTS[word](left, right, attributes[0])
    if word == 'Union':
        return packed(PLAIN[word](left, right), attributes)
    return over_cells(left, right, attributes, BY_POINTS[word])


# ---------------------------------------------------------------- operators of one relation

def using_infix(names, attributes, left, word, right):
    left, right = relation_of(left, names), relation_of(right, names)
    interval_list(attributes, left, right)
    return by_points(word, left, right, attributes)


def using_not_matching(names, attributes, left, right):
    return using_infix(names, attributes, left, 'NotMatching', right)


def kept_whole(attributes, kept):
    for name in attributes:
        if name not in kept:
            raise Refusal('E19', f'{name} is not kept')


def using_project(names, attributes, operand, projection):
    relation = relation_of(operand, names)
    interval_list(attributes, relation)
    kept = kept_by(projection, relation.heading)
    kept_whole(attributes, kept)
    return packed(projected(relation, kept), attributes)


def cut_where_it_changes(relation, trees, attributes, types):
    """The relation, cut where a comparison with an attribute of the list may change, and what the attributes stand for there."""
    changes = {name: [] for name in attributes}
    quiet = over(relation.heading, types, 't', quiet=True)
    for tree in trees:
        for name, other in swept(tree, attributes):
            changes[name].append(f'utd.changes({scalar_of(other, quiet).sql})')
    columns, laterals = from_alias(relation.heading, 't'), ''
    for number, name in enumerate(name for name in attributes if changes[name]):
        columns[name] = f'part{number}.part{number}'
        laterals += f' CROSS JOIN LATERAL utd.parts(t.{quoted(name)}, {" || ".join(changes[name])}) part{number}'
    references = {name: f'utd.first({quoted(name)})' for name in attributes}
    cut = Relation(relation.heading, f'SELECT {listed(columns)}\nFROM {relation.source} t{laterals}\nOFFSET 0')
    return cut, over(relation.heading, types, references=references)


def where_points(relation, attributes, tree, types):
    """What holds of a condition at each point."""
    condition_of(tree, over(relation.heading, types))
    swept(tree, attributes)
    if not named_of(tree, attributes):
        return packed(restricted(relation, tree, types), attributes)
    cut, scope = cut_where_it_changes(relation, [tree], attributes, types)
    sql = f'SELECT {identifiers(columns_of(relation.heading))}\nFROM {cut.source} t\nWHERE {condition_of(tree, scope).sql}'
    return packed(Relation(relation.heading, sql), attributes)


def extend_points(relation, attributes, sets, types):
    """Values that change with the point."""
    values_set(sets, over(relation.heading, types))
    trees = [tree for _, _, tree in sets]
    for _, name, _ in sets:
        if name in attributes:
            raise Refusal('E19', f'{name} is set')
    for tree in trees:
        swept(tree, attributes)
    if not any(named_of(tree, attributes) for tree in trees):
        return packed(extended(relation, sets, types), attributes)
    cut, scope = cut_where_it_changes(relation, trees, attributes, types)
    values = values_set(sets, scope)
    heading = limited(relation.heading | {name: value.kind for name, value in values.items()})
    columns = from_columns(relation.heading) | {name: value.sql for name, value in values.items()}
    return packed(Relation(heading, f'SELECT {listed(columns)}\nFROM {cut.source} t\nOFFSET 0'), attributes)


def using_filter(names, attributes, operand, tree):
    relation = relation_of(operand, names)
    interval_list(attributes, relation)
    if not attributes:
        return restricted(relation, tree, names.types)
    return where_points(relation, attributes, tree, names.types)


def using_extend(names, attributes, operand, sets):
    relation = relation_of(operand, names)
    interval_list(attributes, relation)
    if not attributes:
        return extended(relation, sets, names.types)
    return extend_points(relation, attributes, sets, names.types)


# ---------------------------------------------------------------- SUMMARIZE under USING

def using_summarize(names, attributes, operand, kept, trees):
    relation = relation_of(operand, names)
    interval_list(attributes, relation)
    found = aggregates_of(relation, kept, trees, over(relation.heading, names.types, 't'))
    kept_whole(attributes, kept)
    for _, _, tree in trees:
        if tree[0] == 'AggregateOf' and named_of(tree[2], attributes):
            raise Refusal('E18', 'an aggregate names an attribute of the list')
    if not attributes:
        return summarized(relation, kept, trees, names.types)
    return packed(summed_points(packed(relation, attributes), attributes, kept, found), attributes)


def summed_points(relation, attributes, kept, found):
    """The aggregates at each point, of a packed relation, whose rows say nothing of one point twice."""
    first, *others = attributes
    group = others_of(kept, first)
    for number, name in enumerate(others):
        relation = cut_on(relation, name, others_of(group, *others[number:]))
    heading = {name: relation.heading[name] for name in kept} | {name: aggregate.kind for name, aggregate in found.items()}
    if all(aggregate.word in ('Count', 'Sum') for aggregate in found.values()):
        parts, sql = running(relation, first, group, found)
    else:
        parts, sql = covering(relation, first, group, found)
    return with_parts(heading, parts, sql)


def window(group):
    by = f'PARTITION BY {identifiers(by_bytes(group))} ' if group else ''
    return f'({by}ORDER BY {POINT})'


def running(relation, name, group, found):
    """Counts and sums: what begins and ends at each point, added up."""
    column, points = quoted(name), relation.heading[name].points
    values = {f'"the sum {number}"': aggregate.value for number, aggregate in enumerate(found.values()) if aggregate.word == 'Sum'}
    begun = ''.join(f', ({value.sql})::numeric AS {total}' for total, value in values.items())
    ended = ''.join(f', -({value.sql})::numeric' for value in values.values())
    changes = (f'SELECT {comma_list(group)}lower({column}) AS {POINT}, 1 AS {NUMBER}{begun} FROM "the rows" t\nUNION ALL\n'
               f'SELECT {comma_list(group)}upper({column}), -1{ended} FROM "the rows" t WHERE NOT upper_inf({column})')
    totals = ''.join(f', sum({total}) AS {total}' for total in [NUMBER, *values])
    added = ''.join(f', sum({total}) OVER w AS {total}' for total in [NUMBER, *values])
    cells = (f'SELECT {comma_list(group)}{points.range}({POINT}, lead({POINT}) OVER w) AS {column}{added}\n'
             f'FROM {nested(f"SELECT {comma_list(group)}{POINT}{totals} FROM {nested(changes)} t GROUP BY {comma_list(group)}{POINT}")} t\n'
             f'WINDOW w AS {window(group)}')
    columns = from_columns([*group, name])
    for number, (other, aggregate) in enumerate(found.items()):
        columns[other] = f'{NUMBER}::int8' if aggregate.word == 'Count' else f'"the sum {number}"::int8'
    return [('"the rows"', relation.sql)], f'SELECT {listed(columns)}\nFROM {nested(cells)} t\nWHERE {NUMBER} > 0'


def covering(relation, name, group, found):
    """Any aggregates. The points at which a row of the group begins or ends make cells, which are numbered. A row covers some cells in a row, which fall into few
    blocks of a power of two of them; the aggregates of each block are those of the rows that have it, and those of a cell come from the blocks it is in."""
    column, points = quoted(name), relation.heading[name].points
    ends = f'SELECT {comma_list(group)}lower({column}) AS {POINT} FROM "the rows" t\nUNION\nSELECT {comma_list(group)}upper({column}) FROM "the rows" t'
    by = f'PARTITION BY {identifiers(by_bytes(group))}' if group else ''
    cells = (f'SELECT {comma_list(group)}{POINT}, {points.range}({POINT}, lead({POINT}) OVER {window(group)}) AS {CELL},'
             f' row_number() OVER {window(group)} - 1 AS {PLACE}, count(*) OVER ({by}) AS {NUMBER}\nFROM {nested(ends)} t\nWHERE {POINT} IS NOT NULL')
    parts = [('"the rows"', relation.sql), ('"the cells"', cells), ('"the spans"', spans(column, group)), ('"the blocks"', blocks(group, found))]
    return parts, over_blocks(name, group, found)


def spans(column, group):
    """The rows with the number of the first cell that they cover, and of the one behind the last."""
    return (f'SELECT t.*, f.{PLACE} AS {FIRST}, coalesce(e.{PLACE}, f.{NUMBER}) AS {BEHIND}\n'
            f'FROM "the rows" t JOIN "the cells" f ON {equal(group, "t", "f")} AND f.{POINT} = lower(t.{column})'
            f' LEFT JOIN "the cells" e ON {equal(group, "t", "e")} AND e.{POINT} = upper(t.{column})\nOFFSET 0')


def blocks(group, found):
    """The aggregates of blocks: of the rows that have them."""
    columns = from_alias(group, 't') | {f'the value {number}': aggregate.exact for number, aggregate in enumerate(found.values())}
    by = ''.join(f't.{quoted(other)}, ' for other in by_bytes(group))
    return (f'SELECT b.level AS {LEVEL}, b.block AS {BLOCK}, {listed(columns)}\n'
            f'FROM "the spans" t CROSS JOIN LATERAL utd.blocks(t.{FIRST}, t.{BEHIND}) b\nGROUP BY {by}b.level, b.block')


def over_blocks(name, group, found):
    """The aggregates of cells: of the blocks that they are in."""
    columns = from_alias(group, 'c') | {name: f'c.{CELL}'}
    for number, (other, aggregate) in enumerate(found.items()):
        columns[other] = aggregate.over(f'b."the value {number}"')
    by = ', '.join([*(f'c.{quoted(other)}' for other in by_bytes(group)), f'c.{CELL}'])
    return (f'SELECT {listed(columns)}\nFROM "the cells" c CROSS JOIN LATERAL utd.levels(c.{NUMBER}) k'
            f' JOIN "the blocks" b ON {equal(group, "c", "b")} AND b.{LEVEL} = k.k AND b.{BLOCK} = c.{PLACE} >> k.k\nGROUP BY {by}')


# a later form is one more function here
USING = {
    'UsingInfix': using_infix, 'UsingNotMatching': using_not_matching, 'UsingProject': using_project, 'UsingFilter': using_filter,
    'Extend': using_extend, 'Summarize': using_summarize,
}


def using(names, attributes, part):
    return USING[part[0]](names, attributes, *part[1:])


RELATIONS.update({'PackOn': pack_on, 'Using': using})
