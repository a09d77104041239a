# The table in Greibach form: for each form, and for the rest of each that has begun, the tokens that may stand next.
from grammar import *

# symbol -> its rows, and what else is known of it
TABLE = {}

# how a token is taken: plainly, as an operator, as a comma, as an integer behind its `-`, as the text of a date, as the
# text of a moment; where it opens a level, and where an operator does
PLAIN, OPERATOR, SEPARATOR, NEGATED, DATED, TIMED, LEVEL, OPERATOR_LEVEL = 'P', 'O', 'S', 'N', 'D', 'T', 'L', 'OL'
# in the order in which a row's whole is written: what stands before it, and its token
BEFORE, TOKEN = 'G', 'T'
# the name that a token is
HERE = 'word p b'


# ---- rows: `make` is what a row makes of the place p and the bytes b of its token and of the values $0, $1 .. of
# the symbols that follow it; `mark`, what is kept of the token; `sequence`, in what order the whole is written where
# that is not token and symbols

def on(terminal, make, *symbols, taking=PLAIN, inner=None, mark='at', sequence=None):
    """The token, and then these symbols."""
    return ('on', terminal, taking, inner, list(symbols), make, mark, sequence)


def opens(terminal, make, inner, *symbols, taking=LEVEL, mark='at', sequence=None):
    """The token opens a level, which ends behind the inner symbols; then these symbols."""
    return ('on', terminal, taking, list(inner), list(symbols), make, mark, sequence)


def spelt(word, make, *symbols, sequence=None):
    """The name that is spelled so, and then these symbols; it stands before the row for any name, if there is one."""
    return ('spelt', word, PLAIN, None, list(symbols), make, 'spelled', sequence)


def over(symbol, make):
    """The rows of another symbol."""
    return ('over', symbol, make)


def then(symbol, rest, make):
    """The rows of another symbol, and then this rest."""
    return ('then', symbol, rest, make)


def before(terminal, following, case_before, case_else):
    """The token, by whether that one follows it."""
    return ('before', terminal, following, case_before, case_else)


def case(make, *symbols, taking=PLAIN, inner=None, mark='at'):
    return (taking, inner, list(symbols), make, mark, None)


def just(terminal):
    return ('Just', terminal)


def worded(word):
    return ('Worded', word)


def applied(number, arguments, sequence):
    """The rest `$number`, applied to these arguments, behind what is written in this order."""
    return ('A', number, arguments, sequence)


def loose(number):
    """The word `$number`, of which no place is kept."""
    return ('loose', number)


# ---- symbols with their rows; `at_end` is the value where the symbol ends before its first token

def part_rows(symbol, typ, tokens, *rows, at_end=None):
    """A symbol with values of this type, which are written as these tokens."""
    TABLE[symbol] = {'kind': 'form', 'type': typ, 'marks': tokens, 'rows': list(rows), 'ends': at_end}


def form_rows(name, *rows, at_end=None):
    form = FORMS[name]
    part_rows(form['symbol'], form['type'], f'of_{name} v', *rows, at_end=at_end)


def rest_rows(symbol, parameters, prefix, result, result_type, *rows, at_end=None):
    """The rest of a form: it makes the whole of these parameters, which were written as the prefix."""
    TABLE[symbol] = {
        'kind': 'after', 'params': parameters, 'prefix': prefix, 'result': result, 'restype': result_type,
        'rows': list(rows), 'ends': at_end,
    }


def more_rows(name, item):
    """Items that each stand behind a comma."""
    symbols = [FORMS[item]['symbol'], FORMS[name]['symbol']]
    form_rows(name, on('Comma', '$0 ∷ $1', *symbols, taking=SEPARATOR, mark='fixed'), at_end='[]')


def bracket_rows(symbol, items, close, first):
    """The items of a list in brackets, with the bracket that closes it."""
    part_rows(symbol, LISTS[items][0], f'of_{items} v ++ token t.{close}', on(close, '[]', mark='fixed'), first)


# ---- names and literals

form_rows('name', on('Name', HERE, mark='spelled'))
part_rows('Comma', 'Unit {0}', 'token t.Comma', on('Comma', 'tt', taking=SEPARATOR, mark='fixed'))

part_rows('DateText', 'Word', 'lexeme t.Quoted v.place v.bytes',
    on('Quoted', HERE, taking=DATED, mark='spelled'),
)

part_rows('MomentText', 'Word', 'lexeme t.Quoted v.place v.bytes',
    on('Quoted', HERE, taking=TIMED, mark='spelled'),
)

part_rows('NegativeDigits', 'Word', 'lexeme t.Digits v.place v.bytes',
    on('Digits', HERE, taking=NEGATED, mark='spelled'),
)

# ---- scalars

form_rows('primary',
    on('Digits', 'IntegerLiteral p b', mark='spelled'),
    on('Quoted', 'TextLiteral p b', mark='spelled'),
    on('Date', 'DateLiteral p $0.place $0.bytes', 'DateText'),
    on('Moment', 'MomentLiteral p $0.place $0.bytes', 'MomentText'),
    on('True', 'TrueLiteral p'),
    on('False', 'FalseLiteral p'),
    on('Name', '$0 (word p b)', 'AfterName', mark='spelled', sequence=[applied(0, ['word p b'], [TOKEN])]),
    opens('Open', '$1 p $0', ['TheScalar', 'AfterScalar'], sequence=[applied(1, ['p', '$0'], [TOKEN, 0])]),
    opens('OpenBracket', 'Selector p begin_brackets.Closed $0 $2 $3',
        ['TheScalar', just('Colon'), 'TheScalar', 'EndOfSelector'],
    ),
    *[on(x, f'Extreme p extremes.{x} $0', 'InPoint') for x in ('First', 'Last')],
    *[on(x, f'Function p functions.{x} $0', 'InParens') for x, _ in CHOICES['function'][1]],
    *[on(x, f'PairFunction p pair_functions.{x} $0.0 $0.1', 'InPair') for x, _ in CHOICES['pair_function'][1]],
)

rest_rows('AfterName', [('w', 'Word')], 'word_of w', 'of_primary', 'PrimaryP',
    on('Dot', 'Dotted w $0', 'TheName', mark='fixed'),
    at_end='AttributeName w',
)

rest_rows('AfterScalar', [('q', 'Place'), ('s', 'ScalarP')], 'placed t.Open q ++ of_scalar s',
    'of_primary',
    'PrimaryP',
    on('Close', 'Paren q s', mark='fixed'),
    on('Colon', 'Selector q begin_brackets.Open s $0 $1', 'TheScalar', 'EndOfSelector', mark='fixed'),
)

part_rows('EndOfSelector', 'EndBracket', 'token (end_bracket v)',
    on('CloseBracket', 'end_brackets.Closed', mark='fixed'),
    on('Close', 'end_brackets.Open', mark='fixed'),
)

part_rows('InParens', 'ScalarP', 'token t.Open ++ of_scalar v ++ token t.Close',
    opens('Open', '$0', ['TheScalar', just('Close')], mark='fixed'),
)

part_rows('InPair', 'ScalarP × ScalarP',
    'token t.Open ++ of_scalar v.0 ++ token t.Comma ++ of_scalar v.1 ++ token t.Close',
    opens('Open', '($0, $2)', ['TheScalar', 'Comma', 'TheScalar', just('Close')], mark='fixed'),
)

part_rows('InPoint', 'PointP', 'token t.Open ++ of_point v ++ token t.Close',
    opens('Open', '$0', ['ThePoint', just('Close')], mark='fixed'),
)

form_rows('sign',
    before(
        'Dash',
        'Digits',
        case('NegativeInteger p $0.place $0.bytes', 'NegativeDigits'),
        case('Negate p $0', taking=LEVEL, inner=['TheSign'], mark='apart'),
    ),
    over('ThePrimary', 'OnePrimary $0'),
)

form_rows('prod', then('TheSign', 'MoreProd', '$1 (OneSign $0)'))

rest_rows('MoreProd', [('x', 'ProdP')], 'of_prod x', 'of_prod', 'ProdP',
    *[
        on(t, f'$1 (Multiply x p product_words.{v} $0)', 'TheSign', 'MoreProd',
            taking=OPERATOR,
            sequence=[applied(1, [f'Multiply x p product_words.{v} $0'], [BEFORE, TOKEN, 0])],
        )
        for v, t in CHOICES['product_word'][1]
    ],
    at_end='x',
)

form_rows('sum', then('TheProd', 'MoreSum', '$1 (OneProd $0)'))

rest_rows('MoreSum', [('x', 'SumP')], 'of_sum x', 'of_sum', 'SumP',
    *[
        on(t, f'$1 (Add x p sum_words.{v} $0)', 'TheProd', 'MoreSum',
            taking=OPERATOR,
            sequence=[applied(1, [f'Add x p sum_words.{v} $0'], [BEFORE, TOKEN, 0])],
        )
        for v, t in CHOICES['sum_word'][1]
    ],
    at_end='x',
)

form_rows('cmp', then('TheSum', 'MoreCmp', '$1 $0'))

rest_rows('MoreCmp', [('x', 'SumP')], 'of_sum x', 'of_cmp', 'CmpP',
    *[
        on(t, f'Compare x p comparisons.{v} $0', 'TheSum', taking=OPERATOR)
        for v, t in CHOICES['comparison'][1]
    ],
    at_end='OneSum x',
)

form_rows('neg', opens('Not', 'Not p $0', ['TheNeg']), over('TheCmp', 'OneCmp $0'))
form_rows('conj', then('TheNeg', 'MoreAnd', '$1 (OneNeg $0)'))

rest_rows('MoreAnd', [('x', 'ConjP')], 'of_conj x', 'of_conj', 'ConjP',
    on('And', '$1 (And x p $0)', 'TheNeg', 'MoreAnd',
        taking=OPERATOR,
        sequence=[applied(1, ['And x p $0'], [BEFORE, TOKEN, 0])],
    ),
    at_end='x',
)

form_rows('scalar', then('TheConj', 'MoreOr', '$1 (OneConj $0)'))

rest_rows('MoreOr', [('x', 'ScalarP')], 'of_scalar x', 'of_scalar', 'ScalarP',
    on('Or', '$1 (Or x p $0)', 'TheConj', 'MoreOr',
        taking=OPERATOR,
        sequence=[applied(1, ['Or x p $0'], [BEFORE, TOKEN, 0])],
    ),
    at_end='x',
)

# ---- headings and lists

form_rows('point',
    on('Integer', 'IntegerType p'),
    on('Date', 'DateType p'),
    on('Moment', 'MomentType p'),
    on('Name', 'NamedType (word p b)', mark='spelled'),
)

form_rows('kind',
    on('Boolean', 'BooleanKind p'),
    on('Char', 'CharKind p'),
    on('Interval', 'IntervalKind p $0', 'InPoint'),
    over('ThePoint', 'PointKind $0'),
)

form_rows('attribute', on('Name', 'Attribute (word p b) $0', 'TheKind', mark='spelled'))
more_rows('more_attributes', 'attribute')

bracket_rows('InHeading', 'attributes', 'CloseBrace',
    on('Name', 'Attribute (word p b) $0 ∷ $1', 'TheKind', 'MoreAttributes',
        just('CloseBrace'),
        mark='spelled',
    ),
)

form_rows('heading', opens('OpenBrace', 'Heading p $0', ['InHeading']))
more_rows('more_words', 'name')

bracket_rows('InNames', 'words', 'CloseBrace',
    on('Name', 'word p b ∷ $0', 'MoreNames', just('CloseBrace'), mark='spelled'),
)

bracket_rows('InList', 'words', 'Close',
    on('Name', 'word p b ∷ $0', 'MoreNames', just('Close'), mark='spelled'),
)

form_rows('names', opens('OpenBrace', 'Names p $0', ['InNames']))
form_rows('list', opens('Open', 'NameList p $0', ['InList']))
form_rows('some_names', opens('OpenBrace', 'SomeNames p $0 $1', ['TheName', 'MoreNames', just('CloseBrace')]))
form_rows('paren_name', opens('Open', '$0', ['TheName', just('Close')], mark='fixed'))
form_rows('element', on('Name', 'Element (word p b) $0', 'TheScalar', mark='spelled'))
more_rows('more_elements', 'element')

bracket_rows('InElements', 'element_list', 'CloseBrace',
    on('Name', 'Element (word p b) $0 ∷ $1', 'TheScalar', 'MoreElements', just('CloseBrace'), mark='spelled'),
)

form_rows('elements', opens('OpenBrace', 'Elements p $0', ['InElements']))

form_rows('some_elements',
    opens('OpenBrace', 'SomeElements p $0 $1', ['TheElement', 'MoreElements', just('CloseBrace')]),
)

form_rows('tuple', on('Tuple', 'Tuple p $0', 'TheElements'))
more_rows('more_tuples', 'tuple')

bracket_rows('InTuples', 'tuple_list', 'CloseBrace',
    on('Tuple', 'Tuple p $0 ∷ $1', 'TheElements', 'MoreTuples', just('CloseBrace')),
)

form_rows('tuples', opens('OpenBrace', '$0', ['InTuples'], mark='fixed'))
form_rows('literal', on('Relation', '$0 p', 'AfterRelation', sequence=[applied(0, ['p'], [TOKEN])]))

rest_rows('AfterRelation', [('q', 'Place')], 'placed t.Relation q', 'of_literal', 'LiteralP',
    before(
        'OpenBrace',
        'Tuple',
        case(
            'Tuples q $0 $1',
            taking=LEVEL,
            inner=['TheTuple', 'MoreTuples', just('CloseBrace')],
            mark='fixed',
        ),
        case('Headed q (Heading p $0) $1', 'TheTuples', taking=LEVEL, inner=['InHeading']),
    ),
)

form_rows('set_item', on('Name', 'SetItem (word p b) $1', just('Assign'), 'TheScalar', mark='spelled'))
more_rows('more_set_items', 'set_item')
form_rows('sets', opens('OpenBrace', 'Sets p $0 $1', ['TheSetItem', 'MoreSetItems', just('CloseBrace')]))

part_rows('EmptyParens', 'Unit {0}', 'token t.Open ++ token t.Close',
    opens('Open', 'tt', [just('Close')], mark='fixed'),
)

form_rows('aggregate_form',
    on('Count', 'CountRows p', 'EmptyParens'),
    *[on(t, f'AggregateOf p aggregate_words.{v} $0', 'InParens') for v, t in CHOICES['aggregate_word'][1]],
)

form_rows('aggregate',
    on('Name', 'Aggregate (word p b) $1', just('Assign'), 'TheAggregateForm', mark='spelled'),
)

more_rows('more_aggregates', 'aggregate')

form_rows('aggregates',
    opens('OpenBrace', 'Aggregates p $0 $1', ['TheAggregate', 'MoreAggregates', just('CloseBrace')]),
)

form_rows('renaming', on('Name', 'Renaming (word p b) $1', just('As'), 'TheName', mark='spelled'))
more_rows('more_renamings', 'renaming')

form_rows('renamings',
    opens('OpenBrace', 'Renamings p $0 $1', ['TheRenaming', 'MoreRenamings', just('CloseBrace')]),
)

form_rows('portion', on('Portion', 'Portion p $0', 'TheSomeElements'))
form_rows('maybe_portion', on('Portion', 'OfPortion p $0', 'TheSomeElements'), at_end='NoPortion')
form_rows('condition', on('Where', 'Where p $0', 'TheScalar'), at_end='NoCondition')

rest_rows('InProjection', [('q', 'Place')], 'placed t.OpenBrace q', 'of_projection', 'ProjectionP',
    on('CloseBrace', 'Onto q []', mark='fixed'),
    on('Name', 'Onto q (word p b ∷ $0)', 'MoreNames', just('CloseBrace'), mark='spelled'),
    on('All', 'AllBut q $1 $2', just('But'), 'TheName', 'MoreNames', just('CloseBrace'), mark='fixed'),
)

# ---- relations

form_rows('operand',
    on('Name', 'Relvar (word p b)', mark='spelled'),
    over('TheLiteral', 'OfLiteral $0'),
    opens('Open', 'ParenRel p $0', ['TheRel', just('Close')]),
    *[
        opens(t, f'PackOn p pack_words.{v} $0 $2', ['TheRel', just('On'), 'TheList'])
        for v, t in CHOICES['pack_word'][1]
    ],
)

form_rows('extend', opens('Extend', 'Extend p $0 $2', ['TheRel', just('Colon'), 'TheSets']))

form_rows('summarize',
    opens('Summarize', 'Summarize p $0 $2 $4',
        ['TheRel', just('By'), 'TheNames', just('Colon'), 'TheAggregates'],
    ),
)

form_rows('rel_primary',
    over('TheExtend', 'OfExtend $0'),
    over('TheSummarize', 'OfSummarize $0'),
    over('TheOperand', 'OfOperand $0'),
)

form_rows('term', then('TheRelPrimary', 'MorePostfix', '$1 (OneRelPrimary $0)'))

rest_rows('MorePostfix', [('x', 'TermP')], 'of_term x', 'of_term', 'TermP',
    opens('OpenBrace', '$1 (Project x ($0 p))', ['InProjection'], 'MorePostfix',
        taking=OPERATOR_LEVEL,
        sequence=[applied(1, ['Project x ($0 p)'], [BEFORE, applied(0, ['p'], [TOKEN])])],
    ),
    on('Where', '$1 (Filter x p $0)', 'TheScalar', 'MorePostfix',
        taking=OPERATOR,
        sequence=[applied(1, ['Filter x p $0'], [BEFORE, TOKEN, 0])],
    ),
    on('Rename', '$1 (Rename x p $0)', 'TheRenamings', 'MorePostfix',
        taking=OPERATOR,
        sequence=[applied(1, ['Rename x p $0'], [BEFORE, TOKEN, 0])],
    ),
    at_end='x',
)

form_rows('terms', then('TheTerm', 'MoreInfix', '$1 (OneTerm $0)'))

rest_rows('MoreInfix', [('x', 'TermsP')], 'of_terms x', 'of_terms', 'TermsP',
    *[
        on(t, f'$1 (Infix x p infixes.{v} $0)', 'TheTerm', 'MoreInfix',
            taking=OPERATOR,
            sequence=[applied(1, [f'Infix x p infixes.{v} $0'], [BEFORE, TOKEN, 0])],
        )
        for v, t in CHOICES['infix_word'][1]
    ],
    on('Not', '$2 (NotMatching x p $1)',
        just('Matching'),
        'TheTerm',
        'MoreInfix',
        taking=OPERATOR,
        sequence=[applied(2, ['NotMatching x p $1'], [BEFORE, TOKEN, 0, 1])],
    ),
    at_end='x',
)

form_rows('using', opens('Using', 'Using p $0 $2', ['TheList', just('Colon'), 'TheUsingPart']))
form_rows('rel', over('TheUsing', 'OfUsing $0'), over('TheTerms', 'OfTerms $0'))

form_rows('using_part',
    over('TheExtend', 'UsingExtend $0'),
    over('TheSummarize', 'UsingSummarize $0'),
    then('TheOperand', 'AfterOperand', '$1 $0'),
)

rest_rows('AfterOperand', [('x', 'OperandP')], 'of_operand x', 'of_using_part', 'UsingPartP',
    *[
        on(t, f'UsingInfix x p infixes.{v} $0', 'TheOperand', taking=OPERATOR)
        for v, t in CHOICES['infix_word'][1]
    ],
    on('Not', 'UsingNotMatching x p $1', just('Matching'), 'TheOperand', taking=OPERATOR),
    opens('OpenBrace', 'UsingProject x ($0 p)', ['InProjection'],
        sequence=[BEFORE, applied(0, ['p'], [TOKEN])],
    ),
    on('Where', 'UsingFilter x p $0', 'TheScalar'),
)

# ---- declarations

form_rows('key', on('Key', 'Key p $0', 'TheNames'))
form_rows('foreign', on('Foreign', 'Foreign p $1 $3', just('Key'), 'TheNames', just('References'), 'TheName'))
form_rows('used_constraint', over('TheKey', 'UsedKey $0'), over('TheForeign', 'UsedForeign $0'))

form_rows('constraint',
    over('TheKey', 'KeyOf $0'),
    over('TheForeign', 'ForeignOf $0'),
    on('Packed', 'PackedOn p $1', just('On'), 'TheList'),
    on('When', 'WhenUnpacked p $2 $4', just('Unpacked'), just('On'), 'TheList', just('Then'), 'TheKey'),
    opens('Using', 'UsingConstraint p $0 $2', ['TheList', just('Colon'), 'TheUsedConstraint']),
)

form_rows('constraints', then('TheConstraint', 'MoreConstraints', '$0 ∷ $1'), at_end='[]')

part_rows('InRel', 'RelP', 'token t.Open ++ of_rel v ++ token t.Close',
    opens('Open', '$0', ['TheRel', just('Close')], mark='fixed'),
)

form_rows('kept',
    opens('Using', '$3 p $0 $2', ['TheList', just('Colon'), 'TheName', 'AfterKept'],
        sequence=[applied(3, ['p', '$0', '$2'], [TOKEN, 0, 1, 2])],
    ),
    opens('Pack', 'KeptPack p $0 $2', ['TheName', just('On'), 'TheList']),
)

rest_rows('AfterKept', [('p0', 'Place'), ('a', 'NameListP'), ('l', 'Word')],
    'placed t.Using p0 ++ of_list a ++ token t.Colon ++ word_of l',
    'of_kept',
    'KeptP',
    *[
        on(t, f'KeptInfix p0 a l p infixes.{v} $0', 'TheName', taking=OPERATOR)
        for v, t in CHOICES['infix_word'][1]
    ],
    on('Not', 'KeptNotMatching p0 a l p $1', just('Matching'), 'TheName', taking=OPERATOR),
    opens('OpenBrace', 'KeptProject p0 a l ($0 p)', ['InProjection'],
        sequence=[BEFORE, applied(0, ['p'], [TOKEN])],
    ),
)

part_rows('InKept', 'KeptP', 'token t.Open ++ of_kept v ++ token t.Close',
    opens('Open', '$0', ['TheKept', just('Close')], mark='fixed'),
)

form_rows('var_form',
    on('Relation', 'BaseRelvar p $0 $1', 'TheHeading', 'MoreConstraints'),
    on('Virtual', 'View p $0', 'InRel'),
    spelt('KEPT', 'Kept p $0', 'InKept'),
)

# ---- tests and items

form_rows('comparison', then('TheOperand', 'AfterLeft', '$1 $0'))

rest_rows('AfterLeft', [('x', 'OperandP')], 'of_operand x', 'of_comparison', 'ComparisonP',
    *[
        on(t, f'Comparison x p relation_comparisons.{v} $0', 'TheOperand')
        for v, t in CHOICES['relation_comparison'][1]
    ],
)

form_rows('test',
    opens('Using', 'UsingTest p $0 $2', ['TheList', just('Colon'), 'TheComparison']),
    *[on(t, f'Emptiness p emptinesses.{v} $0', 'InRel') for v, t in CHOICES['emptiness'][1]],
    over('TheComparison', 'OfComparison $0'),
)

form_rows('used_deletion',
    on('Where', 'UsedDeleteWhere p $0', 'TheScalar'),
    over('TheRel', 'UsedDeleteRows $0'),
)

form_rows('used_item',
    on('Insert', 'UsedInsert p $0 $1', 'TheName', 'TheRel'),
    on('Delete', 'UsedDelete p $0 $1', 'TheName', 'TheUsedDeletion'),
    on('Update', 'UsedUpdate p $0 $1 $3', 'TheName', 'MaybeWhere', just('Colon'), 'TheSets'),
)

form_rows('deletion',
    on('Where', 'DeleteWhere p $0', 'TheScalar'),
    then('ThePortion', 'MaybeWhere', 'DeletePortion $0 $1'),
    over('TheRel', 'DeleteRows $0'),
)

form_rows('item',
    on('Name', 'SetRelvar (word p b) $1', just('Assign'), 'TheRel', mark='spelled'),
    on('Insert', 'Insert p $0 $1', 'TheName', 'TheRel'),
    on('Delete', 'Delete p $0 $1', 'TheName', 'TheDeletion'),
    on('Update', 'Update p $0 $1 $2 $4', 'TheName', 'MaybePortion', 'MaybeWhere', just('Colon'), 'TheSets'),
    on('Terminate', 'Terminate p $0 $1 $2 $3', 'TheName', worded('AT'), 'TheScalar', 'MaybeWhere'),
    opens('Using', 'UsingItem p $0 $2', ['TheList', just('Colon'), 'TheUsedItem']),
)

more_rows('more_items', 'item')
form_rows('assign', then('TheItem', 'MoreItems', 'Assign $0 $1'))

form_rows('statement',
    on('Semicolon', 'Nothing', mark='fixed'),
    on('TypeWord', 'DeclareOrdinal p $0 $2', 'TheName',
        worded('ORDINAL'),
        'TheSomeNames',
        just('Semicolon'),
        sequence=[TOKEN, 0, loose(1), 2, 3],
    ),
    on('Var', 'DeclareRelvar p $0 $1', 'TheName', 'TheVarForm', just('Semicolon')),
    on('History', 'DeclareHistory p $0 $1 $2 $4 $5 $7 $8 $10', 'TheName', 'TheHeading', 'TheKey',
        worded('SINCE'),
        'TheName',
        'TheParenName',
        worded('DURING'),
        'TheName',
        'TheParenName',
        worded('OVER'),
        'ThePoint',
        just('Semicolon'),
        sequence=[TOKEN, 0, 1, 2, loose(3), 4, 5, loose(6), 7, 8, loose(9), 10, 11],
    ),
    on('Constraint', 'DeclareRule p $0 $1', 'TheName', 'TheTest', just('Semicolon')),
    on('Drop', '$0 p', 'AfterDrop', sequence=[applied(0, ['p'], [TOKEN])]),
    on('Print', 'Print p $0', 'TheRel', just('Semicolon')),
    on('Ask', 'Ask p $0', 'TheTest', just('Semicolon')),
    spelt('LOG', '$0 p', 'AfterLog', sequence=[applied(0, ['p'], [TOKEN])]),
    then('TheAssign', just('Semicolon'), 'Assignment $0'),
)

rest_rows('AfterDrop', [('q', 'Place')], 'placed t.Drop q', 'of_statement', 'StatementP',
    on('Var', 'Drop q $0', 'TheName', just('Semicolon'), mark='fixed'),
    on('Constraint', 'DropRule q p $0', 'TheName', just('Semicolon')),
)

# an assignment to a relvar that is called LOG begins like a log
rest_rows('AfterLog', [('q', 'Place')], 'lexeme t.Name q log_word', 'of_statement', 'StatementP',
    on('Name', 'DeclareLog q (word p b) $1 $2',
        worded('OF'),
        'TheName',
        'TheParenName',
        just('Semicolon'),
        mark='spelled',
        sequence=[BEFORE, TOKEN, loose(0), 1, 2, 3],
    ),
    on('Assign', 'Assignment (Assign (SetRelvar (word q log_word) $0) $1)', 'TheRel', 'MoreItems', just('Semicolon'), mark='fixed'),
)
