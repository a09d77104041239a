# The forms of the language: the plain tree of each, and the tokens that it writes.
from vocabulary import *

# form -> its type, its symbol in the table, and its alternatives: (constructor, the parts that it writes). A form
# without a constructor has the value of its only part.
FORMS = {}
# what stands between brackets, parted by commas: name -> (type, the form of an item, the form of the items behind it)
LISTS = {}


def form(name, typ, symbol, *alternatives):
    """How the parts of an alternative are written:

    X@p         the token X, its place kept as p
    X@p=b       the same, and its bytes kept as b
    X or a sign a reserved word or a symbol by its spelling: a token of which nothing is kept
    v:name      a name; v:form, a part; v:*list, items parted by commas
    v:%choice@p one token of a choice, its place kept as p; v:%choice, without its place
    v:!form     a part that is written by its constructor, since the row of the table takes its first token
    v:^form     a part in a group of its own, by its constructor
    -!X@p       a `-` that X does not follow
    ~X          a word that is reserved at its place alone; ~X@p, its place kept as p
    """
    FORMS[name] = {'type': typ, 'symbol': symbol, 'alternatives': list(alternatives)}


form('name', 'Word', 'TheName', (None, 'n:name'))

form('point', 'PointP', 'ThePoint',
    ('IntegerType', 'Integer@p'),
    ('DateType', 'Date@p'),
    ('MomentType', 'Moment@p'),
    ('NamedType', 'n:name'),
)

# ---- scalars

form('scalar', 'ScalarP', 'TheScalar', ('OneConj', 'c:conj'), ('Or', 's:scalar Or@p c:conj'))
form('conj', 'ConjP', 'TheConj', ('OneNeg', 'c:neg'), ('And', 's:conj And@p c:neg'))
form('neg', 'NegP', 'TheNeg', ('Not', 'Not@p n:neg'), ('OneCmp', 'c:cmp'))
form('cmp', 'CmpP', 'TheCmp', ('OneSum', 's:sum'), ('Compare', 's:sum o:%comparison@p r:sum'))
form('sum', 'SumP', 'TheSum', ('OneProd', 'f:prod'), ('Add', 's:sum o:%sum_word@p f:prod'))
form('prod', 'ProdP', 'TheProd', ('OneSign', 'f:sign'), ('Multiply', 's:prod o:%product_word@p f:sign'))

form('sign', 'SignP', 'TheSign',
    ('NegativeInteger', 'Dash@p Digits@q=c'),
    ('Negate', '-!Digits@p s:sign'),
    ('OnePrimary', 'a:primary'),
)

form('primary', 'PrimaryP', 'ThePrimary',
    ('IntegerLiteral', 'Digits@p=c'),
    ('TextLiteral', 'Quoted@p=c'),
    ('DateLiteral', 'Date@p Quoted@q=c'),
    ('MomentLiteral', 'Moment@p Quoted@q=c'),
    ('TrueLiteral', 'True@p'),
    ('FalseLiteral', 'False@p'),
    ('AttributeName', 'n:name'),
    ('Dotted', 'n:name . v:name'),
    ('Paren', 'Open@p s:scalar )'),
    ('Selector', 'b:%begin_bracket@p s:scalar : r:scalar e:%end_bracket'),
    ('Extreme', 'o:%extreme@p ( y:point )'),
    ('Function', 'o:%function@p ( s:scalar )'),
    ('PairFunction', 'o:%pair_function@p ( s:scalar , r:scalar )'),
)

SCALARS = ['scalar', 'conj', 'neg', 'cmp', 'sum', 'prod', 'sign', 'primary']

# ---- headings, lists of names

form('kind', 'KindP', 'TheKind',
    ('BooleanKind', 'Boolean@p'),
    ('CharKind', 'Char@p'),
    ('PointKind', 'y:point'),
    ('IntervalKind', 'Interval@p ( y:point )'),
)

form('attribute', 'AttributeP', 'TheAttribute', ('Attribute', 'n:name k:kind'))

form('more_attributes', 'List AttributeP', 'MoreAttributes',
    ('[]', ''),
    ('∷', ', x:attribute xs:more_attributes'),
)

LISTS['attributes'] = ('List AttributeP', 'attribute', 'more_attributes')
form('heading', 'HeadingP', 'TheHeading', ('Heading', 'OpenBrace@p xs:*attributes }'))
form('more_words', 'List Word', 'MoreNames', ('[]', ''), ('∷', ', x:name xs:more_words'))
LISTS['words'] = ('List Word', 'name', 'more_words')
form('names', 'NamesP', 'TheNames', ('Names', 'OpenBrace@p ns:*words }'))
form('list', 'NameListP', 'TheList', ('NameList', 'Open@p ns:*words )'))
form('some_names', 'SomeNamesP', 'TheSomeNames', ('SomeNames', 'OpenBrace@p n:name ns:more_words }'))
form('paren_name', 'Word', 'TheParenName', (None, '( n:name )'))

# ---- tuples, sets

form('element', 'ElementP', 'TheElement', ('Element', 'n:name s:scalar'))
form('more_elements', 'List ElementP', 'MoreElements', ('[]', ''), ('∷', ', x:element xs:more_elements'))
LISTS['element_list'] = ('List ElementP', 'element', 'more_elements')
form('elements', 'ElementsP', 'TheElements', ('Elements', 'OpenBrace@p xs:*element_list }'))

form('some_elements', 'SomeElementsP', 'TheSomeElements',
    ('SomeElements', 'OpenBrace@p x:element xs:more_elements }'),
)

form('tuple', 'TupleP', 'TheTuple', ('Tuple', 'Tuple@p e:elements'))
form('more_tuples', 'List TupleP', 'MoreTuples', ('[]', ''), ('∷', ', x:tuple xs:more_tuples'))
LISTS['tuple_list'] = ('List TupleP', 'tuple', 'more_tuples')
form('tuples', 'List TupleP', 'TheTuples', (None, '{ xs:*tuple_list }'))

form('literal', 'LiteralP', 'TheLiteral',
    ('Tuples', 'Relation@p { x:!tuple xs:more_tuples }'),
    ('Headed', 'Relation@p h:!heading us:tuples'),
)

form('set_item', 'SetItemP', 'TheSetItem', ('SetItem', 'n:name := s:scalar'))
form('more_set_items', 'List SetItemP', 'MoreSetItems', ('[]', ''), ('∷', ', x:set_item xs:more_set_items'))
form('sets', 'SetsP', 'TheSets', ('Sets', 'OpenBrace@p x:set_item xs:more_set_items }'))

form('aggregate_form', 'AggregateFormP', 'TheAggregateForm',
    ('CountRows', 'Count@p ( )'),
    ('AggregateOf', 'o:%aggregate_word@p ( s:scalar )'),
)

form('aggregate', 'AggregateP', 'TheAggregate', ('Aggregate', 'n:name := a:aggregate_form'))

form('more_aggregates', 'List AggregateP', 'MoreAggregates',
    ('[]', ''),
    ('∷', ', x:aggregate xs:more_aggregates'),
)

form('aggregates', 'AggregatesP', 'TheAggregates',
    ('Aggregates', 'OpenBrace@p x:aggregate xs:more_aggregates }'),
)

form('renaming', 'RenamingP', 'TheRenaming', ('Renaming', 'n:name AS m:name'))
form('more_renamings', 'List RenamingP', 'MoreRenamings', ('[]', ''), ('∷', ', x:renaming xs:more_renamings'))
form('renamings', 'RenamingsP', 'TheRenamings', ('Renamings', 'OpenBrace@p x:renaming xs:more_renamings }'))
form('portion', 'PortionP', 'ThePortion', ('Portion', 'Portion@p e:some_elements'))

form('maybe_portion', 'MaybePortionP', 'MaybePortion',
    ('NoPortion', ''),
    ('OfPortion', 'Portion@p e:some_elements'),
)

form('condition', 'ConditionP', 'MaybeWhere', ('NoCondition', ''), ('Where', 'Where@p s:scalar'))

form('projection', 'ProjectionP', None,
    ('Onto', 'OpenBrace@p ns:*words }'),
    ('AllBut', 'OpenBrace@p ALL BUT n:name ns:more_words }'),
)

# ---- relations

form('rel', 'RelP', 'TheRel', ('OfUsing', 'u:using'), ('OfTerms', 'y:terms'))

form('terms', 'TermsP', 'TheTerms',
    ('OneTerm', 'y:term'),
    ('Infix', 's:terms o:%infix_word@p y:term'),
    ('NotMatching', 's:terms Not@p MATCHING y:term'),
)

form('term', 'TermP', 'TheTerm',
    ('OneRelPrimary', 'x:rel_primary'),
    ('Project', 's:term q:^projection'),
    ('Filter', 's:term Where@p c:scalar'),
    ('Rename', 's:term Rename@p q:renamings'),
)

form('rel_primary', 'RelPrimaryP', 'TheRelPrimary',
    ('OfExtend', 'e:extend'),
    ('OfSummarize', 'e:summarize'),
    ('OfOperand', 'o:operand'),
)

form('operand', 'OperandP', 'TheOperand',
    ('Relvar', 'n:name'),
    ('OfLiteral', 'l:literal'),
    ('ParenRel', 'Open@p r:rel )'),
    ('PackOn', 'o:%pack_word@p r:rel ON a:list'),
)

form('extend', 'ExtendP', 'TheExtend', ('Extend', 'Extend@p r:rel : s:sets'))
form('summarize', 'SummarizeP', 'TheSummarize', ('Summarize', 'Summarize@p r:rel BY b:names : a:aggregates'))
form('using', 'UsingP', 'TheUsing', ('Using', 'Using@p a:list : u:using_part'))

form('using_part', 'UsingPartP', 'TheUsingPart',
    ('UsingExtend', 'e:extend'),
    ('UsingSummarize', 'e:summarize'),
    ('UsingInfix', 'l:operand o:%infix_word@p r:operand'),
    ('UsingNotMatching', 'l:operand Not@p MATCHING r:operand'),
    ('UsingProject', 'l:operand q:^projection'),
    ('UsingFilter', 'l:operand Where@p c:scalar'),
)

RELATIONS = ['rel', 'terms', 'term', 'rel_primary', 'operand', 'extend', 'summarize', 'using', 'using_part']

# ---- declarations

form('key', 'KeyP', 'TheKey', ('Key', 'Key@p n:names'))
form('foreign', 'ForeignP', 'TheForeign', ('Foreign', 'Foreign@p KEY n:names REFERENCES r:name'))

form('used_constraint', 'UsedConstraintP', 'TheUsedConstraint',
    ('UsedKey', 'k:key'),
    ('UsedForeign', 'f:foreign'),
)

form('constraint', 'ConstraintP', 'TheConstraint',
    ('KeyOf', 'k:key'),
    ('ForeignOf', 'f:foreign'),
    ('PackedOn', 'Packed@p ON a:list'),
    ('WhenUnpacked', 'When@p UNPACKED ON a:list THEN k:key'),
    ('UsingConstraint', 'Using@p a:list : u:used_constraint'),
)

form('constraints', 'List ConstraintP', 'MoreConstraints', ('[]', ''), ('∷', 'x:constraint xs:constraints'))

form('kept', 'KeptP', 'TheKept',
    ('KeptInfix', 'Using@p a:list : l:name o:%infix_word@q r:name'),
    ('KeptNotMatching', 'Using@p a:list : l:name Not@q MATCHING r:name'),
    ('KeptProject', 'Using@p a:list : l:name q:^projection'),
    ('KeptPack', 'Pack@p n:name ON a:list'),
)

form('var_form', 'VarFormP', 'TheVarForm',
    ('BaseRelvar', 'Relation@p h:heading cs:constraints'),
    ('View', 'Virtual@p ( r:rel )'),
    ('Kept', '~KEPT@p ( k:kept )'),
)

# ---- tests and items

form('comparison', 'ComparisonP', 'TheComparison',
    ('Comparison', 'l:operand o:%relation_comparison@p r:operand'),
)

form('test', 'TestP', 'TheTest',
    ('UsingTest', 'Using@p a:list : c:comparison'),
    ('Emptiness', 'o:%emptiness@p ( r:rel )'),
    ('OfComparison', 'c:comparison'),
)

form('used_deletion', 'UsedDeletionP', 'TheUsedDeletion',
    ('UsedDeleteWhere', 'Where@p s:scalar'),
    ('UsedDeleteRows', 'r:rel'),
)

form('used_item', 'UsedItemP', 'TheUsedItem',
    ('UsedInsert', 'Insert@p n:name r:rel'),
    ('UsedDelete', 'Delete@p n:name d:used_deletion'),
    ('UsedUpdate', 'Update@p n:name c:condition : s:sets'),
)

form('deletion', 'DeletionP', 'TheDeletion',
    ('DeleteWhere', 'Where@p s:scalar'),
    ('DeletePortion', 'q:portion c:condition'),
    ('DeleteRows', 'r:rel'),
)

form('item', 'ItemP', 'TheItem',
    ('SetRelvar', 'n:name := r:rel'),
    ('Insert', 'Insert@p n:name r:rel'),
    ('Delete', 'Delete@p n:name d:deletion'),
    ('Update', 'Update@p n:name q:maybe_portion c:condition : s:sets'),
    ('Terminate', 'Terminate@p n:name ~AT@q e:scalar c:condition'),
    ('UsingItem', 'Using@p a:list : u:used_item'),
)

form('more_items', 'List ItemP', 'MoreItems', ('[]', ''), ('∷', ', x:item xs:more_items'))
form('assign', 'AssignP', 'TheAssign', ('Assign', 'x:item xs:more_items'))

form('statement', 'StatementP', 'TheStatement',
    ('Nothing', ';'),
    ('DeclareOrdinal', 'TypeWord@p n:name ~ORDINAL v:some_names ;'),
    ('DeclareRelvar', 'Var@p n:name f:var_form ;'),
    (
        'DeclareHistory',
        'History@p n:name h:heading k:key ~SINCE s:name b:paren_name ~DURING d:name i:paren_name ~OVER y:point ;',
    ),
    ('DeclareLog', '~LOG@p l:name ~OF s:name b:paren_name ;'),
    ('DeclareRule', 'Constraint@p n:name y:test ;'),
    ('Drop', 'Drop@p VAR n:name ;'),
    ('DropRule', 'Drop@p Constraint@q n:name ;'),
    ('Print', 'Print@p r:rel ;'),
    ('Ask', 'Ask@p y:test ;'),
    ('Assignment', 'a:assign ;'),
)
