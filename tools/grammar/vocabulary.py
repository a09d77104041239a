# The terminals of the language, and the choices of one token inside its forms.

RESERVED = """
    ALL AFTER AND AS ASK BEFORE BEGIN BEGINS BOOLEAN BUT BY CHAR CONSTRAINT COUNT DATE DELETE DROP END
    ENDS EXTEND FALSE FIRST FOREIGN HISTORY IN INCLUDED_IN INCLUDES INSERT INTEGER INTERSECT INTERVAL
    IS_EMPTY IS_NOT_EMPTY JOIN KEY LAST MATCHING MAX MEETS MERGES MIN MINUS MOMENT NEXT NOT ON OR
    OVERLAPS PACK PACKED PORTION POST PRE PRINT PRIOR REFERENCES RELATION RENAME SUM SUMMARIZE TERMINATE
    THEN TRUE TUPLE TYPE UNION UNPACK UNPACKED UPDATE USING VAR VIRTUAL WHEN WHERE
""".split()


def variant_of(word):
    """The name that a reserved word has as a terminal."""
    if word == 'TYPE':
        return 'TypeWord'
    return ''.join(part.capitalize() for part in word.split('_'))


# (terminal, spelling)
WORDS = [(variant_of(word), word) for word in RESERVED]
SYMBOLS = [
    ('Open', '('), ('Close', ')'), ('OpenBracket', '['), ('CloseBracket', ']'),
    ('OpenBrace', '{'), ('CloseBrace', '}'), ('Comma', ','), ('Semicolon', ';'),
    ('Colon', ':'), ('Assign', ':='), ('Equal', '='), ('NotEqual', '<>'),
    ('Less', '<'), ('LessEqual', '<='), ('Greater', '>'), ('GreaterEqual', '>='),
    ('Plus', '+'), ('Dash', '-'), ('Star', '*'), ('Slash', '/'),
    ('Bars', '||'), ('Dot', '.'),
]
KINDS = ['Name', 'Digits', 'Quoted', 'Finish']

TERMINALS = [word for word, _ in WORDS] + [symbol for symbol, _ in SYMBOLS] + KINDS
TERMINAL_OF = {spelling: terminal for terminal, spelling in WORDS + SYMBOLS}

# names that are reserved at their places alone
CONTEXT = ['ORDINAL', 'SINCE', 'DURING', 'OVER', 'AT', 'LOG', 'OF', 'KEPT']


def word_name(word):
    """The definition that spells a word of CONTEXT."""
    return word.lower() + '_word'


def same(names):
    """Variants that have the names of their terminals."""
    return [(name, name) for name in names.split()]


# name -> (type, [(variant, terminal)])
CHOICES = {
    'comparison': ('ComparisonWord', same(
        'Equal NotEqual Less LessEqual Greater GreaterEqual In Includes IncludedIn Before After Meets '
        'Overlaps Merges Begins Ends',
    )),
    'sum_word': ('SumWord', [('Plus', 'Plus'), ('Minus', 'Dash'), ('Concat', 'Bars')]),
    'product_word': ('ProductWord', [('Times', 'Star'), ('Divide', 'Slash')]),
    'begin_bracket': ('BeginBracket', [('Closed', 'OpenBracket'), ('Open', 'Open')]),
    'end_bracket': ('EndBracket', [('Closed', 'CloseBracket'), ('Open', 'Close')]),
    'extreme': ('ExtremeWord', same('First Last')),
    'function': ('FunctionWord', same('Begin End Pre Post Count Next Prior')),
    'pair_function': ('PairWord', same('Union Intersect Minus')),
    'infix_word': ('InfixWord', same('Union Intersect Minus Join Matching')),
    'pack_word': ('PackWord', same('Pack Unpack')),
    'aggregate_word': ('AggregateWord', same('Sum Min Max')),
    'relation_comparison': ('RelationComparison', same('Equal NotEqual Less LessEqual Greater GreaterEqual')),
    'emptiness': ('EmptinessWord', same('IsEmpty IsNotEmpty')),
}
CHOICE_TYPES = {name: typ for name, (typ, _) in CHOICES.items()}
