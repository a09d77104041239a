"""Reads scripts: their statements, the tokens of each, and its tree by the table of tools/grammar.

A tree is a tuple: the constructor that tools/grammar names, and its parts, as ('Infix', left, place, 'Join', right). A list is a list, a name a Word, a
choice of one token its variant. What the table makes of a row is read once into functions and then applied.
"""
import collections
import functools
import os
import re
import sys

sys.path.insert(1, os.path.join(os.path.dirname(os.path.dirname(os.path.abspath(__file__))), 'grammar'))

from table import TABLE  # noqa: E402
from vocabulary import SYMBOLS, WORDS  # noqa: E402

TERMINALS = dict((spelling, terminal) for terminal, spelling in WORDS)
SIGNS = dict((spelling, terminal) for terminal, spelling in SYMBOLS)
BLANK = r'[ \t\r\n]+|/\*.*?\*/|//[^\n]*'
# longer symbols first, so that each token is the longest of its place
SIGN = '|'.join(map(re.escape, sorted(SIGNS, key=len, reverse=True)))
TOKEN = re.compile(rf"(?P<blank>{BLANK})|(?P<text>'(?:[^']|'')*')|(?P<digits>[0-9]+)|(?P<word>\w+)|(?P<sign>{SIGN})", re.S)
# what a row makes, in parts: names, numbered values with what is taken of them, brackets
MAKE = re.compile(r'\s*(\$[0-9]+|[\w.]+|[()\[\],∷]|\.)')

Token = collections.namedtuple('Token', 'terminal place spelling')


class Word(str):
    """A name, with the place at which it stands."""
    place = None


class Refusal(Exception):
    """A statement that is refused before it is played: the code, and a few words."""

    def __init__(self, code, words):
        super().__init__(f'{code} {words}')
        self.code = code


class NoForm(Refusal):
    """A refusal of what the program takes, and SQL has no form for; with the name that it declares, or none."""

    def __init__(self, code, words, declared=None):
        super().__init__(code, words)
        self.declared = declared


def word(place, spelling):
    found = Word(spelling)
    found.place = place
    return found


# ---------------------------------------------------------------- tokens

def terminal_of(match):
    kind, spelling = match.lastgroup, match[0]
    if kind == 'digits':
        return 'Digits'
    if kind == 'text':
        return 'Quoted'
    if kind == 'sign':
        return SIGNS[spelling]
    return TERMINALS.get(spelling, 'Name')


def value_of(match):
    """What is kept of a token: of a text what stands between its quotes."""
    return match[0][1:-1].replace("''", "'") if match.lastgroup == 'text' else match[0]


def is_token(match):
    return match and (match.lastgroup != 'word' or match[0].isidentifier())


def holds_the_rest(script, at):
    """Whether a comment or a text begins here that does not end, so that no `;` behind it ends a statement."""
    if script.startswith('/*', at):
        return script.find('*/', at + 2) < 0
    return script[at] == "'" and not TOKEN.match(script, at)


def statements_of(script):
    """For each statement its text and its tokens, or the refusal of a text that has none."""
    at, begin, found, fault = 0, 0, [], None
    while at < len(script):
        if holds_the_rest(script, at):
            fault = Refusal('E04', 'the statement is not ended')
            break
        match = TOKEN.match(script, at)
        if not is_token(match):
            fault = fault or Refusal('E01', f'no token begins with {script[at]!r}')
            at += 1
            continue
        at = match.end()
        if match.lastgroup == 'blank':
            continue
        found.append(Token(terminal_of(match), match.start(), value_of(match)))
        if match[0] == ';':
            yield script[begin:at].strip(), fault or found
            begin, found, fault = at, [], None
    if found or fault:
        yield script[begin:].strip(), Refusal('E04', 'the statement is not ended')


# ---------------------------------------------------------------- what a row makes

def made(text):
    """What a row makes, as a function of the values that are known by their names."""
    parts = MAKE.findall(text)
    make, left = applied(parts)
    assert not left, text
    return make


def applied(parts):
    """A constructor or a function with its arguments, and the items before a list; and what is left."""
    head, parts = atom(parts)
    arguments = []
    while parts and parts[0] not in ')],∷':
        argument, parts = atom(parts)
        arguments.append(argument)
    make = call(head, arguments) if arguments else head
    if parts and parts[0] == '∷':
        rest, parts = applied(parts[1:])
        return (lambda values: [make(values), *rest(values)]), parts
    return make, parts


def call(head, arguments):
    def make(values):
        function = head(values)
        found = [argument(values) for argument in arguments]
        return function(*found) if callable(function) else (*function, *found)
    return make


def atom(parts):
    first, parts = parts[0], parts[1:]
    if first == '(':
        make, parts = applied(parts)
        return pair(make, parts) if parts[0] == ',' else (make, parts[1:])
    if first == '[':
        return (lambda values: []), parts[1:]
    if first[0] == '$' and parts and parts[0][0] == '.':
        return taken(first, parts[0][1:]), parts[1:]
    return named(first), parts


def pair(left, parts):
    right, parts = applied(parts[1:])
    return (lambda values: (left(values), right(values))), parts[1:]


def taken(number, what):
    """A part of a value: of a pair by its number, of a word its place or its bytes."""
    if what.isdigit():
        return lambda values: values[number][int(what)]
    return lambda values: values[number].place if what == 'place' else str(values[number])


def named(name):
    """A value that is known, or else a constructor; of a choice the variant alone."""
    variant = name.split('.')[-1]
    return lambda values: values[name] if name in values else (variant if '.' in name else (variant,))


# ---------------------------------------------------------------- reading by the table

@functools.cache
def compiled(text):
    return made(text)


@functools.cache
def firsts(symbol):
    """The terminals with which a symbol of the table begins."""
    found = set()
    for row in TABLE[symbol]['rows']:
        found |= begins(row)
    return frozenset(found)


def begins(row):
    """The terminals with which the row goes on: a word that is none of the language's own is a name."""
    if row[0] == 'spelt':
        return {'Name'}
    return {row[1]} if row[0] in ('on', 'before') else firsts(row[1])


@functools.cache
def is_list(symbol):
    """Whether the symbol is for items that each stand behind a comma; there may be many."""
    rows = TABLE[symbol]['rows']
    return len(rows) == 1 and rows[0][0] == 'on' and rows[0][1] == 'Comma' and rows[0][4][1:] == [symbol]


class Reader:
    """Reads a statement's tokens by the table."""

    def __init__(self, tokens):
        self.tokens = tokens
        self.at = 0

    def next(self, ahead=0):
        at = self.at + ahead
        return self.tokens[at].terminal if at < len(self.tokens) else 'Finish'

    def refuse(self):
        token = self.tokens[min(self.at, len(self.tokens) - 1)]
        raise Refusal('E01', f'no statement goes on with {token.spelling!r}')

    def take(self):
        token = self.tokens[self.at]
        self.at += 1
        return token

    def read(self, symbol):
        if isinstance(symbol, tuple):
            return self.fixed(*symbol)
        description = TABLE[symbol]
        if is_list(symbol):
            return self.items(description['rows'][0][4][0])
        names = [name for name, _ in description.get('params', [])]
        for row in description['rows']:
            if self.next() in begins(row) and (row[0] != 'spelt' or self.tokens[self.at].spelling == row[1]):
                return as_rest(names, *self.row(row))
        if description['ends'] is None:
            self.refuse()
        return as_rest(names, compiled(description['ends']), {})

    def items(self, symbol):
        """Items that each stand behind a comma."""
        found = []
        while self.next() == 'Comma':
            self.take()
            found.append(self.read(symbol))
        return found

    def fixed(self, how, what):
        """A token that has to stand here: its place."""
        is_here = self.next() == what if how == 'Just' else self.next() == 'Name' and self.tokens[self.at].spelling == what
        if not is_here:
            self.refuse()
        return self.take().place

    def row(self, row):
        """What the row makes, and the values that it makes it of."""
        kind = row[0]
        if kind == 'over':
            return compiled(row[2]), numbered([self.read(row[1])])
        if kind == 'then':
            return compiled(row[3]), numbered([self.read(row[1]), self.read(row[2])])
        if kind == 'before':
            _, inner, symbols, make = (None, *(row[3] if self.next(1) == row[2] else row[4])[1:4])
        else:
            inner, symbols, make = row[3], row[4], row[5]
        token = self.take()
        values = numbered([self.read(symbol) for symbol in [*(inner or []), *symbols]])
        return compiled(make), {**values, 'p': token.place, 'b': token.spelling, 'word': word, 'log_word': 'LOG', 'tt': None}


def numbered(values):
    return {f'${number}': value for number, value in enumerate(values)}


def as_rest(names, make, values):
    """The value; of a rest the function that makes the whole of the parts before it."""
    if not names:
        return make(values)
    return lambda *parts: make({**values, **dict(zip(names, parts))})


# ---------------------------------------------------------------- what a tree says

# constructors that stand only for ranks and brackets: a tree with one of these is its only part
RANKS = set('''
    OneConj OneNeg OneCmp OneSum OneProd OneSign OnePrimary Paren OfUsing OfTerms OneTerm OneRelPrimary OfExtend OfSummarize OfOperand OfLiteral ParenRel
    UsingExtend UsingSummarize Names NameList Elements KeyOf ForeignOf UsedKey UsedForeign Key Where OfPortion Portion PointKind
'''.split())
# constructors of a list that has an item: the tree is the list
SOME = {'SomeNames', 'SomeElements', 'Sets', 'Aggregates', 'Renamings', 'Assign'}


def said(tree):
    """What a tree says: without places, ranks and brackets."""
    if isinstance(tree, list):
        return [said(part) for part in tree]
    if not isinstance(tree, tuple):
        return tree
    head, *parts = tree
    parts = [said(part) for part in parts if not isinstance(part, int)]
    if head in RANKS:
        return parts[0]
    return [parts[0], *parts[1]] if head in SOME else (head, *parts)


def tree_of(tokens):
    """What the tree of a statement with these tokens says."""
    reader = Reader(tokens)
    tree = reader.read('TheStatement')
    if reader.at < len(tokens):
        reader.refuse()
    return said(tree)
