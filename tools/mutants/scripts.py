"""Scripts of insertions and settings, drawn at random, each with a twin that only the general way reads."""
import random

from breaks import BREAKS

KINDS = {
    'R': {'A': 'INTEGER', 'B': 'CHAR', 'C': 'DATE', 'D': 'INTERVAL(INTEGER)', 'E': 'BOOLEAN', 'F': 'MOMENT', 'G': 'INTERVAL(DATE)'},
    'Q': {'N': 'INTEGER', 'X': 'INTERVAL(INTEGER)'},
    'O': {'N': 'INTEGER', 'Z': 'SIZE', 'Y': 'INTERVAL(SIZE)'},
}
CONSTRAINTS = {'R': ' KEY {A}', 'Q': ' USING (X): KEY {N, X}', 'O': ''}
# the lists of attributes under which rows come in
LISTS = {'R': ['D', 'G', 'D, G'], 'Q': ['X'], 'O': ['Y']}
# a log of each relvar, by its attribute, which comes in the middle, first and last in the order of names
LOGS = {'R': 'CC', 'Q': 'A', 'O': 'ZZ'}
# a line before a statement: blank, or a change of nothing, beside which no other is read straight from its bytes
LINES = [b'\n', b'INSERT Z RELATION {N INTEGER} {},\n']

# names in place of the relvar's: of one that is virtual, and of one that is not there
OTHER_NAMES = ['V', 'W']
CHARACTERS = list("{}[](),;:='\"/ \n-+.0123456789ABNXTUPLE\u00e9")
ODD_BYTES = [0, 255, 195, 9, 13]
INTEGERS = [0, 1, -1, 7, -42, 2**63 - 1, -2**63]
TEXTS = ['', 'x', "it''s", 'é', 'a b', "''", '/* no */', '; ', 'long ' * 20]
SIZES = ['SIZE.S', 'SIZE.M', 'SIZE.L']
GAPS = [' ', '  ', '\n', '/* b */', '// l\n', '']


def heading_of(relvar):
    return '{%s}' % ', '.join(f'{attribute} {kind}' for attribute, kind in KINDS[relvar].items())


def head():
    """The declarations before all statements: three relvars, one that is virtual, and one for changes of nothing."""
    lines = ['TYPE SIZE ORDINAL {S, M, L};', *(f'VAR {name} RELATION {heading_of(name)}{CONSTRAINTS[name]};' for name in KINDS)]
    return '\n'.join([*lines, 'VAR V VIRTUAL (Q WHERE N > 1);', 'VAR Z RELATION {N INTEGER} KEY {N};', '']).encode()


def logs():
    """The declarations of the logs, and what prints them; a dump has none."""
    declared = [f'LOG L{name} OF {name} ({attribute});\n' for name, attribute in LOGS.items()]
    return ''.join(declared).encode(), ''.join(f'PRINT L{name};\n' for name in LOGS).encode()


class Drawn:
    """What is drawn from one seed."""

    def __init__(self, seed):
        self.random = random.Random(seed)

    # ---------------------------------------------------------------- values

    def integer(self):
        return str(self.random.choice([*INTEGERS, self.random.randint(-1000, 1000)]))

    def digit(self):
        return str(self.random.randint(-9, 9))

    def text(self):
        return "'%s'" % self.random.choice(TEXTS)

    def truth(self):
        return self.random.choice(['TRUE', 'FALSE'])

    def date(self):
        year = self.random.choice([1, 1999, 2012, 2024, 9999])
        return "DATE '%04d-%02d-%02d'" % (year, self.random.randint(1, 12), self.random.randint(1, 28))

    def moment(self):
        clock = [self.random.randint(0, most) for most in (23, 59, 59)]
        return self.date().replace('DATE', 'MOMENT')[:-1] + "T%02d:%02d:%02d'" % tuple(clock)

    def size(self):
        return self.random.choice(SIZES)

    def between(self, begin, end):
        if begin == end:
            return f'[{begin}:{end}]'
        return '%s%s:%s%s' % (self.random.choice('[('), begin, end, self.random.choice('])'))

    def span(self):
        begin = self.random.randint(-20, 20)
        return self.between(begin, begin + self.random.randint(2, 10))

    def dates(self):
        return self.between(*sorted([self.date(), self.date()]))

    def sizes(self):
        begin = self.random.randrange(len(SIZES))
        return self.between(SIZES[begin], SIZES[self.random.randrange(begin, len(SIZES))])

    def value(self, attribute, kind):
        if attribute == 'N':
            return self.digit()
        return {
            'INTEGER': self.integer, 'CHAR': self.text, 'DATE': self.date, 'MOMENT': self.moment, 'BOOLEAN': self.truth, 'SIZE': self.size,
            'INTERVAL(INTEGER)': self.span, 'INTERVAL(DATE)': self.dates, 'INTERVAL(SIZE)': self.sizes,
        }[kind]()

    # ---------------------------------------------------------------- literals

    def tuples(self, relvar):
        """Tuples for the relvar, each a list of attributes with their values, in one order."""
        order = list(KINDS[relvar].items())
        if self.random.random() < 0.5:
            self.random.shuffle(order)
        return [[(attribute, self.value(attribute, kind)) for attribute, kind in order] for _ in range(self.random.randint(1, 5))]

    def literal(self, relvar, tuples):
        """A literal of the tuples, now and then with a heading, and with gaps of all kinds between them."""
        written = ['TUPLE {%s}' % ', '.join(f'{attribute} {value}' for attribute, value in one) for one in tuples]
        gap = self.random.choice(GAPS) if self.random.random() < 0.3 else ' '
        heading = heading_of(relvar) + ' ' if self.random.random() < 0.1 else ''
        return 'RELATION %s{%s}' % (heading, (',' + gap).join(written))

    def mutated(self, text):
        """The text with a character or two dropped, changed, added or exchanged."""
        characters = list(text)
        for _ in range(self.random.choice([1, 1, 1, 2])):
            at, kind = self.random.randrange(len(characters)), self.random.random()
            if kind < 0.35:
                del characters[at]
            elif kind < 0.7:
                characters[at] = self.random.choice(CHARACTERS)
            elif kind < 0.9:
                characters.insert(at, self.random.choice(CHARACTERS))
            else:
                other = self.random.randrange(len(characters))
                characters[at], characters[other] = characters[other], characters[at]
        return ''.join(characters)

    def with_odd_byte(self, text):
        """The bytes of the text, with a byte put in that no text of characters has there, half of them within a quoted text where there is one."""
        written = text.encode()
        quotes = [at + 1 for at in range(len(written)) if written[at:at + 1] == b"'"]
        at = self.random.choice(quotes) if quotes and self.random.random() < 0.5 else self.random.randrange(len(written))
        return written[:at] + bytes([self.random.choice(ODD_BYTES)]) + written[at:]

    # ---------------------------------------------------------------- statements

    def bytes_of(self, relvar):
        """The bytes of a literal: a fifth as drawn, two fifths with one value or tuple broken, the others with characters or a byte changed."""
        tuples, kind = self.tuples(relvar), self.random.random()
        if 0.2 <= kind < 0.6:
            self.random.choice(BREAKS)(self.random, tuples)
        text = self.literal(relvar, tuples)
        if kind < 0.6:
            return text.encode()
        return self.mutated(text).encode() if kind < 0.95 else self.with_odd_byte(text)

    def front(self, relvar):
        """What stands before the literal."""
        name = relvar if self.random.random() < 0.95 else self.random.choice(OTHER_NAMES)
        under = f'USING ({self.random.choice(LISTS[relvar])}): INSERT {name} '
        return self.random.choice([f'INSERT {name} ', f'INSERT {name} ', f'{name} := ', under]).encode()

    def statement(self):
        """A statement behind a blank line, and the same beside a change of nothing."""
        relvar = self.random.choice(list(KINDS))
        text = self.front(relvar) + self.bytes_of(relvar)
        return [line + text + b'\n;\n' for line in LINES]

    def script(self):
        """A script, and its twin. In a third each relvar has a log, and these are printed at the end."""
        statements = [self.statement() for _ in range(self.random.randint(1, 4))]
        before, behind = logs() if self.random.random() < 1 / 3 else (b'', b'')
        return [head() + before + b''.join(one[at] for one in statements) + behind for at in (0, 1)]
