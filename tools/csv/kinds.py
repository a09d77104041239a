"""The kinds of the language: how a field of a file is written as a value of one, or why it is none.

Each says by `printed` what the program prints of its values.
"""
import datetime
import re
import shlex

KEYWORDS = set('''
    ALL AFTER AND AS ASK BEFORE BEGIN BEGINS BOOLEAN BUT BY CHAR CONSTRAINT COUNT DATE DELETE DROP END ENDS EXTEND FALSE FIRST FOREIGN HISTORY
    IN INCLUDED_IN INCLUDES INSERT INTEGER INTERSECT INTERVAL IS_EMPTY IS_NOT_EMPTY JOIN KEY LAST MATCHING MAX MEETS MERGES MIN MINUS MOMENT
    NEXT NOT ON OR OVERLAPS PACK PACKED PORTION POST PRE PRINT PRIOR REFERENCES RELATION RENAME SUM SUMMARIZE TERMINATE THEN TRUE TUPLE TYPE
    UNION UNPACK UNPACKED UPDATE USING VAR VIRTUAL WHEN WHERE
'''.split())
NAME_BYTES = 64
TEXT_BYTES = 255
INTEGERS = (-2**63, 2**63 - 1)
DAYS = (datetime.date.min.toordinal(), datetime.date.max.toordinal())
DAY_MINUTES = 24 * 60
EPOCH = datetime.datetime(1970, 1, 1)
# from 0001-01-01T00:00:00 to 9999-12-31T23:59:59
SECONDS = tuple((end.replace(microsecond=0) - EPOCH) // datetime.timedelta(seconds=1) for end in (datetime.datetime.min, datetime.datetime.max))
STAMP = re.compile('[0-9]{4}-[0-9]{2}-[0-9]{2}[ T][0-9]{2}:[0-9]{2}(?::[0-9]{2}(?:[.]0*)?)?')
MOMENT = '[0-9]{4}-[0-9]{2}-[0-9]{2}[ T][0-9]{2}:[0-9]{2}:[0-9]{2}'
TRUTHS = {**dict.fromkeys(('true', 't', 'yes', 'y', '1'), 'TRUE'), **dict.fromkeys(('false', 'f', 'no', 'n', '0'), 'FALSE')}
RANGE = re.compile(r'([\[(])(.*)([\])])')
# the ends of an interval, parted by a colon: the times of moments have colons too
ENDS = re.compile(f'({MOMENT}|[^:]*):({MOMENT}|[^:]*)')


class Fault(Exception):
    """Why a field, a word or a file is refused, in a few words."""


def shown(text):
    """A text as a message has it: in quotes, on one line, and not too long."""
    return repr(text) if len(text) <= 60 else f'{text[:60]!r}..'


def why_no_name(word):
    """Why the word cannot be a name of the language, or None."""
    if not word.isidentifier():
        return f'{shown(word)} is no name'
    if word in KEYWORDS:
        return f'{word} is a reserved word'
    if len(word.encode()) > NAME_BYTES:
        return f'the name {shown(word)} has more than {NAME_BYTES} bytes'
    return None


def check_name(word):
    why = why_no_name(word)
    if why:
        raise Fault(why)
    return word


def day_in(form, day):
    """The day in this format, its year with four digits."""
    return day.strftime(re.sub('%(.)', lambda part: f'{day.year:04}' if part[1] == 'Y' else part[0], form))


def tells_days(form):
    """Whether a date that is written in this format can be read again."""
    day = datetime.datetime(2011, 10, 9)
    try:
        return datetime.datetime.strptime(day.strftime(form), form) == day
    except (ValueError, re.error):
        return False


def seconds_of(text):
    """The seconds from the beginning of 1970 to this day and time, which has no zone; None where it is none."""
    try:
        return (datetime.datetime.fromisoformat(text.partition('.')[0]) - EPOCH) // datetime.timedelta(seconds=1) if STAMP.fullmatch(text) else None
    except ValueError:
        return None


# ---------------------------------------------------------------- values that stand alone

class Char:
    """CHAR: the field as it stands, spaces too."""
    name, printed = 'CHAR', re.compile("'.*'")

    def literal(self, text):
        control = next((mark for mark in text if mark < ' '), None)
        if control is not None:
            raise Fault(f'{shown(text)} has a control character, {control!r}')
        if len(text.encode()) > TEXT_BYTES:
            raise Fault(f'{shown(text)} has {len(text.encode())} bytes; a text has at most {TEXT_BYTES}')
        return "'" + text.replace("'", "''") + "'"


class Boolean:
    name, printed = 'BOOLEAN', re.compile('TRUE|FALSE')

    def literal(self, text):
        truth = TRUTHS.get(text.strip().lower())
        if not truth:
            raise Fault(f'{shown(text)} is no truth value')
        return truth


# ---------------------------------------------------------------- points

class Point:
    """A kind whose values follow one another. A point is a number here, or None where its number is not known."""

    def literal(self, text):
        return self.read(text.strip())[0]

    def ends(self):
        """The literals of the first and the last point, each with its number."""
        first, last = self.numbers()
        return (f'FIRST({self.name})', first), (f'LAST({self.name})', last)


class Integer(Point):
    name, printed = 'INTEGER', re.compile('-?[0-9]+')

    @staticmethod
    def written(text):
        """How a file has the integer that the program prints so."""
        return text

    def numbers(self):
        return INTEGERS

    def read(self, text):
        if not re.fullmatch('[+-]?[0-9]+', text):
            raise Fault(f'{shown(text)} is no integer')
        # some thousand digits are too many for int
        digits = text.lstrip('+-').lstrip('0') or '0'
        number = 0 if len(digits) > 19 else int(digits) * (-1 if text[0] == '-' else 1)
        if len(digits) > 19 or not INTEGERS[0] <= number <= INTEGERS[1]:
            raise Fault(f'{shown(text)} is beyond 64 bits')
        return str(number), number


class Decimal(Integer):
    """A number with at most `places` digits behind its point, as the integer of its smallest unit: of two places, 4.5 is 450."""

    def __init__(self, places):
        self.places = places

    def read(self, text):
        parts = re.fullmatch('([+-]?)([0-9]+)(?:[.]([0-9]*))?', text)
        behind = (parts[3] or '').rstrip('0') if parts else ''
        if not parts or len(behind) > self.places:
            raise Fault(f'{shown(text)} is no number with at most {self.places} digits behind the point')
        return super().read(parts[1] + parts[2] + behind.ljust(self.places, '0'))

    def written(self, text):
        number = int(text)
        digits = str(abs(number)).rjust(self.places + 1, '0')
        at = len(digits) - self.places
        return f'{"-" if number < 0 else ""}{digits[:at]}.{digits[at:]}'


class Minutes(Integer):
    """A time of day from 00:00 to 24:00, as the number of minutes since midnight."""

    def read(self, text):
        parts = re.fullmatch('([0-9]{1,2}):([0-5][0-9])(?::00)?', text)
        number = int(parts[1]) * 60 + int(parts[2]) if parts else -1
        if not 0 <= number <= DAY_MINUTES:
            raise Fault(f'{shown(text)} is no time of day as HH:MM')
        return str(number), number

    def written(self, text):
        number = int(text)
        if not 0 <= number <= DAY_MINUTES:
            raise Fault(f'{text} is no number of minutes since midnight')
        return f'{number // 60:02}:{number % 60:02}'


class Timestamp(Integer):
    """A day and a time of day without a zone, as the number of units of so many seconds since the beginning of 1970."""

    def __init__(self, seconds):
        self.seconds = seconds

    def read(self, text):
        since = seconds_of(text)
        if since is None:
            raise Fault(f'{shown(text)} is no day and time as YYYY-MM-DD HH:MM')
        number, rest = divmod(since, self.seconds)
        if rest:
            raise Fault(f'{shown(text)} has seconds')
        return str(number), number

    def written(self, text):
        try:
            time = EPOCH + datetime.timedelta(seconds=int(text) * self.seconds)
        except OverflowError:
            raise Fault(f'{text} is no time of the years 1 to 9999') from None
        return time.isoformat(' ', 'minutes' if self.seconds == 60 else 'seconds')


class Date(Point):
    name, printed = 'DATE', re.compile('[0-9]{4}-[0-9]{2}-[0-9]{2}')

    def __init__(self, form=None):
        self.form = form

    def numbers(self):
        return DAYS

    def read(self, text):
        try:
            if self.form:
                time = datetime.datetime.strptime(text, self.form)
                if time.time() != datetime.time.min:
                    raise Fault(f'{shown(text)} has a time of day')
                day = time.date()
            elif self.printed.fullmatch(text):
                day = datetime.date.fromisoformat(text)
            else:
                raise ValueError
        except ValueError:
            raise Fault(f'{shown(text)} is no date of the form {self.form or "YYYY-MM-DD"}') from None
        return f"DATE '{day.isoformat()}'", day.toordinal()


class Moment(Point):
    """MOMENT: a day and a time of day without a zone, as PostgreSQL writes it, with a space or a T."""
    name, printed = 'MOMENT', re.compile(MOMENT.replace('[ T]', 'T'))

    @staticmethod
    def printed_of(number):
        """The moment of this number, as the program prints it."""
        return (EPOCH + datetime.timedelta(seconds=number)).isoformat('T', 'seconds')

    @staticmethod
    def written(text):
        """How a file has the moment that the program prints so."""
        return text.replace('T', ' ')

    def numbers(self):
        return SECONDS

    def read(self, text):
        number = seconds_of(text)
        if number is None:
            raise Fault(f'{shown(text)} is no moment as YYYY-MM-DD HH:MM:SS')
        return f"MOMENT '{self.printed_of(number)}'", number


class Ordinal(Point):
    """An ordinal type; of one whose values were not told any name is taken."""
    printed = re.compile(r"[^\W\d][^ '|:\[\]]*")

    def __init__(self, name, values=None):
        self.name, self.values = name, values

    def numbers(self):
        return (0, len(self.values) - 1) if self.values else (None, None)

    def read(self, text):
        if self.values and text not in self.values:
            raise Fault(f'{shown(text)} is no value of {self.name}')
        check_name(text)
        return f'{self.name}.{text}', self.values.index(text) if self.values else None


# ---------------------------------------------------------------- intervals

def ends_of(text):
    """The two ends that stand between brackets, or what else stands there."""
    if ',' in text:
        return text.split(',')
    ends = ENDS.fullmatch(text)
    return ends.groups() if ends else text.split(':')


class Interval:
    """INTERVAL of a point kind. What stands for its first or its last point is told by `first` and `last`, two sets of texts."""

    def __init__(self, point, first=(), last=()):
        self.point, self.first, self.last = point, first, last
        self.name = f'INTERVAL({point.name})'

    def literal(self, text):
        """The interval of one field, as [b:e] or [b,e); PostgreSQL puts the ends into quotes where they have a space."""
        parts = RANGE.fullmatch(text.strip())
        ends = ends_of(parts[2].replace('"', '')) if parts else ()
        if len(ends) != 2:
            raise Fault(f'{shown(text)} is no interval as [b:e] or [b,e)')
        return self.between(ends[0], ends[1], parts[1], parts[3])

    def between(self, begin, end, left='[', right=']'):
        """The interval of these two texts; a bracket is square where the end is told by `first` or `last`."""
        begin, end = begin.strip(), end.strip()
        first, last = self.point.ends()
        low, high = self.end_of(begin, self.first, first), self.end_of(end, self.last, last)
        left = '[' if begin in self.first else left
        right = ']' if end in self.last else right
        if not self.has_point(low[1], high[1], left, right) or low == high and left + right != '[]':
            raise Fault(f'there is no {self.point.name} in {left}{begin}:{end}{right}')
        if right == ')' and high[1] == last[1] and not isinstance(self.point, Ordinal):
            raise Fault(f'{end} would be left out; --last {shlex.quote(end)} takes it for the last point')
        return f'{left}{low[0]}:{high[0]}{right}'

    def end_of(self, text, names, named):
        if text in names:
            return named
        if not text:
            raise Fault('an end of the interval is empty')
        return self.point.read(text)

    @staticmethod
    def has_point(low, high, left, right):
        return low is None or high is None or low + (left == '(') <= high - (right == ')')
