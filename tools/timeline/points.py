"""The points of a type as numbers, and the ticks of an axis of them.

A kind of points tells the number of a value, the numbers of the type's first and last point (none where they are not known), and the steps in
which an axis may go: of each the fewest points between two ticks, the characters of its widest label, and the ticks of a range.
"""
import re
from datetime import date, datetime

from widths import characters, cut

DATE = '[0-9]{4}-[0-9]{2}-[0-9]{2}'
MOMENT = f'{DATE}T[0-9]{{2}}:[0-9]{{2}}:[0-9]{{2}}'
INTERVAL = re.compile(rf'\[({MOMENT}|[^:]*):({MOMENT}|[^:]*)\]')
MOST_OF_VALUE = 24  # characters of the label of an ordinal value
MONTHS = ('Jan', 'Feb', 'Mar', 'Apr', 'May', 'Jun', 'Jul', 'Aug', 'Sep', 'Oct', 'Nov', 'Dec')


class Step:
    """Ticks at some starts, and above them perhaps those of a larger unit: starts(low, high) are numbers from low on that are below high."""

    def __init__(self, fewest, widest, starts, label, above=None):
        self.fewest, self.widest, self.starts, self.label, self.above = fewest, widest, starts, label, above

    def ticks(self, low, high):
        return [(at, self.label(at)) for at in self.starts(low, high)]


# ---------------------------------------------------------------- dates

def years(every):
    def starts(low, high):
        first, last = date.fromordinal(low).year, date.fromordinal(high - 1).year
        found = (date(year, 1, 1).toordinal() for year in range(first, last + 1) if year % every == 0)
        return [at for at in found if at >= low]
    return starts


def months(every, days=(1,)):
    """The starts of the months whose number is one more than a multiple, or these days of them."""
    def starts(low, high):
        first, last = date.fromordinal(low), date.fromordinal(high - 1)
        numbers = range(first.year * 12 + first.month - 1, last.year * 12 + last.month)
        found = (date(number // 12, number % 12 + 1, day).toordinal() for number in numbers if number % 12 % every == 0 for day in days)
        return [at for at in found if low <= at < high]
    return starts


def year_label(at):
    return f'{date.fromordinal(at).year:04}'


def month_label(at):
    return MONTHS[date.fromordinal(at).month - 1]


def day_label(at):
    return str(date.fromordinal(at).day)


class Dates:
    first, last = date.min.toordinal(), date.max.toordinal()
    first_is, last_is = 'the first day, 0001-01-01', 'the last day, 9999-12-31'

    def number(self, value):
        return date.fromisoformat(value).toordinal()

    def steps(self, low, high):
        of_years = Step(365, 4, years(1), year_label)
        of_months = Step(28, 8, months(1), lambda at: f'{month_label(at)} {year_label(at)}')
        yield Step(1, 2, lambda low, high: list(range(low, high)), day_label, of_months)
        yield Step(7, 2, months(1, (1, 8, 15, 22)), day_label, of_months)
        yield Step(28, 3, months(1), month_label, of_years)
        yield Step(90, 3, months(3), month_label, of_years)
        yield of_years
        for every in (2, 5, 10, 20, 50, 100, 200, 500, 1000, 2000, 5000):
            yield Step(365 * every, 4, years(every), year_label)


def multiples(every):
    return lambda low, high: list(range(-(-low // every) * every, high, every))


# ---------------------------------------------------------------- moments

DAY = 24 * 60 * 60


def in_seconds(step):
    """A step of dates, as one of moments."""
    def starts(low, high):
        return [at * DAY for at in step.starts(low // DAY, (high - 1) // DAY + 1) if low <= at * DAY < high]
    return Step(step.fewest * DAY, step.widest, starts, lambda at: step.label(at // DAY), step.above and in_seconds(step.above))


def minute_label(at):
    return f'{at % DAY // 3600:02}:{at % 3600 // 60:02}'


class Moments:
    first, last = Dates.first * DAY, Dates.last * DAY + DAY - 1
    first_is, last_is = 'the first moment, 0001-01-01T00:00:00', 'the last moment, 9999-12-31T23:59:59'

    def number(self, value):
        time = datetime.strptime(value, '%Y-%m-%dT%H:%M:%S')
        return time.toordinal() * DAY + time.hour * 3600 + time.minute * 60 + time.second

    def steps(self, low, high):
        of_days = Step(DAY, 11, multiples(DAY), lambda at: ' '.join(label(at // DAY) for label in (day_label, month_label, year_label)))
        for every in (1, 5, 15, 30):
            yield Step(every, 8, multiples(every), lambda at: f'{minute_label(at)}:{at % 60:02}', of_days)
        for every in (1, 5, 15, 30, 60, 180, 360, 720):
            yield Step(every * 60, 5, multiples(every * 60), minute_label, of_days)
        yield from map(in_seconds, Dates().steps(low // DAY, (high - 1) // DAY + 1))


# ---------------------------------------------------------------- integers and values of ordinal types

def round_numbers():
    """1, 2, 5, 10, 20, 50 and so on."""
    power = 1
    while True:
        yield from (power, 2 * power, 5 * power)
        power *= 10


class Integers:
    first, last = -2 ** 63, 2 ** 63 - 1
    first_is, last_is = f'the first integer, {first}', f'the last integer, {last}'

    def number(self, value):
        return int(value)

    def steps(self, low, high):
        widest = max(len(str(low)), len(str(high)))
        for every in round_numbers():
            yield Step(every, widest, multiples(every), str)


class Ordinals:
    """The values of an ordinal type in this order. Which are its first and last is not known, so no interval is drawn with an arrow."""
    first = last = None

    def __init__(self, values):
        self.labels = [cut(value, MOST_OF_VALUE) for value in values]
        self.numbers = {value: number for number, value in enumerate(values)}

    def number(self, value):
        return self.numbers[value]

    def steps(self, low, high):
        widest = max(characters(label) for label in self.labels[low:high])
        for every in round_numbers():
            yield Step(every, widest, multiples(every), self.labels.__getitem__)


def ends_of(interval):
    """The two ends of an interval, as they are printed."""
    ends = INTERVAL.fullmatch(interval)
    if not ends:
        raise ValueError(f'{interval} is no interval')
    return ends.groups()


def order_of(rows, place):
    """The values of an ordinal attribute as they come, but so that no interval ends before it begins, and that sorted rows are sorted."""
    ends = [ends_of(row[place]) for row in rows]
    before = {value: set() for pair in ends for value in pair}
    for begin, end in ends:
        before[end].add(begin)
    for row, above, pair, pair_above in zip(rows[1:], rows, ends[1:], ends):
        if row[:place] == above[:place]:
            differing = 0 if pair[0] != pair_above[0] else 1
            before[pair[differing]].add(pair_above[differing])
    left, order = dict.fromkeys(before), []
    while left:
        # the first that waits for no other
        following = next((value for value in left if not any(other in left for other in before[value] - {value})), next(iter(left)))
        order.append(following)
        del left[following]
    return order


def is_of_dates(interval):
    return re.match(rf'\[{DATE}:', interval) is not None


def is_of_moments(interval):
    return re.match(rf'\[{MOMENT}:', interval) is not None


def kind_of(rows, place, orders):
    """The kind of the points of an interval attribute, and whether their order is told: orders are the values of ordinal types."""
    values = {value for row in rows for value in ends_of(row[place])}
    if is_of_dates(rows[0][place]):
        return Dates(), True
    if is_of_moments(rows[0][place]):
        return Moments(), True
    if all(re.fullmatch(r'-?[0-9]+', value) for value in values):
        return Integers(), True
    for order in orders:
        if values <= set(order):
            return Ordinals(order), True
    return Ordinals(order_of(rows, place)), False


# ---------------------------------------------------------------- the axis

class Axis:
    """A range of points, of which high is the first behind it, and the ticks that have room on so many characters of a line."""

    def __init__(self, kind, intervals, room):
        self.kind = kind
        low, high = range_of(kind, intervals)
        for self.step in kind.steps(low, high):
            if self.has_room(low, high, room):
                self.low, self.high = self.widened(low, high)
                if self.has_room(self.low, self.high, room):
                    break
        self.ticks = self.step.ticks(self.low, self.high)
        self.above = self.of_larger_unit()

    def has_room(self, low, high, room):
        return self.step.fewest * room >= (self.step.widest + 1.5) * (high - low)

    def widened(self, low, high):
        """The range from tick to tick, where these are not far away."""
        if self.kind.first is None or high > self.kind.last:
            return low, high
        slack = (high - low) // 12
        begins = self.step.starts(max(low - slack, self.kind.first), low + 1)
        ends = self.step.starts(high, min(high + slack, self.kind.last) + 1)
        return max(begins, default=low), min(ends, default=high)

    def of_larger_unit(self):
        """The ticks above the others, the first of them at the beginning of the range where its unit began before."""
        above = self.step.above
        if not above:
            return []
        ticks = above.ticks(self.low, self.high)
        return ticks if ticks and ticks[0][0] == self.low else [(self.low, above.label(self.low)), *ticks]

    def share(self, number):
        """Where a point stands, from 0 to 1."""
        return (number - self.low) / (self.high - self.low)


def range_of(kind, intervals):
    """From the first to the last of the ends that are not those of the type; somewhat farther where an interval goes on to these."""
    goes_back = any(begin == kind.first for begin, _ in intervals)
    goes_on = any(end == kind.last for _, end in intervals)
    ends = [begin for begin, _ in intervals if begin != kind.first] + [end + 1 for _, end in intervals if end != kind.last]
    if not ends:
        return kind.first, kind.last + 1
    low, high = min(ends), max(ends)
    more = max(1, (high - low) // 16)
    return max(low - more, kind.first) if goes_back else low, min(high + more, kind.last + 1) if goes_on else high
