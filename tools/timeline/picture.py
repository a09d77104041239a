"""Draws a table with an interval attribute as an SVG: a line for rows that have the other values in common, on which each row is a bar."""
import html
import re
from dataclasses import dataclass

from points import DATE, MOMENT, Axis, ends_of, kind_of
from tables import ANSWERS, shown
from widths import characters, cut, wrapped

WIDTH, MARGIN = 880, 16
# the width of a character of labels and of ticks, in a font whose characters are equally wide
CHARACTER, TICK_CHARACTER, TITLE_CHARACTER = 7.5, 6.9, 8.1
FEWEST, MOST = 12, 56  # characters of the labels of a line; more only where each column has its fewest
FEWEST_OF_COLUMN, BETWEEN = 3, 2  # characters of a column, and between two of them
BAR, LANE, LINE_GAP, LEAST, ARROW = 14, 18, 8, 4, 9
MOST_TOLD = 40  # lines that the text alternative tells

STYLE = '''.timeline { color-scheme: light dark; font: 12px ui-monospace, 'DejaVu Sans Mono', Menlo, Consolas, monospace }
.timeline text { fill: #1f2328; white-space: pre; unicode-bidi: isolate }
.timeline .ground { fill: #ffffff; stroke: #d1d9e0 }
.timeline .title { font-size: 13px; font-weight: bold }
.timeline .name { fill: #59636e; font-weight: bold }
.timeline .tick, .timeline .note { fill: #59636e; font-size: 11px }
.timeline .rule { stroke: #e6eaef }
.timeline .larger { stroke: #c3ccd5 }
.timeline .bar { fill: #2a6fbb; stroke: #ffffff }
@media (prefers-color-scheme: dark) {
.timeline text { fill: #e6edf3 }
.timeline .ground { fill: #0d1117; stroke: #3d444d }
.timeline .name, .timeline .tick, .timeline .note { fill: #9aa4af }
.timeline .rule { stroke: #21262d }
.timeline .larger { stroke: #3d444d }
.timeline .bar { fill: #5a9fe6; stroke: #0d1117 }
}'''


# ---------------------------------------------------------------- XML

def marked(text, quote=False):
    """A text as XML has it, without the characters that XML cannot have."""
    return html.escape(re.sub('[^\t\n\r\x20-\x7e\xa0-\ud7ff\ue000-\ufffd\U00010000-\U0010ffff]', '\ufffd', text), quote)


def short(number):
    return f'{number:.1f}'.removesuffix('.0')


def element(name, text=None, **attributes):
    """An element of a line; class_ is written class, a number shortly."""
    told = ''.join(f' {key.strip("_").replace("_", "-")}="{short(value) if isinstance(value, (int, float)) else marked(value, quote=True)}"'
                   for key, value in attributes.items())
    return f'<{name}{told}/>' if text is None else f'<{name}{told}>{marked(text)}</{name}>'


# ---------------------------------------------------------------- what is drawn

@dataclass
class Line:
    """Rows that have all other values in common: the intervals, and of each the lane on which it does not overlap another."""
    values: list[str]
    intervals: list[tuple[int, int, str]]
    lanes: list[int]

    @property
    def height(self):
        return LINE_GAP + LANE * (max(self.lanes) + 1) - (LANE - BAR)


def lanes_of(intervals):
    """For each interval in the order of their beginnings the first lane that is free."""
    ends, lanes = [], []
    for begin, end, _ in intervals:
        free = next((lane for lane, taken in enumerate(ends) if taken < begin), len(ends))
        ends[free:free + 1] = [end]
        lanes.append(free)
    return lanes


def order_in(column):
    """How the values of a column are ordered: integers, texts, dates, moments and truth values by themselves, others as they come."""
    if all(re.fullmatch('-?[0-9]+', value) for value in column):
        return int
    if all(value.startswith("'") or value in ANSWERS or re.fullmatch(f'{DATE}|{MOMENT}', value) for value in column):
        return lambda value: shown(value).encode()
    return {value: number for number, value in enumerate(dict.fromkeys(column))}.get


def lines_of(rows, place, kind):
    """The lines in the order of their values; the rows are ordered by the interval first where it is the first column."""
    found = {}
    for row in rows:
        begin, end = ends_of(row[place])
        others = tuple(value for at, value in enumerate(row) if at != place)
        found.setdefault(others, []).append((kind.number(begin), kind.number(end), row[place]))
    orders = [order_in(column) for column in zip(*found)]
    lines = []
    for values in sorted(found, key=lambda values: [order(value) for order, value in zip(orders, values)]):
        intervals = sorted(found[values])
        lines.append(Line([shown(value) for value in values], intervals, lanes_of(intervals)))
    return lines


def widths_of(names, lines):
    """The characters of each column of labels: the widest are cut until all have room."""
    widths = [max(characters(text) for text in (name, *(line.values[at] for line in lines))) for at, name in enumerate(names)]
    room = MOST - BETWEEN * max(len(names) - 1, 0)
    most = max(widths, default=0)
    while most > FEWEST_OF_COLUMN and sum(min(width, most) for width in widths) > room:
        most -= 1
    return [min(width, most) for width in widths]


class Picture:
    """A table as an SVG: it is drawn by the interval attribute at this place, and the values of the others are its labels."""

    def __init__(self, table, place, title=None, orders=(), most=500):
        self.table, self.place, self.rows = table, place, table.rows[:most]
        self.kind, self.is_order_told = kind_of(self.rows, place, orders)
        self.lines = lines_of(self.rows, place, self.kind)
        self.names = [name for at, name in enumerate(table.names) if at != place]
        self.title, self.name = title, table.names[place]
        self.widths = widths_of(self.names, self.lines)
        taken = sum(self.widths) + BETWEEN * max(len(self.names) - 1, 0)
        self.left = MARGIN + max(taken, FEWEST) * CHARACTER + 2 * ARROW
        self.right = WIDTH - MARGIN - ARROW - 3
        self.axis = Axis(self.kind, [(begin, end) for line in self.lines for begin, end, _ in line.intervals],
                         (self.right - self.left) / TICK_CHARACTER)
        self.parts, self.y = [], MARGIN

    def x(self, number):
        return self.left + self.axis.share(number) * (self.right - self.left)

    # ------------------------------------------------------------ in words

    def headline(self):
        return self.title or ' '.join([self.name, *(['by', ', '.join(self.names)] if self.names else [])])

    def told(self, line):
        return ', '.join(f'{name} {value}' for name, value in zip(self.names, line.values))

    def description(self):
        """The text alternative: what each line holds."""
        said = []
        for line in self.lines[:MOST_TOLD]:
            label = self.told(line)
            said.append((f'{label}: ' if label else '') + ', '.join(interval for _, _, interval in line.intervals) + '.')
        if len(self.lines) > MOST_TOLD:
            said.append(f'Lines that are not told: {len(self.lines) - MOST_TOLD}.')
        return ' '.join([f'A timeline of {self.name}; rows: {len(self.rows)}.', *said, *self.notes()])

    def notes(self):
        """What is said below the lines: what arrows mean, where there are some, and how many rows were cut."""
        notes = []
        intervals = [interval for line in self.lines for interval in line.intervals]
        if any(begin == self.kind.first for begin, _, _ in intervals):
            notes.append(f'An arrow to the left: the interval goes back to {self.kind.first_is}.')
        if any(end == self.kind.last for _, end, _ in intervals):
            notes.append(f'An arrow to the right: the interval goes on to {self.kind.last_is}.')
        if len(self.rows) < len(self.table.rows):
            notes.append(f'Only the first {len(self.rows)} of {len(self.table.rows)} rows are drawn.')
        return notes

    # ------------------------------------------------------------ parts

    def add(self, *parts):
        self.parts += parts

    def head(self):
        """The title, and the names of the attributes."""
        if self.title:
            for line in wrapped(self.title, int((WIDTH - 2 * MARGIN) / TITLE_CHARACTER)):
                self.add(element('text', line, class_='title', x=MARGIN, y=self.y + 12))
                self.y += 18
            self.y += 8
        self.heading = self.y
        most = int((self.right - self.left) / CHARACTER)
        self.add(element('text', cut(self.name, most), class_='name', x=self.left, y=self.y + 11))
        self.y += 20

    def scale(self):
        """The ticks above the lines, and the rules that go down from them; a label begins where its point begins."""
        levels = [level for level in (self.axis.above, self.axis.ticks) if level]
        top = self.y
        self.top = top + 16 * len(levels) + 2
        bottom = self.bottom = self.top + sum(line.height for line in self.lines)
        self.add(*(element('path', class_='rule', d=f'M{short(x)} {short(top + 2)}V{short(bottom)}') for x in (self.left, self.right)))
        for level in reversed(levels):
            at = top if level is levels[0] else top + 16
            is_larger = level is self.axis.above
            labels = self.placed(level)
            for number, text in level:
                x = short(self.x(number))
                self.add(element('path', class_='larger' if is_larger else 'rule', d=f'M{x} {short(at + 2)}V{short(bottom)}'))
            self.add(*(element('text', text, class_='tick', x=x + 4, y=at + 12) for x, text in labels))
        self.y = self.top

    def placed(self, level):
        """Where the labels stand that have room: one that begins before the first tick gives way to the next."""
        places = [(self.x(number), text) for number, text in level]
        if len(places) > 1 and places[0][0] + 8 + characters(places[0][1]) * TICK_CHARACTER > places[1][0]:
            places = places[1:]
        found, free = [], self.left
        for x, text in places:
            end = x + 4 + characters(text) * TICK_CHARACTER
            if x >= free and end <= WIDTH - 4:
                found.append((x, text))
                free = end
        return found

    def labels(self):
        """A column for each other attribute; what is wider than its column is cut off there, whatever the font."""
        x = MARGIN
        for at, (name, width) in enumerate(zip(self.names, self.widths)):
            room = width * CHARACTER
            self.add(f'<svg x="{short(x)}" y="0" width="{short(room)}" height="{short(self.bottom)}">')
            self.add(element('text', cut(name, width), class_='name', x=0, y=self.heading + 11))
            y = self.top
            for line in self.lines:
                self.add(element('text', cut(line.values[at], width), x=0, y=y + LINE_GAP / 2 + 11))
                y += line.height
            self.add('</svg>')
            x += room + BETWEEN * CHARACTER

    def bars(self):
        for line in self.lines:
            self.add(element('path', class_='rule', d=f'M{MARGIN} {short(self.y)}H{WIDTH - MARGIN}'))
            for (begin, end, interval), lane in zip(line.intervals, line.lanes):
                label = self.told(line)
                self.add('<g>' + element('title', f'{label}: {interval}' if label else interval)
                         + self.bar(begin, end, self.y + LINE_GAP / 2 + LANE * lane) + '</g>')
            self.y += line.height

    def bar(self, begin, end, y):
        """A bar, at either end an arrow where the interval goes on to the first or last point of its type."""
        left, right = self.x(max(begin, self.axis.low)), self.x(min(end + 1, self.axis.high))
        right = max(right, left + LEAST)
        if begin != self.kind.first and end != self.kind.last:
            return element('rect', class_='bar', x=left, y=y, width=right - left, height=BAR, rx=2)
        middle, below, out, over = y + BAR / 2, y + BAR, 3, ARROW
        path = f'M{short(left)} {short(y)}H{short(right)}'
        if end == self.kind.last:
            path += f'V{short(y - out)}L{short(right + over)} {short(middle)}L{short(right)} {short(below + out)}V{short(below)}'
        else:
            path += f'V{short(below)}'
        path += f'H{short(left)}'
        if begin == self.kind.first:
            path += f'V{short(below + out)}L{short(left - over)} {short(middle)}L{short(left)} {short(y - out)}'
        return element('path', class_='bar', d=path + 'Z')

    def foot(self):
        for note in self.notes():
            self.y += 18
            self.add(element('text', note, class_='note', x=MARGIN, y=self.y))

    def svg(self, has_style=True):
        """The whole picture; on a page that has the style it can do without."""
        self.parts, self.y = [], MARGIN
        self.head()
        self.scale()
        self.labels()
        self.bars()
        self.foot()
        height, number = self.y + MARGIN - 4, self.table.number
        return '\n'.join([
            f'<svg xmlns="http://www.w3.org/2000/svg" class="timeline" role="img" aria-labelledby="title-{number} description-{number}" '
            f'width="{WIDTH}" height="{short(height)}" viewBox="0 0 {WIDTH} {short(height)}">',
            element('title', self.headline(), id=f'title-{number}'),
            element('desc', self.description(), id=f'description-{number}'),
            *([f'<style>{STYLE}</style>'] if has_style else []),
            element('rect', class_='ground', x=0.5, y=0.5, width=WIDTH - 1, height=height - 1, rx=6),
            *self.parts,
            '</svg>',
        ]) + '\n'


# ---------------------------------------------------------------- a page

PAGE_STYLE = '''html { color-scheme: light dark; font: 14px sans-serif; background: #ffffff; color: #1f2328 }
body { max-width: 880px; margin: 24px auto; padding: 0 12px }
figure { margin: 0 0 28px; overflow-x: auto }
details { margin: 6px 0 }
svg.timeline { display: block; max-width: 100%; min-width: 640px; height: auto; overflow: visible }
pre { overflow-x: auto }
@media (prefers-color-scheme: dark) { html { background: #010409; color: #e6edf3 } }'''


def page(pictures):
    """All pictures on one page, each with its table behind it."""
    figures = []
    for picture in pictures:
        table = picture.table
        figures.append(f'<figure>\n{picture.svg(has_style=False)}<details><summary>Table {table.number}</summary>\n'
                       f'<pre>{marked(table.text)}</pre></details>\n</figure>')
    return '\n'.join([
        '<!DOCTYPE html>', '<html lang="en">', '<head>', '<meta charset="utf-8">', '<meta name="viewport" content="width=device-width">',
        '<title>Timelines</title>', f'<style>{PAGE_STYLE}', f'{STYLE}</style>', '</head>', '<body>', *figures, '</body>', '</html>',
    ]) + '\n'
