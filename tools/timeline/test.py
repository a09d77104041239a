"""Tests tools/timeline: python3 tools/timeline/test.py [--renew]

The page of every examples/NAME.out has the sum that examples.txt tells, and the pictures of docs/images are what the tool writes. Other texts are drawn,
read as XML and measured. With --renew it writes examples.txt and docs/images instead; git diff shows what changed.
"""
import glob
import hashlib
import os
import subprocess
import sys
import tempfile
import unittest
from xml.etree import ElementTree

TOOL = os.path.dirname(os.path.abspath(__file__))
ROOT = os.path.dirname(os.path.dirname(TOOL))
SUMS, IMAGES = f'{TOOL}/examples.txt', f'{ROOT}/docs/images'
SVG = '{http://www.w3.org/2000/svg}'
# the pictures of the pages: example -> titles
TITLED = {
    'cover': ['For which days was each of them covered?', 'For which days of the year was each of them not covered?',
              'How many policies held at each time?', 'The policies of Grace, without August'],
    'histories': [],
}
OPEN = '''| N | VALID                   |
| 1 | [0001-01-01:2012-03-04] |
| 2 | [2012-01-01:9999-12-31] |
rows: 2
'''
FLOORS = '''| FLOORS        | WHO   |
| [GROUND:ROOF] | 'Ada' |
| [FIRST:FIRST] | 'Zoë' |
rows: 2
'''
SHIFTS = '''| DUTY                                      | N    | SINCE               |
| [2023-05-06T14:00:00:2023-05-06T21:59:59] | 1    | 2023-05-06T14:00:00 |
| [2023-05-06T21:45:00:9999-12-31T23:59:59] | 2    | 2023-05-06T21:45:00 |
rows: 2
'''
NUMBERS = '| N | VALID |\n' + ''.join(f'| 1 | [{number}:{number}] |\n' for number in range(900)) + 'rows: 900\n'


def run(text, *words):
    """Standard output, standard error and the status of the tool."""
    done = subprocess.run([sys.executable, TOOL, *words], input=text.encode(), capture_output=True, check=False)
    return done.stdout.decode(), done.stderr.decode(), done.returncode


def files_of(text, *words):
    """The name and the text of each SVG that the tool writes."""
    with tempfile.TemporaryDirectory() as folder:
        run(text, '--svg', f'{folder}/picture', *words)
        return {os.path.basename(path): read(path) for path in sorted(glob.glob(f'{folder}/*'))}


def read(path):
    with open(path, encoding='utf-8', newline='') as file:
        return file.read()


def write(path, text):
    with open(path, 'w', encoding='utf-8', newline='\n') as file:
        file.write(text)


def examples():
    return sorted(os.path.basename(path)[:-4] for path in glob.glob(f'{ROOT}/examples/*.out'))


def sums():
    """A line for each example: how many pictures its page has, and the sum of the page."""
    pages = [(name, run(read(f'{ROOT}/examples/{name}.out'))[0]) for name in examples()]
    return ''.join(f'{name} {page.count("<figure>")} {hashlib.sha256(page.encode()).hexdigest()}\n' for name, page in pages)


def images():
    """The pictures of the pages: name -> text."""
    found = {}
    for name, titles in TITLED.items():
        words = [word for title in titles for word in ('--title', title)]
        pictures = files_of(read(f'{ROOT}/examples/{name}.out'), *words)
        found.update({picture.replace('picture', name): text for picture, text in pictures.items() if titles or picture.endswith('-1.svg')})
    return found


def drawn(text, *words):
    """The first picture of a text, as a tree."""
    return ElementTree.fromstring(next(iter(files_of(text, *words).values())))


def texts_of(tree):
    return [element.text for element in tree.iter(f'{SVG}text')]


def bars_of(tree):
    return [element for element in tree.iter() if element.get('class') == 'bar']


class Stored(unittest.TestCase):
    def test_sums_of_the_examples(self):
        self.assertEqual(sums(), read(SUMS), 'look at the pictures, then: python3 tools/timeline/test.py --renew')

    def test_images_of_the_pages(self):
        stored = {os.path.basename(path): read(path) for path in glob.glob(f'{IMAGES}/*.svg')}
        self.assertEqual(images(), stored, 'look at the pictures, then: python3 tools/timeline/test.py --renew')


class Drawn(unittest.TestCase):
    def test_equal_labels_are_on_one_line(self):
        tree = drawn("| N  | VALID |\n| 'a' | [1:2] |\n| 'a' | [4:5] |\n| 'b' | [2:3] |\nrows: 3\n")
        self.assertEqual(len({bar.get('y') for bar in bars_of(tree)}), 2)

    def test_overlapping_rows_are_below_one_another(self):
        tree = drawn('| VALID |\n| [1:4] |\n| [2:3] |\n| [5:9] |\nrows: 3\n')
        first, second, third = (bar.get('y') for bar in bars_of(tree))
        self.assertTrue(first == third != second)

    def test_lines_are_in_the_order_of_their_values(self):
        texts = texts_of(drawn("| D     | S    | T   |\n| [1:3] | 4711 | 'b' |\n| [2:2] | 12   | 'a' |\n| [5:9] | 4711 | 'a' |\nrows: 3\n"))
        self.assertIn(['12', '4711', '4711', 'T', 'a', 'a', 'b'], [texts[at:at + 7] for at in range(len(texts))])

    def test_arrows(self):
        tree = drawn(OPEN)
        self.assertEqual([bar.tag for bar in bars_of(tree)], [f'{SVG}path'] * 2)
        notes = [text for text in texts_of(tree) if text.startswith('An arrow')]
        self.assertEqual([note.split()[-1] for note in notes], ['0001-01-01.', '9999-12-31.'])
        self.assertFalse([text for text in texts_of(drawn(NUMBERS)) if text.startswith('An arrow')])

    def test_dates_before_other_intervals(self):
        text = '| A     | B                       |\n| [1:2] | [2012-01-01:2012-02-01] |\nrows: 1\n'
        self.assertIn('Jan 2012', texts_of(drawn(text)))
        self.assertNotIn('Jan 2012', texts_of(drawn(text, '--by', 'A')))

    def test_order_of_an_ordinal_type(self):
        names = [text for text in texts_of(drawn(FLOORS)) if text in ('GROUND', 'FIRST', 'ROOF')]
        self.assertEqual(names, ['GROUND', 'ROOF', 'FIRST'])
        names = texts_of(drawn(FLOORS, '--order', 'GROUND,FIRST,ROOF'))
        self.assertEqual([text for text in names if text in ('GROUND', 'FIRST', 'ROOF')], ['GROUND', 'FIRST', 'ROOF'])
        self.assertIn('--order', run(FLOORS)[1])
        self.assertEqual(run(FLOORS, '--order', 'GROUND,FIRST,ROOF')[1], '')

    def test_many_rows_are_cut(self):
        self.assertEqual(len(bars_of(drawn(NUMBERS))), 500)
        self.assertIn('Only the first 500 of 900 rows are drawn.', texts_of(drawn(NUMBERS)))
        self.assertEqual(len(bars_of(drawn(NUMBERS, '--most', '1000'))), 900)
        self.assertIn('--most', run(NUMBERS)[1])

    def test_ticks(self):
        for begin, end, expected in [
                ('2012-02-27', '2012-03-02', ['Feb 2012', 'Mar 2012', '27', '28', '29', '1', '2']),
                ('2012-01-01', '2012-05-05', ['1', '8', '15', '22']), ('2012-01-01', '2013-02-28', ['2012', '2013', 'Jan', 'Feb', 'Mar']),
                ('2010-07-01', '2013-02-28', ['2011', 'Jul', 'Oct', 'Jan', 'Apr']), ('2000-01-01', '2012-12-31', ['2000', '2001', '2012']),
                ('0001-01-02', '9998-12-31', ['1000', '2000', '9000']), ('-5', '3', ['-5', '-4', '0', '3']), ('0', '999', ['0', '100', '900'])]:
            shown = texts_of(drawn(f'| VALID |\n| [{begin}:{end}] |\nrows: 1\n'))
            self.assertFalse(set(expected) - set(shown), f'{begin} to {end}: {shown}')

    def test_ticks_of_moments(self):
        for begin, end, expected in [
                ('2012-02-29T23:59:57', '2012-03-01T00:00:02', ['29 Feb 2012', '1 Mar 2012', '23:59:58', '00:00:00', '00:00:02']),
                ('2012-02-29T08:00:00', '2012-02-29T08:09:59', ['29 Feb 2012', '08:00', '08:01', '08:09']),
                ('2012-02-29T08:00:00', '2012-02-29T17:59:59', ['29 Feb 2012', '08:00', '09:00', '17:00']),
                ('2012-02-29T08:00:00', '2012-03-02T17:59:59', ['29 Feb 2012', '1 Mar 2012', '2 Mar 2012', '00:00', '06:00', '12:00', '18:00']),
                ('2012-02-20T08:00:00', '2012-03-08T17:59:59', ['Feb 2012', 'Mar 2012', '21', '29', '1', '8']),
                ('2012-01-01T00:00:00', '2013-02-28T23:59:59', ['2012', '2013', 'Jan', 'Feb', 'Mar']),
                ('0001-01-01T00:00:00', '9999-12-31T23:59:59', ['1000', '2000', '9000'])]:
            shown = texts_of(drawn(f'| VALID |\n| [{begin}:{end}] |\nrows: 1\n'))
            self.assertFalse(set(expected) - set(shown), f'{begin} to {end}: {shown}')

    def test_moments(self):
        tree = drawn(SHIFTS)
        self.assertEqual([bar.tag for bar in bars_of(tree)], [f'{SVG}rect', f'{SVG}path'])
        self.assertIn('N 2, SINCE 2023-05-06T21:45:00: [2023-05-06T21:45:00:9999-12-31T23:59:59].', tree.find(f'{SVG}desc').text)
        self.assertTrue([text for text in texts_of(tree) if text.startswith('An arrow') and text.endswith('9999-12-31T23:59:59.')])


class Measured(unittest.TestCase):
    """No text reaches over its column or the picture, and no two labels of an axis meet."""

    def wild(self):
        names = [f'A{number}' for number in range(15)]
        texts = ['x', 'long ' * 50, '日本語' * 28, '<&>"\'\' | \'\'\u0301\u202e\x7f\uffff']
        for value in [*(f"'{text}'" for text in texts), '-9223372036854775808', 'FALSE']:
            for interval in ('[2012-01-01:9999-12-31]', '[0001-01-01:9999-12-31]', '[-9223372036854775808:9223372036854775807]', '[1:1]',
                             '[2012-01-01T08:00:00:2012-01-01T17:59:59]', '[2012-02-29T23:59:58:9999-12-31T23:59:59]',
                             '[-9223372036854775807:9223372036854775806]', f'[{"N" * 64}:M]'):
                for many in (1, 3, 15):
                    yield f'| {" | ".join(names[:many])} | VALID |\n| {" | ".join([value] * many)} | {interval} |\nrows: 1\n'

    def test_texts_stay_in_their_places(self):
        sys.path.insert(0, TOOL)
        from picture import CHARACTER, TICK_CHARACTER, TITLE_CHARACTER, Picture
        from tables import read as read_tables
        from widths import characters
        sizes = {'title': TITLE_CHARACTER, 'tick': TICK_CHARACTER, 'note': TICK_CHARACTER}
        for text in [*self.wild(), *(read(f'{ROOT}/examples/{name}.out') for name in examples())]:
            for table in read_tables(text)[0]:
                if not table.intervals():
                    continue
                tree = ElementTree.fromstring(Picture(table, table.intervals()[0], 'A title of some words ' * 9 + 'x' * 200).svg())
                for place in [tree, *tree.iter(f'{SVG}svg')]:
                    free = {}
                    for element in place.findall(f'{SVG}text'):
                        left, line = float(element.get('x')), element.get('y')
                        right = left + characters(element.text) * sizes.get(element.get('class'), CHARACTER)
                        self.assertLessEqual(right, float(place.get('width')) + 0.1, element.text)
                        if element.get('class') == 'tick':
                            self.assertGreaterEqual(left, free.get(line, 0), element.text)
                            free[line] = right


class Told(unittest.TestCase):
    def test_page(self):
        page, faults, status = run(OPEN)
        self.assertEqual((faults, status), ('', 0))
        ElementTree.fromstring(page.replace('<!DOCTYPE html>', '').replace('<meta charset="utf-8">', '').replace(
            '<meta name="viewport" content="width=device-width">', ''))

    def test_text_alternative(self):
        tree = drawn(OPEN, '--title', 'A & B')
        self.assertEqual(tree.get('role'), 'img')
        title, description = tree.find(f'{SVG}title'), tree.find(f'{SVG}desc')
        self.assertEqual(tree.get('aria-labelledby'), f'{title.get("id")} {description.get("id")}')
        self.assertEqual(title.text, 'A & B')
        self.assertIn('N 1: [0001-01-01:2012-03-04].', description.text)

    def test_what_is_left_out(self):
        text = '| N |\n| 1 |\nrows: 1\nTRUE\n| D |\nrows: 0\n|\n|\nrows: 1\n' + OPEN
        faults = run(text)[1].splitlines()
        self.assertEqual(faults, [f'table {number} has no {what} and is left out'
                                  for number, what in ((1, 'interval attribute'), (2, 'rows'), (3, 'interval attribute'))])
        self.assertEqual(list(files_of(text)), ['picture-4.svg'])

    def test_refusals(self):
        line = 'statement 2 refused: E10 unknown name at 2:7\n'
        self.assertEqual(run(OPEN + line)[1:], (line, 1))
        self.assertEqual(run(OPEN + line)[0], run(OPEN)[0])

    def test_wrong_words(self):
        for words in (['--most', '0'], ['--svgs', 'x'], ['file'], ['--title']):
            page, faults, status = run(OPEN, *words)
            self.assertEqual((page, status), ('', 2))
            self.assertTrue(faults.startswith('usage: tools/timeline'))

    def test_wrong_input(self):
        for text in ('hello\n', '| N |\n| 1 |\n', '| N |\n| 1 |\nrows: 2\n', '| N |\n| 1 | 2 |\nrows: 1\n', 'TRUE', "| N |\n| 'a |\nrows: 1\n",
                     '| N |\n| [2023-02-30:2023-03-01] |\nrows: 1\n', '| N |\n| [2023-02-30T00:00:00:2023-03-01T00:00:00] |\nrows: 1\n',
                     '| N |\n| [2023-02-03T00:00:00:2023-03-01] |\nrows: 1\n', '| N |\n| [2023-02-03:2023-03-01T00:00:00] |\nrows: 1\n',
                     '| N |\n| [1:2] |\n| 3 |\nrows: 2\n'):
            self.assertEqual((run(text)[0], run(text)[2]), ('', 3), text)
        self.assertEqual(run(OPEN, '--svg', '/nowhere/picture')[2], 3)


def renew():
    os.makedirs(IMAGES, exist_ok=True)
    for path in glob.glob(f'{IMAGES}/*.svg'):
        os.remove(path)
    for name, text in images().items():
        write(f'{IMAGES}/{name}', text)
    write(SUMS, sums())


if __name__ == '__main__':
    sys.dont_write_bytecode = True
    if sys.argv[1:] == ['--renew']:
        renew()
    else:
        unittest.main(verbosity=0)
