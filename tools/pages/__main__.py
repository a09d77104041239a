"""Holds the pages to the rows of crates/utd_rows: python3 tools/pages [--rows PAGE]

Every script of the pages, which is fenced as utd and has what it prints fenced behind it, and every examples/NAME.td with its NAME.out, has to stand
among the rows that the gate runs, byte for byte; crates/utd_rows names every file of rows, and how many rows there are. Every code of a refusal has a line
that says what to do about it, docs/README.md names every page of docs/, and links and paths lead somewhere. The map of the crates agrees with crates.txt
(layers.py), and the definitions that a reader must believe are those that the top call cites (cited.py). Ends with status 1 where something differs, and names it.

With --rows PAGE it writes the rows of a page as crates/utd_rows/data/ has them, to be looked at and kept there.
"""
import glob
import os
import re
import sys

from cited import PAGE as DEFINITIONS
from cited import faults_of_definitions
from layers import MAP, faults_of_map

ROOT = os.path.dirname(os.path.dirname(os.path.dirname(os.path.abspath(__file__))))
# a script, and what it prints
SCRIPT = re.compile(r'^```utd\n(.*?)^```\n(?:\nprints\n\n```\n(.*?)^```\n)?', re.S | re.M)
HEADING = re.compile(r'^#+ (.*)$', re.M)
REFUSED = re.compile(r'^statement [0-9]+ refused: (E[0-9][0-9])', re.M)
# a file or a folder of a crate, without crates/ and without the suffix of a definition; or one of the tools
PATH = re.compile(r'`((?:[a-z_]+/(?:src|specs|proofs|data)|tools)(?:/[A-Za-z_]+(?:\.[a-z]+)?)*)/?`')
LANGUAGE = 'docs/language.md'
ROWS = 'crates/utd_rows'


def text_of(path):
    with open(f'{ROOT}/{path}', encoding='utf-8', newline='') as file:
        return file.read()


def paths_of(pattern):
    return sorted(os.path.relpath(path, ROOT) for path in glob.glob(f'{ROOT}/{pattern}'))


def scripts_of(page):
    """The heading, the script and the output of each script of a page; no output where none stands behind it."""
    text = text_of(page)
    found = []
    for match in SCRIPT.finditer(text):
        above = [heading[1] for heading in HEADING.finditer(text, 0, match.start())]
        found.append((above[-1], match[1], match[2]))
    return found


def status_of(output):
    return 1 if REFUSED.search(output) else 0


def row_of(title, script, output):
    """A row of crates/utd_rows/data/: the script's last line end is that of the empty line."""
    return f'=== {title}\n{script}\n--- {status_of(output)}\n{output}'


def rows_of(path):
    """The rows of a file: whole, without their titles."""
    return [row.split('\n', 1)[1] for row in re.split('^=== ', text_of(path), flags=re.M)[1:]]


def wanted():
    """What has to stand among the rows: the place, the script and the output."""
    found = []
    for page in pages():
        found += [(f'{page}, under "{heading}"', script, output) for heading, script, output in scripts_of(page)]
    for example in paths_of('examples/*.td'):
        found.append((example, text_of(example), text_of(example[:-3] + '.out')))
    return found


def unrun():
    """The files of data/ that the program does not run, and the number of rows where it is not the one that is wanted of it."""
    run = re.findall(r'"([a-z_/]+\.txt)"', text_of(f'{ROWS}/src/main.rt'))
    paths = [*paths_of(f'{ROWS}/data/*.txt'), *paths_of(f'{ROWS}/data/streams/*.txt')]
    faults = [f'{path}: src/main.rt does not name it' for path in [*paths, *paths_of(f'{ROWS}/data/faults/*.txt')]
              if os.path.relpath(path, f'{ROWS}/data') not in run]
    number = f'{sum(len(rows_of(path)) for path in paths)} scripts agree'
    return faults + ([] if number in text_of(f'{ROWS}/stdout').splitlines() else [f'{ROWS}/stdout: there are {number}'])


def lacking(scripts):
    rows = {row for path in paths_of(f'{ROWS}/data/*.txt') for row in rows_of(path)}
    faults = []
    for place, script, output in scripts:
        if output is None:
            faults.append(f'{place}: a script without what it prints')
        elif row_of('', script, output).split('\n', 1)[1] not in rows:
            faults.append(f'{place}: this script with this output is no row of {ROWS}/data')
    return faults


def codes_without_advice():
    """The codes of the table of refusals that no line says what to do about, and those of which only that is said."""
    text = text_of(LANGUAGE)
    told, _, advised = text.partition('### What to do about it')
    codes, advice = (set(re.findall(r'^\| (E[0-9][0-9]) \|', part, re.M)) for part in (told, advised.split('\n## ')[0]))
    return [f'{LANGUAGE}: {code} has {"no line" if code in codes else "only a line"} that says what to do about it' for code in sorted(codes ^ advice)]


def pages():
    return ['README.md', *paths_of('*/*.md'), *paths_of('tools/*/*.md')]


def unlisted():
    """The pages of docs/ that its index does not name."""
    index = text_of('docs/README.md')
    names = [os.path.basename(page) for page in paths_of('docs/*.md')]
    return [f'docs/README.md does not name {name}' for name in names if name != 'README.md' and f'`{name}`' not in index]


def anchor_of(heading):
    return re.sub(r'[^\w -]', '', heading.lower()).replace(' ', '-')


def leading_nowhere():
    """The links of the pages that name no file, or no heading of one."""
    faults = []
    for page in pages():
        for link in re.findall(r'\]\(([^)\s]*)\)', text_of(page)):
            path, _, anchor = link.partition('#')
            to = os.path.normpath(f'{os.path.dirname(page)}/{path}') if path else page
            is_there = os.path.exists(f'{ROOT}/{to}')
            if not is_there or anchor and anchor not in [anchor_of(heading[1]) for heading in HEADING.finditer(text_of(to))]:
                faults.append(f'{page}: the link {link} leads nowhere')
    return faults


def stands(path):
    places = [path] if path.startswith('tools') else [f'crates/{path}', f'crates/{path}.antt']
    return any(os.path.exists(f'{ROOT}/{place}') for place in places)


def paths_to_nothing():
    """The files of crates and the tools that a page names and that are not there."""
    return [f'{page}: there is no {path}' for page in pages() for path in PATH.findall(text_of(page)) if not stands(path)]


def check():
    scripts = wanted()
    faults = unrun() + lacking(scripts) + codes_without_advice() + unlisted() + leading_nowhere() + paths_to_nothing()
    faults += faults_of_map(text_of(MAP)) + faults_of_definitions(text_of(DEFINITIONS))
    for fault in faults:
        print(fault)
    if not faults:
        print(f'{len(scripts)} scripts of the pages and examples are among the rows')
    return 1 if faults else 0


def main(words):
    if len(words) == 2 and words[0] == '--rows':
        sys.stdout.write(''.join(row_of(f'under "{heading}"', script, output) for heading, script, output in scripts_of(words[1])))
        return 0
    if words:
        print(__doc__.strip(), file=sys.stderr)
        return 2
    return check()


sys.exit(main(sys.argv[1:]))
