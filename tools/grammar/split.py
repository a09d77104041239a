"""Splits the long lemma files of crates/utd_syntax, as trees.py writes them, at items that stand at the margin, and mends the
imports of all of its files."""
import re

import files

CRATE = 'utd_syntax'
PROOFS = f'Rattle.{CRATE}.proofs'

# file -> its parts in order: (name, the item that the part begins with, what the part says)
PLAN = {
    'Reader': [
        ('FormValues', None, 'What forms and rows make of their tokens and of what stands behind them.'),
        ('Reader', 'make_names', 'What the table reads: a value for each form.'),
    ],
    'Complete': [
        ('FormEnds', None, 'Forms that end before a token that they do not take, and which tokens may begin a form.'),
        ('FirstTokens', 'conj-first', 'A tree begins with a token that may begin its form.'),
        ('ReadScalars', 'dash-takes', 'The table reads what a row expression writes as that expression.'),
        ('Complete', 'rel-reads', 'The table reads what a tree writes as that tree.'),
    ],
    'Sound': [
        ('SoundForms', None, 'What the rows of the table make writes their tokens.'),
        ('Sound', 'literal-sound', 'What the table reads writes the tokens.'),
    ],
    'Refused': [
        ('Completions', None, 'The tokens that complete a stack, and that they do.'),
        ('GoodScalars', 'GoodForms', 'The rows of row expressions and of parts of statements keep stacks good.'),
        ('GoodRelations', 'good-the_list', 'The rows of lists and of relations keep stacks good.'),
        ('GoodStatements', 'good-the_key', 'The rows of declarations and of statements keep stacks good.'),
        ('Refused', 'kind', 'Each stack that the table reaches can be completed; so E01 is that no statement continues so.'),
    ],
}
DEFINED = re.compile(r'^(?:  )?(?:(?:pub|abbrev|unfoldable|record|data) )*([^\s(){},:]+)(?: [({].*?[)}])* : ')
HEAD = re.compile(r'^(?:  )?(?:(?:pub|abbrev|unfoldable|record|data) )*')


def defined_in(lines):
    names = []
    for line in lines:
        found = DEFINED.match(line)
        if found and found.group(1) not in names:
            names.append(found.group(1))
    return names


def start_of(body, item):
    """The line with which the block begins, its comments included, that defines the item."""
    if item is None:
        return 0
    i = next(i for i, line in enumerate(body) if DEFINED.match(line) and DEFINED.match(line).group(1) == item)
    while i and body[i - 1].strip():
        i -= 1
    return i


def published(lines):
    out = []
    for line in lines:
        if DEFINED.match(line):
            head = HEAD.match(line).group(0)
            if 'pub ' not in head:
                indent = head[:len(head) - len(head.lstrip())]
                words = head.split()
                if words and words[0] in ('abbrev', 'unfoldable'):
                    words.insert(1, 'pub')
                else:
                    words.insert(0, 'pub')
                line = indent + ' '.join(words) + ' ' + line[len(head):]
        out.append(line)
    return out


def tokens_of(lines):
    return set(re.split(r'[\s(){},\[\]λ.]+', '\n'.join(lines)))


def split_file(file, parts, home):
    """The file's parts, as name -> text; tells `home` in which part each item stands."""
    lines = files.WRITTEN.pop((CRATE, f'proofs/{file}.antt')).split('\n')
    end = next(i for i, line in enumerate(lines) if i and line.strip() == '')
    imports, body = [x for x in lines[:end] if x.startswith('use ')], lines[end + 1:]
    starts = [start_of(body, item) for _, item, _ in parts]
    pieces = [body[a:b] for a, b in zip(starts, starts[1:] + [len(body)])]
    texts, earlier = {}, []
    for (name, _, about), piece in zip(parts, pieces):
        while piece and piece[-1].strip() == '':
            piece.pop()
        names = defined_in(piece)
        texts[name] = [f'-- {about}'] + imports + imports_from(earlier, piece) + [''] + published(piece)
        earlier.append((name, names))
        for item in names:
            home[(file, item)] = name
    return {name: '\n'.join(text) + '\n' for name, text in texts.items()}


def imports_from(parts, piece):
    """The imports of what the piece uses of these parts."""
    used, lines = tokens_of(piece), []
    for name, items in parts:
        taken = [item for item in items if item in used]
        if taken:
            lines.append(f'use {PROOFS}.{name}.{{{", ".join(taken)}}}')
    return lines


def mended(text, home):
    """The text with its imports from the parts in which the items stand."""
    out = []
    for line in text.split('\n'):
        found = re.match(rf'^use {re.escape(PROOFS)}\.(\w+)\.\{{(.*)\}}$', line)
        names = found.group(2).split(', ') if found else []
        if any((found.group(1), name) in home for name in names):
            by_part = {}
            for name in names:
                by_part.setdefault(home.get((found.group(1), name), found.group(1)), []).append(name)
            out += [f'use {PROOFS}.{part}.{{{", ".join(items)}}}' for part, items in by_part.items()]
        else:
            out.append(line)
    return '\n'.join(out)


def split():
    home, texts = {}, {}
    for file, parts in PLAN.items():
        texts.update(split_file(file, parts, home))
    write = files.writer(CRATE)
    for name, text in texts.items():
        write(f'proofs/{name}.antt', mended(text, home))
    for (crate, path), text in list(files.WRITTEN.items()):
        if crate == CRATE and path.endswith('.antt'):
            write(path, mended(text, home))
