"""The files that are written, laid out as `rt fmt` lays them out, and their comparison with those that stand."""
import os
import re

HEAD = 'Written by tools/grammar; change it there.'
COMMENT = {'.antt': '--', '.rt': '//', '.vim': '"'}
WIDTH = 100
# a call's arguments and an array's items stand on one line up to this width
SHORT = 60

# (crate, path in the crate) -> text, without the head line
WRITTEN = {}
# path from the repository's root, for what is of no crate -> text, without the head line
APART = {}


def text_of(name):
    """A text of tools/grammar/text."""
    folder = os.path.dirname(os.path.abspath(__file__))
    with open(f'{folder}/text/{name}', encoding='utf-8') as file:
        return file.read()


def writer(crate):
    """What writes a file of the crate, from its text or its lines."""
    def write(path, text):
        if not isinstance(text, str):
            text = '\n'.join(text)
        if path.endswith('.antt'):
            text = without_unused(with_single_spaces(text))
        WRITTEN[(crate, path)] = text.rstrip('\n') + '\n'
    return write


def head_line(path):
    """The line that says that a file is written; JSON has no comments."""
    kind = os.path.splitext(path)[1]
    return f'{COMMENT[kind]} {HEAD}\n' if kind in COMMENT else ''


def whole_texts():
    """Path from the repository's root -> text, head line included."""
    texts = {f'crates/{crate}/{path}': text for (crate, path), text in WRITTEN.items()} | APART
    return {path: head_line(path) + text for path, text in texts.items()}


def put(root):
    for path, text in whole_texts().items():
        whole = f'{root}/{path}'
        os.makedirs(os.path.dirname(whole), exist_ok=True)
        with open(whole, 'w', encoding='utf-8') as file:
            file.write(text)


def differing(written, standing):
    """The paths of the files under `written` that are others, or none, under `standing`."""
    paths = []
    for folder, _, names in os.walk(written):
        for name in names:
            path = os.path.relpath(f'{folder}/{name}', written)
            if bytes_of(f'{written}/{path}') != bytes_of(f'{standing}/{path}'):
                paths.append(path)
    return sorted(paths)


def bytes_of(path):
    if not os.path.exists(path):
        return None
    with open(path, 'rb') as file:
        return file.read()


# ---------------------------------------------------------------- layout of .antt

def with_single_spaces(text):
    lines = []
    for line in text.split('\n'):
        bare = line.lstrip(' ')
        lines.append(line[:len(line) - len(bare)] + re.sub(r' +', ' ', bare).rstrip(' '))
    return '\n'.join(lines)


def without_unused(text):
    """The text without the imports that nothing in it names."""
    lines = text.split('\n')
    body = '\n'.join(line for line in lines if not line.startswith('use '))
    body = re.sub(r'--.*', '', body)
    words = {word.split('.')[0] for word in re.findall(r'[^\s(){},;]+', body)}
    modules = set(re.findall(r'([A-Za-z_]+)\.', body))

    def is_named(name):
        name = name.split(' as ')[-1]
        if '◌' in name:
            return all(part in words for part in name.split('◌') if part)
        return name in words

    kept = []
    for line in lines:
        listed = re.match(r'(use [^{]*)\{(.*)\}$', line)
        if listed:
            names = [name for name in listed[2].split(', ') if is_named(name)]
            if names:
                kept.append(listed[1] + '{' + ', '.join(names) + '}')
        elif not line.startswith('use ') or line.split(' as ')[-1] in modules:
            kept.append(line)
    return '\n'.join(kept)


def pairs_of(items):
    """`(a, (b, tt))`, a pair a level."""
    def at(depth, items):
        indent = '  ' * depth
        if not items:
            return [f'{indent}tt,']
        return [f'{indent}(', f'{indent}  {items[0]},'] + at(depth + 1, items[1:]) + [f'{indent}),']
    return '\n'.join(at(0, items))[:-1]


# ---------------------------------------------------------------- layout of .rt

def use_lines(path, names):
    """`use path::{names};`, over lines where it is long."""
    line = f'use {path}::{{' + ', '.join(names) + '};'
    if len(line) <= WIDTH:
        return [line]
    lines, current = [], '   '
    for name in names:
        if len(current) + len(name) + 2 > WIDTH:
            lines.append(current)
            current = '   '
        current += f' {name},'
    return [f'use {path}::{{'] + lines + [current, '};']


def call(name, arguments):
    return ('call', name, arguments)


def array(items):
    return ('array', '&', items)


def on_one_line(value):
    if isinstance(value, str):
        return value
    kind, name, parts = value
    inner = ', '.join(map(on_one_line, parts))
    return f'{name}({inner})' if kind == 'call' else f'{name}[{inner}]'


def lines_of(value, depth):
    """The lines of a value that stands at the depth, without what follows it."""
    return [on_one_line(value)] if is_short(value) else broken(value, depth)


def broken(value, depth):
    kind, name, parts = value
    opening, closing = ('(', ')') if kind == 'call' else ('[', ']')
    if kind == 'call' and len(parts) == 1 and parts[0][0] == 'array':
        first, *inner, last = broken(parts[0], depth)
        return [f'{name}({first}'] + inner + [f'{last})']
    indent = '    ' * depth
    lines = [f'{name}{opening}']
    for part in parts:
        first, *inner = lines_of(part, depth + 1)
        lines += [f'{indent}    {first}'] + inner
        lines[-1] += ','
    return lines + [f'{indent}{closing}']


def table_lines(head, values):
    """`head [values];`, where a single value stands with the brackets."""
    if len(values) > 1:
        return [f'{head} ['] + [line for value in values for line in item_lines(value)] + ['];']
    line = f'{head} [{on_one_line(values[0])}];'
    if is_short(values[0]) and len(line) <= WIDTH:
        return [line]
    first, *inner, last = broken(values[0], 0)
    return [f'{head} [{first}'] + inner + [f'{last}];']


def item_lines(value):
    lines = lines_of(value, 1)
    lines[0] = f'    {lines[0]}'
    lines[-1] += ','
    return lines


def is_short(value):
    """It and its parts stand on one line."""
    if isinstance(value, str):
        return True
    _, _, parts = value
    return len(', '.join(map(on_one_line, parts))) <= SHORT and all(map(is_short, parts))
