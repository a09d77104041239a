"""Functions by their bodies and the types of their parameters: without comments and white space, parameters and local names by their order."""
import re

from tree import product_files

HEAD = re.compile(r'^( *)(?:pub(?:\([a-z]+\))? )?(?:const )?(?:unsafe )?fn ([a-z_0-9]+)')
TOKEN = re.compile(r'"(?:[^"\\]|\\.)*"|\'(?:[^\'\\]|\\.)\'|[A-Za-z_][A-Za-z_0-9]*|[0-9][0-9A-Za-z_.]*|\S')
BINDS = re.compile(r'\b(?:let(?: mut)?|for) ([a-z_0-9]+)\b|\|([a-z_0-9]+)\||\bfor \(([a-z_0-9]+), ([a-z_0-9]+)\)')
TAKES = re.compile(r'fn [a-z_0-9]+(?:<.*?>)?\((.*?)\)\s*(->\s*[^{\n]*?)?(?:\n\s*(?:requires|ensures|where|ghost)|\s*\{|\n\{)', re.S)
PARAMETER = re.compile(r'(?:^|[(,]\s*)(?:mut )?([a-z_0-9]+):')
LEAST_LINES = 4
LEAST_CHARACTERS = 120


def functions_of(text):
    """(line, name, head, body lines) of each function with a body."""
    lines = text.split('\n')
    for at, line in enumerate(lines):
        head = HEAD.match(line)
        if not head:
            continue
        indent = head[1]
        if line.endswith('}') or line.endswith(';'):
            continue
        end = next((n for n in range(at, len(lines)) if lines[n] == indent + '}'), None)
        if end is None:
            continue
        begin = next((n for n in range(at, end) if lines[n] == indent + '{'), None)
        if begin is None:
            begin = next((n for n in range(at, end) if lines[n].endswith(' {')), None)
        if begin is not None:
            yield at + 1, head[2], '\n'.join(lines[at:begin + 1]), lines[begin + 1:end]


def types_of(head):
    """The types of the parameters and of the result."""
    takes = TAKES.search(head)
    kinds = re.sub(r'\b(?:mut )?[a-z_0-9]+: ', ' ', takes[1]) + ' ' + (takes[2] or '') if takes else ''
    return ' '.join(kinds.replace(',', ' ').split())


def form_of(head, lines):
    """The types, and the body's words with a number for each parameter and local name; None where it is short."""
    lines = [re.sub(r'\s*//.*', '', line) for line in lines]
    lines = [line for line in lines if line.strip()]
    body = '\n'.join(lines)
    if len(lines) < LEAST_LINES and len(' '.join(body.split())) < LEAST_CHARACTERS:
        return None
    bound = PARAMETER.findall(head) + [name for names in BINDS.findall(body) for name in names if name]
    numbers = {}
    for name in bound:
        numbers.setdefault(name, f'#{len(numbers)}')
    words = TOKEN.findall(body)
    return types_of(head) + ': ' + ' '.join(numbers.get(word, word) if at == 0 or words[at - 1] != '.' else word for at, word in enumerate(words))


def all_functions():
    for crate, path, text in product_files('src/**/*.rt'):
        for line, name, head, lines in functions_of(text):
            form = form_of(head, lines)
            if form:
                yield form, crate, path, line, name
