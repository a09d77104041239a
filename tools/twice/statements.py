"""Lemmas by their statements, and definitions by their texts: names of variables by their order, other names by where they come from."""
import re
from typing import NamedTuple

from tree import product_files

USE = re.compile(r'^use (?:pub )?Rattle\.(([a-z_0-9]+)\.[^ {]*?)\.?(?:\{([^}]*)\}| as (\S+)|)$', re.M)
DECLARED = re.compile(r'^( *)((?:pub |unfoldable |abbrev |private |opaque )*)([^\s:(){}]+) :(?= |$)')
MODULE = re.compile(r'^( *)(?:pub )?module \S+(.*)$')
TYPE = re.compile(r'^ *(?:pub )?(?:record|data) (?:pub )?([^\s:(){}]+)', re.M)
WORD = re.compile(r'[(){}\[\],;|]|[^\s(){}\[\],;|]+')
OPENS = {'(': ')', '{': '}', '[': ']'}
NO_NAMES = {*OPENS, *OPENS.values(), ':', ',', ';', '|', '→', '×', 'λ'}
# what a type says that is a statement, and no type of values
SAYS = re.compile(r'[≡≤<≥>↔×⊎≢]|⊥')


def without_comments(text):
    return re.sub(r'(^|\s)--[^\n]*', r'\1', text)


def imports_of(text):
    """Name in the file -> where it comes from; std's names are its own wherever they are taken from."""
    origins = {}
    for module, crate, names, alias in USE.findall(text):
        for item in (names or alias).split(','):
            whole, _, other = item.strip().partition(' as ')
            if whole:
                origins[other or whole] = whole if crate == 'std' else f'{module}.{whole}'
    return origins


class Item(NamedTuple):
    """A name that a file or a module of it declares."""
    line: int
    defines: bool
    name: str
    modules: list  # the telescopes of the modules around
    kind: str
    whole: str  # type and clauses


def indent_of(line):
    return len(line) - len(line.lstrip(' '))


def end_of(lines, at, indent, name):
    """Behind the lines that are deeper, blank, or clauses of the name."""
    while at < len(lines):
        line = lines[at]
        first = re.split(r'[ (]', line.lstrip(' '), maxsplit=1)[0]
        if line.strip() and indent_of(line) <= indent and first not in (name, 'unfolding'):
            break
        at += 1
    return at


def declared(text):
    """The items at the head of a file or of a module."""
    lines = without_comments(text).split('\n')
    modules = []  # (indent of its items, telescope)
    at = 0
    while at < len(lines):
        line, begin = lines[at], at
        at += 1
        if not line.strip():
            continue
        while modules and indent_of(line) < modules[-1][0]:
            modules.pop()
        indent = indent_of(line)
        if indent != (modules[-1][0] if modules else 0):
            continue
        module, head = MODULE.match(line), DECLARED.match(line)
        if module:
            telescope = module[2]
            while not telescope.rstrip().endswith('where'):
                telescope += ' ' + lines[at].strip()
                at += 1
            modules.append((indent + 2, telescope.rstrip()[:-len('where')]))
        elif head:
            while at < len(lines) and lines[at].strip() and indent_of(lines[at]) > indent:
                at += 1
            kind = ' '.join([line[head.end():]] + lines[begin + 1:at])
            end = end_of(lines, at, indent, head[3])
            whole = ' '.join(' '.join([kind] + lines[at:end]).split())
            defines = 'abbrev' in head[2] or 'unfoldable' in head[2]
            yield Item(begin + 1, defines, head[3], [telescope for _, telescope in modules], kind, whole)


def binder(words, at):
    """(names, index of ':', index behind the group) where a group of variables with their type begins; else None."""
    if words[at] not in ('(', '{'):
        return None
    close, end = OPENS[words[at]], at + 1
    while end < len(words) and words[end] not in NO_NAMES:
        end += 1
    if end >= len(words) or end == at + 1:
        return None
    if words[end] != ':' and not (words[at] == '{' and words[end] == close):
        return None
    depth, stop = 1, end
    while depth and stop < len(words):
        if stop != end or words[stop] != ':':
            depth += (words[stop] in OPENS) - (words[stop] in OPENS.values())
        stop += 1
    return words[at + 1:end], end, stop


class Form:
    """The statement's words, a variable by the number of its binding."""

    def __init__(self, place, origins, own):
        self.place, self.origins, self.own, self.out, self.count = place, origins, own, [], 0

    def name(self, word, bound):
        first, dot, rest = word.partition('.')
        if first in bound:
            return bound[first] + dot + rest
        if first in self.own:
            return f'{self.place}:{word}'
        return self.origins.get(first, first) + dot + rest

    def bind(self, name, bound):
        bound[name] = f'#{self.count}'
        self.count += 1

    def add(self, words, bound):
        at = 0
        while at < len(words):
            word = words[at]
            group = binder(words, at)
            if word == 'λ':
                at = self.add_lambda(words, at + 1, bound)
            elif group:
                names, colon, stop = group
                for name in names:
                    self.out.append('(')
                    self.add(words[colon + 1:stop - 1], dict(bound))
                    self.out.append(')')
                for name in names:
                    self.bind(name, bound)
                at = stop
                if at < len(words) and words[at] == '→':
                    at += 1
            elif word in OPENS:
                depth, stop = 1, at + 1
                while depth and stop < len(words):
                    depth += (words[stop] in OPENS) - (words[stop] in OPENS.values())
                    stop += 1
                self.out.append(word)
                self.add(words[at + 1:stop - 1], dict(bound))
                self.out.append(OPENS[word])
                at = stop
            else:
                self.out.append(self.name(word, bound))
                at += 1

    def add_lambda(self, words, at, bound):
        self.out.append('λ')
        while at < len(words):
            group = binder(words, at)
            if group:
                for name in group[0]:
                    self.bind(name, bound)
                at = group[2]
                if at < len(words) and words[at] == '.':
                    return at + 1
            else:
                word = words[at]
                self.bind(word.rstrip('.'), bound)
                at += 1
                if word.endswith('.'):
                    return at
        return at


def groups_of(telescope):
    words = WORD.findall(telescope)
    at, groups = 0, []
    while at < len(words):
        group = binder(words, at)
        if not group:
            return groups
        groups.append((group[0], words[at:group[2]]))
        at = group[2]
    return groups


def used(groups, words, said_by_proof):
    """The groups whose names the words say, by themselves or by the types of others; of premises those that the proof says."""
    said = {word.split('.')[0] for word in words}
    kept = []
    for names, group in reversed(groups):
        colon = group.index(':') if ':' in group else len(group) - 1
        kind = group[colon + 1:-1]
        names = [name for name in names if name in said or (name in said_by_proof and is_statement(kind))]
        if names:
            kept.insert(0, group[:1] + names + group[colon:])
            said |= {word.split('.')[0] for word in kind}
    return [word for group in kept for word in group]


def said_by(items):
    """Name -> the words of its statement and proof, and of what stands in the file that these say."""
    direct = {}
    for item in items:
        direct.setdefault(item.name, set()).update(word.split('.')[0] for word in WORD.findall(item.whole))
    whole = {}
    for name in direct:
        seen, rest = set(), {name}
        while rest:
            one = rest.pop()
            seen.add(one)
            rest |= (direct[one] & direct.keys()) - seen
        whole[name] = set().union(*(direct[one] for one in seen))
    return whole


def conclusion(words):
    depth, last = 0, 0
    for at, word in enumerate(words):
        depth += (word in OPENS) - (word in OPENS.values())
        if word == '→' and depth == 0:
            last = at + 1
    return words[last:]


def is_statement(words):
    """A statement ends in a relation or in a word for one, and no type of values."""
    end = conclusion(words)
    if end[:1] == ['Type'] or end in (['Set'], ['Prop']):
        return False
    if any(SAYS.fullmatch(word) or word in ('≤ℤ', '<ℤ') for word in end):
        return True
    return bool(re.match(r'Is|Are|Has|Have|In$|All|Contains|Gives|OnOk|OnErr|IfOk|Decides|[A-Z][a-z]+s$', end[0])) if end else False


def form_of(item, place, origins, own, said_by_proof, words):
    around = [group for telescope in item.modules for group in groups_of(telescope)]
    form = Form(place, origins, own)
    form.add(used(around, words, said_by_proof) + words, {})
    return ' '.join(form.out)


def lemma_forms(path, text):
    """(form, line, name) of each lemma of a file."""
    origins = imports_of(text)
    items = list(declared(text))
    said = said_by(items)
    own = {item.name for item in items} | set(TYPE.findall(without_comments(text)))
    for item in items:
        words = WORD.findall(item.kind)
        if not item.defines and is_statement(words):
            yield form_of(item, path, origins, own, said[item.name], words), item.line, item.name


def all_lemmas():
    for crate, path, text in product_files('proofs/*.antt'):
        for form, line, name in lemma_forms(path, text):
            yield form, crate, path, line, name


def all_definitions():
    for crate, path, text in product_files('specs/**/*.antt'):
        origins = imports_of(text)
        for item in declared(text):
            form = form_of(item, path, origins, set(), set(), WORD.findall(item.whole))
            yield f'{item.name} : {form}', crate, path, item.line, item.name
