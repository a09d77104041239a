"""Numbers of limits that stand elsewhere than at their constant: in code, and in definitions."""
import re

from tree import product_files

LIMITS = 'crates/value_core/src/limits.rt'
# the law that says the number of each constant, so that none can be changed by itself
LAW = 'crates/value_core/specs/LimitLaws.antt'
CONSTANT = re.compile(r'\bconst ([A-Z_]+): [a-z0-9]+ = ([0-9][0-9_]*);')
NAME_OF_LIMIT = re.compile(r'(^|_)MOST(_|$)|BYTES')
NUMBER = re.compile(r'(?<![\w.])[0-9][0-9_]*(?!\w)')
# a number below this says too little by itself to be taken for a limit, but does where something is at most so much
LEAST = 1_000
AT_MOST = re.compile(r'(?:≤|<=|(?<![-=])>) ([0-9][0-9_]*)(?!\w)')
# no limits of ours: number -> what it is
OTHER = {2 ** 63 - 1: 'the greatest number of 64 bits with a sign'}
# (path, number) -> why it is not the limit of that number, or stands there as a text
STANDS = {
    ('crates/presort/src/digits.rt', 64): 'the digits of a number of 64 bits',
    ('crates/utd_gen/src/script.rt', 1_000): 'the tuples of one INSERT of a script that is written',
    ('crates/utd_gen/specs/Script.antt', 1_000): 'the tuples of one INSERT of a script that is written',
    ('crates/utd_session/specs/Run.antt', 65_536): 'the number of most_at_once, which says the constant for definitions',
    ('crates/utd_session/src/status.rt', 16_777_216): 'the text that is printed',
    ('crates/utd_session/specs/Status.antt', 16_777_216): 'the text that is printed',
}


def value_of(digits):
    return int(digits.replace('_', ''))


def constants():
    """Number -> (path, line, name) of each constant of a limit."""
    found = {}
    for _, path, text in product_files('src/**/*.rt'):
        for line, code in enumerate(text.split('\n'), 1):
            for name, digits in CONSTANT.findall(code):
                number = value_of(digits)
                if number not in OTHER and (path == LIMITS or number >= LEAST and NAME_OF_LIMIT.search(name)):
                    found.setdefault(number, []).append((path, line, name))
    return found


def numbers_in(code):
    return {value_of(digits) for digits in NUMBER.findall(code)}, {value_of(digits) for digits in AT_MOST.findall(code)}


def bare_limits():
    """(path, line, number, its constants) of each number of a limit that stands bare."""
    limits = constants()
    for pattern, comment in (('src/**/*.rt', '//'), ('specs/**/*.antt', '--')):
        for _, path, text in product_files(pattern):
            for line, code in enumerate(text.split('\n'), 1):
                all_numbers, at_most = numbers_in(code.split(comment)[0])
                for number in sorted(all_numbers & limits.keys()):
                    if number < LEAST and number not in at_most or path == LAW or (path, number) in STANDS:
                        continue
                    if all((path, line) != place[:2] for place in limits[number]):
                        yield path, line, number, ', '.join(f'{name} of {where}' for where, _, name in limits[number])
