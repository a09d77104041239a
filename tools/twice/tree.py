"""The product's files: crates that are no tests or rows, and no file that tools/grammar writes."""
import glob
import os
import re

ROOT = os.path.dirname(os.path.dirname(os.path.dirname(os.path.abspath(__file__))))
APART = re.compile(r'_tests$|^utd_rows$')
WRITTEN = 'Written by tools/grammar'


def product_files(pattern):
    """(crate, path from the root, text) of each file crates/CRATE/PATTERN."""
    for path in sorted(glob.glob(f'{ROOT}/crates/*/{pattern}', recursive=True)):
        path = os.path.relpath(path, ROOT)
        crate = path.split('/')[1]
        if APART.search(crate):
            continue
        with open(f'{ROOT}/{path}', encoding='utf-8') as file:
            text = file.read()
        if WRITTEN not in text.split('\n', 1)[0]:
            yield crate, path, text


def in_two_crates(things):
    """Of (form, crate, path, line, name), those lists of one form that stand in two crates or more."""
    by_form = {}
    for thing in things:
        by_form.setdefault(thing[0], []).append(thing[1:])
    return [found for found in by_form.values() if len({crate for crate, *_ in found}) > 1]
