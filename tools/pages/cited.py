"""Holds docs/definitions.md to what the contract of the top call cites.

The page's first part names, as a file or by its folder, each file of definitions that the contract cites, directly or not; the parts behind it name none of
them as files.
"""
import glob
import os
import re

ROOT = os.path.dirname(os.path.dirname(os.path.dirname(os.path.abspath(__file__))))
PAGE = 'docs/definitions.md'
TOP = 'utd_program/src/top.rt'
CITED = re.compile(r'^(?:ghost )?use Rattle\.([a-z_]+)\.specs\.([A-Z]\w*)', re.M)
NAMED = re.compile(r'`([a-z_]+)/specs(?:/(\w+))?`')


def definitions():
    """The files of definitions by crate and name, with what each cites."""
    found = {}
    for path in glob.glob(f'{ROOT}/crates/*/specs/*.antt'):
        with open(path, encoding='utf-8') as file:
            name = os.path.basename(path)[:-len('.antt')]
            found[path.split(os.sep)[-3], name] = CITED.findall(file.read())
    return found


def cited_by_top():
    """The crate and the name of each file that the contract of the top call cites, directly or not."""
    files = definitions()
    with open(f'{ROOT}/crates/{TOP}', encoding='utf-8') as file:
        left = CITED.findall(file.read())
    found = set()
    while left:
        cited = left.pop()
        if cited in files and cited not in found:
            found.add(cited)
            left += files[cited]
    return found


def faults_of_definitions(page):
    first, *others = re.split(r'^# (?=Calls over boxes|Inner ways)', page, flags=re.M)
    told = set(NAMED.findall(first))
    cited = cited_by_top()
    faults = [f'{PAGE}: the first part does not name {crate}/specs/{name}, which run cites' for crate, name in sorted(cited)
              if (crate, name) not in told and (crate, '') not in told]
    for other in others:
        faults += [f'{PAGE}: "{other.split(chr(10))[0]}" names {crate}/specs/{name}, which run cites' for crate, name in NAMED.findall(other)
                   if (crate, name) in cited]
    return faults
