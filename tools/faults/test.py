"""Tries tools/faults by a program that stands in for utd and makes one mistake at a time: python3 tools/faults/test.py

Says nothing and ends with status 0 where the tool takes the stand-in without a mistake and finds each mistake; names what it does not find and ends with 1;
ends with 2 where there is no C compiler.
"""
import os
import subprocess
import sys
import tempfile

import program
import streams
import sweep
from scripts import Script

SOURCE = os.path.join(os.path.dirname(os.path.abspath(__file__)), 'stand_in.c')
# the mistakes of the stand-in, and the kinds of calls at which they show
MISTAKES = (
    ('NOTHING', []),
    ('HALF', ['allocation']),
    ('SKIP', ['allocation']),
    ('CRASH', ['allocation']),
    ('DEAF', ['read']),
    ('SILENT', ['write']),
    ('WRONG_LINE', ['allocation', 'read', 'write']),
)
SCRIPT = Script('four statements', text=b';' + b' ' * 150 + b'; ;' + b' ' * 99 + b';')


def stand_in(mistake, room):
    """A stand-in that makes the mistake."""
    path = f'{room}/{mistake}'
    subprocess.run([program.compiler(), f'-DMISTAKE={mistake}', '-w', '-o', path, SOURCE], check=True)
    return program.Program(path, room)


def found_in(tried):
    """The kinds of calls at which the sweep finds something wrong."""
    wrong = sweep.of_script(tried, SCRIPT).wrong
    return [kind.name for kind in sweep.KINDS if any(fault.startswith(kind.name) for fault in wrong)]


def faults_in(room):
    faults = []
    for mistake, kinds in MISTAKES:
        tried = stand_in(mistake, room)
        found = found_in(tried)
        if found != kinds:
            faults.append(f'{mistake}: the sweep finds {found}, and not {kinds}')
        if mistake == 'NOTHING':
            faults += streams_without_words(tried)
    return faults


def streams_without_words(tried):
    """What the streams find in the stand-in, which knows no words."""
    found = [(case.title, streams.fault_of(tried, case)) for case in streams.CASES if not case.words]
    return [f'{title}: {fault}' for title, fault in found if fault]


def main():
    with tempfile.TemporaryDirectory() as room:
        try:
            faults = faults_in(room)
        except program.Missing as error:
            print(f'faults: {error}', file=sys.stderr)
            return 2
    for fault in faults:
        print(f'tools/faults/test.py: {fault}')
    return 1 if faults else 0


sys.exit(main())
