"""Writes the files of the grammar: python3 tools/grammar [--check]

With --check it writes them into a temporary folder, compares them with those that stand, names those that differ, and ends with
status 1 where one does.
"""
import importlib
import os
import sys
import tempfile

sys.dont_write_bytecode = True

import files  # noqa: E402
import split  # noqa: E402

ROOT = os.path.dirname(os.path.dirname(os.path.dirname(os.path.abspath(__file__))))


def write_all():
    """Runs the scripts, each of which builds on those before it."""
    importlib.import_module('trees')
    split.split()
    importlib.import_module('moved')
    importlib.import_module('rows')
    importlib.import_module('builder')
    importlib.import_module('editors')


def check():
    with tempfile.TemporaryDirectory() as folder:
        files.put(folder)
        paths = files.differing(folder, ROOT)
    for path in paths:
        print(f'{path}: not what tools/grammar writes')
    if paths:
        return 1
    print(f'{len(files.whole_texts())} files are what tools/grammar writes')
    return 0


def main(words):
    if words not in ([], ['--check']):
        print(__doc__.strip(), file=sys.stderr)
        return 2
    write_all()
    if words:
        return check()
    files.put(ROOT)
    return 0


sys.exit(main(sys.argv[1:]))
