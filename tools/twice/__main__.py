"""Holds the product to one place for each thing: python3 tools/twice [--test]

Prints, with file and line,
  each function body that stands in two crates over the same types (four lines or 120 characters; parameters and local names by their order),
  each lemma's statement that stands in two crates (variables by their order, explicit or not),
  each definition of specs/ that stands under one name in two crates,
  each number of a limit that stands elsewhere than at its constant, in code or in a definition (below 1,000 where something is at most so much),
and ends with status 1 where it finds any. The product is all crates but tests and rows, without the files that tools/grammar writes.
What stands twice for a reason is in apart.py. With --test it tries its own parts.
"""
import sys

from apart import APART
from functions import all_functions
from limits import bare_limits
from statements import all_definitions, all_lemmas
from tree import in_two_crates


def twice(what, things):
    count = 0
    for group in in_two_crates(things):
        if frozenset((path, name) for _, path, _, name in group) in APART:
            continue
        count += 1
        print(f'one {what} in two crates:')
        for _, path, line, name in group:
            print(f'    {path}:{line} {name}')
    return count


def main():
    if '--test' in sys.argv[1:]:
        import tests
        return tests.run()
    found = [
        twice('function body', all_functions()),
        twice('lemma', all_lemmas()),
        twice('definition', all_definitions()),
    ]
    bare = 0
    for path, line, number, constant in bare_limits():
        bare += 1
        print(f'a limit that is bare:\n    {path}:{line} {number}: {constant}')
    print(f'twice: {found[0]} function bodies, {found[1]} lemmas, {found[2]} definitions; {bare} bare limits')
    return 1 if any(found) or bare else 0


sys.exit(main())
