"""Plays broken insertions on the two ways by which rows come in, and looks whether both answer the same bytes.

    python3 tools/mutants PROGRAM [COUNT [SEED]]

PROGRAM is the built program, crates/utd/out/utd. COUNT scripts (2,000 if not said) of one to four insertions or settings are drawn, most of them with a tuple
that is broken (breaks.py) or with characters that are dropped, changed, added or exchanged. Each is played as it is, so that rows come straight from bytes
where they can, and once more with a change of nothing on the line before each statement: two changes in one are read by the general way alone. Each is
played for its answers and refusals, and with --dump for the rows that then stand, whatever a mutation left open at the end. In a third of the scripts each
relvar has a log, which is printed at the end; these have no dump.

Prints the first scripts that differ, then how many were played, how many statements were refused, how many dumps have rows, and how many scripts have logs.
Status 1 where one differs, 2 for wrong words.
"""
import concurrent.futures
import os
import subprocess
import sys

from scripts import Drawn

SCRIPTS = 2_000
SEED = 49
SHOWN = 3
SECONDS = 60
WRONG_WORDS = 2


def run(words, script):
    """The status and what is written, to both streams."""
    ran = subprocess.run(words, input=script, capture_output=True, timeout=SECONDS, check=False)
    return ran.returncode, ran.stdout, ran.stderr


def answers(program, script):
    """What comes of a script, and what then stands."""
    return run([program], script), run([program, '--dump'], script)


def played(program, pairs):
    """What comes of each pair of scripts, in their order."""
    with concurrent.futures.ThreadPoolExecutor(os.cpu_count()) as pool:
        return list(pool.map(lambda pair: [answers(program, script) for script in pair], pairs))


def words_of(given):
    """The program, how many scripts, and the seed; none where the words are wrong."""
    if not 1 <= len(given) <= 3 or not os.access(given[0], os.X_OK) or not all(word.isdigit() for word in given[1:]):
        return None
    numbers = [int(word) for word in given[1:]]
    return given[0], *numbers, *[SCRIPTS, SEED][len(numbers):]


def main(given):
    words = words_of(given)
    if words is None:
        print(__doc__, file=sys.stderr)
        return WRONG_WORDS
    program, count, seed = words
    drawn = Drawn(seed)
    pairs = [drawn.script() for _ in range(count)]
    wrong = refused = kept = logged = 0
    for pair, (one, other) in zip(pairs, played(os.path.abspath(program), pairs)):
        (_, told, _), (_, dump, _) = one
        refused += told.count(b' refused: ')
        kept += b'INSERT' in dump
        logged += b'\nLOG ' in pair[0]
        wrong += one != other
        if one != other and wrong <= SHOWN:
            print(pair[0].decode(errors='replace'), one, other, sep='\n')
    print(f'{count} scripts played on both ways, {refused} statements refused, rows stand after {kept}, {logged} have logs; {wrong} scripts differ')
    return 1 if wrong else 0


if __name__ == '__main__':
    sys.exit(main(sys.argv[1:]))
