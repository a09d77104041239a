"""Refuses each allocation, read and write of the program in turn: python3 tools/faults [--program FILE] [SCRIPT..]

The program is crates/utd/out/utd, or the one that is named. Without scripts it takes those of crates/utd_rows/data/faults and those beside this file, with
--dump too, all of examples/ and the generated one of 100. Each runs once for each allocation, read and write that it makes, which is refused: alone, and with
all of its kind from there on. A read and a write move at most 100 bytes.

An answer is right where
  a refused allocation gives status 5 and what some of the first statements write, or the whole answer,
  a refused read gives status 3 and what the statements write that end in the bytes before it,
  a refused write gives status 4 and the beginning of what the script writes,
and the line of the status stands on standard error. The whole answer has to be that of the file SCRIPT.out, where there is one.

Then it runs the program over streams that are closed, full, or a pipe whose reader has gone (streams.py).

It needs a C compiler, and takes that of the kit, cc, gcc or clang, for the library that refuses (refusing.c). It needs no proof and runs outside of the gate.
Prints a line for each script and each stream, and the answers that are wrong. The status is 0 where none is, 1 where one is, 2 for wrong words or where the
program or a compiler is missing.
"""
import argparse
import os
import sys
import tempfile

import program
import scripts
import streams
import sweep

ROOT = os.path.dirname(os.path.dirname(os.path.dirname(os.path.abspath(__file__))))
PROGRAM = f'{ROOT}/crates/utd/out/utd'


def words_of(given):
    parser = argparse.ArgumentParser(prog='tools/faults', description=__doc__, formatter_class=argparse.RawDescriptionHelpFormatter)
    parser.add_argument('--program', default=PROGRAM, metavar='FILE')
    parser.add_argument('scripts', nargs='*', metavar='SCRIPT')
    return parser.parse_args(given)


def sweep_all(tried, chosen):
    """Tells of each script how its runs came out; gives how many runs there were, and how many were wrong."""
    runs = wrong = 0
    for script in chosen:
        tally = sweep.of_script(tried, script)
        print(f'{script.name}: {tally.text()}', flush=True)
        for fault in tally.wrong:
            print(f'    {fault}', flush=True)
        runs, wrong = runs + tally.number(), wrong + len(tally.wrong)
    return runs, wrong


def try_streams(tried):
    """Tells how the program ends on each stream; gives how often that is wrong."""
    wrong = 0
    for case in streams.CASES:
        fault = streams.fault_of(tried, case)
        print(f'{case.title}: {fault or case.told()}', flush=True)
        wrong += fault is not None
    return wrong


def scripts_of(paths):
    """The scripts of these files, or all that there are."""
    for path in paths:
        if not os.path.isfile(path):
            raise program.Missing(f'there is no script {path}')
    return [scripts.of_file(path) for path in paths] or scripts.all_scripts(ROOT)


def try_all(tried, chosen):
    """Tells all that comes of the scripts and the streams; gives how much of it is wrong."""
    runs, wrong = sweep_all(tried, chosen)
    wrong_streams = try_streams(tried)
    print(f'{runs:,} runs of {len(chosen)} scripts, {wrong} wrong; {len(streams.CASES)} streams, {wrong_streams} wrong')
    return wrong + wrong_streams


def main(given):
    words = words_of(given)
    try:
        chosen = scripts_of(words.scripts)
        with tempfile.TemporaryDirectory() as room:
            return 1 if try_all(program.Program(words.program, room), chosen) else 0
    except program.Missing as error:
        print(f'faults: {error}', file=sys.stderr)
        return 2


if __name__ == '__main__':
    sys.exit(main(sys.argv[1:]))
