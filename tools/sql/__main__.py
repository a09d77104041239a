"""Writes a script as SQL for PostgreSQL 15 or later: python3 tools/sql < SCRIPT > SCRIPT.sql

Each statement becomes SQL under a comment with its number: relvars are tables, views are views, PRINT and ASK are SELECTs, and assignments are transactions.
Intervals are ranges, and operators under USING work on the ends of these. Functions that the SQL calls stand before it, in the schema utd.
`psql -f SCRIPT.sql` runs it.

A statement that is refused for its text, its names or its kinds, or that PostgreSQL cannot say, is left out and named on standard error.

    python3 tools/sql --behind FILE            writes the script alone, which stands behind the script of FILE and knows what that declares
    python3 tools/sql --check                  plays the examples and the rows of crates/utd_rows in PostgreSQL too, and compares the answers
    python3 tools/sql --check FOLDER COMMAND   the same with the scripts of a folder and what COMMAND, which reads a script, prints of each

--check starts a PostgreSQL of its own in a temporary folder, as Debian's package postgresql has one, and stops it. It says how many statements agree, and
names what differs and is not told in docs/to-sql.md.

The status is 0; 1 where a statement was refused or something differs; 2 for wrong words, a file that cannot be read, or where there is no PostgreSQL.
"""
import signal
import sys

sys.dont_write_bytecode = True
# an expression is read as deep as it is nested
sys.setrecursionlimit(100000)

import check  # noqa: E402
import postgresql  # noqa: E402
from functions import needed  # noqa: E402
from statements import Names, translated  # noqa: E402


def declared(path):
    """What the script of a file declares."""
    names = Names()
    for _ in translated(check.text_of(path), names):
        pass
    return names


def translate(names):
    parts, status = [], 0
    for statement in translated(sys.stdin.read(), names):
        told = f' refused: {statement.refusal}' if statement.refusal else ''
        parts.append(f'-- statement {statement.number}{told}\n{statement.sql}'.rstrip('\n'))
        if statement.refusal:
            print(f'statement {statement.number}{told}', file=sys.stderr)
            status = 1
    text = '\n\n'.join(parts)
    print('\n\n'.join(part for part in (needed(text), text) if part))
    return status


def compare(words):
    # whoever ends this ends the server too
    signal.signal(signal.SIGTERM, lambda *_: sys.exit(128 + signal.SIGTERM))
    folder_of_programs = postgresql.programs()
    if not folder_of_programs:
        print(f'sql: {postgresql.ABSENT}', file=sys.stderr)
        return 2
    scripts = check.scripts_in(words[0], words[1:]) if words else [*check.examples(), *check.rows()]
    with postgresql.Server(folder_of_programs) as server:
        comparison = check.compared(server, scripts)
    for fault in comparison.faults:
        print(f'{fault}\n')
    print(', '.join(f'{name}: {count}' for name, count in comparison.counts.items()))
    return 1 if comparison.faults else 0


def main(words):
    if not words:
        return translate(Names())
    if words[0] == '--check' and len(words) != 2:
        return compare(words[1:])
    if words[0] == '--behind' and len(words) == 2:
        try:
            return translate(declared(words[1]))
        except OSError as error:
            print(f'sql: {error}', file=sys.stderr)
            return 2
    print(__doc__.strip(), file=sys.stderr)
    return 2


sys.exit(main(sys.argv[1:]))
