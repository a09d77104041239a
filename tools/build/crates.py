"""What crates.txt says of the crates: each one's line, and those on which it stands."""
import os

ROOT = os.path.dirname(os.path.dirname(os.path.dirname(os.path.abspath(__file__))))


def lines_of_crates():
    """Each crate's line of crates.txt and the names on it, lowest first."""
    lines = {}
    with open(f'{ROOT}/crates.txt', encoding='utf-8') as file:
        for line in file:
            crate, found, below = line.split('#')[0].partition(':')
            if found:
                lines[crate.split()[0]] = (line, below.split())
    return lines


def names_below(name, lines):
    """The crate and those of the repository that it stands on."""
    wanted, left = set(), [name]
    while left:
        crate = left.pop()
        if crate in lines and crate not in wanted:
            wanted.add(crate)
            left += lines[crate][1]
    return wanted
