"""Prices a run of the gate by crate.

    .ci/run & python3 tools/prices watch RECORD $!
    python3 tools/prices table RECORD.. [--most N]
    python3 tools/prices seconds RECORD..

With watch it notes every second what each check has used that the process of this number started, until that ends; without a number those of the whole machine,
until it is interrupted. It only reads /proc. The file RECORD has a line for each check: its seconds of processor, those on the clock, the niceness, the crate, the
command, the flags that tell what it was for, the folder, and the numbers of the process and of its parent. A piece of work is timed each minute beside them: its
seconds of processor are the first line.

With table it prints the record as a table in Markdown, the dearest crates first: N of them and all others as one line. A crate's proof, its wrong bodies
(with the proofs that they begin with and end with), its tests and what was compiled of it stand apart. A run from nothing is meant: what was kept is not there.
Where a session has several runs, each of which keeps what the earlier ones proved, name their records in their order: of a check that was made again, as one that was
interrupted, the last counts.

With seconds it writes tools/build/seconds.txt, from which ./utd tells how long its build will take: the proofs of the crates below the program. What the record lacks
keeps its seconds, in units of the record's machine.

Ends with status 2 where the words are others, and with 1 where the record is none.
"""
import os
import re
import signal
import statistics
import sys
import time

ROOT = os.path.dirname(os.path.dirname(os.path.dirname(os.path.abspath(__file__))))
sys.path.insert(0, f'{ROOT}/tools/build')
from crates import lines_of_crates, names_below  # noqa: E402
from forecast import PIECE, TABLE, UNPROVED, read_table, time_piece  # noqa: E402

TICK = os.sysconf('SC_CLK_TCK')
COMPILERS = ('rattle', 'rattle-x64', 'rattle-link')
FLAGS = ('--test', '--incremental', '--only', '--crate-checked')
KINDS = ('proof', 'wrong bodies', 'tests', 'compiled')
ONCE = ('proof', 'tests')
# the crate by which the speed of a machine is told
UNIT = 'utd_lexer'
SECONDS_BETWEEN_PIECES = 60
HEAD = f"""# Seconds of processor of each crate's proof from nothing, as `python3 tools/prices seconds RECORD` writes them from a run of the gate.
# {PIECE} is what the piece of work of forecast.py took in that run, {UNPROVED} a run with UTD_UNPROVED=1.
"""


# ---------------------------------------------------------------- watching

def read_processes():
    """What /proc says of each living process: by number, the parent, when it began, the niceness and the seconds of processor, those of its ended children too."""
    found = {}
    for number in filter(str.isdigit, os.listdir('/proc')):
        try:
            with open(f'/proc/{number}/stat', encoding='utf-8', errors='replace') as file:
                words = file.read().rsplit(')', 1)[1].split()
        except OSError:
            continue
        if words[0] != 'Z':
            found[int(number)] = (int(words[1]), int(words[19]), int(words[16]), sum(map(int, words[11:15])) / TICK)
    return found


def read_check(number):
    """The crate, the command, the flags and the folder of a process that is the compiler's, or None."""
    try:
        with open(f'/proc/{number}/cmdline', encoding='utf-8', errors='replace') as file:
            words = file.read().split('\0')
        if os.path.basename(words[0]) not in COMPILERS:
            return None
        folder = os.readlink(f'/proc/{number}/cwd')
    except OSError:
        return None
    crate = words[words.index('--crate-name') + 1] if '--crate-name' in words[:-1] else '?'
    flags = [flag for flag in FLAGS if flag in words]
    return ' '.join([crate, words[1] or '?', *flags, folder])


class Watch:
    """The checks that were seen. The processes that a check starts count to it."""

    def __init__(self, above):
        self.above, self.checks, self.pieces = above, {}, []

    def is_below(self, number, processes):
        """The process was started by the one that is watched."""
        while number in processes and number != self.above:
            number = processes[number][0]
        return number == self.above

    def look(self):
        """Notes what there is now, and says whether there is more to come."""
        processes, found = read_processes(), {}
        for number in processes:
            said = read_check(number)
            if said and (self.above is None or self.is_below(number, processes)):
                found[number] = said
        used = dict.fromkeys(found, 0.0)
        for number in found:
            top = number
            while processes[top][0] in found:
                top = processes[top][0]
            used[top] += processes[number][3]
        now = time.time()
        for number, said in found.items():
            parent, began, nice, _ = processes[number]
            if parent not in found:
                first = self.checks.get((number, began), (0, now))[1]
                self.checks[number, began] = (used[number], first, now, nice, said, parent)
        return self.above is None or self.above in processes

    def write(self, path):
        with open(f'{path}.new', 'w', encoding='utf-8') as file:
            file.write(f'{PIECE} {statistics.median(self.pieces):.3f}\n')
            for (number, _), (used, first, last, nice, said, parent) in self.checks.items():
                file.write(f'{used:9.1f} {last - first:7.0f} {nice:3d} {said} pid={number} parent={parent}\n')
        os.replace(f'{path}.new', path)


def watch(path, above):
    for number in (signal.SIGTERM, signal.SIGHUP):
        signal.signal(number, signal.default_int_handler)
    noted, began = Watch(above), time.monotonic()
    try:
        while True:
            if time.monotonic() - began >= SECONDS_BETWEEN_PIECES * len(noted.pieces):
                noted.pieces.append(time_piece(time.process_time))
            goes_on = noted.look()
            noted.write(path)
            if not goes_on:
                break
            time.sleep(1)
    except KeyboardInterrupt:
        pass


# ---------------------------------------------------------------- reading a record

CHECK = re.compile(r' *([0-9.]+) +([0-9]+) +(-?[0-9]+) (\S+) (\S*) ((?:--\S+ )*)(/.*) pid=([0-9]+) parent=([0-9]+)$')


def kind_of(command, flags, folder):
    """What a check was for, or None where it is none of the gate's."""
    if os.path.basename(folder).startswith('rt-edit-'):
        return 'wrong bodies'
    if command not in ('build', 'check') or '--incremental' in flags or '--only' in flags:
        return None
    if '--test' in flags:
        return 'tests' if command == 'build' else None
    return 'compiled' if '--crate-checked' in flags else 'proof'


def read_records(paths):
    """The seconds of the piece of work, None where it was not timed last, and the seconds by crate and kind; of each what the last record that has it says."""
    piece, seconds = None, {}
    for path in paths:
        piece, found = read_record(path)
        for crate, kinds in found.items():
            seconds.setdefault(crate, dict.fromkeys(KINDS, 0.0)).update({kind: used for kind, used in kinds.items() if used})
    return piece, seconds


def read_record(path):
    """The seconds of the piece of work, None where it was not timed, and the seconds by crate and kind."""
    with open(path, encoding='utf-8') as file:
        lines = file.read().splitlines()
    piece = next((float(line.split()[1]) for line in lines if line.startswith(PIECE)), None)
    checks = [found.groups() for found in map(CHECK.match, lines) if found]
    numbers = {check[7] for check in checks}
    seconds = {}
    for used, _, _, crate, command, flags, folder, _, parent in checks:
        kind = kind_of(command, flags.split(), folder)
        # what a check starts is counted with it
        if crate != '?' and kind and parent not in numbers:
            kinds = seconds.setdefault(crate, dict.fromkeys(KINDS, 0.0))
            # a gate proves a crate and its tests once each
            kinds[kind] = float(used) + (0.0 if kind in ONCE else kinds[kind])
    if not seconds:
        raise ValueError(f'{path} has no check of the gate')
    return piece, seconds


# ---------------------------------------------------------------- what is told of it

def row(name, kinds):
    cells = [f'{kinds[kind]:.0f}' if kinds[kind] else '' for kind in KINDS]
    return f'| {name} | {" | ".join(cells)} | {sum(kinds.values()):.0f} |'


def added(several):
    """The sums by kind."""
    return {kind: sum(kinds[kind] for kinds in several) for kind in KINDS}


def chain_of(seconds, lines):
    """The seconds of the longest chain of crates that stand on one another, and these."""
    chains = {}
    for crate, (_, below) in lines.items():
        longest, names = max((chains[name] for name in below if name in chains), default=(0.0, []))
        chains[crate] = (longest + seconds.get(crate, {}).get('proof', 0.0), [*names, crate])
    return max(chains.values())


def told(seconds):
    """The sums, in minutes and in the seconds of one crate."""
    lines = lines_of_crates()
    product = names_below('utd', lines)
    chain, names = chain_of(seconds, {crate: lines[crate] for crate in lines if crate in product})
    sums = {
        'the whole': sum(sum(kinds.values()) for kinds in seconds.values()),
        'the crates of `./utd`': sum(kinds['proof'] + kinds['compiled'] for crate, kinds in seconds.items() if crate in product),
        'their longest chain': chain,
    }
    unit = seconds.get(UNIT, {}).get('proof')
    parts = [f'{what} {number / 60:.0f} minutes of processor' + (f', {number / unit:.0f} times `{UNIT}`' if unit else '') for what, number in sums.items()]
    first = f'`{UNIT}` {unit:.0f} seconds; ' if unit else ''
    return f'{first}{"; ".join(parts)}.\n\nThe longest chain: {" ".join(f"`{name}`" for name in names if seconds.get(name))}.'


def print_table(paths, most):
    _, seconds = read_records(paths)
    dearest = sorted(seconds.items(), key=lambda item: -sum(item[1].values()))
    print(f'| Crate | {" | ".join(kind.capitalize() for kind in KINDS)} | All |\n|{"---|" * (len(KINDS) + 2)}')
    for crate, kinds in dearest[:most]:
        print(row(f'`{crate}`', kinds))
    rest = dearest[most:] if most is not None else []
    if rest:
        print(row(f'the other {len(rest)}', added([kinds for _, kinds in rest])))
    print(row('all', added([*seconds.values()])))
    print(f'\n{told(seconds)}')


def write_seconds(paths):
    piece, seconds = read_records(paths)
    if piece is None:
        print('tools/prices: the record has no piece of work; it is timed now, here', file=sys.stderr)
        piece = statistics.median(time_piece(time.process_time) for _ in range(9))
    before = read_table()
    scale = piece / before[PIECE]
    found = {name: scale * before[name] for name in before}
    found.update({crate: kinds['proof'] for crate, kinds in seconds.items() if kinds['proof']})
    found[PIECE] = piece
    lines = lines_of_crates()
    product = names_below('utd', lines)
    names = [PIECE, UNPROVED, *(crate for crate in lines if crate in product and crate in found)]
    with open(TABLE, 'w', encoding='utf-8') as file:
        file.write(HEAD + ''.join(f'{name} {found[name]:.{3 if name == PIECE else 0}f}\n' for name in names))


def call_for(words):
    """The call that the words ask for, or None."""
    verb, paths, most = words[:1], words[1:], None
    if verb == ['table'] and paths[-2:-1] == ['--most'] and paths[-1].isdecimal():
        paths, most = paths[:-2], int(paths[-1])
    if not paths or paths[0].startswith('-'):
        return None
    if verb == ['watch'] and (len(paths) == 1 or len(paths) == 2 and paths[1].isdecimal()):
        return lambda: watch(paths[0], int(paths[1]) if paths[1:] else None)
    if verb == ['table']:
        return lambda: print_table(paths, most)
    if verb == ['seconds']:
        return lambda: write_seconds(paths)
    return None


def main(words):
    call = call_for(words)
    if not call:
        print(__doc__.strip(), file=sys.stderr)
        return 2
    try:
        call()
    except (OSError, ValueError) as error:
        print(f'tools/prices: {error}', file=sys.stderr)
        return 1
    return 0


sys.exit(main(sys.argv[1:]))
