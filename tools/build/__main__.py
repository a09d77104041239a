"""Proves and builds the program utd, or runs it unproved: python3 tools/build [--benchmarks] [--unproved [WORD..]]

Without words it has `rt ci` prove, on a copy, the crate utd and those below it, several side by side, and puts the program at crates/utd/out/utd. The copy
has no wrong bodies and no tests: the gate tries those. A kit that keeps proofs has what was proved for a later build and for the gate, so after an interrupt
the next build goes on from there; with one that keeps none it begins anew.

With --unproved it compiles the program without its proofs and runs it on standard input with the words behind, which is what `rt try` does, and ends with the
program's status.

With --benchmarks it does the same for operator_benchmarks, which the gate leaves out, and puts that at out/operator_benchmarks. Its files stand in
tools/benchmarks/operator_benchmarks, each .rt and .antt with .txt behind its name, since a repository may have none that its gate does not read.

What the two commands say stands in out/build.log; what is told of them goes to standard error. Ends with 70 where there is no program, with 130 at an
interrupt; then nothing half done is left.
"""
import contextlib
import os
import re
import shutil
import signal
import subprocess
import sys
import tempfile
import threading
import time

from crates import lines_of_crates, names_below
from forecast import PIECE, UNPROVED, Forecast, minutes, read_table, seconds_here

ROOT = os.path.dirname(os.path.dirname(os.path.dirname(os.path.abspath(__file__))))
LOG = f'{ROOT}/out/build.log'
BENCHMARKS = 'operator_benchmarks'
BENCHMARKS_FOLDER = f'{ROOT}/tools/benchmarks/{BENCHMARKS}'
PROGRAMS = {'utd': f'{ROOT}/crates/utd/out/utd', BENCHMARKS: f'{ROOT}/out/{BENCHMARKS}'}
# where no line can be written over, the part of the work after which a second forecast is told, once
FIRST_PART = 0.1
NO_PROGRAM = 70
INTERRUPTED = 130


def tell(text):
    print(f'utd: {text}', file=sys.stderr, flush=True)


def shown(path):
    """The path as the caller would write it."""
    near = os.path.relpath(path)
    return path if near.startswith('..') else near


def clock(seconds):
    return f'{int(seconds) // 60}:{int(seconds) % 60:02}'


def interrupt(_number, _frame):
    raise KeyboardInterrupt


# ---------------------------------------------------------------- the copy

def crates_below(name):
    """The crate and those of the repository that it stands on, lowest first, each with its line of crates.txt and the names on it."""
    lines = lines_of_crates()
    if name == BENCHMARKS:
        with open(f'{BENCHMARKS_FOLDER}/line', encoding='utf-8') as file:
            line = file.read()
        lines[name] = (line, line.split()[1:])
    wanted = names_below(name, lines)
    return {crate: said for crate, said in lines.items() if crate in wanted}


def copy_benchmarks(to):
    """Copies the crate that stands outside of crates/, with the names that its files have in a crate."""
    for folder, _, names in os.walk(BENCHMARKS_FOLDER):
        at = os.path.join(to, os.path.relpath(folder, BENCHMARKS_FOLDER))
        os.makedirs(at, exist_ok=True)
        for name in names:
            if name != 'line':
                shutil.copyfile(f'{folder}/{name}', f'{at}/{name.removesuffix(".txt")}')


def copy_to(room, crates):
    """Copies these crates, as rt ci wants a repository, without what it would try beside their proofs."""
    os.makedirs(f'{room}/.git')
    for crate in crates:
        to = f'{room}/crates/{crate}'
        if crate == BENCHMARKS:
            copy_benchmarks(to)
        else:
            shutil.copytree(f'{ROOT}/crates/{crate}', to, symlinks=True, ignore=shutil.ignore_patterns('out', 'must-fail', 'wrong-bodies'))
    shutil.copyfile(f'{ROOT}/HANDLES', f'{room}/HANDLES')
    with open(f'{room}/crates.txt', 'w', encoding='utf-8') as file:
        file.writelines(line for line, _ in crates.values())


def sweep(folder):
    """Removes the rooms of builds that were killed."""
    for name in os.listdir(folder):
        of = re.match(r'utd-build-([0-9]+)-', name)
        if of and not os.path.exists(f'/proc/{of[1]}'):
            shutil.rmtree(f'{folder}/{name}', ignore_errors=True)


# ---------------------------------------------------------------- how far it is

class Progress:
    """One line that says how far a build is, written over itself on a terminal."""

    def __init__(self, room, crates, forecast):
        self.room, self.crates, self.forecast = room, crates, forecast
        self.proved, self.kept, self.at_work, self.is_told = set(), set(), {}, False
        self.began, self.is_terminal = time.monotonic(), sys.stderr.isatty()

    def hear(self, line):
        """A line that rt ci said."""
        of = re.match(r'rt: (\w+) (?:(proved)$|is kept: )', line)
        if of:
            (self.proved if of[2] else self.kept).add(of[1])

    def look(self):
        """Notes which crates are at work, and mends the forecast."""
        done, now = self.proved | self.kept, time.monotonic()
        for crate in self.crates:
            if crate in done:
                self.at_work.pop(crate, None)
            elif os.path.isdir(f'{self.room}/crates/{crate}/out'):
                self.at_work.setdefault(crate, now)
        since = {crate: now - began for crate, began in self.at_work.items()}
        self.forecast.note(now - self.began, self.kept, self.proved, since)

    def elapsed(self):
        return time.monotonic() - self.began

    def text(self):
        number = len(self.proved) + len(self.kept)
        line = f'utd: {number} of {len(self.crates)} crates proved, {clock(self.elapsed())} min, about {minutes(self.forecast.left)} more'
        return f'{line}; now {" ".join(self.at_work)}' if self.at_work else line

    def show(self):
        self.look()
        if self.is_terminal:
            width = shutil.get_terminal_size().columns
            sys.stderr.write(f'\r\033[K{self.text()[:width - 1]}')
            sys.stderr.flush()
        elif not self.is_told and self.proved and self.forecast.done > FIRST_PART:
            tell(f'by what the first crates took about {minutes(self.forecast.left)} more')
            self.is_told = True

    def clear(self):
        if self.is_terminal:
            sys.stderr.write('\r\033[K')
            sys.stderr.flush()


def listen(rt, log, progress):
    for line in rt.stdout:
        log.write(line)
        log.flush()
        progress.hear(line)


def prove(room, progress):
    """Runs rt ci in the room, and gives its status."""
    how = {'stdin': subprocess.DEVNULL, 'stdout': subprocess.PIPE, 'stderr': subprocess.STDOUT, 'encoding': 'utf-8', 'errors': 'replace'}
    environment = {**os.environ, 'TMPDIR': os.path.dirname(room), 'PYTHONUNBUFFERED': '1'}
    with open(LOG, 'w', encoding='utf-8') as log:
        rt = subprocess.Popen(['rt', 'ci'], cwd=room, env=environment, start_new_session=True, **how)
        ear = threading.Thread(target=listen, args=(rt, log, progress), daemon=True)
        ear.start()
        try:
            while rt.returncode is None:
                progress.show()
                with contextlib.suppress(subprocess.TimeoutExpired):
                    rt.wait(1)
            ear.join(10)
        finally:
            end(rt)
            progress.clear()
    return rt.returncode


def end(rt):
    """Ends the command where it still runs; what it started ends with it."""
    if rt.poll() is None:
        rt.terminate()
        try:
            rt.wait(10)
        except subprocess.TimeoutExpired:
            rt.kill()
            rt.wait()


# ---------------------------------------------------------------- building

def processors():
    """How many there are to use: those that this process may run on, or fewer by the quota of its control group."""
    number = len(os.sched_getaffinity(0))
    try:
        with open('/sys/fs/cgroup/cpu.max', encoding='utf-8') as file:
            quota, period = file.read().split()
        return max(1, min(number, int(quota) // int(period)))
    except (OSError, ValueError):
        return number


def pace(table):
    """Seconds on the clock that one of the table takes on this machine, as busy as it is."""
    return seconds_here(processors()) / table[PIECE]


def forecast_of(crates):
    below = {crate: [name for name in names if name in crates] for crate, (_, names) in crates.items()}
    table = read_table()
    return Forecast(below, table, processors(), pace(table))


def announce(name, crates, forecast):
    about = minutes(forecast.left)
    tell(f'proving and building {name if name == BENCHMARKS else "the program"}, once: {len(crates)} crates')
    tell(f'about {about} on this machine, as busy as it is now; less where the kit has kept proofs')
    tell(f'the log is {shown(LOG)}; after an interrupt it goes on from there if the kit keeps proofs, and else begins anew')
    if name == 'utd':
        tell('UTD_UNPROVED=1 runs the program without its proofs')


def put(made, program, began):
    """Puts the program in its place, as old as the sources that were copied."""
    os.makedirs(os.path.dirname(program), exist_ok=True)
    shutil.copy(made, f'{program}.new')
    os.utime(f'{program}.new', (began, began))
    os.replace(f'{program}.new', program)


def why_not():
    """The lines of the log that say what failed, or else the last ones."""
    with open(LOG, encoding='utf-8') as log:
        lines = log.read().splitlines()
    found = [line for line in lines if re.search(r'NOT PROVED|FAILED|error\[|^rt: .*(disk|killed)', line)]
    return (found or lines)[-8:]


def build(name):
    began = time.time()
    sweep(tempfile.gettempdir())
    crates = crates_below(name)
    forecast = forecast_of(crates)
    announce(name, crates, forecast)
    folder = tempfile.mkdtemp(prefix=f'utd-build-{os.getpid()}-')
    try:
        room = f'{folder}/utd'
        copy_to(room, crates)
        progress = Progress(room, crates, forecast)
        status = prove(room, progress)
        made = f'{room}/crates/{name}/out/{name}'
        if status or not os.path.isfile(made):
            tell(f'not built, after {clock(progress.elapsed())} min; {shown(LOG)} says why:')
            print('\n'.join(why_not()), file=sys.stderr)
            return NO_PROGRAM
        put(made, PROGRAMS[name], began)
        tell(f'proved and built in {clock(progress.elapsed())} min')
        return 0
    finally:
        shutil.rmtree(folder, ignore_errors=True)


# ---------------------------------------------------------------- without proofs

def given(words):
    """What the program reads: all of standard input, and nothing where its words ask for the generated script, since then it reads nothing."""
    file = tempfile.TemporaryFile()
    if not any(word.startswith('--generate') for word in words):
        shutil.copyfileobj(sys.stdin.buffer, file)
        file.seek(0)
    return file


def tell_the_price():
    """What a run without proofs costs, and what it costs to do without such runs."""
    table, forecast = read_table(), forecast_of(crates_below('utd'))
    once = minutes(table[UNPROVED] * forecast.measured)
    tell(f'unproved: compiling the program without its proofs takes about {once} here, at this and at each further run')
    tell(f'./utd without UTD_UNPROVED proves and builds it in about {minutes(forecast.left)}, once; then runs start at once')


def run_benchmarks_unproved(words):
    """Shows that the crate which the gate leaves out still fits those below it. It reads nothing."""
    with tempfile.TemporaryDirectory(prefix=f'utd-build-{os.getpid()}-') as folder:
        copy_to(f'{folder}/utd', crates_below(BENCHMARKS))
        return run_unproved(f'{folder}/utd/crates/{BENCHMARKS}', words, tempfile.TemporaryFile())


def run_utd_unproved(words):
    if words[-1:] == ['--']:
        # it asks for nothing, and so the script is read
        words = words[:-1]
    tell_the_price()
    return run_unproved(f'{ROOT}/crates/utd', words, given(words))


def run_unproved(crate, words, script):
    began = time.monotonic()
    command = ['rt', 'try', '--steps', '1', '--seconds', '86400', *(['--', *words] if words else [])]
    with script, open(LOG, 'w+b') as log:
        rt = subprocess.Popen(command, cwd=crate, stdin=script, stderr=log, start_new_session=True)
        try:
            rt.wait()
        finally:
            end(rt)
        log.seek(0)
        said = log.read().decode('utf-8', 'replace')
    ended = re.search(r'^run=ended status=([0-9]+) ', said, re.M)
    if not ended:
        tell(f'the program gave no answer; {shown(LOG)} says why:')
        print('\n'.join(said.splitlines()[-8:]), file=sys.stderr)
        return NO_PROGRAM
    # what the program itself said comes first, before what rt says of it
    sys.stderr.write(re.split(r'^(?:interpreter|checked|races|run=|rt:)', said, maxsplit=1, flags=re.M)[0])
    tell(f'unproved: compiled and run in {clock(time.monotonic() - began)} min')
    return int(ended[1])


def call_for(words):
    """The call that the words ask for, or None, and whether it runs the program unproved."""
    name = 'utd'
    if words[:1] == ['--benchmarks']:
        name, words = BENCHMARKS, words[1:]
    if not words:
        return (lambda: build(name)), False
    if words[0] != '--unproved':
        return None, False
    run = run_utd_unproved if name == 'utd' else run_benchmarks_unproved
    return (lambda: run(words[1:])), True


def main(words):
    call, is_unproved = call_for(words)
    if not call:
        print(__doc__.strip(), file=sys.stderr)
        return 2
    if not shutil.which('rt'):
        tell("not built, and the Rattle kit's command rt is not on the PATH")
        return NO_PROGRAM
    for number in (signal.SIGINT, signal.SIGTERM, signal.SIGHUP):
        signal.signal(number, interrupt)
    os.makedirs(os.path.dirname(LOG), exist_ok=True)
    try:
        return call()
    except KeyboardInterrupt:
        tell('interrupted' if is_unproved else 'interrupted; the next run goes on from there if the kit keeps proofs')
        return INTERRUPTED


sys.exit(main(sys.argv[1:]))
