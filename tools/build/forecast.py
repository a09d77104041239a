"""How long the proofs of some crates take on this machine: python3 tools/build/forecast.py

seconds.txt has the seconds of processor of each crate's proof where a whole run was recorded (tools/prices), and those that a piece of work took there. The same
piece of work, timed here, turns them into this machine's, and what the first crates took mends that. As a program it times the piece of work, and prints the seconds.
"""
import os
import statistics
import subprocess
import sys
import time

TABLE = f'{os.path.dirname(os.path.abspath(__file__))}/seconds.txt'
# the names in the table that are no crate: the piece of work, and a run without proofs
PIECE = '(piece)'
UNPROVED = '(unproved)'
PIECES = 3
# the part of the work for which the first measurement counts, and what is always left of a crate that is at work
TRUST = 0.05
LEAST_LEFT = 0.1


def read_table(path=TABLE):
    """The seconds of each name."""
    with open(path, encoding='utf-8') as file:
        lines = [line.split('#')[0].split() for line in file]
    return {line[0]: float(line[1]) for line in lines if line}


# ---------------------------------------------------------------- the piece of work

def do_piece():
    """Sorts texts that lie all over the memory: as with proofs, most of the work is reading."""
    texts = [str(number * 2_654_435_761 % 4_294_967_296) for number in range(150_000)]
    texts.sort()


def time_piece(clock):
    began = clock()
    do_piece()
    return clock() - began


def seconds_here(processors):
    """Seconds on the clock of the piece of work while each processor has one, so that what else runs here counts too."""
    how = {'stdin': subprocess.DEVNULL, 'stdout': subprocess.PIPE, 'start_new_session': True}
    at_once = [subprocess.Popen([sys.executable, os.path.abspath(__file__)], **how) for _ in range(processors)]
    return statistics.mean(float(process.communicate()[0]) for process in at_once)


# ---------------------------------------------------------------- the forecast

class Forecast:
    """How long it takes until all of some crates are proved.

    `below` has for each crate those of them on which it stands, the lowest crates first; `table` the seconds by crate; `pace` how many seconds on the clock
    one of the table takes here. `left` are the seconds on the clock from the last note on, and `done` the part of the work that was done by then.
    """

    def __init__(self, below, table, processors, pace):
        usual = statistics.median(seconds for name, seconds in table.items() if name in below)
        self.seconds = {crate: table.get(crate, usual) for crate in below}
        self.below, self.processors, self.measured, self.pace = below, processors, pace, pace
        self.left, self.done = pace * self.work(dict.fromkeys(below, 1)), 0.0

    def work(self, parts):
        """Seconds of the table for these parts of the crates: those of all over the processors, and no less than those of the longest chain."""
        chains = {}
        for crate, lower in self.below.items():
            chains[crate] = parts[crate] * self.seconds[crate] + max((chains[other] for other in lower), default=0)
        whole = sum(parts[crate] * seconds for crate, seconds in self.seconds.items())
        return max(whole / self.processors, *chains.values())

    def note(self, elapsed, kept, proved, at_work):
        """Mends the forecast by what was done in so many seconds on the clock.

        `kept` and `proved` are the crates that are done; `at_work` has the seconds for which each other one is at work.
        """
        parts = {crate: crate not in kept for crate in self.below}
        first = self.work(parts)
        for crate in parts:
            if crate in proved:
                parts[crate] = 0
            elif crate in at_work:
                parts[crate] = max(LEAST_LEFT, 1 - at_work[crate] / (self.pace * self.seconds[crate]))
        now, trust = self.work(parts), TRUST * first
        if first:
            self.pace = (self.measured * trust + elapsed) / (trust + first - now)
        self.left, self.done = self.pace * now, 1 - now / first if first else 1.0


def minutes(seconds):
    """About so many minutes, in words."""
    number = round(seconds / 60)
    return f'{number} minutes' if number > 1 else 'a minute'


if __name__ == '__main__':
    print(statistics.mean(time_piece(time.perf_counter) for _ in range(PIECES)))
