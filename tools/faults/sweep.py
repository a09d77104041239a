"""Runs a script once for each of its calls that is refused, and judges the answers."""
import collections
import concurrent.futures
import os

from program import NO_CALL, PIECE, Refusal
from scripts import Script

NOT_ENDED = b' refused: E04 statement not ended\n'


class Kind:
    """A kind of call: its letter, its name, and the status and line of a run in which one is refused."""

    def __init__(self, letter, name, status, line):
        self.letter, self.name, self.status, self.line = letter, name, status, line


ALLOCATION = Kind('a', 'allocation', 5, b'utd: out of memory\n')
READ = Kind('r', 'read', 3, b'utd: read failed\n')
WRITE = Kind('w', 'write', 4, b'utd: write failed\n')
KINDS = (ALLOCATION, READ, WRITE)


class Tally:
    """How the runs of a script came out."""

    def __init__(self, counts):
        self.counts, self.ended, self.wrong = counts, collections.Counter(), []

    def number(self):
        return sum(self.ended.values())

    def text(self):
        made = ', '.join(f'{count:,} {kind.name}{"s" * (count != 1)}' for kind, count in zip(KINDS, self.counts))
        ended = ', '.join(f'{status} in {count:,}' for status, count in sorted(self.ended.items(), key=str))
        return f'{made}; {self.number():,} runs, status {ended}; {len(self.wrong)} wrong'


def fronts(output):
    """What the first statements write, for each number of them: an answer ends behind each line that is no row of a table."""
    found, end = {b''}, 0
    for line in output.splitlines(True):
        end += len(line)
        if not line.startswith(b'|'):
            found.add(output[:end])
    return found


def without_rest(output):
    """The output but for the line that refuses what no `;` ends."""
    lines = output.splitlines(True)
    return b''.join(lines[:-1]) if lines and lines[-1].endswith(NOT_ENDED) else output


class Judge:
    """What a script writes as a whole, and what of it where a call is refused."""

    def __init__(self, tried, script, whole, reads):
        self.whole, self.fronts = whole, {b''} if script.dumps() else fronts(whole.output)
        if script.dumps():
            self.before_reads = [b''] * reads
            return
        cut = [Script(script.name, script.words, script.text[:PIECE * read]) for read in range(reads)]
        self.before_reads = [without_rest(tried.run(part).output) for part in cut]

    def is_right(self, kind, call, answer):
        if kind is ALLOCATION and answer == self.whole:
            return True
        if (answer.status, answer.line) != (kind.status, kind.line):
            return False
        if kind is WRITE:
            return self.whole.output.startswith(answer.output)
        return answer.output in self.fronts if kind is ALLOCATION else answer.output == self.before_reads[call - 1]


def refusals(counts):
    """Each call of each kind: refused alone, and with all from there on."""
    for kind, count in zip(KINDS, counts):
        for call in range(1, count + 1):
            yield kind, Refusal(kind.letter, call, call)
            yield kind, Refusal(kind.letter, call, NO_CALL)


def fault(kind, refusal, answer):
    calls = 'alone' if refusal.first == refusal.last else 'and all from there on'
    return f'{kind.name} {refusal.first}, {calls}: status {answer.status}, {answer.line}, output that ends {answer.output[-60:]}'


def of_script(tried, script):
    """The tally of all runs of a script."""
    whole, counts = tried.count(script)
    tally = Tally(counts)
    if script.output not in (None, whole.output):
        tally.wrong.append('nothing refused: it writes something else than is told beside it')
    judge = Judge(tried, script, whole, counts[1])
    with concurrent.futures.ThreadPoolExecutor(os.cpu_count()) as pool:
        runs = [(kind, refusal, pool.submit(tried.run, script, refusal)) for kind, refusal in refusals(counts)]
        for kind, refusal, run in runs:
            answer = run.result()
            tally.ended[answer.status] += 1
            if not judge.is_right(kind, refusal.first, answer):
                tally.wrong.append(fault(kind, refusal, answer))
    return tally
