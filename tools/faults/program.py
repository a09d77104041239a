"""The program with the preloaded library: some of its allocations, reads and writes are refused."""
import collections
import os
import shutil
import subprocess

SOURCE = os.path.join(os.path.dirname(os.path.abspath(__file__)), 'refusing.c')
# the most bytes that a read or a write moves
PIECE = 100
# a number that no call reaches
NO_CALL = 2 ** 62
SECONDS = 60

# how a run ended; a status below 0 is a signal, and none is a run that did not end
Answer = collections.namedtuple('Answer', 'status output line')
# a kind of call, by its letter, and the numbers of the first and the last that is refused
Refusal = collections.namedtuple('Refusal', 'letter first last')


class Missing(Exception):
    """What the tool needs and does not find."""


def compiler():
    """The compiler of the kit, or one of the machine."""
    rt = shutil.which('rt')
    of_kit = os.path.join(os.path.dirname(os.path.dirname(os.path.realpath(rt))), 'toolchain/bin/clang') if rt else ''
    for name in (of_kit, 'cc', 'gcc', 'clang'):
        found = shutil.which(name)
        if found:
            return found
    raise Missing('there is no C compiler: the kit has one, beside its rt, and cc, gcc or clang does too')


class Program:
    """A program, and the library that refuses its calls, which is built in a room."""

    def __init__(self, path, room):
        self.path, self.library, self.counts = os.path.abspath(path), f'{room}/refusing.so', f'{room}/counts'
        if not os.access(self.path, os.X_OK):
            raise Missing(f'there is no program {path}; ./utd builds one')
        built = subprocess.run([compiler(), '-O2', '-shared', '-fPIC', '-o', self.library, SOURCE], capture_output=True, text=True)
        if built.returncode != 0:
            raise Missing(f'{SOURCE} is not compiled:\n{built.stderr}')

    def environment(self, refusal, **more):
        """The environment in which the library refuses these calls."""
        told = {'LD_PRELOAD': self.library, 'PIECE': PIECE, **more}
        if refusal:
            told.update(REFUSE=refusal.letter, FROM=refusal.first, UPTO=refusal.last)
        return {**os.environ, **{name: str(value) for name, value in told.items()}}

    def run(self, script, refusal=None, **more):
        """How the script ends where these calls are refused."""
        try:
            ended = subprocess.run([self.path, *script.words], input=script.text, capture_output=True, env=self.environment(refusal, **more), timeout=SECONDS)
        except subprocess.TimeoutExpired as late:
            return Answer(None, late.stdout or b'', late.stderr or b'')
        return Answer(ended.returncode, ended.stdout, ended.stderr)

    def count(self, script):
        """How the script ends, and how many allocations, reads and writes it makes."""
        with open(self.counts, 'w', encoding='ascii'):
            pass
        answer = self.run(script, COUNTS=self.counts)
        with open(self.counts, encoding='ascii') as file:
            counts = [int(line) for line in file]
        if not any(counts):
            raise Missing(f'{self.path} makes no call that the library hears of: it has to be linked to glibc, and to read standard input')
        return answer, counts
