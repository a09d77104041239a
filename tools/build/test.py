"""Tries ./utd with a stub in place of tools/build, tools/build with one in place of rt, its forecast, and tools/prices: python3 tools/build/test.py

It proves and compiles nothing. It says nothing where all is well, and ends with status 1 where something is not.
"""
import io
import os
import shutil
import subprocess
import sys
import tempfile
import unittest

from forecast import Forecast

ROOT = os.path.dirname(os.path.dirname(os.path.dirname(os.path.abspath(__file__))))
USAGE = 'usage: utd [--generate N] [--dump]'
# what stands for tools/build: it says with which words it was called, waits while the file hold is there, and makes a program that says what it was given
STUB = '''
import os, sys, time
print('BUILD', *sys.argv[1:], file=sys.stderr, flush=True)
if '--unproved' in sys.argv:
    sys.stdout.write(sys.stdin.read())
    sys.exit(1)
root = os.path.dirname(os.path.dirname(os.path.dirname(os.path.abspath(__file__))))
while os.path.exists(f'{root}/hold'):
    time.sleep(0.02)
if 'STUB_STATUS' in os.environ:
    sys.exit(int(os.environ['STUB_STATUS']))
program = f'{root}/crates/utd/out/utd'
os.makedirs(os.path.dirname(program), exist_ok=True)
with open(program, 'w') as file:
    file.write('#!/bin/sh\\necho "program:$*"\\ncat\\nexit 3\\n')
os.chmod(program, 0o755)
'''
# what stands for rt: it says of two crates that they are proved, of one that it is kept, and makes the program; or runs one unproved
RT = f'''#!{sys.executable}
import os, sys, time
if sys.argv[1] == 'try':
    print(sys.argv[2:], sys.stdin.read())
    print('utd: of the program', file=sys.stderr)
    print('run=ended status=1 proved=no', file=sys.stderr)
    sys.exit(1)
assert sys.argv[1:] == ['ci'], sys.argv
if 'RT_STATUS' in os.environ:
    print('rt: low NOT PROVED')
    sys.exit(int(os.environ['RT_STATUS']))
top = 'utd' if os.path.exists('crates/utd') else 'operator_benchmarks'
for crate, what in ('low', 'is kept: an earlier run'), ('middle', 'proved'), (top, 'proved'):
    os.makedirs(f'crates/{{crate}}/out')
    time.sleep(0.05)
    print('rt:', crate, what, flush=True)
assert not os.path.exists('crates/other') and not os.path.exists(f'crates/{{top}}/must-fail')
assert os.path.exists(f'crates/{{top}}/src/main.rt') and f'{{top}}: low middle\\n' in open('crates.txt').read()
with open(f'crates/{{top}}/out/{{top}}', 'w') as file:
    file.write('#!/bin/sh\\necho program\\n')
os.chmod(f'crates/{{top}}/out/{{top}}', 0o755)
'''
RECORD = '''(piece) 0.250
     55.0     50   0 low build /tmp/rt-copy-7-x/repo/crates/low pid=9 parent=7
    100.0     90   0 low build /tmp/rt-copy-7-x/repo/crates/low pid=10 parent=7
     30.0     20   0 low build /tmp/rt-copy-7-x/repo/crates/low pid=11 parent=10
     40.4     90   0 low build --test /tmp/rt-copy-7-x/repo/crates/low pid=12 parent=7
     50.0     90   0 low check --incremental /tmp/rt-edit-7-x pid=13 parent=7
      9.0     90   0 utd check /tmp/rt-copy-7-x/repo/crates/utd pid=14 parent=7
      6.0     90   0 utd build --crate-checked /tmp/rt-copy-7-x/repo/crates/utd pid=15 parent=7
     70.0     90   0 low check --incremental /home/somebody/crates/low pid=16 parent=8
      0.3      1   0 ? fmt /tmp/rt-copy-7-x/repo/crates/low pid=17 parent=7
'''
PRICES = '''| Crate | Proof | Wrong bodies | Tests | Compiled | All |
|---|---|---|---|---|---|
| `low` | 100 | 50 | 40 |  | 190 |
| the other 1 | 9 |  |  | 6 | 15 |
| all | 109 | 50 | 40 | 6 | 205 |
'''
TAKEN = [
    [], ['--'], ['--generate', '1'], ['--generate', '30000'], ['--generate=30000'], ['--generate', '+3'], ['--generate=+003'],
    ['--generate', '7', '--'], ['--generate=7', '--'], ['--generate', '0000000000000000000000007'],
    ['--dump'], ['--dump', '--'], ['--dump', '--generate', '7'], ['--generate=7', '--dump'],
]
REFUSED = [
    ['--help'], ['--version'], ['-h'], ['examples/cover.td'], [''], ['-'], ['--', '--'], ['--', 'x'], ['--generate'], ['--generate='], ['--generate', '--'],
    ['--generate', '--', '7'], ['--', '--generate', '7'], ['--generate', '0'], ['--generate', '000'], ['--generate', '30001'], ['--generate=30001'],
    ['--generate', '-7'], ['--generate', '++7'], ['--generate', '7 '], ['--generate', ' 7'], ['--generate', '7\n'], ['--generate', '7x'], ['--generate', '1e3'],
    ['--generate', '0x7'], ['--generate', '7.0'], ['--generate', '7', '8'], ['--generate', '7', '--generate', '8'], ['--generate=7', '--generate=7'],
    ['--generate', '99999999999999999999999'], ['--gen', '7'], ['--generat=7'], ['--Generate', '7'], ['-generate', '7'], ['--generate=7=7'],
    ['--generate', b'7\xff'], ['--generate', '\u0667'],
    ['--dump', '--dump'], ['--dump='], ['--dump=true'], ['--dumps'], ['-dump'], ['--Dump'], ['--dump', 'x'], ['--generate', '--dump'],
]


class Wrapper(unittest.TestCase):
    """./utd in a repository that has nothing but what it looks at."""

    def setUp(self):
        self.folder = tempfile.mkdtemp(prefix='utd-test-')
        self.addCleanup(shutil.rmtree, self.folder)
        self.root = f'{self.folder}/a place'
        os.makedirs(f'{self.root}/tools/build')
        os.makedirs(f'{self.root}/crates/utd/src')
        shutil.copy(f'{ROOT}/utd', f'{self.root}/utd')
        for path, text in (('tools/build/__main__.py', STUB), ('crates.txt', 'utd:\n'), ('crates/utd/src/main.rt', '')):
            with open(f'{self.root}/{path}', 'w', encoding='utf-8') as file:
                file.write(text)
        self.program = f'{self.root}/crates/utd/out/utd'

    def start(self, *words, at=None, **variables):
        environment = {name: value for name, value in os.environ.items() if name != 'UTD_UNPROVED'}
        how = {'stdin': subprocess.PIPE, 'stdout': subprocess.PIPE, 'stderr': subprocess.PIPE, 'cwd': self.folder}
        return subprocess.Popen([at or f'{self.root}/utd', *words], env={**environment, **variables}, **how)

    def run_it(self, *words, **how):
        """What it writes, what it says on standard error, and its status, where the script is one line."""
        process = self.start(*words, **how)
        output, errors = process.communicate(b'PRINT\n', timeout=60)
        return output.decode(), errors.decode(), process.returncode

    def make_program(self):
        self.run_it()
        self.assertTrue(os.path.isfile(self.program))

    def test_words_that_are_taken(self):
        self.make_program()
        for words in TAKEN:
            with self.subTest(words=words):
                self.assertEqual(self.run_it(*words), (f'program:{" ".join(words)}\nPRINT\n', '', 3))

    def test_words_that_are_refused(self):
        for is_built in (False, True):
            if is_built:
                self.make_program()
            for words in REFUSED[:5] if is_built else REFUSED:
                with self.subTest(words=words, is_built=is_built):
                    output, errors, status = self.run_it(*words)
                    self.assertEqual((output, status), ('', 2))
                    self.assertEqual(errors, f'{USAGE}\na script comes on standard input: {self.root}/utd < SCRIPT\n')
            self.assertEqual(os.path.exists(f'{self.root}/out'), is_built)

    def test_first_run_builds_and_later_ones_do_not(self):
        self.assertEqual(self.run_it(), ('program:\nPRINT\n', 'BUILD\n', 3))
        self.assertEqual(self.run_it(), ('program:\nPRINT\n', '', 3))

    def test_newer_source_is_built(self):
        for path, is_source in (('crates/utd/src/main.rt', True), ('crates.txt', True), ('crates/utd/out/log', False)):
            with self.subTest(path=path):
                self.make_program()
                open(f'{self.root}/{path}', 'a').close()
                later = os.stat(self.program).st_mtime + 5
                os.utime(f'{self.root}/{path}', (later, later))
                self.assertEqual(self.run_it()[1], 'BUILD\n' if is_source else '')
                os.utime(f'{self.root}/{path}', (0, 0))

    def test_build_that_fails(self):
        self.assertEqual(self.run_it(STUB_STATUS='70'), ('', 'BUILD\n', 70))
        self.assertEqual(self.run_it(STUB_STATUS='130'), ('', 'BUILD\n', 130))

    def test_symbolic_links(self):
        for link, target in (('one', f'{self.root}/utd'), ('two', 'one'), ('three', 'a place/utd')):
            os.symlink(target, f'{self.folder}/{link}')
        self.assertEqual(self.run_it(at=f'{self.folder}/two'), ('program:\nPRINT\n', 'BUILD\n', 3))
        self.assertEqual(self.run_it('--generate', '7', at=f'{self.folder}/three'), ('program:--generate 7\nPRINT\n', '', 3))
        self.assertEqual(self.run_it('--help', at='./one')[1], f'{USAGE}\na script comes on standard input: ./one < SCRIPT\n')
        self.assertEqual(sorted(os.listdir(self.folder)), ['a place', 'one', 'three', 'two'])

    def test_copy_of_the_program(self):
        self.make_program()
        shutil.copy(self.program, f'{self.folder}/copy')
        shutil.rmtree(self.root)
        self.assertEqual(self.run_it(at=f'{self.folder}/copy'), ('program:\nPRINT\n', '', 3))

    def test_unproved(self):
        self.assertEqual(self.run_it(UTD_UNPROVED='1'), ('PRINT\n', 'BUILD --unproved\n', 1))
        self.assertEqual(self.run_it('--generate', '7', UTD_UNPROVED='1')[1], 'BUILD --unproved --generate 7\n')
        self.assertEqual(self.run_it('--help', UTD_UNPROVED='1')[2], 2)
        self.make_program()
        self.assertEqual(self.run_it(UTD_UNPROVED='1'), ('program:\nPRINT\n', '', 3))

    def test_one_build_at_a_time(self):
        open(f'{self.root}/hold', 'w').close()
        first = self.start()
        self.assertEqual(first.stderr.readline(), b'BUILD\n')
        second = self.start()
        self.assertEqual(second.stderr.readline(), b'utd: another ./utd is building the program; waiting for it\n')
        os.remove(f'{self.root}/hold')
        for process in (first, second):
            self.assertEqual(process.communicate(b'', timeout=60), (b'program:\n', b''))
            self.assertEqual(process.returncode, 3)


class Building(unittest.TestCase):
    """tools/build and tools/prices in a repository of three crates and one beside them."""

    def setUp(self):
        self.folder = tempfile.mkdtemp(prefix='utd-test-')
        self.addCleanup(shutil.rmtree, self.folder)
        self.root = f'{self.folder}/root'
        for tool in ('build', 'prices'):
            shutil.copytree(f'{ROOT}/tools/{tool}', f'{self.root}/tools/{tool}', ignore=shutil.ignore_patterns('__pycache__'))
        for crate in ('low', 'middle', 'other', 'utd'):
            os.makedirs(f'{self.root}/crates/{crate}/must-fail')
        with open(f'{ROOT}/tools/build/forecast.py', encoding='utf-8') as file:
            # a small piece of work is enough here
            self.write('root/tools/build/forecast.py', file.read().replace('range(150_000)', 'range(150)'))
        self.write('root/HANDLES', '')
        self.write('root/crates.txt', '# lowest first\nlow:\nother: low\nmiddle: low\nutd: low middle\n')
        self.write('root/tools/build/seconds.txt', '# seconds\n(piece) 0.1\n(unproved) 30\nlow 120\nutd 60\n')
        self.write('root/crates/utd/src/main.rt', '')
        self.write('root/tools/benchmarks/operator_benchmarks/line', 'operator_benchmarks: low middle\n')
        self.write('root/tools/benchmarks/operator_benchmarks/src/main.rt.txt', '')
        self.write('bin/rt', RT)
        os.chmod(f'{self.folder}/bin/rt', 0o755)

    def write(self, path, text):
        os.makedirs(os.path.dirname(f'{self.folder}/{path}'), exist_ok=True)
        with open(f'{self.folder}/{path}', 'w', encoding='utf-8') as file:
            file.write(text)

    def run_it(self, tool, *words, path=None, **variables):
        environment = {**os.environ, 'PATH': f'{path or self.folder}/bin:{os.environ["PATH"]}', 'TMPDIR': self.folder, **variables}
        how = {'input': 'PRINT', 'capture_output': True, 'text': True, 'timeout': 60, 'cwd': self.root}
        ran = subprocess.run([sys.executable, f'tools/{tool}', *words], env=environment, **how)
        return ran.stdout, ran.stderr, ran.returncode

    def test_build(self):
        output, errors, status = self.run_it('build')
        self.assertEqual((output, status), ('', 0))
        self.assertRegex(errors, r'^utd: proving and building the program, once: 3 crates\nutd: about (a minute|[0-9]+ minutes) on this machine')
        self.assertRegex(errors, r'utd: proved and built in 0:[0-9]{2} min\n$')
        self.assertEqual(subprocess.run([f'{self.root}/crates/utd/out/utd'], capture_output=True).stdout, b'program\n')
        self.assertEqual(sorted(os.listdir(self.folder)), ['bin', 'root'])

    def test_build_that_fails(self):
        output, errors, status = self.run_it('build', RT_STATUS='1')
        self.assertEqual((output, status), ('', 70))
        self.assertTrue(errors.endswith('out/build.log says why:\nrt: low NOT PROVED\n'), errors)
        self.assertFalse(os.path.exists(f'{self.root}/crates/utd/out'))

    def test_unproved(self):
        for words in [], ['--']:
            output, errors, status = self.run_it('build', '--unproved', *words)
            self.assertEqual((output, status), ("['--steps', '1', '--seconds', '86400'] PRINT\n", 1))
        price = r'utd: unproved: compiling the program without its proofs takes about .* here, at this and at each further run\n'
        self.assertRegex(errors, f'^{price}utd: .*, once; then runs start at once\nutd: of the program\nutd: unproved: compiled and run in 0:0[0-9] min\n$')

    def test_dump_unproved(self):
        self.assertEqual(self.run_it('build', '--unproved', '--dump')[0], "['--steps', '1', '--seconds', '86400', '--', '--dump'] PRINT\n")
        self.assertEqual(self.run_it('build', '--unproved', '--generate', '7')[0], "['--steps', '1', '--seconds', '86400', '--', '--generate', '7'] \n")

    def test_benchmarks(self):
        output, errors, status = self.run_it('build', '--benchmarks')
        self.assertEqual((output, status), ('', 0))
        self.assertRegex(errors, r'^utd: proving and building operator_benchmarks, once: 3 crates\n')
        self.assertEqual(subprocess.run([f'{self.root}/out/operator_benchmarks'], capture_output=True).stdout, b'program\n')
        self.assertEqual(sorted(os.listdir(self.folder)), ['bin', 'root'])
        output, errors, status = self.run_it('build', '--benchmarks', '--unproved', 'cells')
        self.assertEqual((output, status), ("['--steps', '1', '--seconds', '86400', '--', 'cells'] \n", 1))
        self.assertEqual(self.run_it('build', '--benchmark')[2], 2)

    def test_no_kit(self):
        os.remove(f'{self.folder}/bin/rt')
        os.symlink(sys.executable, f'{self.folder}/bin/python3')
        ran = subprocess.run([f'{self.folder}/bin/python3', 'tools/build'], env={'PATH': f'{self.folder}/bin'}, capture_output=True, cwd=self.root)
        self.assertEqual((ran.returncode, ran.stderr.count(b'\n')), (70, 1))

    def test_prices(self):
        self.write('record', RECORD)
        output, errors, status = self.run_it('prices', 'table', '../record', '--most', '1')
        self.assertEqual((output[:len(PRICES)], errors, status), (PRICES, '', 0))
        self.assertEqual(self.run_it('prices', 'table', '../record', '../record', '--most', '1')[0], output)
        self.assertEqual(self.run_it('prices', 'seconds', '../record'), ('', '', 0))
        with open(f'{self.root}/tools/build/seconds.txt', encoding='utf-8') as file:
            lines = [line for line in file.read().splitlines() if not line.startswith('#')]
        self.assertEqual(lines, ['(piece) 0.250', '(unproved) 75', 'low 100', 'utd 9'])

    def test_watch(self):
        output, errors, status = self.run_it('prices', 'watch', '../record', '1000000000')
        self.assertEqual((output, errors, status), ('', '', 0))
        self.assertEqual(self.run_it('prices', 'table', '../record')[1:], ('tools/prices: ../record has no check of the gate\n', 1))
        self.assertEqual(self.run_it('prices', 'watch')[2], 2)

    def test_watch_of_a_check(self):
        # below another process one that looks like a check of the crate low, and goes on until it was seen
        self.write('build', "import time\nwhile 'low' not in open('record').read():\n    time.sleep(0.1)\n")
        self.write('record', '')
        check = f"subprocess.run(['rattle', 'build', '--crate-name', 'low'], executable={sys.executable!r})"
        above = subprocess.Popen([sys.executable, '-c', f'import subprocess; {check}'], cwd=self.folder)
        self.assertEqual(self.run_it('prices', 'watch', '../record', str(above.pid)), ('', '', 0))
        above.wait()
        with open(f'{self.folder}/record', encoding='utf-8') as file:
            self.assertRegex(file.read(), r'^\(piece\) [0-9.]+\n +[0-9.]+ +[0-9]+ +-?[0-9]+ low build /\S+ pid=[0-9]+ parent=[0-9]+\n$')


class Forecasts(unittest.TestCase):
    BELOW = {'low': [], 'left': ['low'], 'right': ['low'], 'top': ['left', 'right']}
    TABLE = {'low': 100, 'left': 400, 'right': 100, 'top': 100, 'elsewhere': 9}

    def test_longest_chain(self):
        self.assertEqual(Forecast(self.BELOW, self.TABLE, 4, 0.5).left, 300)

    def test_few_processors(self):
        self.assertEqual(Forecast(self.BELOW, self.TABLE, 1, 0.5).left, 350)

    def test_crate_that_the_table_lacks(self):
        self.assertEqual(Forecast({**self.BELOW, 'new': ['top']}, self.TABLE, 4, 1).left, 700)

    def test_slower_than_was_measured(self):
        forecast = Forecast(self.BELOW, self.TABLE, 4, 1)
        forecast.note(200, set(), {'low'}, {'left': 0, 'right': 0})
        self.assertTrue(800 < forecast.left < 1000, forecast.left)
        self.assertAlmostEqual(forecast.done, 1 / 6)
        forecast.note(1200, set(), {'low', 'left', 'right', 'top'}, {})
        self.assertEqual((forecast.left, forecast.done), (0, 1))

    def test_kept_crates_are_no_work(self):
        forecast = Forecast(self.BELOW, self.TABLE, 4, 1)
        forecast.note(1, {'low', 'left'}, set(), {'right': 1})
        self.assertTrue(195 < forecast.left < 205, forecast.left)
        forecast.note(2, set(self.BELOW), set(), {})
        self.assertEqual((forecast.left, forecast.done), (0, 1))

    def test_crate_that_takes_long(self):
        forecast = Forecast(self.BELOW, self.TABLE, 4, 1)
        for second in range(0, 4000, 10):
            forecast.note(second, set(), set(), {'low': second})
        self.assertTrue(forecast.left > 4000, forecast.left)


def main():
    said = io.StringIO()
    tests = unittest.defaultTestLoader.loadTestsFromModule(sys.modules[__name__])
    if unittest.TextTestRunner(said, verbosity=0).run(tests).wasSuccessful():
        return 0
    print(said.getvalue(), end='', file=sys.stderr)
    return 1


if __name__ == '__main__':
    sys.exit(main())
