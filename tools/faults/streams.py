"""Runs the program over real streams: closed, full, or a pipe whose reader has gone."""
import os
import subprocess

PRINT = b'PRINT RELATION {TUPLE {N 1}};\n'
# streams that a run is given, beside bytes for standard input
CLOSED, FULL, GONE, FOLDER, UNREADABLE = 'closed', 'full', 'a pipe without a reader', 'a folder', 'open for writing alone'
SECONDS = 60
STATUS_LINES = {3: b'utd: read failed\n', 4: b'utd: write failed\n'}


class Case:
    """A run: its title, its streams where they are not plain, its words, and the status that it has to have."""

    def __init__(self, title, status, words=(), text=PRINT, **at):
        self.title, self.status, self.words, self.text, self.at = title, status, list(words), text, at

    def told(self):
        return f'status {self.status}'


CASES = (
    Case('standard input closed', 3, stdin=CLOSED),
    Case('standard input a folder', 3, stdin=FOLDER),
    Case('standard input open for writing alone', 3, stdin=UNREADABLE),
    Case('standard input closed, and a word that asks for the generated script', 0, words=('--generate', '3'), stdin=CLOSED),
    Case('standard output closed', 4, stdout=CLOSED),
    Case('standard output full', 4, stdout=FULL),
    Case('standard output a pipe whose reader has gone', 4, stdout=GONE),
    Case('standard output full, and nothing to write', 0, text=b'', stdout=FULL),
    *(
        Case(f'standard error {at}, and {why}', status, **given, stderr=at)
        for at in (CLOSED, FULL, GONE)
        for why, status, given in (
            ('a word that is refused', 2, {'words': ('--help',)}),
            ('a read that fails', 3, {'stdin': FOLDER}),
            ('a write that fails', 4, {'stdout': FULL}),
        )
    ),
)


def opened(stream):
    """A file of the kind, to be closed by the caller."""
    if stream == FULL:
        return os.open('/dev/full', os.O_WRONLY)
    if stream == UNREADABLE:
        return os.open('/dev/null', os.O_WRONLY)
    if stream == FOLDER:
        return os.open('/', os.O_RDONLY)
    reader, writer = os.pipe()
    os.close(reader)
    return writer


def run(tried, case):
    """The status of the case, and what its standard output and standard error have, where they are plain."""
    numbers = {'stdin': 0, 'stdout': 1, 'stderr': 2}
    closed = ' '.join(f'{numbers[name]}>&-' for name, stream in case.at.items() if stream == CLOSED)
    files = {name: opened(stream) for name, stream in case.at.items() if stream != CLOSED}
    plain = {name: subprocess.PIPE for name in numbers if name not in case.at}
    text = case.text if 'stdin' in plain else None
    try:
        # the shell closes what has to be closed and becomes the program
        process = subprocess.Popen(['sh', '-c', f'exec "$0" "$@" {closed}', tried.path, *case.words], **files, **plain)
        output, line = process.communicate(text, timeout=SECONDS)
    finally:
        for file in files.values():
            os.close(file)
    return process.returncode, output, line


def fault_of(tried, case):
    """What is wrong with how the program ends, or none."""
    status, _, line = run(tried, case)
    if status != case.status:
        return f'status {status}, and not {case.status}'
    wanted = STATUS_LINES.get(status, b'')
    if line is not None and line != wanted and 'stderr' not in case.at:
        return f'status {status}, with the line {line}'
    return None
