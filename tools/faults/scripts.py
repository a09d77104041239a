"""The scripts that are run, each with what it has to write where that is known."""
import glob
import os


class Script:
    """A script by its name: the words of the program, the bytes of standard input, and what is written where that is known."""

    def __init__(self, name, words=(), text=b'', output=None):
        self.name, self.words, self.text, self.output = name, list(words), text, output

    def dumps(self):
        """Whether it writes the database at its end and no answers."""
        return '--dump' in self.words


def bytes_of(path):
    with open(path, 'rb') as file:
        return file.read()


def of_file(path):
    """The script of a file, and beside NAME.td what NAME.out has."""
    answer = os.path.splitext(path)[0] + '.out'
    return Script(os.path.relpath(path), text=bytes_of(path), output=bytes_of(answer) if os.path.exists(answer) else None)


def by_statements(path):
    """The script of a file as those of crates/utd_rows/data/faults: `===`, a statement, `---`, what it writes, and so on."""
    parts = [part.split(b'---\n') for part in bytes_of(path).split(b'===\n')[1:]]
    return Script(os.path.relpath(path), text=b''.join(text for text, _ in parts), output=b''.join(output for _, output in parts))


def dumped(script):
    """The script, of which the database is written at its end."""
    return Script(f'{script.name} --dump', words=('--dump',), text=script.text)


def all_scripts(root):
    folders = (f'{root}/crates/utd_rows/data/faults', f'{root}/tools/faults')
    found = [by_statements(path) for folder in folders for path in sorted(glob.glob(f'{folder}/*.txt'))]
    found += [dumped(script) for script in found]
    found += [of_file(path) for path in sorted(glob.glob(f'{root}/examples/*.td'))]
    return [*found, Script('--generate 100', words=('--generate', '100'))]
