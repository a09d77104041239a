"""A PostgreSQL of one's own: a server in a temporary folder, for as long as a with statement lasts.

PostgreSQL 15 or later is wanted, as Debian's package postgresql has it. It refuses to run as root, so for root it is started as the user postgres or nobody.
"""
import glob
import os
import pwd
import shutil
import subprocess
import sys
import tempfile

# the folders of a server's programs, of one version or several
FOLDERS = '/usr/lib/postgresql/[1-9][0-9]/bin'
# what psql writes behind the answer to each statement
BEHIND = '@@ the next statement @@\n'
ABSENT = f"there is no psql, or no server in {FOLDERS}; Debian's package postgresql has both"


def programs():
    """The folder of the programs of the latest version, or none."""
    folders = sorted(glob.glob(FOLDERS))
    return folders[-1] if folders and shutil.which('psql') else None


def account():
    """As whom a server is started: as oneself, or by root as a user who may less."""
    if os.getuid():
        return {}
    users = {user.pw_name: user for user in pwd.getpwall()}
    user = users.get('postgres') or users['nobody']
    return {'user': user.pw_uid, 'group': user.pw_gid, 'extra_groups': []}


class Server:
    """A PostgreSQL in a temporary folder, for as long as a with statement lasts."""

    def __init__(self, folder_of_programs):
        self.programs = folder_of_programs
        self.folder = ''
        self.account = account()

    def run(self, program, *words):
        """Runs a program of the server; what it says goes to standard error where it fails."""
        with tempfile.TemporaryFile('w+') as said:
            command = [f'{self.programs}/{program}', '-D', f'{self.folder}/data', *words]
            done = subprocess.run(command, cwd=self.folder, stdout=said, stderr=said, check=False, **self.account)
            if done.returncode:
                said.seek(0)
                sys.stderr.write(said.read())
                done.check_returncode()

    def __enter__(self):
        self.folder = tempfile.mkdtemp(prefix='postgresql-')
        try:
            if self.account:
                os.chown(self.folder, self.account['user'], self.account['group'])
            self.run('initdb', '-A', 'trust', '-U', 'postgres', '-E', 'UTF8', '--locale=C', '-N')
            options = f"-c listen_addresses='' -c unix_socket_directories='{self.folder}' -c fsync=off"
            self.run('pg_ctl', '-w', '-l', f'{self.folder}/log', '-o', options, 'start')
        except BaseException:
            shutil.rmtree(self.folder)
            raise
        return self

    def __exit__(self, *_):
        self.run('pg_ctl', '-w', '-m', 'immediate', 'stop')
        shutil.rmtree(self.folder)

    def answers(self, texts, before=''):
        """What psql writes for each text: its output as CSV, and its errors."""
        mark = BEHIND.strip()
        script = f'\\set VERBOSITY sqlstate\n{before}' + ''.join(f'{text}\n\\echo {mark}\n\\warn {mark}\n' for text in texts)
        command = ['psql', '-X', '-q', '--csv', '-P', 'null=NULL', '-h', self.folder, '-U', 'postgres', '-d', 'postgres', '-f', '-']
        done = subprocess.run(command, input=script, capture_output=True, text=True, encoding='utf-8', check=False)
        return list(zip(done.stdout.split(BEHIND)[:-1], done.stderr.split(BEHIND)[:-1]))
