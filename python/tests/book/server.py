"""A PostgreSQL server for the tests, from Debian's packages, on a port of loopback that is free."""
import glob
import os
import pwd
import shutil
import signal
import socket
import subprocess
import tempfile
import time
import unittest

SETTINGS = {'listen_addresses': '127.0.0.1', 'max_wal_size': '64MB', 'checkpoint_timeout': '30s', 'autovacuum': 'off'}


def missing():
    """What is not installed, in words; empty where nothing is."""
    lacking = [] if glob.glob('/usr/lib/postgresql/*/bin/postgres') else ['postgresql']
    try:
        import psycopg  # noqa: F401
    except ImportError:
        lacking.append('python3-psycopg')
    return ' and '.join(lacking)


def wanted():
    """Skips a test where something is not installed; under CI that is a fault."""
    lacking = missing()
    if lacking and os.environ.get('CI'):
        raise AssertionError(f'not installed: {lacking}')
    if lacking:
        raise unittest.SkipTest(f'not installed, so nothing is tried with PostgreSQL: {lacking}')


def _free_port():
    with socket.socket() as one:
        one.bind(('127.0.0.1', 0))
        return one.getsockname()[1]


def _runs(pid):
    """Whether a process is there, and not only waits to be taken note of."""
    try:
        with open(f'/proc/{pid}/stat', encoding='ascii', errors='replace') as file:
            return file.read().rpartition(')')[2].split()[0] != 'Z'
    except (FileNotFoundError, ProcessLookupError):
        return False


class Server:
    """A cluster of its own in a folder of its own, with a log in files of so many MB. It does not run as root. Where
    nothing is to crash it need not sync."""

    def __init__(self, sync=True, segment=1):
        self.sync = sync
        self.folder = tempfile.mkdtemp(prefix='bay-postgresql-')
        self.programs = max(glob.glob('/usr/lib/postgresql/*/bin'), key=lambda path: int(path.split('/')[4]))
        self.data, self.port, self.process = f'{self.folder}/data', _free_port(), None
        self.as_user = []
        if os.getuid() == 0:
            user = pwd.getpwnam('postgres')
            os.chown(self.folder, user.pw_uid, user.pw_gid)
            self.as_user = ['setpriv', f'--reuid={user.pw_uid}', f'--regid={user.pw_gid}', '--clear-groups']
        subprocess.run([*self.as_user, f'{self.programs}/initdb', '-D', self.data, '-A', 'trust', '-U', 'bay',
                        '--no-locale', '-E', 'UTF8', f'--wal-segsize={segment}', '--no-sync'], check=True,
                       stdout=subprocess.DEVNULL, cwd=self.folder)
        self.start()

    def start(self):
        settings = {**SETTINGS, 'port': self.port, 'unix_socket_directories': self.folder,
                    'fsync': 'on' if self.sync else 'off'}
        words = [word for name, value in settings.items() for word in ('-c', f'{name}={value}')]
        with open(f'{self.folder}/log', 'ab') as log:
            self.process = subprocess.Popen([*self.as_user, f'{self.programs}/postgres', '-D', self.data, *words],
                                            stdout=log, stderr=log, cwd=self.folder)
        until = time.monotonic() + 60
        while not self.answers():
            if self.process.poll() is not None or time.monotonic() > until:
                with open(f'{self.folder}/log', encoding='utf8') as log:
                    raise AssertionError(f'the server does not start: {log.read()[-2000:]}')
            time.sleep(0.05)

    def answers(self):
        return subprocess.run([f'{self.programs}/pg_isready', '-q', '-h', '127.0.0.1', '-p',
                               str(self.port)]).returncode == 0

    def crash(self):
        """Kills the server and all its processes, so that what was only in their memory is lost."""
        workers = [int(pid) for pid in self._children()]
        self.process.send_signal(signal.SIGKILL)
        self.process.wait()
        for pid in workers:
            try:
                os.kill(pid, signal.SIGKILL)
            except ProcessLookupError:
                pass
        while any(map(_runs, workers)):
            time.sleep(0.01)

    def hold_writer(self):
        """Stops the process that writes the log of commits that nobody waited for."""
        for pid in self._children():
            with open(f'/proc/{pid}/cmdline', 'rb') as file:
                if b'walwriter' in file.read():
                    os.kill(int(pid), signal.SIGSTOP)

    def _children(self):
        with open(f'/proc/{self.process.pid}/task/{self.process.pid}/children', encoding='ascii') as file:
            return file.read().split()

    def stop(self):
        if self.process.poll() is None:
            self.process.send_signal(signal.SIGINT)         # ends all sessions, and is no crash
            self.process.wait(60)
        shutil.rmtree(self.folder)

    def url(self, base='postgres', user='bay'):
        return f'postgresql://{user}@127.0.0.1:{self.port}/{base}'

    def psql(self, words, base='postgres', user='bay'):
        """What statements answer, as psql prints it without its frame."""
        done = subprocess.run([f'{self.programs}/psql', '-X', '-q', '-A', '-t', '-v', 'ON_ERROR_STOP=1', '-d',
                               self.url(base, user)],
                              input=words, capture_output=True, text=True)
        if done.returncode:
            raise AssertionError(done.stderr)
        return done.stdout.strip()

    def base(self, name):
        """A new database."""
        self.psql(f'CREATE DATABASE {name}')
        return self.url(name)
