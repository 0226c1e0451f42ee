"""The command as a process and in this one, and files for it."""
import contextlib
import io
import os
import signal
import subprocess
import sys
import tempfile
import unittest
from pathlib import Path

from bay_market.commands.main import run

ROOT = Path(__file__).resolve().parents[2]
BAY = str(ROOT / 'bay')
EXAMPLES = ROOT / 'examples'
CASE_E, TABLE, FULL, REFUSED, EVENING, FLEET = (
    str(EXAMPLES / name) for name in ('case_e.sheet', 'table_i.sheet', 'full.sheet', 'refused.sheet', 'evening.sheet',
                                      'fleet.csv'))


class Done:
    """How a command ended."""

    def __init__(self, status, out, err):
        self.status, self.out, self.err = status, out, err

    def __repr__(self):
        return f'status {self.status}\nout: {self.out!r}\nerr: {self.err!r}'


def bay(*words, data=b'', before=(), **more):
    """A process of its own, with words before it that start it: status, and both outputs as bytes."""
    more.setdefault('stdout', subprocess.PIPE)
    words = [*before, sys.executable, BAY, *words]
    done = subprocess.run(words, input=data, stderr=subprocess.PIPE, timeout=60, **more)
    return Done(done.returncode, done.stdout, done.stderr)


def listening():
    """In a new process: Ctrl-C ends it, also where we ignore it, as in the background of a shell."""
    signal.signal(signal.SIGINT, signal.SIG_DFL)


def here(*words):
    """In this process, which costs a hundredth; standard output is text."""
    out, err = io.StringIO(), io.StringIO()
    with contextlib.redirect_stdout(out), contextlib.redirect_stderr(err):
        try:
            status = run(words)
        except SystemExit as end:
            status = end.code
    return Done(status, out.getvalue(), err.getvalue())


class Case(unittest.TestCase):
    """A test with a folder of its own."""

    def setUp(self):
        folder = tempfile.TemporaryDirectory()
        self.addCleanup(folder.cleanup)
        self.folder = Path(folder.name)

    def path(self, name):
        return os.path.join(self.folder, name)

    def file(self, name, data):
        path = self.path(name)
        with open(path, 'wb') as file:
            file.write(data)
        return path

    def read(self, name):
        with open(self.path(name), 'rb') as file:
            return file.read()

    def ends(self, status, out, err, done):
        """Status, the whole of standard output where it is not None, and a part of one line of standard error, which is
        empty where that is ''."""
        self.assertEqual(done.status, status, done)
        text = done.out.decode('utf-8', 'surrogateescape') if isinstance(done.out, bytes) else done.out
        said = done.err if isinstance(done.err, str) else done.err.decode('utf-8', 'surrogateescape')
        if out is not None:
            self.assertEqual(text, out, done)
        self.assertNotIn('Traceback', said)
        self.assertNotIn('a fault of bay itself', said)
        if err:
            self.assertTrue(any(line.startswith('bay: ') and err in line for line in said.splitlines()), done)
        else:
            self.assertEqual(said, '', done)
        return done
