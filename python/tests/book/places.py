"""Disks and users for the tests: a small disk, a disk that may not be written, another user."""
import contextlib
import os
import shutil
import subprocess
import sys
import unittest

from ..bay import ROOT, Done

NOBODY = 65534


def needs(what, there):
    """Skips a test where this machine has not what it needs; under CI that is a fault."""
    if not there and os.environ.get('CI'):
        raise AssertionError(f'not possible here: {what}')
    if not there:
        raise unittest.SkipTest(f'not possible here, so not tried: {what}')


@contextlib.contextmanager
def disk(folder, size):
    """A disk of that size, mounted at a new folder. The function that comes with it makes it read-only."""
    os.mkdir(folder)
    words = ['mount', '-t', 'tmpfs', '-o', f'size={size},mode=755', 'tmpfs', folder]
    needs('a small disk of its own (mount as root)',
          os.geteuid() == 0 and not subprocess.run(words, stderr=subprocess.DEVNULL).returncode)
    try:
        yield lambda: subprocess.run(['mount', '-o', 'remount,ro', folder], check=True)
    finally:
        # lazy, since where a test fails a server may still have files there
        subprocess.run(['umount', '--lazy', folder], check=True)


class Other:
    """Another user, with a copy of the command that it may read."""

    def __init__(self, folder):
        needs('another user (root)', os.geteuid() == 0)
        os.chmod(os.path.dirname(folder), 0o755)
        self.root = folder
        shutil.copytree(ROOT / 'python/bay_market', f'{folder}/python/bay_market',
                        ignore=shutil.ignore_patterns('__pycache__'))
        shutil.copytree(ROOT / 'prebuilt', f'{folder}/prebuilt')
        shutil.copy(ROOT / 'bay', folder)
        subprocess.run(['chmod', '-R', 'a+rX', folder], check=True)

    def bay(self, *words):
        done = subprocess.run([sys.executable, '-B', f'{self.root}/bay', *map(str, words)], stdin=subprocess.DEVNULL,
                              capture_output=True,
                              timeout=120, user=NOBODY, group=NOBODY, extra_groups=[], cwd='/')
        return Done(done.returncode, done.stdout, done.stderr)
