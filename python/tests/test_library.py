"""Finding the library: at the first call, and with a line that helps where it is not there."""
import os
import subprocess
import sys
import tempfile
import unittest
from pathlib import Path

PYTHON = Path(__file__).resolve().parents[1]
CLEAR = 'from bay_market import *; print(clear(Market([2], [1], [], [], [])).cut)'


def run(code, folder='/', **environment):
    given = {**os.environ, 'PYTHONPATH': str(PYTHON), **environment}
    done = subprocess.run([sys.executable, '-c', code], cwd=folder, env=given, capture_output=True, text=True,
                          check=False)
    return done.returncode, done.stdout, done.stderr.strip().split('\n')[-1]


class Library(unittest.TestCase):
    def test_found(self):
        library = next((PYTHON.parent / 'prebuilt').glob(f'{os.uname().machine}-linux/libbay_market.so'))
        self.assertEqual(run(CLEAR), (0, '2\n', ''))
        self.assertEqual(run(CLEAR, BAY_MARKET_LIBRARY=str(library)), (0, '2\n', ''))
        self.assertEqual(run(CLEAR, library.parent, BAY_MARKET_LIBRARY=library.name), (0, '2\n', ''))

    def test_not_found(self):
        status, _, said = run(CLEAR, BAY_MARKET_LIBRARY='/no/such.so')
        self.assertEqual(status, 1)
        self.assertEqual(said, f'bay_market._library.NoLibrary: no libbay_market.so for this machine '
                               f'({os.uname().machine}-linux): looked for /no/such.so')
        other = 'import os; os.uname = lambda: os.uname_result(("Linux", "", "", "", "abacus")); '
        status, _, said = run(other + CLEAR)
        self.assertEqual(status, 1)
        self.assertRegex(said, r'for this machine \(abacus-linux\): looked for /.*/python/bay_market/libbay_market.so '
                               r'and /.*/prebuilt/abacus-linux/libbay_market.so$')

    def test_import_needs_none(self):
        self.assertEqual(run('import bay_market; print(bay_market.text_of(8))', BAY_MARKET_LIBRARY='/no/such.so'),
                         (0, 'an amount is 0 or above 1,000\n', ''))

    def test_another_library(self):
        with tempfile.NamedTemporaryFile(suffix='.so') as file:
            file.write(b'no library')
            file.flush()
            status, _, said = run(CLEAR, BAY_MARKET_LIBRARY=file.name)
            self.assertEqual(status, 1)
            self.assertIn(f'NoLibrary: cannot load {file.name} on this machine', said)
        status, _, said = run(CLEAR, BAY_MARKET_LIBRARY='/lib/x86_64-linux-gnu/libc.so.6')
        self.assertEqual(status, 1)
        self.assertRegex(said, 'NoLibrary: .*libc.so.6 names no version, so that it is older than 1.0.0 or another '
                               r'library; /.*/python/bay_market is of version \d+\.\d+\.\d+$')

    def test_another_version(self):
        with tempfile.TemporaryDirectory() as folder:
            library, source = f'{folder}/libbay_market.so', f'{folder}/other.c'
            Path(source).write_text('unsigned bay_market_version(void) { return 12034056; }\n', encoding='utf8')
            subprocess.run(['gcc', '-shared', '-fPIC', source, '-o', library], check=True)
            status, _, said = run(CLEAR, BAY_MARKET_LIBRARY=library)
        self.assertEqual(status, 1)
        self.assertRegex(said, f'NoLibrary: {library} is of version 12.34.56; /.*/python/bay_market is of version ')


if __name__ == '__main__':
    unittest.main()
