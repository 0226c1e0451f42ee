"""The commands of docs/COURSE.md, run as they stand there: what they print is what the page has."""
import os
import re
import shutil
import subprocess
import unittest

from .bay import BAY, EXAMPLES, ROOT, Case


class Page(Case):
    def setUp(self):
        super().setUp()
        (self.folder / 'programs').mkdir()
        (self.folder / 'programs/bay').symlink_to(BAY)
        for file in (*(EXAMPLES / 'course').iterdir(), EXAMPLES / 'table_i.sheet', EXAMPLES / 'evening.sheet'):
            shutil.copy(file, self.folder)
        self.page = (ROOT / 'docs/COURSE.md').read_text(encoding='utf8')

    def run_in_folder(self, command):
        """Status and output; on a busy machine a bidder may need more than the second that it has."""
        command = command.replace('bay course run', 'bay course run --limit 100')
        path = f'{self.folder / "programs"}:{os.environ["PATH"]}'
        done = subprocess.run(['bash', '-c', f'{command} 2>&1'], cwd=self.folder, capture_output=True, timeout=300,
                              env={**os.environ, 'PATH': path})
        return done.returncode, done.stdout.decode()

    def test_commands(self):
        commands = 0
        for block in re.findall(r'^```\n(\$ .*?)^```$', self.page, re.M | re.S):
            for command, said in re.findall(r'^\$ ([^\n]*)\n((?:(?!\$ )[^\n]*\n)*)', block, re.M):
                status = 1 if command.startswith('bay mark') and 'wrong' in said else 0
                with self.subTest(command):
                    self.assertEqual(self.run_in_folder(command), (status, said))
                commands += 1
        self.assertGreater(commands, 15)

    def test_exercises(self):
        """Each has its own market, and what is to be seen stands in what is printed."""
        rows = re.findall(r'^\| (\d+)\. \*\*.* \| (`.*`) \| (.*) \|$', self.page, re.M)
        self.assertEqual([int(number) for number, _, _ in rows], list(range(1, 11)))
        for number, commands, seen in rows:
            printed = ''
            for command in re.findall('`([^`]*)`', commands):
                self.assertIn(f' {int(number):02d}-', command)
                status, said = self.run_in_folder(command)
                self.assertEqual(status, 0, said)
                printed += said
            wanted = re.findall('`([^`]*)`', seen)
            self.assertGreater(len(wanted), 0)
            for words in wanted:
                with self.subTest(exercise=number, words=words):
                    self.assertIn(words, printed)

    def test_bidders(self):
        """The bidders of the page are the files."""
        for form, name in (('python', 'shade.py'), ('c', 'shade.c')):
            shown = re.search(rf'^```{form}\n(.*?)^```$', self.page, re.M | re.S).group(1)
            self.assertEqual(shown, (self.folder / name).read_text(encoding='utf8'))


if __name__ == '__main__':
    unittest.main()
