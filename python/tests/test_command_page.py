"""The commands of docs/DESK.md, run as they stand there: what they print is what the page has."""
import os
import re
import shutil
import subprocess
import unittest

from .bay import BAY, EXAMPLES, ROOT, Case


class Page(Case):
    def test_page(self):
        programs = self.folder / 'programs'
        programs.mkdir()
        (programs / 'bay').symlink_to(BAY)
        for name in ('fleet.sheet', 'fleet_export.csv', 'gate_north.sheet', 'gate_south.sheet'):
            shutil.copy(EXAMPLES / name, self.folder)
        page = (ROOT / 'docs/DESK.md').read_text(encoding='utf8')
        commands = 0
        for block in re.findall(r'^```\n(\$ .*?)^```$', page, re.M | re.S):
            for command, said in re.findall(r'^\$ ([^\n]*)\n((?:(?!\$ )[^\n]*\n)*)', block, re.M):
                done = subprocess.run(['bash', '-c', f'{command} 2>&1'], cwd=self.folder, capture_output=True,
                                      env={**os.environ, 'PATH': f'{programs}:{os.environ["PATH"]}'}, timeout=60)
                with self.subTest(command):
                    self.assertEqual(done.stdout.decode().replace('\r\n', '\n'), said)
                    self.assertEqual(done.returncode, 1 if said.startswith('refused') else 0)
                commands += 1
        self.assertGreater(commands, 12)
        self.assertEqual((self.folder / 'fleet.csv').read_bytes(), (EXAMPLES / 'fleet.csv').read_bytes())


if __name__ == '__main__':
    unittest.main()
