"""Help, completion, and every example of every help, run as it stands there."""
import os
import re
import shutil
import subprocess
import unittest

from bay_market.commands.parser import COMMANDS, Once

from .bay import BAY, EXAMPLES, ROOT, TABLE, Case, here

LPR = '#!/bin/sh\ncat >/dev/null\n'


class Help(Case):
    def test_texts(self):
        overview = self.ends(0, None, '', here('--help')).out
        for words in (('-h',), ('help',)):
            self.ends(0, overview, '', here(*words))
        for name, command in COMMANDS.items():
            with self.subTest(name):
                self.assertIn(f'\n  {name} ', overview)
                text = self.ends(0, None, '', here(*name.split(), '--help')).out
                self.ends(0, text, '', here('help', *name.split()))
                self.assertIn('\nexample:\n  ', text)
                self.assertLess(max(map(len, text.splitlines())), 121)
                usage = command.parser().format_usage()
                for action in command.parser()._actions:
                    word = action.option_strings[0] if action.option_strings else action.metavar
                    self.assertIn(word, usage + '-h')
                    self.assertTrue(action.help, word)
                    if action.option_strings and action.nargs != 0:
                        self.assertIsInstance(action, Once)
        self.assertRegex(self.ends(0, None, '', here('--version')).out, r'^bay \d+\.\d+\.\d+\n$')

    def test_every_option_of_the_design(self):
        wanted = {'clear': '--quiet --rule --json --marked', 'why': '--rule --guest', 'show': '--quiet --rule --names',
                  'convert': '--labels --to', 'tidy': '--names', 'place': '--to', 'join': '--to', 'try': '--worths',
                  'menu': '', 'search': '--reports --seed --rule --quiet --worths', 'mark': '--rule --brief',
                  'course run': '--rounds --guests --stations --market --seed --rule --quiet --limit --memory --report',
                  'course check': '', 'course round': '--to', 'picture': '--guest --width --title --quiet --rule',
                  'post': '--book --desk --round --rule --again --together --wait --json',
                  'book': '--verify --guest --station --desk --refusals --journal --json',
                  'book new': '--guests --stations --json', 'book copy': '--json', 'completion': '', 'help': ''}
        self.assertEqual(list(wanted), list(COMMANDS))
        for name, options in wanted.items():
            for option in options.split():
                self.assertIn(option, COMMANDS[name].parser().format_help(), name)

    def test_examples(self):
        """Each is run in a folder that has the files of which they speak."""
        folder, programs = self.folder, self.folder / 'programs'
        programs.mkdir()
        (programs / 'bay').symlink_to(BAY)
        (programs / 'lpr').write_text(LPR)
        (programs / 'lpr').chmod(0o755)
        shutil.copy(EXAMPLES / 'table_i.sheet', folder / 'market.sheet')
        for words in (('convert', 'table_i.sheet', 'market.csv'), ('convert', 'gate_north.sheet', 'north.csv'),
                      ('convert', 'gate_south.sheet', 'south.csv')):
            self.ends(0, '', '', here(words[0], str(EXAMPLES / words[1]), self.path(words[2])))
        (folder / 'names.txt').write_text('a\nb\nc\nd\ne\n')
        (folder / 'places.csv').write_text('2,6\n1,1\n0,1\n0,1\n1,3,500,2,3,4\n')
        rows = self.read('market.csv').decode().replace(',', ';').split('\r\n')
        named = [f';;;{row}' if k < 2 else f'car {k};{row}' for k, row in enumerate(rows[:-1])]
        (folder / 'export.csv').write_text('\n'.join(named))
        for name in ('honest.py', 'shade.py', 'climb.py'):
            shutil.copy(EXAMPLES / 'course' / name, folder)
        right, text = (here('clear', '--marked', *words, TABLE).out for words in (['--json'], []))
        for name, handed in (('handed-in.json', right), ('firm-1.json', right), ('firm-2.txt', text)):
            (folder / name).write_text(handed)
        self.ends(0, None, '', here('course', 'run', str(folder / 'honest.py'), '--rounds', '17', '--limit', '20',
                                    '--report', self.path('report.json')))
        self.ends(0, None, '', here('book', 'new', self.path('park.db'), '--guests', '5', '--stations', '5'))
        rounds = [self.path('market.sheet')] * 17
        self.ends(0, None, '', here('post', '--book', self.path('park.db'), '--desk', '3', '--round', '1', *rounds))
        kept = {name: self.read(name) for name in os.listdir(folder) if name != 'programs'}
        run = 0
        for name, command in COMMANDS.items():
            for line in command.example.split('\n'):
                for file, data in kept.items():
                    self.file(file, data)
                if name == 'book new':
                    os.unlink(self.path('park.db'))
                with self.subTest(line):
                    self.assertIn(f'bay {name}', line)
                    done = subprocess.run(['bash', '-o', 'pipefail', '-c', line], cwd=folder, capture_output=True,
                                          timeout=60,
                                          env={**os.environ, 'PATH': f'{programs}:{os.environ["PATH"]}'})
                    self.assertEqual(done.returncode, 0, done)
                    self.assertNotIn(b'refused', done.stdout)
                    run += 1
        self.assertGreater(run, 20)

    def test_overview_example(self):
        lines = re.search(r'CR LF:\n((?:  [\d,]+\n)+)', here('--help').out).group(1).split()
        done = here('clear', self.file('m.csv', ''.join(f'{line}\r\n' for line in lines).encode()))
        self.ends(0, (EXAMPLES / 'case_e.txt').read_text(), '', done)


class Completion(Case):
    def complete(self, *words):
        """What bash offers for the last word."""
        script = ('source /dev/stdin <<<"$script"; COMP_WORDS=("$@"); COMP_CWORD=$(($# - 1)); _bay; '
                  'printf "%s\\n" "${COMPREPLY[@]}"')
        done = subprocess.run(['bash', '-c', script, 'bash', 'bay', *words], capture_output=True, text=True, timeout=60,
                              env={**os.environ, 'script': here('completion').out}, cwd=ROOT)
        self.assertEqual(done.stderr, '')
        return done.stdout.split()

    def test_bash(self):
        firsts = list(dict.fromkeys(name.split()[0] for name in COMMANDS))
        self.assertEqual(self.complete(''), [*firsts, '--help', '--version'])
        self.assertEqual(self.complete('c'), ['clear', 'convert', 'course', 'completion'])
        self.assertEqual(self.complete('course', ''), ['run', 'check', 'round'])
        self.assertEqual(self.complete('course', 'run', 'honest.py', '--r'), ['--rounds', '--rule', '--report'])
        self.assertEqual(self.complete('course', 'round', '--'), ['--help', '--to'])
        self.assertEqual(self.complete('course', 'round', '--to', 's'), ['sheet'])
        self.assertEqual(self.complete('help', 'course', 'c'), ['check'])
        self.assertEqual(self.complete('clear', '--q'), ['--quiet'])
        self.assertEqual(self.complete('picture', 'm.csv', '--'),
                         ['--help', '--quiet', '--rule', '--guest', '--width', '--title'])
        self.assertEqual(self.complete('clear', '--rule', ''), ['1', '2'])
        self.assertEqual(self.complete('convert', 'a', 'b', '--to', 'c'), ['csv'])
        self.assertEqual(self.complete('help', 'pl'), ['place'])
        self.assertEqual(self.complete('book', 'c'), ['copy'])
        self.assertEqual(self.complete('book', 'new', 'park.db', '--g'), ['--guests'])
        self.assertEqual(self.complete('clear', 'ex'), [])              # files are the shell's business


if __name__ == '__main__':
    unittest.main()
