"""How the command ends where input or output fails: never a traceback."""
import os
import pty
import resource
import signal
import subprocess
import sys
import time
import unittest

from bay_market import Market

from .bay import BAY, CASE_E, EVENING, FULL, REFUSED, ROOT, TABLE, Case, Done, bay, here

NO_UTF8 = {'LC_ALL': 'C', 'PYTHONUTF8': '0', 'PYTHONCOERCECLOCALE': '0'}


def shell(words):
    """The command in bash, where $bay is it."""
    done = subprocess.run(['bash', '-c', words], stdin=subprocess.DEVNULL, capture_output=True, timeout=60, cwd=ROOT,
                          env={**os.environ, 'bay': f'{sys.executable} {BAY}'})
    return Done(done.returncode, done.stdout, done.stderr)


class Ends(Case):
    def test_closed_streams(self):
        self.ends(3, '', 'cannot read standard input: it is closed', shell('$bay clear <&-'))
        self.ends(0, here('clear', CASE_E).out, '', shell(f'$bay clear {CASE_E} <&-'))
        for words in (f'clear {CASE_E}', f'clear {REFUSED}', f'clear --json {CASE_E}', f'show {CASE_E}',
                      f'convert {CASE_E} -',
                      '--help', '--version', 'clear --help', 'completion', 'help', f'picture {CASE_E} -'):
            with self.subTest(words):
                done = self.ends(3, '', 'cannot write standard output: it is closed', shell(f'$bay {words} >&-'))
                self.assertEqual(done.err.count(b'\n'), 1)
        self.ends(2, '', '', shell('$bay clear nofile 2>&-'))
        self.ends(1, 'refused 6\n', '', shell(f'$bay clear {REFUSED} 2>&-'))
        self.ends(3, '', '', shell(f'$bay clear {CASE_E} >&- 2>&-'))

    def test_full_disk(self):
        for words in (f'clear {CASE_E}', f'clear {FULL}', f'clear {REFUSED}', f'convert {FULL} -', '--help',
                      'clear --help',
                      f'why {FULL}', f'clear --json {FULL}'):
            with self.subTest(words):
                done = shell(f'$bay {words} >/dev/full')
                self.ends(3, '', 'cannot write standard output: No space left on device', done)
        self.ends(3, '', 'cannot write /dev/full: No space left on device', here('convert', FULL, '/dev/full'))
        self.ends(1, 'refused 6\n', '', shell(f'$bay clear {REFUSED} 2>/dev/full'))

    def test_a_disk_that_fills_leaves_the_old_file(self):
        out = self.file('out.sheet', b'old')

        def small():
            signal.signal(signal.SIGXFSZ, signal.SIG_IGN)
            resource.setrlimit(resource.RLIMIT_FSIZE, (100, 100))
        done = bay('convert', FULL, out, preexec_fn=small)
        self.ends(3, '', f'cannot write {out}: File too large', done)
        self.assertEqual(self.read('out.sheet'), b'old')
        self.assertEqual(os.listdir(self.folder), ['out.sheet'])

    def test_written_whole(self):
        """A file that is there keeps its rights, a link stays one, and no part is left."""
        out, link = self.file('out.sheet', b'old'), self.path('link.sheet')
        os.chmod(out, 0o640)
        os.symlink('out.sheet', link)
        self.ends(0, '', '', here('convert', CASE_E, link))
        with open(CASE_E, 'rb') as file:
            self.assertEqual(self.read('out.sheet'), file.read())
        self.assertEqual((os.stat(out).st_mode & 0o777, os.path.islink(link)), (0o640, True))
        self.assertEqual(sorted(os.listdir(self.folder)), ['link.sheet', 'out.sheet'])
        self.ends(0, '', '', here('convert', out, out))
        self.ends(0, '', '', here('convert', CASE_E, '/dev/null'))
        self.assertEqual(bay('convert', CASE_E, '/dev/stdout').out, self.read('out.sheet'))
        os.symlink('new.sheet', self.path('dangling'))
        self.ends(0, '', '', here('convert', CASE_E, self.path('dangling')))
        self.assertEqual(self.read('new.sheet'), self.read('out.sheet'))

    def test_rights(self):
        """Without the superuser's right to read and write everything."""
        less = '-dac_override,-dac_read_search'
        drop = ('setpriv', f'--bounding-set={less}', f'--inh-caps={less}') if os.geteuid() == 0 else ()
        secret = self.file('secret', b'')
        os.chmod(secret, 0)
        self.ends(3, '', f'cannot read {secret}: Permission denied', bay('clear', secret, before=drop))
        os.chmod(self.folder, 0o500)
        self.ends(3, '', 'Permission denied', bay('convert', CASE_E, self.path('out'), before=drop))

    def test_unreadable(self):
        self.ends(3, '', 'cannot read /proc/self/mem: ', here('clear', '/proc/self/mem'))

    def test_empty_and_endless(self):
        empty = self.file('empty', b'')
        self.ends(1, 'refused 1\n', 'byte 0: the sheet ends inside a field: it is empty', here('clear', empty))
        self.ends(1, 'refused 1\n', 'standard input, byte 0: ', bay('clear'))
        self.ends(1, 'refused 2\n', '/dev/zero, byte 2: ', here('clear', '/dev/zero'))
        self.ends(1, 'refused 23\n', 'line 1, field 1', here('clear', self.file('ones', b'1' * (1 << 21))))

    def test_closed_pipe(self):
        for words in (('clear', FULL), ('clear', '--json', '--marked', FULL), ('--help',), ('convert', FULL, '-')):
            with self.subTest(words), subprocess.Popen([sys.executable, BAY, *words], stdout=subprocess.PIPE,
                                                       stderr=subprocess.PIPE) as process:
                process.stdout.close()
                self.assertEqual((process.wait(60), process.stderr.read()), (3, b''))

    def test_ctrl_c(self):
        with subprocess.Popen([sys.executable, BAY, 'clear'], stdin=subprocess.PIPE, stdout=subprocess.PIPE,
                              stderr=subprocess.PIPE) as process:
            late = time.monotonic() + 20
            while not self.waits(process.pid) and time.monotonic() < late:
                time.sleep(0.01)
            process.send_signal(signal.SIGINT)
            out, err = process.communicate(timeout=60)
        self.assertEqual((process.returncode, out, err), (-signal.SIGINT, b'', b''))

    @staticmethod
    def waits(pid):
        """Whether the process has taken Ctrl-C to end it, which it does before it reads."""
        with open(f'/proc/{pid}/status', encoding='ascii') as file:
            caught = next(int(line.split()[1], 16) for line in file if line.startswith('SigCgt:'))
        with open(f'/proc/{pid}/wchan', encoding='ascii') as file:
            return not caught >> (signal.SIGINT - 1) & 1 and 'pipe' in file.read()

    def test_terminal(self):
        """No FILE and a terminal: wrong use; a sheet is not for a terminal."""
        mine, theirs = pty.openpty()
        try:
            done = subprocess.run([sys.executable, BAY, 'clear'], stdin=theirs, capture_output=True, timeout=60)
            self.ends(2, '', 'standard input is a terminal', Done(done.returncode, done.stdout, done.stderr))
            done = subprocess.run([sys.executable, BAY, 'convert', CASE_E, '-'], stdout=theirs, stderr=subprocess.PIPE,
                                  timeout=60)
            self.ends(2, None, 'a sheet is bytes and not for a terminal', Done(done.returncode, None, done.stderr))
        finally:
            os.close(mine)
            os.close(theirs)

    def test_locales(self):
        """File names go out as the bytes they came in."""
        path = os.fsencode(self.folder) + b'/\xff\xc3\xbc.sheet'
        with open(REFUSED, 'rb') as sheet, open(path, 'wb') as file:
            file.write(sheet.read())
        names = self.file('names', 'Ü\n'.encode() * 5)
        for more in (NO_UTF8, {'LC_ALL': 'C.UTF-8'}, {'LC_ALL': 'POSIX'}, {'LC_ALL': 'nowhere'}):
            with self.subTest(more):
                done = bay('clear', path, env={**os.environ, **more})
                self.ends(1, 'refused 6\n', 'station 2: an ask', done)
                self.assertIn(path + b': station 2', done.err)
                done = bay('clear', b'no\xff\xc3\xbc', env={**os.environ, **more})
                self.assertEqual((done.status, done.err), (2, b'bay: no such file: no\xff\xc3\xbc\n'))
                done = bay('convert', CASE_E, path + b'.csv', env={**os.environ, **more})
                self.ends(0, '', '', done)
                self.assertTrue(os.path.exists(path + b'.csv'))
                os.unlink(path + b'.csv')
                done = self.ends(0, None, '', bay('show', '--names', names, TABLE, env={**os.environ, **more}))
                self.assertIn('Ü'.encode(), done.out)
                done = bay('clear', '--json', path, env={**os.environ, **more})
                self.assertTrue(done.out.isascii())
                done = bay('picture', EVENING, '-', '--title', b'\xc3\x9c \xff', env={**os.environ, **more})
                self.assertIn('<title>Ü ?</title>'.encode(), done.out)

    def test_line_that_helps(self):
        """What is refused with 22 is tried by tidy, and the second line says what helps."""
        for data, said in (
                (b'\xef\xbb\xbf4;1\n1;2\n1;5;7;\n', 'has a byte order mark, semicolons and LF line ends; this makes it '
                                                    'right and says what it changed: bay tidy '),
                (b'4,1\r\n1,2\r\n1,5,0.31,\r\n', "tidy cannot make it right: cell C3 is '0.31': prices are whole"),
                (b'PK\x03\x04....', 'seems to be a workbook (.xlsx or .ods): in the spreadsheet, save it as CSV'),
                ('4\t1\n1\t2\n'.encode('utf-16'), 'has UTF-16; this makes it right')):
            path = self.file('a b.csv', data)
            done = here('clear', path)
            self.assertEqual((done.status, done.err.count('\n')), (1, 2), done)
            self.assertIn(said, done.err.splitlines()[1])
            if 'this makes' in said:
                words = done.err.splitlines()[1].rsplit('changed: bay ', 1)[1].replace('OUT.csv', self.path('o.csv'))
                self.ends(0, '', ': ', shell(f'$bay {words}'))
                self.ends(0, None, '', here('clear', self.path('o.csv')))

    def test_no_library(self):
        done = bay('clear', CASE_E, env={**os.environ, 'BAY_MARKET_LIBRARY': '/nowhere/libbay_market.so'})
        self.ends(3, '', 'no libbay_market.so for this machine (', done)
        self.ends(0, None, '', bay('clear', '--help', env={**os.environ, 'BAY_MARKET_LIBRARY': '/nowhere'}))

    def test_links_and_folders(self):
        link = self.path('bay')
        os.symlink(BAY, link)
        done = subprocess.run([link, 'clear', CASE_E], cwd='/', capture_output=True)
        self.assertEqual(done.stdout.decode(), here('clear', CASE_E).out)

    def test_only_what_is_needed(self):
        """bay clear does not import what it does not use."""
        code = ('import sys, os; sys.argv = ["bay", "clear", sys.argv[1]]; from bay_market.commands import main\n'
                'os._exit = lambda status: print([name for name in sys.modules if "tidy" in name or "picture" in name '
                'or '
                'name in ("csv", "json", "bay_market.words", "shutil")], file=sys.stderr)\nmain()')
        done = subprocess.run([sys.executable, '-S', '-c', code, CASE_E], capture_output=True, cwd=ROOT / 'python')
        self.assertEqual(done.stderr, b'[]\n')


class Speed(Case):
    def test_processor_time(self):
        """bay clear takes at most 1.5 of ./clear's processor time: the least of several runs of each, in turns."""
        times = {}
        for _ in range(8):
            for words in ((sys.executable, BAY, 'clear', CASE_E), (str(ROOT / 'clear'), CASE_E)):
                before = resource.getrusage(resource.RUSAGE_CHILDREN)
                subprocess.run(words, stdout=subprocess.DEVNULL, check=True)
                after = resource.getrusage(resource.RUSAGE_CHILDREN)
                spent = after.ru_utime + after.ru_stime - before.ru_utime - before.ru_stime
                times[words] = min(times.get(words, spent), spent)
        ours, theirs = times.values()
        print(f'bay clear {1000 * ours:.0f} ms of processor, ./clear {1000 * theirs:.0f} ms')
        self.assertLess(ours, 1.5 * theirs)


class Itself(Case):
    def test_a_fault_of_ours_is_a_line(self):
        code = ('from bay_market.commands import clearing, main\ndef broken(args): raise KeyError("x")\n'
                'clearing.do_clear = broken\nmain(["clear"])')
        done = subprocess.run([sys.executable, '-c', code], capture_output=True, cwd=ROOT / 'python')
        self.assertEqual(done.returncode, 3)
        self.assertEqual(done.stderr, b"bay: a fault of bay itself, at <string>:2: KeyError: 'x'\n")

    def test_as_module(self):
        done = subprocess.run([sys.executable, '-m', 'bay_market', 'clear', CASE_E], capture_output=True,
                              cwd=ROOT / 'python')
        self.assertEqual((done.returncode, done.stdout.decode()), (0, here('clear', CASE_E).out))
        self.assertIsInstance(Market, type)


if __name__ == '__main__':
    unittest.main()
