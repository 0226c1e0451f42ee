#!/usr/bin/env python3
"""Writes packaging/bay.1 and packaging/bay-clear.1 from what the commands say of themselves: the parser of `bay`, and
`bay-clear --help`. --check only says whether they are as they should be. scripts/install puts the version in."""
import os
import re
import subprocess
import sys
import tempfile

ROOT = os.path.dirname(os.path.dirname(os.path.realpath(__file__)))
sys.path.insert(0, os.path.join(ROOT, 'python'))
from bay_market.commands.parser import COMMANDS  # noqa: E402


def plain(text):
    """Text that roff shows as it is."""
    text = text.replace('\\', '\\e').replace('-', '\\-')
    return '\n'.join('\\&' + line if line[:1] in '.\'' else line for line in text.split('\n'))


def shown(lines):
    """Lines as they stand, indented."""
    return ['.PP', '.RS 4', '.nf', *(plain(line) for line in lines), '.fi', '.RE']


def head(name, text):
    return ['.\\" tools/man.py writes this file.', f'.TH {name.upper()} 1 "" "bay_market @VERSION@" "The bay market"',
            '.SH NAME', plain(f'{name} - {text}')]


def foot(also):
    return ['.SH FILES', plain(f'The pages, the examples and bay.html, for a browser, are in share/doc/bay-market '
                               'beside the folder of this command.'),
            '.SH SEE ALSO', *(f'.BR {plain(name)} (1)' for name in also)]


def words_of(command):
    """A command's files and options, each with its help."""
    for action in command.parser()._actions:
        if action.dest == 'help' and action.option_strings:
            continue
        value = action.metavar or ('' if action.nargs == 0 else '|'.join(action.choices or ()))
        name = f'{action.option_strings[0]} {value}'.rstrip() if action.option_strings else value
        yield name, (action.help or '').replace('%%', '%')


def bay():
    page = head('bay', 'clears markets of charging bays, and tells why')
    page += ['.SH SYNOPSIS', '.B bay', '.I COMMAND', '[options] [\\fIFILE\\fR]', '.SH DESCRIPTION',
             plain('FILE is a market sheet or a comma-separated market (CSV), known by its first bytes; without it, '
                   'or -, it is standard input. Every number that is printed is an answer of the proved engine.')]
    page += ['.PP', plain('A market as CSV: a line of asks, a line of bays, then for each guest ticket, kWh and its '
                          'bids, an empty field for no bid; each line ends in CR LF:')]
    page += shown(['2,6', '1,1', '1,3,8,', '2,3,8,'])
    page += ['.SH COMMANDS']
    for command in COMMANDS.values():
        page += [f'.SS bay {plain(command.name)} {plain(" ".join(command.usage.split()))}'.rstrip(),
                 plain(f'{command.text[0].upper()}{command.text[1:]}.')]
        for name, text in words_of(command):
            page += ['.TP', f'\\fB{plain(name)}\\fR', plain(text)]
        page += shown(command.example.split('\n'))
    page += ['.SH EXIT STATUS', '.TP', '0', 'done', '.TP', '1', 'refused, or wrong', '.TP', '2',
             'wrong use, or no such file', '.TP', '3', 'input or output failed']
    page += foot(['bay-clear'])
    return page


def bay_clear():
    with tempfile.TemporaryDirectory() as folder:
        link = os.path.join(folder, 'bay-clear')
        os.symlink(os.path.join(ROOT, 'clear'), link)
        said = subprocess.run([link, '--help'], capture_output=True, check=True, encoding='utf8').stdout
    usage, text, ends = said.rstrip('\n').split('\n\n')
    page = head('bay-clear', 'clears a market of charging bays and prints the clearing')
    page += ['.SH SYNOPSIS', '.nf', *(plain(line.replace('usage: ', '').strip()) for line in usage.split('\n')), '.fi',
             '.SH DESCRIPTION']
    for line in text.split('\n'):
        page += ['.PP'] * line.startswith('With') + [plain(line)]
    page += ['.PP', plain('A refused market prints one line, refused and a number, which refusals.txt explains.')]
    page += ['.SH EXIT STATUS']
    for part in re.split(r', (?=\d )', ends.split(': ', 1)[1]):
        page += ['.TP', *part.split(' ', 1)]
    page += foot(['bay'])
    return page


wrong = False
for name, made in (('bay', bay()), ('bay-clear', bay_clear())):
    path = os.path.join(ROOT, f'packaging/{name}.1')
    text = '\n'.join(made) + '\n'
    if sys.argv[1:] == ['--check']:
        with open(path, encoding='utf8') as file:
            if file.read() != text:
                print(f'packaging/{name}.1 is not as tools/man.py writes it: run tools/man.py', file=sys.stderr)
                wrong = True
    else:
        with open(path, 'w', encoding='utf8') as file:
            file.write(text)
sys.exit(wrong)
