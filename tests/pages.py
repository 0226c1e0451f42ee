#!/usr/bin/env python3
"""Runs the commands of the pages, in a copy of this tree, and holds what they print to what the page shows.

A command on a page is
- a line `$ COMMAND` of a fenced block; the lines up to the next one are what it prints, and `..` stands for some lines;
- a piece of `code` that begins with a program's name and says what the program is to work on. The name alone, or with
  options alone, or with a word in capitals, only names the thing; so does a block of such lines.
It ends with 0, or with 1 where it prints `refused`. A block of JavaScript is run, too; tests/c_page.py has C and C++,
python/tests/test_doc.py Python. What is a line of ./test is run there. What is not run says so on the page: `code`
(not run: why), or a line that begins with `Not run: ` and says why, in front of the block. With pages as arguments only
these are run.

The page of the house is held to crates.txt and the folders, too, the glossary to the languages, and links to files."""
import glob
import os
import re
import shutil
import subprocess
import sys
import tempfile
from pathlib import Path

ROOT = Path(__file__).resolve().parents[1]
# pages whose commands have a test of their own, which names the page; the other blocks and words are looked at here
OWN = {'docs/BOOK.md': 'python/tests/book/verbs.py', 'docs/COURSE.md': 'python/tests/test_course_page.py',
       'docs/DESK.md': 'python/tests/test_command_page.py'}
IN_EXAMPLES = {'docs/BOOK.md', 'docs/COURSE.md', 'docs/DESK.md'}
PROGRAM = re.compile(r'(?:[A-Z_]+=\S* )*(?:\./\w+|(?:scripts|tests|tools|examples)/[\w/.]+|bay-clear|bay|cargo|rt|node|'
                     r'npm|pip|python3|cc|gcc|g\+\+|pkg-config|apt-get|apt|dpkg|git|source|soffice|sed|printf|cmp|'
                     r'fuser|make|cmake|man|~/\S+|\w+/bin/\w+)(?= |$)')
CAPITALS = re.compile(r'(?<![\w$=-])[A-Z]+(?![\w=(-])|\[|(?<!\.)\.\.(?![./])')
COMMANDS_OF = {'rt', 'bay', './bay', 'npm', 'cargo'}    # their first word is a command's name
CHANGES_MACHINE = re.compile(r'(apt-get|apt|dpkg|npm|pip|sudo) ')
GATE = {line.strip() for line in (ROOT / 'test').read_text(encoding='utf8').split('\n')}
SECONDS = 300
owed, run, told = [], 0, 0


def names_only(command):
    """Whether a piece of code only names a program, with options or a word in capitals."""
    if CAPITALS.search(command):
        return True
    words = command[PROGRAM.match(command).end():].split()
    if PROGRAM.match(command).group() in COMMANDS_OF:
        words = words[1:] if words[:1] not in (['course'], ['book']) else words[2:]
    return all(word.startswith('-') or word.isdigit() for word in words)


def commands(page, text):
    """Line, command, and what it is to print or None; those that are marked as not run are counted."""
    global told
    lines, at = text.split('\n'), 0
    before = ''
    while at < len(lines):
        line = lines[at]
        fence = re.match(r'( *)```(\w*)$', line)
        if fence is None:
            for found in re.finditer(r'`([^`]+)`( \(not run: [^)]+\))?', line):
                command, marked = found.groups()
                if PROGRAM.match(command) and not names_only(command):
                    if marked:
                        told += 1
                    elif command not in GATE and not (page == 'docs/COURSE.md' and re.match(r'\| \d+\. ', line)):
                        yield at + 1, command, None
            before = line.strip() or before
            at += 1
            continue
        end = at + 1
        while lines[end].strip() != '```':
            end += 1
        block = lines[at + 1:end]
        shown = [number for number, inner in enumerate(block) if inner.startswith('$ ')]
        if before.startswith('Not run: '):
            told += max(1, len(shown))
        elif shown and page not in OWN:
            for number, following in zip(shown, [*shown[1:], len(block)]):
                yield at + 2 + number, block[number][2:], block[number + 1:following]
        elif fence.group(2) == 'js':
            yield at + 1, '\n'.join(["node --input-type=module <<'PAGE'", *block, 'PAGE']), None
        elif not fence.group(2) and not shown:
            for number, inner in enumerate(block):
                if PROGRAM.match(inner) and not names_only(inner.split('   ')[0]):
                    owed.append(f'{page}, line {at + 2 + number}: not run, and not said so: {inner}')
        before, at = '', end + 1


def matches(printed, shown):
    """Whether the lines are the shown ones, where `..` stands for any."""
    if '..' not in shown:
        return printed == shown
    parts, at = [[]], 0
    for line in shown:
        if line == '..':
            parts.append([])
        else:
            parts[-1].append(line)
    if printed[:len(parts[0])] != parts[0] or (parts[-1] and printed[-len(parts[-1]):] != parts[-1]):
        return False
    for part in parts:
        while printed[at:at + len(part)] != part:
            at += 1
            if at > len(printed):
                return False
        at += len(part)
    return True


def try_page(page, text, folder, environment):
    """Runs a page's commands in the folder, in their order."""
    global run
    for line, command, shown in commands(page, text):
        if CHANGES_MACHINE.match(command):
            owed.append(f'{page}, line {line}: it changes the machine, and is to be marked as not run: {command}')
            continue
        missing = [word for word in ('pkg-config', 'cmake', 'node', 'cargo')
                   if re.search(rf'(?<![\w/-]){word} ', command) and not shutil.which(word)]
        if missing:
            print(f'{page}, line {line}: not run, for {missing[0]} is not installed: {command}')
            if os.environ.get('CI'):
                owed.append(f'{page}, line {line}: {missing[0]} is not installed')
            continue
        run += 1
        try:
            done = subprocess.run(['bash', '-o', 'pipefail', '-c', f'{{ {command}\n}} 2>&1'], cwd=folder,
                                  env=environment, timeout=SECONDS, stdin=subprocess.DEVNULL, stdout=subprocess.PIPE)
            printed, status = done.stdout.decode(errors='replace').replace('\r\n', '\n'), done.returncode
        except subprocess.TimeoutExpired:
            printed, status = f'(nothing within {SECONDS} s)', None
        printed = printed.rstrip('\n').split('\n') if printed else []
        wanted = 1 if shown and re.match('refused|wrong', shown[0]) else 0
        if status != wanted or shown is not None and not matches(printed, shown):
            said = [f'{page}, line {line}: {command}', f'  ended with {status}, and printed']
            said += [f'    {inner}' for inner in printed[:40]]
            if shown:
                said += ['  where the page has', *(f'    {inner}' for inner in shown)]
            owed.append('\n'.join(said))


def house():
    """The page of the house: its drawing, rooms and ways."""
    page = 'docs/ARCHITECTURE.md'
    text = (ROOT / page).read_text(encoding='utf8')
    uses = {}
    for line in (ROOT / 'crates.txt').read_text(encoding='utf8').split('\n'):
        if line and not line.startswith('#'):
            name, used = line.split(':')
            uses[name.removesuffix(' staticlib')] = used.split()
    drawing = re.search(r'^```\n(.*?)^```$', text, re.M | re.S).group(1).split('\n')
    place = [(word, number) for number, line in enumerate(drawing) for word in line[:70].split() if word in uses]
    if sorted(word for word, _ in place) != sorted(uses):
        owed.append(f'{page}: the drawing has other crates than crates.txt: {set(uses) ^ {word for word, _ in place}}')
    level = dict(place)
    owed.extend(f'{page}: {name} uses {used}, which does not stand below it' for name in uses for used in uses[name]
                if used in uses and not level.get(name, 0) < level.get(used, 99))
    if f' {len(uses)} crates ' not in text:
        owed.append(f'{page}: there are {len(uses)} crates')

    def has(crate, name):
        folder = ROOT / 'crates' / crate / 'src'
        return (folder / f'{name}.rt').exists() or any(
            re.search(rf'^pub fn {name}\b', file.read_text(encoding='utf8'), re.M) for file in folder.glob('*.rt'))

    for crate, cell in re.findall(r'^\| `(\w+)` \| (.*) \|$', text, re.M):
        if crate in uses:
            named = set(re.findall(r'`(\w+)`', cell))
            modules = {file.stem for file in (ROOT / 'crates' / crate / 'src').glob('*.rt')} - {'lib', 'main'}
            owed.extend(f'{page}: {crate} has no {name}' for name in named if not has(crate, name))
            owed.extend(f'{page}: {crate} has {name}, too' for name in sorted(modules - named))
    for crate, name in re.findall(r'`(\w+)(?:/|::)(\w+)', text):
        if crate in uses and name not in ('src', 'specs', 'proofs') and not has(crate, name):
            owed.append(f'{page}: there is no {crate}/{name}')
    for folder in re.findall(r'`(\w+)/`', text.split('## Around the engine')[1]):
        if not (ROOT / folder).is_dir() and not (ROOT / 'tools' / folder).is_dir():
            owed.append(f'{page}: there is no folder {folder}')


def glossary():
    """The words of docs/FORMAT.md, in at most twenty lines: a name in code is one of C, Rust, Python or JavaScript."""
    page = 'docs/FORMAT.md'
    table = re.search(r'^## Words$.*?\n(\|.*?)\n\n', (ROOT / page).read_text(encoding='utf8'), re.M | re.S).group(1)
    if table.count('\n') >= 20:
        owed.append(f'{page}: the glossary has more than twenty lines')
    files = ['include/bay_market.h', 'rust/bay_market/src/owned.rs', 'js/bay_market.mjs',
             *glob.glob('python/bay_market/**/*.py', root_dir=ROOT, recursive=True)]
    code = '\n'.join((ROOT / file).read_text(encoding='utf8') for file in files)
    owed.extend(f'{page}: no language has a name {name}' for name in re.findall(r'`([^`]+)`', table)
                if not re.search(rf'\b{name}\b', code))


def links(page, text):
    """What a page links to is there."""
    for place in re.findall(r'\]\(([^)#\s]+)\)', text):
        if '://' not in place and not (ROOT / page).parent.joinpath(place).exists():
            owed.append(f'{page}: links to {place}, which is not there')


def main(wanted):
    pages = wanted or ['README.md', *sorted({*glob.glob('*.md', root_dir=ROOT)} - {'README.md'}),
                       *sorted(glob.glob('docs/*.md', root_dir=ROOT)), 'examples/README.md']
    texts = {page: (ROOT / page).read_text(encoding='utf8') for page in pages}
    for page, test in OWN.items():
        if page.split('/')[-1] not in (ROOT / test).read_text(encoding='utf8'):
            owed.append(f'{test} does not name {page}')
    house()
    glossary()
    with tempfile.TemporaryDirectory() as folder:
        copy = Path(folder, 'bay')
        tree = subprocess.run(['git', 'ls-files', '-z', '-co', '--exclude-standard'], cwd=ROOT, capture_output=True,
                              check=True).stdout.decode().split('\0')
        for name in filter(None, tree):
            if (ROOT / name).exists():
                (copy / name).parent.mkdir(parents=True, exist_ok=True)
                shutil.copy2(ROOT / name, copy / name, follow_symlinks=False)
        (copy / 'home').mkdir()
        environment = {'HOME': str(copy / 'home'), 'LANG': 'C.UTF-8', 'CARGO_HOME': os.environ.get('CARGO_HOME') or
                       str(Path.home() / '.cargo'), 'RUSTUP_HOME': os.environ.get('RUSTUP_HOME') or
                       str(Path.home() / '.rustup'), 'PYTHONDONTWRITEBYTECODE': '1', 'PATH': os.environ['PATH']}
        for page, text in texts.items():
            links(page, text)
            in_examples = page in IN_EXAMPLES
            path = f'{copy}:{os.environ["PATH"]}' if in_examples else os.environ['PATH']
            try_page(page, text, copy / 'examples' if in_examples else copy, {**environment, 'PATH': path})
    for line in owed:
        print(line, file=sys.stderr)
    print(f'{len(pages)} pages: {run} commands run, {told} said not to be run')
    return 1 if owed else 0


if __name__ == '__main__':
    sys.exit(main(sys.argv[1:]))
