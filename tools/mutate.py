#!/usr/bin/env python3
"""tools/mutate.py SEED COUNT [CRATE ..]: random one-token changes, each proved again in its crate.

Works on a copy of the repository (a temporary folder), one mutant at a time. A change exchanges an operator, a number, a
Boolean, or two arguments, in src/ (code and contracts) or specs/ of a crate; comments, imports and cases are left alone.
Prints a line for each: the crate, the place, the change, and whether the crate is still proved. A survivor either means
the same or shows a weak statement: docs/MUTANTS.md."""
import os
import random
import re
import shutil
import subprocess
import sys
import tempfile

SWAPS = [
    (r'(?<= )<(?= )', '<='), (r'(?<= )<=(?= )', '<'), (r'(?<= )==(?= )', '!='), (r'(?<= )!=(?= )', '=='),
    (r'(?<= )\+(?= )', '-'), (r'(?<= )-(?= )', '+'), (r'(?<= )\*(?= )', '+'), (r'(?<= )/(?= )', '*'),
    (r'(?<= )\|(?= )', '&'), (r'\btrue\b', 'false'), (r'\bfalse\b', 'true'),
    (r'(?<= )<\?(?= )', '≤?'), (r'(?<= )≤\?(?= )', '<?'), (r'(?<= )and(?= )', 'or'), (r'(?<= )or(?= )', 'and'),
    (r'\.entry\b', '.exit'), (r'\.exit\b', '.entry'),
]


def places(text):
    """(start, end, new) of every change of a text"""
    at = 0
    for line in text.split('\n'):
        code = line.strip()
        if code and not code.startswith(('--', '//', 'use ', 'ghost use', 'pub mod', 'mod ', 'infix')):
            for pattern, new in SWAPS:
                for m in re.finditer(pattern, line):
                    yield at + m.start(), at + m.end(), new
            for m in re.finditer(r'(?<![\w.])\d[\d_]*(?![\w.])', line):
                n = int(m.group().replace('_', ''))
                yield at + m.start(), at + m.end(), str(n + 1)
            for m in re.finditer(r'(?<=[( ])(\w+), (\w+)(?=[,)])', line):
                if m.group(1) != m.group(2):
                    yield at + m.start(), at + m.end(), f'{m.group(2)}, {m.group(1)}'
        at += len(line) + 1


def main():
    seed, count, crates = int(sys.argv[1]), int(sys.argv[2]), sys.argv[3:]
    root = os.path.join(os.path.dirname(os.path.abspath(__file__)), '..')
    copy = os.path.join(tempfile.mkdtemp(), 'mutants')
    shutil.copytree(root, copy, ignore=shutil.ignore_patterns('.git'))
    found = []
    for crate in sorted(crates or os.listdir(os.path.join(copy, 'crates'))):
        for kind in ('src', 'specs'):
            for folder, _, names in sorted(os.walk(os.path.join(copy, 'crates', crate, kind))):
                for name in sorted(names):
                    path = os.path.join(folder, name)
                    if name.endswith(('.rt', '.antt')) and 'cases' not in folder:
                        with open(path, encoding='utf8') as f:
                            found += [(crate, path, *p) for p in places(f.read())]
    random.seed(seed)
    survived = 0
    for crate, path, start, end, new in random.sample(found, min(count, len(found))):
        with open(path, encoding='utf8') as f:
            text = f.read()
        with open(path, 'w', encoding='utf8') as f:
            f.write(text[:start] + new + text[end:])
        done = subprocess.run(['rt', 'check', crate], cwd=copy, stdin=subprocess.DEVNULL, capture_output=True)
        with open(path, 'w', encoding='utf8') as f:
            f.write(text)
        survived += done.returncode == 0
        line = text.count('\n', 0, start) + 1
        said = 'STILL PROVED' if done.returncode == 0 else 'refused'
        print(f'{os.path.relpath(path, copy)}:{line}: {text[start:end]!r} to {new!r}: {said}', flush=True)
    print(f'{survived} still proved')
    shutil.rmtree(os.path.dirname(copy))


main()
