#!/usr/bin/env python3
"""Looks at the text of the crates: no line over 120 columns in src/, specs/ and proofs/ but in a file that a generator
made, no chain of more than four `.before` there but in a function that only names the way back; at most 149 must-fail
edits, each of them once in docs/EDITS.md; no line over 120 columns in python/. Prints what is believed, file by file,
with its lines (comments and blanks aside)."""
import glob
import re
import sys

WIDTH, CHAIN, EDITS = 120, 4, 149
owed = []


def chains(text):
    """The declarations with a longer chain that are more than that chain."""
    starts = [m.start() for m in re.finditer(r'^(?=\S)', text, re.M)] + [len(text)]
    for declaration in (text[a:b] for a, b in zip(starts, starts[1:])):
        longest = max((m.group().count('.before') for m in re.finditer(r'\.before(\s*\.before)*', declaration)), default=0)
        way_back = re.fullmatch(r'(\S+)\s+(\S+)\s*=\s*\2(\s*\.before)+\s*', declaration)
        if longest > CHAIN and not way_back:
            yield declaration.split()[0]


def too_wide(text):
    return [n for n, line in enumerate(text.split('\n'), 1) if len(line) > WIDTH]


for path in sorted(path for part in ('src', 'specs', 'proofs') for path in glob.glob(f'crates/*/{part}/**', recursive=True)):
    if path.endswith(('.rt', '.antt')):
        text = open(path, encoding='utf8').read()
        wide = too_wide(text)
        if 'generated' in text[:400]:
            continue
        if wide:
            owed.append(f'{path}: over {WIDTH} columns in lines {wide}')
        owed += [f'{path}: more than {CHAIN} steps back in one go in {name}' for name in chains(text)]
for path in sorted(glob.glob('python/**/*.py', recursive=True)):
    wide = too_wide(open(path, encoding='utf8').read())
    if wide:
        owed.append(f'{path}: over {WIDTH} columns in lines {wide}')
edits = sorted('{1}/{3}'.format(*path[:-len('.edit')].split('/')) for path in glob.glob('crates/*/must-fail/*.edit'))
listed = sorted(re.findall(r'`(\w+/\w+)`', open('docs/EDITS.md', encoding='utf8').read()))
if len(edits) > EDITS:
    owed.append(f'{len(edits)} must-fail edits, at most {EDITS} are wanted')
if edits != listed:
    owed.append(f'docs/EDITS.md and the folders differ, or one has an edit twice: {set(edits) ^ set(listed)}')

print('believed: the definitions and statements of crates/model/specs')
total = 0
for path in sorted(glob.glob('crates/model/specs/**/*.antt', recursive=True)):
    lines = [line.strip() for line in open(path, encoding='utf8')]
    count = sum(1 for line in lines if line and not line.startswith(('--', 'use ', 'pub mod ')))
    if count:
        total += count
        print(f'{count:6} {path[len("crates/model/specs/"):]}')
print(f'{total:6} in all')
for line in owed:
    print(line, file=sys.stderr)
sys.exit(1 if owed else 0)
