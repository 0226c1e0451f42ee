#!/usr/bin/env python3
"""plain32.py MODULE.ll: the module on standard output, with what the size of 64-bit pointers goes into written out, so
that it means the same where pointers have 32 bits.

A local of type ptr becomes one of 8 bytes. A pair whose second value would stand elsewhere there is loaded value by
value, at the offsets of 64 bits. A pointer's address becomes one of 32 bits, extended with zeros. Whatever else there
is stays as it is, for tools/fits32.py to judge, which reads what is made here."""
import re
import sys

from fits32 import POINTER, kinds_of, second


def local(_):
    return f'alloca [{POINTER} x i8], align {POINTER}'


def pair(match):
    made, kinds, source, align = match.groups()
    first, other = kinds_of(kinds)
    offset = second([first, other], POINTER)
    if offset == second([first, other], POINTER // 2):
        return match[0]
    return '\n'.join((
        f'  {made}.first = load {first}, ptr {source}, align {align}',
        f'  {made}.at = getelementptr i8, ptr {source}, i64 {offset}',
        f'  {made}.second = load {other}, ptr {made}.at, align {min(int(align), offset & -offset)}',
        f'  {made}.half = insertvalue {kinds} poison, {first} {made}.first, 0',
        f'  {made} = insertvalue {kinds} {made}.half, {other} {made}.second, 1'))


def address(match):
    made, source = match.groups()
    return f'  {made}.low = ptrtoaddr ptr {source} to i32\n  {made} = zext i32 {made}.low to i64'


FORMS = ((rf'\balloca ptr, align {POINTER}$', local),
         (r'^  (%[\w.]+) = load (\{ (?:ptr|i\d+), (?:ptr|i\d+) \}), ptr (%[\w.]+), align (\d+)$', pair),
         (r'^  (%[\w.]+) = ptrtoaddr ptr (%[\w.]+) to i64$', address))


def main(path):
    with open(path, encoding='utf8') as file:
        text = file.read()
    for pattern, made in FORMS:
        text = re.sub(pattern, made, text, flags=re.M)
    sys.stdout.write(text)


if __name__ == '__main__':
    main(sys.argv[1])
