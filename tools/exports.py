#!/usr/bin/env python3
"""The exported functions, described once: by their signatures in crates/bay_market/src.

    scripts/exports                    writes what other languages declare of them
    scripts/exports --check            writes nothing, and fails where something is not as it would be written
    scripts/exports --names            prints the functions, without bay_market_
    scripts/exports --symbols          prints all that the library exports, with what tells its version
    scripts/exports --parts KIND NAME  prints the parameters of a function that are of that kind

The header's functions over structs are written too (tools/exports_structs.py), and the version wherever it stands
(tools/exports_version.py).

A parameter's kind goes by its Rattle type: `u32` is a value, `&[u32]` a slice, `&mut [u32]` lent, `&mut u32` an out
parameter. In C and Rust a slice or a lent list is a pointer and a length, an out parameter a pointer.

Written: the prototypes of include/bay_market.h, in place, below the comments that are kept by hand; the extern block of
rust/bay_market/src/c.rs, and the same functions in rust/bench/src/c.rs, where they are loaded;
rust/bay_market/src/slices.rs, each function over slices, which has all that is unsafe; tests/exports.h, what the wrong
engine declares; tools/exports_table.py, for the scripts; python/bay_market/_c.py, for the package, with the header's
limits and texts; the tables of js/bay_market.mjs, in place (tools/exports_js.py)."""
import collections
import glob
import re
import sys

sys.dont_write_bytecode = True
import exports_js  # noqa: E402
import exports_structs  # noqa: E402
import exports_version  # noqa: E402

PREFIX = 'bay_market_'
SOURCES, STRUCTS = 'crates/bay_market/src/*.rt', 'crates/model/src/*.rt'
HEADER, EXTERN, SLICES = 'include/bay_market.h', 'rust/bay_market/src/c.rs', 'rust/bay_market/src/slices.rs'
ENGINE, TABLE, PACKAGE = 'tests/exports.h', 'tools/exports_table.py', 'python/bay_market/_c.py'
JAVASCRIPT = 'js/bay_market.mjs'
LOADED = 'rust/bench/src/c.rs'
C = {'u8': 'uint8_t', 'u16': 'uint16_t', 'u32': 'uint32_t', 'u64': 'uint64_t', 'i64': 'int64_t', 'usize': 'size_t'}
KINDS = (('lent', r'&mut \[(\w+)\]'), ('slice', r'&\[(\w+)\]'), ('out', r'&mut (\w+)'), ('value', r'(\w+)'))
# parameters that several functions share, as the wrong engine names them, by the structs that C has for them
GROUPS = {'MARKET': 'tables', 'RESULT': 'results', 'TOLD': 'explanation', 'PLACES': 'places'}
# names that Rust takes only as r#NAME
KEYWORDS = ('try',)
# what makes a function one that C calls by its own name
EXPORTED = r'#\[unsafe\(no_mangle\)\]\s*pub extern "C" fn'
BEGIN, END = 'scripts/exports writes what follows', 'end of what scripts/exports writes'

Parameter = collections.namedtuple('Parameter', 'name kind type')
Function = collections.namedtuple('Function', 'name parameters')


class Unknown(Exception):
    pass


def without_comments(text):
    return re.sub(r'//[^\n]*', '', text)


def parameter(text):
    name, _, written = (part.strip() for part in text.partition(':'))
    for kind, pattern in KINDS:
        found = re.fullmatch(pattern, written)
        if found:
            return Parameter(name, kind, found.group(1))
    raise Unknown(f'{name}: {written} is no kind that C has')


def functions():
    out = []
    for path in sorted(glob.glob(SOURCES)):
        text = without_comments(open(path, encoding='utf8').read())
        if len(re.findall(r'extern "C" fn', text)) != len(re.findall(EXPORTED, text)):
            raise Unknown(f'{path}: a function for C is not marked #[unsafe(no_mangle)]')
        for name, given, answer in re.findall(rf'{EXPORTED} (\w+)\(([^)]*)\)\s*->\s*(\w+)', text):
            if path == exports_version.SOURCE:
                continue
            if answer != 'u8' or not name.startswith(PREFIX):
                raise Unknown(f'{path}: {name} gives {answer}')
            parameters = [parameter(p) for p in given.split(',') if p.strip()]
            for p in parameters:
                if p.type not in C and (p.kind not in ('slice', 'lent') or p.type not in STRUCT):
                    raise Unknown(f'{path}: {name}: {p.name} is of a type that C does not have')
            out.append(Function(name, parameters))
    return sorted(out)


def structs():
    """The fields of each `#[repr(C)]` struct."""
    out = {}
    for path in glob.glob(STRUCTS):
        text = without_comments(open(path, encoding='utf8').read())
        for name, fields in re.findall(r'#\[repr\(C\)\]\s*(?:#\[[^\]]*\]\s*)*pub struct (\w+) \{([^}]*)\}', text):
            out[name] = re.findall(r'pub (\w+): (\w+)', fields)
    return out


STRUCT = structs()


def snake(name):
    return re.sub(r'(?<!^)(?=[A-Z])', '_', name).lower()


def c_type(name):
    return C.get(name) or f'struct {PREFIX}{snake(name)}'


def rust_name(f):
    """A function's name among those over slices."""
    name = f.name[len(PREFIX):]
    return f'r#{name}' if name in KEYWORDS else name


def words(p):
    """A parameter in C, as one or two declarations."""
    if p.kind == 'value':
        return [f'{c_type(p.type)} {p.name}']
    pointer = f'{"const " * (p.kind == "slice")}{c_type(p.type)} *{p.name}'
    return [pointer] if p.kind == 'out' else [pointer, f'size_t {p.name}_len']


def passed(p):
    """A parameter as an argument in C."""
    return [p.name] if p.kind in ('value', 'out') else [p.name, f'{p.name}_len']


def rust(p):
    """A parameter in Rust's extern block."""
    if p.kind == 'value':
        return [f'{p.name}: {p.type}']
    pointer = f'{p.name}: *{"const" if p.kind == "slice" else "mut"} {p.type}'
    return [pointer] if p.kind == 'out' else [pointer, f'{p.name}_len: usize']


def lines(parameters, declared):
    """A line for each slice, and one for neighbours that are values or out parameters."""
    out, last = [], None
    for p in parameters:
        if p.kind == last and p.kind in ('value', 'out'):
            out[-1] += declared(p)
        else:
            out.append(list(declared(p)))
        last = p.kind
    return [', '.join(line) for line in out]


def prototype(f, name=None):
    start = f'uint8_t {name or f.name}('
    return start + (',\n' + ' ' * len(start)).join(lines(f.parameters, words)) + ');'


def header(text):
    """The header with each prototype as it should be, and its structs looked at."""
    found = re.findall(rf'^uint8_t ({PREFIX}\w+)\(', text, re.M)
    wanted = [f.name for f in ALL]
    if sorted(found) != wanted:
        raise Unknown(f'{HEADER}: it has {sorted(found)}, exported are {wanted}: write a prototype with its comment')
    for f in ALL:
        text = re.sub(rf'^uint8_t {f.name}\([^;]*\);', lambda _: prototype(f), text, flags=re.M)
    for name in sorted({p.type for f in ALL for p in f.parameters} - set(C)):
        body = re.search(rf'^{c_type(name)} \{{([^}}]*)\}};', text, re.M)
        if not body or re.findall(r'(\w+) (\w+);', body.group(1)) != [(C[t], field) for field, t in STRUCT[name]]:
            raise Unknown(f'{HEADER}: {c_type(name)} has other fields than {name}')
    for struct, fields in exports_structs.wrong(text, ALL, c_type):
        raise Unknown(f'{HEADER}: struct {PREFIX}{struct} has other fields than {"; ".join(fields)}')
    inline = [line for f in in_order() for line in exports_structs.inline(f, words, lines)]
    return between(text, HEADER, '\n'.join(inline))


def between(text, path, body):
    """The text with the body between the two marks."""
    marked = re.compile(rf'(^[^\n]*{BEGIN}[^\n]*\n).*?(^[^\n]*{END})', re.M | re.S)
    if len(marked.findall(text)) != 1:
        raise Unknown(f'{path}: it has no place marked "{BEGIN}" .. "{END}"')
    return marked.sub(lambda m: m.group(1) + body + m.group(2), text)


def in_order():
    """The functions in the header's order."""
    found = re.findall(rf'^uint8_t ({PREFIX}\w+)\(', open(HEADER, encoding='utf8').read(), re.M)
    return sorted(ALL, key=lambda f: found.index(f.name))


def declared_in(start):
    """The functions as Rust declares them, in braces."""
    body = ['#[rustfmt::skip] // pointer and length on one line', f'{start} {{']
    for f in in_order():
        body += [f'    pub fn {f.name}(', *(f'        {line},' for line in lines(f.parameters, rust)),
                 '    ) -> u8;', '']
    return '\n'.join(body[:-1] + ['}', ''])


def extern(text):
    return between(text, EXTERN, declared_in('unsafe extern "C"'))


def loaded(text):
    return between(text, LOADED, declared_in('loaded!'))


def slices(_):
    out = ['//! Each function of [`c`](crate::c) over slices.',
           '// scripts/exports writes this file from crates/bay_market/src.',
           '#![allow(clippy::too_many_arguments)]', '', 'use crate::c;']
    out += [f'use crate::{name};' for name in sorted({p.type for f in ALL for p in f.parameters} - set(C))]
    kinds = {'value': '{}', 'slice': '&[{}]', 'lent': '&mut [{}]', 'out': '&mut {}'}
    pointers = {'slice': 'as_ptr', 'lent': 'as_mut_ptr'}

    def declared(p):
        return [f'{p.name}: {kinds[p.kind].format(p.type)}']

    def passed_on(p):
        return [f'{p.name}.{pointers[p.kind]}()', f'{p.name}.len()'] if p.kind in pointers else [p.name]

    for f in ALL:
        out += ['', f'pub(crate) fn {rust_name(f)}(',
                *(f'    {line},' for line in lines(f.parameters, declared)), ') -> u8 {',
                '    // SAFETY: every pointer and length is that of a live slice or number, and borrows keep',
                '    // the written ones apart.', '    unsafe {', f'        c::{f.name}(',
                *(f'            {line},' for line in lines(f.parameters, passed_on)),
                '        )', '    }', '}']
    return '\n'.join(out) + '\n'


def wrapped(start, parts):
    """`#define START PARTS`, in lines of 120 columns."""
    out = [start]
    for n, part in enumerate(parts):
        piece = part + (',' if n + 1 < len(parts) else '')
        if len(out[-1]) + 1 + len(piece) > 118:
            out.append('    ' + piece)
        else:
            out[-1] += ' ' + piece
    return ' \\\n'.join(out)


def group(f, names):
    """The parameters of a function that have these names one after the other, or None."""
    all_names = [p.name for p in f.parameters]
    for n in range(len(all_names)):
        if all_names[n:n + len(names)] == names:
            return f.parameters[n:n + len(names)]
    return None


def engine(_):
    out = ['/* scripts/exports writes this file from crates/bay_market/src: the real functions, renamed, and of each',
           ' * group of parameters and of each function the parameters, the arguments and the parts that are lent. */']
    for f in ALL:
        out += ['', prototype(f, f'real_{f.name}')]

    def macros(name, parameters):
        named = {'slice': 'LIST', 'lent': 'LIST', 'out': 'NUMBER'}
        out.extend(['', wrapped(f'#define {name}_PARAMETERS', [w for p in parameters for w in words(p)]),
                    wrapped(f'#define {name}_ARGUMENTS', [w for p in parameters for w in passed(p)]),
                    wrapped(f'#define {name}_PARTS', [f'{named[p.kind]}({p.name})' for p in parameters
                                                      if p.kind in named])])

    for name, shared in GROUPS.items():
        names = exports_structs.parameters(shared).split()
        forms = {tuple(g) for f in ALL for g in [group(f, names)] if g}
        if len(forms) != 1:
            raise Unknown(f'{name}: {len(forms)} forms')
        macros(name, forms.pop())
    for f in ALL:
        macros(f.name[len(PREFIX):].upper(), f.parameters)
    return '\n'.join(out) + '\n'


def table(_):
    out = ['"""The exported functions. scripts/exports writes this file from crates/bay_market/src."""',
           'import ctypes', '',
           '# of each function: name, kind and type of each parameter. A slice or a lent list is a pointer and a',
           '# length, an out parameter a pointer; what is lent or out may be written', 'EXPORTS = {']
    for f in ALL:
        out += [f'    {f.name!r}: [', *(f'        {tuple(p)!r},' for p in f.parameters), '    ],']
    out += ['}', '', '# of each struct: name and type of each field', 'STRUCTS = {']
    for name in sorted({p.type for f in ALL for p in f.parameters} - set(C)):
        out += [f'    {name!r}: {STRUCT[name]!r},']
    out += ['}', '', '''
TYPES = {'u8': ctypes.c_uint8, 'u16': ctypes.c_uint16, 'u32': ctypes.c_uint32, 'u64': ctypes.c_uint64,
         'i64': ctypes.c_int64, 'usize': ctypes.c_size_t}
for _name, _fields in STRUCTS.items():
    TYPES[_name] = type(_name, (ctypes.Structure,), {'_fields_': [(field, TYPES[t]) for field, t in _fields]})


def argument_types(parameters):
    out = []
    for _, kind, name in parameters:
        out.append(TYPES[name] if kind == 'value' else ctypes.POINTER(TYPES[name]))
        out += [ctypes.c_size_t] if kind in ('slice', 'lent') else []
    return out


def load(path):
    """The shared library at a path, with the types of its functions."""
    library = ctypes.CDLL(path)
    for name, parameters in EXPORTS.items():
        function = getattr(library, name)
        function.argtypes, function.restype = argument_types(parameters), ctypes.c_uint8
    return library


def call(library, name, **given):
    """Calls a function with a value, list or number for each parameter. Gives the answer, and what it was lent and its
    out parameters as they are after the call."""
    arguments, held = [], {}
    for parameter, kind, of in EXPORTS[name]:
        value = given.pop(parameter)
        if kind == 'value':
            arguments.append(value)
            continue
        held[parameter] = (TYPES[of] * 1)(value) if kind == 'out' else (TYPES[of] * len(value))(*value)
        arguments += [held[parameter]] + ([len(value)] if kind != 'out' else [])
    if given:
        raise TypeError(f'{name} has no parameter {sorted(given)}')
    answer = getattr(library, name)(*arguments)
    after = {'lent': list, 'out': lambda cell: cell[0]}
    return answer, {parameter: after[kind](held[parameter]) for parameter, kind, _ in EXPORTS[name] if kind in after}
'''.strip('\n')]
    return '\n'.join(out) + '\n'


def limits(text):
    """The header's numbers and its version, by their names without BAY_MARKET_."""
    for name, value in re.findall(r'^#define BAY_MARKET_(\w+) +(\S+)', text, re.M):
        number = re.fullmatch(r'(?:UINT\d+_C\()?(\d+)\)?', value)
        yield name, int(number.group(1)) if number else value.strip('"')


def texts(text, of):
    """Number and text of each name of an enum of the header."""
    numbers = dict(re.findall(r'(BAY_MARKET_\w+) = (\d+)', text))
    body = re.search(rf'bay_market_{of}_text\(.*?^}}', text, re.M | re.S).group()
    return [(int(numbers[name]), said) for name, said in re.findall(r'case (\w+): return "(.*)";', body)]


def ctypes_types(p):
    """A parameter's one or two types in ctypes."""
    if p.kind == 'value':
        return ['c_size_t' if p.type == 'usize' else f'c_{C[p.type][:-len("_t")]}']
    return ['c_void_p'] if p.kind == 'out' else ['c_void_p', 'c_size_t']


def package(_):
    text = open(HEADER, encoding='utf8').read()
    out = ['"""What the header has: limits, texts, and the types of each function\'s arguments.', '',
           'scripts/exports writes this file from crates/bay_market/src and include/bay_market.h."""',
           'from ctypes import c_size_t, c_uint8, c_uint32, c_uint64, c_void_p', 'from typing import Any, Dict, Tuple',
           '']
    out += [f'{name} = {value!r}' for name, value in limits(text)]
    for name, of, said in (('REFUSALS', 'refusal', 'what an answer says'), ('CODES', 'code', 'what a code says')):
        out += ['', f'# {said}', f'{name}: Dict[int, str] = {{']
        out += [f'    {number}: {words!r},' for number, words in texts(text, of)] + ['}']
    out += ['', '# the arguments of each function, without bay_market_', 'SIGNATURES: Dict[str, Tuple[Any, ...]] = {']
    for f in in_order():
        out += [f'    {f.name[len(PREFIX):]!r}: (',
                *(f'        {", ".join(ctypes_types(p))},  # {p.name}' for p in f.parameters), '    ),']
    return '\n'.join(out + ['}', ''])


def javascript(text):
    return exports_js.written(text, ALL, STRUCT, PREFIX)


def main(arguments):
    if arguments == ['--names']:
        print(' '.join(f.name[len(PREFIX):] for f in ALL))
        return 0
    if arguments == ['--symbols']:
        print(' '.join(sorted([f.name for f in ALL] + exports_version.read()[1])))
        return 0
    if len(arguments) == 3 and arguments[0] == '--parts':
        _, kind, name = arguments
        print(' '.join(p.name for f in ALL if f.name == PREFIX + name for p in f.parameters if p.kind == kind))
        return 0
    if arguments not in ([], ['--check']):
        print(__doc__, file=sys.stderr)
        return 2
    stale = []
    for path, write in ((HEADER, header), (EXTERN, extern), (LOADED, loaded), (SLICES, slices), (ENGINE, engine),
                        (TABLE, table), (PACKAGE, package), (JAVASCRIPT, javascript),
                        *((path, str) for path in exports_version.ALONE)):
        try:
            old = open(path, encoding='utf8').read()
        except FileNotFoundError:
            old = ''
        new = exports_version.put(path, write(old))
        if new != old:
            stale.append(path)
            if not arguments:
                open(path, 'w', encoding='utf8').write(new)
    for path in stale:
        print(path)
    if stale and arguments:
        print('run scripts/exports', file=sys.stderr)
        return 1
    return 0


try:
    ALL = functions()
    status = main(sys.argv[1:])
except (Unknown, exports_version.NoVersion) as wrong:
    print(wrong, file=sys.stderr)
    status = 1
sys.exit(status)
