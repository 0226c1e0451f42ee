"""The part of js/bay_market.mjs that scripts/exports writes: the exported functions with their parameters, the refusals
of refusals.txt, and the limits and texts of the header."""
import re

BEGIN, END = '// scripts/exports writes what follows', '// end of what scripts/exports writes'


def camel(name):
    return re.sub(r'_(\w)', lambda found: found.group(1).upper(), name.lower())


def listed(start, items, end):
    """Items one to a line."""
    return [start, *(f'    {item},' for item in items), end]


def limits(header):
    found = re.findall(r'^#define BAY_MARKET_MAX_(\w+) (?:UINT\d+_C\()?(\d+)', header, re.M)
    return [f'{camel(name)}: {value}' for name, value in found if not name.startswith('STACK')]


def texts(header, function):
    """The texts of a C function's cases, by rising number."""
    body = re.search(rf'^static inline const char \*{function}\(.*?^}}', header, re.M | re.S).group()
    return [f"'{text}'" for text in re.findall(r'case \w+: return "(.*)";', body)]


def names(header, enum):
    """The names of a C enum, in words, by rising number."""
    body = re.search(rf'^enum {enum} {{.*?^}};', header, re.M | re.S).group()
    return [f"'{name.lower().replace('_', ' ')}'" for name in re.findall(r'BAY_MARKET_(\w+) =', body)]


def refusals():
    lines = [line.split(None, 2) for line in open('refusals.txt', encoding='utf8') if not line.startswith('#')]
    quoted = [(name, text.strip().replace("'", "\\'")) for _, name, text in lines]
    return [f"['{name}', '{text}']" for name, text in quoted]


def written(old, functions, structs, prefix):
    header = open('include/bay_market.h', encoding='utf8').read()
    out = ['const exported = {']
    for f in functions:
        all_of = [f"    ['{p.name}', '{p.kind}', '{p.type}']" for p in f.parameters]
        out += listed(f'    {f.name[len(prefix):]}: [', all_of, '    ],')
    out += ['};']
    used = sorted({p.type for f in functions for p in f.parameters} & set(structs))
    out += listed('const structs = {', [f'{name}: {[field for field, _ in structs[name]]}' for name in used], '};')
    out += listed('const refusals = [', refusals(), '];')
    out += listed('export const limits = Object.freeze({', limits(header), '});')
    out += listed('export const codes = Object.freeze([', texts(header, 'bay_market_code_text'), ']);')
    out += listed('export const changes = Object.freeze([', names(header, 'bay_market_change'), ']);')
    out += [f"export const version = '{re.search(r'BAY_MARKET_VERSION .(.*).$', header, re.M).group(1)}';"]
    before, _, rest = old.partition(BEGIN)
    first, _, rest = rest.partition('\n')
    _, _, after = rest.partition(END)
    return f'{before}{BEGIN}{first}\n' + '\n'.join(out) + f'\n{END}{after}'
