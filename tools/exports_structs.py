"""The functions of include/bay_market.h over structs, for scripts/exports: each is the call of the one that it is named
after. What a call only reads is lent by a struct of pointers with the two counts; what it writes has its room in the
struct. How long a list is follows from the counts."""
import re

# of each struct the parameters that it stands for, in their order, with the length of each list: n is the number of
# guests, m of stations, nm of bids; one in capitals is as long as the room, whatever the counts
STRUCTS = {
    'tables': 'asks:m bays:m amounts:n tickets:n bids:nm width',
    'places': 'prices:n falls:n guest_first:n guest_second:n station_first:m station_second:m',
    'market': 'amounts:N tickets:N asks:M bays:M bids:NM n m',
    'joined': 'joined_asks:m joined_bays:m joined_amounts:n joined_tickets:n joined_bids:nm',
    'results': 'stations:n charges:n sold:m paid:m cut margin',
    'submission': 'stations:n charges:n sold:m paid:m places:nm floors:m cut margin',
    'explanation': 'codes:nm stations:n charges:n reasons:n',
    'tried': 'changes:n first_gain second_gain',
    'price_list': 'bars:m prices:m',
    'ledger': 'guests:N stations:M house last:D',
}
# lists that stand in no struct and have a length by the counts; any other keeps its own length
ALONE = {'worths': 'm', 'row': 'm', 'bids': 'nm'}
READ, OWNERS = ('tables', 'places'), ('tables', 'places', 'joined')
ROOM = {'n': 'BAY_MARKET_MAX_GUESTS', 'm': 'BAY_MARKET_MAX_STATIONS', 'nm': 'BAY_MARKET_MAX_BIDS',
        'd': 'BAY_MARKET_MAX_DESKS'}
COUNT = {'n': '{0}->guests', 'm': '{0}->stations', 'nm': '{0}->guests * {1}->stations'}
FIELDS = {'n': 'guests', 'm': 'stations', 'width': 'stations'}


def sizes(struct):
    return dict((word + ':').split(':')[:2] for word in STRUCTS[struct].split())


def parameters(struct):
    """The names of the parameters that a struct stands for."""
    return ' '.join(sizes(struct))


class Argument:
    """An argument of a function over structs: a struct by its name, or a parameter of the function that is called."""

    def __init__(self, struct, parameters, suffix=''):
        self.struct, self.parameters, self.suffix = struct, parameters, suffix
        self.name = struct + suffix if struct else parameters[0].name

    def size(self, p):
        """The length of a list, by the counts, or None where it has its own."""
        if self.struct:
            return sizes(self.struct).get(p.name.removesuffix(self.suffix)) or None
        return ALONE.get(p.name)

    def declared(self, words):
        if self.struct:
            constant = 'const ' * (all(p.kind in ('slice', 'value') for p in self.parameters))
            return [f'{constant}struct bay_market_{"market" if self.struct == "joined" else self.struct} *{self.name}']
        return words(self.parameters[0])[:1 if self.size(self.parameters[0]) else None]

    def passed(self, p, owner):
        """A parameter as it is passed on."""
        field = self.field(p) if self.struct else p.name
        if p.kind == 'value':
            return [field]
        if p.kind == 'out':
            return [f'&{field}' if self.struct else field]
        size = self.size(p)
        if size is None:
            return [field, f'{p.name}_len']
        if size.isupper():
            return [field, ROOM[size.lower()]]
        of = self if self.struct in OWNERS else owner
        # the joined market's counts have 16 bits, so that their product needs a wider one
        wide = owner if self.struct == 'joined' else of
        return [field, COUNT[size].format(of.name, wide.name)]

    def field(self, p):
        name = p.name.removesuffix(self.suffix).removeprefix('joined_' if self.struct == 'joined' else '')
        inner = 'clearing.' if self.struct == 'submission' and name in sizes('results') else ''
        return f'{self.name}->{inner}{FIELDS.get(name, name) if self.struct in (*OWNERS, "market") else name}'


def arguments(f):
    """The arguments of a function over structs, from the parameters of the one that it calls."""
    out, at = [], 0
    while at < len(f.parameters):
        rest = f.parameters[at:]
        for struct, suffix in [(struct, '') for struct in STRUCTS] + [('tables', '2')]:
            names = [name + suffix for name in sizes(struct)]
            if [p.name for p in rest[:len(names)]] == names:
                out.append(Argument(struct, rest[:len(names)], suffix))
                break
        else:
            out.append(Argument(None, rest[:1]))
        at += len(out[-1].parameters)
    return out


def wrapped(start, parts, end):
    """Parts with commas between them, in lines of 120 columns that begin below the first."""
    lines, indent = [start], ' ' * len(start)
    for n, part in enumerate(parts):
        piece = part + (', ' if n + 1 < len(parts) else end)
        if len(lines[-1]) + len(piece.rstrip()) > 120:
            lines.append(indent)
        lines[-1] += piece
    return '\n'.join(line.rstrip() for line in lines)


def inline(f, words, joined_lines):
    given = arguments(f)
    owner = next((a for a in given if a.struct in OWNERS), None)
    of = {id(p): a for a in given for p in a.parameters}
    start = f'    return {f.name}('
    passed = joined_lines(f.parameters, lambda p: of[id(p)].passed(p, owner))
    return [wrapped(f'static inline uint8_t {f.name}_tables(', [w for a in given for w in a.declared(words)], ')'),
            '{', start + (',\n' + ' ' * len(start)).join(passed) + ');', '}', '']


def declarations(struct, functions, c_type):
    """The fields that a struct of the header has to have."""
    p = {p.name: p for f in functions for a in arguments(f) if a.struct == struct for p in a.parameters}
    if struct in READ:
        return ['size_t guests', 'size_t stations',
                *(f'const {c_type(p[name].type)} *{name}' for name, size in sizes(struct).items() if size)]
    fields = [f'{c_type(p[name].type)} {name}' + (f'[{ROOM[size.lower()]}]' if size else '')
              for name, size in sizes(struct).items()]
    if struct == 'submission':
        return ['struct bay_market_results clearing', *(field for field in fields
                                                        if re.search(r'(places|floors)\[', field))]
    if struct == 'market':
        return ['uint16_t guests', 'uint16_t stations', *fields[:-2]]
    return fields


def wrong(text, functions, c_type):
    """The structs of the header that have other fields than they should, with these."""
    for struct in STRUCTS:
        if struct == 'joined':
            continue
        body = re.search(rf'^struct bay_market_{struct} \{{(.*?)^\}};', text, re.M | re.S)
        fields = re.findall(r'([^;]+);', re.sub(r'/\*.*?\*/', '', body.group(1), flags=re.S)) if body else []
        wanted = declarations(struct, functions, c_type)
        if sorted(' '.join(field.split()) for field in fields) != sorted(wanted):
            yield struct, wanted
