#!/usr/bin/env python3
"""fits32.py MODULE.ll: whether a module that was made for 64-bit pointers means the same where they have 32 bits.

It does where nothing sees a pointer's size: no pointer becomes a number or a number a pointer, pointers are compared
with null alone, no constant and no parameter's type has one inside, addresses are made by byte offsets, a local of type
ptr is only loaded and stored whole, a pair of values has its second one at the same offset either way, and no byte of
memory is a pointer here and a number there (moved whole by memmove, or filled with zeros, it may be). Memory is
followed through calls, their results, moves and stored pointers; places that may be the same are taken for the same.
A function is read anew for each call, as if it were made for that one, and a move of so many bytes concerns these.
What is not known here is refused. Exit status 0: it fits; 1: it does not, and the first faults are printed.

One thing more may be done with pointers: two addresses of 32 bits, extended with zeros to 64, are compared with one
another, or one is taken from the other and the difference is compared. That means the same: the numbers are those of a
64-bit machine all of whose memory lies below 2^32, with the same order and the same difference modulo 2^64. They may go
nowhere else, neither into memory nor into a call, a jump, other arithmetic or a pointer. tools/plain32.py makes a
module of this form."""
import re
import sys

NUMBERS = {'i1': 1, 'i8': 1, 'i16': 2, 'i32': 4, 'i64': 8}
POINTER = 8  # bytes that the module leaves for a pointer
SHOWN = 20
NAME = r'%[\w.]+'


class Piece:
    """A piece of memory: what stands at which offset, and where pointers there lead."""

    def __init__(self):
        self.up, self.shift = None, 0  # what it was taken for, and where it starts there
        self.cells = {}  # offset: kinds, 'ptr' or a number's bytes
        self.held = {}  # offset: (piece, offset) that the pointer there leads to
        self.computed = False  # reached by computed offsets too


def find(place):
    piece, offset = place
    while piece.up is not None:
        offset += piece.shift
        piece = piece.up
    return piece, offset


def unify(one, other):
    """Takes two places for the same."""
    work = [(one, other)]
    while work:
        (a, i), (b, j) = map(find, work.pop())
        if a is b:
            a.computed |= i != j  # one pointer leads to two offsets: of an array
            continue
        b.up, b.shift = a, i - j
        a.computed |= b.computed
        for offset, kinds in b.cells.items():
            a.cells.setdefault(offset + b.shift, set()).update(kinds)
        for offset, target in b.held.items():
            if offset + b.shift in a.held:
                work.append((a.held[offset + b.shift], target))
            else:
                a.held[offset + b.shift] = target


def leads_to(place):
    piece, offset = find(place)
    return piece.held.setdefault(offset, (Piece(), 0))


def use(place, kind):
    piece, offset = find(place)
    piece.cells.setdefault(offset, set()).add(kind)


def split(words):
    return [part.strip() for part in words.split(',')] if words.strip() else []


def value(words):
    return words.split()[-1]


def kinds_of(words):
    """The kinds in a type, or in what stands before a function's name: one, or those of a pair."""
    pair = re.search(r'\{ (ptr|i\d+), (ptr|i\d+) \}', words)
    return list(pair.groups()) if pair else re.findall(r'\b(?:ptr|i\d+)\b', words)[-1:]


def second(kinds, pointer):
    """The offset of a pair's second value, where a pointer has so many bytes."""
    sizes = [pointer if kind == 'ptr' else NUMBERS[kind] for kind in kinds]
    return -(-sizes[0] // sizes[1]) * sizes[1]


class Module:
    def __init__(self, text):
        self.faults, self.pieces, self.instructions = [], [], 0
        bodies = re.findall(r'^define ([^\n]*?)(@"[^"]*"|@[\w.]+)\(([^\n]*)\) #\d+ \{\n(.*?)^\}', text, re.M | re.S)
        if len(bodies) != len(re.findall(r'^define ', text, re.M)):
            self.faults.append('a function is not of the form that is known')
        for line in re.findall(r'^@.*', text, re.M):
            if re.search(r'\bptr\b', line):
                self.faults.append(f'a constant holds a pointer: {line}')
            if not re.match(r'@(?:"[^"]*"|[\w.]+) = (?:[a-z_]+ )*constant ', line):
                self.faults.append(f'a global that is no constant: {line}')
        self.functions = {name: (kinds_of(made), split(given), body) for made, name, given, body in bodies}
        for name, (_, given, _) in self.functions.items():
            self.faults += [f'{name}: a parameter is no plain pointer or number: {words}'
                            for words in given if re.search(r'byval|sret|[{[<]', words)]
        self.moves = []  # of so many bytes: to, from, how many
        self.open = {}  # the functions that are being read, by name
        self.read = set()
        # those that are called by none first, so that the others are read where they are called
        called = set(re.findall(r'\bcall [^(\n]*?(@"[^"]*"|@[\w.]+)\(', text))
        for name in sorted(self.functions, key=called.__contains__):
            if name not in self.read:
                self.copy(name)
        while any([self.carry(*move) for move in self.moves]):
            pass
        self.faults = list(dict.fromkeys(self.faults))

    def new(self):
        self.pieces.append(Piece())
        return self.pieces[-1], 0

    def copy(self, name):
        """Reads a function for one call, as if no other call were; one inside itself is the one that is being read."""
        if name not in self.open:
            made, given, body = self.functions[name]
            results = [self.new() if kind == 'ptr' else None for kind in made]
            parameters = [self.new() if words.startswith('ptr') else None for words in given]
            self.open[name] = results, parameters
            Body(self, name, given).read(body)
            self.read.add(name)
            return self.open.pop(name)
        return self.open[name]

    def carry(self, to, source, size):
        """Takes the bytes of a move for the same here and there; whether that changed anything. Memory that is reached
        by computed offsets holds numbers alone, or is refused: what is moved to it or from it is numbers."""
        if find(to)[0].computed or find(source)[0].computed:
            changed = False
            for piece, offset in map(find, (to, source)):
                for byte in range(offset, offset + size):
                    kinds = piece.cells.setdefault(byte, set())
                    changed |= not piece.computed and 1 not in kinds
                    kinds.add(1)
            return changed
        return self.carry_to(to, source, size) or self.carry_to(source, to, size)

    def carry_to(self, to, source, size):
        (a, i), (b, j) = find(to), find(source)
        changed = False
        for offset, kind in [(offset, kind) for offset, kinds in b.cells.items() for kind in kinds]:
            length = POINTER if kind == 'ptr' else kind
            low, high = max(offset, j), min(offset + length, j + size)
            if low < high < low + length and kind == 'ptr':
                self.faults.append(f'part of the pointer at offset {offset} is moved')
            moved = [(low, kind)] if high == low + length else [(byte, 1) for byte in range(low, high)]
            for start, what in moved:
                kinds = a.cells.setdefault(start - j + i, set())
                changed |= what not in kinds
                kinds.add(what)
        for offset in [offset for offset in b.held if j <= offset < j + size]:
            (one, k), (other, n) = find(leads_to((a, offset - j + i))), find(b.held[offset])
            if one is not other or k != n and not one.computed:
                unify((one, k), (other, n))
                return True  # the pieces may be others now
        return changed

    def reached(self):
        """Every piece of memory, once."""
        seen, work = {}, list(self.pieces)
        while work:
            piece, _ = find((work.pop(), 0))
            if id(piece) not in seen:
                seen[id(piece)] = piece
                work += [target for target, _ in piece.held.values()]
        return list(seen.values())

    def overlaps(self):
        """Looks at each place of a pointer; the number of these."""
        count = 0
        for piece in self.reached():
            spans = [(offset, offset + (POINTER if kind == 'ptr' else kind), kind)
                     for offset, kinds in piece.cells.items() for kind in kinds]
            for start, end, _ in (span for span in spans if span[2] == 'ptr'):
                count += 1
                if piece.computed:
                    self.faults.append(f'a pointer at offset {start} of memory that is reached by computed offsets')
                self.faults += [f'offset {start} holds a pointer and, at {low}, {kind}' for low, high, kind in spans
                                if (low, high, kind) != (start, end, 'ptr') and low < end and start < high]
        return count


class Body:
    """A function's instructions, one after the other."""

    def __init__(self, module, name, given):
        self.module, self.name = module, name
        self.results, parameters = module.open[name]
        self.places = {value(words): place for words, place in zip(given, parameters) if place is not None}
        self.slots = set()  # locals of type ptr, which are smaller where pointers are
        self.pairs = {}  # where the pointers of a pair lead
        self.addresses = {}  # 'low': of 32 bits, 'whole': extended, 'difference': of two whole ones
        self.used = set()  # the names that were used so far
        self.forms = [(re.compile(pattern), act) for pattern, act in (
            (r'alloca (\[\d+ x i8\]|i\d+|ptr), align \d+', self.alloca),
            (r'load (ptr|i\d+), ptr (\S+), align \d+', self.load),
            (r'load (\{ \w+, \w+ \}), ptr (\S+), align \d+', self.load_pair),
            (r'extractvalue (\{ \w+, \w+ \}) (\S+), ([01])', self.part),
            (r'insertvalue (\{ \w+, \w+ \}) (\S+), (ptr|i\d+) (\S+), ([01])', self.put),
            (r'ptrtoaddr ptr (\S+) to i32', self.address),
            (r'ret (ptr|\{ \w+, \w+ \}) (\S+)', self.give),
            (r'icmp (?:eq|ne) ptr (\S+), null', self.look),
            (r'store (ptr|i\d+) (\S+), ptr (\S+), align \d+', self.store),
            (r'getelementptr (?:inbounds )?(?:nuw )?i8, ptr (\S+), i64 (\S+)', self.offset),
            (r'call void @llvm\.memmove\.p0\.p0\.i64\(ptr (\S+), ptr (\S+), i64 (\S+), i1 false\)', self.move),
            (r'call void @llvm\.memset\.p0\.i64\(ptr (\S+), i8 (\S+), i64 \S+, i1 false\)', self.fill),
            (r'call (?:void|ptr|i\d+|\{ \w+, \w+ \}) (@"[^"]*"|@[\w.]+)\((.*)\)', self.call))]

    def read(self, body):
        for line in body.splitlines():
            line = re.sub(r', ![a-z]+ !\d+', '', line.strip())
            if not line or line.startswith(';') or re.match(r'[\w.]+:', line):
                continue
            self.module.instructions += 1
            made, _, rest = line.partition(' = ') if line.startswith('%') else ('', '', line)
            names = re.findall(NAME, rest)
            self.used.update(names)
            found = next(((act, match) for pattern, act in self.forms if (match := pattern.fullmatch(rest))), None)
            if any(name in self.addresses for name in names):
                self.compare(made, rest, names, line)
            elif found:
                found[0](made, *found[1].groups())
            elif re.search(r'\bptr\b', rest) or not re.match(KNOWN, rest):
                self.fault(line)

    def fault(self, what):
        self.module.faults.append(f'{self.name}: {what}')

    def place(self, words, whole=False):
        """Where a pointer leads; `whole` where it is only to be loaded or stored through."""
        name = value(words)
        if name in self.slots and not whole:
            self.fault(f'{name}, a local of type ptr, is not only loaded and stored')
        if name == 'null':
            return self.module.new()
        if name.startswith('@'):
            return self.places.setdefault(name, self.module.new())
        if name not in self.places:
            self.fault(f'{name}, a pointer, is made in a way that is not known')
            self.places[name] = self.module.new()
        return self.places[name]

    def alloca(self, made, kind):
        self.places[made] = self.module.new()
        if kind == 'ptr':
            self.slots.add(made)

    def access(self, kind, at):
        if at in self.slots and kind != 'ptr':
            self.fault(f'{at}, a local of type ptr, is used as {kind}')
        place = self.place(at, whole=True)
        use(place, 'ptr' if kind == 'ptr' else NUMBERS[kind])
        return place

    def load(self, made, kind, source):
        place = self.access(kind, source)
        if kind == 'ptr':
            self.places[made] = leads_to(place)

    def load_pair(self, made, pair, source):
        kinds = kinds_of(pair)
        offset = second(kinds, POINTER)
        if offset != second(kinds, POINTER // 2):
            self.fault(f'{pair} has its second value elsewhere')
        piece, start = self.place(source)
        self.pairs[made] = []
        for kind, place in zip(kinds, ((piece, start), (piece, start + offset))):
            use(place, 'ptr' if kind == 'ptr' else NUMBERS[kind])
            self.pairs[made].append(leads_to(place) if kind == 'ptr' else None)

    def part(self, made, pair, source, number):
        if kinds_of(pair)[int(number)] == 'ptr':
            self.places[made] = self.pairs[source][int(number)]

    def put(self, made, pair, into, kind, given, number):
        kinds, number = kinds_of(pair), int(number)
        if kind != kinds[number]:
            self.fault(f'{made}: {kind} in {pair}')
        parts = [self.module.new() if kind == 'ptr' else None for kind in kinds]
        if into != 'poison':
            parts = list(self.pairs[into])
        if kind == 'ptr':
            parts[number] = self.place(given)
        self.pairs[made] = parts

    def address(self, made, given):
        self.place(given)
        self.know(made, 'low')

    def know(self, made, kind):
        """Takes a number for one that comes of addresses."""
        if made in self.used or not re.fullmatch(NAME, made):
            self.fault(f'{made}, of an address, is used before it is made, or has another kind of name')
        self.addresses[made] = kind

    def compare(self, made, rest, names, line):
        """What may be done with addresses, and nothing else."""
        kinds = [self.addresses.get(name) for name in names]
        if kinds == ['low'] and re.fullmatch(r'zext i32 \S+ to i64', rest):
            self.know(made, 'whole')
        elif kinds == ['whole', 'whole'] and re.fullmatch(r'sub i64 \S+, \S+', rest):
            self.know(made, 'difference')
        elif not (re.fullmatch(r'icmp (?:eq|ne|u[lg][te]) i64 \S+, \S+', rest)
                  and (kinds == ['whole', 'whole'] or set(kinds) <= {'difference', None})):
            self.fault(line)

    def give(self, _, made, given):
        places = [self.place(given)] if made == 'ptr' else self.pairs[given]
        for result, place in zip(self.results, places, strict=True):
            if result is not None:
                unify(result, place)

    def look(self, _, given):
        self.place(given)

    def store(self, _, kind, given, target):
        place = self.access(kind, target)
        if kind == 'ptr':
            unify(leads_to(place), self.place(given))

    def offset(self, made, source, index):
        piece, offset = self.place(source)
        if re.fullmatch(r'-?\d+', index):
            self.places[made] = (piece, offset + int(index))
        else:
            find((piece, offset))[0].computed = True
            self.places[made] = (piece, offset)

    def move(self, _, to, source, size):
        places = self.place(to), self.place(source)
        if re.fullmatch(r'\d+', size):
            self.module.moves.append((*places, int(size)))
        else:
            unify(*places)
            find(places[0])[0].computed = True

    def fill(self, _, to, byte):
        place = self.place(to)
        if byte != '0':
            use(place, 1)
            find(place)[0].computed = True

    def call(self, made, name, given):
        if name not in self.module.functions:
            if re.search(r'\bptr\b', given):
                self.fault(f'{name} is called with a pointer')
            return
        results, called = self.module.copy(name)
        if len(results) == 2:
            self.pairs[made] = results
        elif results and results[0] is not None:
            self.places[made] = results[0]
        for parameter, words in zip(called, split(given), strict=True):
            if (parameter is None) == words.startswith('ptr'):
                self.fault(f'{name} is called with {words}')
            elif parameter is not None:
                unify(parameter, self.place(words))


# instructions that make numbers of numbers, and jumps
KNOWN = (r'(add|sub|mul|udiv|urem|and|or|xor|shl|lshr|ashr|icmp|zext|sext|trunc|br|switch|ret|unreachable)\b|'
         r'i\d+ -?\d+, label |\]$')


def main(path):
    module = Module(open(path, encoding='utf8').read())
    pointers = module.overlaps()
    for fault in module.faults[:SHOWN]:
        print(fault, file=sys.stderr)
    print(f'{len(module.functions)} functions, {module.instructions} instructions, {pointers} places of pointers: '
          + ('fits 32 bits' if not module.faults else f'{len(module.faults)} faults'))
    return bool(module.faults)


if __name__ == '__main__':
    sys.exit(main(sys.argv[1]))
