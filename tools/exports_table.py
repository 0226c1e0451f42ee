"""The exported functions. scripts/exports writes this file from crates/bay_market/src."""
import ctypes

# of each function: name, kind and type of each parameter. A slice or a lent list is a pointer and a
# length, an out parameter a pointer; what is lent or out may be written
EXPORTS = {
    'bay_market_clear': [
        ('rule', 'value', 'u8'),
        ('asks', 'slice', 'u32'),
        ('bays', 'slice', 'u16'),
        ('amounts', 'slice', 'u16'),
        ('tickets', 'slice', 'u32'),
        ('bids', 'slice', 'u32'),
        ('width', 'value', 'usize'),
        ('stations', 'lent', 'u16'),
        ('charges', 'lent', 'u32'),
        ('sold', 'lent', 'u32'),
        ('paid', 'lent', 'u64'),
        ('cut', 'out', 'u32'),
        ('margin', 'out', 'u64'),
    ],
    'bay_market_clear_efficient': [
        ('rule', 'value', 'u8'),
        ('asks', 'slice', 'u32'),
        ('bays', 'slice', 'u16'),
        ('amounts', 'slice', 'u16'),
        ('tickets', 'slice', 'u32'),
        ('bids', 'slice', 'u32'),
        ('width', 'value', 'usize'),
        ('stations', 'lent', 'u16'),
        ('charges', 'lent', 'u32'),
        ('sold', 'lent', 'u32'),
        ('paid', 'lent', 'u64'),
        ('cut', 'out', 'u32'),
        ('margin', 'out', 'u64'),
    ],
    'bay_market_clear_marked': [
        ('rule', 'value', 'u8'),
        ('asks', 'slice', 'u32'),
        ('bays', 'slice', 'u16'),
        ('amounts', 'slice', 'u16'),
        ('tickets', 'slice', 'u32'),
        ('bids', 'slice', 'u32'),
        ('width', 'value', 'usize'),
        ('stations', 'lent', 'u16'),
        ('charges', 'lent', 'u32'),
        ('sold', 'lent', 'u32'),
        ('paid', 'lent', 'u64'),
        ('places', 'lent', 'u8'),
        ('floors', 'lent', 'u32'),
        ('cut', 'out', 'u32'),
        ('margin', 'out', 'u64'),
    ],
    'bay_market_explain': [
        ('rule', 'value', 'u8'),
        ('asks', 'slice', 'u32'),
        ('bays', 'slice', 'u16'),
        ('amounts', 'slice', 'u16'),
        ('tickets', 'slice', 'u32'),
        ('bids', 'slice', 'u32'),
        ('width', 'value', 'usize'),
        ('codes', 'lent', 'u8'),
        ('stations', 'lent', 'u16'),
        ('charges', 'lent', 'u32'),
        ('reasons', 'lent', 'u8'),
    ],
    'bay_market_gains': [
        ('rule', 'value', 'u8'),
        ('asks', 'slice', 'u32'),
        ('bays', 'slice', 'u16'),
        ('amounts', 'slice', 'u16'),
        ('tickets', 'slice', 'u32'),
        ('bids', 'slice', 'u32'),
        ('width', 'value', 'usize'),
        ('guest', 'value', 'u32'),
        ('worths', 'slice', 'u32'),
        ('rows', 'slice', 'u32'),
        ('gains', 'lent', 'i64'),
    ],
    'bay_market_join': [
        ('asks', 'slice', 'u32'),
        ('bays', 'slice', 'u16'),
        ('amounts', 'slice', 'u16'),
        ('tickets', 'slice', 'u32'),
        ('bids', 'slice', 'u32'),
        ('width', 'value', 'usize'),
        ('asks2', 'slice', 'u32'),
        ('bays2', 'slice', 'u16'),
        ('amounts2', 'slice', 'u16'),
        ('tickets2', 'slice', 'u32'),
        ('bids2', 'slice', 'u32'),
        ('width2', 'value', 'usize'),
        ('joined_asks', 'lent', 'u32'),
        ('joined_bays', 'lent', 'u16'),
        ('joined_amounts', 'lent', 'u16'),
        ('joined_tickets', 'lent', 'u32'),
        ('joined_bids', 'lent', 'u32'),
    ],
    'bay_market_mark': [
        ('rule', 'value', 'u8'),
        ('asks', 'slice', 'u32'),
        ('bays', 'slice', 'u16'),
        ('amounts', 'slice', 'u16'),
        ('tickets', 'slice', 'u32'),
        ('bids', 'slice', 'u32'),
        ('width', 'value', 'usize'),
        ('stations', 'slice', 'u16'),
        ('charges', 'slice', 'u32'),
        ('sold', 'slice', 'u32'),
        ('paid', 'slice', 'u64'),
        ('places', 'slice', 'u8'),
        ('floors', 'slice', 'u32'),
        ('cut', 'value', 'u32'),
        ('margin', 'value', 'u64'),
        ('correct', 'out', 'u8'),
    ],
    'bay_market_menu': [
        ('rule', 'value', 'u8'),
        ('asks', 'slice', 'u32'),
        ('bays', 'slice', 'u16'),
        ('amounts', 'slice', 'u16'),
        ('tickets', 'slice', 'u32'),
        ('bids', 'slice', 'u32'),
        ('width', 'value', 'usize'),
        ('guest', 'value', 'u32'),
        ('bars', 'lent', 'u32'),
        ('prices', 'lent', 'u32'),
    ],
    'bay_market_place_bids': [
        ('prices', 'slice', 'u32'),
        ('falls', 'slice', 'u32'),
        ('guest_first', 'slice', 'u16'),
        ('guest_second', 'slice', 'u16'),
        ('station_first', 'slice', 'u16'),
        ('station_second', 'slice', 'u16'),
        ('bids', 'lent', 'u32'),
    ],
    'bay_market_post': [
        ('rule', 'value', 'u8'),
        ('asks', 'slice', 'u32'),
        ('bays', 'slice', 'u16'),
        ('amounts', 'slice', 'u16'),
        ('tickets', 'slice', 'u32'),
        ('bids', 'slice', 'u32'),
        ('width', 'value', 'usize'),
        ('desk', 'value', 'u8'),
        ('round', 'value', 'u32'),
        ('guests', 'lent', 'u64'),
        ('stations', 'lent', 'StationAccount'),
        ('house', 'out', 'u64'),
        ('last', 'lent', 'u32'),
    ],
    'bay_market_read': [
        ('sheet', 'slice', 'u8'),
        ('amounts', 'lent', 'u16'),
        ('tickets', 'lent', 'u32'),
        ('asks', 'lent', 'u32'),
        ('bays', 'lent', 'u16'),
        ('bids', 'lent', 'u32'),
        ('n', 'out', 'u16'),
        ('m', 'out', 'u16'),
    ],
    'bay_market_read_csv': [
        ('text', 'slice', 'u8'),
        ('amounts', 'lent', 'u16'),
        ('tickets', 'lent', 'u32'),
        ('asks', 'lent', 'u32'),
        ('bays', 'lent', 'u16'),
        ('bids', 'lent', 'u32'),
        ('n', 'out', 'u16'),
        ('m', 'out', 'u16'),
    ],
    'bay_market_try': [
        ('rule', 'value', 'u8'),
        ('asks', 'slice', 'u32'),
        ('bays', 'slice', 'u16'),
        ('amounts', 'slice', 'u16'),
        ('tickets', 'slice', 'u32'),
        ('bids', 'slice', 'u32'),
        ('width', 'value', 'usize'),
        ('guest', 'value', 'u32'),
        ('worths', 'slice', 'u32'),
        ('row', 'slice', 'u32'),
        ('changes', 'lent', 'u8'),
        ('first_gain', 'out', 'i64'),
        ('second_gain', 'out', 'i64'),
    ],
    'bay_market_write': [
        ('asks', 'slice', 'u32'),
        ('bays', 'slice', 'u16'),
        ('amounts', 'slice', 'u16'),
        ('tickets', 'slice', 'u32'),
        ('bids', 'slice', 'u32'),
        ('width', 'value', 'usize'),
        ('sheet', 'lent', 'u8'),
        ('length', 'out', 'usize'),
    ],
}

# of each struct: name and type of each field
STRUCTS = {
    'StationAccount': [('sold', 'u64'), ('paid', 'u64')],
}

TYPES = {'u8': ctypes.c_uint8, 'u16': ctypes.c_uint16, 'u32': ctypes.c_uint32, 'u64': ctypes.c_uint64,
         'i64': ctypes.c_int64, 'usize': ctypes.c_size_t}
for _name, _fields in STRUCTS.items():
    TYPES[_name] = type(_name, (ctypes.Structure,), {'_fields_': [(field, TYPES[t]) for field, t in _fields]})


def argument_types(parameters):
    out = []
    for _, kind, name in parameters:
        out.append(TYPES[name] if kind == 'value' else ctypes.POINTER(TYPES[name]))
        out += [ctypes.c_size_t] if kind in ('slice', 'lent') else []
    return out


def load(path):
    """The shared library at a path, with the types of its functions."""
    library = ctypes.CDLL(path)
    for name, parameters in EXPORTS.items():
        function = getattr(library, name)
        function.argtypes, function.restype = argument_types(parameters), ctypes.c_uint8
    return library


def call(library, name, **given):
    """Calls a function with a value, list or number for each parameter. Gives the answer, and what it was lent and its
    out parameters as they are after the call."""
    arguments, held = [], {}
    for parameter, kind, of in EXPORTS[name]:
        value = given.pop(parameter)
        if kind == 'value':
            arguments.append(value)
            continue
        held[parameter] = (TYPES[of] * 1)(value) if kind == 'out' else (TYPES[of] * len(value))(*value)
        arguments += [held[parameter]] + ([len(value)] if kind != 'out' else [])
    if given:
        raise TypeError(f'{name} has no parameter {sorted(given)}')
    answer = getattr(library, name)(*arguments)
    after = {'lent': list, 'out': lambda cell: cell[0]}
    return answer, {parameter: after[kind](held[parameter]) for parameter, kind, _ in EXPORTS[name] if kind in after}
