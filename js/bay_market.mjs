// The bay market for Node and browsers: the proved engine in WebAssembly. include/bay_market.h says what each call
// does, docs/USING.md how it is used here, docs/TARGETS.md what is proved.
//
//     import { load } from 'bay-market';
//     const engine = await load();
//     const market = engine.market({
//         asks: [2, 6], bays: [1, 1], amounts: [3, 3], tickets: [1, 2], bids: [8, 0, 8, 0],
//     });
//     market.clear().charges; // 24, 0
//
// Lists go in as typed arrays or arrays of whole numbers and are copied; what comes out is the caller's own. All sums
// are below 2^53, so that every number is exact. Guests and stations are numbered from 1.

// scripts/exports writes what follows from crates/bay_market/src, refusals.txt and include/bay_market.h
const exported = {
    clear: [
        ['rule', 'value', 'u8'],
        ['asks', 'slice', 'u32'],
        ['bays', 'slice', 'u16'],
        ['amounts', 'slice', 'u16'],
        ['tickets', 'slice', 'u32'],
        ['bids', 'slice', 'u32'],
        ['width', 'value', 'usize'],
        ['stations', 'lent', 'u16'],
        ['charges', 'lent', 'u32'],
        ['sold', 'lent', 'u32'],
        ['paid', 'lent', 'u64'],
        ['cut', 'out', 'u32'],
        ['margin', 'out', 'u64'],
    ],
    clear_efficient: [
        ['rule', 'value', 'u8'],
        ['asks', 'slice', 'u32'],
        ['bays', 'slice', 'u16'],
        ['amounts', 'slice', 'u16'],
        ['tickets', 'slice', 'u32'],
        ['bids', 'slice', 'u32'],
        ['width', 'value', 'usize'],
        ['stations', 'lent', 'u16'],
        ['charges', 'lent', 'u32'],
        ['sold', 'lent', 'u32'],
        ['paid', 'lent', 'u64'],
        ['cut', 'out', 'u32'],
        ['margin', 'out', 'u64'],
    ],
    clear_marked: [
        ['rule', 'value', 'u8'],
        ['asks', 'slice', 'u32'],
        ['bays', 'slice', 'u16'],
        ['amounts', 'slice', 'u16'],
        ['tickets', 'slice', 'u32'],
        ['bids', 'slice', 'u32'],
        ['width', 'value', 'usize'],
        ['stations', 'lent', 'u16'],
        ['charges', 'lent', 'u32'],
        ['sold', 'lent', 'u32'],
        ['paid', 'lent', 'u64'],
        ['places', 'lent', 'u8'],
        ['floors', 'lent', 'u32'],
        ['cut', 'out', 'u32'],
        ['margin', 'out', 'u64'],
    ],
    explain: [
        ['rule', 'value', 'u8'],
        ['asks', 'slice', 'u32'],
        ['bays', 'slice', 'u16'],
        ['amounts', 'slice', 'u16'],
        ['tickets', 'slice', 'u32'],
        ['bids', 'slice', 'u32'],
        ['width', 'value', 'usize'],
        ['codes', 'lent', 'u8'],
        ['stations', 'lent', 'u16'],
        ['charges', 'lent', 'u32'],
        ['reasons', 'lent', 'u8'],
    ],
    gains: [
        ['rule', 'value', 'u8'],
        ['asks', 'slice', 'u32'],
        ['bays', 'slice', 'u16'],
        ['amounts', 'slice', 'u16'],
        ['tickets', 'slice', 'u32'],
        ['bids', 'slice', 'u32'],
        ['width', 'value', 'usize'],
        ['guest', 'value', 'u32'],
        ['worths', 'slice', 'u32'],
        ['rows', 'slice', 'u32'],
        ['gains', 'lent', 'i64'],
    ],
    join: [
        ['asks', 'slice', 'u32'],
        ['bays', 'slice', 'u16'],
        ['amounts', 'slice', 'u16'],
        ['tickets', 'slice', 'u32'],
        ['bids', 'slice', 'u32'],
        ['width', 'value', 'usize'],
        ['asks2', 'slice', 'u32'],
        ['bays2', 'slice', 'u16'],
        ['amounts2', 'slice', 'u16'],
        ['tickets2', 'slice', 'u32'],
        ['bids2', 'slice', 'u32'],
        ['width2', 'value', 'usize'],
        ['joined_asks', 'lent', 'u32'],
        ['joined_bays', 'lent', 'u16'],
        ['joined_amounts', 'lent', 'u16'],
        ['joined_tickets', 'lent', 'u32'],
        ['joined_bids', 'lent', 'u32'],
    ],
    mark: [
        ['rule', 'value', 'u8'],
        ['asks', 'slice', 'u32'],
        ['bays', 'slice', 'u16'],
        ['amounts', 'slice', 'u16'],
        ['tickets', 'slice', 'u32'],
        ['bids', 'slice', 'u32'],
        ['width', 'value', 'usize'],
        ['stations', 'slice', 'u16'],
        ['charges', 'slice', 'u32'],
        ['sold', 'slice', 'u32'],
        ['paid', 'slice', 'u64'],
        ['places', 'slice', 'u8'],
        ['floors', 'slice', 'u32'],
        ['cut', 'value', 'u32'],
        ['margin', 'value', 'u64'],
        ['correct', 'out', 'u8'],
    ],
    menu: [
        ['rule', 'value', 'u8'],
        ['asks', 'slice', 'u32'],
        ['bays', 'slice', 'u16'],
        ['amounts', 'slice', 'u16'],
        ['tickets', 'slice', 'u32'],
        ['bids', 'slice', 'u32'],
        ['width', 'value', 'usize'],
        ['guest', 'value', 'u32'],
        ['bars', 'lent', 'u32'],
        ['prices', 'lent', 'u32'],
    ],
    place_bids: [
        ['prices', 'slice', 'u32'],
        ['falls', 'slice', 'u32'],
        ['guest_first', 'slice', 'u16'],
        ['guest_second', 'slice', 'u16'],
        ['station_first', 'slice', 'u16'],
        ['station_second', 'slice', 'u16'],
        ['bids', 'lent', 'u32'],
    ],
    post: [
        ['rule', 'value', 'u8'],
        ['asks', 'slice', 'u32'],
        ['bays', 'slice', 'u16'],
        ['amounts', 'slice', 'u16'],
        ['tickets', 'slice', 'u32'],
        ['bids', 'slice', 'u32'],
        ['width', 'value', 'usize'],
        ['desk', 'value', 'u8'],
        ['round', 'value', 'u32'],
        ['guests', 'lent', 'u64'],
        ['stations', 'lent', 'StationAccount'],
        ['house', 'out', 'u64'],
        ['last', 'lent', 'u32'],
    ],
    read: [
        ['sheet', 'slice', 'u8'],
        ['amounts', 'lent', 'u16'],
        ['tickets', 'lent', 'u32'],
        ['asks', 'lent', 'u32'],
        ['bays', 'lent', 'u16'],
        ['bids', 'lent', 'u32'],
        ['n', 'out', 'u16'],
        ['m', 'out', 'u16'],
    ],
    read_csv: [
        ['text', 'slice', 'u8'],
        ['amounts', 'lent', 'u16'],
        ['tickets', 'lent', 'u32'],
        ['asks', 'lent', 'u32'],
        ['bays', 'lent', 'u16'],
        ['bids', 'lent', 'u32'],
        ['n', 'out', 'u16'],
        ['m', 'out', 'u16'],
    ],
    try: [
        ['rule', 'value', 'u8'],
        ['asks', 'slice', 'u32'],
        ['bays', 'slice', 'u16'],
        ['amounts', 'slice', 'u16'],
        ['tickets', 'slice', 'u32'],
        ['bids', 'slice', 'u32'],
        ['width', 'value', 'usize'],
        ['guest', 'value', 'u32'],
        ['worths', 'slice', 'u32'],
        ['row', 'slice', 'u32'],
        ['changes', 'lent', 'u8'],
        ['first_gain', 'out', 'i64'],
        ['second_gain', 'out', 'i64'],
    ],
    write: [
        ['asks', 'slice', 'u32'],
        ['bays', 'slice', 'u16'],
        ['amounts', 'slice', 'u16'],
        ['tickets', 'slice', 'u32'],
        ['bids', 'slice', 'u32'],
        ['width', 'value', 'usize'],
        ['sheet', 'lent', 'u8'],
        ['length', 'out', 'usize'],
    ],
};
const structs = {
    StationAccount: ['sold', 'paid'],
};
const refusals = [
    ['ACCEPTED', 'accepted'],
    ['SHEET_ENDS', 'the sheet ends inside a field'],
    ['COUNTS_OUT_OF_RANGE', 'more than 200 guests, no station, or more than 40'],
    ['STRAY_BIT', 'a bit map has a bit beyond the last station'],
    ['TRAILING_BYTES', 'bytes follow the last row'],
    ['LENGTHS_DIFFER', 'a list, the bid table or the row width does not fit the counts'],
    ['ASK_OUT_OF_RANGE', 'an ask is above 1,000,000'],
    ['BAYS_OUT_OF_RANGE', 'a station has no bays or more than 200'],
    ['AMOUNT_OUT_OF_RANGE', 'an amount is 0 or above 1,000'],
    ['BID_OUT_OF_RANGE', 'a bid or a worth is above 1,000,000'],
    ['LENT_LENGTHS', 'a list that is lent or handed in has another length'],
    ['ROUND_OUT_OF_TURN', 'the round is not the desk\'s last one plus 1, or no round is left'],
    ['ACCOUNT_OVER_LIMIT', 'an account is above 10^15, or would be'],
    ['BOOK_SIZE', 'the ledger is beyond the limits, too small or not of eight desks'],
    ['OUTPUT_TOO_SHORT', 'the output is shorter than the sheet'],
    ['TICKETS_REPEAT', 'two guests have the same ticket'],
    ['CELL_OFF_GRID', 'a cell is off the grid: a coordinate is above 31'],
    ['PRICE_OR_FALL_OUT_OF_RANGE', 'a price or fall is above 1,000,000'],
    ['UNKNOWN_RULE', 'the number names no rule: it is neither 1 nor 2'],
    ['EMPTY_BID', 'a set bit of the sheet has a bid of 0'],
    ['STATIONS_DIFFER', 'two markets differ in their stations\' count, asks or bays'],
    ['TICKET_IN_BOTH', 'a ticket is in both markets'],
    ['MALFORMED_TEXT', 'a byte of the text, or its end, stands where it may not'],
    ['FIELD_TOO_LARGE', 'a field has more than ten digits, or does not fit its table'],
    ['NO_SUCH_GUEST', 'the guest\'s number is 0 or above the market\'s guests'],
    ['DESK_OUT_OF_RANGE', 'the desk is none of the eight: its number is above 7'],
];
export const limits = Object.freeze({
    guests: 200,
    stations: 40,
    desks: 8,
    bids: 8000,
    price: 1000000,
    amount: 1000,
    bays: 200,
    cell: 31,
    sheet: 34444,
    text: 93482,
    account: 1000000000000000,
    round: 4294967295,
});
export const codes = Object.freeze([
    'place held',
    'no bid',
    'station not open',
    'bid below the cut',
    'outbid',
]);
export const changes = Object.freeze([
    'unchanged',
    'becomes seated',
    'becomes unseated',
]);
export const version = '1.0.0';
// end of what scripts/exports writes

export const rules = Object.freeze({ median: 1, twoThirds: 2 });

/** What the engine refuses: its number, its name and its text. */
export class Refusal extends Error {
    constructor(number) {
        const [name, text] = refusals[number] ?? ['UNKNOWN', 'not an answer of the engine'];
        super(`refused ${number}: ${text}`);
        this.name = name;
        this.number = number;
        this.text = text;
    }
}

// Of each type the bytes, the least and the greatest value. What has 64 bits in the engine is a number here, and so at
// most 2^53 - 1 either way.
const safe = Number.MAX_SAFE_INTEGER;
const types = {
    u8: { bytes: 1, least: 0, greatest: 0xFF, Type: Uint8Array },
    u16: { bytes: 2, least: 0, greatest: 0xFFFF, Type: Uint16Array },
    u32: { bytes: 4, least: 0, greatest: 0xFFFFFFFF, Type: Uint32Array },
    u64: { bytes: 8, least: 0, greatest: safe, Type: Float64Array },
    i64: { bytes: 8, least: -safe, greatest: safe, Type: Float64Array },
    usize: { bytes: 8, least: 0, greatest: safe, Type: Float64Array },
};

function whole(given, { least, greatest }, name) {
    if (!Number.isInteger(given) || given < least || given > greatest) {
        throw new RangeError(`${name} is ${String(given)}, not a whole number of ${least} to ${greatest}`);
    }
    return given;
}

function isList(given) {
    return given !== null && typeof given === 'object' && Number.isInteger(given.length);
}

// A list as its type has it, which is the given one where that is of the type. A value that the type would change is
// refused here.
function list(given, type, name) {
    const { bytes, Type } = type;
    if (given instanceof Type && bytes < 8) return given;
    if (!isList(given)) throw new TypeError(`${name} is not a list of numbers`);
    const made = new Type(given.length);
    for (let i = 0; i < made.length; i++) made[i] = whole(given[i], type, `${name}[${i}]`);
    return made;
}

// Rows of bids one after the other, from one list or a list of rows.
function rows(given, width, name) {
    if (!isList(given) || !Array.prototype.some.call(given, isList)) return list(given, types.u32, name);
    return list(Array.prototype.flatMap.call(given, (row, i) => {
        const bids = list(row, types.u32, `${name}[${i}]`);
        if (bids.length !== width) throw new RangeError(`${name}[${i}] has ${bids.length} bids, not ${width}`);
        return Array.from(bids);
    }), types.u32, name);
}

// The bytes of a sheet or a text. A character that is no byte becomes 255, which stands in no text.
function bytesOf(given, name) {
    if (given instanceof ArrayBuffer) return new Uint8Array(given);
    if (typeof given === 'string') return Uint8Array.from(given, (c) => Math.min(c.codePointAt(0), 255));
    return list(given, types.u8, name);
}

// The parameters of each function: of what is lent the bytes of an element, which may be a struct of 64-bit fields.
const parameters = Object.fromEntries(Object.entries(exported).map(([name, all]) => [name, all.map(described)]));

function described([name, kind, of]) {
    const fields = structs[of], type = types[fields ? 'u64' : of];
    return { name, kind, type, fields, bytes: type.bytes * (fields?.length ?? 1) };
}

// A list as columns: one for each field where its elements are structs, else one, or none where only its length is
// given, because the call writes it.
class Lent {
    constructor(parameter, given) {
        const { name, kind, type, fields } = parameter;
        this.parameter = parameter;
        this.at = 0;
        this.columns = [];
        if (kind === 'out') this.columns.push(list([given ?? 0], type, name));
        else if (fields) for (const field of fields) this.columns.push(list(given?.[field], type, `${name}.${field}`));
        else if (kind === 'slice' || typeof given !== 'number') this.columns.push(list(given, type, name));
        this.length = this.columns.length > 0 ? this.columns[0].length : given;
        if (this.columns.some((column) => column.length !== this.length)) {
            throw new RangeError(`the lists of ${name} have different lengths: ${fields.join(' and ')}`);
        }
    }
}

// The engine's memory, as lists are put into it and taken out.
class Room {
    #memory;
    #base;
    #u8;
    #u16;
    #u32;

    constructor(memory, base) {
        this.#memory = memory;
        this.#base = base;
        this.#see();
    }

    #see() {
        this.#u8 = new Uint8Array(this.#memory.buffer);
        this.#u16 = new Uint16Array(this.#memory.buffer);
        this.#u32 = new Uint32Array(this.#memory.buffer);
    }

    // Gives each list its place, and puts it there.
    place(lists) {
        let end = this.#base;
        for (const lent of lists) {
            lent.at = Math.ceil(end / 16) * 16;
            end = lent.at + lent.parameter.bytes * lent.length;
        }
        this.#reach(end);
        for (const lent of lists) for (let k = 0; k < lent.columns.length; k++) this.#put(lent, k);
    }

    #reach(end) {
        const more = end - this.#memory.buffer.byteLength;
        if (more <= 0) return;
        try {
            this.#memory.grow(Math.ceil(more / 65536));
        } catch {
            throw new RangeError(`lists of ${end - this.#base} bytes do not fit into the engine's memory`);
        }
        this.#see();
    }

    #put({ at, parameter, columns }, k) {
        const column = columns[k], { bytes } = parameter.type;
        if (bytes === 1) this.#u8.set(column, at);
        else if (bytes === 2) this.#u16.set(column, at / 2);
        else if (bytes === 4) this.#u32.set(column, at / 4);
        else {
            for (let i = 0, to = at / 4 + 2 * k; i < column.length; i++, to += 2 * columns.length) {
                this.#u32[to] = column[i] % 0x100000000;
                this.#u32[to + 1] = Math.floor(column[i] / 0x100000000);
            }
        }
    }

    #number64(word, signed) {
        const high = this.#u32[word + 1];
        return (signed ? high | 0 : high) * 0x100000000 + this.#u32[word];
    }

    number({ at, parameter: { type } }) {
        if (type.bytes === 8) return this.#number64(at / 4, type.least < 0);
        return type.bytes === 4 ? this.#u32[at / 4] : type.bytes === 2 ? this.#u16[at / 2] : this.#u8[at];
    }

    // The first elements of a list.
    list({ at, parameter: { type, fields } }, length) {
        if (fields) {
            const column = (field, k) => [field, this.#column64(at, length, type, k, fields.length)];
            return Object.fromEntries(fields.map(column));
        }
        if (type.bytes === 8) return this.#column64(at, length, type, 0, 1);
        if (type.bytes === 4) return this.#u32.slice(at / 4, at / 4 + length);
        return type.bytes === 2 ? this.#u16.slice(at / 2, at / 2 + length) : this.#u8.slice(at, at + length);
    }

    #column64(at, length, type, k, columns) {
        const taken = new Float64Array(length);
        for (let i = 0; i < length; i++) taken[i] = this.#number64(at / 4 + 2 * (i * columns + k), type.least < 0);
        return taken;
    }
}

// A version as it is written, 1.2.3 for 1002003.
function dotted(number) {
    return [number / 1e6, (number / 1e3) % 1e3, number % 1e3].map(Math.floor).join('.');
}

/** The engine: one for each thread. It serves one call at a time, as everything in JavaScript. */
export class Engine {
    #functions;
    #room;
    #stack; // the module's stack pointer, and where it starts
    #top;

    constructor(instance) {
        const { memory, __heap_base: base, __stack_pointer: stack, ...functions } = instance.exports;
        if (!(`bay_market_${version.replaceAll('.', '_')}` in functions)) { // it serves no callers of this version
            const of = functions.bay_market_version?.();
            const held = of === undefined ? 'names no version' : `is of version ${dotted(of)}`;
            throw new Error(`no engine of version ${version}, of which bay_market.mjs is: the WebAssembly module `
                + held);
        }
        this.#functions = functions;
        this.#room = new Room(memory, base.value);
        this.#stack = stack;
        this.#top = stack.value;
    }

    /**
     * Calls an exported function, by its name without bay_market_, with a number for each value, a list for each slice,
     * a list or only its length for each that is written, and lists by field where the elements are structs; what
     * `given` lacks is taken from `market`. Gives what was written; `lengths` says, from the numbers among it, of which
     * lists only the first elements are wanted.
     */
    call(name, given, market = given, lengths = undefined) {
        if (!Object.hasOwn(parameters, name)) throw new TypeError(`no function ${String(name)}`);
        const words = [], lists = []; // what may run the caller's code comes first
        for (const parameter of parameters[name]) {
            const value = given[parameter.name] ?? market[parameter.name];
            if (parameter.kind === 'value') whole(value, parameter.type, parameter.name);
            else lists.push(new Lent(parameter, value));
            words.push(parameter.kind !== 'value' ? undefined : parameter.bytes === 8 ? BigInt(value) : value);
        }
        this.#room.place(lists);
        this.#run(name, this.#arguments(words, lists));
        const after = {};
        for (const lent of lists) {
            if (lent.parameter.kind === 'out') after[lent.parameter.name] = this.#room.number(lent);
        }
        const wanted = lengths?.(after);
        for (const lent of lists) {
            const { name: parameter, kind } = lent.parameter;
            if (kind === 'lent') after[parameter] = this.#room.list(lent, wanted?.[parameter] ?? lent.length);
        }
        return after;
    }

    // The values, and for each list its address, with its length where it may have any.
    #arguments(words, lists) {
        const all = [];
        let next = 0;
        for (const word of words) {
            if (word !== undefined) {
                all.push(word);
                continue;
            }
            const { at, length, parameter } = lists[next++];
            all.push(at);
            if (parameter.kind !== 'out') all.push(BigInt(length));
        }
        return all;
    }

    #run(name, words) {
        let answer;
        try {
            answer = this.#functions[`bay_market_${name}`](...words) & 255;
        } catch (error) { // as where JavaScript's stack is full: the module's own is left where it was
            this.#stack.value = this.#top;
            throw error;
        }
        if (answer !== 0) throw new Refusal(answer);
    }

    /** A market of lists; bids may be one list or a list of rows. */
    market(lists) {
        return new Market(this, lists);
    }

    #read(name, given) {
        const { guests: n, stations: m, bids } = limits;
        return this.market(this.call(name, { ...given, amounts: n, tickets: n, asks: m, bays: m, bids }, {},
            (got) => ({ amounts: got.n, tickets: got.n, asks: got.m, bays: got.m, bids: got.n * got.m })));
    }

    /** The market that a sheet states. */
    fromSheet(sheet) {
        return this.#read('read', { sheet: bytesOf(sheet, 'sheet') });
    }

    /** The market of a comma-separated text, which may be a string. */
    fromCsv(text) {
        return this.#read('read_csv', { text: bytesOf(text, 'text') });
    }

    /** Bids from prices, falls and the cells of guests and stations. */
    placeBids({ prices, falls, guestFirst, guestSecond, stationFirst, stationSecond }) {
        const bids = Math.min((guestFirst?.length ?? 0) * (stationFirst?.length ?? 0), limits.bids + 1);
        return this.call('place_bids', { prices, falls, guest_first: guestFirst, guest_second: guestSecond,
            station_first: stationFirst, station_second: stationSecond, bids }).bids;
    }

    /** An empty ledger of so many guests and stations, or one with these accounts. */
    ledger(guests = limits.guests, stations = limits.stations) {
        if (guests !== null && typeof guests === 'object') return new Ledger(this, guests);
        const [n, m] = [whole(guests, types.u16, 'guests'), whole(stations, types.u16, 'stations')];
        return new Ledger(this, { guests: new Float64Array(n), sold: new Float64Array(m), paid: new Float64Array(m),
            house: 0, last: new Uint32Array(limits.desks) });
    }
}

/** A market: asks, bays, amounts, tickets and bids, row after row, as lists of its own. */
export class Market {
    #engine;

    constructor(engine, { asks, bays, amounts, tickets, bids }) {
        this.#engine = engine;
        this.asks = list(asks, types.u32, 'asks').slice();
        this.bays = list(bays, types.u16, 'bays').slice();
        this.amounts = list(amounts, types.u16, 'amounts').slice();
        this.tickets = list(tickets, types.u32, 'tickets').slice();
        this.bids = rows(bids, this.asks.length, 'bids').slice();
    }

    get guests() {
        return this.amounts.length;
    }

    get stations() {
        return this.asks.length;
    }

    /** Bids of a row. */
    get width() {
        return this.asks.length;
    }

    #call(name, given) {
        return this.#engine.call(name, given, this);
    }

    // The lengths of result lists; with one guest or station too many the counts are refused already.
    #counts() {
        return [Math.min(this.guests, limits.guests + 1), Math.min(this.stations, limits.stations + 1)];
    }

    /** A truthful round: no guest and no station gains by a false report. */
    clear({ rule = rules.median } = {}) {
        const [n, m] = this.#counts();
        return this.#call('clear', { rule, stations: n, charges: n, sold: m, paid: m });
    }

    /** An efficient round, for quiet days: a guest may gain by a false bid. */
    clearEfficient({ rule = rules.median } = {}) {
        const [n, m] = this.#counts();
        return this.#call('clear_efficient', { rule, stations: n, charges: n, sold: m, paid: m });
    }

    /** A truthful round with its places and floors. */
    clearMarked({ rule = rules.median } = {}) {
        const [n, m] = this.#counts();
        const lengths = { stations: n, charges: n, sold: m, paid: m, places: n * m, floors: m };
        return this.#call('clear_marked', { rule, ...lengths });
    }

    /** Whether what is handed in is what clearMarked gives. */
    mark({ stations, charges, sold, paid, places, floors, cut, margin }, { rule = rules.median } = {}) {
        const given = { rule, stations, charges, sold, paid, places, floors, cut, margin };
        return this.#call('mark', given).correct === 1;
    }

    /** What decided the truthful round: a code for each guest and station, and each guest's outcome. */
    explain({ rule = rules.median } = {}) {
        const [n, m] = this.#counts();
        return this.#call('explain', { rule, codes: n * m, stations: n, charges: n, reasons: n });
    }

    /** What another row of bids would have done to a guest, by its number, and to the others. */
    tryRow(guest, worths, row, { rule = rules.median } = {}) {
        const got = this.#call('try', { rule, guest, worths, row, changes: this.#counts()[0] });
        return { firstGain: got.first_gain, secondGain: got.second_gain, changes: got.changes };
    }

    /** A guest's price list: of each station the least total that holds a place, and the charge. */
    menu(guest, { rule = rules.median } = {}) {
        const [, m] = this.#counts();
        return this.#call('menu', { rule, guest, bars: m, prices: m });
    }

    /** The gain of each of many rows, in one list or a list of rows. */
    gains(guest, worths, given, { rule = rules.median } = {}) {
        const tried = rows(given, this.asks.length, 'rows');
        const gains = this.asks.length > 0 ? Math.floor(tried.length / this.asks.length) : 0;
        return this.#call('gains', { rule, guest, worths, rows: tried, gains }).gains;
    }

    /** The market of two gates with the same stations, this one's guests in front. */
    join(other) {
        mustBeMarket(other);
        const [first, m] = this.#counts(), n = first + other.#counts()[0];
        const { asks: asks2, bays: bays2, amounts: amounts2, tickets: tickets2, bids: bids2, width: width2 } = other;
        const got = this.#call('join', { asks2, bays2, amounts2, tickets2, bids2, width2, joined_asks: m,
            joined_bays: m, joined_amounts: n, joined_tickets: n, joined_bids: n * m });
        return new Market(this.#engine, { asks: got.joined_asks, bays: got.joined_bays, amounts: got.joined_amounts,
            tickets: got.joined_tickets, bids: got.joined_bids });
    }

    /** The shortest sheet of the market. */
    toSheet() {
        return this.#engine.call('write', { sheet: limits.sheet }, this, ({ length }) => ({ sheet: length })).sheet;
    }

    /** The market as comma-separated text; what toSheet refuses is refused. */
    toCsv() {
        this.toSheet();
        const guests = Array.from(this.amounts, (amount, i) => [this.tickets[i], amount, ...this.row(i + 1)]);
        return [this.asks, this.bays, ...guests].map((line) => `${Array.from(line).join(',')}\r\n`).join('');
    }

    /** A guest's bids, by its number. */
    row(guest) {
        whole(guest, { least: 1, greatest: this.guests }, 'guest');
        return this.bids.slice((guest - 1) * this.stations, guest * this.stations);
    }

    /** The market with another row of bids for a guest. */
    withRow(guest, row) {
        whole(guest, { least: 1, greatest: this.guests }, 'guest');
        const other = new Market(this.#engine, this), bids = list(row, types.u32, 'row');
        if (bids.length !== this.stations) throw new RangeError(`row has ${bids.length} bids, not ${this.stations}`);
        other.bids.set(bids, (guest - 1) * this.stations);
        return other;
    }
}

function mustBeMarket(given) {
    if (!(given instanceof Market)) throw new TypeError('not a Market: engine.market(lists) makes one');
}

/** A ledger: the accounts of guests, of stations (sold, paid) and of the house, and each desk's last round. */
export class Ledger {
    #engine;

    constructor(engine, { guests, sold, paid, house, last }) {
        this.#engine = engine;
        this.guests = list(guests, types.u64, 'guests');
        this.sold = list(sold, types.u64, 'sold');
        this.paid = list(paid, types.u64, 'paid');
        this.house = whole(house, types.u64, 'house');
        this.last = list(last, types.u32, 'last').slice();
    }

    /** Posts the market's truthful round as the given round of a desk, 0 to 7. What is refused changes nothing. */
    post(market, { desk, round, rule = rules.median }) {
        mustBeMarket(market);
        const { guests, sold, paid, house, last } = this;
        const given = { rule, desk, round, guests, stations: { sold, paid }, house, last };
        const got = this.#engine.call('post', given, market);
        Object.assign(this, { guests: got.guests, ...got.stations, house: got.house, last: got.last });
    }
}

async function bytesAt(url) {
    if (url.protocol !== 'file:' || typeof process === 'undefined') return responded(await fetch(url));
    const { readFile } = await import('node:fs/promises');
    return readFile(url);
}

async function responded(response) {
    if (!response.ok) throw new Error(`no engine at ${response.url}: status ${response.status}`);
    return response.arrayBuffer();
}

/** The engine of bay_market.wasm beside this file, or from a URL, a Response, the bytes or a compiled module. */
export async function load(source = new URL('bay_market.wasm', import.meta.url)) {
    if (source instanceof WebAssembly.Module) return new Engine(await WebAssembly.instantiate(source, {}));
    let bytes = source;
    if (typeof source === 'string' || source instanceof URL) bytes = await bytesAt(new URL(source, import.meta.url));
    else if (typeof Response !== 'undefined' && source instanceof Response) bytes = await responded(source);
    return new Engine((await WebAssembly.instantiate(bytes, {})).instance);
}
