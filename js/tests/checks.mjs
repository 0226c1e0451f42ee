// What bay_market.mjs promises, as checks that run in Node (checks.test.mjs), in a page and in JavaScriptCore
// (tests/targets): each is given the module's exports, the compiled engine and an engine.

function same(got, wanted, what) {
    const plain = (_, held) => (ArrayBuffer.isView(held) ? Array.from(held) : held);
    const [one, other] = [got, wanted].map((value) => JSON.stringify(value, plain));
    if (one !== other) throw new Error(`${what}: ${one}, expected ${other}`);
}

function thrown(call) {
    try {
        call();
    } catch (error) {
        return error;
    }
    throw new Error(`nothing is thrown: ${call}`);
}

const caseE = { asks: [2, 6], bays: [1, 1], amounts: [3, 3], tickets: [1, 2], bids: [8, 0, 8, 0] };
const caseG = { ...caseE, amounts: [3, 2], bids: [[9, 0], [10, 0]] };
const sheetE = [2, 0, 2, 0, 2, 0, 0, 0, 1, 0, 6, 0, 0, 0, 1, 0,
    3, 0, 1, 0, 0, 0, 1, 8, 0, 0, 0, 3, 0, 2, 0, 0, 0, 1, 8, 0, 0, 0];
const textE = '2,6\r\n1,1\r\n1,3,8,0\r\n2,3,8,0\r\n';

export const checks = {
    'a truthful round'({ engine }) {
        const wanted = { cut: 6, margin: 6, stations: [1, 0], charges: [24, 0], sold: [3, 0], paid: [18, 0] };
        same(engine.market(caseE).clear(), wanted, 'case E');
    },
    'rules, and an efficient round'({ engine, api }) {
        const table = engine.market({
            asks: [4, 1, 3, 2, 5], bays: [1, 2, 4, 2, 3], amounts: [5, 2, 6, 4, 3], tickets: [1, 2, 3, 4, 5],
            bids: [[0, 4, 0, 5, 2], [2, 0, 5, 1, 0], [7, 5, 0, 4, 0], [6, 4, 0, 3, 0], [0, 0, 2, 3, 5]],
        });
        same(table.clearEfficient().charges, [15, 0, 18, 12, 9], 'Table I, quiet');
        same(table.clear({ rule: api.rules.median }).charges, [15, 0, 18, 0, 0], 'Table I');
        same(table.clear({ rule: api.rules.twoThirds }).cut, 4, 'Table I, rule 2');
    },
    'what decided'({ engine, api }) {
        const told = engine.market(caseE).explain();
        same(told, { codes: [0, 1, 4, 1], stations: [1, 0], charges: [24, 0], reasons: [0, 4] }, 'case E');
        same(Array.from(told.codes, (code) => api.codes[code]), ['place held', 'no bid', 'outbid', 'no bid'], 'texts');
    },
    'another row, the price list and gains'({ engine, api }) {
        const market = engine.market(caseG);
        const tried = market.tryRow(2, [10, 0], [14, 0]);
        same(tried, { firstGain: 0, secondGain: -7, changes: [2, 0] }, 'case G');
        same(api.changes[tried.changes[0]], 'becomes unseated', 'a change');
        same(market.menu(2), { bars: [28, 4294967295], prices: [27, 0] }, 'the price list');
        same(market.gains(2, [10, 0], [[10, 0], [14, 0]]), [0, -7], 'gains of rows');
        same(market.gains(2, [10, 0], [10, 0, 14, 0]), [0, -7], 'gains of one list');
        same(market.gains(2, [10, 0], []), [], 'gains of no row');
        same(market.withRow(2, [14, 0]).clear().stations, [0, 1], 'the row in the market');
        same(market.row(2), [10, 0], 'the market stays');
        same(thrown(() => market.withRow(2, [14])).message, 'row has 1 bids, not 2', 'a row too short');
        same(thrown(() => market.withRow(2, 14)) instanceof TypeError, true, 'no row');
        same(thrown(() => market.row(3)).message, 'guest is 3, not a whole number of 1 to 2', 'no such guest');
    },
    'marking'({ engine }) {
        const market = engine.market(caseG), handed = market.clearMarked();
        same([handed.places, handed.floors], [[1, 0, 0, 0], [20, 0]], 'places and floors');
        same(market.mark(handed), true, 'right');
        same(market.mark({ ...handed, margin: handed.margin + 4294967296 }), false, 'a margin of 33 bits');
        same(thrown(() => market.mark({ ...handed, places: [1] })).number, 10, 'a list of another length');
    },
    'sheets and text, in and out'({ engine }) {
        const market = engine.market(caseE);
        same(market.toSheet(), sheetE, 'the sheet');
        same(market.toCsv(), textE, 'the text');
        const { buffer } = Uint8Array.from(sheetE), bytes = Uint8Array.from(textE, (c) => c.charCodeAt(0));
        for (const sheet of [sheetE, buffer]) same(engine.fromSheet(sheet), caseE, 'the sheet read');
        for (const text of [textE, bytes]) same(engine.fromCsv(text), caseE, 'the text read');
        same(thrown(() => engine.fromCsv('5\n1\n')).number, 22, 'LF alone');
        same(thrown(() => engine.fromCsv('\u0135\r\n1\r\n')).number, 22, 'a character that is no byte');
        same(thrown(() => engine.fromSheet(sheetE.slice(1))).number, 2, 'a sheet with its first byte cut');
        same(thrown(() => engine.market({ ...caseE, tickets: [7, 7] }).toCsv()).number, 15, 'what toSheet refuses');
    },
    'two gates'({ engine }) {
        const gate = (ticket) => engine.market({ ...caseE, amounts: [3], tickets: [ticket], bids: [8, 0] });
        same(gate(1).join(gate(2)), engine.market(caseE), 'joined');
        same(thrown(() => gate(1).join(gate(1))).number, 21, 'a ticket in both');
        same(thrown(() => gate(1).join(caseE)) instanceof TypeError, true, 'no market');
    },
    'bids from places'({ engine }) {
        const guests = { prices: [500, 500], falls: [2, 2], guestFirst: [3, 0], guestSecond: [4, 0] };
        const places = { ...guests, stationFirst: [0, 1], stationSecond: [0, 1] };
        same(engine.placeBids(places), [400, 428, 500, 472], 'placed');
        same(thrown(() => engine.placeBids({ ...places, guestFirst: [32, 0] })).number, 16, 'off the grid');
    },
    'a ledger'({ engine, api }) {
        const market = engine.market(caseE), ledger = engine.ledger(2, 2);
        ledger.post(market, { desk: 7, round: 1 });
        const posted = { guests: [24, 0], sold: [3, 0], paid: [18, 0], house: 6, last: [0, 0, 0, 0, 0, 0, 0, 1] };
        same(ledger, posted, 'posted');
        same(thrown(() => ledger.post(market, { desk: 7, round: 1 })).number, 11, 'the round again');
        same(thrown(() => ledger.post(market, { desk: 8, round: 1 })).number, 25, 'no such desk');
        same(thrown(() => ledger.post(market, { desk: 7 })) instanceof RangeError, true, 'no round');
        same(thrown(() => ledger.post(caseE, { desk: 7, round: 2 })) instanceof TypeError, true, 'no market');
        same(thrown(() => engine.ledger('x')) instanceof RangeError, true, 'no size');
        same(ledger, posted, 'what is refused changes nothing');
        const full = engine.ledger({ ...posted, guests: [api.limits.account - 23, 0] });
        same(thrown(() => full.post(market, { desk: 0, round: 1 })).number, 12, 'above 10^15');
        const room = engine.ledger({ ...posted, guests: [api.limits.account - 24, 0] });
        room.post(market, { desk: 0, round: 1 });
        same(room.guests, [1e15, 0], '10^15');
        const uneven = engine.ledger({ ...posted, sold: [0] });
        same(thrown(() => uneven.post(market, { desk: 0, round: 1 })) instanceof RangeError, true, 'sold and paid');
    },
    'a refusal has a number, a name and a text'({ engine, api }) {
        const error = thrown(() => engine.market({ ...caseE, tickets: [1, 1] }).clear());
        const text = 'two guests have the same ticket';
        same([error.number, error.name, error.text], [15, 'TICKETS_REPEAT', text], 'tickets');
        same(error.message, `refused 15: ${text}`, 'the message');
        same([error instanceof api.Refusal, error instanceof Error], [true, true], 'what it is');
        same(thrown(() => engine.market(caseE).clear({ rule: 3 })).number, 18, 'no such rule');
        same(thrown(() => engine.call('close', {})).message, 'no function close', 'no such function');
        const ones = Array(3000).fill(1), many = { asks: ones, bays: ones, amounts: ones, tickets: ones, bids: [] };
        same(thrown(() => engine.market(many).explain()).number, 2, 'too many of all');
    },
    'what a type cannot hold is a RangeError, and never cut'({ engine }) {
        const none = [65536, -1, 1.5, NaN, '4', null, undefined, true, 4n].map((value) => ['amounts', value]);
        for (const [name, value] of [...none, ['tickets', 4294967296], ['bays', 65537]]) {
            const error = thrown(() => engine.market({ ...caseE, [name]: [1, value] }));
            const said = error.message.startsWith(`${name}[1] is ${String(value)}, not a whole number`);
            same([error instanceof RangeError, said], [true, true], error.message);
        }
        for (const value of [undefined, null, 5, '44', {}]) {
            same(thrown(() => engine.market({ ...caseE, amounts: value })) instanceof TypeError, true, 'no list');
        }
        const market = engine.market(caseE);
        for (const rule of [257, 258, -255, 1.5, '1', NaN, 4294967297]) {
            same(thrown(() => market.clear({ rule })) instanceof RangeError, true, `rule ${rule}`);
        }
        same(thrown(() => market.menu(4294967297)) instanceof RangeError, true, 'a guest of 33 bits');
        const rows = thrown(() => engine.market({ ...caseE, bids: [[8, 0, 8], [0]] }));
        same(rows.message, 'bids[0] has 3 bids, not 2', 'a row of another length');
        const ledger = thrown(() => engine.ledger({ guests: [2 ** 53], sold: [0], paid: [0], house: 0, last: [] }));
        same(ledger.message, `guests[0] is ${2 ** 53}, not a whole number of 0 to ${2 ** 53 - 1}`, '2^53');
    },
    'what goes in and comes out is the caller\'s own'({ engine }) {
        const lists = { ...caseE, bids: Uint32Array.from(caseE.bids) };
        const market = engine.market(lists), first = market.clear(), kept = Array.from(first.charges);
        lists.bids[0] = 1;
        same(market.bids, caseE.bids, 'the market has its own bids');
        engine.market({ ...caseE, bids: [0, 0, 9, 0] }).clear();
        same(first.charges, kept, 'results stay');
    },
    'many rows: the memory grows, and results are as before'({ engine }) {
        const market = engine.market(caseG), many = new Uint32Array(2 * 300000).fill(14);
        const gains = market.gains(2, [10, 0], many);
        same([gains.length, gains.every((gain) => gain === -7)], [300000, true], 'gains');
        same(market.clear().charges, [20, 0], 'a clearing after it');
    },
    'a trap leaves the engine whole'({ compiled, api }) {
        const instance = new WebAssembly.Instance(compiled, {}), stack = instance.exports.__stack_pointer;
        const top = stack.value, market = new api.Engine(instance).market(caseE);
        for (let k = 0; k < 40; k++) {
            stack.value = 2048; // too little: the stack stands first, so that it traps and writes over nothing
            same(thrown(() => market.clear()) instanceof WebAssembly.RuntimeError, true, 'no room on the stack');
            same(stack.value, top, 'the stack pointer is set back');
        }
        same(market.clear().cut, 6, 'a clearing after traps');
    },
    'calls for which JavaScript\'s stack has no room leave the engine whole'({ engine }) {
        const market = engine.market(caseE);
        let cut = 0;
        const deep = () => {
            try {
                deep();
            } catch {
                // too deep
            }
            try {
                market.clear();
            } catch (error) {
                if (!(error instanceof RangeError)) throw error;
                cut++;
            }
        };
        for (let k = 0; k < 10; k++) deep();
        same([cut > 0, market.clear().cut], [true, 6], `after ${cut} such calls`);
    },
};

export async function run(api, compiled) {
    for (const [name, check] of Object.entries(checks)) {
        try {
            await check({ api, compiled, engine: await api.load(compiled) });
        } catch (error) {
            throw new Error(`${name}: ${error.message}`);
        }
    }
    return `${Object.keys(checks).length} checks of bay_market.mjs`;
}
