// Random calls through bay_market.mjs, for said.py to hold to the library of x86-64: node said.mjs SEED CALLS prints
// for each call of the engine its function, what it was given, and the refusal or what it gave.
import { load, Refusal } from '../../js/bay_market.mjs';

let state = Number(process.argv[2]);
function below(k) {
    state = (state + 0x6D2B79F5) | 0;
    let t = Math.imul(state ^ (state >>> 15), state | 1);
    t ^= t + Math.imul(t ^ (t >>> 7), t | 61);
    return ((t ^ (t >>> 14)) >>> 0) % k;
}

const plain = (_, value) => (ArrayBuffer.isView(value) ? Array.from(value) : value);
const engine = await load(), { call } = engine;
engine.call = function said(name, given, market, lengths) {
    const { asks, bays, amounts, tickets, bids, width } = market ?? {};
    const line = { name, given: { asks, bays, amounts, tickets, bids, width, ...given } };
    try {
        const after = call.call(this, name, given, market, lengths);
        console.log(JSON.stringify({ ...line, after }, plain));
        return after;
    } catch (error) {
        if (!(error instanceof Refusal)) throw error;
        console.log(JSON.stringify({ ...line, refused: error.number }, plain));
        throw error;
    }
};

const many = (length, value) => Array.from({ length }, (_, i) => value(i));
// a length that is wrong now and then
const about = (length) => (below(80) === 0 ? below(length + 3) : length);
const bid = (price) => (below(3) === 0 ? 0 : below(price));
const row = (length) => many(length, () => bid(900));

function market() {
    const n = below(8) === 0 ? below(203) : below(25), m = below(8) === 0 ? below(43) : 1 + below(8);
    const price = [4, 60, 3000, 1000004][below(4)], low = below(4000000000);
    return engine.market({
        asks: many(about(m), () => below(price)), bays: many(about(m), () => (below(300) === 0 ? 0 : 1 + below(6))),
        amounts: many(about(n), () => (below(1500) === 0 ? 1001 : 1 + below(60))),
        tickets: many(about(n), (i) => (below(1500) === 0 ? low : low + i)), bids: many(about(n * m), () => bid(price)),
    });
}

let sheet = new Uint8Array(0), text = '', ledger = engine.ledger();
const ways = [
    (x) => x.clear({ rule: below(30) === 0 ? 3 : 1 + below(2) }),
    (x) => x.clearEfficient({ rule: 1 + below(2) }),
    (x) => {
        const handed = x.clearMarked();
        if (handed.charges.length > 0) handed.charges[0] += below(2);
        x.mark(below(20) === 0 ? { ...handed, floors: [] } : handed);
    },
    (x) => x.explain(),
    (x) => x.tryRow(below(x.guests + 2), row(x.stations), row(x.stations)),
    (x) => x.menu(below(x.guests + 2)),
    (x) => x.gains(1 + below(x.guests + 1), row(x.stations), row(below(6) * x.stations)),
    (x) => x.join(below(3) === 0 ? market() : engine.market({ ...x, tickets: x.tickets.map((held) => ~held) })),
    (x) => { sheet = x.toSheet(); },
    (x) => { text = x.toCsv(); },
    () => engine.fromSheet(below(3) === 0 ? sheet.slice(0, below(sheet.length + 1)) : sheet),
    () => engine.fromCsv(below(3) === 0 ? text.slice(0, below(text.length + 1)) : text),
    (x) => engine.placeBids({ prices: x.bids.slice(0, x.guests), falls: x.amounts, stationFirst: x.bays,
        guestFirst: x.amounts.map((a) => a % 32), guestSecond: x.amounts.map((a) => a % 33), stationSecond: x.bays }),
    (x) => {
        if (below(10) === 0) ledger = engine.ledger(below(202), below(42));
        if (below(20) === 0) ledger = engine.ledger({ ...ledger, house: 1e15 - below(3000) });
        const desk = below(9);
        ledger.post(x, { desk, round: (ledger.last[desk] ?? 0) + (below(20) === 0 ? 2 : 1) });
    },
];
for (let k = Number(process.argv[3]); k > 0; k--) {
    const x = market();
    try {
        ways[below(ways.length)](x);
    } catch (error) {
        if (!(error instanceof Refusal)) throw error;
    }
}
