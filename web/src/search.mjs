// The search for a row that gains more than the truth, in steps: for the worker, and for the page where there is none.
// Every row is tried in the truthful round, by the engine's gains; every so many-th is cleared in a quiet round too.
// The same seed gives the same rows.
import { limits } from '../../js/bay_market.mjs';
import { gainsOf, quietRound, seatsOf, setRow } from './trials.mjs';

const MOST_QUIET = 100000; // rows that are cleared in the quiet round, at most

/** Of how many rows one is tried in the quiet round too. */
export const quietShare = (total) => Math.max(1, Math.ceil(total / MOST_QUIET));

function randomOf(seed) {
    let s = seed | 0;
    return () => {
        s = s + 0x6D2B79F5 | 0;
        let t = Math.imul(s ^ s >>> 15, 1 | s);
        t = t + Math.imul(t ^ t >>> 7, 61 | t) ^ t;
        return ((t ^ t >>> 14) >>> 0) / 4294967296;
    };
}

// Three kinds of lie: some bids changed, all bids scaled, bids anywhere.
function rowMaker(market, worths, seed) {
    const random = randomOf(seed), m = worths.length;
    const greatest = [market.asks, market.bids].reduce((most, list) => list.reduce((a, b) => Math.max(a, b), most), 1);
    const top = Math.min(limits.price, Math.ceil(1.5 * greatest));
    const anywhere = () => Math.floor(random() * top);
    const some = (j) => {
        const kind = random();
        return kind < 0.5 ? worths[j] : kind < 0.75 ? 0 : anywhere();
    };
    return (rows, from) => {
        const way = random(), part = random();
        for (let j = 0; j < m; j++) {
            const scaled = () => Math.min(limits.price, Math.round(worths[j] * 2 * part * (0.8 + 0.4 * random())));
            rows[from + j] = way < 0.4 ? some(j) : way < 0.7 ? scaled() : random() < part ? anywhere() : 0;
        }
    };
}

class Tally {
    constructor(truth) {
        Object.assign(this, { truth, best: -Infinity, row: undefined, tried: 0, above: 0 });
        Object.assign(this, { counts: new Map(), seats: new Map() }); // by gain
    }

    // `seat` is asked once for each gain.
    add(gain, row, seat) {
        const before = this.counts.get(gain);
        if (before === undefined) this.seats.set(gain, seat());
        this.counts.set(gain, (before ?? 0) + 1);
        this.tried++;
        if (gain > this.truth) this.above++;
        if (gain > this.best) Object.assign(this, { best: gain, row: Array.from(row) });
    }
}

export class Search {
    constructor(engine, { lists, guest, rule, seed, total }) {
        this.market = engine.market(lists);
        this.changed = engine.market(lists);
        const worths = this.market.row(guest + 1);
        Object.assign(this, { guest, rule, worths, total, done: 0, every: quietShare(total),
            make: rowMaker(this.market, worths, seed) });
        this.rounds = [new Tally(gainsOf(this.market, guest, worths, worths, rule)[0]),
            new Tally(quietRound(this.market, guest, worths, rule).gain)];
    }

    step(count) {
        const { market, guest, rule, worths, rounds: [truthful] } = this, m = market.stations;
        const rows = new Uint32Array(count * m);
        for (let k = 0; k < count; k++) this.make(rows, k * m);
        const gains = gainsOf(market, guest, worths, rows, rule);
        for (let k = 0; k < count; k++) {
            const row = rows.subarray(k * m, k * m + m);
            truthful.add(gains[k], row, () => seatsOf(market, guest, row, rule)[0]);
            if ((this.done + k) % this.every === 0) this.quiet(row);
        }
        this.done += count;
    }

    quiet(row) {
        setRow(this.changed, this.guest, row);
        const { gain, seat } = quietRound(this.changed, this.guest, this.worths, this.rule);
        this.rounds[1].add(gain, row, () => seat);
    }

    get report() {
        return { done: this.done, rounds: this.rounds.map((round) => ({ ...round })) };
    }
}

const STEP_MS = 90;

/** Runs a search in steps of some milliseconds, reports after each, and goes on while `wanted` says so. */
export function run(search, report, wanted = () => true) {
    let size = 100, ms = 0;
    const next = () => {
        if (!wanted()) return;
        const start = performance.now(), count = Math.min(size, search.total - search.done);
        search.step(count);
        const took = performance.now() - start;
        ms += took;
        size = Math.max(50, Math.min(200000, Math.round(count * STEP_MS / Math.max(took, 1))));
        report({ ...search.report, ms });
        if (search.done < search.total) setTimeout(next, 0);
    };
    next();
}
