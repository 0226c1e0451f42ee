// The search, and the lie that is tried: in a truthful round nothing is right of the line.
import { readFileSync } from 'node:fs';
import { lists, random } from './random.mjs';
import { same } from './same.mjs';

// In the page: a search of so many rows, what its worker says, and what it shows.
async function searched(rows) {
    const { state } = globalThis.bay['state.mjs'], worker = { messages: 0, errors: 0 }, Made = window.Worker;
    window.Worker = class extends Made {
        constructor(...given) {
            super(...given);
            this.addEventListener('message', () => { worker.messages++; });
            this.addEventListener('error', () => { worker.errors++; });
        }
    };
    state.rows = rows;
    globalThis.bay['find.mjs'].start();
    window.Worker = Made;
    for (const start = Date.now(); state.search.running;) {
        if (Date.now() - start > 60000) throw new Error(`${state.search.done} of ${rows} rows in 60 s`);
        await new Promise((done) => { setTimeout(done, 10); });
    }
    const shown = (name) => [0, 1].map((k) => document.querySelectorAll(`#find${k} .${name}`).length);
    const ticks = [0, 1].map((k) => [...document.querySelectorAll(`#find${k} .axis`)].map((tick) => tick.outerHTML));
    return { worker, right: shown('pays'), left: shown('less'), oneAxis: String(ticks[0]) === String(ticks[1]),
        rounds: state.search.rounds.map(({ truth, best, tried, above, counts }) =>
            ({ truth, best, tried, above, counted: [...counts.values()].reduce((a, b) => a + b, 0) })) };
}

function holds({ rounds: [truthful, quiet], right, left, oneAxis }, rows, what) {
    same([truthful.above, right[0], truthful.best <= truthful.truth], [0, 0, true], `${what}: the truthful round`);
    same([truthful.tried, truthful.counted, quiet.counted], [rows, rows, quiet.tried], `${what}: the rows`);
    same([left[0] > 0, oneAxis], [true, true], `${what}: the picture`);
    same(quiet.above > 0, right[1] > 0, `${what}: the quiet round`);
}

// In the page: another market, of which a guest's search is shown.
function shown(market, guest, rule) {
    const { setView, show, state } = globalThis.bay['state.mjs'];
    state.rule = rule;
    show(state.engine.market(market), { guest });
    setView('search');
}

// In the page: the curves that rise above the truth in the truthful round, for each station.
function risen(stations, bid) {
    globalThis.bay['state.mjs'].setView('lie');
    let over = 0;
    for (let j = 0; j < stations; j++) {
        globalThis.bay['lie.mjs'].tellBid(j, bid);
        over += document.querySelectorAll('#lie0 .over').length;
    }
    return over;
}

// In the page: a lie that is tried, and the gains it shows in both rounds.
function tried(guest, station, bid) {
    globalThis.bay['state.mjs'].pick(guest);
    globalThis.bay['lie.mjs'].tellBid(station, bid);
    const number = (dd) => Number(dd.firstChild.textContent.replace(/[^\d−]/g, '').replace('−', '-'));
    const who = (k) => document.querySelector(`#lie${k} .others`).textContent;
    const gains = (k) => [...document.querySelectorAll(`#lie${k} .score dd`)].map(number);
    return [0, 1].map((k) => ({ gains: gains(k), who: who(k) }));
}

const example = (name) => readFileSync(new URL(`../../examples/${name}.sheet`, import.meta.url));
const listed = (all) => (all.length < 2 ? all.join('') : `${all.slice(0, -1).join(', ')} and ${all[all.length - 1]}`);

// Who else is seated or loses its seat, in the page's words.
function moved(before, after, guest) {
    const only = (here, there) => [...here.keys()].filter((i) => i !== guest && here[i] && !there[i]).map((i) => i + 1);
    const seated = only(after, before), unseated = only(before, after);
    if (seated.length + unseated.length === 0) return 'Nobody else is seated or unseated by the lie.';
    return (seated.length ? `Becomes seated: guest ${listed(seated)}. ` : '')
        + (unseated.length ? `Loses its seat: guest ${listed(unseated)}.` : '');
}

export const cases = {
    async 'a search: never right of the line in a truthful round, often in a quiet one'({ browser, page }) {
        await browser.size(1280, 900);
        await browser.open(`${page}#view=search&market=evening&guest=10`);
        const evening = await browser.call(searched, 20000);
        holds(evening, 20000, 'the evening');
        same([evening.worker.messages > 0, evening.worker.errors], [true, 0], 'it is the worker that searches');
        same(evening.rounds.map(({ truth, best }) => [truth, best]), [[2075, 2075], [2675, 3395]], 'gains');
        same(await browser.run('[...document.querySelectorAll("#find1 .best td")].map((td) => td.textContent)'),
            ['485', '475', 'none', '545', '485', '475', 'none', 'none'], 'the best lie, reduced');
        await browser.run('document.getElementById("lookatlie").click()');
        const scores = '[...document.querySelectorAll("#lie1 .score dd")].map((dd) => dd.firstChild.textContent)';
        same(await browser.run(scores), ['2,675', '3,395', '+720'], 'the lie is taken over');
        return `${evening.rounds[1].above} of 20,000 rows pay in the quiet round, none in the truthful one`;
    },

    async 'random markets: every search and every curve'({ browser, page }) {
        const next = random(5);
        await browser.open(`${page}#view=search`);
        for (let k = 0; k < 12; k++) {
            const market = lists(next, 1 + next(8), 2 + next(4)), guest = next(market.amounts.length);
            const rule = 1 + next(2), what = JSON.stringify({ market, guest, rule });
            await browser.call(shown, market, guest, rule);
            holds(await browser.call(searched, 1500), 1500, what);
            same(await browser.call(risen, market.asks.length, next(40)), 0, `a curve above the truth: ${what}`);
            same(browser.errors(), [], what);
        }
    },

    async 'truth and lie are the engine\'s, in both rounds, and who else moves'({ browser, engine, page }) {
        const market = engine.fromSheet(example('evening')), next = random(9);
        await browser.open(`${page}#view=lie&market=evening`);
        for (let k = 0; k < 40; k++) {
            const guest = next(24), station = next(8), bid = next(900), worths = market.row(guest + 1);
            const row = worths.slice();
            row[station] = bid;
            const other = market.withRow(guest + 1, row), answer = market.tryRow(guest + 1, worths, row);
            const gain = ({ stations, charges }) => (stations[guest]
                ? worths[stations[guest] - 1] * market.amounts[guest] - charges[guest] : 0);
            const panel = (truth, lie, before, after) =>
                ({ gains: [truth, lie, lie - truth], who: moved(before.stations, after.stations, guest) });
            const [before, after] = [market.clearEfficient(), other.clearEfficient()];
            same(await browser.call(tried, guest, station, bid),
                [panel(answer.firstGain, answer.secondGain, market.clear(), other.clear()),
                    panel(gain(before), gain(after), before, after)],
                `guest ${guest + 1}, bid ${bid} at station ${station + 1}`);
        }
    },

    async 'without a worker the page searches itself; a search can be stopped'({ browser, page }) {
        await browser.open(`${page}#view=search&market=table_i`);
        await browser.run('bay["state.mjs"].state.compiled = undefined'); // a worker that fails after its start
        const failing = await browser.call(searched, 3000);
        same(failing.worker, { messages: 0, errors: 1 }, 'a failing worker');
        holds(failing, 3000, 'Table I, a failing worker');
        browser.errors();
        await browser.run('globalThis.Worker = class { constructor() { throw new Error("none"); } }');
        const alone = await browser.call(searched, 3000);
        same(alone.worker, { messages: 0, errors: 0 }, 'no worker');
        holds(alone, 3000, 'Table I, no worker');
        await browser.open(`${page}#view=search&market=full`);
        await browser.run('bay["state.mjs"].state.rows = 10000000; document.getElementById("findgo").click()');
        await browser.until('bay["state.mjs"].state.search.done > 0');
        await browser.run('document.getElementById("findgo").click()');
        same(await browser.run('bay["state.mjs"].state.search.running'), false, 'stopped');
        same(await browser.run('document.getElementById("findgo").textContent'), 'Search again', 'the button');
    },
};
