// What is shown against the engine as Node has it, in both rounds and by both rules.
import { lists, random } from './random.mjs';

const COMBINATIONS = [[1, false], [2, false], [1, true], [2, true]];

// In the page: what each of some markets shows, by rule and round, and whether what the picture works out itself holds:
// open stations are those of the price list, places are the first of a queue, charges are what the shown floors say.
function shown(markets, combinations) {
    const { setRound, show, state } = globalThis.bay['state.mjs'], { decided, outcome } = globalThis.bay['words.mjs'];
    const NO_BAR = 4294967295, all = (selector) => [...document.querySelectorAll(selector)];
    const number = ({ textContent }) => Number(textContent.replace(/\D/g, ''));
    const seatOf = (row) => [Number(row.dataset.g), Number(row.dataset.st) + 1, number(row.querySelector('.tail'))];
    const holds = ({ seen, market, rule }) => {
        const bars = market.guests > 0 ? market.menu(1, { rule }).bars : undefined;
        for (let guest = 0; guest < market.guests; guest++) {
            outcome(seen, guest);
            for (const station of seen.stations) decided(seen, guest, station);
        }
        return seen.stations.every(({ open, j, queue, bays, floor }) => (!bars || open === (bars[j] !== NO_BAR))
            && queue.every(({ held }, k) => seen.quiet || held === (k < bays))
            && queue.every(({ here, charge, least }) => !here || charge === Math.max(least, floor)));
    };
    return markets.map((market) => combinations.map(([rule, quiet], k) => {
        Object.assign(state, { rule, quiet });
        if (k === 0) show(state.engine.market(market), {});
        else setRound(quiet);
        return { facts: all('#facts div:not(.onpaper) dd').map(number),
            seats: all('#pic .row.seated').map(seatOf).sort((a, b) => a[0] - b[0]),
            board: all('#strip button.on').map((button) => Number(button.dataset.g)), holds: holds(state) };
    }));
}

const sum = (list) => Array.from(list).reduce((a, b) => a + b, 0);
const of = (some, all) => Number(`${some}${all}`); // 'so many of so many', without what is no digit

function wanted(engine, lent) {
    const market = engine.market(lent);
    return COMBINATIONS.map(([rule, quiet]) => {
        const round = quiet ? market.clearEfficient({ rule }) : market.clear({ rule });
        const { cut, margin, stations, charges, paid } = round;
        const seats = [...stations].flatMap((station, i) => (station ? [[i, station, charges[i]]] : []));
        const open = lent.asks.filter((ask) => ask < cut).length;
        const facts = [cut, of(open, lent.asks.length), of(seats.length, lent.amounts.length), sum(charges), sum(paid),
            margin];
        return { facts, seats, board: seats.map(([guest]) => guest), holds: true };
    });
}

export async function compare({ browser, engine, page }, count, seed) {
    await browser.size(1280, 900);
    await browser.open(`${page}#view=queues`);
    const next = random(seed), all = Array.from({ length: count }, () => lists(next)), part = 100;
    for (let k = 0; k < all.length; k += part) {
        const some = all.slice(k, k + part), got = await browser.call(shown, some, COMBINATIONS);
        some.forEach((market, i) => {
            const one = JSON.stringify(got[i]), other = JSON.stringify(wanted(engine, market));
            if (one !== other) throw new Error(`market ${JSON.stringify(market)}\nshown  ${one}\nengine ${other}`);
        });
    }
    return `${count} markets, both rounds and rules`;
}

export const cases = {
    'the shown charges are the engine\'s': (context) => compare(context, Number(process.env.PAGE_MARKETS ?? 2000), 1),
};
