// A candidate's row in a queue: number, bar, total, charge. Bars of one picture have one scale.
import { num } from './format.mjs';
import { freeWords, label, stateOf } from './words.mjs';

const share = (money, scale) => (money / scale).toFixed(4);

/** The largest total of all queues. */
export function greatestTotal({ open }) {
    return open.reduce((most, { queue }) => Math.max(most, queue[0]?.total ?? 0), 1);
}

/** Room for a guest's number. */
export const numberWidth = ({ market }) => (market.guests > 99 ? 32 : 24);

/** Bars are as long as the numbers beside them allow. From 230 px on a column has its totals as numbers too. */
export function fit(seen, width) {
    const total = greatestTotal(seen), digits = num(total).length, totals = width >= 230;
    const tail = Math.max(40, digits * 7.6 + 4), beside = totals ? digits * 6.6 + 26 : 18;
    const track = width - numberWidth(seen) - tail;
    return { scale: total / ((track - beside) / track), tail: Math.round(tail), totals, ok: track - beside >= 64 };
}

function row(seen, { queue, floor, first, j }, candidate, scale) {
    const { guest, total, charge, least, here, held, seat, rank } = candidate;
    const place = Object.entries({ t: total, c: charge, k: least, f: floor })
        .map(([name, money]) => `--${name}:${share(money, scale)}`).join(';');
    const marks = '<i class="bar"></i>' + (held ? '<i class="pay"></i>' : '')
        + (here && charge > least ? '<i class="cutmark"></i>' : '')
        + (floor && rank <= first.rank ? '<i class="floorline"></i>' : '');
    const tie = queue[rank]?.total === total ? ' =' : '', tail = here ? num(charge) : seat ? `at ${seat}` : '';
    return `<li><button class="row ${stateOf(seen, candidate)}${seen.quiet ? ' q' : ''}" data-g="${guest}" `
        + `data-st="${j}" tabindex="-1" aria-label="${label(seen, candidate)}" style="${place}">`
        + `<span class="no">${guest + 1}</span><span class="track">${marks}<span class="tot"><span>${num(total)}</span>`
        + `${tie}</span></span><span class="tail">${tail}</span></button></li>`;
}

export function rows(seen, station, candidates, scale) {
    return candidates.map((one) => row(seen, station, one, scale)).join('');
}

/** The bays that nobody has a place for. */
export function freeRow({ bays, held }, isShort = false) {
    const free = bays - held.length;
    if (free <= 0) return '';
    return `<li class="row free"><span class="no"></span><span class="slot">${freeWords(free, isShort)}</span></li>`;
}

/** Over the first place: the floor, and what the numbers at the right are. */
export function rowHead({ floor, held }, scale) {
    return `<div class="row rowhead" style="--f:${share(floor, scale)}"><span></span><span class="track">`
        + `${floor ? `<b>floor ${num(floor)}</b>` : ''}</span>`
        + `<span class="tail">${held.some(({ here }) => here) ? 'pays' : ''}</span></div>`;
}

export const moreButton = (j, words) => `<button class="btn link more" data-more="${j}">${words}</button>`;
