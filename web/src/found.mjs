// What a search has found in a round: how many rows pay more than the truth, the best one, and why there is none.
import { num, signed } from './format.mjs';
import { histogram } from './histogram.mjs';
import { worthsOf } from './lie.mjs';
import { state } from './state.mjs';
import { quietRound, setRow } from './trials.mjs';

/** The best row of the quiet round with as few changed bids as one pass finds. */
export function fewest(round) {
    if (round.fewest) return round.fewest;
    const { market, guest, rule } = state, worths = worthsOf(), changed = market.withRow(guest + 1, round.row);
    const row = round.row.slice();
    for (const j of row.keys()) {
        const was = row[j];
        row[j] = worths[j];
        setRow(changed, guest, row);
        if (quietRound(changed, guest, worths, rule).gain < round.best) row[j] = was;
    }
    round.fewest = row;
    return row;
}

// A table with a column for each station: `rows` are [name, cells], a cell { text, strong }.
function tableHtml(caption, stations, rows) {
    const cell = ({ text, strong }) => `<td${strong ? ' class="diff"' : ''}>${text}</td>`;
    const line = ([name, cells]) => `<tr><th scope="row">${name}</th>${cells.map(cell).join('')}</tr>`;
    const heads = stations.map((text) => `<th scope="col">${text}</th>`).join('');
    return `<div><p class="over">${caption}</p><div class="bestwrap" tabindex="0" role="group" aria-label="${caption}">`
        + `<table class="best" style="--n:${stations.length}"><thead><tr><th scope="col">station</th>${heads}</tr>`
        + `</thead><tbody>${rows.map(line).join('')}</tbody></table></div></div>`;
}

const bid = (v) => (v ? num(v) : 'none');

function bestTable(round) {
    const row = fewest(round), worths = worthsOf(), open = state.seen.open.map(({ j }) => j);
    const shown = open.length <= 8 ? open : open.filter((j) => row[j] !== worths[j]).slice(0, 8);
    return tableHtml('The best row, with the fewest bids changed', shown.map((j) => j + 1), [
        ['truth', shown.map((j) => ({ text: bid(worths[j]) }))],
        ['lie', shown.map((j) => ({ text: bid(row[j]), strong: row[j] !== worths[j] }))]])
        + '<div class="acts"><button class="btn" id="lookatlie">Look at this lie</button></div>';
}

const MOST_PRICES = 7;

// The guest's price list. Every row, true or false, picks one column of it.
function menuTable() {
    const { market, guest, rule, seen } = state, worths = worthsOf(), amount = market.amounts[guest];
    const { prices } = market.menu(guest + 1, { rule });
    const all = seen.open.map(({ j }) => ({ j, price: prices[j], gain: worths[j] * amount - prices[j] }));
    const best = all.slice().sort((a, b) => b.gain - a.gain).slice(0, MOST_PRICES).sort((a, b) => a.j - b.j);
    const top = Math.max(0, ...best.map(({ gain }) => gain)), gains = [...best.map(({ gain }) => gain), 0];
    const some = all.length > best.length ? ` (the best ${best.length} of ${all.length})` : '';
    return tableHtml(`What each bay costs guest ${guest + 1}, whatever it bids${some}`,
        [...best.map(({ j }) => j + 1), 'none'], [
            ['cost', [...best.map(({ price }) => price), 0].map((price) => ({ text: num(price) }))],
            ['gain', gains.map((gain) => ({ text: num(gain), strong: gain === top }))]])
        + '<p class="others">Any row, true or false, picks one column of this list. The truth picks the best: that '
        + 'holds for every row, not only for those tried.</p>';
}

/** What there is to say of a round, before a search and after it. */
export function lead(round, quiet) {
    if (!round) return quiet ? 'More guests are seated, and a false row may pay.'
        : 'Proved: no false row pays more than the truth. Search for one anyway.';
    const { tried, above, best, truth } = round;
    if (best <= truth) return `None of the ${num(tried)} rows tried pays more than the truth.`;
    const share = above / tried * 100;
    return `${num(above)} of the ${num(tried)} rows tried pay more than the truth `
        + `(${share < 0.1 ? 'under 0.1' : share.toFixed(1)}%).`;
}

const LUCK = '<p class="others">In this round that is luck, not a promise: another guest may do better by a lie.</p>';

export function foundHtml(round, quiet, axis, width) {
    const pays = round.best > round.truth;
    const score = (name, value, up = '') => `<div${up}><dt>${name}</dt><dd>${value}</dd></div>`;
    return `<dl class="score">${score('gain, truth', num(round.truth))}${score('best gain found', num(round.best))}`
        + `${score('best lie earns', signed(round.best - round.truth), pays ? ' class="up"' : '')}</dl>`
        + `${histogram(round, axis, width)}${!quiet ? menuTable() : pays ? bestTable(round) : LUCK}`;
}
