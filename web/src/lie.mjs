// Try a lie: another row for the chosen guest beside its own, which is taken for its worths, in both rounds.
import { limits } from '../../js/bay_market.mjs';
import { quietCurve, truthfulCurve } from './curves.mjs';
import { listed, num, roundUp, signed } from './format.mjs';
import { plotSvg } from './plot.mjs';
import { drawSliders, moveSlider } from './sliders.mjs';
import { $, state } from './state.mjs';
import { quietRound, setRow } from './trials.mjs';

const NO_BAR = 4294967295;

export const worthsOf = () => state.market.row(state.guest + 1);

// The open station whose one changed bid pays most in the quiet round; else the guest's seat, or a station it bids for.
function telling(worths) {
    const { market, seen, guest, rule } = state;
    const wanted = seen.open.map(({ j }) => j).filter((j) => worths[j] >= seen.cut);
    const changed = market.withRow(guest + 1, worths), own = quietRound(changed, guest, worths, rule);
    const seat = seen.seats[guest] || own.seat;
    let best = { more: 0, station: seat ? seat - 1 : wanted[0] ?? (seen.open[0] ?? seen.stations[0]).j };
    for (const station of wanted) {
        const row = worths.slice();
        for (let k = 0; k <= 30; k++) {
            row[station] = Math.min(limits.price, Math.round(worths[station] * k / 15));
            setRow(changed, guest, row);
            const more = quietRound(changed, guest, worths, rule).gain - own.gain;
            if (more > best.more) best = { more, station };
        }
    }
    return best.station;
}

/** The row that is told, the truth at first, and the station whose bid is plotted. */
export function prepare() {
    const worths = worthsOf(), { lie } = state;
    if (!lie.row) lie.row = worths.slice();
    if (lie.station < 0 || lie.station >= worths.length) lie.station = telling(worths);
    return worths;
}

const numbersOf = (list, holds) => Array.from(list.keys()).filter(holds).map((i) => i + 1);

// A row beside the truth, in each round: gains, seats, charges, and who else moves.
function truthfulTrial(worths) {
    const { market, guest, rule, lie } = state, tried = market.tryRow(guest + 1, worths, lie.row, { rule });
    const seatOf = ({ stations, charges }) => ({ seat: stations[guest], charge: charges[guest] });
    const changed = (change) => numbersOf(tried.changes, (i) => tried.changes[i] === change);
    return { truth: { gain: tried.firstGain, ...seatOf(market.clear({ rule })) },
        lie: { gain: tried.secondGain, ...seatOf(market.withRow(guest + 1, lie.row).clear({ rule })) },
        seated: changed(1), unseated: changed(2) };
}

function quietTrial(worths) {
    const { market, guest, rule, lie: { row } } = state, truth = quietRound(market, guest, worths, rule);
    const lie = quietRound(market.withRow(guest + 1, row), guest, worths, rule);
    const only = (here, there) => numbersOf(here.seats, (i) => i !== guest && here.seats[i] && !there.seats[i]);
    return { truth, lie, seated: only(lie, truth), unseated: only(truth, lie) };
}

// What the guest needs for a bay at a station in a truthful round, from its price list: the least bid, and the charge.
function bayAt(station) {
    const { market, guest, rule, seen } = state, { bars, prices } = market.menu(guest + 1, { rule });
    const amount = market.amounts[guest];
    const least = Math.max(seen.cut, Math.ceil(bars[station] / amount));
    return bars[station] === NO_BAR || least > limits.price ? undefined : { least, price: prices[station], amount };
}

const range = (one, more, from, to) => (from === to ? `${one} ${num(from)}` : `${more} ${num(from)} to ${num(to)}`);

// Where the totals are equal the ticket decides, and between two places the guest's own words may move the seat first.
function truthfulCaption({ curve, bay, station }) {
    if (!bay) return '';
    const { least, price, amount } = bay, unit = price / amount, own = curve.find(({ seat }) => seat === station + 1);
    const before = own && curve.filter(({ from }) => from < own.from).pop();
    const isTie = price > state.seen.cut * amount && Number.isInteger(unit), isMoved = before?.seat && own.from > least;
    const tie = `At ${num(unit)} itself the totals are equal and the ticket decides: `
        + `${least === unit ? 'kept' : 'lost'}. `;
    const moved = () => `${range('At', 'From', least, own.from - 1)} it still holds the bay, but its own words make `
        + `station ${before.seat} the better one.`;
    return (isTie ? tie : '') + (isMoved ? moved() : '');
}

function quietCaption({ curve, truth, station }) {
    const top = Math.max(...curve.map(({ gain }) => gain)), k = curve.findIndex(({ gain }) => gain === top);
    if (top <= truth.gain) return '';
    const { from } = curve[k], next = curve[k + 1];
    const bids = next ? range('of', 'of', from, next.from - 1) : `of ${num(from)} or more`;
    return `With a bid ${bids} at station ${station + 1} the lie earns ${num(top - truth.gain)} more.`;
}

function lead(plot, quiet) {
    if (!quiet) return 'The curve never rises above the truth: no lie pays.';
    return plot.curve.some(({ gain }) => gain > plot.truth.gain)
        ? 'Here the curve rises above the truth: a lie can pay.'
        : 'Here the curve may rise above the truth; with this bid it does not.';
}

function scores({ truth, lie }) {
    const more = lie.gain - truth.gain;
    const seat = (one) => (one.seat
        ? `<span>station ${one.seat},</span> <span>pays ${num(one.charge)}</span>` : 'no seat');
    const score = (name, value, small, up = '') =>
        `<div${up}><dt>${name}</dt><dd>${value}<small>${small}</small></dd></div>`;
    const over = more > 0 ? 'over the truth' : more < 0 ? 'under the truth' : 'the same';
    const all = [score('gain, truth', num(truth.gain), seat(truth)), score('gain, lie', num(lie.gain), seat(lie)),
        score('the lie earns', signed(more), over, more > 0 ? ' class="up"' : '')];
    return `<dl class="score">${all.join('')}</dl>`;
}

function others({ seated, unseated }) {
    if (seated.length + unseated.length === 0) return 'Nobody else is seated or unseated by the lie.';
    return (seated.length ? `Becomes seated: <b>guest ${listed(seated)}</b>. ` : '')
        + (unseated.length ? `Loses its seat: <b>guest ${listed(unseated)}</b>.` : '');
}

function panel(quiet, plot, trial) {
    return `<h2>${quiet ? 'Quiet round' : 'Truthful round'}</h2><p class="lead">${lead(plot, quiet)}</p>`
        + `${scores(trial)}${plotSvg(plot)}`
        + `<p class="cap">${(quiet ? quietCaption : truthfulCaption)(plot)}</p><p class="others">${others(trial)}</p>`;
}

function drawPanels(worths) {
    const { market, seen, lie, guest, rule } = state, { row, station } = lie, bay = bayAt(station);
    const far = bay && bay.least < 20 * Math.max(seen.cut, worths[station]) ? bay.least * 1.3 : 0;
    const most = Math.min(limits.price, roundUp(Math.max(worths[station] * 1.35, seen.cut * 1.35, far, row[station])));
    const about = { guest, worths, row, station, rule }, trials = [truthfulTrial(worths), quietTrial(worths)];
    const curves = [truthfulCurve(market, about, most), quietCurve(market, about, most)];
    const gains = [0, ...curves.flat().map(({ gain }) => gain), ...trials.map(({ truth }) => truth.gain)];
    const low = Math.min(...gains), high = Math.max(...gains, low + 4);
    const width = Math.round(Math.max(300, Math.min(640, $('lie0').clientWidth || 440)));
    const isLie = row.some((bid, j) => bid !== worths[j]);
    for (const k of [0, 1]) {
        const plot = { ...trials[k], width, most, low, high, station, worth: worths[station], told: row[station], isLie,
            curve: curves[k], bay: k === 0 ? bay : undefined };
        $(`lie${k}`).innerHTML = panel(k === 1, plot, trials[k]);
    }
}

/** The panels, and with `whole` the sliders too: a slider that is redrawn loses the pointer. */
export function drawLie(whole) {
    if (state.market.guests === 0) {
        $('sliders').innerHTML = '<p class="muted">This market has no guests.</p>';
        for (const k of [0, 1]) $(`lie${k}`).innerHTML = '';
        return;
    }
    const worths = prepare();
    if (whole) drawSliders(worths);
    drawPanels(worths);
}

/** Tells another bid at a station. */
export function tellBid(station, bid, source) {
    state.lie.row[station] = bid;
    state.lie.station = station;
    moveSlider(station, bid, source);
    drawLie(false);
}
