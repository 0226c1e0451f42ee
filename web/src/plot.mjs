// The plot of a gain against one bid, with the truth, the lie and, in a truthful round, where the bay is lost.
import { num } from './format.mjs';

const HEIGHT = 276, LEFT = 62, RIGHT = 8, TOP = 34, BOTTOM = 46;
const FLOOR = HEIGHT - BOTTOM;

function axes({ width, most, low, high }) {
    const pad = (high - low) * 0.1, end = low < 0 ? low - pad : 0;
    return { x: (bid) => LEFT + Math.min(bid, most) / most * (width - LEFT - RIGHT),
        y: (gain) => TOP + (high + pad - gain) / (high + pad - end) * (FLOOR - TOP) };
}

const line = (name, x1, y1, x2, y2) => `<line class="${name}" x1="${x1}" y1="${y1}" x2="${x2}" y2="${y2}"/>`;
const words = (x, y, text, anchor = 'middle', name = '') => `<text x="${x}" y="${y}" `
    + `text-anchor="${anchor}"${name && ` class="${name}"`}>${text}</text>`;

function bottomAxis({ width, most, station }, { x }) {
    const parts = width > 380 || most < 1e4 ? [0, 0.25, 0.5, 0.75, 1] : [0, 0.5, 1];
    const tick = (bid) => line('axis', x(bid), FLOOR, x(bid), FLOOR + 4)
        + words(x(bid), FLOOR + 20, num(bid), bid === most ? 'end' : 'middle');
    return line('axis', LEFT, FLOOR, width - RIGHT, FLOOR) + parts.map((part) => tick(Math.round(most * part))).join('')
        + words(width - RIGHT, HEIGHT - 5, `bid told at station ${station + 1}, per kWh`, 'end');
}

// Numbers at the left for the gains that the steps have, where they do not touch.
function sideNumbers({ curve, truth }, { y }) {
    const placed = [];
    for (const gain of [truth.gain, 0, ...curve.map((step) => step.gain)]) {
        if (placed.every((other) => Math.abs(y(other) - y(gain)) > 13)) placed.push(gain);
    }
    return placed.map((gain) => words(LEFT - 10, y(gain) + 4, num(gain), 'end', gain === truth.gain ? 'strong' : ''))
        .join('');
}

const spans = (curve, most) => curve
    .map((step, k) => ({ ...step, to: k + 1 < curve.length ? curve[k + 1].from : most }));

function stepLine({ curve, most }, { x, y }) {
    const path = spans(curve, most)
        .map(({ from, to, gain }, k) => `${k ? `V${y(gain)}` : `M${x(from)} ${y(gain)}`}H${x(to)}`);
    return `<path class="curve" d="${path.join('')}"/>`;
}

function overTruth({ curve, most, truth }, { x, y }) {
    return spans(curve, most).filter(({ gain }) => gain > truth.gain).map(({ from, to, gain }) =>
        `<rect class="over" x="${x(from)}" y="${y(gain)}" width="${Math.max(1.5, x(to) - x(from))}" `
            + `height="${y(truth.gain) - y(gain)}"/>`).join('');
}

function seatWords({ curve, most, truth, lie, told }, { x, y }) {
    return spans(curve, most).map(({ from, to, gain, seat }) => {
        const text = seat ? `at station ${seat}` : 'no seat', half = text.length * 3.2, need = half + 16;
        const above = gain > truth.gain || y(gain) + 23 > FLOOR, ringAt = x(told);
        let middle = (x(from) + x(to)) / 2;
        if (above && lie.gain === gain && Math.abs(ringAt - middle) < need) {
            const fits = [ringAt + need, ringAt - need].filter((at) => at + half < x(to) + 4 && at - half > x(from));
            middle = fits[0] ?? -1;
        }
        return middle > 0 && x(to) - x(from) > 2 * half + 10 ? words(middle, y(gain) + (above ? -9 : 20), text) : '';
    }).join('');
}

function unitWords(unit) {
    if (unit === Math.round(unit)) return num(unit);
    const tenth = Math.floor(unit * 10) / 10, [whole, part] = tenth.toFixed(1).split('.');
    return `${num(Number(whole))}.${part}${tenth === unit ? '' : '…'}`;
}

// The charge is drawn at charge / kWh: below it the bay is lost.
function lostLine({ bay, width, most, worth }, { x }) {
    if (!bay || bay.least > most) return '';
    const unit = bay.price / bay.amount, at = x(unit), held = worth >= bay.least;
    const text = `${width > 380 ? 'charge ' : ''}${num(bay.price)} ÷ ${num(bay.amount)} kWh: `
        + `the bay is ${held ? 'lost below' : 'won above'} ${unitWords(unit)}`;
    const half = text.length * 3.15, middle = Math.min(width - RIGHT - half, Math.max(LEFT + half, at));
    return line('lostline', at, TOP - 8, at, FLOOR) + words(middle, TOP - 15, text, 'middle', 'fl');
}

// Which way the word beside the truth leans, away from a step that rises above it.
function lean({ curve, truth, worth, most }, { x }) {
    const at = x(worth), rising = spans(curve, most).filter(({ gain }) => gain > truth.gain);
    if (rising.some(({ from }) => x(from) > at && x(from) - at < 24)) return { dx: 6, anchor: 'end' };
    if (rising.some(({ to }) => x(to) < at && at - x(to) < 24)) return { dx: -6, anchor: 'start' };
    return { dx: 0, anchor: 'middle' };
}

function points(plot, scale) {
    const { truth, lie, worth, told, isLie } = plot, { x, y } = scale, { dx, anchor } = lean(plot, scale);
    const apart = Math.abs(x(told) - x(worth)) > 40 || lie.gain !== truth.gain;
    const ring = `<circle class="ringpoint" cx="${x(told)}" cy="${y(lie.gain)}" r="6"/>`
        + (apart ? words(Math.max(LEFT + 12, x(told)), y(lie.gain) - 11, 'lie', 'middle', 'strong') : '');
    return `<path class="truthmark" d="M${x(worth)} ${FLOOR}l-5 8h10z"/>`
        + `<circle class="truthpoint" cx="${x(worth)}" cy="${y(truth.gain)}" r="5.5"/>`
        + words(x(worth) + dx, y(truth.gain) - 10, 'truth', anchor, 'truthword') + (isLie ? ring : '');
}

function spoken({ station, most, curve, truth }) {
    const some = curve.slice(0, 8).map(({ from, gain }) => `${num(gain)} from ${num(from)}`).join(', ');
    return `Gain as the bid at station ${station + 1} goes from 0 to ${num(most)}: ${some}. `
        + `Truth gains ${num(truth.gain)}.`;
}

/** The plot as SVG. */
export function plotSvg(plot) {
    const scale = axes(plot), { width, low, most, truth } = plot;
    const level = (name, gain) => line(name, LEFT, scale.y(gain), width - RIGHT, scale.y(gain));
    return `<svg class="plot" viewBox="0 0 ${width} ${HEIGHT}" data-most="${most}" role="img" `
        + `aria-label="${spoken(plot)}">` + bottomAxis(plot, scale) + (low < 0 ? level('zero', 0) : '')
        + sideNumbers(plot, scale) + overTruth(plot, scale) + level('truth', truth.gain) + lostLine(plot, scale)
        + stepLine(plot, scale) + seatWords(plot, scale) + points(plot, scale) + '</svg>';
}

/** The bid under a pointer, in a plot that stands in this frame. */
export function bidAt({ frame, width, most }, clientX) {
    const unit = frame.width / width, room = frame.width - (LEFT + RIGHT) * unit;
    const part = (clientX - frame.left - LEFT * unit) / room;
    return Math.max(0, Math.min(most, Math.round(part * most)));
}
