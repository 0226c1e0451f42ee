// How often each gain came up among the rows that a search tried. An edge of the bins lies on the truth, so that what
// stands right of its line pays more than the truth, and nothing else does.
import { num } from './format.mjs';

const HEIGHT = 230, LEFT = 8, RIGHT = 8, TOP = 34, BOTTOM = 40, BINS = 60;
const FLOOR = HEIGHT - BOTTOM;
const words = (x, y, text, anchor = 'start', name = '') =>
    `<text x="${x}" y="${y}" text-anchor="${anchor}"${name && ` class="${name}"`}>${text}</text>`;

/** One axis for both rounds: from where to where, and how wide a bin is. */
export function axisOf(rounds) {
    const gains = rounds.flatMap(({ counts, truth }) => [truth, ...counts.keys()]);
    const low = Math.min(...gains, 0), high = Math.max(...gains, 0), span = Math.max(high - low, 4);
    const from = low - span * 0.06, to = Math.max(high + span * 0.05, ...rounds.map(({ truth }) => truth + span * 0.3));
    return { from, to, size: (to - from) / BINS };
}

// Bins left of the truth and right of it, as many as the axis has room for.
function planned({ from, to, size }, truth) {
    const before = Math.ceil((truth - from) / size - 1e-9), after = Math.ceil((to - truth) / size);
    return { size, before, bins: before + after };
}

function binned({ counts, truth }, { size, before, bins }) {
    const found = Array.from({ length: bins }, () => ({ rows: 0, most: 0, gain: 0 }));
    for (const [gain, rows] of counts) {
        const k = gain > truth ? Math.min(bins - 1, before + Math.ceil((gain - truth) / size) - 1)
            : Math.max(0, before - 1 - Math.floor((truth - gain) / size));
        const bin = found[k];
        bin.rows += rows;
        if (rows > bin.most) Object.assign(bin, { most: rows, gain });
    }
    return found;
}

function bars(bins, before, { left, width, tall }) {
    return bins.map(({ rows }, k) => (rows === 0 ? '' : `<rect class="${k >= before ? 'pays' : 'less'}" `
        + `x="${(left(k) + 1).toFixed(1)}" y="${(FLOOR - tall(rows)).toFixed(1)}" width="${(width - 2).toFixed(1)}" `
        + `height="${tall(rows).toFixed(1)}"><title>${num(rows)} rows</title></rect>`)).join('');
}

// Where the rows of a bar are seated, where there is room for the words.
function seatWords(bins, { before, left, width, tall, seats }) {
    const placed = [], truthAt = left(before);
    const order = bins.map((bin, k) => ({ ...bin, k })).filter(({ rows }) => rows).sort((a, b) => b.rows - a.rows);
    for (const { rows, gain, k } of order.slice(0, 9)) {
        const seat = seats.get(gain), text = seat ? `at ${seat}` : 'no seat', at = left(k) + width / 2;
        const y = FLOOR - tall(rows) - 5, beside = k < before && at + text.length * 3.2 > truthAt - 3;
        const met = placed.some((other) => Math.abs(other.at - at) < 40 && Math.abs(other.y - y) < 14)
            || bins.some((other, e) => other.rows && e !== k && Math.abs(e - k) * width < 24
                && FLOOR - tall(other.rows) < y + 1);
        if (!met) placed.push({ at, y, text, beside });
    }
    return placed.map(({ at, y, text, beside }) =>
        words(beside ? truthAt - 6 : at, y, text, beside ? 'end' : 'middle')).join('');
}

function ticks({ from, to }, x) {
    const least = Math.max(1, (to - from) / 5), power = 10 ** Math.floor(Math.log10(least));
    const step = [1, 2, 5, 10].map((k) => k * power).find((k) => k >= least);
    let html = '';
    for (let gain = Math.ceil(from / step) * step; gain <= to; gain += step) {
        html += `<line class="axis" x1="${x(gain)}" x2="${x(gain)}" y1="${FLOOR}" y2="${FLOOR + 4}"/>`
            + words(x(gain), FLOOR + 17, num(gain), 'middle');
    }
    return html;
}

const open = (width, label) => `<svg class="plot" viewBox="0 0 ${width} ${HEIGHT}" role="img" aria-label="${label}">`
    + `<line class="axis" x1="${LEFT}" x2="${width - RIGHT}" y1="${FLOOR}" y2="${FLOOR}"/>`;

export function emptyHistogram(width) {
    return `${open(width, 'No rows tried yet')}${words(width / 2, HEIGHT / 2, 'no rows tried yet', 'middle')}</svg>`;
}

// The side that pays more than the truth, under what stands there.
function zone(truthAt, width) {
    const room = width - RIGHT - truthAt;
    return `<rect class="zone" x="${truthAt}" y="${TOP - 6}" width="${room}" height="${FLOOR - TOP + 6}"/>`
        + words(width - RIGHT, TOP - 14, room > 150 ? 'pays more than the truth' : 'pays more', 'end');
}

function truthLine(truth, at) {
    return `<line class="truth wide" x1="${at}" x2="${at}" y1="${TOP - 12}" y2="${FLOOR + 5}"/>`
        + words(at - 8, TOP - 14, `truth ${num(truth)}`, 'end', 'strong');
}

/** The histogram of a round as SVG, on the axis of both. */
export function histogram(round, axis, width) {
    const { truth, best, seats } = round, plan = planned(axis, truth), bins = binned(round, plan);
    const unit = (width - LEFT - RIGHT) / (axis.to - axis.from), x = (gain) => LEFT + (gain - axis.from) * unit;
    const most = Math.max(...bins.map(({ rows }) => rows));
    const places = { width: plan.size * unit, left: (k) => x(truth + (k - plan.before) * plan.size),
        tall: (rows) => (rows ? Math.max(2, Math.sqrt(rows / most) * (FLOOR - TOP - 22)) : 0) };
    return open(width, `How often each gain came up. Truth gains ${num(truth)}, the best row ${num(best)}.`)
        + zone(x(truth), width) + bars(bins, plan.before, places)
        + seatWords(bins, { ...places, before: plan.before, seats }) + truthLine(truth, x(truth)) + ticks(axis, x)
        + words(width - RIGHT, HEIGHT - 5, 'gain of the false row', 'end')
        + words(LEFT, HEIGHT - 5, width > 450 ? 'height: square root of the number of rows' : 'height: root of rows')
        + '</svg>';
}
