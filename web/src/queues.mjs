// The picture: a column for each open station. Up and down is fate, left to right is money. Sizes by the room that is
// left after the numbers: full rows, lean rows without totals, number and bar, marks. The two smaller ones have a
// station in focus below.
import { drawFocus } from './focus.mjs';
import { count, num } from './format.mjs';
import { belowMarks, marks, ring } from './marks.mjs';
import { pictureWidth } from './room.mjs';
import { fit, freeRow, greatestTotal, moreButton, numberWidth, rowHead, rows } from './rows.mjs';
import { $, state } from './state.mjs';
import { bandWords, hasTies, keyWords, shutLead, shutWords, soldWords } from './words.mjs';

const WIDEST = 380; // of a column, where there are one or two
const most = (stations, of) => Math.max(0, ...stations.map(of));
const isPhone = () => innerWidth <= 720;

function layout(seen, width) {
    const k = seen.open.length, phone = isPhone(), side = phone ? 0 : 74, gap = phone ? 12 : 22;
    const column = k ? (width - side - gap * (k - (phone ? 1 : 0))) / k : width;
    const places = most(seen.open, ({ held }) => held.length), losers = most(seen.open, ({ out }) => out.length);
    const widest = k < 3 ? WIDEST : Infinity, wide = fit(seen, Math.min(column, widest));
    const middle = k > 0 && !wide.ok && column >= 64 && places <= 14 && losers <= 20;
    const small = k > 0 && !middle && (!wide.ok || places > 24);
    const size = small ? 'small' : middle ? 'mid' : wide.totals ? 'full' : 'lean';
    return { size, wide, column, widest, side, phone, places, losers };
}

function chips({ below, j }, isShort) {
    const chip = ({ guest, bid }) => `<button data-g="${guest}" data-st="${j}" tabindex="-1" `
        + `aria-label="Guest ${guest + 1} bids ${num(bid)}, below the cut">`
        + `${isShort ? guest + 1 : `<b>${guest + 1}</b> bids ${num(bid)}`}</button>`;
    return `<div class="chips">${below.map(chip).join('')}</div>`;
}

function headButton({ j, ask, bays }, withAsk) {
    return `<button class="headbtn" data-st="${j}" aria-pressed="${j === state.focus}" `
        + `aria-label="Show station ${j + 1}, ask ${num(ask)}, ${count(bays, 'bay')}">`
        + `<b>${j + 1}</b><span>${withAsk ? num(ask) : ''}</span></button>`;
}

function fullColumn(seen, station, { wide: { scale } }) {
    const { held, out, below, bays, ask, j } = station;
    const shown = state.all.has(j) || out.length < 14 ? out.length : 12;
    return {
        head: `<h3>Station ${j + 1}</h3><p>ask ${num(ask)}, ${count(bays, 'bay')}</p><p>${soldWords(station)}</p>`,
        held: `${rowHead(station, scale)}<ul>${rows(seen, station, held, scale)}${freeRow(station)}</ul>`,
        out: (out.length ? `<ul>${rows(seen, station, out.slice(0, shown), scale)}</ul>` : '<p class="none">nobody</p>')
            + (shown < out.length ? moreButton(j, `${out.length - shown} more`) : ''),
        below: below.length ? chips(station) : '<p class="none low">nobody</p>',
    };
}

function middleColumn(seen, station) {
    const { held, out } = station, scale = greatestTotal(seen) / 0.97;
    return { head: headButton(station, true),
        held: `<ul>${rows(seen, station, held, scale)}${freeRow(station, true)}</ul>`,
        out: `<ul>${rows(seen, station, out, scale)}</ul>`, below: chips(station, true) };
}

function smallColumn(seen, station, { column, widest, phone, places, losers }) {
    const { held, out, bays } = station;
    const width = Math.round(Math.max(10, Math.min(widest, column + (phone ? 7 : 17))));
    const tall = Math.max(2, Math.min(11, Math.floor(150 / Math.max(1, places))));
    const low = Math.max(2, Math.min(tall, Math.floor(330 / Math.max(1, losers))));
    const shared = { width, first: tall, scale: greatestTotal(seen) / 0.97 };
    return { head: headButton(station, !(phone && seen.open.length > 8)),
        held: marks(seen, station, held, { ...shared, height: tall, free: Math.min(bays - held.length, 12) }),
        out: marks(seen, station, out, { ...shared, height: low }), below: belowMarks(station, width) };
}

const COLUMNS = { full: fullColumn, lean: fullColumn, mid: middleColumn, small: smallColumn };

function sideWords(seen) {
    const { held, out, below } = bandWords(seen);
    return (state.hasFocus ? '<div class="side s1"><b>Station</b>its ask</div>' : '')
        + `<div class="side s2"><b>${held}</b>by falling total</div><div class="side s4"><b>${out}</b></div>`
        + `<div class="side s6"><b>${below}</b></div>`;
}

function columnHtml(parts, station, at) {
    const part = (name) => `<div class="${name}" style="grid-column:${at}">${parts[name]}</div>`;
    return `<section class="station" aria-label="Station ${station.j + 1}">`
        + `${['head', 'held', 'out', 'below'].map(part).join('')}</section>`;
}

function pictureHtml(seen, plan) {
    if (seen.open.length === 0) {
        return `<p class="noopen">No station is open: no ask is below the cut of ${num(seen.cut)}. `
            + 'Nobody is seated.</p>';
    }
    const columns = seen.open.map((station, k) =>
        columnHtml(COLUMNS[plan.size](seen, station, plan), station, k + (plan.phone ? 1 : 2)));
    return '<div class="bayline"></div><div class="cutline"></div>' + (plan.phone ? '' : sideWords(seen))
        + columns.join('');
}

// Where there is no room for words beside the lines, the legend has them.
function drawLegend(seen, { size, phone }) {
    const said = keyWords(seen), key = (name, words = said[name], look = name) =>
        `<span><i class="key ${look}"></i>${words}</span>`;
    const lines = phone ? key('bays', 'places above, none below') + key('dash', 'below: bids under the cut') : '';
    const isPlain = size === 'small' && seen.quiet; // marks too low for a hatching
    $('legend').innerHTML = seen.open.length === 0 ? '' : key('seated')
        + key('else', said.else, isPlain ? 'else pale' : 'else') + key('first')
        + key('outbid', said.outbid, isPlain ? 'outbid away' : 'outbid') + key('floor')
        + (size !== 'small' && hasTies(seen) ? `<span><b>=</b>${said.tie}</span>` : '')
        + (size === 'small' ? '' : key('cut')) + lines;
}

function drawClosed(seen) {
    const item = (station) => `<li><b>${station.j + 1}</b><span>${shutWords(station)}</span></li>`;
    const shut = seen.stations.filter(({ open }) => !open);
    $('closed').innerHTML = `<h3>Not open <span>${shutLead(seen)}</span></h3><ul>${shut.map(item).join('')}</ul>`;
}

export function drawPicture() {
    const { seen } = state, picture = $('pic'), plan = layout(seen, pictureWidth()), k = Math.max(1, seen.open.length);
    for (const one of [picture, $('focus')]) one.style.setProperty('--no', `${numberWidth(seen)}px`);
    picture.className = `pic ${plan.size}`;
    picture.style.setProperty('--tail', `${plan.wide.tail}px`);
    picture.style.gridTemplateColumns = `${plan.phone ? '' : `${plan.side}px `}`
        + `repeat(${k}, minmax(0, ${k < 3 ? `${WIDEST}px` : '1fr'}))`;
    state.hasFocus = plan.size === 'mid' || plan.size === 'small';
    picture.innerHTML = pictureHtml(seen, plan);
    drawLegend(seen, plan);
    drawFocus();
    drawClosed(seen);
    for (const root of [picture, $('focus')]) root.querySelector('.row[data-g]')?.setAttribute('tabindex', 0);
    ring(picture, state.guest, 'ring');
}
