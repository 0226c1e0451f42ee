// The columns of the still picture, in bands of some stations each, with one line of the bays and one of the cut.
import { count, num, nth } from './format.mjs';
import { EDGE, FLOOR, INK, KEEP, LEFT, LINE, LOST, LOW, PAPER, PICK, RIGHT, SEAT, SOFT, WHITE, cutMark, line, rect,
    wide, words } from './ink.mjs';
import { bandWords, freeWords, label, soldWords, stateOf } from './words.mjs';

const SIDE = 86; // for the words at the left
// full rows: number, bar, charge; lean rows: number and bar; marks. Before columns shrink they go into more bands.
const SIZES = {
    full: { least: 186, bands: 2, gap: 22, row: 22, lost: 22, head: 52, shown: 14, number: 26, inset: 4, first: 22 },
    lean: { least: 92, bands: 2, gap: 14, row: 17, lost: 15, head: 48, shown: 18, number: 24, inset: 3, first: 15 },
    marks: { least: 26, bands: 3, gap: 5, row: 8, lost: 3.5, head: 34, shown: 90, number: 0, inset: 0.8, first: 9 },
};
const most = (stations, of) => Math.max(0, ...stations.map(of));

/** The size of the columns, how many stand in a band, and the width of each with its gap. */
export function layout(seen) {
    const room = RIGHT - LEFT - SIDE, open = Math.max(1, seen.open.length);
    for (const [name, { least, bands }] of Object.entries(SIZES)) {
        for (let band = 1; band <= bands; band++) {
            const per = Math.ceil(open / band);
            if (room / per >= least) return { name, per, width: Math.min(room / per, name === 'full' ? 420 : 200) };
        }
    }
    return { name: 'marks', per: Math.floor(room / SIZES.marks.least), width: SIZES.marks.least };
}

const rowsAbove = ({ held, bays }) => held.length + (bays > held.length ? 1 : 0);

// Where a band's lines are, and what its columns share.
function measured(stations, { name, width }, y, picture) {
    const size = SIZES[name], { gap, row, lost, head, number, shown, first } = size, column = width - gap;
    const bays = y + head + 22 + Math.max(1, most(stations, rowsAbove)) * row, under = bays + 7;
    const longest = Math.min(shown, most(stations, ({ out }) => out.length));
    const more = stations.some(({ out }) => out.length > shown) ? 14 : 0;
    const cut = under + (longest ? first + (longest - 1) * lost : lost) + 10 + more;
    const charges = stations.flatMap(({ held }) => held.map(({ charge }) => wide(num(charge), 12) * 1.1));
    const tail = name === 'full' ? Math.max(30, ...charges) + 16 : 0;
    const track = column - number - tail - (number ? 12 : 0);
    return { ...size, ...picture, name, column, bays, under, cut, track, money: (v) => v / picture.scale * track };
}

function shape(seen, candidate, { x, y, tall }, { name, inset, money }) {
    const thin = tall <= 5, top = y + (thin ? 0.4 : inset), height = Math.max(1.2, tall - 2 * (top - y));
    const length = Math.max(2, money(candidate.total)), pay = Math.min(length, money(candidate.charge));
    const bar = (to, fill, more) => rect(x, top, to, height, fill, more), title = label(seen, candidate);
    const dotted = name === 'full' && candidate.charge > candidate.least;
    const shapes = {
        seated: () => bar(length, KEEP, { stroke: SEAT, width: thin ? 0.6 : 1, title }) + bar(pay, SEAT)
            + (dotted ? cutMark(x + money(candidate.least), top, height) : ''),
        else: () => (thin ? bar(length, KEEP, { title }) : bar(length, WHITE, { stroke: SEAT, title })
            + bar(candidate.held ? pay : length, 'url(#h)', { stroke: SEAT })),
        first: () => bar(length, PAPER, { stroke: FLOOR, width: thin ? 1 : 1.6, title }),
        outbid: () => bar(length, LOST, { stroke: thin ? '' : EDGE, width: 0.8, title }),
    };
    return shapes[stateOf(seen, candidate)]();
}

function tailWords(candidate, x, base) {
    if (candidate.here) return words(x, base, num(candidate.charge), { bold: true, anchor: 'end' });
    return candidate.seat ? words(x, base, `at ${candidate.seat}`, { size: 11, fill: SOFT, anchor: 'end' }) : '';
}

// A candidate's row: its bar, and beside it what there is room for.
function rowOf(seen, station, candidate, x, y, tall, plan) {
    const { name, number, column, money, guest } = plan, base = y + tall / 2 + 4.2;
    const chosen = candidate.guest === guest ? rect(x - 3, y, column + 6, Math.max(tall, 3), PICK) : '';
    const bar = chosen + shape(seen, candidate, { x: x + number, y, tall }, plan);
    if (!number) return bar;
    const style = { size: name === 'full' ? 11.5 : 10.5, bold: candidate.here || candidate.first, anchor: 'end' };
    const tied = station.queue[candidate.rank]?.total === candidate.total;
    return bar + words(x + number - 6, base, String(candidate.guest + 1), style)
        + (name === 'full' ? tailWords(candidate, x + column, base) : '')
        + (tied ? words(x + number + money(candidate.total) + 4, base + 7, '=', { bold: true }) : '');
}

function head(station, x, y, { name, column }) {
    const { j, ask, bays, sold } = station, small = { size: 11, fill: SOFT };
    if (name === 'marks') {
        const middle = x + column / 2, size = column > 29 ? 10 : 8.5;
        return words(middle, y + 12, String(j + 1), { bold: true, anchor: 'middle' })
            + words(middle, y + 26, num(ask), { size, fill: SOFT, anchor: 'middle' });
    }
    const isFull = name === 'full', brief = sold ? `${num(sold)} kWh sold` : soldWords(station);
    return words(x, y + 12, isFull ? `Station ${j + 1}` : String(j + 1), { size: 14, bold: true })
        + words(x, y + 28, isFull ? `ask ${num(ask)}, ${count(bays, 'bay')}` : `ask ${num(ask)}`, small)
        + words(x, y + 43, isFull ? soldWords(station) : brief, small);
}

// Over the first place: the floor, and what the numbers at the right are.
function placeHead(station, x, y, { name, number, column, money }) {
    if (name !== 'full') return '';
    const text = `floor ${num(station.floor)}`, half = wide(text, 11) / 1.9;
    const at = Math.min(Math.max(x + number + money(station.floor), x + half), x + column - half - 34);
    const pays = station.held.some(({ here }) => here);
    return (station.floor ? words(at, y, text, { size: 11, fill: FLOOR, bold: true, anchor: 'middle' }) : '')
        + (pays ? words(x + column, y, 'pays', { size: 11, fill: SOFT, anchor: 'end' }) : '');
}

function freeBays({ bays, held }, x, y, { name, number, row, track }) {
    const free = bays - held.length;
    if (free <= 0) return '';
    if (name === 'marks') return rect(x, y + 1, track, row - 3, 'none', { stroke: LINE, width: 0.8, dash: '2 2' });
    return rect(x + number, y + 3, track, row - 6, 'none', { stroke: LINE, dash: '3 2' })
        + words(x + number + 6, y + row - 7, freeWords(free, name === 'lean'),
            { size: name === 'full' ? 10 : 9, fill: SOFT });
}

// How many more are without a place than are shown, or where the chosen guest is among them.
function hiddenWords(hidden, x, y, guest) {
    const chosen = hidden.find((one) => one.guest === guest);
    if (chosen) return words(x, y, `${chosen.guest + 1} is ${nth(chosen.rank)}`, { size: 10, bold: true });
    return hidden.length ? words(x, y, `and ${hidden.length} more`, { size: 10, fill: SOFT }) : '';
}

function chip({ guest, bid }, x, y, room, chosen) {
    return (guest === chosen ? rect(x - 3, y - 12, room - 6, 16, PICK) : '')
        + words(x, y, String(guest + 1), { size: 11.5, bold: true })
        + words(x + wide(String(guest + 1), 12) + 8, y, `bids ${num(bid)}`, { size: 11, fill: SOFT });
}

// Who bids below the cut.
const belowCut = {
    full({ below }, x, y, { column, guest }) {
        const shown = below.slice(0, 8), rest = below.length - shown.length, half = column / 2;
        const chips = shown.map((one, k) =>
            chip(one, x + 4 + k % 2 * half, y + 17 + Math.floor(k / 2) * 18, half, guest));
        return chips.join('') + (rest ? words(x + 4, y + 89, `and ${rest} more`, { size: 11, fill: SOFT }) : '');
    },
    lean({ below }, x, y, { column }) {
        const shown = below.slice(0, Math.max(1, Math.floor((column - 34) / 24))), rest = below.length - shown.length;
        const text = shown.map(({ guest }) => guest + 1).join(' ') + (rest ? ` +${rest}` : '');
        return text && words(x + 2, y + 17, text, { size: 10.5, fill: SOFT });
    },
    marks({ below }, x, y, { column, guest: chosen }) {
        const per = Math.max(1, Math.floor(column / 7));
        return below.map(({ guest }, k) => rect(x + k % per * 7, y + 7 + Math.floor(k / per) * 7, 5, 5,
            guest === chosen ? PICK : LOW, guest === chosen ? { stroke: INK, width: 0.8 } : {})).join('');
    },
};

function belowHeight(stations, { name, column }) {
    const longest = most(stations, ({ below }) => below.length);
    if (name === 'full') return 10 + 18 * Math.min(5, Math.ceil(longest / 2));
    return name === 'lean' ? 20 : 10 + 7 * Math.ceil(longest / Math.max(1, Math.floor(column / 7)));
}

function columnOf(seen, station, x, y, plan) {
    const { name, number, row, lost, first, shown, bays, under, cut, money, guest } = plan, { held, out } = station;
    const top = bays - 4 - rowsAbove(station) * row, floorAt = x + number + money(station.floor);
    let html = head(station, x, y, plan) + placeHead(station, x, top - 6, plan)
        + freeBays(station, x, top + held.length * row, plan);
    held.forEach((one, k) => { html += rowOf(seen, station, one, x, top + k * row, row, plan); });
    let at = under, floorEnd = under;
    for (const one of out.slice(0, shown)) {
        const tall = one.first ? first : lost;
        html += rowOf(seen, station, one, x, at, tall, plan);
        at += tall;
        if (one.first) floorEnd = at - 2;
    }
    if (name === 'full' && out.length === 0) html += words(x + number, under + 13, 'nobody', { size: 11, fill: SOFT });
    if (station.floor) html += line(floorAt, top - 2, floorAt, floorEnd, FLOOR, 1.6);
    return html + hiddenWords(out.slice(shown), x + number, at + 11, guest) + belowCut[name](station, x, cut, plan);
}

/** A band of stations from `y` on: what is drawn, and where it ends. */
export function band(seen, stations, { name, width }, y, picture) {
    const plan = measured(stations, { name, width }, y, picture), { bays, cut, gap } = plan;
    const end = LEFT + SIDE + stations.length * width - gap, said = bandWords(seen), bold = { bold: true };
    const columns = stations.map((station, k) => columnOf(seen, station, LEFT + SIDE + k * width, y, plan));
    const out = columns.join('') + line(LEFT, bays, end, bays, INK, 2) + line(LEFT, cut, end, cut, INK, 1.6, '6 4')
        + words(LEFT, bays - 14, said.held, bold) + words(LEFT, bays + 19, said.out, bold)
        + words(LEFT, cut + 17, said.below, bold);
    return { out, y: cut + belowHeight(stations, plan) + 24 };
}
