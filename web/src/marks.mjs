// The smallest size: a queue as marks, without numbers. Marks of one kind are one path, so that 200 by 40 is quickly
// drawn; which mark is meant is found by its height.
import { stateOf } from './words.mjs';

const box = (x, y, w, h) => `M${x.toFixed(1)} ${y.toFixed(1)}h${w.toFixed(1)}v${h.toFixed(1)}h${(-w).toFixed(1)}z`;

// Each mark's top, and the height of all of them; the first without a place is as tall as a place.
function stacked(candidates, height, first) {
    let at = 1;
    const tops = candidates.map((candidate) => {
        const top = at, tall = candidate.first ? first : height;
        at += tall;
        return { candidate, top, tall };
    });
    return { tops, end: at };
}

function shapes({ candidate, top, tall }, seen, x, paths) {
    const width = Math.max(2, x(candidate.total)), height = Math.max(1.5, tall - (tall > 5 ? 2 : 1));
    const state = stateOf(seen, candidate), add = (name, path) => { paths[name] = (paths[name] ?? '') + path; };
    if (state === 'outbid') add(seen.quiet ? 'away' : 'outbid', box(0, top, width, height));
    else if (state === 'first') add('first', box(0.5, top + 0.5, width - 1, Math.max(1, height - 1)));
    else if (tall < 5) add(state === 'seated' ? 'pay' : 'pale', box(0, top, width, height));
    else {
        const charged = seen.quiet && state === 'else' ? width : Math.min(width, x(candidate.charge));
        add(state === 'seated' ? 'keep' : 'blank', box(0.5, top + 0.5, Math.max(1, width - 1), height - 1));
        add(state === 'seated' ? 'pay' : 'hatch', box(0, top, charged, height));
    }
}

function floorLine(station, tops, x, end) {
    const first = tops.find(({ candidate }) => candidate.first);
    if (!station.floor || !(first || tops[0]?.candidate.held)) return '';
    const at = x(station.floor).toFixed(1);
    return `<line class="m-floor" x1="${at}" x2="${at}" y1="0" y2="${first ? first.top + first.tall - 2 : end}"/>`;
}

// `rows` say for each mark its guest, top and height, and where it is not the whole width its left and width.
function svgOf({ j }, width, height, rows, inside) {
    return `<svg class="marks" height="${height}" viewBox="0 0 ${width} ${height}" preserveAspectRatio="none" `
        + `aria-hidden="true" data-st="${j}" data-rows="${rows}">${inside}</svg>`;
}

/** Marks of some candidates of a station: `height` of each, `first` of the first without a place, `free` bays below. */
export function marks(seen, station, candidates, { width, height, first, scale, free = 0 }) {
    const { tops, end } = stacked(candidates, height, first), total = end + free * height + 1;
    if (candidates.length + free === 0) return '';
    const x = (money) => money / scale * width, paths = {};
    for (const one of tops) shapes(one, seen, x, paths);
    for (let k = 0; k < free; k++) paths.free = (paths.free ?? '')
        + box(0.5, end + 0.5 + k * height, width - 1, Math.max(2, height - 3));
    const order = ['keep', 'blank', 'hatch', 'pay', 'pale', 'outbid', 'away', 'first', 'free'];
    const drawn = order.filter((name) => paths[name]).map((name) => `<path class="m-${name}" d="${paths[name]}"/>`)
        .join('');
    const rows = tops.map(({ candidate, top, tall }) => `${candidate.guest}:${top}:${tall}`).join(' ');
    return svgOf(station, width, total, rows, drawn + floorLine(station, tops, x, total));
}

/** Who bids below the cut, as squares. */
export function belowMarks(station, width) {
    const { below } = station;
    if (width < 30) return below.length ? `<p class="count">${below.length}</p>` : '';
    const per = Math.max(1, Math.floor(width / 7)), height = Math.ceil(below.length / per) * 7 + 8;
    const path = below.map((_, k) => box(k % per * 7, 7 + Math.floor(k / per) * 7, 5, 5)).join('');
    const rows = below.map(({ guest }, k) => `${guest}:${6 + Math.floor(k / per) * 7}:7:${k % per * 7 - 1}:7`)
        .join(' ');
    return svgOf(station, width, height, rows, `<path class="m-below" d="${path}"/>`);
}

function rowsOf(svg) {
    return svg.dataset.rows.split(' ').filter(Boolean).map((row) => {
        const [guest, top, tall, left = 0, wide = svg.viewBox.baseVal.width] = row.split(':').map(Number);
        return { guest, top, tall, left, wide };
    });
}

/** The guest whose mark a pointer meets, or undefined. */
export function guestAt(svg, event) {
    const frame = svg.getBoundingClientRect(), { width, height } = svg.viewBox.baseVal;
    const x = (event.clientX - frame.left) / frame.width * width;
    const y = (event.clientY - frame.top) / frame.height * height;
    const under = ({ top, tall, left, wide }) => y >= top && y < top + tall && x >= left && x < left + wide;
    return rowsOf(svg).find(under)?.guest;
}

/** Rings the marks of a guest, in every queue. */
export function ring(root, guest, name) {
    for (const old of root.querySelectorAll(`.marks .${name}`)) old.remove();
    if (guest === undefined) return;
    for (const svg of root.querySelectorAll('.marks')) {
        const row = rowsOf(svg).find((one) => one.guest === guest);
        if (!row) continue;
        const rect = document.createElementNS('http://www.w3.org/2000/svg', 'rect');
        const place = { class: name, x: row.left, y: row.top - 0.5, width: row.wide, height: row.tall };
        for (const [key, value] of Object.entries(place)) rect.setAttribute(key, value);
        svg.prepend(rect);
    }
}
