// The rail of asks: the cut as what it is, a place among them. A filled disc is an open station.
import { listed, num } from './format.mjs';
import { pictureWidth } from './room.mjs';
import { $, state } from './state.mjs';

/** Where each station's disc stands: those that would touch stand above each other. */
export function stacked(stations, x, radius) {
    const placed = [];
    for (const station of stations.slice().sort((a, b) => a.ask - b.ask || a.j - b.j)) {
        const at = x(station.ask);
        let level = 0;
        while (placed.some((other) => other.level === level && Math.abs(other.at - at) < 2 * radius + 1.5)) level++;
        placed.push({ station, at, level });
    }
    return placed;
}

/** The asks that have room for a number below the rail; the highest always has it. */
export function numbered(stations, x) {
    const asks = [...new Set(stations.map(({ ask }) => ask))].sort((a, b) => a - b), end = x(asks[asks.length - 1]);
    let last = -Infinity;
    return asks.filter((ask) => {
        const at = x(ask), fits = at - last >= 44 && (at === end || end - at >= 44);
        if (fits) last = at;
        return fits;
    });
}

/** The place of an ask between two ends. */
export function askScale(stations, left, right) {
    const asks = stations.map(({ ask }) => ask), low = Math.min(...asks), high = Math.max(...asks);
    return (ask) => left + (high === low ? 0.5 : (ask - low) / (high - low)) * (right - left);
}

function disc({ station: { open, j, ask }, at, level }, base, radius) {
    const y = base - radius - 2 - level * (2 * radius + 2), name = open ? 'open' : 'shut';
    return `<g><title>Station ${j + 1}: ask ${num(ask)}, ${open ? 'open' : 'not open'}</title>`
        + `<circle class="${name}" cx="${at.toFixed(1)}" cy="${y}" r="${radius - 0.75}"/>`
        + `<text class="${name}" x="${at.toFixed(1)}" y="${y + radius * 0.38}" font-size="${radius + 0.5}">`
        + `${j + 1}</text></g>`;
}

function cutWords(cut, x, width) {
    const words = `<tspan class="cut">cut ${num(cut)}</tspan>`;
    if (width - x <= 90) return `<text x="${x - 8}" y="12" text-anchor="end">open: ask below the ${words}</text>`;
    return `<text x="${x - 8}" y="12" text-anchor="end">${x > 150 ? 'open: ask below the cut' : 'open'}</text>`
        + `<text x="${x + 8}" y="12">${words}${width - x > 170 ? '<tspan dx="14">not open</tspan>' : ''}</text>`;
}

function askWords(ask, at, base, width) {
    const anchor = at < 12 ? 'start' : at > width - 12 ? 'end' : 'middle';
    return `<text class="ask" x="${at.toFixed(1)}" y="${base + 16}" text-anchor="${anchor}">${num(ask)}</text>`;
}

function spoken({ stations, cut, open }) {
    const asks = stations.map(({ ask }) => ask), numbers = open.map(({ j }) => j + 1);
    return `Asks from ${num(Math.min(...asks))} to ${num(Math.max(...asks))}; the cut is ${num(cut)}; `
        + `open stations: ${listed(numbers) || 'none'}`;
}

function railSvg(seen, width) {
    const { stations, cut } = seen, many = stations.length > 14, narrow = width < 500;
    const radius = many && narrow ? 7 : many || narrow ? 9 : 11;
    const digits = num(Math.max(...stations.map(({ ask }) => ask))).length;
    const pad = Math.max(radius + 2, 5 + digits * 3.2);
    const x = askScale(stations, pad, width - pad), placed = stacked(stations, x, radius), at = x(cut);
    const base = 22 + (Math.max(...placed.map(({ level }) => level)) + 1) * (2 * radius + 2), height = base + 20;
    return `<svg class="railsvg" viewBox="0 0 ${width} ${height}" height="${height}" role="img" `
        + `aria-label="${spoken(seen)}"><line class="base" x1="0" x2="${width}" y1="${base}" y2="${base}"/>`
        + `<line class="cut" x1="${at}" x2="${at}" y1="4" y2="${base + 3}"/>${cutWords(cut, at, width)}`
        + placed.map((one) => disc(one, base, radius)).join('')
        + numbered(stations, x).map((ask) => askWords(ask, x(ask), base, width)).join('') + '</svg>';
}

export function drawRail() {
    $('rail').innerHTML = railSvg(state.seen, Math.max(280, pictureWidth()));
}
