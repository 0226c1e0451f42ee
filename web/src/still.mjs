// A still picture of the clearing as SVG: the page's grammar without the page. It may be long.
import { band, layout } from './bands.mjs';
import { count, num, safe } from './format.mjs';
import { EDGE, FLOOR, INK, KEEP, LEFT, LINE, LOST, PAPER, PICK, RIGHT, RULE, SEAT, SOFT, WHITE, WIDTH, cutMark, disc,
    flow, line, rect, wide, words } from './ink.mjs';
import { askScale, numbered, stacked } from './rail.mjs';
import { decided, hasTies, keyWords, outcome, shutLead, shutWords } from './words.mjs';

const FONT = "'DejaVu Sans', Verdana, 'Segoe UI', sans-serif";

function facts(seen, title, y) {
    const { market, cut, open, seated, charged, paid, margin, quiet, rule } = seen;
    const all = [['', `${quiet ? 'quiet' : 'truthful'} round, rule ${rule}`], ['cut', num(cut)],
        ['open', `${open.length} of ${count(market.stations, 'station')}`],
        ['seated', `${seated} of ${count(market.guests, 'guest')}`], ['charged', num(charged)], ['paid out', num(paid)],
        ['margin', num(margin)]];
    const parts = all.map(([name, value]) => {
        const before = name ? wide(name, 12) + 6 : 0;
        return { need: before + wide(value, 12) * 1.12 + 24,
            draw: (x, at) => words(x, at, name, { fill: SOFT }) + words(x + before, at, value, { bold: true }) };
    });
    const flown = flow(parts, y + 30, 20);
    return { out: words(LEFT, y, title, { size: 20, bold: true }) + flown.out, y: flown.y + 18 };
}

const MOST_TALL = 8; // discs above each other

function cutWords(cut, at, y) {
    const text = `cut ${num(cut)}`, right = RIGHT - at > 90, soft = { fill: SOFT };
    const open = right && at - LEFT > 150
        ? words(at - 8, y, 'open: ask below the cut', { ...soft, anchor: 'end' }) : '';
    return open + words(at + (right ? 8 : -8), y, text, { bold: true, anchor: right ? 'start' : 'end' })
        + (RIGHT - at > 190 ? words(at + 26 + wide(text, 12) * 1.1, y, 'not open', soft) : '');
}

function rail({ stations, cut }, y) {
    const r = stations.length > 14 ? 9 : 11, small = { size: 11, fill: SOFT, anchor: 'middle' };
    const pad = Math.max(r + 2, wide(num(Math.max(...stations.map(({ ask }) => ask))), 11) / 2);
    const x = askScale(stations, LEFT + pad, RIGHT - pad), all = stacked(stations, x, r), at = x(cut);
    const shown = all.filter(({ level }) => level < MOST_TALL), hidden = all.length - shown.length;
    const base = y + 20 + (Math.max(...shown.map(({ level }) => level)) + 1) * (2 * r + 2);
    const discs = shown.map(({ station: { j, open }, at: middle, level }) =>
        disc(middle, base - r - 2 - level * (2 * r + 2), r - 0.75, String(j + 1), open));
    const out = line(LEFT, base, RIGHT, base, LINE) + line(at, y + 2, at, base + 3, INK, 2, '5 4')
        + cutWords(cut, at, y + 10) + discs.join('')
        + numbered(stations, x).map((ask) => words(x(ask), base + 16, num(ask), small)).join('')
        + (hidden ? words(RIGHT, base + 32, `and ${count(hidden, 'station')} more, with an ask that is shown`,
            { ...small, anchor: 'end' }) : '');
    return { out, y: base + 40 };
}

function legend(seen, name, y) {
    const box = (x, at, fill, more, width = 30) => rect(x, at - 9, width, 11, fill, more);
    const keys = {
        seated: (x, at) => box(x, at, KEEP, { stroke: SEAT }) + box(x, at, SEAT, {}, 18),
        else: (x, at) => box(x, at, 'url(#h)', { stroke: SEAT }),
        first: (x, at) => box(x, at, PAPER, { stroke: FLOOR, width: 1.6 }),
        outbid: (x, at) => box(x, at, LOST, { stroke: EDGE, width: 0.8 }),
        floor: (x, at) => line(x + 15, at - 11, x + 15, at + 4, FLOOR, 1.6),
        ...(name !== 'marks' && hasTies(seen) && { tie: (x, at) => words(x + 12, at, '=', { bold: true }) }),
        ...(name === 'full' && { cut: (x, at) => box(x, at, SEAT) + cutMark(x + 14, at - 9, 11) }),
    };
    const said = keyWords(seen), parts = Object.entries(keys).map(([key, draw]) => ({ need: 62 + wide(said[key], 11.5),
        draw: (x, at) => draw(x, at) + words(x + 38, at, said[key], { size: 11.5, fill: SOFT }) }));
    const flown = flow(parts, y, 20);
    return { out: flown.out, y: flown.y + 16 };
}

const ORDER = ['seated', 'else', 'first', 'outbid', 'low'], MOST_SAID = 10;

// The chosen guest: its outcome, and what decided at the open stations it bids for.
function about(seen, guest, y) {
    const { amounts, tickets } = seen.market, title = `Guest ${guest + 1}: ${outcome(seen, guest)}`;
    const said = seen.open.map((station) => ({ station, ...decided(seen, guest, station) }))
        .filter(({ state }) => ORDER.includes(state))
        .sort((a, b) => ORDER.indexOf(a.state) - ORDER.indexOf(b.state));
    const long = wide(title, 14) * 1.1;
    const lines = said.slice(0, MOST_SAID).map(({ station, head, more }, k) =>
        words(LEFT + 20, y + 50 + 18 * k, String(station.j + 1), { bold: true, anchor: 'end' })
            + words(LEFT + 30, y + 50 + 18 * k, `${head}. ${more}`, { size: 11.5, fill: SOFT }));
    const rest = said.length - lines.length, end = y + 32 + 18 * lines.length;
    const out = line(LEFT, y, RIGHT, y, RULE) + rect(LEFT - 4, y + 9, long + 10, 21, PICK)
        + words(LEFT, y + 24, title, { size: 14, bold: true })
        + words(LEFT + long + 22, y + 24, `${num(amounts[guest])} kWh, ticket ${tickets[guest]}`, { fill: SOFT })
        + lines.join('')
        + (rest ? words(LEFT + 30, end + 18, `and ${count(rest, 'open station')} more`, { fill: SOFT }) : '');
    return { out, y: end + (rest ? 32 : 14) };
}

function closed(seen, y) {
    const parts = seen.stations.filter(({ open }) => !open).map((station) => {
        const text = shutWords(station), number = String(station.j + 1);
        return { need: Math.max(150, 52 + wide(text, 11)), draw: (x, at) => disc(x + 9, at - 4, 9, number, false)
            + words(x + 26, at, text, { size: 11, fill: SOFT }) };
    });
    const flown = flow(parts, y + 48, 25);
    return { out: line(LEFT, y, RIGHT, y, RULE) + words(LEFT, y + 22, 'Not open', { bold: true })
        + words(LEFT + 72, y + 22, shutLead(seen), { fill: SOFT }) + flown.out, y: flown.y + 8 };
}

function noOpen(y) {
    const text = 'No station is open: no ask is below the cut.';
    return { out: words(LEFT, y + 6, text, { size: 13, bold: true }), y: y + 30 };
}

/** The clearing as a picture, with a chosen guest in words below it. */
export function stillPicture(seen, guest, title) {
    const { market, open } = seen, plan = layout(seen), parts = [];
    const picture = { guest, scale: Math.max(1, ...open.map(({ queue }) => queue[0]?.total ?? 0)) };
    let y = 34;
    const add = (part) => {
        parts.push(part.out);
        y = part.y;
    };
    add(facts(seen, title, y));
    add(rail(seen, y + 6));
    for (let k = 0; k < open.length; k += plan.per) add(band(seen, open.slice(k, k + plan.per), plan, y, picture));
    add(open.length ? legend(seen, plan.name, y + 10) : noOpen(y));
    if (market.guests) add(about(seen, guest, y + 8));
    add(closed(seen, y + 8));
    const height = Math.ceil(y + 18);
    const said = `${count(market.guests, 'guest')}, ${count(market.stations, 'station')}, cut ${num(seen.cut)}, `
        + `${seen.seated} seated`;
    return `<svg xmlns="http://www.w3.org/2000/svg" width="${WIDTH}" height="${height}" `
        + `viewBox="0 0 ${WIDTH} ${height}" font-family="${FONT}" role="img"><title>${safe(title)}</title>`
        + `<desc>${said}</desc><defs><pattern id="h" width="5" height="5" patternUnits="userSpaceOnUse" `
        + `patternTransform="rotate(45)"><rect width="5" height="5" fill="${WHITE}"/>`
        + `<rect width="2.2" height="5" fill="${SEAT}"/></pattern></defs>`
        + `<rect width="100%" height="100%" fill="${PAPER}"/>${parts.join('\n')}</svg>\n`;
}
