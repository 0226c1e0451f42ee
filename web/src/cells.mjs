// The cells of the table of bids and asks. A cell is [row, column]: row 0 has the asks, 1 the bays, then a row for each
// guest; column 0 has tickets, 1 amounts, then a column for each station.
import { num, safe } from './format.mjs';
import { state } from './state.mjs';

export const guestLines = () => state.lines.length - 2;
export const stationColumns = () => state.lines[0].length;

/** The field of a cell in its line of comma-separated text, and the cell of a field. */
export const fieldOf = ([r, c]) => (r < 2 ? c - 2 : c);
export const cellOf = ([line, field]) => [line, line < 2 ? field + 2 : field];

export function isCell([r, c]) {
    const field = fieldOf([r, c]);
    return r >= 0 && r < state.lines.length && field >= 0 && field < state.lines[r].length;
}

export const textAt = (cell) => state.lines[cell[0]][fieldOf(cell)];

/** What a cell is, in words. */
export function nameOf([r, c]) {
    if (r < 2) return `${r === 0 ? 'Ask' : 'Bays'} of station ${c - 1}`;
    return c < 2 ? `${c === 0 ? 'Ticket' : 'Amount'} of guest ${r - 1}` : `Bid of guest ${r - 1} at station ${c - 1}`;
}

/** What became of a bid: ks seated, k0 to k4 as the engine's codes; nothing where the draft has another shape. */
export function kindOf([r, c]) {
    const { seen } = state, m = seen.market.stations, i = r - 2, j = c - 2;
    if (i < 0 || j < 0 || guestLines() !== seen.market.guests || stationColumns() !== m) return '';
    if (seen.seats[i] === j + 1) return 'ks';
    const code = seen.codes[i * m + j];
    return code === 0 && seen.quiet ? 'k4' : `k${code}`;
}

/** The text of a cell as it is shown: thousands parted, but not in tickets; a dot for no bid. */
export function shownText(cell) {
    const text = textAt(cell), [r, c] = cell;
    if (text === '' && r > 1 && c > 1) return '·';
    return /^\d{1,10}$/.test(text) && !(r > 1 && c === 0) ? num(Number(text)) : safe(text);
}

const longest = (texts) => texts.reduce((most, text) => Math.max(most, text.length), 0);
const parted = (digits) => digits + Math.floor(Math.max(0, digits - 1) / 3);

/** The widths of the columns, by what stands in them. */
export function columnWidths() {
    const bids = longest(state.lines.flatMap((line, r) => (r < 2 ? line : line.slice(2))));
    const tickets = longest(state.lines.slice(2).map((line) => line[0])), narrow = innerWidth <= 720;
    return { first: narrow ? 78 : 80, ticket: Math.max(64, tickets * 7.8 + 22), amount: 66,
        bid: Math.max(narrow ? 52 : 58, parted(bids) * 7.6 + 22), end: 230 };
}
