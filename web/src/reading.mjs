// Markets from files and from the table, as the engine reads them, and what it refuses with the place.
import { Refusal } from '../../js/bay_market.mjs';
import { inSheet } from './insheet.mjs';
import { inText } from './intext.mjs';
import { inMarket, inSecond, placeWords } from './where.mjs';

const MOST_READ = 1 << 20; // a longer file is refused by its beginning

/** Empty, or a byte of 0 among the first four: a sheet; everything else is comma-separated text. */
function isSheet(bytes) {
    return bytes.length === 0 || bytes.subarray(0, 4).includes(0);
}

/** A refusal to show: the engine's number and text, and the place. */
export class Refused {
    constructor({ number, text }, where, file, isText) {
        this.number = number;
        this.where = where;
        this.words = [placeWords(where, file, isText), text, where.detail].filter(Boolean).join(': ');
        this.cell = where.line ? [where.line - 1, where.field - 1] : undefined;
    }
}

// What `call` gives, or what the engine refused, with the place that `where` finds.
function tried(call, where, file, isText) {
    try {
        return { market: call() };
    } catch (error) {
        if (!(error instanceof Refusal)) throw error;
        return { refused: new Refused(error, where(error.number), file, isText) };
    }
}

// A market that was read is accepted where it is cleared.
function accepted(market, file, isText) {
    return tried(() => (market.clear(), market), (number) => inMarket(market, number), file, isText);
}

/** The market of a file's bytes, or what is refused of it. */
export function readBytes(engine, bytes, file) {
    const isText = !isSheet(bytes);
    const read = isText ? tried(() => engine.fromCsv(bytes), (number) => inText(bytes, number), file, true)
        : tried(() => engine.fromSheet(bytes), (number) => inSheet(bytes, number), file, false);
    return read.refused ? read : { ...accepted(read.market, file, isText), isText };
}

export async function readFile(engine, file) {
    let bytes;
    try {
        bytes = await file.slice(0, MOST_READ).arrayBuffer();
    } catch ({ message }) { // a folder, or a file that is gone
        return { refused: { words: `${file.name}: it cannot be read: ${message}` } };
    }
    return readBytes(engine, new Uint8Array(bytes), file.name);
}

/** The two markets as one, or what is refused of the second. */
export function joined(first, second, file, isText) {
    return tried(() => first.join(second), (number) => inSecond(first, second, number), file, isText);
}

/** The lines of a market's comma-separated text, as texts of cells: asks, bays, then each guest's line. */
export function linesOf(market) {
    const guest = (_, i) => [market.tickets[i], market.amounts[i], ...market.row(i + 1)]
        .map((v, k) => (v || k < 2 ? String(v) : ''));
    return [Array.from(market.asks, String), Array.from(market.bays, String),
        ...Array.from({ length: market.guests }, guest)];
}

// What parts fields and lines may not stand in a cell: a byte that the reader refuses there takes its place.
const cellText = (cell) => (/[,\r\n]/.test(cell) ? cell.replace(/[,\r\n]/g, ';') : cell);

/** The market that the table's cells state, or what is refused of it. */
export function readLines(engine, lines) {
    const text = lines.map((line) => `${line.map(cellText).join(',')}\r\n`).join('');
    const bytes = Uint8Array.from(text, (c) => Math.min(c.charCodeAt(0), 255));
    const read = tried(() => engine.fromCsv(bytes), (number) => inText(bytes, number), '', true);
    return read.refused ? read : accepted(read.market, '', true);
}
