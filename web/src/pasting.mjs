// Cells that are pasted from a spreadsheet: a block from a cell on, or a whole market.
import { fieldOf, nameOf } from './cells.mjs';
import { change } from './editing.mjs';
import { state, tell } from './state.mjs';

// The cells of a text that a spreadsheet copies: tabs and lines.
function blockOf(text) {
    const lines = text.replace(/(\r\n|\n|\r)$/, '').split(/\r\n|\n|\r/);
    return lines.map((line) => line.split('\t').map((cell) => cell.trim()));
}

const trimmed = (line) => line.slice(0, line.reduce((end, cell, k) => (cell === '' ? end : k + 1), 0));

// A block that is laid out as a comma-separated market: asks, bays, then lines that are two fields longer.
function asMarket(block) {
    if (block.length < 2) return undefined;
    const [asks, bays, ...rest] = [trimmed(block[0]), trimmed(block[1]), ...block.slice(2)], m = asks.length;
    const fits = m > 0 && bays.length === m && rest.every((line) => trimmed(line).length <= m + 2)
        && (rest.length === 0 || rest[0].length >= m + 2);
    return fits ? [asks, bays, ...rest.map((line) => Array.from({ length: m + 2 }, (_, k) => line[k] ?? ''))]
        : undefined;
}

// Lines with the block's cells from a cell on. Lines beyond the last guest are new guests where the block has tickets.
function withBlock(lines, cell, block) {
    const changed = lines.map((line) => line.slice()), width = lines[0].length + 2;
    for (const [down, cells] of block.entries()) {
        const r = cell[0] + down;
        if (r >= changed.length && cell[1] === 0) changed.push(Array(width).fill(''));
        for (const [right, text] of cells.entries()) {
            const field = fieldOf([r, cell[1] + right]), line = changed[r];
            if (line && field >= 0 && field < line.length) line[field] = text;
            else if (text !== '') return undefined;
        }
    }
    return changed;
}

// On the first ask a whole market may be pasted. Two lines are one only where they do not fit: they may be asks and
// bays for the guests that are there.
function linesWith(block, cell) {
    const market = cell[0] === 0 && cell[1] === 2 ? asMarket(block) : undefined;
    const changed = withBlock(state.lines, cell, block);
    return block.length > 2 ? market ?? changed : changed ?? market;
}

/** Puts the cells of a text into the table from a cell on. */
export function paste(text, cell) {
    const block = blockOf(text), lines = linesWith(block, cell);
    if (lines) change(lines, `Pasted ${block.length} by ${Math.max(...block.map((line) => line.length))} cells`);
    else {
        const size = `${block.length} by ${block[0].length} cells`, from = nameOf(cell).toLowerCase();
        state.refused = { words: `the block of ${size} does not fit into the table from ${from} on` };
        tell('refused');
    }
}
