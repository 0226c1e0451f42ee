// Editing the table: a cell, guests and stations more or less. Every change is a draft that the engine reads; while a
// cell is typed, what is refused leaves the market as it was before the cell.
import { fieldOf, isCell, nameOf, textAt } from './cells.mjs';
import { drawFacts, drawRefused } from './facts.mjs';
import { elementAt, focusCell, paintGrid, touch } from './grid.mjs';
import { $, commit, draft, now, pick, redo, say, state, tell, undo } from './state.mjs';

let editing;

function withText(lines, cell, text) {
    const changed = lines.slice();
    changed[cell[0]] = changed[cell[0]].slice();
    changed[cell[0]][fieldOf(cell)] = text;
    return changed;
}

function typed() {
    const { cell, before, input } = editing;
    draft(withText(before.lines, cell, input.value.trim()), before.market);
    input.setAttribute('aria-invalid', String(Boolean(state.refused)));
    input.style.minWidth = `${input.value.length + 3}ch`;
    drawFacts();
    drawRefused();
    paintGrid();
}

function finish(keep) {
    if (!editing) return;
    const { before, input, cell } = editing;
    editing = undefined;
    if (!keep) draft(before.lines, before.market);
    else if (textAt(cell) !== before.lines[cell[0]][fieldOf(cell)]) commit(before);
    else state.lines = before.lines;
    input.remove();
    touch(cell);
    tell('market');
}

const MOVES = { Enter: [1, 0], Tab: [0, 1], ArrowUp: [-1, 0], ArrowDown: [1, 0] };

function keyInCell(event) {
    const { cell } = editing, move = MOVES[event.key];
    if (event.key !== 'Escape' && !move) return;
    event.preventDefault();
    event.stopPropagation();
    finish(event.key !== 'Escape');
    const next = move && (event.shiftKey ? move.map((d) => -d) : move);
    focusCell(next && isCell(step(cell, next)) ? step(cell, next) : cell);
}

/** Opens a cell for typing, with what stands there or with the first key. */
export function edit(cell, first) {
    const td = elementAt(cell);
    if (!td || editing) return;
    const input = document.createElement('input');
    input.inputMode = 'numeric';
    input.value = first ?? textAt(cell);
    input.setAttribute('aria-label', nameOf(cell));
    state.cell = cell;
    editing = { cell, input, before: now() };
    td.append(input);
    input.focus();
    if (first === undefined) input.select();
    else typed();
    input.addEventListener('input', typed);
    input.addEventListener('keydown', keyInCell);
    input.addEventListener('blur', () => finish(true));
}

export const isEditing = () => editing !== undefined;

const step = ([r, c], [down, right]) => [r + down, c + right];

/** Changes the lines as one step that can be undone. */
export function change(lines, words) {
    const before = now();
    draft(lines);
    commit(before);
    tell('market');
    if (!state.refused) say(`${words}. ${$('live').textContent}`);
}

export function addGuest() {
    const tickets = state.lines.slice(2).map((line) => Number(line[0]) || 0);
    const line = [String(Math.max(0, ...tickets) + 1), '', ...state.lines[0].map(() => '')];
    change([...state.lines, line], 'Guest added; its amount is wanted');
    focusCell([state.lines.length - 1, 1]);
}

export function removeGuest() {
    const guest = state.guest;
    change(state.lines.filter((_, r) => r !== guest + 2), `Guest ${guest + 1} removed`);
    pick(Math.max(0, Math.min(guest, state.market.guests - 1)), true);
}

export function addStation() {
    change(state.lines.map((line) => [...line, '']), 'Station added; its ask and bays are wanted');
    focusCell([0, state.lines[0].length + 1]);
}

export function removeStation() {
    const j = state.cell[1] - 2;
    const lines = state.lines.map((line, r) => line.filter((_, field) => field !== (r < 2 ? j : j + 2)));
    change(lines, `Station ${j + 1} removed`);
}

function chooseGuestOf([r]) {
    if (r > 1 && r - 2 !== state.guest && r - 2 < state.market.guests) pick(r - 2, true);
}

/** A click on a cell opens it. */
export function clickCell(td) {
    const cell = [Number(td.dataset.r), Number(td.dataset.c)];
    if (editing) finish(true);
    chooseGuestOf(cell);
    focusCell(cell);
    edit(cell);
}

const ARROWS = { ArrowLeft: [0, -1], ArrowRight: [0, 1], ArrowUp: [-1, 0], ArrowDown: [1, 0], PageUp: [-12, 0],
    PageDown: [12, 0] };

function target(event, [r, c]) {
    const [top, bottom] = [0, state.lines.length - 1], [left, right] = [r < 2 ? 2 : 0, state.lines[0].length + 1];
    if (event.key === 'Home') return event.ctrlKey ? [top, 2] : [r, left];
    if (event.key === 'End') return event.ctrlKey ? [bottom, right] : [r, right];
    const [down, along] = ARROWS[event.key];
    return [Math.min(bottom, Math.max(top, r + down)), Math.max(r + down < 2 ? 2 : 0, c + along)];
}

/** A key on a cell that is not being edited: whether it was taken. */
export function keyOnCell(event) {
    const cell = state.cell;
    if ((event.ctrlKey || event.metaKey) && /^[zy]$/i.test(event.key)) {
        (event.key.toLowerCase() === 'y' || event.shiftKey ? redo : undo)();
        focusCell(isCell(cell) ? cell : [0, 2]);
    } else if (event.key in ARROWS || event.key === 'Home' || event.key === 'End') {
        const next = target(event, cell);
        chooseGuestOf(next);
        focusCell(next);
    } else if (event.key === 'Enter' || event.key === 'F2') edit(cell);
    else if (/^\d$/.test(event.key) && !event.ctrlKey && !event.metaKey && !event.altKey) edit(cell, event.key);
    else if (event.key === 'Delete' || event.key === 'Backspace') edit(cell, '');
    else return false;
    return true;
}
