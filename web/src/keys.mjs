// What keys do: on tabs, on the board of guests, in the queues and in the table.
import { keyOnCell } from './editing.mjs';
import { $, VIEWS, pick, setView, state } from './state.mjs';

const STEPS = { ArrowLeft: -1, ArrowUp: -1, ArrowRight: 1, ArrowDown: 1 };

function keyOnTab(tab, key) {
    const last = VIEWS.length - 1, at = VIEWS.indexOf(tab.id.slice(2));
    const to = { Home: 0, End: last }[key] ?? (at + STEPS[key] + VIEWS.length) % VIEWS.length;
    if (Number.isNaN(to)) return false;
    setView(VIEWS[to]);
    $(`t-${VIEWS[to]}`).focus();
    return true;
}

function keyOnBoard(key) {
    const { guests } = state.market, across = guests > 60 ? 20 : 1;
    const step = { ArrowLeft: -1, ArrowRight: 1, ArrowUp: -across, ArrowDown: across, Home: -guests, End: guests }[key];
    if (step === undefined) return false;
    pick(Math.max(0, Math.min(guests - 1, state.guest + step)));
    return true;
}

const rowsOf = (root) => [...root.querySelectorAll('.row[data-g]')];

// Up and down in a queue, left and right to the next.
function keyOnRow(row, key) {
    const step = STEPS[key];
    if (!step) return false;
    const columns = (row.closest('#focus') ? [$('focus')] : [...$('pic').querySelectorAll('.station')]).map(rowsOf)
        .filter((rows) => rows.length);
    const at = columns.findIndex((rows) => rows.includes(row)), down = columns[at].indexOf(row);
    const beside = columns[at + step];
    const next = key === 'ArrowUp' || key === 'ArrowDown' ? columns[at][down + step]
        : beside?.[Math.min(down, beside.length - 1)];
    if (!next) return true;
    row.tabIndex = -1;
    next.tabIndex = 0;
    next.focus();
    return true;
}

function escape() {
    if ($('savemenu').open) {
        $('savemenu').open = false;
        $('savemenu').querySelector('summary').focus();
    }
    $('linkbox').hidden = true;
    $('tip').hidden = true;
}

// Whether the key was taken.
function taken(event) {
    const { target, key } = event;
    if (target.getAttribute('role') === 'tab') return keyOnTab(target, key);
    if (target.closest('#strip')) return keyOnBoard(key);
    if (target.matches('.row')) return keyOnRow(target, key);
    return target.closest('#grid') && target.tagName !== 'INPUT' && keyOnCell(event);
}

export function keyDown(event) {
    if (event.key === 'Escape') escape();
    if (taken(event)) event.preventDefault();
}
