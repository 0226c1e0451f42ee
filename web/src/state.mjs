// What the page is about: the market, what is chosen, and the table's draft with its past. The draft is what the cells
// say; the market is the last one that the engine accepted, and every picture is of it.
import { count, listed, num } from './format.mjs';
import { linesOf, readLines } from './reading.mjs';
import { look } from './look.mjs';

export const state = {
    engine: undefined, compiled: undefined,
    market: undefined, seen: undefined, lines: [], name: '', title: '', refused: undefined,
    rule: 1, quiet: false, guest: 0, focus: -1, view: 'queues', all: new Set(), // stations whose queue is shown whole
    lie: { row: undefined, station: -1 }, search: undefined, rows: 100000,
};
const past = [], future = [];
const MOST_PAST = 200;
const listeners = [];

/** Calls `listener` after every change, with what changed: 'market', 'guest', 'focus', 'round', 'view' or 'refused'. */
export function listen(listener) {
    listeners.push(listener);
}

export function tell(what) {
    for (const listener of listeners) listener(what);
}

export const VIEWS = ['queues', 'table', 'lie', 'search'];

export const $ = (id) => document.getElementById(id);

/** Says a sentence to a screen reader. */
export function say(text) {
    $('live').textContent = text;
}

function moved(before, after) {
    if (!before || before.length !== after.length) return '';
    const guests = (here, there) => Array.from(here.keys()).filter((i) => here[i] && !there[i]).map((i) => i + 1);
    const seated = guests(after, before), unseated = guests(before, after);
    return (seated.length ? ` Now seated: guest ${listed(seated)}.` : '')
        + (unseated.length ? ` No longer seated: guest ${listed(unseated)}.` : '');
}

function keepChoices() {
    const { market, seen } = state;
    state.guest = Math.min(state.guest, Math.max(0, market.guests - 1));
    if (!seen.stations[state.focus]?.open) {
        const seat = market.guests ? seen.seats[state.guest] : 0;
        state.focus = seat ? seat - 1 : seen.open.length ? seen.open[0].j : -1;
    }
}

function forget() {
    state.lie = { row: undefined, station: -1 };
    state.search = undefined;
}

/** Clears the market again and says what came of it. */
function clearAgain() {
    const before = state.seen?.seats;
    state.seen = look(state.market, state.rule, state.quiet);
    keepChoices();
    const { cut, seated, margin, market, seats } = state.seen;
    say(`Cut ${num(cut)}, ${seated} of ${count(market.guests, 'guest')} seated, `
        + `margin ${num(margin)}.${moved(before, seats)}`);
}

/** What stands now, to come back to. */
export const now = () => ({ lines: state.lines, market: state.market, name: state.name, title: state.title });

function remember(before) {
    past.push(before);
    if (past.length > MOST_PAST) past.shift();
    future.length = 0;
}

/** Another market, which the engine has accepted. */
export function show(market, { name = '', title = 'market', guest = 0 }) {
    if (state.market) remember(now());
    Object.assign(state, { market, lines: linesOf(market), name, title, guest, focus: -1, refused: undefined });
    state.all.clear();
    forget();
    clearAgain();
    tell('market');
}

/** What the table's cells say, over the market that stays where they are refused. */
export function draft(lines, stays = state.market) {
    const { market, refused } = readLines(state.engine, lines);
    Object.assign(state, { lines, refused, market: market ?? stays });
    forget();
    clearAgain();
}

/** Takes the draft into the past, as one step from `before`, where something changed. */
export function commit(before) {
    if (before.lines === state.lines) return;
    remember(before);
    Object.assign(state, { name: '', title: 'changed market' });
}

export const canUndo = () => past.length > 0;
export const canRedo = () => future.length > 0;

function goTo(from, to) {
    if (from.length === 0) return;
    to.push(now());
    const { lines, market, name, title } = from.pop();
    draft(lines, market);
    Object.assign(state, { name, title });
    tell('market');
}

export const undo = () => goTo(past, future);
export const redo = () => goTo(future, past);

/** The cells as the last accepted market has them. */
export function takeBack() {
    const before = now();
    draft(linesOf(state.market));
    commit(before);
    tell('market');
}

export function setRound(quiet) {
    state.quiet = quiet;
    clearAgain();
    tell('round');
}

export function setRule(rule) {
    state.rule = rule;
    forget();
    clearAgain();
    tell('round');
}

/** Chooses a guest; the focus goes along with its seat unless `stay`. */
export function pick(guest, stay = false) {
    state.guest = guest;
    forget();
    const seat = state.seen.seats[guest];
    if (!stay && seat && seat - 1 !== state.focus) {
        state.focus = seat - 1;
        tell('focus');
    }
    tell('guest');
}

export function setFocus(station) {
    state.focus = station;
    tell('focus');
}

export function setView(view) {
    state.view = view;
    tell('view');
}
