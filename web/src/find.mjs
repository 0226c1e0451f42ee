// Search for a lie: the run, its progress, and what was found in both rounds.
import { num, signed } from './format.mjs';
import { fewest, foundHtml, lead } from './found.mjs';
import { axisOf, emptyHistogram } from './histogram.mjs';
import { prepare } from './lie.mjs';
import { Search, quietShare, run } from './search.mjs';
import { $, say, state } from './state.mjs';

const TOTALS = [10000, 100000, 1000000, 10000000], SEED = 7;
let worker;

export function stop() {
    worker?.terminate();
    worker = undefined;
    if (state.search) state.search.running = false;
}

function take(search, report) {
    if (state.search !== search) return;
    Object.assign(search, report);
    if (search.done >= search.total) {
        stop();
        const [truthful, quiet] = search.rounds;
        say(`Search done. The best row earns ${signed(truthful.best - truthful.truth)} in the truthful round, `
            + `${signed(quiet.best - quiet.truth)} in the quiet round.`);
    }
    if (state.view === 'search') drawFind();
}

// Where no worker is to be had the page searches itself, step by step.
function runHere(search, wish) {
    const wanted = () => state.search === search && search.running;
    run(new Search(state.engine, wish), (report) => take(search, report), wanted);
}

export function start() {
    stop();
    const { asks, bays, amounts, tickets, bids } = state.market, { guest, rule, rows: total } = state;
    const wish = { lists: { asks, bays, amounts, tickets, bids }, guest, rule, seed: SEED, total };
    const search = state.search = { running: true, total, done: 0, ms: 0, rounds: undefined };
    try {
        const source = new Blob([$('core').textContent], { type: 'text/javascript' });
        worker = new Worker(URL.createObjectURL(source));
        worker.onmessage = ({ data }) => take(search, data);
        worker.onerror = () => runHere(search, wish);
        worker.postMessage({ compiled: state.compiled, wish });
    } catch {
        runHere(search, wish);
    }
    drawFind();
}

function options(all, chosen, words) {
    return all.map((v) => `<option value="${v}"${v === chosen ? ' selected' : ''}>${words(v)}</option>`).join('');
}

function drawRun() {
    const { search, market, guest, rows } = state, focused = document.activeElement?.id;
    const share = quietShare(search?.total ?? rows);
    const name = search?.running ? 'Stop' : search ? 'Search again' : 'Search';
    const tried = share === 1 ? 'Each row is tried in both rounds.'
        : `Each row is tried in the truthful round, every ${num(share)}th in the quiet one too.`;
    $('run').innerHTML = '<label class="field">Guest <select id="findguest">'
        + `${options([...Array(market.guests).keys()], guest, (i) => i + 1)}</select></label>`
        + `<label class="field">False rows <select id="findrows">${options(TOTALS, rows, num)}</select></label>`
        + `<button class="btn main" id="findgo">${name}</button>`
        + `<span class="hint">Everybody else's bids stay as they are. ${tried}</span>`;
    if (focused && $('run').querySelector(`#${focused}`)) $(focused).focus();
}

function drawProgress() {
    const { search } = state, rate = search?.ms ? Math.round(search.done / search.ms * 10) * 100 : 0;
    $('progress').value = search ? search.done / search.total : 0;
    $('rate').textContent = search
        ? `${num(search.done)} of ${num(search.total)} rows, ${num(rate)} a second` : 'not started';
}

export function drawFind() {
    if (state.market.guests === 0) {
        $('run').innerHTML = '<p class="muted">This market has no guests.</p>';
        for (const k of [0, 1]) $(`find${k}`).innerHTML = '';
        return;
    }
    drawRun();
    drawProgress();
    const rounds = state.search?.rounds, axis = rounds && axisOf(rounds);
    const width = Math.round(Math.max(300, Math.min(720, $('find0').clientWidth || 560)));
    for (const k of [0, 1]) {
        const quiet = k === 1, tried = rounds?.[k].tried ? rounds[k] : undefined;
        $(`find${k}`).innerHTML = `<h2>${quiet ? 'Quiet round' : 'Truthful round'}</h2>`
            + `<p class="lead">${lead(tried, quiet)}</p>`
            + (tried ? foundHtml(tried, quiet, axis, width) : emptyHistogram(width));
    }
}

/** Takes the best lie of the quiet round over to where it can be tried. */
export function takeBest() {
    const row = fewest(state.search.rounds[1]), worths = prepare();
    const changed = state.seen.open.map(({ j }) => j).filter((j) => row[j] !== worths[j])
        .sort((a, b) => worths[b] - worths[a]);
    state.lie = { row: Uint32Array.from(row), station: changed[0] ?? state.lie.station };
}
