// What clicks and changed fields do.
import { limits } from '../../js/bay_market.mjs';
import { drawView } from './drawing.mjs';
import { addGuest, addStation, clickCell, removeGuest, removeStation } from './editing.mjs';
import { openSample, saves } from './files.mjs';
import { start as startSearch, stop as stopSearch, takeBest } from './find.mjs';
import { chooseFiles, filesChosen } from './incoming.mjs';
import { tellBid } from './lie.mjs';
import { guestAt } from './marks.mjs';
import { $, pick, redo, setFocus, setRound, setRule, setView, state, takeBack, undo } from './state.mjs';

function showWhy() {
    $('gname').scrollIntoView({ block: 'start' });
    $('gname').focus({ preventScroll: true });
}

function tellTruth() {
    state.lie.row = undefined;
    drawView();
}

function searchOrStop() {
    if (!state.search?.running) return startSearch();
    stopSearch();
    drawView();
}

function lookAtLie() {
    takeBest();
    setView('lie');
}

// By the id of what is clicked.
const clicks = {
    open: () => chooseFiles(false), join: () => chooseFiles(true), undo, redo, back: takeBack,
    moreguest: addGuest, lessguest: removeGuest, morestation: addStation, lessstation: removeStation,
    why: showWhy, honest: tellTruth, findgo: searchOrStop, lookatlie: lookAtLie,
    linkdone: () => { $('linkbox').hidden = true; },
};

function focusStation({ dataset: { st } }) {
    setFocus(Number(st));
    $('pic').querySelector(`.headbtn[data-st="${st}"]`)?.focus();
}

function toggleAll({ dataset: { more } }) {
    const station = Number(more);
    if (!state.all.delete(station)) state.all.add(station);
    drawView();
    document.querySelector(`[data-more="${more}"]`)?.focus();
}

function save({ dataset }) {
    $('savemenu').open = false;
    saves[dataset.save]();
}

function goTo({ dataset: { go } }) {
    setView(go);
    $(`t-${go}`).focus();
}

function plotStation({ dataset: { plot } }) {
    state.lie.station = Number(plot);
    drawView();
    $('sliders').querySelector(`[data-plot="${plot}"]`).focus();
}

function clickMark(svg, event) {
    const guest = guestAt(svg, event), station = Number(svg.dataset.st);
    if (guest === undefined) return;
    if (station !== state.focus) setFocus(station);
    pick(guest, true);
}

// By what an element is, or is in.
const clickOn = [
    ['.marks', clickMark],
    ['[role="tab"]', (tab) => setView(tab.id.slice(2))],
    ['.headbtn', focusStation],
    ['[data-more]', toggleAll],
    ['[data-save]', save],
    ['[data-g]', (one) => pick(Number(one.dataset.g), !one.closest('#strip'))],
    ['[data-go]', goTo],
    ['[data-plot]', plotStation],
    ['td[data-r]', (td, { target }) => target.tagName !== 'INPUT' && clickCell(td)],
];

export function click(event) {
    const { target } = event;
    if (!target.closest('#savemenu')) $('savemenu').open = false;
    if (target.id in clicks) return clicks[target.id]();
    for (const [selector, action] of clickOn) {
        const found = target.closest(selector);
        if (found) return action(found, event);
    }
}

// A choice of a list that is drawn anew keeps the focus.
function chosen(id, action) {
    return ({ value }) => {
        action(Number(value));
        $(id).focus();
    };
}

const changes = {
    sample: ({ value }) => value && openSample(value),
    file: filesChosen,
    lieguest: chosen('lieguest', (guest) => pick(guest)),
    findguest: chosen('findguest', (guest) => pick(guest)),
    findrows: chosen('findrows', (rows) => { state.rows = rows; drawView(); }),
    focusstation: chosen('focusstation', setFocus),
};

export function change({ target }) {
    if (target.name === 'round') setRound(target.value === '1');
    else if (target.name === 'rule') setRule(Number(target.value));
    else changes[target.id]?.(target);
}

/** A slider or a number of a false bid. */
export function input({ target }) {
    const station = target.dataset.slide ?? target.dataset.number;
    if (station === undefined) return;
    const isBid = /^\d{1,7}$/.test(target.value.trim()) && Number(target.value) <= limits.price;
    target.setAttribute('aria-invalid', String(!isBid));
    if (isBid) tellBid(Number(station), Number(target.value), target);
}
