// What is drawn after which change.
import { drawFacts, drawRefused } from './facts.mjs';
import { note } from './files.mjs';
import { drawFind, stop as stopSearch } from './find.mjs';
import { drawGrid, paintGrid, refreshGrid, revealGuest } from './grid.mjs';
import { drawGuest } from './guest.mjs';
import { drawLie } from './lie.mjs';
import { ring } from './marks.mjs';
import { drawPicture } from './queues.mjs';
import { drawRail } from './rail.mjs';
import { $, VIEWS, state } from './state.mjs';

function drawQueues() {
    drawRail();
    drawPicture();
    drawGuest();
}

const whole = { queues: drawQueues, table: drawGrid, lie: () => drawLie(true), search: drawFind };

/** The chosen view anew. */
export function drawView() {
    whole[state.view]();
}

function drawTitle() {
    const select = $('sample'), own = select.options[0];
    own.textContent = state.title;
    own.hidden = state.name !== '';
    select.value = state.name;
}

function drawTabs() {
    for (const view of VIEWS) {
        const chosen = view === state.view, tab = $(`t-${view}`);
        $(`v-${view}`).hidden = !chosen;
        tab.setAttribute('aria-selected', chosen);
        tab.tabIndex = chosen ? 0 : -1;
    }
}

function drawChosenGuest() {
    drawGuest();
    ring($('pic'), state.guest, 'ring');
}

// What a change draws of a view, where that is not the whole of it.
const parts = {
    market: { table: refreshGrid },
    focus: { queues: drawPicture },
    guest: { queues: drawChosenGuest, table: paintGrid },
    view: { table: () => { drawGrid(); revealGuest(); } },
};

function drawPart(what) {
    if (what === 'refused' || (what === 'focus' && state.view !== 'queues')) return;
    (parts[what]?.[state.view] ?? drawView)();
}

/** After a change of `what`, as state.mjs tells it. */
export function drawChange(what) {
    if (!state.search) stopSearch();
    drawFacts();
    drawRefused();
    drawTitle();
    if (what === 'view') drawTabs();
    drawPart(what);
    note();
}
