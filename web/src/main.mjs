// The page: its events go to the module that knows what they do, and its engine is started.
import { change, click, input } from './clicking.mjs';
import { drawChange, drawView } from './drawing.mjs';
import { isEditing } from './editing.mjs';
import { samples, start } from './engine.mjs';
import { followLink } from './files.mjs';
import { safe } from './format.mjs';
import { scrollGrid } from './grid.mjs';
import { dragging, pasteCells } from './incoming.mjs';
import { keyDown } from './keys.mjs';
import { pointerDown, pointerMove, pointerUp } from './pointing.mjs';
import { endPrint, fitPrint } from './print.mjs';
import { $, listen, setView, state } from './state.mjs';

const events = { click, change, input, keydown: keyDown, paste: pasteCells, pointerdown: pointerDown,
    pointermove: pointerMove, pointerup: pointerUp, pointercancel: pointerUp };

let resizing, width = innerWidth;

function resize() {
    if (innerWidth === width) return;
    width = innerWidth;
    clearTimeout(resizing);
    resizing = setTimeout(() => !isEditing() && drawView(), 100);
}

const windowEvents = { ...dragging, resize, beforeprint: () => fitPrint(drawView), afterprint: () => endPrint(drawView),
    hashchange: () => setView(followLink()) };

function drawSamples() {
    const options = samples.map(({ name, title }) => `<option value="${name}">${safe(title)}</option>`);
    $('sample').innerHTML = `<option value="" hidden></option>${options.join('')}`;
}

function sayNoEngine({ message }) {
    document.querySelector('main').hidden = true;
    $('alarm').hidden = false;
    $('alarm').innerHTML = '<b>The engine does not run here.</b> This browser does not load its WebAssembly module: '
        + safe(message);
}

async function begin() {
    $('late').remove();
    try {
        Object.assign(state, await start());
    } catch (error) {
        return sayNoEngine(error);
    }
    listen(drawChange);
    for (const [name, action] of Object.entries(events)) document.addEventListener(name, action);
    for (const [name, action] of Object.entries(windowEvents)) addEventListener(name, action);
    $('grid').addEventListener('scroll', () => state.view === 'table' && scrollGrid(), { passive: true });
    drawSamples();
    setView(followLink());
    document.documentElement.dataset.ready = String(Math.round(performance.now()));
}

begin();
