// What the pointer does besides clicking: a glance at a guest of the queues, and the bid that is dragged in a plot.
import { tellBid } from './lie.mjs';
import { guestAt, ring } from './marks.mjs';
import { bidAt } from './plot.mjs';
import { $, state } from './state.mjs';
import { decided } from './words.mjs';

// The guest and the station under the pointer, and where they stand.
function underPointer({ target, clientX, clientY }) {
    const svg = target.closest?.('#v-queues .marks'), one = target.closest?.('#v-queues [data-g][data-st]');
    if (one) return { guest: Number(one.dataset.g), station: one.dataset.st, box: one.getBoundingClientRect() };
    const guest = svg ? guestAt(svg, { clientX, clientY }) : undefined;
    return { guest, station: svg?.dataset.st, box: { left: clientX, top: clientY, bottom: clientY + 12 } };
}

function placeTip(tip, { left, top, bottom }) {
    const { offsetWidth: width, offsetHeight: height } = tip;
    tip.style.left = `${Math.max(8, Math.min(innerWidth - width - 8, left))}px`;
    tip.style.top = `${bottom + height + 12 < innerHeight ? bottom + 6 : Math.max(4, top - height - 6)}px`;
}

// What decided about the guest under the pointer, and its marks in every queue.
function glance(event) {
    const { guest, station, box } = underPointer(event), tip = $('tip');
    tip.hidden = guest === undefined || event.pointerType === 'touch';
    ring($('pic'), tip.hidden ? undefined : guest, 'glance');
    $('hover').textContent = tip.hidden ? ''
        : `:is(.row, .chips button)[data-g="${guest}"] { box-shadow: inset 0 0 0 1.5px var(--ink) }`;
    if (tip.hidden) return;
    const at = state.seen.stations[station], { head, more } = decided(state.seen, guest, at);
    tip.innerHTML = `<b>Guest ${guest + 1} at station ${at.j + 1}</b><br>${head}${more && `<p>${more}</p>`}`;
    placeTip(tip, box);
}

let dragged; // the plot as it was when the pointer went down: with each bid it is drawn anew

export function pointerDown({ target, clientX }) {
    const svg = target.closest?.('#v-lie .plot');
    if (!svg) return;
    dragged = { frame: svg.getBoundingClientRect(), width: svg.viewBox.baseVal.width, most: Number(svg.dataset.most) };
    tellBid(state.lie.station, bidAt(dragged, clientX));
}

export function pointerMove(event) {
    if (dragged) tellBid(state.lie.station, bidAt(dragged, event.clientX));
    else if (state.view === 'queues') glance(event);
}

export function pointerUp() {
    dragged = undefined;
}
