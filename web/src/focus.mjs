// The station in focus, in full rows below a picture that has none.
import { count, listed, num } from './format.mjs';
import { pictureWidth } from './room.mjs';
import { fit, freeRow, moreButton, rowHead, rows } from './rows.mjs';
import { $, state } from './state.mjs';
import { soldWords } from './words.mjs';

const MOST_HELD = 24, MOST_OUT = 5, MOST_BELOW = 14; // shown before all are asked for

function belowWords({ below }, cut) {
    if (below.length === 0) return 'Nobody bids below the cut.';
    const who = below.length > MOST_BELOW ? count(below.length, 'guest')
        : `guest ${listed(below.map(({ guest, bid }) => `${guest + 1} (${num(bid)})`))}`;
    return `Below the cut of ${num(cut)}: ${who}`;
}

function moreWords({ out, held, j }, all) {
    const missing = state.quiet ? 'not seated here' : 'without a place', hidden = out.length - MOST_OUT;
    if (out.length === 0) return `<p class="none">Nobody is ${missing}.</p>`;
    if (all) return moreButton(j, 'Show fewer');
    if (hidden > 0) return moreButton(j, `Show ${hidden} more ${missing}`);
    return held.length > MOST_HELD ? moreButton(j, 'Show all') : '';
}

function head({ j, ask, bays, queue, sold, paid }) {
    const option = (one) => `<option value="${one.j}"${one.j === j ? ' selected' : ''}>${one.j + 1}</option>`;
    return `<div class="head"><h3><label>Station <select id="focusstation">${state.seen.open.map(option).join('')}`
        + `</select></label></h3><p>ask ${num(ask)}, ${count(bays, 'bay')}, ${count(queue.length, 'candidate')}; `
        + `${soldWords({ sold, paid })}</p></div>`;
}

export function drawFocus() {
    const { seen } = state, focus = $('focus'), station = seen.stations[state.focus];
    focus.hidden = !state.hasFocus || !station;
    if (focus.hidden) return;
    const { scale, tail } = fit(seen, pictureWidth()), all = state.all.has(station.j);
    const held = all ? station.held : station.held.slice(0, MOST_HELD);
    const out = all ? station.out : station.out.slice(0, MOST_OUT);
    focus.style.setProperty('--tail', `${tail}px`);
    focus.innerHTML = `${head(station)}${rowHead(station, scale)}<ul>${rows(seen, station, held, scale)}`
        + `${freeRow(station)}</ul><div class="line"></div><ul>${rows(seen, station, out, scale)}</ul>`
        + `${moreWords(station, all)}<div class="cutl">${belowWords(station, seen.cut)}</div>`;
}
