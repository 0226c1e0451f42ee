// The sliders of a guest's false bids: one for each station, those that are not open in a list of their own.
import { limits } from '../../js/bay_market.mjs';
import { count, num, roundUp } from './format.mjs';
import { $, state } from './state.mjs';

function sliderRow({ j, open }, worth, most) {
    const { row, station } = state.lie, current = j === station, where = `at station ${j + 1}`;
    return `<tr class="${current ? 'cur' : ''}${open ? '' : ' off'}" data-line="${j}">`
        + `<td><button class="pickst" data-plot="${j}" aria-pressed="${current}" aria-label="Plot station ${j + 1}">`
        + `${j + 1}</button></td><td>${worth ? num(worth) : 'none'}</td>`
        + `<td class="s"><div class="rng" style="--w:${Math.min(1, worth / most)}">${worth ? '<i></i>' : ''}`
        + `<input type="range" min="0" max="${most}" value="${row[j]}" data-slide="${j}" `
        + `aria-label="False bid ${where}, truth ${num(worth)}"></div></td>`
        + `<td><input class="numin" inputmode="numeric" value="${row[j]}" data-number="${j}" `
        + `aria-label="False bid ${where}, as a number"></td></tr>`;
}

const COLUMNS = '<colgroup><col style="width:52px"><col style="width:60px"><col><col style="width:84px"></colgroup>';
const HEAD = '<thead><tr><th scope="col">station</th><th scope="col">truth</th><td></td><th scope="col">lie</th></tr>'
    + '</thead>';
const HINT = "Truth is the guest's row in the market: what a kWh is worth to it there. The green mark on a slider is "
    + 'the truth. Gain is worth times kWh, less the charge. Drag in a plot to move the bid.';

function whoHtml() {
    const { market, guest } = state;
    const option = (_, i) => `<option value="${i}"${i === guest ? ' selected' : ''}>${i + 1}</option>`;
    return '<div class="who"><label class="field">Guest <select id="lieguest">'
        + `${Array.from({ length: market.guests }, option).join('')}</select></label>`
        + `<span class="muted">wants ${num(market.amounts[guest])} kWh</span>`
        + '<button class="btn" id="honest">Tell the truth</button></div>';
}

// Bids at stations that are not open change nothing, so that many of them are folded away.
function shutHtml(shut, table) {
    if (shut.length === 0) return '';
    const isOpen = state.market.stations <= 5 || shut.some(({ j }) => j === state.lie.station);
    return `<details class="shutlist"${isOpen ? ' open' : ''}><summary>${count(shut.length, 'station')} not open: `
        + `bids there change nothing</summary>${table(shut, '')}</details>`;
}

export function drawSliders(worths) {
    const { seen, lie } = state, shut = seen.stations.filter(({ open }) => !open);
    const most = Math.min(limits.price, roundUp(Math.max(seen.cut * 1.5, ...worths.map((v) => v * 1.5), ...lie.row)));
    const table = (stations, head) => `<table class="sl">${COLUMNS}${head}<tbody>`
        + `${stations.map((one) => sliderRow(one, worths[one.j], most)).join('')}</tbody></table>`;
    $('sliders').innerHTML = `${whoHtml()}${table(seen.open, HEAD)}${shutHtml(shut, table)}<p class="hint">${HINT}</p>`;
}

/** Another bid at a station, of which the slider and the number follow where they are not the source. */
export function moveSlider(station, bid, source) {
    for (const input of $('sliders').querySelectorAll(`[data-slide="${station}"],[data-number="${station}"]`)) {
        if (input !== source) input.value = bid;
    }
    for (const line of $('sliders').querySelectorAll('tr[data-line]')) {
        const current = Number(line.dataset.line) === station;
        line.classList.toggle('cur', current);
        line.querySelector('.pickst').setAttribute('aria-pressed', current);
    }
}
