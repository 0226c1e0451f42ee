// The table of bids and asks, a second picture in the same grammar. Only the rows that can be seen are in the page.
import { cellOf, columnWidths, guestLines, isCell, kindOf, shownText, stationColumns, textAt } from './cells.mjs';
import { num } from './format.mjs';
import { $, canRedo, canUndo, state } from './state.mjs';
import { outcomeShort } from './words.mjs';

const SPARE = 8; // rows drawn beyond what is seen
let drawn = { first: 0, last: -1, cells: new Map(), shape: '' };

const rowHeight = () => (innerWidth <= 720 ? 36 : 30);
export const elementAt = ([r, c]) => $('grid').querySelector(`td[data-r="${r}"][data-c="${c}"]`);

function inner(cell, kind) {
    return kind === 'k0' ? `<em>${shownText(cell)}</em>` : shownText(cell);
}

function cellHtml(cell) {
    const [r, c] = cell, kind = kindOf(cell), edge = r > 1 && c === 2 ? ' edge' : '';
    drawn.cells.set(`${r},${c}`, `${kind}/${textAt(cell)}`);
    return `<td tabindex="-1" data-r="${r}" data-c="${c}" aria-colindex="${c + 2}" class="${kind}${edge}">`
        + `${inner(cell, kind)}</td>`;
}

const rowCells = (r) => state.lines[r].map((_, field) => cellHtml(cellOf([r, field]))).join('');

function guestRow(r) {
    const picked = r - 2 === state.guest ? ' class="picked"' : '';
    return `<tr data-row="${r}" aria-rowindex="${r + 3}"${picked}><th class="c0" scope="row">${r - 1}</th>`
        + `${rowCells(r)}<td class="end">${ending(r - 2)}</td></tr>`;
}

function ending(guest) {
    const { seen } = state;
    if (guestLines() !== seen.market.guests) return '';
    return seen.seats[guest] ? `<b>station ${seen.seats[guest]}, pays ${num(seen.charges[guest])}</b>`
        : outcomeShort(seen, guest);
}

function visible() {
    if (document.documentElement.classList.contains('printing')) return { first: 0, last: guestLines() - 1 };
    const wrap = $('grid'), tall = rowHeight(), count = guestLines();
    const from = Math.max(0, Math.floor(wrap.scrollTop / tall) - 4 - SPARE);
    const rows = Math.ceil((wrap.clientHeight || innerHeight * 0.72) / tall) + 2 * SPARE;
    return { first: Math.min(from, Math.max(0, count - rows)), last: Math.min(count - 1, from + rows) };
}

function spacer(rows) {
    const style = `height:${rows * rowHeight()}px`;
    return rows > 0 ? `<tr class="spacer" aria-hidden="true"><td style="${style}"></td></tr>` : '';
}

function bodyHtml({ first, last }) {
    const rows = Array.from({ length: Math.max(0, last - first + 1) }, (_, k) => guestRow(first + k + 2));
    return spacer(first) + rows.join('') + spacer(guestLines() - 1 - last);
}

const isOpen = (j) => Boolean(state.seen.stations[j]?.open);
const headWords = (j) => (isOpen(j) ? ', open' : ', not open');
const headClass = (j) => (isOpen(j) ? 'st' : 'st shut');
const light = (text) => `<th scope="col" class="light">${text}</th>`;

// The first row stays in sight; asks and bays go with the guests.
function headRows(m) {
    const heads = Array.from({ length: m }, (_, j) =>
        `<th scope="col" class="${headClass(j)}">${j + 1}<span class="sr">${headWords(j)}</span></th>`);
    const line = (r, name, note, index) => `<tr${r ? ' class="sec"' : ''} aria-rowindex="${index}">`
        + `<th class="c0" scope="row">${name}</th><td></td><td></td>${rowCells(r)}<td class="note">${note}</td></tr>`;
    return `<thead><tr aria-rowindex="1"><th class="c0" scope="col">Station</th>${light('ticket')}${light('kWh')}`
        + `${heads.join('')}<th scope="col" class="light left">outcome</th></tr></thead>`
        + `<tbody>${line(0, 'ask', 'per kWh', 2)}${line(1, 'bays', '', 3)}`
        + '<tr class="sec" aria-rowindex="4"><th class="c0" scope="col">Guest</th><td></td><td></td>'
        + `<th colspan="${m}" class="light edge left">bid per kWh</th><td class="note"></td></tr></tbody>`;
}

function tableHtml(range) {
    const m = stationColumns(), { first, ticket, amount, bid, end } = columnWidths();
    const column = (width, span = 1) => `<col span="${span}" style="width:${width}px">`;
    return `<table class="grid" role="grid" aria-label="Bids and asks" aria-rowcount="${state.lines.length + 2}" `
        + `aria-colcount="${m + 4}" style="width:${first + ticket + amount + m * bid + end}px"><colgroup>`
        + `${column(first)}${column(ticket)}${column(amount)}${column(bid, m)}<col></colgroup>${headRows(m)}`
        + `<tbody id="gridrows">${bodyHtml(range)}</tbody></table>`;
}

function drawNote() {
    const { quiet } = state;
    const swatch = (kind, text, words) => `<span><i class="swatch ${kind}">${text}</i>${words}</span>`;
    $('gridnote').innerHTML = swatch('ks', '24', 'seated')
        + (quiet ? '' : swatch('k0', '', 'holds a place, sits elsewhere'))
        + swatch('k4', '24', quiet ? 'not seated here' : 'outbid') + swatch('k3', '24', 'below the cut, or not open')
        + '<span>Type to change a cell; Enter keeps it, Escape takes it back. Paste cells from a spreadsheet.</span>';
}

function drawTools() {
    const station = state.cell && state.cell[1] > 1 ? state.cell[1] - 2 : -1;
    $('undo').disabled = !canUndo();
    $('redo').disabled = !canRedo();
    $('lessguest').disabled = guestLines() === 0;
    $('lessguest').textContent = guestLines() === 0 ? 'Remove guest' : `Remove guest ${state.guest + 1}`;
    $('lessstation').disabled = station < 0;
    $('lessstation').textContent = station < 0 ? 'Remove station' : `Remove station ${station + 1}`;
}

const shape = () => `${state.lines.length} by ${stationColumns()}, ${Object.values(columnWidths())}`;

/** After a change of the market: the whole table where it has another shape or other widths. */
export function refreshGrid() {
    if (drawn.shape === shape() && $('gridrows')) paintGrid();
    else drawGrid();
}

/** The cell is drawn again with the next painting. */
export function touch(cell) {
    drawn.cells.delete(`${cell}`);
}

/** The whole table anew, the scroll where it was. */
export function drawGrid() {
    const wrap = $('grid'), { scrollLeft, scrollTop } = wrap, focused = document.activeElement?.closest?.('#grid');
    drawn = { ...visible(), cells: new Map(), shape: shape() };
    wrap.innerHTML = tableHtml(drawn);
    [wrap.scrollLeft, wrap.scrollTop] = [scrollLeft, scrollTop];
    if (!state.cell || !isCell(state.cell)) state.cell = [0, 2];
    elementAt(state.cell)?.setAttribute('tabindex', 0);
    drawNote();
    drawTools();
    markBad();
    if (focused) elementAt(state.cell)?.focus({ preventScroll: true });
}

/** After a change of values: only cells that differ are touched, and not the one that is being edited. */
export function paintGrid() {
    for (const td of $('grid').querySelectorAll('td[data-r]')) {
        const cell = [Number(td.dataset.r), Number(td.dataset.c)], kind = kindOf(cell), key = `${kind}/${textAt(cell)}`;
        if (drawn.cells.get(`${cell}`) === key) continue;
        drawn.cells.set(`${cell}`, key);
        td.className = kind + (cell[0] > 1 && cell[1] === 2 ? ' edge' : '');
        if (!td.querySelector('input')) td.innerHTML = inner(cell, kind);
    }
    for (const tr of $('grid').querySelectorAll('tr[data-row]')) paintEnding(tr);
    $('grid').querySelectorAll('thead .st').forEach((th, j) => {
        th.className = headClass(j);
        th.lastChild.textContent = headWords(j);
    });
    markBad();
    drawTools();
}

function paintEnding(tr) {
    const guest = Number(tr.dataset.row) - 2, words = ending(guest);
    tr.classList.toggle('picked', guest === state.guest);
    if (tr.lastChild.innerHTML !== words) tr.lastChild.innerHTML = words;
}

function markBad() {
    for (const old of $('grid').querySelectorAll('.bad')) {
        old.classList.remove('bad');
        old.removeAttribute('aria-invalid');
    }
    const { refused } = state, td = refused?.cell && !refused.file && elementAt(cellOf(refused.cell));
    if (!td) return;
    td.classList.add('bad');
    td.setAttribute('aria-invalid', 'true');
}

/** The rows that can be seen now, where they are others. */
export function scrollGrid() {
    const range = visible();
    if (range.first === drawn.first && range.last === drawn.last) return;
    if (Math.abs(range.first - drawn.first) < SPARE / 2 && range.last <= drawn.last) return;
    const focused = document.activeElement?.closest?.('#gridrows');
    Object.assign(drawn, range);
    $('gridrows').innerHTML = bodyHtml(range);
    elementAt(state.cell)?.setAttribute('tabindex', 0);
    markBad();
    if (focused) (elementAt(state.cell) ?? $('grid')).focus({ preventScroll: true });
}

/** Moves the focus to a cell, which is scrolled to where it can be seen. */
export function focusCell(cell) {
    if (!isCell(cell)) return;
    $('grid').querySelector('td[tabindex="0"]')?.setAttribute('tabindex', -1);
    state.cell = cell;
    reveal(cell);
    const td = elementAt(cell);
    td?.setAttribute('tabindex', 0);
    td?.focus({ preventScroll: true });
    td?.scrollIntoView({ block: 'nearest', inline: 'nearest' });
    drawTools();
}

/** Scrolls to the chosen guest. */
export function revealGuest() {
    reveal([state.guest + 2]);
}

function reveal([r]) {
    if (r < 2) return;
    const wrap = $('grid'), tall = rowHeight(), top = (r + 2) * tall;
    if (top < wrap.scrollTop + tall) wrap.scrollTop = Math.max(0, top - 2 * tall);
    if (top + tall > wrap.scrollTop + wrap.clientHeight) wrap.scrollTop = top + 2 * tall - wrap.clientHeight;
    scrollGrid();
}
