// The table: typing, pasting, undo; what is refused leaves the market. And the way through the page by keys alone.
import { readFileSync } from 'node:fs';
import { same, starts } from './same.mjs';

const refusals = readFileSync(new URL('../../refusals.txt', import.meta.url), 'utf8');

// In the page: the market, what is refused, and the cells that are marked.
function seen() {
    const { market, seen: { cut } } = globalThis.bay['state.mjs'].state, { bids, guests, stations } = market;
    const marked = [...document.querySelectorAll('td.bad')].map(({ dataset: { r, c } }) => [Number(r), Number(c)]);
    return { cut, bid: bids[0], guests, stations, marked,
        alarm: document.querySelector('#alarm:not([hidden])')?.textContent ?? '' };
}

// In the page: what has the focus.
function focused() {
    const { id, name, dataset: { r, c, g, st, slide, number, plot }, tagName } = document.activeElement;
    const cell = r && `cell ${r},${c}`, guest = g && `guest ${g} ${st}`;
    return id || name || cell || guest || (slide && 'slide') || (number && 'number') || (plot && 'plot') || tagName;
}

// In the page: a text of the clipboard is pasted where the focus is.
function pasted(text) {
    const clipboardData = new DataTransfer();
    clipboardData.setData('text/plain', text);
    const event = new ClipboardEvent('paste', { clipboardData, bubbles: true, cancelable: true });
    document.activeElement.dispatchEvent(event);
}

const focusOn = (browser, r, c) => browser.run(`bay['grid.mjs'].focusCell([${r}, ${c}])`);
const focusId = (browser, id) => browser.run(`document.getElementById('${id}').focus()`);

// What Tab goes through, until it leaves the page.
async function walk(browser, most) {
    const all = [];
    for (let k = 0; k < most && all[k - 1] !== 'BODY'; k++) {
        await browser.keys('Tab');
        all.push(await browser.call(focused));
    }
    return all;
}

function hasAll(there, wanted) {
    same(wanted.filter((one) => !there.includes(one)), [], `not among ${there}`);
}

export const cases = {
    async 'a cell: typed, refused with its place, taken back, undone'({ browser, page }) {
        await browser.size(1280, 900);
        await browser.open(`${page}#view=table&market=case_e`);
        await focusOn(browser, 2, 2);
        await browser.keys('9');
        same((await browser.call(seen)).bid, 9, 'a key');
        await browser.keys(...'999999');
        const refused = await browser.call(seen), [, text] = refusals.match(/^9\s+\S+\s+(.*)$/m);
        same([refused.bid, refused.marked], [8, [[2, 2]]],
            'a bid above 1,000,000 leaves the market as it was before the cell');
        starts(refused.alarm,
            `Refused 9 line 3, field 3 (cell C3): guest 1, station 1: ${text}: the bid is 9,999,999`);
        await browser.keys('Escape');
        same(await browser.call(seen), { cut: 6, bid: 8, guests: 2, stations: 2, marked: [], alarm: '' }, 'Escape');
        await browser.keys('7', 'Enter');
        same([(await browser.call(seen)).bid, await browser.call(focused)], [7, 'cell 3,2'],
            'Enter keeps it and goes down');
        await browser.keys('Control+z');
        same((await browser.call(seen)).bid, 8, 'undo');
        await browser.keys('Control+y');
        same((await browser.call(seen)).bid, 7, 'redo');
        for (const [cell, typed, number] of [[[1, 2], '0', 7], [[1, 3], '70000', 23], [[2, 1], '', 22],
            [[2, 0], '2', 15], [[0, 2], '1,200', 22]]) {
            await focusOn(browser, ...cell);
            await browser.keys('Delete', ...typed, 'Enter');
            const { alarm, marked } = await browser.call(seen), at = number === 15 ? [3, 0] : cell;
            starts(alarm, `Refused ${number} line ${at[0] + 1}`);
            same(marked, [at], `${typed}: the cell that is marked`);
            await browser.click('#back');
            same((await browser.call(seen)).alarm, '', 'taken back');
        }
    },

    async 'cells from a spreadsheet: a block, new guests, a market, what does not fit'({ browser, engine, page }) {
        await browser.open(`${page}#view=table&market=case_e`);
        await focusOn(browser, 2, 1);
        await browser.call(pasted, '5\t9\t\r\n6\t7\t4\r\n');
        same(await browser.run('bay["state.mjs"].state.lines'),
            [['2', '6'], ['1', '1'], ['1', '5', '9', ''], ['2', '6', '7', '4']], 'a block');
        await focusOn(browser, 4, 0);
        same(await browser.call(focused), 'cell 2,1', 'there is no row below the last');
        await focusOn(browser, 3, 0);
        await browser.call(pasted, '2\t1\t7\t\n8\t2\t6\t1\n9\t3\t5\t');
        same((await browser.call(seen)).guests, 4, 'new guests');
        await browser.keys('Control+z');
        same((await browser.call(seen)).guests, 2, 'undone in one step');
        await browser.call(pasted, '1\t2\t3\t4\t5\t6');
        starts((await browser.call(seen)).alarm, 'the block of 1 by 6 cells does not fit');
        await focusOn(browser, 0, 2);
        await browser.call(pasted, '3\t7\n2\t2\n');
        same([(await browser.run('bay["state.mjs"].state.lines')).slice(0, 2), (await browser.call(seen)).guests],
            [[['3', '7'], ['2', '2']], 2], 'asks and bays');
        await browser.call(pasted, '4\t1\t3\t\t\n1\t2\t2\t\t\n1\t5\t0\t4\t0\n2\t2\t2\t\t5\n');
        const { guests, stations, alarm } = await browser.call(seen);
        same([guests, stations, alarm], [2, 3, ''], 'a whole market');
        same(await browser.run('[...bay["state.mjs"].state.market.toSheet()]'),
            [...engine.fromCsv('4,1,3\r\n1,2,2\r\n1,5,0,4,0\r\n2,2,2,,5\r\n').toSheet()], 'its sheet');
    },

    async 'guests and stations more and less'({ browser, page }) {
        await browser.open(`${page}#view=table&market=case_e`);
        await browser.click('#moreguest');
        same(await browser.call(focused), 'cell 4,1', 'the amount is wanted');
        starts((await browser.call(seen)).alarm, 'Refused 22 line 5, field 2');
        await browser.keys('4', 'Enter');
        same((await browser.call(seen)).guests, 3, 'a guest more');
        await browser.click('#lessguest');
        same(await browser.run('[...bay["state.mjs"].state.market.tickets]'), [1, 3], 'the chosen one less');
        await browser.click('#morestation');
        await browser.keys('3', 'Enter', '2', 'Enter');
        same((await browser.call(seen)).stations, 3, 'a station more');
        await browser.open(`${page}#view=table&market=table_i`);
        const lines = await browser.run('bay["state.mjs"].state.lines');
        await focusOn(browser, 0, 3);
        await browser.click('#lessstation');
        same([await browser.run('bay["state.mjs"].state.lines'), (await browser.call(seen)).alarm],
            [lines.map((line, r) => line.filter((_, field) => field !== (r < 2 ? 1 : 3))), ''], 'the second one less');
    },

    async 'by keys alone: every control is reached, and none holds the focus'({ browser, page }) {
        await browser.open(`${page}#view=queues`);
        const queues = await walk(browser, 30);
        hasAll(queues, ['sample', 'open', 'join', 'SUMMARY', 't-queues', 'round', 'rule']);
        same([queues.some((one) => one.startsWith('guest')), queues.at(-1)], [true, 'BODY'], 'the end of the queues');
        await focusId(browser, 't-queues');
        await browser.keys('ArrowRight');
        same(await browser.call(focused), 't-table', 'the next tab');
        hasAll(await walk(browser, 30), ['moreguest', 'cell 0,2']);
        await focusId(browser, 't-table');
        await browser.keys('ArrowRight');
        hasAll(await walk(browser, 40), ['lieguest', 'honest', 'plot', 'slide', 'number']);
        await focusId(browser, 't-lie');
        await browser.keys('End');
        hasAll(await walk(browser, 30), ['findguest', 'findrows', 'findgo']);
        await browser.run('document.querySelector("#savemenu summary").focus()');
        await browser.keys('Enter', 'Tab', 'Escape');
        same([await browser.run('document.getElementById("savemenu").open'), await browser.call(focused)],
            [false, 'SUMMARY'], 'Escape leaves the menu');
    },

    async 'keys on the board, in a queue, in the table'({ browser, page }) {
        await browser.open(`${page}#view=queues&guest=10`);
        await browser.run('document.querySelector("#strip [aria-checked=true]").focus()');
        await browser.keys('ArrowRight', 'ArrowRight', 'ArrowLeft');
        same(await browser.run('document.getElementById("gname").textContent'), 'Guest 11', 'the board');
        await browser.run('document.querySelector("#pic .row[data-g]").focus()');
        same(await browser.call(focused), 'guest 9 0', 'the first row');
        await browser.keys('ArrowDown', 'ArrowRight', 'Enter');
        same(await browser.call(focused), 'guest 9 2', 'the second, then that of the next queue');
        same(await browser.run('bay["state.mjs"].state.guest'), 9, 'which Enter chooses');
        await browser.open(`${page}#view=table&market=full`);
        await focusOn(browser, 2, 2);
        await browser.keys('Control+End');
        same(await browser.call(focused), 'cell 201,41', 'the last cell of 200 by 40');
        await browser.keys('Control+Home', 'PageDown', 'End');
        same(await browser.call(focused), 'cell 12,41', 'a page down, and to the end');
    },
};
