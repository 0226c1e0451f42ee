// Files, links, saving, joining: in and out, and what is refused.
import { readFileSync } from 'node:fs';
import { inSheet } from '../src/insheet.mjs';
import { inText } from '../src/intext.mjs';
import { lists, random } from './random.mjs';
import { same, starts } from './same.mjs';

const example = (name) => readFileSync(new URL(`../../examples/${name}`, import.meta.url));
const texts = Object.fromEntries(readFileSync(new URL('../../refusals.txt', import.meta.url), 'utf8').split('\n')
    .map((line) => line.match(/^(\d+)\s+\S+\s+(.*)$/)).filter(Boolean).map(([, number, text]) => [number, text]));

// In the page: files are dropped, or chosen by a button, as a browser does it, and read.
function dropped(files, button) {
    const told = new Promise((done) => { globalThis.bay['state.mjs'].listen(() => done()); });
    const dataTransfer = new DataTransfer(), input = document.getElementById('file');
    for (const { name, bytes } of files) dataTransfer.items.add(new File([Uint8Array.from(bytes)], name));
    if (button) {
        input.click = () => {};
        document.getElementById(button).click();
        input.files = dataTransfer.files;
        input.dispatchEvent(new Event('change', { bubbles: true }));
    } else dispatchEvent(Object.assign(new Event('drop', { cancelable: true }), { dataTransfer }));
    return told;
}

// In the page: what a way of saving would write to a file.
async function saved(kind) {
    const made = URL.createObjectURL;
    let blob, name;
    URL.createObjectURL = (given) => { blob = given; return 'blob:x'; };
    HTMLAnchorElement.prototype.click = function click() { name = this.download; };
    document.querySelector(`[data-save="${kind}"]`).click();
    URL.createObjectURL = made;
    return { name, bytes: [...new Uint8Array(await blob.arrayBuffer())] };
}

const filesOf = (files) => files.map(([name, bytes]) => ({ name, bytes: [...bytes] }));
const drop = (browser, ...files) => browser.call(dropped, filesOf(files));
const choose = (browser, button, ...files) => browser.call(dropped, filesOf(files), button);
const alarm = (browser) => browser.run('document.querySelector("#alarm:not([hidden])")?.textContent ?? ""');
const sheet = (browser) => browser.run('[...bay["state.mjs"].state.market.toSheet()]');
const csv = (text) => Buffer.from(text.replace(/\n/g, '\r\n'));

const fleet = '2,6\n1,1\n1,3,8,\n2,3,8,\n';
const damaged = [
    ['short.sheet', () => example('case_e.sheet').subarray(0, 20), 1, 'short.sheet, byte 20: guest 1'],
    ['empty.sheet', () => [], 1, 'empty.sheet, byte 0'],
    ['long.sheet', () => [...example('case_e.sheet'), 7], 4, 'long.sheet, byte 38'],
    ['counts.sheet', () => [1, 1, 2, 0], 2, 'counts.sheet, byte 0'],
    ['bit.sheet', () => Buffer.from(example('case_e.sheet')).fill(5, 22, 23), 3, 'bit.sheet, byte 22: guest 1'],
    ['zero.sheet', () => Buffer.from(example('case_e.sheet')).fill(0, 23, 27), 19,
        'zero.sheet, byte 23: guest 1, station 1'],
    ['lines.csv', () => Buffer.from(fleet), 22, 'lines.csv, line 1, field 2 (cell B1)'],
    ['semi.csv', () => csv(fleet.replace(/,/g, ';')), 22, 'semi.csv, line 1, field 1 (cell A1)'],
    ['thousand.csv', () => csv('2,6\n1,1\n1,3,8,1,200\n'), 22, 'thousand.csv, line 3, field 4 (cell D3): guest 1'],
    ['zeros.csv', () => csv('00000000002,6\n1,1\n'), 23, 'zeros.csv, line 1, field 1 (cell A1)'],
    ['wide.csv', () => csv('2,6\n1,70000\n'), 23, 'wide.csv, line 2, field 2 (cell B2)'],
    ['amount.csv', () => csv(fleet.replace('2,3,8', '2,0,8')), 8, 'amount.csv, line 4, field 2 (cell B4): guest 2'],
    ['bays.csv', () => csv(fleet.replace('1,1', '1,0')), 7, 'bays.csv, line 2, field 2 (cell B2): station 2'],
    ['ask.csv', () => csv(fleet.replace('2,6', '2,1000001')), 6, 'ask.csv, line 1, field 2 (cell B1): station 2'],
    ['bid.csv', () => csv(fleet.replace('2,3,8,', '2,3,8,1000001')), 9,
        'bid.csv, line 4, field 4 (cell D4): guest 2, station 2'],
    ['ticket.csv', () => csv(fleet.replace('2,3,8', '1,3,8')), 15, 'ticket.csv, line 4, field 1 (cell A4): guest 2'],
    ['name<b>.csv', () => csv('x'), 22, 'name<b>.csv, line 1, field 1'],
];

function changed(next, bytes) {
    const made = [...bytes], at = next(made.length + 1);
    if (next(3) === 0) made.splice(at, 1 + next(3));
    else if (next(2)) made.splice(at, 0, [13, 10, 44, 48 + next(10), 0, next(256)][next(6)]);
    else made[Math.min(at, made.length - 1)] = next(256);
    return Uint8Array.from(made);
}

function refusedBy(read) {
    try {
        read();
        return 0;
    } catch (error) {
        return error.number;
    }
}

export const cases = {
    async 'damaged files are refused with the engine\'s words and the place, and the market stays'({ browser, page }) {
        await browser.size(1280, 900);
        await browser.open(`${page}#market=table_i`);
        const before = await sheet(browser);
        for (const [name, bytes, number, place] of damaged) {
            await drop(browser, [name, bytes()]);
            const said = await alarm(browser), start = `Refused ${number} ${place}`;
            starts(said, start);
            same(said.includes(`: ${texts[number]}`), true, `${name}: ${said}: ${texts[number]}`);
            same(await sheet(browser), before, `${name}: the market`);
        }
        await browser.call(() => globalThis.bay['files.mjs'].openFiles([{ name: 'a folder',
            slice: () => ({ arrayBuffer: () => Promise.reject(new Error('it is no file')) }) }]));
        starts(await alarm(browser), 'a folder: it cannot be read: it is no file. The last accepted market is still');
        same(await sheet(browser), before, 'a folder: the market');
        return `${damaged.length} files`;
    },

    async 'the place is found wherever the engine refuses a file'({ engine }) {
        const next = random(11);
        let count = 0;
        for (let k = 0; k < 6000; k++) {
            const market = engine.market(lists(next, next(4), 1 + next(4)));
            const bytes = changed(next, k % 2 ? market.toSheet() : Buffer.from(market.toCsv()));
            const number = refusedBy(() => (k % 2 ? engine.fromSheet(bytes) : engine.fromCsv(bytes)));
            if (number === 0) continue;
            count++;
            const { byte } = (k % 2 ? inSheet : inText)(bytes, number);
            if (byte === undefined) throw new Error(`refused ${number}, no place: ${JSON.stringify([...bytes])}`);
        }
        return `${count} refused`;
    },

    async 'open by the button, and join: two gates as the engine joins them'({ browser, engine, page }) {
        await browser.open(`${page}#market=gate_north`);
        await choose(browser, 'open', ['table.sheet', example('table_i.sheet')]);
        same(await sheet(browser), [...example('table_i.sheet')], 'opened by the button');
        const [north, south] = ['gate_north.sheet', 'gate_south.sheet'].map((name) => engine.fromSheet(example(name)));
        const both = [...north.join(south).toSheet()];
        await drop(browser, ['north.sheet', example('gate_north.sheet')], ['south.sheet', example('gate_south.sheet')]);
        same(await sheet(browser), both, 'two files that are dropped');
        await drop(browser, ['fleet.csv', example('fleet.csv')]);
        same(await sheet(browser), [...engine.fromCsv(example('fleet.csv')).toSheet()], 'a comma-separated market');
        await browser.open(`${page}#market=gate_north`);
        await choose(browser, 'join', ['south.sheet', example('gate_south.sheet')]);
        same(await sheet(browser), both, 'joined by the button');
        await drop(browser, ['n.sheet', example('gate_north.sheet')], ['n.sheet', example('gate_north.sheet')]);
        starts(await alarm(browser), 'Refused 21 n.sheet: guest 1: ');
        await drop(browser, ['n.sheet', example('gate_north.sheet')], ['e.sheet', example('case_e.sheet')]);
        starts(await alarm(browser), 'Refused 20 e.sheet: ');
        await drop(browser, ['fleet.csv', example('fleet.csv')], ['fleet.csv', example('fleet.csv')]);
        starts(await alarm(browser), 'Refused 21 fleet.csv, line 3, field 1 (cell A3): guest 1: ');
        same(await sheet(browser), both, 'what is refused');
    },

    async 'what is saved is what the engine writes, and the picture shows the charges'({ browser, engine, page }) {
        await browser.open(`${page}#market=evening`);
        const market = engine.fromSheet(example('evening.sheet'));
        same(await browser.call(saved, 'sheet'), { name: 'evening.sheet', bytes: [...market.toSheet()] }, 'sheet');
        same(await browser.call(saved, 'csv'), { name: 'evening.csv', bytes: [...Buffer.from(market.toCsv())] }, 'csv');
        const text = Buffer.from((await browser.call(saved, 'svg')).bytes).toString();
        const { stations, charges } = market.clear();
        same(await browser.call((svg) => new DOMParser().parseFromString(svg, 'image/svg+xml')
            .querySelector('parsererror')?.textContent ?? '', text), '', 'svg');
        const shown = [...text.matchAll(/<title>Guest (\d+), total [\d,]+, seated here, pays ([\d,]+)/g)]
            .map(([, guest, charge]) => [Number(guest), Number(charge.replace(/,/g, ''))]).sort((a, b) => a[0] - b[0]);
        const seated = [...stations].flatMap((station, i) => (station ? [[i + 1, charges[i]]] : []));
        same(shown, seated, 'the charges of the picture');
        for (const hash of ['market=full&guest=86', 'market=full&round=quiet&rule=2', 'market=case_e']) {
            await browser.open(`${page}#${hash}`);
            const still = Buffer.from((await browser.call(saved, 'svg')).bytes).toString();
            same(/NaN|undefined|Infinity/.test(still), false, `numbers of the picture of ${hash}`);
        }
    },

    async 'a link has the market in it'({ browser, page }) {
        await browser.open(`${page}#market=evening&guest=3&round=quiet&rule=2&view=table`);
        await browser.run('document.querySelector(\'[data-save="link"]\').click()');
        const link = await browser.run('document.getElementById("link").value'), before = await sheet(browser);
        if (!link.includes('sheet=') || link.length > 1200) throw new Error(link);
        await browser.open(link);
        same(await sheet(browser), before, 'the market of the link');
        const names = ['guest', 'quiet', 'rule', 'view'];
        const shown = await browser.run(`${JSON.stringify(names)}.map((name) => bay['state.mjs'].state[name])`);
        same(shown, [2, true, 2, 'table'], 'what is shown');
        await browser.open(`${page}#sheet=AgACAAIAAAABAA`);
        starts(await alarm(browser), 'Refused 1 the link, byte 10: station 2');
        await browser.open(`${page}#sheet=!!`);
        starts(await alarm(browser), 'the link: its sheet is no base64');
        await browser.open(`${page}#market=full`);
        await browser.run('document.querySelector(\'[data-save="link"]\').click()');
        const said = await browser.run('document.getElementById("linksays").textContent');
        if (!said.includes('15,100 bytes')) throw new Error(said);
    },
};
