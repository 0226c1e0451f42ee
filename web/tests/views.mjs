// Every tab: at three sizes, on paper, in time; what leaves the page; what does not load.
import { mkdtempSync, readFileSync, rmSync, writeFileSync } from 'node:fs';
import { createServer } from 'node:http';
import { tmpdir } from 'node:os';
import { join } from 'node:path';
import { pathToFileURL } from 'node:url';
import { constants, inflateSync } from 'node:zlib';
import { same } from './same.mjs';

export const VIEWS = { queues: '#pic', table: '#grid table', lie: '#lie1 .plot', search: '#find1 .plot' };
const DESK = [1280, 900];
const SIZES = { desk: DESK, telephone: [390, 844, { mobile: true }],
    'zoom of 200 %': [640, 450, { deviceScaleFactor: 2 }] };
// The greatest numbers, no guests, no open station.
const EDGES = ['1000000,999999\r\n200,200\r\n4294967295,1000,1000000,1000000\r\n4294967294,1000,1000000,\r\n',
    '5\r\n1\r\n', '5,5\r\n1,1\r\n1,1,9,9\r\n'];

// In the page: what of a view is there, what stands out of the window at its right, but for what scrolls by itself, and
// whose text is cut.
async function seenOf(view, part) {
    const { state } = globalThis.bay['state.mjs'];
    document.getElementById(`t-${view}`).click();
    if (view === 'search') {
        state.rows = 300;
        globalThis.bay['find.mjs'].start();
        while (state.search.running) await new Promise((done) => { setTimeout(done, 10); });
    }
    const name = (e) => `${e.tagName}.${e.className.baseVal ?? e.className} ${e.textContent.slice(0, 20)}`;
    const scrolls = (e) => e && (['auto', 'scroll', 'hidden'].includes(getComputedStyle(e).overflowX)
        || scrolls(e.parentElement));
    const shown = [...document.querySelectorAll('main *, header *')].filter((e) => e.getClientRects().length
        && !e.closest('.sr'));
    const out = shown.filter((e) => e.getBoundingClientRect().right > document.documentElement.clientWidth + 1
        && !scrolls(e.parentElement));
    const texts = '.grid th, .grid td, .best td, button:not(.row), dd, dt, summary, h2, h3, .row .no, .row .tail';
    const cut = shown.filter((e) => e.matches(texts) && e.scrollWidth > e.clientWidth + 1);
    return { there: document.querySelector(part)?.getClientRects().length > 0, out: out.slice(0, 5).map(name),
        cut: cut.slice(0, 5).map(name) };
}

// In the page: every way out that a script has, and how it ends.
async function leave(there) {
    const http = `http://${there}`, ended = async (make) => {
        const late = new Promise((done) => { setTimeout(() => done('nothing came'), 500); });
        return Promise.race([make().then(() => 'let through', () => 'refused'), late]);
    };
    const element = (name, attribute) => () => new Promise((onload, onerror) => {
        document.head.append(Object.assign(document.createElement(name),
            { onload, onerror, [attribute]: `${http}/${name}`, rel: 'stylesheet' }));
    });
    const socket = () => new Promise((onopen, onerror) => {
        Object.assign(new WebSocket(`ws://${there}/socket`), { onopen, onerror });
    });
    const ways = { fetch: () => fetch(`${http}/fetch`), image: element('img', 'src'), script: element('script', 'src'),
        style: element('link', 'href'), module: () => import(`${http}/module`), socket };
    document.body.append(Object.assign(document.createElement('iframe'), { src: `${http}/frame` }));
    navigator.sendBeacon(`${http}/beacon`);
    const ends = await Promise.all(Object.values(ways).map(ended));
    return Object.fromEntries(Object.keys(ways).map((way, k) => [way, ends[k]]));
}

// Milliseconds of the page's thread, not of the clock: the machine may be busy.
async function processorTime(browser, script) {
    const spent = async () => {
        const { metrics } = await browser.send('Performance.getMetrics');
        return metrics.find(({ name }) => name === 'TaskDuration').value;
    };
    const again = (times) => browser.run(`(async () => { for (let k = 0; k < ${times}; k++) {
        ${script};
        document.body.offsetHeight;
        await new Promise((done) => setTimeout(done, 0));
    } })()`);
    await again(2);
    const before = await spent();
    await again(8);
    return (await spent() - before) / 8 * 1000;
}

// The pages of a PDF, whose objects may stand in packed streams.
function pagesOf(pdf) {
    const text = pdf.toString('latin1'), whole = { finishFlush: constants.Z_SYNC_FLUSH };
    const streams = [...text.matchAll(/\/ObjStm\b[^]*?stream\r?\n/g)]
        .map(({ index, 0: head }) => inflateSync(pdf.subarray(index + head.length), whole).toString('latin1'));
    return [text, ...streams].join('\n').match(/\/Type\s*\/Page\b/g)?.length ?? 0;
}

// In the page: the shapes of the queues, the plots and the searches that paper does not show.
async function lostOnPaper() {
    const { setView, state } = globalThis.bay['state.mjs'], lost = [];
    const drawn = ':is(.plot, .railsvg) :is(rect, path, circle), .row .bar, .marks path';
    const shown = () => [...document.querySelectorAll(drawn)].filter((e) => e.getClientRects().length).length;
    for (const view of ['queues', 'lie', 'search']) {
        setView(view);
        if (view === 'search') globalThis.bay['find.mjs'].start();
        while (state.search?.running) await new Promise((done) => { setTimeout(done, 10); });
        const before = shown();
        dispatchEvent(new Event('beforeprint'));
        if (shown() < before) lost.push(`${view}: ${shown()} of ${before} shapes`);
        dispatchEvent(new Event('afterprint'));
    }
    return lost;
}

/** Each tab is one page on paper. */
export async function printed({ browser, page }) {
    await browser.size(...DESK);
    await browser.open(`${page}#market=evening&guest=10`);
    await browser.run('bay["state.mjs"].state.rows = 10000');
    same(await browser.call(lostOnPaper), [], 'what is on paper');
    for (const hash of ['view=queues', 'view=table', 'view=lie', 'view=search', 'view=queues&market=full&guest=86',
        'view=queues&round=quiet&market=table_i']) {
        await browser.open(`${page}#${hash}`);
        same(pagesOf(await browser.print()), 1, `pages of ${hash}`);
    }
}

export const cases = {
    async 'every tab at three sizes, of four markets: nothing stands out, is cut or thrown'({ browser, page }) {
        const look = async (what) => {
            for (const [view, part] of Object.entries(VIEWS)) {
                const seen = await browser.call(seenOf, view, part), errors = browser.errors();
                same({ ...seen, errors }, { there: true, out: [], cut: [], errors: [] }, `${view} of ${what}`);
            }
        };
        for (const [name, size] of Object.entries(SIZES)) {
            await browser.size(...size);
            for (const market of ['evening', 'table_i', 'case_e', 'full']) {
                await browser.open(`${page}#market=${market}&guest=2`);
                await look(`${market}, ${name}`);
            }
        }
        await browser.size(...DESK);
        await browser.open(page);
        for (const csv of EDGES) {
            await browser.call((text) => {
                const { show, state } = globalThis.bay['state.mjs'];
                show(state.engine.fromCsv(text), {});
            }, csv);
            if (csv === EDGES[0]) await look(JSON.stringify(csv));
            for (const view of Object.keys(VIEWS)) await browser.run(`document.getElementById('t-${view}').click()`);
            same(browser.errors(), [], JSON.stringify(csv));
        }
    },

    'printing: one page for each tab, and for the queues of 200 by 40': printed,

    async '200 by 40: a redraw under 100 ms, a key in the table under 50 ms'({ browser, page }) {
        await browser.size(...DESK);
        await browser.open(`${page}#view=queues&market=full&guest=86`);
        await browser.send('Performance.enable', { timeDomain: 'threadTicks' });
        const redraw = await processorTime(browser, 'bay["state.mjs"].setRound(k % 2 === 0)');
        await browser.open(`${page}#view=table&market=full&guest=86`);
        await browser.run('bay["grid.mjs"].focusCell([2, 2]); bay["editing.mjs"].edit([2, 2])');
        await browser.run('globalThis.cell = document.querySelector("#grid input")');
        const key = await processorTime(browser, 'cell.value = 100 + k; cell.dispatchEvent(new Event("input"))');
        const cells = await browser.run('document.querySelectorAll("#grid td").length');
        const said = `redraw ${redraw.toFixed(1)} ms, a key ${key.toFixed(1)} ms, ${cells} of 8,000 cells drawn`;
        if (redraw >= 100 || key >= 50 || cells >= 3000) throw new Error(said);
        return said;
    },

    async 'no request leaves the page'({ browser, page }) {
        const asked = [];
        const server = createServer((request, response) => {
            asked.push(request.url);
            response.end('x');
        });
        await new Promise((done) => { server.listen(0, '127.0.0.1', done); });
        await browser.open(page);
        const ends = await browser.call(leave, `127.0.0.1:${server.address().port}`);
        server.close();
        browser.errors();
        const refused = Object.fromEntries(Object.keys(ends).map((way) => [way, 'refused']));
        same({ asked, ends }, { asked: [], ends: refused }, 'ways out');
        return Object.keys(ends).join(', ');
    },

    async 'where the engine or the scripts do not load, one line says so'({ browser, page }) {
        const { identifier } = await browser.send('Page.addScriptToEvaluateOnNewDocument',
            { source: 'delete globalThis.WebAssembly' });
        await browser.open(page);
        await browser.send('Page.removeScriptToEvaluateOnNewDocument', { identifier });
        const said = await browser.run('document.getElementById("alarm").textContent');
        if (!said.startsWith('The engine does not run here.')) throw new Error(said);
        same(await browser.run('document.querySelector("main").hidden'), true, 'nothing else is shown');
        const folder = mkdtempSync(join(tmpdir(), 'bay-page-')), damaged = join(folder, 'bay.html');
        // its script has another sum than its policy
        const sources = readFileSync(new URL(page), 'utf8');
        writeFileSync(damaged, sources.replace('globalThis.bay = {}', 'globalThis.bay = { }'));
        try {
            await browser.goTo(pathToFileURL(damaged).href);
            await browser.until('getComputedStyle(document.getElementById("late")).visibility === "visible"', 10);
        } finally {
            rmSync(folder, { recursive: true });
        }
        await browser.open(page);
        same(await browser.run('document.getElementById("late")'), null, 'the line of a page that runs');
        browser.errors();
    },
};
