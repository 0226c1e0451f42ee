// Runs the page's tests: node web/tests/run.mjs [WORDS], those whose name has the words. Says each case in a line with
// its time; a failing one says what it had. PAGE_MARKETS is the number of random markets.
import { execFileSync } from 'node:child_process';
import { readFileSync } from 'node:fs';
import { load } from '../../js/bay_market.mjs';
import { unpack } from '../src/unpack.mjs';
import { cases as charges, compare } from './charges.mjs';
import { Chromium } from './chromium.mjs';
import { cases as editing } from './editing.mjs';
import { cases as files } from './files.mjs';
import { Firefox } from './firefox.mjs';
import { cases as looks } from './looks.mjs';
import { cases as pointing } from './pointing.mjs';
import { same } from './same.mjs';
import { cases as searching } from './searching.mjs';
import { VIEWS, cases as views, printed } from './views.mjs';

const root = new URL('../../', import.meta.url), at = (path) => new URL(path, root);
const page = at('prebuilt/bay.html').href, module = at('prebuilt/wasm32/bay_market.wasm');
const words = process.argv[2] ?? '';
let failed = 0, ran = 0;

async function check(name, action) {
    if (!name.includes(words)) return;
    const start = Date.now();
    ran++;
    try {
        const said = await action();
        console.log(`${name}${said ? `: ${said}` : ''} (${((Date.now() - start) / 1000).toFixed(1)} s)`);
    } catch (error) {
        failed++;
        console.error(`FAILED ${name}: ${error.stack}`);
    }
}

await check('the page is that of its sources, at most 250,000 bytes, with the engine of prebuilt/ in it', () => {
    const said = execFileSync('node', [at('web/build.mjs').pathname, '--check']).toString().trim();
    const [, wasm] = readFileSync(new URL(page), 'utf8').match(/^bay\.wasm = (.*);$/m);
    const { packed, length } = JSON.parse(wasm), engine = Buffer.from(unpack(Buffer.from(packed, 'base64'), length));
    if (!engine.equals(readFileSync(module))) throw new Error('another engine');
    return said;
});

const engine = await load(module);

async function inChromium() {
    const browser = await Chromium.start();
    if (!browser) throw new Error('no chromium-headless-shell or chromium');
    const all = { ...views, ...looks, ...files, ...editing, ...pointing, ...searching, ...charges };
    for (const [name, action] of Object.entries(all)) {
        await check(name, async () => {
            const said = await action({ browser, engine, page });
            same(browser.errors(), [], 'what the page threw or asked for');
            return said;
        });
    }
    await browser.close();
}

const firefoxName = 'Firefox: every tab, a page of print, a search, damaged files, the shown charges';

async function inFirefox() {
    if (!firefoxName.includes(words)) return;
    const browser = await Firefox.start(), context = { browser, engine, page };
    if (!browser) {
        console.log('no Firefox, so the page is not tested in it');
        return;
    }
    await check(firefoxName, async () => {
        for (const view of Object.keys(VIEWS)) await browser.open(`${page}#view=${view}&market=full`);
        await printed(context);
        await searching['a search: never right of the line in a truthful round, often in a quiet one'](context);
        await files['damaged files are refused with the engine\'s words and the place, and the market stays'](context);
        return compare(context, 100, 2);
    });
    await browser.close();
}

await Promise.all([inChromium(), inFirefox()]);
console.log(`${ran - failed} passed, ${failed} failed`);
process.exit(failed ? 1 : 0);
