// Pictures of the page, to be looked at: node web/tests/shots.mjs FOLDER [NAME..] writes them as PNG, and what is
// printed as PDF. NAME is desk, dark, grey, telephone, zoom or paper with _ and a tab, and _ and a market after that.
import { writeFileSync } from 'node:fs';
import { Chromium } from './chromium.mjs';
import { pause } from './process.mjs';

const [folder, ...names] = process.argv.slice(2), page = new URL('../../prebuilt/bay.html', import.meta.url).href;
const DESK = [1280, 900];
const LOOKS = { desk: { size: DESK }, dark: { size: DESK, dark: true }, grey: { size: DESK, grey: true },
    telephone: { size: [390, 844, { deviceScaleFactor: 2, mobile: true }] },
    zoom: { size: [640, 450, { deviceScaleFactor: 2 }] }, paper: { size: DESK, paper: true } };
const MARKETS = { evening: 10, table_i: 1, case_e: 2, full: 86 }; // with the guest that is chosen

// In the page: a search of 10,000 rows; a lie of the station that is plotted.
async function search() {
    const { state } = globalThis.bay['state.mjs'];
    state.rows = 10000;
    globalThis.bay['find.mjs'].start();
    while (state.search.running) await new Promise((done) => { setTimeout(done, 20); });
}

function lie() {
    const { lie: { row, station } } = globalThis.bay['state.mjs'].state;
    globalThis.bay['lie.mjs'].tellBid(station, Math.round(row[station] * 1.3) + 1);
}

const TABS = { queues: {}, quiet: { hash: 'view=queues&round=quiet' }, table: {}, lie: { act: lie },
    search: { act: search } };

const browser = await Chromium.start();
for (const [look, { size, dark, grey, paper }] of Object.entries(LOOKS)) {
    await browser.size(...size);
    await browser.scheme(dark ? 'dark' : 'light');
    await browser.send('Emulation.setEmulatedVisionDeficiency', { type: grey ? 'achromatopsia' : 'none' });
    for (const [tab, { hash = `view=${tab}`, act }] of Object.entries(TABS)) {
        for (const [market, guest] of Object.entries(MARKETS)) {
            const name = `${look}_${tab}_${market}`;
            if (names.length && !names.some((one) => name === one || name.startsWith(`${one}_`))) continue;
            await browser.open(`${page}#${hash}&market=${market}&guest=${guest}`);
            if (act) await browser.call(act);
            await pause(150);
            if (paper) writeFileSync(`${folder}/${name}.pdf`, await browser.print());
            else await browser.shot(`${folder}/${name}.png`, true);
            for (const said of browser.errors()) console.log(name, said);
        }
    }
}
await browser.close();
