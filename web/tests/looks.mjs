// What a reader needs: contrast, fills that read in grey, names and roles for a screen reader, texts that are spoken.
import { same } from './same.mjs';

// In the page: the contrast of pairs of colours.
function contrasts(pairs) {
    const style = getComputedStyle(document.documentElement);
    const light = (name) => {
        const [r, g, b] = style.getPropertyValue(name).match(/[\da-f]{2}/gi).map((hex) => parseInt(hex, 16) / 255)
            .map((v) => (v <= 0.03928 ? v / 12.92 : ((v + 0.055) / 1.055) ** 2.4));
        return 0.2126 * r + 0.7152 * g + 0.0722 * b + 0.05;
    };
    return pairs.map(([a, b]) => [`${a} on ${b}`, Math.max(light(a), light(b)) / Math.min(light(a), light(b))]);
}

const TEXT = [['--ink', '--paper'], ['--ink', '--card'], ['--ink', '--pick'], ['--soft', '--paper'],
    ['--soft', '--card'], ['--soft', '--faint'], ['--soft', '--pick'], ['--dim', '--card'], ['--floor', '--paper'],
    ['--bad', '--card'], ['--on-seat', '--seat'], ['--on-ink', '--ink']];
const FILLS = [['--seat', '--keep'], ['--seat', '--lost'], ['--seat', '--paper'], ['--floor', '--paper'],
    ['--edge', '--paper'], ['--edge', '--pale']]; // as the states read in grey

// In the page: the fill of a state's bar, and of its charge.
function fillOf(state) {
    const row = document.querySelector(`.row.${state}`), bar = getComputedStyle(row.querySelector('.bar'));
    const pay = row.querySelector('.pay'), image = (style) => style.backgroundImage.replace(/\(.*/s, '');
    return { hollow: bar.backgroundColor === 'rgba(0, 0, 0, 0)' && image(bar) === 'none',
        pay: pay && image(getComputedStyle(pay)) };
}

const NAMED = ['button', 'tab', 'radio', 'combobox', 'slider', 'textbox', 'grid', 'radiogroup', 'tablist', 'tabpanel',
    'progressbar', 'image', 'toolbar'];
const ROLES = {
    queues: ['tablist', 'tab', 'tabpanel', 'radiogroup', 'radio', 'image', 'complementary', 'status'],
    table: ['grid', 'row', 'gridcell', 'columnheader', 'rowheader', 'toolbar'],
    lie: ['slider', 'textbox', 'image'], search: ['progressbar', 'combobox'],
};

async function roles(browser) {
    const { nodes } = await browser.send('Accessibility.getFullAXTree');
    const said = nodes.filter(({ ignored }) => !ignored)
        .map(({ role, name }) => ({ role: role?.value, name: name?.value ?? '' }));
    const bare = said.filter(({ role, name }) => NAMED.includes(role) && name.trim() === '');
    same(bare.map(({ role }) => role), [], 'without a name');
    return new Set(said.map(({ role }) => role));
}

export const cases = {
    async 'colours: text by 4.5 to 1, and the states apart in grey, light and dark'({ browser, page }) {
        await browser.open(page);
        for (const scheme of ['light', 'dark']) {
            await browser.scheme(scheme);
            const low = [[TEXT, 4.5], [FILLS, 2.5]].map(async ([pairs, least]) =>
                (await browser.call(contrasts, pairs)).filter(([, ratio]) => ratio < least));
            same((await Promise.all(low)).flat(), [], `${scheme}: too little contrast`);
        }
        await browser.scheme('light');
        const fills = [];
        for (const state of ['first', 'else', 'seated', 'outbid']) fills.push(await browser.call(fillOf, state));
        same(fills, [{ hollow: true, pay: null }, { hollow: true, pay: 'repeating-linear-gradient' },
            { hollow: false, pay: 'none' }, { hollow: false, pay: null }], 'hollow, hatched, filled, filled');
    },

    async 'labels and live regions'({ browser, page }) {
        for (const [view, wanted] of Object.entries(ROLES)) {
            await browser.open(`${page}#view=${view}`);
            const there = await roles(browser);
            same(wanted.filter((role) => !there.has(role)), [], `${view}: roles`);
        }
        await browser.open(`${page}#view=table&market=case_e`);
        await browser.run('bay["grid.mjs"].focusCell([2, 2]); bay["editing.mjs"].edit([2, 2], "0")');
        same(await browser.run('document.getElementById("live").textContent'),
            'Cut 6, 1 of 2 guests seated, margin 0. Now seated: guest 2. No longer seated: guest 1.',
            'a change is said');
        same(await browser.run('document.activeElement.getAttribute("aria-label")'), 'Bid of guest 1 at station 1',
            'the cell');
        const live = (id) => browser.run(`document.getElementById('${id}').getAttribute('role')`);
        same([await live('live'), await live('alarm')], ['status', 'alert'], 'what is spoken');
    },
};
