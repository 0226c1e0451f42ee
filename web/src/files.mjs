// Files and links: open, join, drop, save. What is refused changes nothing.
import { samples, sheetOf } from './engine.mjs';
import { num } from './format.mjs';
import { joined, readBytes, readFile } from './reading.mjs';
import { stillPicture } from './still.mjs';
import { $, VIEWS, say, show, state, tell } from './state.mjs';

const MOST_LINK = 2048; // bytes of a sheet that goes into a link

function refuse(refused) {
    state.refused = Object.assign(refused, { file: true });
    tell('refused');
}

export function openSample(name) {
    const sample = samples.find((one) => one.name === name);
    show(readBytes(state.engine, sheetOf(sample), '').market, { name, title: sample.title, guest: sample.guest - 1 });
}

/** Opens a file; of more than one, each is joined to those before it. */
export async function openFiles(files, joining = false) {
    let market = joining ? state.market : undefined;
    const names = joining ? [state.title] : [];
    for (const file of files) {
        const read = await readFile(state.engine, file);
        const next = read.market && market ? joined(market, read.market, file.name, read.isText) : read;
        if (next.refused) return refuse(next.refused);
        market = next.market;
        names.push(file.name);
    }
    if (market) show(market, { title: names.join(' + '), guest: joining ? state.guest : 0 });
}

const baseName = () => (state.name || state.title.replace(/\.\w+$/, '')).replace(/[^\w.-]+/g, '_');

function download(parts, ending, type) {
    const link = document.createElement('a');
    link.href = URL.createObjectURL(new Blob(parts, { type }));
    link.download = `${baseName()}.${ending}`;
    link.click();
    setTimeout(() => URL.revokeObjectURL(link.href), 10000);
    say(`${link.download} saved.`);
}

export const saves = {
    sheet: () => download([state.market.toSheet()], 'sheet', 'application/octet-stream'),
    csv: () => download([state.market.toCsv()], 'csv', 'text/csv'),
    svg: () => download([stillPicture(state.seen, state.guest, state.title)], 'svg', 'image/svg+xml'),
    link: copyLink,
};

const forLink = (bytes) => btoa(String.fromCharCode(...bytes)).replace(/\+/g, '-').replace(/\//g, '_')
    .replace(/=+$/, '');
const fromLink = (text) => Uint8Array.from(atob(text.replace(/-/g, '+').replace(/_/g, '/')), (c) => c.charCodeAt(0));

function hash(withSheet) {
    const sheet = withSheet || !state.name ? state.market.toSheet() : undefined;
    const isShort = sheet && sheet.length <= MOST_LINK;
    const market = isShort ? { sheet: forLink(sheet) } : state.name && { market: state.name };
    return new URLSearchParams({ view: state.view, ...market, guest: state.guest + 1,
        ...(state.quiet && { round: 'quiet' }), ...(state.rule === 2 && { rule: 2 }) }).toString();
}

let noting;

/** The page's address says, after a moment, what is shown; a market of one's own is in it where it is short. */
export function note() {
    clearTimeout(noting);
    noting = setTimeout(() => {
        try {
            history.replaceState(null, '', `#${hash(false)}`);
        } catch {
            // a browser may allow only so many changes in a while
        }
    }, 200);
}

async function copyLink() {
    const { length } = state.market.toSheet(), isLong = length > MOST_LINK;
    $('linkbox').hidden = false;
    $('link').hidden = isLong;
    $('linksays').textContent = isLong
        ? `The sheet has ${num(length)} bytes, and a link takes ${num(MOST_LINK)}: save it as a file.`
        : 'A link to this page with the market in it:';
    if (isLong) return;
    $('link').value = `${location.href.split('#')[0]}#${hash(true)}`;
    $('link').focus();
    $('link').select();
    await navigator.clipboard?.writeText($('link').value).then(() => say('The link is copied.'), () => {});
}

function sheetIn(parameters) {
    try {
        return readBytes(state.engine, fromLink(parameters.get('sheet')), 'the link');
    } catch {
        return { refused: { words: 'the link: its sheet is no base64' } };
    }
}

/** What the page's address asks for. */
export function followLink() {
    const parameters = new URLSearchParams(location.hash.slice(1)), guest = Number(parameters.get('guest'));
    Object.assign(state, { rule: parameters.get('rule') === '2' ? 2 : 1, quiet: parameters.get('round') === 'quiet' });
    const read = parameters.has('sheet') ? sheetIn(parameters) : {};
    const { name } = samples.find((sample) => sample.name === parameters.get('market')) ?? samples[0];
    if (read.market) show(read.market, { title: 'market of the link' });
    else openSample(name);
    if (read.refused) refuse(read.refused);
    if (guest >= 1 && guest <= state.market.guests && Number.isInteger(guest)) state.guest = guest - 1;
    const view = parameters.get('view');
    return VIEWS.includes(view) ? view : VIEWS[0];
}
