// Makes the page: node web/build.mjs [OUT] writes prebuilt/bay.html, or OUT; with --check it only says whether
// prebuilt/bay.html is of these sources. One file: the style, the scripts, the engine and the samples inside. The same
// sources give the same bytes.
//
// The sources are ES modules that import by name, without a circle. Two scripts come of them, one for the page and its
// worker (core.mjs and what it imports), one for the page alone (main.mjs). Each module becomes a function that gives
// its exports, in an order in which every import is there before.
import { createHash } from 'node:crypto';
import { readFileSync, writeFileSync } from 'node:fs';
import { basename, dirname, resolve } from 'node:path';
import { fileURLToPath } from 'node:url';
import { pack } from './pack.mjs';

const MOST = 250000;
const here = dirname(fileURLToPath(import.meta.url)), root = dirname(here), there = resolve(root, 'prebuilt/bay.html');
const text = (path) => readFileSync(resolve(root, path), 'utf8');

function packed(path) {
    const bytes = new Uint8Array(readFileSync(resolve(root, path)));
    return { length: bytes.length, packed: Buffer.from(pack(bytes)).toString('base64') };
}

const samples = [
    { name: 'evening', title: 'An evening, 24 by 8', guest: 10 },
    { name: 'table_i', title: 'Table I, 5 by 5', guest: 1 },
    { name: 'case_e', title: 'Case E, 2 by 2', guest: 2 },
    { name: 'gate_north', title: 'The north gate', guest: 1 },
    { name: 'full', title: 'The largest, 200 by 40', guest: 86 },
].map((sample) => ({ ...sample, sheet: packed(`examples/${sample.name}.sheet`) }));

// Without comments that stand in lines of their own, and without indents.
function bare(source) {
    const lines = source.replace(/^\s*\/\*[\s\S]*?\*\/\s*$/gm, '').split('\n');
    return lines.map((line) => line.trim()).filter((line) => line !== '' && !line.startsWith('//')).join('\n');
}

const IMPORT = /^import \{([^}]*)\} from '(\.[^']*)';$/gm;
const EXPORT = /^export (?=(?:async function|function|class|const) ([\w$]+))/gm;

function parsed(path) {
    const source = readFileSync(path, 'utf8');
    const imports = [...source.matchAll(IMPORT)].map(([, names, from]) =>
        ({ names: names.split(',').map((name) => name.trim()), from: resolve(dirname(path), from) }));
    const exports = [...source.matchAll(EXPORT)].map(([, name]) => name);
    const body = source.replace(IMPORT, '').replace(EXPORT, ''), left = body.match(/^(import|export)\b.*/m);
    if (left) throw new Error(`${path}: not a form that the build knows: ${left[0]}`);
    return { imports, exports, body };
}

// The modules that a module needs, itself last; `done` are there already.
function needed(path, done, open = []) {
    if (done.has(path)) return [];
    const way = [...open, path];
    if (open.includes(path)) throw new Error(`a circle of imports: ${way.map((one) => basename(one)).join(' > ')}`);
    const all = parsed(path).imports.flatMap(({ from }) => needed(from, done, way));
    done.add(path);
    return [...all, path];
}

// The line that takes names from another module, which has to have them.
function taking(path, { names, from }) {
    const there = parsed(from).exports, missing = names.find((name) => !there.includes(name.replace(/ as .*/, '')));
    if (missing) throw new Error(`${path}: ${basename(from)} does not export ${missing} by itself`);
    return `const { ${names.join(', ').replace(/ as /g, ': ')} } = bay['${basename(from)}'];`;
}

// The worker's script is a classic one, since browsers load no module from a blob of a page that is a file; so the
// address of a module, which is asked for only where no engine is given, is that of the page.
function asFunction(path) {
    const { imports, exports, body } = parsed(path);
    const classic = bare(body).replace(/import\.meta\.url/g, 'location.href');
    return [`bay['${basename(path)}'] = (() => {`, ...imports.map((one) => taking(path, one)), classic,
        `return { ${exports.join(', ')} };`, '})();'].join('\n');
}

const done = new Set();
const script = (entry) => needed(resolve(here, 'src', entry), done).map(asFunction).join('\n');
const core = ['const bay = globalThis.bay = {};', script('core.mjs')].join('\n');
const page = ['const bay = globalThis.bay;', `bay.samples = ${JSON.stringify(samples)};`,
    `bay.wasm = ${JSON.stringify(packed('prebuilt/wasm32/bay_market.wasm'))};`, script('main.mjs')].join('\n');
if (/<\/script/i.test(core + page)) throw new Error('a script says </script');

const styles = ['page', 'queues', 'table', 'lies', 'narrow', 'paper'];

// No request leaves the page: nothing may be fetched, and the scripts are these two alone; the worker is made of the
// first.
const sumOf = (source) => `'sha256-${createHash('sha256').update(`\n${source}\n`).digest('base64')}'`;
const policy = ["default-src 'none'", `script-src ${sumOf(core)} ${sumOf(page)} 'wasm-unsafe-eval'`,
    "style-src 'unsafe-inline'", 'worker-src blob:', "base-uri 'none'", "form-action 'none'"].join('; ');

const html = `<!doctype html>
<!-- generated: web/build.mjs makes this file from web/src, js/bay_market.mjs, prebuilt/wasm32 and examples/ -->
<html lang="en"><head><meta charset="utf-8">
<meta http-equiv="Content-Security-Policy" content="${policy}">
<meta name="viewport" content="width=device-width, initial-scale=1">
<meta name="color-scheme" content="light dark">
<title>Charging bays</title>
<style>
${styles.map((name) => bare(text(`web/src/${name}.css`))).join('\n')}
</style></head><body>
${bare(text('web/src/body.html'))}
<script type="module" id="core">
${core}
</script>
<script type="module">
${page}
</script></body></html>
`;
const size = Buffer.byteLength(html);
if (size > MOST) throw new Error(`the page has ${size} bytes, at most ${MOST} are wanted`);

if (process.argv[2] !== '--check') writeFileSync(process.argv[2] ?? there, html);
else if (readFileSync(there, 'utf8') !== html) {
    console.error('prebuilt/bay.html is not of these sources: run node web/build.mjs and commit it');
    process.exit(1);
}
console.log(`bay.html: ${size} bytes`);
