// The calls of calls.c and the checks of bay_market.mjs in a browser: node page.mjs ENGINE.wasm CALLS.wasm SEED CALLS
// prints the SHA-256 of the calls' lines, then what the checks say. Serves the files at 127.0.0.1 and starts Debian's
// chromium-headless-shell, or chromium.
import { spawn, spawnSync } from 'node:child_process';
import { createHash } from 'node:crypto';
import { mkdtempSync, readFileSync, rmSync } from 'node:fs';
import { createServer } from 'node:http';
import { tmpdir } from 'node:os';
import { join } from 'node:path';

const SECONDS = 240;
const [engine, calls, seed, count] = process.argv.slice(2);
const browser = ['chromium-headless-shell', 'chromium'].find((name) => spawnSync(name, ['--version']).status === 0);
if (!browser) {
    console.error('no chromium-headless-shell or chromium');
    process.exit(2);
}

const page = `<!doctype html><meta charset="utf-8"><title>bay market</title><script type="module">
const post = (path, body) => fetch(path, { method: 'POST', body });
try {
    const { trace } = await import('./calls.mjs');
    const api = await import('./bay_market.mjs');
    const { run } = await import('./checks.mjs');
    const engine = await WebAssembly.compileStreaming(fetch('./bay_market.wasm'));
    const calls = await WebAssembly.compileStreaming(fetch('./calls.wasm'));
    await post('./trace', trace(engine, calls, ${Number(seed)}, ${Number(count)}));
    await post('./say', await run(api, engine));
    const { cut } = (await api.load()).fromCsv('5\\r\\n1\\r\\n').clear();
    if (cut !== 5) throw new Error('cut ' + cut + ' of an engine by its address');
    await post('./end', '0');
} catch (error) {
    await post('./say', error + ' ' + error.stack);
    await post('./end', '1');
}
</script>`;
const here = new URL('.', import.meta.url), js = new URL('../../js/', here);
const files = {
    '/': ['text/html', () => page],
    '/calls.mjs': ['text/javascript', () => readFileSync(new URL('calls.mjs', here))],
    '/bay_market.mjs': ['text/javascript', () => readFileSync(new URL('bay_market.mjs', js))],
    '/checks.mjs': ['text/javascript', () => readFileSync(new URL('tests/checks.mjs', js))],
    '/bay_market.wasm': ['application/wasm', () => readFileSync(engine)],
    '/calls.wasm': ['application/wasm', () => readFileSync(calls)],
};
const said = {
    '/trace': (body) => console.log(createHash('sha256').update(body).digest('hex')),
    '/say': (body) => console.log(body.toString()),
    '/end': (body) => end(Number(body)),
};

const profile = mkdtempSync(join(tmpdir(), 'bay-market-'));
let child, timer;

// Debian's command is a shell that starts the browser: what is ended is their group, which is of this test alone.
function signal(name) {
    try {
        process.kill(-child.pid, name);
    } catch {
        // it has ended
    }
}

function end(status) {
    clearTimeout(timer);
    server.close();
    server.closeAllConnections();
    signal('SIGTERM');
    setTimeout(() => {
        signal('SIGKILL');
        rmSync(profile, { recursive: true, force: true, maxRetries: 5 });
        process.exit(status);
    }, 500);
}

const server = createServer((request, response) => {
    if (request.method === 'POST' && request.url in said) {
        const parts = [];
        request.on('data', (part) => parts.push(part)).on('end', () => {
            response.end();
            said[request.url](Buffer.concat(parts));
        });
        return;
    }
    const file = files[request.url];
    if (file) response.writeHead(200, { 'content-type': file[0], 'cache-control': 'no-store' }).end(file[1]());
    else response.writeHead(404).end();
});
server.listen(0, '127.0.0.1', () => {
    const root = process.getuid() === 0 ? ['--no-sandbox'] : [];
    // bounds by code: by signals a trap ended the page in Debian's chromium-headless-shell 156
    const bounds = '--disable-features=WebAssemblyTrapHandler';
    const words = ['--headless', ...root, bounds, '--disable-gpu', '--no-first-run', '--disable-background-networking',
        '--disable-component-update', '--disable-dev-shm-usage', `--user-data-dir=${profile}`];
    const address = `http://127.0.0.1:${server.address().port}/`;
    child = spawn(browser, [...words, address], { stdio: 'ignore', detached: true });
    timer = setTimeout(() => {
        console.error(`the page did not end in ${SECONDS} s`);
        end(1);
    }, SECONDS * 1000);
});
