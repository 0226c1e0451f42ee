// node --test js/tests/checks.test.mjs
import assert from 'node:assert/strict';
import { readFileSync } from 'node:fs';
import test from 'node:test';
import * as api from '../bay_market.mjs';
import { checks } from './checks.mjs';

const file = new URL('../bay_market.wasm', import.meta.url), bytes = readFileSync(file);
const compiled = new WebAssembly.Module(bytes);
for (const [name, check] of Object.entries(checks)) {
    test(name, async () => check({ api, compiled, engine: await api.load(compiled) }));
}

test('an engine comes from beside the module, a URL, its text, bytes, a Response or a compiled module', async () => {
    const headers = { 'content-type': 'application/wasm' };
    for (const source of [undefined, file, file.href, bytes, new Response(bytes, { headers }), compiled]) {
        assert.equal((await api.load(source)).fromCsv('5\r\n1\r\n').clear().cut, 5);
    }
    await assert.rejects(api.load(new URL('none.wasm', file)), { code: 'ENOENT' });
    await assert.rejects(api.load(new Response('', { status: 404 })), /no engine at .*: status 404/);
});

test('an engine of another version is not taken, and which it is is said', async () => {
    const start = [0, 97, 115, 109, 1, 0, 0, 0], name = new TextEncoder().encode('bay_market_version');
    const { message } = await api.load(Uint8Array.of(...start)).catch((error) => error);
    assert.equal(message, `no engine of version ${api.version}, of which bay_market.mjs is: `
        + 'the WebAssembly module names no version');
    const other = Uint8Array.of(...start, 1, 5, 1, 96, 0, 1, 127, 3, 2, 1, 0, 7, name.length + 4, 1, name.length, ...name,
        0, 0, 10, 9, 1, 7, 0, 65, 136, 192, 222, 5, 11); // a function that gives 12034056
    await assert.rejects(api.load(other), /the WebAssembly module is of version 12\.34\.56$/);
});

test('the types declare what there is, and the package its version', () => {
    const types = readFileSync(new URL('../bay_market.d.mts', import.meta.url), 'utf8');
    const declared = [...types.matchAll(/^export declare (?:const|class|function) (\w+)/gm)].map((found) => found[1]);
    assert.deepEqual(declared.sort(), Object.keys(api).sort());
    for (const name of ['Engine', 'Market', 'Ledger']) {
        const body = types.match(new RegExp(`^export declare class ${name} \\{.*?^\\}`, 'ms'))[0];
        const methods = [...body.matchAll(/^ {4}(?:readonly |get )?(\w+)[(:<]/gm)].map((found) => found[1]);
        const own = Object.getOwnPropertyNames(api[name].prototype);
        assert.deepEqual(own.filter((method) => !methods.includes(method)), [], name);
    }
    const { version } = JSON.parse(readFileSync(new URL('../package.json', import.meta.url), 'utf8'));
    assert.equal(version, api.version);
});
