// What each function takes of the engine's stack in WebAssembly: node stacks.mjs ENGINE.wasm CALLS.wasm SEED. It is at
// most what the header allows, and at most a third of the stack.
import { readFileSync } from 'node:fs';
import { stacks } from './calls.mjs';

const CALLS = 6000;
const [engine, calls] = process.argv.slice(2, 4).map((path) => new WebAssembly.Module(readFileSync(path)));
const header = readFileSync(new URL('../../include/bay_market.h', import.meta.url), 'utf8');
const limit = (name) => header.match(`BAY_MARKET_${name} (\\d+)`)?.[1];
const allowed = (name) => Number(limit(`MAX_STACK_${name.toUpperCase()}`) ?? limit('MAX_STACK'));
const whole = new WebAssembly.Instance(engine, {}).exports.__stack_pointer.value;
const taken = stacks(engine, calls, Number(process.argv[4]), CALLS);
for (const [name, bytes] of Object.entries(taken)) {
    if (bytes > allowed(name) || 3 * bytes > whole) {
        throw new Error(`${name} takes ${bytes} bytes of ${allowed(name)}, of ${whole} in all`);
    }
}
const falling = Object.entries(taken).sort((one, other) => other[1] - one[1]);
const said = falling.slice(0, 3).map(([name, bytes]) => `${name} took ${bytes}`).join(', ');
console.log(`wasm32 stack of ${whole}: ${said}, the others less`);
