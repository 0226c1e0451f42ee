// The calls of calls.c, or the checks of bay_market.mjs, in JavaScriptCore, the engine of Safari, by its shell:
//     jsc -m jsc.mjs -- ENGINE.wasm CALLS.wasm SEED CALLS      or      jsc -m jsc.mjs -- ENGINE.wasm
import * as api from '../../js/bay_market.mjs';
import { run } from '../../js/tests/checks.mjs';
import { trace } from './calls.mjs';

const [engine, calls, seed, count] = globalThis.arguments;
const compiled = (path) => new WebAssembly.Module(globalThis.readFile(path, 'binary'));
if (calls) globalThis.print(trace(compiled(engine), compiled(calls), Number(seed), Number(count)).trimEnd());
else globalThis.print(await run(api, compiled(engine)));
