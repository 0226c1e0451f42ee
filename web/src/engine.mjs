// The engine of the page: bay_market.mjs over the module that stands in it.
import { load } from '../../js/bay_market.mjs';
import { unpack } from './unpack.mjs';

function bytesOf({ packed, length }) {
    return unpack(Uint8Array.from(atob(packed), (c) => c.charCodeAt(0)), length);
}

export const samples = globalThis.bay.samples;

export function sheetOf(sample) {
    return bytesOf(sample.sheet);
}

/** The compiled module, which the worker takes too, and an engine. */
export async function start() {
    const compiled = await WebAssembly.compile(bytesOf(globalThis.bay.wasm));
    return { compiled, engine: await load(compiled) };
}
