// The calls of calls.c in WebAssembly, where it is a module beside the engine's, in one memory:
//     node calls.mjs ENGINE.wasm CALLS.wasm SEED CALLS        or        time SEED N M
// prints the lines of `calls` with these words. Pages and JavaScriptCore import trace.
const PAGES = 64; // calls.wasm stands from 1 MiB on, below 4
const PAINT = 0xA5A5A5A5;
const WARM = 2000, TIMED = 60, PASSES = 25; // V8 compiles a function again once it has run for long enough

// An engine and the calls, over its memory.
function joined(engine, calls) {
    const { exports } = new WebAssembly.Instance(engine, {});
    exports.memory.grow(PAGES - exports.memory.buffer.byteLength / 65536);
    const { name, sum, ...made } = new WebAssembly.Instance(calls, { env: exports }).exports;
    const bytes = new Uint8Array(exports.memory.buffer);
    const text = (at) => {
        let to = at;
        while (bytes[to] !== 0) to++;
        return String.fromCharCode(...bytes.subarray(at, to));
    };
    return { ...made, bytes, stack: exports.__stack_pointer, name: () => text(name()), sum: () => sum() >>> 0 };
}

export function trace(engine, calls, seed, count) {
    const { begin, call, name, sum } = joined(engine, calls), lines = [];
    begin(seed);
    for (let k = 0; k < count; k++) {
        const answer = call();
        lines.push(`${k} ${name()} ${answer} ${sum().toString(16).padStart(8, '0')}\n`);
    }
    return lines.join('');
}

// The most bytes of the engine's stack that a call of each function takes, in so many calls.
export function stacks(engine, calls, seed, count) {
    const { bytes, stack, begin, call, name } = joined(engine, calls), most = {};
    const top = stack.value, words = new Uint32Array(bytes.buffer, 0, top / 4);
    begin(seed);
    for (let k = 0; k < count; k++) {
        words.fill(PAINT);
        call();
        let untouched = 0;
        while (words[untouched] === PAINT) untouched++;
        most[name()] = Math.max(most[name()] ?? 0, top - 4 * untouched);
    }
    return most;
}

// Of each function the nanoseconds of a call: the least of PASSES over TIMED calls each.
function times(engine, calls, seed, n, m) {
    const { begin, prepare, repeat, name } = joined(engine, calls), lines = [];
    begin(seed);
    for (let which = 0; prepare(which, n, m) !== 0; which++) repeat(WARM);
    begin(seed);
    for (let which = 0; prepare(which, n, m) !== 0; which++) {
        let answers = 0, least = Infinity;
        for (let pass = 0; pass < PASSES; pass++) {
            const from = performance.now();
            answers |= repeat(TIMED);
            least = Math.min(least, (performance.now() - from) * 1e6 / TIMED);
        }
        lines.push(`${name()} ${Math.round(least)}\n`);
        if (answers !== 0) throw new Error(`${name()} is refused`);
    }
    return lines.join('');
}

if (typeof process !== 'undefined' && process.argv[1]?.endsWith('/calls.mjs')) {
    const { readFileSync } = await import('node:fs');
    const [engine, calls] = process.argv.slice(2, 4).map((path) => new WebAssembly.Module(readFileSync(path)));
    const words = process.argv.slice(4), numbers = words.filter((word) => word !== 'time').map(Number);
    process.stdout.write(words[0] === 'time' ? times(engine, calls, ...numbers) : trace(engine, calls, ...numbers));
}
