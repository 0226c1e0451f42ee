// The byte at which a sheet is refused: a walk over its fields, as docs/FORMAT.md has them.
import { limits } from '../../js/bay_market.mjs';
import { num } from './format.mjs';

// The fields in their order. What a bit map has is told by the one who walks.
function* sheetFields(n, m) {
    for (let station = 1; station <= m; station++) {
        yield { name: 'ask', length: 4, station };
        yield { name: 'bays', length: 2, station };
    }
    for (let guest = 1; guest <= n; guest++) {
        yield { name: 'amount', length: 2, guest };
        yield { name: 'ticket', length: 4, guest };
        const map = yield { name: 'the bit map', length: Math.ceil(m / 8), guest, map: true };
        for (let station = 1; station <= m; station++) {
            if (map[station - 1 >> 3] >> (station - 1 & 7) & 1) yield { name: 'bid', length: 4, guest, station };
        }
    }
}

function faultOfField(field, bytes, m) {
    if (field.map) {
        const beyond = Array.from({ length: bytes.length * 8 - m }, (_, k) => m + k)
            .find((k) => bytes[k >> 3] >> (k & 7) & 1);
        if (beyond === undefined) return undefined;
        return { number: 3, detail: `the bit of station ${beyond + 1} is set, the market has ${m}` };
    }
    const isEmpty = field.name === 'bid' && bytes.every((byte) => byte === 0);
    return isEmpty ? { number: 19, detail: 'its bit is set and its bid is 0' } : undefined;
}

function faultOfRows(bytes, n, m) {
    const size = bytes.length, walk = sheetFields(n, m);
    let at = 4;
    for (let step = walk.next(); !step.done;) {
        const { name, length, guest, station } = step.value, part = bytes.subarray(at, at + length);
        if (part.length < length) {
            const detail = `${name} wants bytes ${at} to ${at + length - 1}, the sheet has ${size} bytes`;
            return { number: 1, byte: size, guest, station, detail };
        }
        const fault = faultOfField(step.value, part, m);
        if (fault) return { ...fault, byte: at, guest, station };
        at += length;
        step = walk.next(part);
    }
    return { number: 4, byte: at, detail: `the market ends here, the sheet has ${num(size - at)} bytes more` };
}

function faultOfSheet(bytes) {
    const size = bytes.length;
    if (size === 0) return { number: 1, byte: 0, detail: 'the file is empty' };
    if (size < 4) return { number: 1, byte: size, detail: `the header wants 4 bytes, the sheet has ${size}` };
    const n = bytes[0] + 256 * bytes[1], m = bytes[2] + 256 * bytes[3];
    if (n <= limits.guests && m > 0 && m <= limits.stations) return faultOfRows(bytes, n, m);
    const detail = `the header says ${num(n)} guests and ${num(m)} stations`;
    return { number: 2, byte: n > limits.guests ? 0 : 2, detail };
}

/** The place at which a sheet is refused with this number. */
export function inSheet(bytes, number) {
    const { number: found, ...where } = faultOfSheet(bytes);
    return found === number ? where : {};
}
