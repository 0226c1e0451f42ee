// Packs bytes for the page, so that it stays small; src/unpack.mjs is the other way. Written here because the bytes of
// a library's compression change with its version, and those of the page follow from the sources alone.
//
// A block is a byte with two lengths of 4 bits, of literals and of a match less LEAST, each continued by bytes where it
// is 15; then the literals, then two bytes with the distance back to the match. The last block has no match.

const LEAST = 4, FAR = 65535, TRIES = 256;

function lengthBytes(length) {
    const bytes = [];
    for (let left = length - 15; left >= 0; left -= 255) bytes.push(Math.min(left, 255));
    return bytes;
}

function block(literals, match) {
    const longer = match ? match.length - LEAST : 0;
    return [Math.min(literals.length, 15) << 4 | Math.min(longer, 15), ...lengthBytes(literals.length), ...literals,
        ...(match ? [match.distance & 255, match.distance >> 8, ...lengthBytes(longer)] : [])];
}

// Where the four bytes at each place stood before, last first.
class Seen {
    places = new Map();

    constructor(bytes) {
        this.bytes = bytes;
    }

    key(at) {
        const { bytes } = this;
        return bytes[at] | bytes[at + 1] << 8 | bytes[at + 2] << 16 | bytes[at + 3] << 24;
    }

    add(at) {
        if (at + LEAST > this.bytes.length) return;
        const key = this.key(at), before = this.places.get(key);
        if (before) before.push(at);
        else this.places.set(key, [at]);
    }

    longest(at) {
        const { bytes } = this, before = at + LEAST > bytes.length ? [] : this.places.get(this.key(at)) ?? [];
        let best;
        for (let k = before.length - 1; k >= Math.max(0, before.length - TRIES) && at - before[k] <= FAR; k--) {
            let length = LEAST;
            while (at + length < bytes.length && bytes[before[k] + length] === bytes[at + length]) length++;
            if (!best || length > best.length) best = { length, distance: at - before[k] };
        }
        return best;
    }
}

export function pack(bytes) {
    const seen = new Seen(bytes), packed = [];
    let from = 0, at = 0;
    while (at < bytes.length) {
        const match = seen.longest(at);
        seen.add(at);
        const later = match && seen.longest(at + 1);
        if (!match || later?.length > match.length + 1) {
            at++;
            continue;
        }
        packed.push(...block(bytes.subarray(from, at), match));
        for (let k = 1; k < match.length; k++) seen.add(at + k);
        at += match.length;
        from = at;
    }
    return Uint8Array.from([...packed, ...block(bytes.subarray(from))]);
}
