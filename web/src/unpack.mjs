// Bytes that web/pack.mjs has packed, of a known length.

export function unpack(packed, length) {
    const bytes = new Uint8Array(length);
    let at = 0, to = 0;
    const continued = (nibble) => {
        let sum = nibble, more = nibble === 15 ? 255 : 0;
        while (more === 255) sum += more = packed[at++];
        return sum;
    };
    while (to < length) {
        const lengths = packed[at++], literals = continued(lengths >> 4);
        bytes.set(packed.subarray(at, at + literals), to);
        at += literals;
        to += literals;
        if (to >= length) break;
        const distance = packed[at] | packed[at + 1] << 8;
        at += 2;
        for (let left = continued(lengths & 15) + 4; left > 0; left--, to++) bytes[to] = bytes[to - distance];
    }
    return bytes;
}
