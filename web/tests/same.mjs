// What tests compare by.

export function same(got, want, what) {
    const [one, other] = [got, want].map((value) => JSON.stringify(value));
    if (one !== other) throw new Error(`${what}: ${one}, expected ${other}`);
}

export function starts(text, want) {
    if (!text.startsWith(want)) throw new Error(`${text}\nexpected ${want} ..`);
}
