// Random markets, the same for the same seed.
export function random(seed) {
    let s = seed >>> 0 || 1;
    return (below) => {
        s ^= s << 13;
        s ^= s >>> 17;
        s ^= s << 5;
        return (s >>> 0) % below;
    };
}

/** A market's lists: few values, so that totals, asks and gains are often equal. */
export function lists(next, guests = next(11), stations = 1 + next(6)) {
    const price = [8, 30, 1000][next(3)], some = (k, make) => Array.from({ length: k }, make);
    const tickets = some(guests, (_, i) => i + 1 + 300 * next(1000));
    return { asks: some(stations, () => next(price)), bays: some(stations, () => 1 + next(3)),
        amounts: some(guests, () => 1 + next(9)), tickets,
        bids: some(guests * stations, () => (next(3) ? 1 + next(price) : 0)) };
}
