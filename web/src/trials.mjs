// What rows of bids do for a guest, asked of the engine: any number of rows in a truthful round, one in a quiet round.

/** The gains of rows in a truthful round, row after row in one list. */
export function gainsOf(market, guest, worths, rows, rule) {
    return market.gains(guest + 1, worths, rows, { rule });
}

/**
 * The stations, 0 for none, at which rows seat the guest in a truthful round. A gain is worth times amount less charge:
 * with worths 1, 2, 3 .. it is larger than with worths of 0 by the station's number times the amount.
 */
export function seatsOf(market, guest, rows, rule) {
    const zeros = new Uint32Array(market.stations), amount = market.amounts[guest];
    const plain = gainsOf(market, guest, zeros, rows, rule);
    const numbered = gainsOf(market, guest, zeros.map((_, j) => j + 1), rows, rule);
    return Array.from(plain, (gain, k) => (numbered[k] - gain) / amount);
}

function gainAt(market, guest, worths, { stations, charges }) {
    const seat = stations[guest];
    return seat ? worths[seat - 1] * market.amounts[guest] - charges[guest] : 0;
}

/** What the guest gains in a quiet round of the market as it is, and where everybody sits. */
export function quietRound(market, guest, worths, rule) {
    const round = market.clearEfficient({ rule });
    return { gain: gainAt(market, guest, worths, round), seat: round.stations[guest], charge: round.charges[guest],
        seats: round.stations };
}

/** A row for a guest in place of its own, in a market that is the caller's to change. */
export function setRow(market, guest, row) {
    market.bids.set(row, guest * market.stations);
}
