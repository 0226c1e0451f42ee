// How a guest's gain moves with one of its bids, the others as told: steps { from, gain, seat }, in both rounds. Asked
// at every whole bid up to some hundreds, else at as many places and, between two that differ, by halving.
import { gainsOf, quietRound, seatsOf, setRow } from './trials.mjs';

const PLACES = 600, PLACES_OF_MANY = 200; // of more than 60 guests, whose quiet rounds take longer

const differ = (a, b) => a.gain !== b.gain || a.seat !== b.seat;

// `ask` gives { gain, seat } for each of some bids.
function steps(ask, most, places) {
    const parts = Math.min(most, places);
    const bids = Array.from({ length: parts + 1 }, (_, k) => Math.round(most * k / parts));
    const told = ask(bids), found = [{ from: 0, ...told[0] }];
    const halve = (low, lowTold, high, highTold) => {
        if (!differ(lowTold, highTold)) return;
        if (high - low === 1) {
            found.push({ from: high, ...highTold });
            return;
        }
        const middle = low + high >> 1, [middleTold] = ask([middle]);
        halve(low, lowTold, middle, middleTold);
        halve(middle, middleTold, high, highTold);
    };
    for (let k = 1; k < bids.length; k++) halve(bids[k - 1], told[k - 1], bids[k], told[k]);
    return found;
}

function rowsWith(row, station, bids) {
    const m = row.length, rows = new Uint32Array(m * bids.length);
    bids.forEach((bid, k) => {
        rows.set(row, k * m);
        rows[k * m + station] = bid;
    });
    return rows;
}

export function truthfulCurve(market, { guest, worths, row, station, rule }, most) {
    return steps((bids) => {
        const rows = rowsWith(row, station, bids), gains = gainsOf(market, guest, worths, rows, rule);
        return seatsOf(market, guest, rows, rule).map((seat, k) => ({ gain: gains[k], seat }));
    }, most, PLACES);
}

export function quietCurve(market, { guest, worths, row, station, rule }, most) {
    const changed = market.withRow(guest + 1, row), told = Array.from(row);
    return steps((bids) => bids.map((bid) => {
        told[station] = bid;
        setRow(changed, guest, told);
        const { gain, seat } = quietRound(changed, guest, worths, rule);
        return { gain, seat };
    }), most, market.guests > 60 ? PLACES_OF_MANY : PLACES);
}
