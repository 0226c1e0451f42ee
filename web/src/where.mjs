// Where a fault lies: a help after the engine has refused, found by looking at what it was lent. The engine says what
// is refused; in files (insheet.mjs, intext.mjs) a place is shown only where the walk comes to the same number. Lines
// and fields are numbered from 1, bytes from 0.
import { limits } from '../../js/bay_market.mjs';
import { num } from './format.mjs';

const firstOf = (values, wrong) => Array.from(values).findIndex(wrong);

function ofStation(k, detail, line) {
    return { station: k + 1, line, field: k + 1, detail };
}

function ofGuest(k, detail, field) {
    return { guest: k + 1, line: k + 3, field, detail };
}

function repeated(tickets) {
    const seen = new Map();
    for (const [k, ticket] of Array.from(tickets).entries()) {
        if (seen.has(ticket)) return ofGuest(k, `ticket ${ticket} is guest ${seen.get(ticket) + 1}'s too`, 1);
        seen.set(ticket, k);
    }
    return {};
}

/** The first value of a market that has the fault of this number, with its line and field as comma-separated text. */
export function inMarket({ asks, bays, amounts, tickets, bids }, number) {
    const m = asks.length;
    if (number === 2) return { detail: `${num(amounts.length)} guests, ${num(m)} stations` };
    if (number === 6) {
        const k = firstOf(asks, (v) => v > limits.price);
        return ofStation(k, `its ask is ${num(asks[k])}`, 1);
    }
    if (number === 7) {
        const k = firstOf(bays, (v) => v < 1 || v > limits.bays);
        return ofStation(k, `its bays are ${num(bays[k])}`, 2);
    }
    if (number === 8) {
        const k = firstOf(amounts, (v) => v < 1 || v > limits.amount);
        return ofGuest(k, `its amount is ${num(amounts[k])}`, 2);
    }
    if (number === 9) {
        const k = firstOf(bids, (v) => v > limits.price), guest = Math.floor(k / m);
        return { ...ofGuest(guest, `the bid is ${num(bids[k])}`, k % m + 3), station: k % m + 1 };
    }
    return number === 15 ? repeated(tickets) : {};
}

/** What two markets differ in, or have both: the place is one of the second. */
export function inSecond(first, second, number) {
    if (number === 2) return { detail: `${num(first.guests + second.guests)} guests together` };
    if (number === 21) {
        const k = firstOf(second.tickets, (ticket) => first.tickets.includes(ticket));
        const other = firstOf(first.tickets, (ticket) => ticket === second.tickets[k]);
        return ofGuest(k, `ticket ${second.tickets[k]} is guest ${other + 1}'s here`, 1);
    }
    if (number !== 20) return inMarket(second, number);
    if (first.stations !== second.stations) {
        return { detail: `${num(second.stations)} stations, here are ${num(first.stations)}` };
    }
    for (const [line, list, name] of [[1, 'asks', 'ask'], [2, 'bays', 'bays']]) {
        const k = firstOf(second[list], (v, j) => v !== first[list][j]);
        if (k >= 0) return ofStation(k, `${name} ${num(second[list][k])}, here ${num(first[list][k])}`, line);
    }
    return {};
}

function column(field) {
    return (field > 26 ? String.fromCharCode(64 + Math.floor((field - 1) / 26)) : '')
        + String.fromCharCode(65 + (field - 1) % 26);
}

/** The place in words: file, line and field with the spreadsheet's cell, or byte; then whose it is. */
export function placeWords({ byte, line, field, guest, station }, file, isText) {
    const cell = line && isText ? `line ${line}, field ${field} (cell ${column(field)}${line})`
        : byte !== undefined ? `byte ${byte}` : '';
    const place = [file, cell].filter(Boolean).join(', ');
    const who = [guest && `guest ${guest}`, station && `station ${station}`].filter(Boolean).join(', ');
    return [place, who].filter(Boolean).join(': ');
}
