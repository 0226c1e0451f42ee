// What decided, in words. `seen` is what look.mjs gives; guests and stations are counted from 0 here, shown from 1.
import { count, nth, num } from './format.mjs';

const LOSSES = { 1: 'it made no bid', 2: 'no station that it bid for is open', 3: 'its bids are below the cut',
    4: 'outbid' };

/** A guest's outcome in a sentence. */
export function outcome(seen, guest) {
    const seat = seen.seats[guest];
    if (seat) return `Seated at station ${seat} for ${num(seen.charges[guest])}.`;
    const reason = seen.reasons[guest]; // 1 to 3 hold in both rounds; 0 is a seat of the truthful one alone
    return seen.quiet && (reason === 4 || reason === 0) ? 'No seat: turned away.' : `No seat: ${LOSSES[reason]}.`;
}

/** The outcome in a few words, for a row of the table. */
export function outcomeShort(seen, guest) {
    return outcome(seen, guest).replace('No seat: ', '').replace(/\.$/, '');
}

function sumWords({ market }, candidate) {
    return `${num(candidate.bid)} × ${num(market.amounts[candidate.guest])} kWh = ${num(candidate.total)}`;
}

function lineWords(station, candidate) {
    return `${nth(candidate.rank)} of ${station.queue.length} for ${count(station.bays, 'bay')}`;
}

function chargeWords(seen, station, candidate) {
    const { floor, first } = station;
    if (candidate.charge === floor && floor > candidate.least) return `the floor, set by guest ${first.guest + 1}`;
    const least = `cut ${num(seen.cut)} × ${num(seen.market.amounts[candidate.guest])} kWh`;
    return least + (floor ? `, not below the floor of ${num(floor)}` : ', no floor');
}

function seatedWords(seen, station, candidate) {
    const keeps = num(candidate.total - candidate.charge);
    return { state: 'seated', head: `Seated here, pays ${num(candidate.charge)}`,
        more: `${sumWords(seen, candidate)}, ${lineWords(station, candidate)}. `
            + `Charge: ${chargeWords(seen, station, candidate)}. Keeps ${keeps}.` };
}

function quietWords(seen, station, candidate) {
    const sum = sumWords(seen, candidate);
    if (!candidate.away) {
        const more = `${sum}. By its turn it was seated at station ${candidate.seat} already.`;
        return { state: 'else', head: 'Skipped', more };
    }
    const bays = station.bays === 1 ? 'the bay was' : `all ${station.bays} bays were`;
    const first = candidate.first ? ' The first turned away, so its total is the floor.' : '';
    return { state: stateOf(seen, candidate), head: 'Turned away',
        more: `${sum}. Before its turn ${bays} taken.${first}` };
}

function heldWords(seen, station, candidate) {
    const there = seen.stations[candidate.seat - 1].queue.find(({ guest }) => guest === candidate.guest);
    const here = candidate.total - candidate.charge, kept = there.total - there.charge;
    const tie = here === kept ? ', and the lower number goes first' : '';
    return { state: 'else', head: `Holds a place, sits at station ${candidate.seat}`,
        more: `${sumWords(seen, candidate)}, ${lineWords(station, candidate)}. `
            + `Here it would keep ${num(here)}, there ${num(kept)}${tie}. This place goes to nobody.` };
}

function outbidWords(seen, station, candidate) {
    const { tickets } = seen.market, last = station.held[station.held.length - 1];
    const tie = last.total === candidate.total
        ? `: equal, but ticket ${tickets[last.guest]} is lower than ${tickets[candidate.guest]}` : '';
    const floor = candidate.first ? ' Its total is the floor.' : '';
    return { state: stateOf(seen, candidate), head: candidate.first ? 'Outbid, first without a place' : 'Outbid',
        more: `${sumWords(seen, candidate)}, ${lineWords(station, candidate)}. `
            + `The last place went to guest ${last.guest + 1} with ${num(last.total)}${tie}.${floor}` };
}

/** What decided about a guest at a station: a state, a headline and the numbers. */
export function decided(seen, guest, station) {
    const at = guest * seen.market.stations + station.j, bid = num(seen.market.bids[at]), cut = num(seen.cut);
    const code = seen.codes[at];
    if (code === 1) return { state: 'none', head: 'No bid', more: '' };
    if (code === 2) {
        const ask = `Its ask of ${num(station.ask)} is not below the cut of ${cut}.`;
        return { state: 'shut', head: 'Station not open', more: `${ask} The bid of ${bid} counts for nothing.` };
    }
    if (code === 3) return { state: 'low', head: 'Bid below the cut', more: `${bid} per kWh, and the cut is ${cut}.` };
    const candidate = station.queue.find((one) => one.guest === guest);
    if (candidate.here) return seatedWords(seen, station, candidate);
    if (seen.quiet) return quietWords(seen, station, candidate);
    return (candidate.held ? heldWords : outbidWords)(seen, station, candidate);
}

/** The state of a candidate as the picture draws it. */
export function stateOf(seen, candidate) {
    if (candidate.here) return 'seated';
    if (candidate.held) return 'else';
    if (candidate.first) return 'first';
    return seen.quiet && !candidate.away ? 'else' : 'outbid';
}

/** What the fills and marks of the picture mean. */
export function keyWords({ quiet }) {
    return { seated: 'seated; the strong part is the charge',
        else: quiet ? 'seated elsewhere' : 'holds it, sits elsewhere',
        first: quiet ? 'first turned away' : 'first without a place', outbid: quiet ? 'turned away' : 'outbid',
        floor: 'floor', tie: 'equal totals, the ticket decides', cut: 'cut × kWh' };
}

/** Whether two candidates of a queue have equal totals. */
export function hasTies({ open }) {
    return open.some(({ queue }) => queue.some(({ total }, k) => k > 0 && total === queue[k - 1].total));
}

/** The parts of a column, from the top. */
export function bandWords({ quiet }) {
    return { held: quiet ? 'Seated' : 'Places', out: quiet ? 'Not seated' : 'No place', below: 'Below cut' };
}

export function freeWords(free, isShort) {
    return isShort ? `${free} free` : free === 1 ? 'one bay free' : `${free} bays free`;
}

export function soldWords({ sold, paid }) {
    return sold ? `sold ${num(sold)} kWh, paid ${num(paid)}` : 'sold nothing';
}

export function shutWords({ ask, bids }) {
    return `ask ${num(ask)}, ${bids ? count(bids, 'bid') : 'no bids'}`;
}

export function shutLead({ cut }) {
    return `ask at or above the cut of ${num(cut)}; bids there count for nothing`;
}

/** A candidate in one line, for labels and titles. */
export function label(seen, candidate) {
    const sits = candidate.seat ? `, sits at station ${candidate.seat}` : '';
    const what = {
        seated: `seated here, pays ${num(candidate.charge)}`,
        else: seen.quiet ? `skipped${sits}` : `holds a place${sits}`,
        first: (seen.quiet ? 'first turned away, sets the floor' : 'first without a place, sets the floor') + sits,
        outbid: (seen.quiet ? 'turned away' : 'without a place') + sits,
    }[stateOf(seen, candidate)];
    return `Guest ${candidate.guest + 1}, total ${num(candidate.total)}, ${what}`;
}
