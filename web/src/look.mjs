// The engine's answers to a market, put in the order in which the picture shows them. Who is a candidate, who holds a
// place, floors, prices, seats, charges and sums are the engine's; what is worked out here is the order of a queue
// (falling total, then ticket) and, in a quiet round, who was turned away: the engine gives no codes of that round.

const HELD = 0, BELOW_CUT = 3, OUTBID = 4;

function stationOf(market, round, j) {
    const { asks, bays } = market;
    return { j, ask: asks[j], bays: bays[j], open: asks[j] < round.cut, bids: 0, queue: [], below: [], floor: 0,
        first: undefined, sold: round.sold[j], paid: round.paid[j] };
}

function candidateOf(market, round, i, j) {
    const bid = market.bids[i * market.stations + j], amount = market.amounts[i], seat = round.stations[i];
    return { guest: i, bid, total: bid * amount, least: round.cut * amount, seat, here: seat === j + 1,
        charge: round.charges[i] };
}

function fill(station, market, round, codes) {
    const m = market.stations, { j } = station;
    for (let i = 0; i < market.guests; i++) {
        const bid = market.bids[i * m + j], code = codes[i * m + j];
        if (bid > 0) station.bids++;
        if (code === BELOW_CUT) station.below.push({ guest: i, bid });
        if (code === HELD || code === OUTBID) station.queue.push(candidateOf(market, round, i, j));
    }
    station.queue.sort((a, b) => b.total - a.total || market.tickets[a.guest] - market.tickets[b.guest]);
    station.queue.forEach((candidate, k) => { candidate.rank = k + 1; });
    station.below.sort((a, b) => b.bid - a.bid || a.guest - b.guest);
}

// A truthful round: places and floors are given; a place that its guest does not take costs what its price list says.
function markPlaces(station, market, round, priceOf) {
    for (const candidate of station.queue) {
        candidate.held = round.places[candidate.guest * market.stations + station.j] === 1;
        if (candidate.held && !candidate.here) candidate.charge = priceOf(candidate.guest, station.j);
    }
    station.floor = round.floors[station.j];
    station.first = station.queue.find((candidate) => !candidate.held);
}

// A quiet round: who is turned away at a station stands there in the row of all candidacies before its own seat.
function markTurns(station, market) {
    for (const candidate of station.queue) {
        const { guest, seat, total } = candidate;
        const own = seat ? market.bids[guest * market.stations + seat - 1] * market.amounts[guest] : -1;
        candidate.held = candidate.here;
        candidate.away = !candidate.here && (!seat || total > own || (total === own && station.j + 1 < seat));
    }
    station.first = station.queue.find((candidate) => candidate.away);
    station.floor = station.first ? station.first.total : 0;
}

const sum = (list) => list.reduce((a, b) => a + b, 0);

function prices(market, rule) {
    const menus = new Map();
    return (guest, j) => {
        if (!menus.has(guest)) menus.set(guest, market.menu(guest + 1, { rule }).prices);
        return menus.get(guest)[j];
    };
}

/** The clearing of a market: its sums, and for each station its queue, places, floor and who bids below the cut. */
export function look(market, rule, quiet) {
    const round = quiet ? market.clearEfficient({ rule }) : market.clearMarked({ rule });
    const { codes, reasons } = market.explain({ rule });
    const stations = Array.from({ length: market.stations }, (_, j) => stationOf(market, round, j));
    const priceOf = prices(market, rule);
    for (const station of stations) {
        fill(station, market, round, codes);
        if (quiet) markTurns(station, market);
        else markPlaces(station, market, round, priceOf);
        if (station.first) station.first.first = true;
        station.held = station.queue.filter((candidate) => candidate.held);
        station.out = station.queue.filter((candidate) => !candidate.held);
    }
    const { cut, margin, charges, stations: seats } = round;
    return { market, rule, quiet, cut, margin, seats, charges, codes, reasons, stations,
        seated: seats.filter((seat) => seat > 0).length, charged: sum(charges), paid: sum(round.paid),
        open: stations.filter(({ open }) => open) };
}
