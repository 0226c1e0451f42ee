// Clears a market, tells one guest why it wins or loses, and posts the round to a book.
//
//     node examples/one_guest.mjs examples/evening.sheet 24
//
// After npm install the module is 'bay-market'.
import { readFileSync } from 'node:fs';
import { codes, load } from '../js/bay_market.mjs';

const [path, word] = process.argv.slice(2);
const guest = Number(word);
try {
    if (!Number.isInteger(guest)) throw new Error('usage: one_guest.mjs FILE GUEST');
    const engine = await load();
    const market = engine.fromSheet(readFileSync(path));
    const { cut, margin } = market.clear();
    const told = market.explain();
    const [guests, stations] = [market.amounts.length, market.asks.length];
    if (guest < 1 || guest > guests) throw new Error(`no guest ${guest}: there are ${guests}`);
    console.log(`cut ${cut} margin ${margin}`);
    const station = told.stations[guest - 1];
    console.log(station > 0
        ? `guest ${guest} wins station ${station} charge ${told.charges[guest - 1]}`
        : `guest ${guest} loses: ${codes[told.reasons[guest - 1]]}`);
    for (let j = 1; j <= stations; j++) {
        console.log(`at station ${j}: ${codes[told.codes[(guest - 1) * stations + j - 1]]}`);
    }
    const book = engine.ledger(200, 40);
    book.post(market, { desk: 0, round: 1 });
    console.log(`posted: guest ${guest} owes ${book.guests[guest - 1]}, the house has ${book.house}`);
} catch (error) {
    console.error(error.message);
    process.exitCode = 1;
}
