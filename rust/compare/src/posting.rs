//! Lists of postings against the plain book.

use crate::Tally;
use crate::call;
use crate::markets::{Change, PAIRS, Pair, RULES, accepted, any_rule, changed, changes, middling, shapes, show};
use reference::faults::{ListLengths, MAX_DESKS, MAX_GUESTS, MAX_PRICE, MAX_STATIONS};
use reference::ledger::{Ledger, MAX_ACCOUNT, MAX_ROUND};
use reference::market::Market;
use reference::random::{Random, Shape};

/// Posts to the engine and to the plain book, and holds one to the other.
fn check(
    random: &mut Random,
    tally: &mut Tally,
    ledger: &mut Ledger,
    rule: u8,
    market: &Market,
    desk: u8,
    round: u32,
) -> Result<(), String> {
    let before = ledger.clone();
    let expected = ledger.post(rule, market, desk, round);
    tally.count(&expected);
    let posting = call::Posting { rule, market, desk, round, before: &before, expected, after: ledger };
    call::post(random, &posting).map_err(|what| {
        format!("{what}\nrule {rule}\ndesk {desk}\nround {round}\nledger {before:?}\nexpected {ledger:?}\n{}", show(market))
    })
}

/// How many accounts of a kind a ledger has: mostly enough for the greatest count, now and then too few or too many.
fn accounts(random: &mut Random, greatest: u64, limit: u64) -> usize {
    let accounts = match random.below(16) {
        0 => limit + 1,
        1 => random.within(0..=greatest),
        2 => greatest - 1,
        3..10 => greatest,
        _ => random.within(greatest..=limit),
    };
    accounts as usize
}

/// How many last rounds a ledger has: mostly one for each desk.
fn lasts(random: &mut Random) -> usize {
    match random.below(16) {
        0 => random.below(MAX_DESKS),
        1 => random.within(9..=300) as usize,
        2 => MAX_DESKS - 1,
        3 => MAX_DESKS + 1,
        _ => MAX_DESKS,
    }
}

fn round(random: &mut Random, last: u128) -> u32 {
    let next = (last as u32).wrapping_add(1);
    match random.below(12) {
        0 => last as u32,
        1 => next.wrapping_add(1),
        2 => *random.pick(&[0, 1, u32::MAX]),
        _ => next,
    }
}

/// Moves one account next to the limit, so that what the market adds to it decides.
fn to_the_limit(random: &mut Random, ledger: &mut Ledger, rule: u8, market: &Market) {
    // what the market adds to each account: nothing where it is refused
    let mut added = Ledger::empty(ledger.guests.len(), ledger.stations.len());
    let _ = added.post(rule, market, 0, 1);
    let mut accounts: Vec<(&mut u128, u128)> = ledger.guests.iter_mut().zip(added.guests).collect();
    for (account, added) in ledger.stations.iter_mut().zip(added.stations) {
        accounts.push((&mut account.sold, added.sold));
        accounts.push((&mut account.paid, added.paid));
    }
    accounts.push((&mut ledger.house, added.house));
    if random.chance(70) && accounts.iter().any(|(_, added)| *added > 0) {
        accounts.retain(|(_, added)| *added > 0);
    }
    let which = random.below(accounts.len());
    let (account, added) = &mut accounts[which];
    let greatest = u128::from(u64::MAX);
    **account = match random.below(12) {
        0 => MAX_ACCOUNT,
        1 => MAX_ACCOUNT + 1,
        2 => greatest,
        // a 64-bit sum would come out as 0
        3 => greatest.min(greatest + 1 - *added),
        4..6 => MAX_ACCOUNT - *added + 1,
        6 => MAX_ACCOUNT - *added - 1,
        _ => MAX_ACCOUNT - *added,
    };
}

/// A list of postings to one ledger. Where `moved`, accounts are moved to their limit in between; otherwise the ledger
/// starts empty and has no other writer.
fn list(random: &mut Random, tally: &mut Tally, shapes: &[Shape], moved: bool) -> Result<(), String> {
    let shape = [random.pick(shapes).clone()];
    let guests = accounts(random, *shape[0].guests.end(), MAX_GUESTS as u64);
    let stations = accounts(random, *shape[0].stations.end(), MAX_STATIONS as u64);
    let mut ledger = Ledger::empty(guests, stations);
    if moved {
        let rounds = [0, 1, 65_535, 65_536, MAX_ROUND / 2, MAX_ROUND - 3, MAX_ROUND - 1, MAX_ROUND];
        ledger.last = (0..lasts(random)).map(|_| *random.pick(&rounds)).collect();
    }
    // in some lists one desk posts all, in the others two or all eight do
    let desks = *random.pick(&[1, 2, MAX_DESKS]);
    let first = random.below(MAX_DESKS + 1 - desks);
    let postings = if random.chance(2) { 13..=80 } else { 1..=12 };
    for _ in 0..random.within(postings) {
        let mut market = accepted(random, &shape);
        if random.chance(15) {
            let changes = changes(market.guests(), market.stations());
            let mut lists = ListLengths::of(&market);
            for _ in 0..random.within(1..=2) {
                random.pick(&changes).apply(random, &mut market, &mut lists);
            }
        }
        let rule = any_rule(random);
        if moved && random.chance(40) {
            to_the_limit(random, &mut ledger, rule, &market);
        }
        let desk = if random.chance(5) { random.within(8..=255) as u8 } else { (first + random.below(desks)) as u8 };
        let last = ledger.last.get(usize::from(desk)).copied().unwrap_or(0);
        let round = round(random, last);
        check(random, tally, &mut ledger, rule, &market, desk, round)?;
        if moved && random.chance(30) {
            ledger = Ledger { last: ledger.last.clone(), ..Ledger::empty(guests, stations) };
        }
    }
    if !moved && !ledger.balances() {
        return Err(format!("the plain book does not balance: {ledger:?}"));
    }
    Ok(())
}

/// Every choice of a bid out of range, equal tickets, a book too small, a list of last rounds too short or too long, a desk
/// too high, a round out of turn and an account over its limit: the first of them is answered.
fn in_turn(random: &mut Random, tally: &mut Tally, pair: Pair) -> Result<(), String> {
    let sound = Shape { guests: 2..=40, ..middling() }.market(random);
    let equal = changed(random, &sound, Change::Tickets(pair, 0));
    for choice in 0..1 << 7 {
        let chosen = |fault: u32| choice >> fault & 1 == 1;
        let mut market = if chosen(1) { equal.clone() } else { sound.clone() };
        if chosen(0) {
            *market.bids.last_mut().expect("a bid") = MAX_PRICE + 1;
        }
        let mut ledger = Ledger::empty(market.guests() - usize::from(chosen(2)), market.stations());
        if chosen(3) {
            ledger.last.resize(*random.pick(&[MAX_DESKS - 1, MAX_DESKS + 1]), 0);
        }
        let desk = if chosen(4) { MAX_DESKS } else { random.below(MAX_DESKS) } as u8;
        let round = 1 + u32::from(chosen(5));
        if chosen(6) {
            ledger.house = MAX_ACCOUNT + 1;
        }
        for rule in RULES {
            check(random, tally, &mut ledger.clone(), rule, &market, desk, round)?;
        }
    }
    Ok(())
}

/// One desk posts the last two rounds that there are and is refused from then on, while the others go on; the rules mix.
fn to_the_last_round(random: &mut Random, tally: &mut Tally, ending: usize) -> Result<(), String> {
    let mut ledger = Ledger::empty(MAX_GUESTS, MAX_STATIONS);
    ledger.last[ending] = MAX_ROUND - 2;
    for _ in 0..4 {
        for desk in 0..MAX_DESKS {
            let market = accepted(random, &[middling()]);
            let rule = *random.pick(&RULES[..2]);
            let next = (ledger.last[desk] as u32).wrapping_add(1);
            check(random, tally, &mut ledger, rule, &market, desk as u8, next)?;
        }
    }
    let ended = (0..MAX_DESKS).all(|desk| ledger.last[desk] == if desk == ending { MAX_ROUND } else { 4 });
    if ended { Ok(()) } else { Err(format!("the plain book's last rounds are {:?}", ledger.last)) }
}

pub fn run(random: &mut Random, tally: &mut Tally, cases: usize) -> Result<(), String> {
    for pair in PAIRS {
        in_turn(random, tally, pair)?;
    }
    for ending in 0..MAX_DESKS {
        to_the_last_round(random, tally, ending)?;
    }
    let shapes = shapes();
    for case in 0..cases {
        list(random, tally, &shapes, case % 2 == 1)?;
    }
    tally.require(&[0, 2, 5, 6, 7, 8, 9, 11, 12, 13, 15, 18, 25])
}
