//! Answers calls, for callers in other languages. A line of standard input is a call: its name and lists of numbers,
//! each after a semicolon, the numbers parted by blanks. The line of its answer is `refused N`, or lists in that form.

use reference::clearing::{Outcome, clear, clear_efficient};
use reference::explaining::{GuestOutcome, explain};
use reference::faults::{self, ExplanationLengths, FullLengths, ListLengths};
use reference::gates::{join, joined_lengths};
use reference::ledger::{Ledger, StationAccount};
use reference::market::Market;
use reference::marking::{Submission, clear_fully, mark};
use reference::menus::{gains, price_list};
use reference::other_rows::{OtherRow, try_row};
use reference::places::{Places, place_bids};
use reference::{csv, sheet};
use std::fmt::{Debug, Display};
use std::io::{self, BufRead, Write};
use std::str::FromStr;

/// The lists of a call that are not taken yet.
struct Call<'a>(std::str::Split<'a, char>);

impl Call<'_> {
    fn list<T: FromStr<Err: Debug>>(&mut self) -> Vec<T> {
        let list = self.0.next().expect("a list is missing");
        list.split_whitespace().map(|number| number.parse().expect("not a number of its list")).collect()
    }

    fn one<T: FromStr<Err: Debug> + Copy>(&mut self) -> T {
        self.list()[0]
    }

    fn market(&mut self) -> Market {
        let mut market = Market::new(&self.list(), &self.list(), &self.list(), &self.list(), &self.list());
        market.width = self.one();
        market
    }

    fn places(&mut self) -> Places {
        Places {
            prices: self.list(),
            falls: self.list(),
            guest_first: self.list(),
            guest_second: self.list(),
            station_first: self.list(),
            station_second: self.list(),
        }
    }

    fn submission(&mut self) -> Submission {
        Submission {
            stations: self.list(),
            charges: self.list(),
            sold: self.list(),
            paid: self.list(),
            places: self.list(),
            floors: self.list(),
            cut: self.one(),
            margin: self.one(),
        }
    }

    fn ledger(&mut self) -> Ledger {
        let guests = self.list();
        let account = |pair: &[u128]| StationAccount { sold: pair[0], paid: pair[1] };
        let stations = self.list().chunks(2).map(account).collect();
        Ledger { guests, stations, house: self.one(), last: self.list() }
    }
}

/// A list of an answer.
fn list<T: Display>(numbers: impl IntoIterator<Item = T>) -> String {
    let words: Vec<String> = numbers.into_iter().map(|number| number.to_string()).collect();
    words.join(" ")
}

fn market(market: &Market) -> Vec<String> {
    vec![list(&market.asks), list(&market.bays), list(&market.amounts), list(&market.tickets), list(&market.bids)]
}

fn outcome(outcome: &Outcome) -> Vec<String> {
    let Outcome { cut, stations, charges, sold, paid, margin } = outcome;
    vec![list([cut]), list([margin]), list(stations), list(charges), list(sold), list(paid)]
}

fn ledger(ledger: &Ledger) -> Vec<String> {
    let stations = ledger.stations.iter().flat_map(|account| [account.sold, account.paid]);
    vec![list(&ledger.guests), list(stations), list([ledger.house]), list(&ledger.last)]
}

fn explained(rule: u8, market: &Market) -> Vec<String> {
    let told = explain(rule, market);
    let numbers: Vec<[u128; 3]> = told
        .outcomes
        .iter()
        .map(|outcome| match *outcome {
            GuestOutcome::Win { station, charge } => [station as u128, charge, 0],
            GuestOutcome::Loss(reason) => [0, 0, u128::from(reason)],
        })
        .collect();
    let column = |at: usize| list(numbers.iter().map(|row| row[at]));
    vec![list(told.codes), column(0), column(1), column(2)]
}

fn answer(name: &str, call: &mut Call) -> Result<Vec<String>, u8> {
    match name {
        "read" => return sheet::read(&call.list(), sheet::GREATEST).map(|read| market(&read)),
        "read_csv" => return csv::read(&call.list(), sheet::GREATEST).map(|read| market(&read)),
        "place_bids" => {
            let places = call.places();
            return place_bids(&places, places.guests() * places.stations()).map(|bids| vec![list(bids)]);
        }
        "write" => return sheet::write(&call.market(), usize::MAX).map(|sheet| vec![list(sheet)]),
        "join" => {
            let (first, second) = (call.market(), call.market());
            return join(&first, &second, joined_lengths(&first, &second)).map(|joined| market(&joined));
        }
        _ => {}
    }
    let (rule, given) = (call.one(), call.market());
    match name {
        "clear" | "clear_efficient" => {
            faults::clearing_fault(rule, &given, ListLengths::of(&given))?;
            let by = if name == "clear" { clear } else { clear_efficient };
            Ok(outcome(&by(rule, &given)))
        }
        "clear_marked" => {
            faults::full_clearing_fault(rule, &given, FullLengths::of(&given))?;
            let full = clear_fully(rule, &given);
            Ok([outcome(&full.outcome), vec![list(full.places), list(full.floors)]].concat())
        }
        "explain" => {
            faults::explaining_fault(rule, &given, ExplanationLengths::of(&given))?;
            Ok(explained(rule, &given))
        }
        "mark" => mark(rule, &given, &call.submission()).map(|right| vec![list([u8::from(right)])]),
        "menu" => {
            let m = given.stations();
            price_list(rule, &given, call.one(), m, m).map(|prices| vec![list(prices.bars), list(prices.prices)])
        }
        "try" => {
            let other = OtherRow { guest: call.one(), worths: call.list(), row: call.list() };
            let tried = try_row(rule, &given, &other, given.guests())?;
            Ok(vec![list([tried.first_gain]), list([tried.second_gain]), list(tried.changes)])
        }
        "gains" => {
            let (guest, worths, rows): (u32, Vec<u32>, Vec<u32>) = (call.one(), call.list(), call.list());
            let count = rows.len() / given.stations().max(1);
            gains(rule, &given, guest, &worths, &rows, count).map(|gains| vec![list(gains)])
        }
        "post" => {
            let (desk, round, mut book) = (call.one(), call.one(), call.ledger());
            book.post(rule, &given, desk, round)?;
            Ok(ledger(&book))
        }
        _ => panic!("no call is named {name}"),
    }
}

fn main() -> io::Result<()> {
    let mut out = io::BufWriter::new(io::stdout().lock());
    for line in io::stdin().lock().lines() {
        let line = line?;
        let mut lists = line.split(';');
        let name = lists.next().unwrap_or_default();
        match answer(name, &mut Call(lists)) {
            Ok(lists) => writeln!(out, "{}", lists.join(";"))?,
            Err(number) => writeln!(out, "refused {number}")?,
        }
    }
    out.flush()
}
