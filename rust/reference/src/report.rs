//! What the clearing program prints, and what it writes.

use crate::clearing::Outcome;
use crate::explaining::{BELOW_CUT, GuestOutcome, NO_BID, NOT_OPEN, OUTBID, explain};
use crate::faults::market_fault;
use crate::market::Market;
use crate::sheet::{self, GREATEST, write};
use crate::{clearing, csv};
use std::fmt::Write;

/// What the program reads.
#[derive(Clone, Copy, Debug, PartialEq, Eq)]
pub enum Form {
    Sheet,
    Csv,
}

impl Form {
    fn read(self, input: &[u8]) -> Result<Market, u8> {
        match self {
            Form::Sheet => sheet::read(input, GREATEST),
            Form::Csv => csv::read(input, GREATEST),
        }
    }
}

pub fn outcome(outcome: &Outcome) -> String {
    let mut text = format!("cut {}\n", outcome.cut);
    for (i, (station, charge)) in outcome.stations.iter().zip(&outcome.charges).enumerate() {
        writeln!(text, "guest {} station {station} charge {charge}", i + 1).unwrap();
    }
    for (j, (sold, paid)) in outcome.sold.iter().zip(&outcome.paid).enumerate() {
        writeln!(text, "station {} sold {sold} paid {paid}", j + 1).unwrap();
    }
    writeln!(text, "margin {}", outcome.margin).unwrap();
    text
}

/// What the program prints for a sheet or a text by a rule, 1 or 2.
pub fn printed(form: Form, rule: u8, input: &[u8]) -> String {
    printed_by(clearing::clear, form, rule, input)
}

/// What the program prints for a sheet or a text by a rule, 1 or 2, where a quiet round is asked for.
pub fn printed_quiet(form: Form, rule: u8, input: &[u8]) -> String {
    printed_by(clearing::clear_efficient, form, rule, input)
}

fn printed_by(clear: fn(u8, &Market) -> Outcome, form: Form, rule: u8, input: &[u8]) -> String {
    let cleared = form.read(input).and_then(|market| market_fault(&market).map(|()| clear(rule, &market)));
    match cleared {
        Ok(cleared) => outcome(&cleared),
        Err(number) => refused(number),
    }
}

/// What the program prints for a sheet or a text by a rule, 1 or 2, where it is to tell what decided.
pub fn printed_why(form: Form, rule: u8, input: &[u8]) -> String {
    let told = form.read(input).and_then(|market| market_fault(&market).map(|()| explain(rule, &market)));
    match told {
        Ok(told) => outcomes(&told.outcomes),
        Err(number) => refused(number),
    }
}

/// A line for each guest.
fn outcomes(outcomes: &[GuestOutcome]) -> String {
    let mut text = String::new();
    for (i, outcome) in outcomes.iter().enumerate() {
        match outcome {
            GuestOutcome::Win { station, charge } => writeln!(text, "guest {} wins station {station} charge {charge}", i + 1),
            GuestOutcome::Loss(code) => writeln!(text, "guest {} loses: {}", i + 1, reason(*code)),
        }
        .unwrap();
    }
    text
}

fn reason(code: u8) -> &'static str {
    match code {
        NO_BID => "no bid",
        NOT_OPEN => "station not open",
        BELOW_CUT => "bid below the cut",
        OUTBID => "outbid",
        _ => panic!("code {code} is no loss"),
    }
}

/// What the program writes for a sheet or a text where the market's shortest sheet is asked for: that, or the text of a
/// refusal.
pub fn written(form: Form, input: &[u8]) -> Vec<u8> {
    let written = form.read(input).and_then(|market| write(&market, usize::MAX));
    written.unwrap_or_else(|number| refused(number).into())
}

fn refused(number: u8) -> String {
    format!("refused {number}\n")
}
