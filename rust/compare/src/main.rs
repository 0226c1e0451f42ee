//! Runs the static library and the clearing program against the reference on seeded random cases:
//! `compare [SEED [PART [WAY]]]`, where a part is read, write, trip (sheets read, written, read and written again),
//! read_csv, csv_trip (comma-separated markets read, and cleared as their tables are), place_bids, join, clear,
//! clear_efficient, explain, facts (what is told against the clearing), try, rows (what another row does, against the
//! clearings and codes of both markets), menu, gains, lists (a guest's price list and gains, against clear_marked and try
//! with each row), clear_marked, mark, passes (what clear_marked gives, against clearing and codes, and handed in as it is
//! and spoilt), charge_marks (a search for a place that a bid keeps below its charge or loses above it), post, gates (a
//! search for a place that joining gives or a charge that it lowers), truth (a search for false reports that pay),
//! truth_efficient, print or print_csv, and the first twenty-one are called by all ways or by one: c, slices or owned. A
//! failing case prints itself and ends the run with 1; wrong use ends it with 2.

mod call;
mod charge_marks;
mod clearing;
mod csv;
mod explaining;
mod joining;
mod lent;
mod markets;
mod marking;
mod menus;
mod placing;
mod posting;
mod printing;
mod reading;
mod truth;
mod trying;
mod writing;

use call::{WAYS, Way};
use reference::random::Random;
use std::collections::BTreeMap;
use std::process::ExitCode;
use std::time::Instant;

const SEED: u64 = 20_261_115;

/// How often each answer was expected, and what else was met.
#[derive(Default)]
pub struct Tally {
    answers: BTreeMap<u8, usize>,
    met: BTreeMap<&'static str, usize>,
}

impl Tally {
    pub fn count<T>(&mut self, expected: &Result<T, u8>) {
        *self.answers.entry(expected.as_ref().err().copied().unwrap_or(0)).or_default() += 1;
    }

    pub fn meet(&mut self, what: &'static str) {
        *self.met.entry(what).or_default() += 1;
    }

    /// Each of the answers was met.
    pub fn require(&self, answers: &[u8]) -> Result<(), String> {
        match answers.iter().find(|answer| !self.answers.contains_key(answer)) {
            Some(answer) => Err(format!("no case has the answer {answer}")),
            None => Ok(()),
        }
    }

    /// Each of these was.
    pub fn require_met(&self, wanted: &[&str]) -> Result<(), String> {
        match wanted.iter().find(|what| !self.met.contains_key(**what)) {
            Some(what) => Err(format!("no case is {what}")),
            None => Ok(()),
        }
    }
}

#[derive(Clone, Copy)]
struct Part {
    name: &'static str,
    run: fn(&mut Random, &mut Tally, usize) -> Result<(), String>,
    cases: usize,
}

const PARTS: [Part; 26] = [
    Part { name: "read", run: reading::run, cases: 6_000 },
    Part { name: "write", run: writing::run, cases: 12_000 },
    Part { name: "trip", run: reading::run_trips, cases: 6_000 },
    Part { name: "read_csv", run: csv::run, cases: 6_000 },
    Part { name: "csv_trip", run: csv::run_trips, cases: 6_000 },
    Part { name: "place_bids", run: placing::run, cases: 12_000 },
    Part { name: "join", run: joining::run, cases: 12_000 },
    Part { name: "clear", run: clearing::run_truthful, cases: 20_000 },
    Part { name: "clear_efficient", run: clearing::run_efficient, cases: 20_000 },
    Part { name: "explain", run: explaining::run, cases: 20_000 },
    Part { name: "facts", run: explaining::run_facts, cases: 10_000 },
    Part { name: "try", run: trying::run, cases: 16_000 },
    Part { name: "rows", run: trying::run_facts, cases: 20_000 },
    Part { name: "menu", run: menus::run_lists, cases: 16_000 },
    Part { name: "gains", run: menus::run_gains, cases: 8_000 },
    Part { name: "lists", run: menus::run_told, cases: 10_000 },
    Part { name: "clear_marked", run: marking::run, cases: 12_000 },
    Part { name: "mark", run: marking::run_marks, cases: 8_000 },
    Part { name: "passes", run: marking::run_passes, cases: 1_500 },
    Part { name: "charge_marks", run: charge_marks::run, cases: 40_000 },
    Part { name: "post", run: posting::run, cases: 4_000 },
    Part { name: "gates", run: joining::run_places, cases: 30_000 },
    Part { name: "truth", run: truth::run_truthful, cases: 3_000 },
    Part { name: "truth_efficient", run: truth::run_efficient, cases: 20_000 },
    Part { name: "print", run: printing::run, cases: 400 },
    Part { name: "print_csv", run: printing::run_csv, cases: 120 },
];

/// What the arguments choose.
struct Choice {
    seed: u64,
    parts: Vec<Part>,
    way: Option<Way>,
}

fn choice(mut args: impl Iterator<Item = String>) -> Result<Choice, String> {
    let seed = args.next().map_or(Ok(SEED), |seed| seed.parse().map_err(|_| format!("not a seed: {seed}")))?;
    let part = args.next();
    let parts: Vec<Part> = PARTS.into_iter().filter(|Part { name, .. }| part.as_ref().is_none_or(|part| part == name)).collect();
    let named = args.next();
    let way = named.as_ref().and_then(|named| WAYS.iter().find(|(name, _)| name == named)).map(|&(_, way)| way);
    if parts.is_empty() || way.is_some() != named.is_some() || args.next().is_some() {
        let parts = PARTS.map(|part| part.name).join(", ");
        return Err(format!("compare [SEED [PART [WAY]]]: parts {parts}; ways {}", WAYS.map(|(name, _)| name).join(", ")));
    }
    Ok(Choice { seed, parts, way })
}

fn main() -> ExitCode {
    let Choice { seed, parts, way } = match choice(std::env::args().skip(1)) {
        Ok(choice) => choice,
        Err(usage) => {
            eprintln!("{usage}");
            return ExitCode::from(2);
        }
    };
    if let Some(way) = way {
        call::only(way);
    }
    println!("seed {seed}");
    for Part { name, run, cases } in parts {
        let start = Instant::now();
        let mut tally = Tally::default();
        let result = run(&mut Random::new(seed), &mut tally, cases);
        let calls: usize = tally.answers.values().sum();
        if let Err(case) = result {
            println!("{name}: differs at call {calls} of seed {seed}: {case}");
            return ExitCode::FAILURE;
        }
        let answers: Vec<String> = tally.answers.iter().map(|(answer, times)| format!("{answer}: {times}")).collect();
        let met: String = tally.met.iter().map(|(what, times)| format!("; {what}: {times}")).collect();
        println!("{name}: {calls} calls agree in {:.1} s; answers {}{met}", start.elapsed().as_secs_f64(), answers.join(", "));
    }
    ExitCode::SUCCESS
}

#[cfg(test)]
mod tests {
    use super::*;

    #[test]
    fn only_parts_and_ways_that_are_there_are_chosen() {
        let chosen = |args: &[&str]| {
            let choice = choice(args.iter().map(|arg| arg.to_string()));
            choice.map(|Choice { seed, parts, way }| (seed, parts.iter().map(|part| part.name).collect::<Vec<_>>(), way))
        };
        assert_eq!(chosen(&[]), Ok((SEED, PARTS.map(|part| part.name).to_vec(), None)));
        assert_eq!(chosen(&["7", "post"]), Ok((7, vec!["post"], None)));
        assert_eq!(chosen(&["7", "post", "slices"]), Ok((7, vec!["post"], Some(Way::Slices))));
        for wrong in [&["x"][..], &["7", "posts"], &["7", "post", "read"], &["7", "post", "c", "c"]] {
            assert!(chosen(wrong).is_err());
        }
    }

    #[test]
    fn an_answer_that_was_not_met_is_missed() {
        let mut tally = Tally::default();
        tally.count::<()>(&Ok(()));
        tally.count::<()>(&Err(7));
        assert_eq!(tally.require(&[0, 7]), Ok(()));
        assert!(tally.require(&[0, 6, 7]).is_err());
        tally.meet("above");
        assert_eq!(tally.require_met(&["above"]), Ok(()));
        assert!(tally.require_met(&["above", "below"]).is_err());
    }
}
