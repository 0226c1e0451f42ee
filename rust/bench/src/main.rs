//! Times the engine against baselines in one process, in turns, and prints times and ratios as Markdown.

mod baseline;
mod c;
mod clearing;
mod explaining;
mod joining;
mod loaded;
mod markets;
mod marking;
mod menus;
mod options;
mod placing;
mod posting;
mod reading;
#[rustfmt::skip] // pointer and length on one line
#[path = "../../bay_market/src/slices.rs"]
mod slices;
mod timing;
mod trying;
mod writing;

// what the files that are built here a second time name by `crate`
use bay_market::{Desk, Refusal, Rule, StationAccount};
use std::process::ExitCode;

fn main() -> ExitCode {
    let bench = match options::read(std::env::args().skip(1)) {
        Ok(bench) => bench,
        Err(message) => {
            eprintln!("{message}");
            return ExitCode::from(2);
        }
    };
    let (least, most) = bench.inputs;
    println!("{} rounds over {least} to {most} random inputs, the contenders in turns.", bench.rounds);
    clearing::truthful(&bench);
    clearing::efficient(&bench);
    explaining::explanations(&bench);
    marking::full_clearings(&bench);
    marking::marks(&bench);
    reading::sheets(&bench);
    writing::sheets(&bench);
    posting::postings(&bench);
    placing::placings(&bench);
    joining::joinings(&bench);
    reading::texts(&bench);
    trying::trials(&bench);
    menus::lists(&bench);
    menus::gain_rates(&bench);
    ExitCode::SUCCESS
}
