//! The clearing program, target/dist/clear or the one that BAY_MARKET_PROGRAM names, against the reference's text, with
//! --quiet against its text of the efficient clearing, with --why against that of what decided, each by rule 2 with
//! --rule 2, and with --write against its sheet; with --csv before them, of a comma-separated market. It ends with 0 and
//! writes nothing to standard error, whatever the input, but that there are no guests where its page is empty.

use crate::Tally;
use crate::csv;
use crate::markets::{accepted, hex, shapes, small};
use crate::reading::{any_sheet, damaged};
use reference::faults::{MAX_AMOUNT, MAX_BAYS, MAX_PRICE};
use reference::market::Market;
use reference::random::{Random, Shape};
use reference::report::{Form, printed, printed_quiet, printed_why, written};
use reference::sheet::shortest;
use std::io::Write;
use std::path::{Path, PathBuf};
use std::process::{Command, Stdio};
use std::time::Duration;
use std::{env, thread};

const PAUSE: Duration = Duration::from_millis(3);

/// Runs the program on an input that comes through a pipe in two pieces, the second after the first was likely read. It
/// has to say this on standard error.
fn run_program(program: &Path, arguments: &[&str], input: &[u8], first: usize, says: &str) -> Result<Vec<u8>, String> {
    let mut child = Command::new(program)
        .args(arguments)
        .stdin(Stdio::piped())
        .stdout(Stdio::piped())
        .stderr(Stdio::piped())
        .spawn()
        .map_err(|error| format!("{}: {error}", program.display()))?;
    let mut pipe = child.stdin.take().expect("a pipe");
    let (one, two) = (input[..first].to_vec(), input[first..].to_vec());
    let writer = thread::spawn(move || {
        // the program may stop reading after the largest sheet or text, which breaks the pipe
        let _ = pipe.write_all(&one).and_then(|()| {
            thread::sleep(PAUSE);
            pipe.write_all(&two)
        });
    });
    let output = child.wait_with_output().map_err(|error| error.to_string())?;
    writer.join().expect("the writer");
    if !output.status.success() || output.stderr != says.as_bytes() {
        let said = String::from_utf8_lossy(&output.stderr);
        return Err(format!("the program ended with {} and said {said:?}", output.status));
    }
    Ok(output.stdout)
}

/// A market with one value out of range, or with two equal tickets.
fn out_of_range(random: &mut Random, which: usize) -> Market {
    let mut market = Shape { guests: 2..=9, stations: 1..=9, bids: 1..=9, ..small() }.market(random);
    let (guest, station) = (random.below(market.guests()), random.below(market.stations()));
    match which {
        13 => market.asks[station] = MAX_PRICE + 1,
        17 => market.bays[station] = *random.pick(&[0, MAX_BAYS + 1]),
        21 => market.amounts[guest] = *random.pick(&[0, MAX_AMOUNT + 1]),
        29 => market.tickets[0] = market.tickets[market.guests() - 1],
        _ => {
            let bid = random.below(market.bids.len());
            market.bids[bid] = MAX_PRICE + 1;
        }
    }
    market
}

/// Whose sheet has every bit set.
fn largest() -> Shape {
    Shape { bids: 1..=1_000_000, ..Shape::full() }
}

/// Every page of a sheet or a text.
fn check(random: &mut Random, tally: &mut Tally, form: Form, input: &[u8]) -> Result<(), String> {
    let program = env::var_os("BAY_MARKET_PROGRAM")
        .map_or_else(|| Path::new(env!("CARGO_MANIFEST_DIR")).join("../../target/dist/clear"), PathBuf::from);
    let text = printed(form, 1, input);
    let number = text.strip_prefix("refused ").map(|number| number.trim_end().parse().expect("a number"));
    let asked = [
        (&[][..], text.into_bytes()),
        (&["--quiet"], printed_quiet(form, 1, input).into_bytes()),
        (&["--rule", "2"], printed(form, 2, input).into_bytes()),
        (&["--quiet", "--rule", "2"], printed_quiet(form, 2, input).into_bytes()),
        (&["--why"], printed_why(form, 1, input).into_bytes()),
        (&["--why", "--rule", "2"], printed_why(form, 2, input).into_bytes()),
        (&["--write"], written(form, input)),
    ];
    let before: &[&str] = if form == Form::Csv { &["--csv"] } else { &[] };
    for (page, expected) in asked {
        tally.count(&number.map_or(Ok(()), Err));
        let arguments = [before, page].concat();
        let first = random.below(input.len() + 1);
        let says = if expected.is_empty() { "clear: no guests\n" } else { "" };
        let output = run_program(&program, &arguments, input, first, says)?;
        if output != expected {
            let [output, expected] = [output, expected].map(|bytes| bytes.escape_ascii().to_string().replace("\\n", "\n"));
            return Err(format!(
                "the output differs {arguments:?}\nwritten\n{output}\nexpected\n{expected}\ninput {}",
                hex(input)
            ));
        }
    }
    Ok(())
}

pub fn run(random: &mut Random, tally: &mut Tally, cases: usize) -> Result<(), String> {
    let shapes = shapes();
    for case in 0..cases {
        let mut sheet = match case % 4 {
            0 => any_sheet(random, &shapes[case / 4 % shapes.len()]),
            _ => shortest(&accepted(random, &shapes)),
        };
        if case % 4 == 3 {
            sheet = damaged(random, &sheet);
        }
        match case % 40 {
            // the largest sheet, and one byte more
            1 => sheet = shortest(&largest().market(random)),
            5 => sheet = [shortest(&largest().market(random)), vec![0]].concat(),
            // more than a pipe holds
            9 => sheet.resize(200_000, 0),
            // an ask, bays, an amount or a bid out of range, or equal tickets
            13 | 17 | 21 | 25 | 29 => sheet = shortest(&out_of_range(random, case % 40)),
            // no guests, of which nothing is told
            33 => sheet = shortest(&Shape { guests: 0..=0, ..small() }.market(random)),
            _ => {}
        }
        check(random, tally, Form::Sheet, &sheet)?;
    }
    tally.require(&[0, 1, 2, 3, 4, 6, 7, 8, 9, 15, 19])
}

/// The same of comma-separated markets.
pub fn run_csv(random: &mut Random, tally: &mut Tally, cases: usize) -> Result<(), String> {
    let shapes = shapes();
    for case in 0..cases {
        let market = match case % 20 {
            1 | 5 | 9 => largest().market(random),
            // an ask, bays, an amount or a bid out of range, or equal tickets
            13 => out_of_range(random, [13, 17, 21, 25, 29][case / 20 % 5]),
            // no guests, of which nothing is told
            15 => Shape { guests: 0..=0, ..small() }.market(random),
            0 | 4 | 8 | 12 | 16 => csv::any_market(random, &shapes[case / 4 % shapes.len()]),
            _ => accepted(random, &shapes),
        };
        let mut text = csv::any_text(random, &market);
        match case % 20 {
            // the longest text, and one byte more
            1 => text = csv::longest_text(&market),
            5 => text = [csv::longest_text(&market), b"1".to_vec()].concat(),
            // more than a pipe holds
            9 => text = csv::longest_text(&market).repeat(3),
            // lines with no CR
            19 => text.retain(|&byte| byte != b'\r'),
            // a field that is too large
            17 => text.extend(b"4294967296,"),
            _ if case % 4 == 3 => text = csv::damaged(random, &text),
            _ => {}
        }
        check(random, tally, Form::Csv, &text)?;
    }
    tally.require(&[0, 2, 6, 7, 8, 9, 15, 22, 23])
}
