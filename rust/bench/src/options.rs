//! The words of the command line.

use crate::c;
use crate::timing::Bench;
use std::path::Path;

pub const USAGE: &str = "usage: ./bench [--quick] [--against FILE.so]
--quick    fewer rounds and inputs, under a minute
--against  times another engine, a shared library, beside this one in every table";

/// Reads the words, the first of which is the engine's own shared library, and loads the one that is timed.
pub fn read(mut words: impl Iterator<Item = String>) -> Result<Bench, String> {
    let own = words.next().ok_or(USAGE)?;
    let mut bench = Bench { rounds: 31, inputs: (200, 2_000), against: None };
    let mut library = own;
    while let Some(word) = words.next() {
        match word.as_str() {
            "--quick" => (bench.rounds, bench.inputs) = (15, (50, 400)),
            "--against" => {
                library = words.next().ok_or(USAGE)?;
                let name = Path::new(&library).file_name().ok_or_else(|| format!("{library} is no file"))?;
                bench.against = Some(name.to_string_lossy().into_owned());
            }
            _ => return Err(format!("{word} is no option\n{USAGE}")),
        }
    }
    // a name with no folder would be looked for in the system's folders
    let file = Path::new(&library).canonicalize().map_err(|wrong| format!("{library}: {wrong}"))?;
    c::load(&file.to_string_lossy())?;
    Ok(bench)
}
