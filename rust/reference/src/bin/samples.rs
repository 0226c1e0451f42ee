//! Writes each sample sheet and what the clearing program prints for it into the named folder.

use reference::report::{self, Form};
use reference::samples;
use std::{env, fs, io, path::PathBuf};

fn main() -> io::Result<()> {
    let folder = PathBuf::from(env::args_os().nth(1).expect("samples FOLDER"));
    for (name, sheet) in samples::sheets() {
        fs::write(folder.join(format!("{name}.sheet")), &sheet)?;
        fs::write(folder.join(format!("{name}.txt")), report::printed(Form::Sheet, 1, &sheet))?;
    }
    Ok(())
}
