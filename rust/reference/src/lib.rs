//! The bay market in plain Rust, written from documents 01 and 02 alone: candidates and asks are sorted, numbers are 128 bits
//! wide, and every rule stands where the page has it. The engine is compared with this.

pub mod clearing;
pub mod csv;
pub mod explaining;
pub mod faults;
pub mod gates;
pub mod ledger;
pub mod market;
pub mod marking;
pub mod menus;
pub mod other_rows;
pub mod places;
pub mod random;
pub mod report;
pub mod samples;
pub mod sheet;

#[cfg(test)]
mod cases;
