// A night by the Rust's own `solve`, driven as the program `night` drives ours: the same list, the same threads and the
// same rows. bench/run builds and calls it.
//
//     rust_night libm|ours JOBS LIST     the rows to standard output; `ours` with document 01's powers, whose bits are
//                                        those of ours
#[path = "../nightly/model.rs"]
mod model;
#[path = "../../tests/support/powers.rs"]
mod powers;
#[path = "../nightly/rust.rs"]
mod rust;

use crate::list::{self, Entry, Shard};
use crate::row::{self, Told};
use crate::pipeline;
use model::Model;
use std::io::Write;

// Where the Rust's text with document 01's powers finds them (tests/support/rust_solve.py).
pub use powers::{four_fifths, inverse_root, power, quarter, two_thirds};

fn made(entry: std::io::Result<Entry>, solved: fn(&Model) -> rust::End) -> String {
    let entry = entry.expect("a list");
    let sheet = std::fs::read(&entry.cylinder.expect("a cylinder").path).expect("a sheet");
    let end = solved(&Model::read(&sheet));
    let name = |place: usize| format!("s{}", place + 1);
    let amounts = end.y.iter().enumerate().map(|(place, amount)| (name(place), *amount)).collect();
    let outcome = if end.status == 0 { Ok(amounts) } else { Err(format!("status {}", end.status)) };
    let told = Told { status: end.first_line(), day: Some(end.x), outcome };
    row::written(entry.place, &entry.name, &told)
}

pub fn run() {
    let words: Vec<String> = std::env::args().skip(1).collect();
    let solved = if words[0] == "ours" { rust::solved_with_our_powers } else { rust::solved };
    let jobs = words[1].parse().expect("a number of jobs");
    let entries = list::entries(words[2].as_ref(), Shard { first: 1, of: 1 }).expect("a list");
    let mut out = std::io::stdout();
    pipeline::in_order(entries, jobs, |entry| made(entry, solved), |row| out.write_all(row.as_bytes())).expect("rows");
}
