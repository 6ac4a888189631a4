// The reported points of each run of the Rust's `solve`, for tests/replays/replay_points.py. It stands beside
// tests/replays/runs.rs, which reads the runs and traces them.
use crate::program::{read_line, traced};
use std::io::Read;

// A report's head has this kind; its words are the head, a hash, the old x and x.
const REPORT: u64 = 3;
const X: usize = 3;

// Standard input has a line for each run. Standard output gets a line for each report, the bits of x and of the
// amounts, and an empty line behind each run.
pub fn go() {
    let mut text = String::new();
    std::io::stdin()
        .read_to_string(&mut text)
        .expect("the runs");
    for line in text.lines() {
        let (opening, host) = read_line(line);
        for asked in traced(&opening, &host) {
            if asked.words[0] >> 12 == REPORT {
                let amounts: Vec<String> = asked.parts[0].iter().map(|word| format!("{word:016x}")).collect();
                println!("{:016x} {}", asked.words[X], amounts.join(" "));
            }
        }
        println!();
    }
}
