// How each run of the Rust's `solve` ended, for tests/replays/replay_sheet.py. It stands beside tests/replays/runs.rs,
// which reads the runs and traces them.
use crate::program::{read_line, taken, traced};
use std::io::Read;

// The words of a result, as `end` of tests/replays/runs.rs lays them out.
const X: usize = 1;
const ODE: usize = 2;
const JAC: usize = 3;
const LU: usize = 4;
const TOTAL: usize = 5;
const ACCEPTED: usize = 6;
const REJECTED: usize = 7;
const STRIDES: usize = 10;

fn hexadecimal(words: &[u64]) -> String {
    let digits: Vec<String> = words.iter().map(|word| format!("{word:016x}")).collect();
    digits.join(" ")
}

// Standard input has a line for each run. Standard output gets a line for each: how many requests it made, its first
// derivative, and the four lines that document 01's program prints, with a | between; and behind all runs a line for
// each branch that was taken.
pub fn go() {
    let mut text = String::new();
    std::io::stdin()
        .read_to_string(&mut text)
        .expect("the runs");
    for line in text.lines() {
        let (opening, host) = read_line(line);
        let asked = traced(&opening, &host);
        let last = asked.last().expect("a run has an end");
        let status = last.words[0] >> 4 & 15;
        let said = &last.reply;
        println!(
            "{} | {} | status {status} accepted {} rejected {} total {} ode {} jac {} lu {} | x {:016x} | y {} | h {}",
            asked.len(),
            hexadecimal(&asked[0].reply),
            said[ACCEPTED],
            said[REJECTED],
            said[TOTAL],
            said[ODE],
            said[JAC],
            said[LU],
            said[X],
            hexadecimal(&last.parts[0]),
            hexadecimal(&said[STRIDES..])
        );
    }
    for (name, count) in taken() {
        println!("{count} {name}");
    }
}
