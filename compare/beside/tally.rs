// What was compared, counted.
use std::cell::RefCell;

pub const KINDS: [&str; 10] = [
    "derivative y to f0",
    "derivative cont to z1",
    "derivative cont to z2",
    "derivative cont to z3",
    "derivative cont to f1",
    "derivative y to f_origin",
    "derivative y_perturbed to f_perturbed",
    "Jacobian",
    "report",
    "report with coefficients",
];

// A run is of a class from its opening on, or from the first reply of that sort on; of the last by its end.
pub const CLASSES: [&str; 10] = [
    "list tolerances",
    "Full mass",
    "index 2 or 3",
    "host Jacobian",
    "book rule",
    "modified before",
    "mark before",
    "NaN or infinite reply before",
    "backward",
    "broken off",
];
pub const LISTS: usize = 0;
pub const FULL: usize = 1;
pub const INDEX: usize = 2;
pub const HOST: usize = 3;
pub const BOOK: usize = 4;
pub const WAS_MODIFIED: usize = 5;
pub const WAS_MARKED: usize = 6;
pub const WAS_NOT_FINITE: usize = 7;
pub const BACKWARD: usize = 8;
pub const BROKEN_OFF: usize = 9;

// Questions about past points: answered; where over 48 steps were put; in a run that goes down; after a modified point;
// from a step whose h was made shorter after its end was fixed; at a NaN.
const PAST: [&str; 6] =
    ["held by a kept step", "past 48 steps", "backward", "modified before", "by a shortened step", "at a NaN"];
const PAIRS: [&str; 3] = ["the same", "2 and then 2", "2 and then another"];
const ORDERS: [&str; 5] = ["1", "2 to 4", "5 to 8", "9 to 16", "17 to 32"];
const REPLIES: [&str; 5] = ["filled", "continue", "interrupt", "modified", "mark"];

#[derive(Default)]
pub struct Tally {
    pub cases: u64,
    pub runs: u64,
    // Pairs of neighbours between which a run goes another way.
    pub edges: u64,
    // Pairs of limits: the run is the same under the larger; it ended with 2 under both; under the smaller alone.
    pub pairs: [u64; PAIRS.len()],
    pub requests: [u64; KINDS.len()],
    pub classes: [u64; CLASSES.len()],
    // By their numbers, from 1.
    pub replies: [u64; 6],
    pub not_finite: u64,
    // By document 01's numbers: statuses, openings refused, of these by the Rust too, and advances refused.
    pub ends: [u64; 7],
    pub refused: [u64; 13],
    pub refused_by_both: u64,
    pub unmoved: [u64; 16],
    pub powers: u64,
    pub dense: u64,
    // Past points that were asked for, and those of each sort.
    pub asked: u64,
    pub past: [u64; PAST.len()],
    pub scalars: u64,
    pub matrices: u64,
    // Runs by n.
    orders: [u64; ORDERS.len()],
}

impl Tally {
    pub fn run(&mut self, n: usize) {
        self.runs += 1;
        let group = [1, 4, 8, 16, 32].iter().position(|&most| n <= most).expect("an n that opens");
        self.orders[group] += 1;
    }
}

thread_local! {
    static TALLY: RefCell<Tally> = RefCell::default();
}

pub fn count(act: impl FnOnce(&mut Tally)) {
    TALLY.with(|t| act(&mut t.borrow_mut()));
}

// What is done here is counted apart and forgotten.
pub fn aside<T>(act: impl FnOnce() -> T) -> T {
    let kept = TALLY.take();
    let made = act();
    TALLY.set(kept);
    made
}

// Names with their counts, those of 0 too.
fn row(head: &str, names: &[&str], counts: &[u64]) -> String {
    let cells: Vec<String> = names.iter().zip(counts).map(|(name, count)| format!("{name} {count}")).collect();
    format!("{head}: {}", cells.join(", "))
}

// Numbers with their counts, but for those of 0.
fn numbered(head: &str, counts: &[u64]) -> String {
    let some = counts.iter().enumerate().filter(|cell| *cell.1 > 0);
    let cells: Vec<String> = some.map(|(number, count)| format!("{number}: {count}")).collect();
    format!("{head}: {}", cells.join(", "))
}

fn lines(t: &Tally) -> Vec<String> {
    let (asked, ended): (u64, u64) = (t.requests.iter().sum(), t.ends.iter().sum());
    vec![
        format!("{} cases: {} runs, {} openings refused, {} edges found", t.cases, t.runs,
            t.refused.iter().sum::<u64>(), t.edges),
        format!("{} requests compared, of which {ended} ends", asked + ended),
        row("requests", &KINDS, &t.requests),
        row("requests in runs by class", &CLASSES, &t.classes),
        row("replies", &REPLIES, &t.replies[1..]),
        format!("replies with a NaN or an infinity: {}", t.not_finite),
        numbered("ends by status", &t.ends),
        row("runs by n", &ORDERS, &t.orders),
        row("pairs of limits by their runs", &PAIRS, &t.pairs),
        numbered("openings refused by number", &t.refused),
        format!("openings that the Rust refuses too: {}", t.refused_by_both),
        numbered("advances refused by number", &t.unmoved),
        format!("powers in solve {}, interpolations {}, scalar routines {}, matrix routines {}", t.powers, t.dense,
            t.scalars, t.matrices),
        row(&format!("past points asked for {}, of which", t.asked), &PAST, &t.past),
    ]
}

pub fn summary() -> String {
    TALLY.with(|t| lines(&t.borrow()).join("\n"))
}
