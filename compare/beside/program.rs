// The Rust's `solve` beside our run, in one process: the loop over the cases. compare/beside/run builds
// it around the Rust's text.
#[path = "../../tests/support/branches.rs"]
mod branches;
mod called;
mod case;
mod draw;
mod edge;
mod host;
mod limits;
mod memory;
mod models;
mod opening;
mod ours;
#[path = "../../tests/support/powers.rs"]
mod plain;
mod raised;
mod routines;
mod rust;
mod shelf;
mod side;
mod spoilt;
mod stop;
mod tally;

use crate::branch_names::BRANCHES;
pub use branches::{hit, note, noted};
pub use called::{differences, end, four_fifths, inverse_root, mass_made, power, quarter, snap, two_thirds};
use case::{Case, Runs};
use draw::Draw;
use memory::Memory;
use ours::Ours;
use raised::Trace;
use side::Side;
use stop::{at_case, insist, stop, tell};
use tally::count;

// Most runs of a case that is broken off at each report in turn: later reports are like these.
const MOST_INTERRUPTS: usize = 10;

// One case in so many is run under two limits of steps besides.
const PAIR_EACH: u64 = 4;

// How a run went, and what was asked in it where that is wanted.
struct Went {
    interrupted: bool,
    way: u64,
    trace: Option<Trace>,
}

// Memory as it may be before an opening, with a part of the wrong length if the case wants one.
fn memory_for(case: &Case, d: &mut Draw) -> Memory {
    let mut memory = Memory::rubbish(case.opening.y.len(), d);
    case.opening.lay_out(&mut memory);
    if let Some((part, by)) = case.misfit {
        memory.misfit(part, by);
    }
    memory
}

// A refused opening wrote nothing; where the Rust has the row that refuses it, it refuses likewise.
fn refused(case: &Case, ours: &Ours, before: &Memory, number: u64) {
    insist(ours.untouched(before), || format!("an opening refused by {number} wrote something"));
    count(|t| t.refused[number as usize] += 1);
    if case.opening.rust_refuses(number) {
        let theirs = rust::solve(&case.opening).err().map_or(0, |error| rust::number_of(&error));
        insist(theirs == number, || format!("opening: ours is refused by {number}, the Rust's by {theirs}"));
        count(|t| t.refused_by_both += 1);
    }
}

// One run of a case.
fn run(case: &Case, d: &mut Draw) -> Went {
    run_with(case, d, None)
}

fn run_with(case: &Case, d: &mut Draw, trace: Option<Trace>) -> Went {
    branches::forget();
    let memory = memory_for(case, d);
    let before = memory.clone();
    let wanted = case.opening.refusal(case.misfit.is_none());
    let (ours, number) = Ours::open(&case.opening, memory);
    insist(number == wanted, || format!("an opening is answered by {number} and is to be by {wanted}"));
    if number != 0 {
        refused(case, &ours, &before, number);
        return Went { interrupted: false, way: number, trace: None };
    }
    count(|t| t.run(case.opening.n));
    let mut side = Side::new(&case.opening, ours, case.host.clone(), d.clone());
    side.trace = trace;
    called::begin(side);
    if let Err(error) = rust::solve(&case.opening) {
        stop(format!("the Rust refuses an opening that ours takes: {error}"));
    }
    let side = called::over();
    Went { interrupted: side.interrupted(), way: branches::way(), trace: side.trace }
}

// Broken off at the first report, then at the second, and so on.
fn interrupt_each(case: &mut Case, d: &mut Draw) {
    for report in 0..MOST_INTERRUPTS {
        case.host.reports.interrupt_at = Some(report);
        if !run(case, d).interrupted {
            break;
        }
    }
}

fn compare(seed: u64, number: u64) {
    at_case(seed, number);
    let mut d = Draw::new(seed, number);
    let mut case = Case::draw(&mut d);
    match case.runs {
        Runs::One => {
            run(&case, &mut d);
        }
        Runs::InterruptEach => interrupt_each(&mut case, &mut d),
        Runs::SeekEdge => edge::seek(&mut case, &mut d, |case, d| run(case, d).way),
    }
    routines::compare(&mut d);
    if number % PAIR_EACH == 0 {
        raised::compare(&mut case, &mut d, |case, d| run_with(case, d, Some(Trace::default())).trace);
    }
    count(|t| t.cases += 1);
}

// Of the branches that are counted, statuses aside, those that no run took; by name where they are few.
fn branches_told() -> String {
    let taken: Vec<&str> = branches::taken().iter().map(|branch| branch.0).collect();
    let counted: Vec<&str> = BRANCHES.into_iter().filter(|name| !name.starts_with("status ")).collect();
    let never: Vec<&str> = counted.iter().copied().filter(|name| !taken.contains(name)).collect();
    let names = if (1..=5).contains(&never.len()) { format!(": {}", never.join("; ")) } else { String::new() };
    format!("of {} branches of the Rust {} never taken{names}", counted.len(), never.len())
}

// The words are the seed, the first case, and how many cases there are.
pub fn run_all() {
    std::panic::set_hook(Box::new(|info| stop(format!("a panic: {info}"))));
    let words: Vec<u64> = std::env::args().skip(1).map(|word| word.parse().expect("a number")).collect();
    let [seed, first, cases] = words[..] else { panic!("usage: beside SEED FIRST CASES") };
    // A program that dies can't tell where; run again, it tells before each case.
    let each = std::env::var_os("BESIDE_TELL").is_some();
    routines::compare_defaults();
    for number in first..first + cases {
        if each {
            eprintln!("case {number}");
        }
        compare(seed, number);
    }
    tell(&tally::summary());
    tell(&branches_told());
    tell("0 differ");
}
