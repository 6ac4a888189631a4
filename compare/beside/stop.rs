// Where the comparison stands, and how it ends at the first difference.
use std::cell::Cell;
use std::io::Write;

thread_local! {
    static SEED: Cell<u64> = const { Cell::new(0) };
    static CASE: Cell<u64> = const { Cell::new(0) };
    static REQUEST: Cell<u64> = const { Cell::new(0) };
}

pub fn at_case(seed: u64, case: u64) {
    SEED.set(seed);
    CASE.set(case);
    REQUEST.set(0);
}

// Requests of a run are counted from 1; 0 is its opening.
pub fn at_request(number: u64) {
    REQUEST.set(number);
}

// Where nobody reads any more, nothing is told.
pub fn tell(words: &str) {
    let _ = writeln!(std::io::stdout(), "{words}");
}

// Tells the difference and ends the program with status 1.
pub fn stop(words: String) -> ! {
    let (seed, case, request) = (SEED.get(), CASE.get(), REQUEST.get());
    tell(&format!("DIFFERS at seed {seed} case {case} request {request}: {words}"));
    tell(&format!("to see it alone: compare/beside/run --seed {seed} --case {case}"));
    std::process::exit(1)
}

pub fn insist(holds: bool, words: impl FnOnce() -> String) {
    if !holds {
        stop(words());
    }
}

// Ends the program where a difference was found.
pub fn none(difference: Option<String>) {
    if let Some(words) = difference {
        stop(words);
    }
}
