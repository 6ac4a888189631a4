// How often each branch of the Rust's `solve` is taken, by its number (tests/support/rust_solve.py), and truths of an
// attempt that a later branch is counted with.
use crate::branch_names::{BRANCHES, NOTES};
use std::cell::Cell;

thread_local! {
    static TAKEN: [Cell<u64>; BRANCHES.len()] = const { [const { Cell::new(0) }; BRANCHES.len()] };
    static WAY: Cell<u64> = const { Cell::new(0) };
    static NOTED: [Cell<bool>; NOTES.len()] = const { [const { Cell::new(false) }; NOTES.len()] };
}

pub fn hit(branch: usize) {
    TAKEN.with(|t| t[branch].set(t[branch].get() + 1));
    WAY.set(WAY.get().wrapping_mul(0x0100_0000_01b3) ^ branch as u64);
}

pub fn note(name: usize, truth: bool) {
    NOTED.with(|n| n[name].set(truth));
}

pub fn noted(name: usize) -> bool {
    NOTED.with(|n| n[name].get())
}

// A new run has noted nothing and gone no way yet.
pub fn forget() {
    WAY.set(0);
    NOTED.with(|n| n.iter().for_each(|truth| truth.set(false)));
}

// The way of a run: a digest of its branches in their order.
pub fn way() -> u64 {
    WAY.get()
}

// The branches that were taken, each with how often.
pub fn taken() -> Vec<(&'static str, u64)> {
    let counts = TAKEN.with(|t| t.each_ref().map(Cell::get));
    BRANCHES.iter().copied().zip(counts).filter(|branch| branch.1 > 0).collect()
}
