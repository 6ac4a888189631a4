// Where the Rust's elimination stopped latest, as tests/support/rust_stops.py makes lu.rs tell it.
use std::cell::Cell;

thread_local! {
    static LATEST: Cell<(u64, u64)> = const { Cell::new((0, 0)) };
}

// Nothing has stopped yet.
pub fn forget() {
    LATEST.with(|latest| latest.set((0, 0)));
}

// The routine (1 real, 2 complex), and the column from 0.
pub fn told(routine: u64, column: usize) {
    LATEST.with(|latest| latest.set((routine, column as u64)));
}

// The same again; 0 and 0 where nothing stopped.
pub fn latest() -> (u64, u64) {
    LATEST.with(|latest| latest.get())
}
