// The switch of tests/repository/slips.py: which slip is planted in the Rust's text. None is 0; where nobody has set
// it, the environment's SLIP says it.
use std::sync::atomic::{AtomicU32, AtomicU64, Ordering::Relaxed};

const UNSET: u32 = u32::MAX;
static PLANTED: AtomicU32 = AtomicU32::new(UNSET);
static TICKS: AtomicU64 = AtomicU64::new(0);
static MOST_TICKS: AtomicU64 = AtomicU64::new(1_000_000);

#[inline(always)]
pub fn on() -> u32 {
    match PLANTED.load(Relaxed) {
        UNSET => from_environment(),
        slip => slip,
    }
}

#[cold]
fn from_environment() -> u32 {
    let said = std::env::var("SLIP").ok().and_then(|word| word.parse().ok());
    plant(said.unwrap_or(0));
    PLANTED.load(Relaxed)
}

pub fn plant(slip: u32) {
    PLANTED.store(slip, Relaxed);
}

// A slip may make a run go on for ever: it is given so many passes through its loops.
pub fn allow(ticks: u64) {
    TICKS.store(0, Relaxed);
    MOST_TICKS.store(ticks, Relaxed);
}

pub fn tick() {
    if TICKS.fetch_add(1, Relaxed) > MOST_TICKS.load(Relaxed) {
        panic!("the run goes on for ever");
    }
}

pub fn ticks() -> u64 {
    TICKS.load(Relaxed)
}
