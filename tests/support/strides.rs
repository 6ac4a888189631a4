// The steps that the Rust accepted, as tests/support/rust_solve.py makes radau.rs tell them.
use std::cell::RefCell;

thread_local! {
    static ACCEPTED: RefCell<Vec<f64>> = const { RefCell::new(Vec::new()) };
}

// Nothing is accepted yet.
pub fn forget() {
    ACCEPTED.with(|steps| steps.borrow_mut().clear());
}

// The h that the Rust holds where it accepts an attempt.
pub fn accepted(h: f64) {
    ACCEPTED.with(|steps| steps.borrow_mut().push(h));
}

// The smallest and the largest size, in the order of all doubles; +0 and +0 where no step is a number.
pub fn ends() -> [f64; 2] {
    let mut sizes = ACCEPTED.with(|steps| steps.borrow().clone());
    sizes.retain(|h| !h.is_nan());
    sizes.iter_mut().for_each(|h| *h = h.abs());
    sizes.sort_by(f64::total_cmp);
    [*sizes.first().unwrap_or(&0.0), *sizes.last().unwrap_or(&0.0)]
}
