// One run of a problem, by ours under the book rule or by the published Fortran. compare/judge/run links and calls it.
//
//     judge PROBLEM XEND RTOL ATOL SOLVER    prints status, accepted, rejected, total, ode, jac, lu, and the amounts by
//                                            their bits
//
// SOLVER is ours or fortran.
#[path = "../../bench/whole/fortran.rs"]
mod fortran;
#[path = "../../bench/whole/models.rs"]
mod models;
#[path = "../../bench/whole/ours.rs"]
mod ours;
#[path = "../../bench/whole/outcome.rs"]
mod outcome;
#[path = "../../bench/whole/points.rs"]
mod points;
#[path = "models.rs"]
mod more_models;

use crate::interface::{elchepur_four_fifths, elchepur_inverse_root, elchepur_power, elchepur_quarter,
    elchepur_two_thirds};
use models::{Hires, Model, Robertson};
use more_models::{Oregonator, VanDerPol};
use outcome::{Outcome, Way};

// Our powers, for a Fortran whose powers are directed here (compare/judge/departures.py).
#[no_mangle]
pub extern "C" fn ourtwo_(v: &f64) -> f64 {
    elchepur_two_thirds(*v)
}

#[no_mangle]
pub extern "C" fn ourfou_(v: &f64) -> f64 {
    elchepur_four_fifths(*v)
}

#[no_mangle]
pub extern "C" fn ourqua_(v: &f64) -> f64 {
    elchepur_quarter(*v)
}

#[no_mangle]
pub extern "C" fn ourpow_(k: &i32, x: &f64) -> f64 {
    elchepur_power(*k as u8, *x)
}

#[no_mangle]
pub extern "C" fn ourinv_(m: &i32, v: &f64) -> f64 {
    elchepur_inverse_root(*m as u64, *v)
}

fn solved<M: Model>(way: Way, solver: &str) -> Outcome {
    match solver {
        "ours" => ours::run::<M>(way),
        _ => fortran::run::<M>(way),
    }
}

// Both take the Fortran's rounding unit, the first step 1e-6, 7 rounds, no ceiling below the distance,
// and the host's Jacobian.
fn way(words: &[String]) -> Way {
    let [xend, rtol, atol] = [0, 1, 2].map(|k: usize| words[k].parse().expect("a number"));
    Way { xend, rtol, atol, lists: false, uround: 1e-16, host_jacobian: true, dense: false, book: true }
}

#[no_mangle]
pub extern "C" fn main() -> i32 {
    let words: Vec<String> = std::env::args().skip(1).collect();
    let (way, solver) = (way(&words[1..]), words[4].as_str());
    let outcome = match words[0].as_str() {
        "HIRES" => solved::<Hires>(way, solver),
        "Robertson" => solved::<Robertson>(way, solver),
        "van_der_Pol" => solved::<VanDerPol>(way, solver),
        _ => solved::<Oregonator>(way, solver),
    };
    let counts = outcome.counts().map(|count| count.to_string()).join(" ");
    let amounts: Vec<String> = outcome.y.iter().map(|y| format!("{:016x}", y.to_bits())).collect();
    println!("{} {counts} {}", outcome.status, amounts.join(" "));
    0
}
