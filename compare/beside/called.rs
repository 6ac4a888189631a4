// What the Rust's changed text calls (tests/support/rust_solve.py): it tells its parts before each call of the host,
// its end, and takes its powers from here.
use super::memory::{bits, difference};
use super::plain;
use super::side::Side;
use super::stop::{insist, none};
use super::tally::count;
use crate::interface::{elchepur_four_fifths, elchepur_inverse_root, elchepur_power, elchepur_quarter,
    elchepur_two_thirds};
use crate::matrix::{Matrix, MatrixStorage};
use crate::methods::{Evals, IntegrationResult, Steps, Tolerance};
use crate::status::Status;
use std::cell::RefCell;

thread_local! {
    static SIDE: RefCell<Option<Side>> = const { RefCell::new(None) };
}

// The run that is compared.
pub fn with<T>(act: impl FnOnce(&mut Side) -> T) -> T {
    SIDE.with(|side| act(side.borrow_mut().as_mut().expect("a run")))
}

pub fn begin(side: Side) {
    crate::stopped::forget();
    crate::strides::forget();
    SIDE.set(Some(side));
}

pub fn over() -> Side {
    SIDE.take().expect("a run")
}

// The parts at a call of the host; mass and the difference parts stay. `place` is that of a derivative.
#[allow(clippy::too_many_arguments)]
pub fn snap(
    place: u64, y: &[f64], f0: &[f64], scal: &[f64], cont: &[f64], z1: &[f64], z2: &[f64], z3: &[f64],
    f1: &[f64], f2: &[f64], f3: &[f64], rtol: &Tolerance, atol: &Tolerance, jac: &Matrix,
    e1: &Matrix, e2r: &Matrix, e2i: &Matrix, ip1: &[usize], ip2: &[usize],
) {
    with(|side| {
        side.place = place;
        let m = &mut side.theirs;
        let parts = [
            (&mut m.y, y), (&mut m.f0, f0), (&mut m.scal, scal), (&mut m.cont, cont),
            (&mut m.z1, z1), (&mut m.z2, z2), (&mut m.z3, z3), (&mut m.f1, f1), (&mut m.f2, f2), (&mut m.f3, f3),
            (&mut m.jac, &jac.data), (&mut m.e1, &e1.data), (&mut m.e2r, &e2r.data), (&mut m.e2i, &e2i.data),
        ];
        for (part, now) in parts {
            part.copy_from_slice(now);
        }
        m.ip1.copy_from_slice(ip1);
        m.ip2.copy_from_slice(ip2);
        match (rtol, atol) {
            (Tolerance::Vector(rtol), Tolerance::Vector(atol)) => {
                m.rtol.copy_from_slice(rtol);
                m.atol.copy_from_slice(atol);
            }
            (Tolerance::Scalar(rtol), Tolerance::Scalar(atol)) => side.scalars = Some((*rtol, *atol)),
            _ => unreachable!("both are of one sort"),
        }
    });
}

// What a difference Jacobian holds at a call of the host, and when it is made.
pub fn differences(place: u64, y_perturbed: &[f64], f_perturbed: &[f64], f_origin: &[f64], jac: &Matrix) {
    with(|side| {
        side.place = place;
        let m = &mut side.theirs;
        m.y_perturbed.copy_from_slice(y_perturbed);
        m.f_perturbed.copy_from_slice(f_perturbed);
        m.f_origin.copy_from_slice(f_origin);
        m.jac.copy_from_slice(&jac.data);
    });
}

// The mass matrix that the Rust works with is the one that was given.
pub fn mass_made(mass: &Matrix) {
    if mass.storage == MatrixStorage::Full {
        with(|side| none(difference("mass that was given", &side.theirs.mass, &mass.data)));
    }
}

pub fn end(h: f64, x: f64, status: Status, evals: &Evals, steps: &Steps) {
    let result = IntegrationResult::new(h, status, evals.clone(), steps.clone());
    with(|side| side.end(x, &result));
}

// A power of the Rust's is ours, which must be document 01's.
fn power_of(name: &str, v: f64, ours: f64, wanted: f64) -> f64 {
    count(|t| t.powers += 1);
    let shown = [v, ours, wanted].map(f64::to_bits);
    insist(bits(ours) == bits(wanted), || format!("{name} of {:016x}: ours {:016x}, is to be {:016x}", shown[0],
        shown[1], shown[2]));
    ours
}

pub fn power(k: usize, x: f64) -> f64 {
    power_of("power", x, elchepur_power(k as u8, x), plain::power(k, x))
}

pub fn two_thirds(v: f64) -> f64 {
    power_of("two_thirds", v, elchepur_two_thirds(v), plain::two_thirds(v))
}

pub fn four_fifths(v: f64) -> f64 {
    power_of("four_fifths", v, elchepur_four_fifths(v), plain::four_fifths(v))
}

pub fn quarter(v: f64) -> f64 {
    power_of("quarter", v, elchepur_quarter(v), plain::quarter(v))
}

pub fn inverse_root(m: usize, v: f64) -> f64 {
    power_of("inverse_root", v, elchepur_inverse_root(m as u64, v), plain::inverse_root(m, v))
}
