// Openings that are to be refused: one row of document 01's table is made to hold, or two, so that their order shows.
use super::case::Case;
use super::draw::Draw;
use super::memory::PARTS;
use super::opening::{Opening, Settings, Tolerances};

fn infinite_or_nan(d: &mut Draw) -> f64 {
    d.one_of(&[f64::NAN, f64::INFINITY, f64::NEG_INFINITY])
}

// Row 3: one of the floats that are given, or of those that are then given.
fn not_finite(opening: &mut Opening, d: &mut Draw) {
    let value = infinite_or_nan(d);
    let entry = d.below(opening.y.len());
    let s = &mut opening.settings;
    match d.below(13) {
        0 => opening.x0 = value,
        1 => opening.xend = value,
        2 => opening.y[entry] = value,
        3 => match &mut opening.mass {
            Some(mass) => mass[entry] = value,
            None => opening.y[entry] = value,
        },
        4 | 5 => tolerance(opening, entry, value, d),
        6 => s.uround = value,
        7 => s.safety_factor = value,
        8 => s.scale_min = value,
        9 => s.scale_max = value,
        10 => s.max_step = Some(value),
        11 => (s.min_step, s.newton_tol) = (Some(value), Some(1.0)),
        _ => (s.newton_tol, s.first_step) = (Some(1.0), Some(value)),
    }
}

// One rtol or atol becomes this.
fn tolerance(opening: &mut Opening, entry: usize, value: f64, d: &mut Draw) {
    let relative = d.percent(50);
    match &mut opening.tolerances {
        Tolerances::Scalars(rtol, atol) => *(if relative { rtol } else { atol }) = value,
        Tolerances::Lists(rtol, atol) => (if relative { rtol } else { atol })[entry] = value,
    }
}

fn partition(n: usize, s: &mut Settings, d: &mut Draw) {
    let (two, half) = (d.from_to(0, n), 1 << 63);
    [s.nind1, s.nind2, s.nind3] = match d.below(6) {
        0 => [Some(n + 1), None, None],
        1 => [None, Some(n + 1), None],
        2 => [None, Some(two), Some(n + 1 - two)],
        3 => [Some(n), Some(half), Some(half)],
        4 => [Some(n - two), None, None],
        _ => [None, Some(usize::MAX), Some(d.from_to(1, n + 1))],
    };
}

fn spoil_row(row: usize, case: &mut Case, d: &mut Draw) {
    let n = case.opening.n;
    let entry = d.below(case.opening.y.len());
    let s = &mut case.opening.settings;
    match row {
        1 => case.opening.n = d.one_of(&[0, 33, 34, 1 << 32, usize::MAX]),
        2 => case.misfit = Some((d.below(PARTS), d.one_of(&[-1, 1, 3]))),
        3 => not_finite(&mut case.opening, d),
        4 => s.max_steps = d.one_of(&[0, 1_000_001, usize::MAX]),
        5 => s.uround = d.one_of(&[1e-35, 0.0, -1.0, 1.0, 2.0, 1e-36]),
        6 => s.safety_factor = d.one_of(&[1e-4, 0.0, -0.5, 1.0, 3.0]),
        7 => (s.scale_min, s.scale_max) = d.one_of(&[(0.0, 8.0), (-0.0, 1.0), (-1.0, 2.0), (2.0, 2.0), (3.0, 1.0)]),
        8 => s.newton_maxiter = d.one_of(&[0, 17, usize::MAX]),
        9 => {
            let value = d.one_of(&[-0.5, -5e-324, f64::MIN, 0.0, -0.0]);
            tolerance(&mut case.opening, entry, value, d);
        }
        10 => partition(n.min(32), s, d),
        11 => s.first_step = Some(d.one_of(&[0.0, -0.0])),
        _ => match d.below(3) {
            0 => s.max_step = Some(d.one_of(&[-1.0, -5e-324, f64::MIN])),
            1 => (s.max_step, s.min_step) = (Some(0.5), Some(0.5000000000000001)),
            _ => (s.max_step, s.min_step) = (None, Some(f64::MAX)),
        },
    }
}

pub fn spoil(case: &mut Case, d: &mut Draw) {
    for _ in 0..d.from_to(1, 2) {
        spoil_row(d.from_to(1, 12), case, d);
    }
}
