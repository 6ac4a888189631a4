//! Dense output: the Rust's answers of crates/replay_matrix/stdin (laid out as tests/replays/replay_matrix.py
//! says), and steps of a run.

mod shared;

use elchepur::prelude::*;
use shared::{bits, file};

/// The lines of a case's values, in order.
fn floats<'a>(lines: &mut impl Iterator<Item = &'a str>, count: usize) -> Vec<f64> {
    let values = lines.take(count).map(|line| u64::from_str_radix(line, 16).expect("a value"));
    values.map(f64::from_bits).collect()
}

#[test]
fn interpolations_have_the_rusts_bits() {
    let text = file("crates/replay_matrix/stdin");
    let mut lines = text.lines();
    let mut compared = 0;
    while let Some(head) = lines.next() {
        if !head.starts_with("i 00 ") {
            continue;
        }
        let words: Vec<&str> = head.split(' ').collect();
        assert_eq!(words[2], "g", "every interpolation is given its coefficients");
        let count = |place: usize| usize::from_str_radix(words[place], 16).expect("a count");
        let (cont, at) = (floats(&mut lines, count(4)), floats(&mut lines, count(5)));
        let (mut target, wanted) = (floats(&mut lines, count(6)), floats(&mut lines, count(6)));
        RADAU::interpolate(at[0], &mut target, &cont, at[1], at[2]);
        assert!(
            target.iter().map(|y| bits(*y)).eq(wanted.iter().map(|y| bits(*y))),
            "{head}: {target:?} and not {wanted:?}"
        );
        compared += 1;
    }
    assert_eq!(compared, 156);
}

/// y1' = y2, y2' = -y1.
struct Circle;

impl FirstOrderSystem for Circle {
    fn derivative(&self, _x: f64, y: &[f64], dydx: &mut [f64]) {
        (dydx[0], dydx[1]) = (y[1], -y[0]);
    }
}

/// Keeps every step, and sees that each ends where the report says.
#[derive(Default)]
struct Kept(Vec<DenseSegment>);

impl SolOut for Kept {
    fn solout(&mut self, xold: f64, x: &mut f64, y: &mut [f64], step: Option<&StepInterpolant<'_>>) -> ControlFlag {
        let Some(step) = step else {
            assert_eq!((xold, self.0.len()), (*x, 0), "only the first report has no interpolant");
            return ControlFlag::Continue;
        };
        assert_eq!(step.step_params(), (xold, step.to_segment().as_interpolant().step_params().1));
        assert_eq!(step.bounds().0, xold.min(*x));
        let mut there = [0.0; 3];
        step.interpolate(step.step_params().0 + step.step_params().1, &mut there);
        assert_eq!((&there[..2], there[2]), (&*y, 0.0));
        self.0.push(step.to_segment());
        ControlFlag::Continue
    }
}

fn kept(xend: f64) -> Vec<DenseSegment> {
    let solver = RADAU::builder().mass_storage(MatrixStorage::Identity).rule(Rule::Book).build();
    let mut kept = Kept::default();
    let run =
        solver.solve(&Circle, 0.0, &[0.0, 1.0], xend, 1e-9.into(), 1e-9.into(), Some(&mut kept)).expect("a result");
    assert_eq!(kept.0.len(), run.steps.accepted);
    kept.0
}

#[test]
fn kept_steps_follow_the_solution_both_ways() {
    for xend in [6.0, -6.0] {
        for segment in kept(xend) {
            let (low, high) = segment.bounds();
            assert!(low < high);
            let (middle, mut y) = ((low + high) / 2.0, [0.0; 2]);
            segment.interpolate(middle, &mut y);
            assert!((y[0] - middle.sin()).abs() < 1e-6 && (y[1] - middle.cos()).abs() < 1e-6);
        }
    }
}

#[test]
#[should_panic(expected = "refused (19)")]
fn a_short_target_panics_as_in_the_rust() {
    kept(1.0)[0].interpolate(0.0, &mut [0.0]);
}
