//! A shelf beside a list of all steps: at every point the newest of the last 48 that holds it answers, with its bits.

use elchepur::prelude::*;

/// y1' = y2, y2' = -y1.
struct Circle;

impl FirstOrderSystem for Circle {
    fn derivative(&self, _x: f64, y: &[f64], dydx: &mut [f64]) {
        (dydx[0], dydx[1]) = (y[1], -y[0]);
    }
}

/// Keeps every step, and modifies the point at one report.
#[derive(Default)]
struct All {
    steps: Vec<DenseSegment>,
    modified_at: usize,
    reports: usize,
}

impl SolOut for All {
    fn solout(&mut self, _xold: f64, _x: &mut f64, y: &mut [f64], step: Option<&StepInterpolant<'_>>) -> ControlFlag {
        self.reports += 1;
        self.steps.extend(step.map(StepInterpolant::to_segment));
        if self.reports != self.modified_at {
            return ControlFlag::Continue;
        }
        self.steps.clear();
        y[0] += 0.125;
        ControlFlag::ModifiedSolution
    }
}

/// The steps of a run to `end`, and a shelf of them, which an older run has left full.
fn run(end: f64, modified_at: usize, dense_output: bool) -> Shelved<All> {
    let mut told = Shelved { shelf: Shelf::new(), other: All::default() };
    let solver = RADAU::builder().mass_storage(MatrixStorage::Identity).dense_output(dense_output).build();
    for (end, modified_at) in [(100.0, 0), (end, modified_at)] {
        told.other = All { modified_at, ..All::default() };
        solver.solve(&Circle, 0.0, &[1.0, 0.0], end, 1e-9.into(), 1e-9.into(), Some(&mut told)).expect("a result");
    }
    told
}

fn same_everywhere(told: &Shelved<All>) {
    let steps = &told.other.steps;
    let bits = |y: &[f64]| y.iter().map(|amount| amount.to_bits()).collect::<Vec<_>>();
    let ends = steps.iter().flat_map(|step| [step.bounds().0, step.bounds().1]);
    let inner = steps.iter().map(|step| (step.bounds().0 + step.bounds().1) / 2.0);
    let mut held = 0;
    for x in ends.chain(inner).chain([f64::NAN, 1e9, -1e9, f64::INFINITY]) {
        let mut recent = steps.iter().rev().take(48);
        let wanted = recent.find(|step| step.bounds().0 <= x && x <= step.bounds().1).map(|step| {
            let mut amounts = [0.0; 2];
            step.interpolate(x, &mut amounts);
            bits(&amounts)
        });
        held += usize::from(wanted.is_some());
        assert_eq!(told.shelf.at(x).map(|amounts| bits(&amounts)), wanted, "at {x}");
    }
    assert!(held >= 3 * told.shelf.len(), "{held} points were held");
}

#[test]
fn the_newest_of_the_last_48_answers() {
    for end in [40.0, -40.0] {
        let told = run(end, 0, true);
        assert!(told.other.steps.len() > 48);
        assert_eq!(told.shelf.len(), 48);
        same_everywhere(&told);
    }
}

#[test]
fn a_modified_point_empties_it() {
    let told = run(40.0, 60, true);
    assert!(told.shelf.len() == told.other.steps.len().min(48) && !told.shelf.is_empty());
    assert_eq!(told.shelf.at(0.0), None);
    same_everywhere(&told);
}

#[test]
fn steps_that_are_not_offered_are_kept_too() {
    for modified_at in [0, 60] {
        let (quiet, told) = (run(40.0, modified_at, false).shelf, run(40.0, modified_at, true));
        assert_eq!(quiet.len(), told.shelf.len());
        for step in &told.other.steps {
            assert_eq!(quiet.at(step.bounds().1), told.shelf.at(step.bounds().1));
        }
    }
}

#[test]
fn an_empty_shelf_takes_steps_of_any_number_of_amounts() {
    struct Still;
    impl FirstOrderSystem for Still {
        fn derivative(&self, _x: f64, _y: &[f64], dydx: &mut [f64]) {
            dydx.fill(0.0);
        }
    }
    let solver = RADAU::builder().mass_storage(MatrixStorage::Identity).build();
    let mut shelf = Shelf::new();
    for n in [3, 1, 2] {
        let start = vec![1.5; n];
        solver.solve(&Still, 0.0, &start, 1.0, 1e-6.into(), 1e-9.into(), Some(&mut shelf)).expect("a result");
        assert_eq!(shelf.at(0.5), Some(start));
    }
}
