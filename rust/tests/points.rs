//! The amounts at points that are asked for: those of the solution, up and down, in any order, and none that no step
//! holds.

mod shared;

use elchepur::prelude::*;
use shared::bits;

/// y1' = y2, y2' = -y1.
struct Circle;

impl FirstOrderSystem for Circle {
    fn derivative(&self, _x: f64, y: &[f64], dydx: &mut [f64]) {
        (dydx[0], dydx[1]) = (y[1], -y[0]);
    }
}

fn solver(dense_output: bool) -> RADAU {
    let settings = RADAU::builder().mass_storage(MatrixStorage::Identity).rule(Rule::Book);
    settings.dense_output(dense_output).build()
}

/// What is read at these points on the way to xend.
fn read(points: &mut AtPoints, dense_output: bool, xend: f64) -> (IntegrationResult, Vec<Option<Vec<f64>>>) {
    let solver = solver(dense_output);
    let run = solver.solve(&Circle, 0.0, &[0.0, 1.0], xend, 1e-9.into(), 1e-9.into(), Some(points));
    let run = run.expect("a result");
    let amounts = points.amounts(&run).to_vec();
    (run, amounts)
}

#[test]
fn points_are_read_off_the_solution_both_ways() {
    for (dense_output, sign) in [(true, 1.0), (false, 1.0), (true, -1.0), (false, -1.0)] {
        let points = [5.0, 0.0, 1.0, 6.0, 1.0, 0.3, 7.0, -0.1].map(|point| sign * point);
        let (run, amounts) = read(&mut AtPoints::new(points), dense_output, sign * 6.0);
        assert_eq!(amounts.len(), points.len());
        for (point, there) in points.iter().zip(&amounts).take(6) {
            let there = there.as_ref().expect("a step holds it");
            assert!(
                (there[0] - point.sin()).abs() < 1e-6 && (there[1] - point.cos()).abs() < 1e-6,
                "{point}: {there:?}"
            );
        }
        assert_eq!(amounts[6..], [None, None]);
        assert_eq!((amounts[1].as_deref(), &amounts[2]), (Some(&[0.0, 1.0][..]), &amounts[4]));
        let last = amounts[3].as_ref().expect("the end");
        assert!(last.iter().zip(&run.y).all(|(a, b)| bits(*a) == bits(*b)), "{last:?} and {:?}", run.y);
    }
}

#[test]
fn reading_does_not_alter_the_run() {
    let bare = solver(true).solve(&Circle, 0.0, &[0.0, 1.0], 6.0, 1e-9.into(), 1e-9.into(), None::<&mut NoSolOut>);
    assert_eq!(bare, Ok(read(&mut AtPoints::new([1.0, 2.0]), true, 6.0).0));
}

#[test]
fn what_is_no_point_of_the_run_is_not_read() {
    let [nan, other] = [0x7ff8_0000_0000_0000, 0xfff8_0000_0000_0000].map(f64::from_bits);
    let points = [nan, other, other, other, nan, nan, f64::INFINITY, f64::NEG_INFINITY, 1.0];
    let (_, amounts) = read(&mut AtPoints::new(points), true, 6.0);
    assert!(amounts[..8].iter().all(Option::is_none) && amounts[8].is_some(), "{amounts:?}");
}

#[test]
fn a_second_run_leaves_nothing_of_the_first() {
    let mut points = AtPoints::new([1.0, 5.0]);
    assert!(read(&mut points, true, 6.0).1[1].is_some());
    assert!(read(&mut points, true, 2.0).1[1].is_none());
}

#[test]
#[should_panic(expected = "this is the result of another run than was read last")]
fn a_broken_off_run_is_not_read_with_the_result_of_another() {
    let mut points = AtPoints::new([1.0]);
    let (run, _) = read(&mut points, true, 6.0);
    let few = RADAU { max_steps: 30, ..solver(true) };
    let broken = few.solve(&Circle, 0.0, &[0.0, 1.0], 6.0, 1e-9.into(), 1e-9.into(), Some(&mut points));
    assert!(matches!(broken, Err(Error::BrokenOff(_))), "{broken:?}");
    points.amounts(&run);
}
