// The Rust's `solve`, as its users call it.
use super::models::Model;
use super::outcome::{Outcome, Way};
use super::points::Points;
use crate::dense::StepInterpolant;
use crate::ivp::FirstOrderSystem;
use crate::matrix::{Matrix, MatrixStorage};
use crate::methods::Tolerance;
use crate::solout::{ControlFlag, SolOut};
use crate::status::Status;
use std::marker::PhantomData;

// A system that leaves its Jacobian to the Rust's differences, and one that makes it.
pub struct Plain<M>(PhantomData<M>);
pub struct Making<M>(PhantomData<M>);

impl<M: Model> FirstOrderSystem for Plain<M> {
    fn derivative(&self, _: f64, y: &[f64], dydx: &mut [f64]) {
        M::derivative(y, dydx);
    }
}

impl<M: Model> FirstOrderSystem for Making<M> {
    fn derivative(&self, _: f64, y: &[f64], dydx: &mut [f64]) {
        M::derivative(y, dydx);
    }

    fn jac(&self, _: f64, y: &[f64], j: &mut Matrix) {
        M::jacobian(y, &mut j.data, |row, column| row * M::N + column);
    }
}

// `solve` keeps the amounts to itself, so a report has to hand them on.
impl SolOut for Points {
    fn solout(&mut self, _: f64, x: &mut f64, y: &mut [f64], interpolant: Option<&StepInterpolant<'_>>) -> ControlFlag {
        self.y.copy_from_slice(y);
        if let Some(interpolant) = interpolant {
            self.reached(*x, |xi, yi| interpolant.interpolate(xi, yi));
        }
        ControlFlag::Continue
    }
}

pub fn number_of(status: Status) -> i64 {
    match status {
        Status::Success => 0,
        Status::UserInterrupt => 1,
        Status::NeedLargerNMax => 2,
        Status::StepSizeTooSmall => 3,
        Status::SingularMatrix => 5,
        _ => unreachable!("solve gives no other"),
    }
}

// The `solve` of a module: radau_libm has the Rust's text, radau_ours has its powers directed to ours.
macro_rules! solver {
    ($name:ident, $module:ident) => {
        pub fn $name<M: Model>(way: Way) -> Outcome {
            let solver = crate::$module::RADAU { mass_storage: MatrixStorage::Identity, dense_output: way.dense,
                uround: way.uround, ..Default::default() };
            let mut points = Points::new(M::N, way);
            let tolerance = |number: f64| if way.lists { Tolerance::Vector(vec![number; M::N]) } else {
                Tolerance::Scalar(number) };
            let (rtol, atol) = (tolerance(way.rtol), tolerance(way.atol));
            let result = if way.host_jacobian {
                solver.solve(&Making::<M>(PhantomData), 0.0, &M::start(), way.xend, rtol, atol, Some(&mut points))
            } else {
                solver.solve(&Plain::<M>(PhantomData), 0.0, &M::start(), way.xend, rtol, atol, Some(&mut points))
            };
            let result = result.expect("settings that are permitted");
            Outcome {
                status: number_of(result.status),
                accepted: result.steps.accepted as u64,
                rejected: result.steps.rejected as u64,
                total: result.steps.total as u64,
                ode: result.evals.ode as u64,
                jac: result.evals.jac as u64,
                lu: result.evals.lu as u64,
                rounds: 0,
                y: points.y,
                sum: points.sum,
            }
        }
    };
}

solver!(run, radau_libm);
solver!(run_with_our_powers, radau_ours);
