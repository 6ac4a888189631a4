//! The amounts at points that were asked for, by dense output.

use crate::dense::StepInterpolant;
use crate::outcome::IntegrationResult;
use crate::solout::{ControlFlag, SolOut};

/// Reads the amounts at given points off the steps of a run, as `t_eval` does in ivp's driver and in SciPy.
///
/// Points may come in any order, also for a run that goes down. What was read is handed out against the result of the
/// run, so that nothing of a broken-off run is. It asks for interpolants itself, so that `dense_output` may be on or
/// off.
///
/// ```
/// use elchepur::prelude::*;
///
/// struct Decay;
/// impl FirstOrderSystem for Decay {
///     fn derivative(&self, _x: f64, y: &[f64], dydx: &mut [f64]) {
///         dydx[0] = -y[0];
///     }
/// }
///
/// let mut points = AtPoints::new([0.0, 1.0, 2.0, 5.0]);
/// let solver = RADAU::builder().mass_storage(MatrixStorage::Identity).build();
/// let run = solver.solve(&Decay, 0.0, &[1.0], 3.0, 1e-6.into(), 1e-9.into(), Some(&mut points))?;
/// let read = points.amounts(&run);
/// assert_eq!(read[0], Some(vec![1.0]));
/// assert!((read[1].as_ref().unwrap()[0] - 1f64.exp().recip()).abs() < 1e-5);
/// assert_eq!(read[3], None, "the run ends before it");
/// # Ok::<(), Error>(())
/// ```
///
/// Without a result there is nothing to read:
///
/// ```compile_fail
/// # use elchepur::prelude::*;
/// fn first(points: &AtPoints) -> f64 {
///     points.amounts()[0].as_ref().unwrap()[0]
/// }
/// ```
#[derive(Clone, Debug, PartialEq)]
pub struct AtPoints {
    // The points in ascending order, each with its place among those that were given.
    ascending: Vec<(f64, usize)>,
    read: Vec<Option<Vec<f64>>>,
    // Of the run that is read, or was read last.
    reports: usize,
}

impl AtPoints {
    /// For a run that is to be read at these points.
    pub fn new(points: impl Into<Vec<f64>>) -> AtPoints {
        let points = points.into();
        let mut ascending: Vec<(f64, usize)> = points.iter().copied().zip(0..).collect();
        // A NaN is held by no step, and has no place in an order.
        ascending.retain(|(point, _)| !point.is_nan());
        ascending.sort_by(|a, b| a.0.total_cmp(&b.0));
        AtPoints { ascending, read: vec![None; points.len()], reports: 0 }
    }

    /// The amounts at each point, in the order in which the points were given; for the run whose result this is.
    ///
    /// `None` stands where no step's [`bounds`](StepInterpolant::bounds) hold the point: beyond the ends of the run,
    /// and under [`Rule::Rust`](crate::methods::Rule::Rust) also within, where a slow attempt was accepted with a
    /// shortened step.
    ///
    /// # Panics
    /// Where the result can't be that of the run that was read last, since that had another number of reports.
    pub fn amounts(&self, run: &IntegrationResult) -> &[Option<Vec<f64>>] {
        assert_eq!(self.reports, run.steps.accepted + 1, "this is the result of another run than was read last");
        &self.read
    }

    /// The places of the points between two ends, which count too.
    fn within(&self, (low, high): (f64, f64)) -> impl Iterator<Item = (f64, usize)> + '_ {
        let first = self.ascending.partition_point(|(point, _)| *point < low);
        self.ascending[first..].iter().copied().take_while(move |(point, _)| *point <= high)
    }
}

impl SolOut for AtPoints {
    fn solout(
        &mut self,
        _xold: f64,
        x: &mut f64,
        y: &mut [f64],
        interpolant: Option<&StepInterpolant<'_>>,
    ) -> ControlFlag {
        if interpolant.is_none() {
            // A run begins; what an earlier one left goes.
            self.read.fill(None);
            self.reports = 0;
        }
        self.reports += 1;
        let bounds = interpolant.map_or((*x, *x), StepInterpolant::bounds);
        let unread: Vec<(f64, usize)> = self.within(bounds).filter(|(_, place)| self.read[*place].is_none()).collect();
        for (point, place) in unread {
            let mut there = y.to_vec();
            if let Some(step) = interpolant {
                step.interpolate(point, &mut there);
            }
            self.read[place] = Some(there);
        }
        // From the first report on every step is offered with its interpolant.
        ControlFlag::XOut(f64::NEG_INFINITY)
    }
}

#[cfg(test)]
mod tests {
    use super::*;

    /// A step from 0 by 0.5 whose report is at 1, as the Rust rule leaves it after a slow attempt.
    #[test]
    fn what_a_shortened_step_leaves_out_is_not_read() {
        let mut points = AtPoints::new([0.0, 0.25, 0.5, 0.75, 1.0]);
        let step = StepInterpolant::new(&[3.0, 0.0, 0.0, 0.0], 0.0, 0.5);
        points.solout(0.0, &mut 0.0, &mut [3.0], None);
        points.solout(0.0, &mut 1.0, &mut [4.0], Some(&step));
        let there = Some(vec![3.0]);
        assert_eq!(points.read, [there.clone(), there.clone(), there, None, None]);
    }
}
