//! What is told of a run while it goes on.

use crate::dense::StepInterpolant;
pub use crate::points::AtPoints;

/// What becomes of a run after a report.
#[derive(Clone, Copy, Debug, PartialEq)]
pub enum ControlFlag {
    /// It goes on.
    Continue,
    /// It ends here, as [`Error::Interrupted`](crate::error::Error::Interrupted).
    Interrupt,
    /// It goes on from the x and y that were written.
    ModifiedSolution,
    /// It goes on, and from this x on interpolants are offered also where `dense_output` is off.
    XOut(f64),
}

/// Is told each point that a run reaches: the first, and one for each accepted step.
///
/// ```
/// use elchepur::prelude::*;
///
/// struct Decay;
/// impl FirstOrderSystem for Decay {
///     fn derivative(&self, _x: f64, y: &[f64], dydx: &mut [f64]) {
///         dydx[0] = -y[0];
///     }
/// }
///
/// // The amount at x = 1, read off the step that goes past it.
/// struct AtOne(Option<f64>);
/// impl SolOut for AtOne {
///     fn solout(
///         &mut self,
///         xold: f64,
///         x: &mut f64,
///         _y: &mut [f64],
///         step: Option<&StepInterpolant<'_>>,
///     ) -> ControlFlag {
///         if let Some(step) = step.filter(|_| xold < 1.0 && *x >= 1.0) {
///             let mut y = [0.0];
///             step.interpolate(1.0, &mut y);
///             self.0 = Some(y[0]);
///         }
///         ControlFlag::Continue
///     }
/// }
///
/// let mut seen = AtOne(None);
/// let solver = RADAU::builder().mass_storage(MatrixStorage::Identity).build();
/// solver.solve(&Decay, 0.0, &[1.0], 3.0, 1e-6.into(), 1e-9.into(), Some(&mut seen))?;
/// assert!((seen.0.unwrap() - 1f64.exp().recip()).abs() < 1e-5);
/// # Ok::<(), Error>(())
/// ```
pub trait SolOut {
    /// Told the x before the step and the x and y after it; at the first report both x are the start. `interpolant` is
    /// never there at the first report, and later where `dense_output` is on or an [`XOut`](ControlFlag::XOut) is due.
    ///
    /// x and y may be written together with [`ControlFlag::ModifiedSolution`]. ivp takes up what is written with any
    /// flag; this solver can't, and the call of `solve` then ends with
    /// [`Error::Altered`](crate::error::Error::Altered).
    fn solout(
        &mut self,
        xold: f64,
        x: &mut f64,
        y: &mut [f64],
        interpolant: Option<&StepInterpolant<'_>>,
    ) -> ControlFlag;

    /// Told before each report which step it is of, its interpolant offered or not; none before the first. It is for
    /// those that keep steps, as [`Shelf`](crate::Shelf); ivp has no such call, and a `SolOut` need not have it.
    fn held(&mut self, _step: Option<&StepInterpolant<'_>>) {}
}

/// For a caller that wants no reports: `None::<&mut NoSolOut>`.
#[derive(Clone, Copy, Debug)]
pub enum NoSolOut {}

impl SolOut for NoSolOut {
    fn solout(
        &mut self,
        _xold: f64,
        _x: &mut f64,
        _y: &mut [f64],
        _interpolant: Option<&StepInterpolant<'_>>,
    ) -> ControlFlag {
        match *self {}
    }
}
