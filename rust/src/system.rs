//! The system of equations that a run solves.

use crate::matrix::Matrix;

/// A system M y' = f(x, y): f, and where one wants them its Jacobian and its mass M.
///
/// ```
/// use elchepur::prelude::*;
///
/// // Van der Pol's oscillator, with its own Jacobian.
/// struct VanDerPol {
///     eps: f64,
/// }
///
/// impl FirstOrderSystem for VanDerPol {
///     fn derivative(&self, _x: f64, y: &[f64], dydx: &mut [f64]) {
///         dydx[0] = y[1];
///         dydx[1] = ((1.0 - y[0] * y[0]) * y[1] - y[0]) / self.eps;
///     }
///
///     fn jac(&self, _x: f64, y: &[f64], j: &mut Matrix) {
///         j[(0, 1)] = 1.0;
///         j[(1, 0)] = (-2.0 * y[0] * y[1] - 1.0) / self.eps;
///         j[(1, 1)] = (1.0 - y[0] * y[0]) / self.eps;
///     }
/// }
///
/// let solver = RADAU::builder().mass_storage(MatrixStorage::Identity).build();
/// let system = VanDerPol { eps: 1e-6 };
/// let run = solver.solve(&system, 0.0, &[2.0, -0.66], 2.0, 1e-6.into(), 1e-6.into(), None::<&mut NoSolOut>)?;
/// assert!((run.y[0] - 1.706).abs() < 1e-3);
/// # Ok::<(), Error>(())
/// ```
pub trait FirstOrderSystem {
    /// Writes the derivative at x and y into `dydx`, which has as many entries as y.
    fn derivative(&self, x: f64, y: &[f64], dydx: &mut [f64]);

    /// Writes the Jacobian of `derivative` at x and y into `j`, which has zeros the first time, and later what was
    /// written before.
    ///
    /// A system that has none leaves it to the solver, which then makes it by differences of `derivative`, in ivp's
    /// order and with its bits.
    fn jac(&self, _x: f64, _y: &[f64], j: &mut Matrix) {
        j.leave_to_solver();
    }

    /// Writes the mass into `m`. It is asked for once, before the run.
    ///
    /// As in ivp nothing is written by default, so that the mass is zero unless the setting `mass_storage` is
    /// [`MatrixStorage::Identity`](crate::matrix::MatrixStorage::Identity).
    fn mass(&self, _m: &mut Matrix) {}
}
