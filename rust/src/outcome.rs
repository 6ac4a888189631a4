//! What a run that succeeded left, and the counts of any run.

/// A run that reached its end: the last attempt was aimed at xend and accepted.
///
/// Only [`solve`](crate::methods::RADAU::solve) makes one, and only of such a run, so whoever holds one holds the
/// amounts at the end. Nobody else can:
///
/// ```compile_fail
/// # use elchepur::prelude::*;
/// let (evals, steps, strides) = (Evals::default(), Steps::default(), Strides::default());
/// let invented = IntegrationResult { x: 730.0, y: vec![9.5], h: 1.0, evals, steps, strides };
/// ```
///
/// Its parts can be taken from it:
///
/// ```
/// # use elchepur::prelude::*;
/// fn left(run: IntegrationResult) -> f64 {
///     let IntegrationResult { x: _, y, h: _, evals: _, steps: _, strides: _, .. } = run;
///     y[0]
/// }
/// ```
#[derive(Clone, Debug, PartialEq)]
#[non_exhaustive]
pub struct IntegrationResult {
    /// The point reached: xend, but for the rounding of the last step, and unless the last report modified it.
    pub x: f64,
    /// The amounts there.
    pub y: Vec<f64>,
    /// The step that a further attempt would have had.
    pub h: f64,
    /// What was evaluated.
    pub evals: Evals,
    /// The steps.
    pub steps: Steps,
    /// How small and how large the accepted ones were.
    pub strides: Strides,
}

/// How often what was evaluated. That each is the number of what happened is a theorem about the solver behind this
/// crate.
#[derive(Clone, Copy, Debug, Default, PartialEq, Eq)]
pub struct Evals {
    /// Derivatives, without those of difference Jacobians.
    pub ode: usize,
    /// Jacobians.
    pub jac: usize,
    /// Decompositions that were tried, and the first error solve of each attempt.
    pub lu: usize,
}

/// The steps of a run, likewise.
#[derive(Clone, Copy, Debug, Default, PartialEq, Eq)]
pub struct Steps {
    /// Attempts begun, the one over the limit too.
    pub total: usize,
    /// Attempts accepted.
    pub accepted: usize,
    /// Slow verdicts, and error tests failed after the first acceptance.
    pub rejected: usize,
}

/// |h| over the accepted attempts of a run, each with the h held when it was accepted; a NaN is passed over. Both are 0
/// where there was none. That they are those of what happened is a theorem too.
#[derive(Clone, Copy, Debug, Default, PartialEq)]
pub struct Strides {
    /// The smallest.
    pub smallest: f64,
    /// The largest.
    pub largest: f64,
}
