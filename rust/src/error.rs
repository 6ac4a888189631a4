//! All that [`solve`](crate::methods::RADAU::solve) gives in place of a result.

use crate::outcome::{Evals, Steps, Strides};
pub use crate::refused::{Refused, RefusedOpening};
use crate::status::{Singular, Status};
use std::fmt;

/// Why there is no result. A broken-off run is one of these, so its amounts can't be taken for those at the end.
///
/// ```
/// use elchepur::prelude::*;
///
/// struct Decay;
/// impl FirstOrderSystem for Decay {
///     fn derivative(&self, _x: f64, y: &[f64], dydx: &mut [f64]) {
///         dydx[0] = -y[0];
///     }
/// }
///
/// let solver = RADAU::builder().mass_storage(MatrixStorage::Identity).max_steps(3).build();
/// match solver.solve(&Decay, 0.0, &[1.0], 730.0, 1e-6.into(), 1e-9.into(), None::<&mut NoSolOut>) {
///     Err(Error::BrokenOff(broken)) => {
///         assert_eq!(broken.status(), Status::NeedLargerNMax);
///         assert!(broken.reached().x < 730.0);
///     }
///     other => panic!("{other:?}"),
/// }
/// ```
#[derive(Clone, Debug, PartialEq)]
pub enum Error {
    /// The opening was refused, and nothing was run.
    Refused(RefusedOpening),
    /// One tolerance is a number and the other a list, which this port doesn't have; nothing was run.
    MixedTolerances,
    /// A report was answered with [`Interrupt`](crate::solout::ControlFlag::Interrupt).
    Interrupted(Interrupted),
    /// A report wrote x or y and was not answered with
    /// [`ModifiedSolution`](crate::solout::ControlFlag::ModifiedSolution); the run was given up there.
    Altered {
        /// The point of that report.
        x: f64,
    },
    /// The run broke off.
    BrokenOff(BrokenOff),
}

impl std::error::Error for Error {}

impl fmt::Display for Error {
    fn fmt(&self, f: &mut fmt::Formatter<'_>) -> fmt::Result {
        match self {
            Error::Refused(refused) => refused.fmt(f),
            Error::MixedTolerances => {
                f.write_str("one tolerance is a number and the other a list: give both as numbers or both as lists")
            }
            Error::Interrupted(interrupted) => interrupted.fmt(f),
            Error::Altered { x } => {
                write!(f, "given up at x = {x}: a report wrote x or y and was not answered with ModifiedSolution")
            }
            Error::BrokenOff(broken) => broken.fmt(f),
        }
    }
}

/// A run that a report ended: what the caller asked for, and not a result.
#[derive(Clone, Debug, PartialEq)]
#[non_exhaustive]
pub struct Interrupted {
    /// The point of that report, as the run had it.
    pub x: f64,
    /// The amounts there, as the run had them.
    pub y: Vec<f64>,
    /// Where the run was to end.
    pub xend: f64,
    /// The step that it held.
    pub h: f64,
    /// What was evaluated.
    pub evals: Evals,
    /// The steps.
    pub steps: Steps,
    /// How small and how large the accepted ones were.
    pub strides: Strides,
}

impl std::error::Error for Interrupted {}

impl fmt::Display for Interrupted {
    fn fmt(&self, f: &mut fmt::Formatter<'_>) -> fmt::Result {
        write!(f, "interrupted at x = {}, on the way to {}", self.x, self.xend)
    }
}

/// A run that ended before its end. It has amounts, but none at xend: they are had by [`reached`](BrokenOff::reached)
/// alone, with the point that they belong to.
///
/// ```
/// # use elchepur::prelude::*;
/// fn last(broken: &BrokenOff) -> f64 {
///     broken.reached().y[0]
/// }
/// ```
///
/// They can't be read as those of a result are:
///
/// ```compile_fail
/// # use elchepur::prelude::*;
/// fn last(broken: &BrokenOff) -> f64 {
///     broken.y[0]
/// }
/// ```
///
/// nor does a call give any before it is asked how it ended:
///
/// ```compile_fail
/// # use elchepur::prelude::*;
/// fn last<F: FirstOrderSystem>(solver: &RADAU, f: &F) -> f64 {
///     solver.solve(f, 0.0, &[1.0], 1.0, 1e-6.into(), 1e-6.into(), None::<&mut NoSolOut>).y[0]
/// }
/// ```
///
/// ```
/// # use elchepur::prelude::*;
/// fn last<F: FirstOrderSystem>(solver: &RADAU, f: &F) -> Result<f64, Error> {
///     Ok(solver.solve(f, 0.0, &[1.0], 1.0, 1e-6.into(), 1e-6.into(), None::<&mut NoSolOut>)?.y[0])
/// }
/// ```
#[derive(Clone, Debug, PartialEq)]
pub struct BrokenOff {
    pub(crate) status: Status,
    // Apart, so that an error stays small.
    pub(crate) reached: Box<Reached>,
    pub(crate) xend: f64,
    pub(crate) h: f64,
    pub(crate) evals: Evals,
    pub(crate) steps: Steps,
    pub(crate) strides: Strides,
    pub(crate) singular: Option<Singular>,
    pub(crate) has_zero_mass: bool,
}

/// The last point that a broken-off run reached.
#[derive(Clone, Debug, PartialEq)]
#[non_exhaustive]
pub struct Reached {
    /// The point.
    pub x: f64,
    /// The amounts there, which are not those at the end.
    pub y: Vec<f64>,
}

impl BrokenOff {
    /// Why it broke off.
    pub fn status(&self) -> Status {
        self.status
    }

    /// Which matrix was singular latest, or that none ever was: told with [`Status::SingularMatrix`] alone.
    pub fn singular(&self) -> Option<Singular> {
        self.singular
    }

    /// How far it came.
    pub fn reached(&self) -> &Reached {
        &self.reached
    }

    /// Where it was to end.
    pub fn xend(&self) -> f64 {
        self.xend
    }

    /// The step that it held.
    pub fn h(&self) -> f64 {
        self.h
    }

    /// What was evaluated.
    pub fn evals(&self) -> Evals {
        self.evals
    }

    /// The steps.
    pub fn steps(&self) -> Steps {
        self.steps
    }

    /// How small and how large the accepted ones were.
    pub fn strides(&self) -> Strides {
        self.strides
    }
}

impl std::error::Error for BrokenOff {}

impl fmt::Display for BrokenOff {
    fn fmt(&self, f: &mut fmt::Formatter<'_>) -> fmt::Result {
        let BrokenOff { status, reached, xend, steps, .. } = self;
        let (x, number, Steps { accepted, rejected, .. }) = (reached.x, status.number(), steps);
        write!(f, "broken off at x = {x}, on the way to {xend}: {status} (status {number}, {status:?}), ")?;
        write!(f, "with {accepted} steps accepted and {rejected} rejected")?;
        if let Some(singular) = self.singular {
            write!(f, "; {singular}")?;
        }
        if self.has_zero_mass && *status == Status::SingularMatrix {
            f.write_str("; the mass is all zeros: for y' = f(x, y) choose MatrixStorage::Identity")?;
        }
        Ok(())
    }
}
