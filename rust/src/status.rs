//! How a run broke off.

use crate::numbers::{SINGULAR_COMPLEX, SINGULAR_NONE, SINGULAR_REAL};
use crate::numbers::{STATUS_NEED_LARGER_NMAX, STATUS_SINGULAR_MATRIX, STATUS_STEP_SIZE_TOO_SMALL};
use std::fmt;

/// Why a run broke off before its end. ivp's `Success` and `UserInterrupt` are not here:
/// [`solve`](crate::methods::RADAU::solve) gives a result for the one and
/// [`Error::Interrupted`](crate::error::Error::Interrupted) for the other. Nor are the two that RADAU never gives.
#[derive(Clone, Copy, Debug, PartialEq, Eq)]
pub enum Status {
    /// As many attempts as `max_steps` permits did not reach the end.
    NeedLargerNMax,
    /// The step became too small to tell its ends apart.
    StepSizeTooSmall,
    /// Six times since the last accepted step a matrix was singular or Newton's iteration did not converge.
    SingularMatrix,
}

impl Status {
    pub(crate) fn of(number: u64) -> Option<Status> {
        match number {
            STATUS_NEED_LARGER_NMAX => Some(Status::NeedLargerNMax),
            STATUS_STEP_SIZE_TOO_SMALL => Some(Status::StepSizeTooSmall),
            STATUS_SINGULAR_MATRIX => Some(Status::SingularMatrix),
            _ => None,
        }
    }

    /// Its number: 2, 3 or 5, as the program `decay` prints it.
    pub fn number(self) -> u64 {
        match self {
            Status::NeedLargerNMax => STATUS_NEED_LARGER_NMAX,
            Status::StepSizeTooSmall => STATUS_STEP_SIZE_TOO_SMALL,
            Status::SingularMatrix => STATUS_SINGULAR_MATRIX,
        }
    }
}

/// Which matrix was singular latest in a run that broke off with [`Status::SingularMatrix`]: of the whole run, whatever
/// was accepted since.
#[derive(Clone, Copy, Debug, PartialEq, Eq)]
pub enum Singular {
    /// None ever was: it was Newton's iteration that did not converge.
    Never,
    /// The real matrix E1 had no pivot in this column, counted from 0.
    Real(usize),
    /// The complex matrix E2 had none.
    Complex(usize),
}

impl Singular {
    pub(crate) fn of(kind: u64, column: usize) -> Option<Singular> {
        match kind {
            SINGULAR_NONE => Some(Singular::Never),
            SINGULAR_REAL => Some(Singular::Real(column)),
            SINGULAR_COMPLEX => Some(Singular::Complex(column)),
            _ => None,
        }
    }
}

/// A column belongs to a species, which is counted from 1.
impl fmt::Display for Singular {
    fn fmt(&self, f: &mut fmt::Formatter<'_>) -> fmt::Result {
        let (name, column) = match *self {
            Singular::Never => return f.write_str("no matrix was singular"),
            Singular::Real(column) => ("real", column),
            Singular::Complex(column) => ("complex", column),
        };
        write!(f, "species {}: the {name} matrix had no pivot in column {column}", column + 1)
    }
}

impl fmt::Display for Status {
    fn fmt(&self, f: &mut fmt::Formatter<'_>) -> fmt::Result {
        f.write_str(match self {
            Status::NeedLargerNMax => "max_steps is used up",
            Status::StepSizeTooSmall => "the step became too small",
            Status::SingularMatrix => "six times a matrix was singular or Newton's iteration did not converge",
        })
    }
}
