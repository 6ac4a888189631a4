//! The stiff solver RADAU (Radau IIA, order 5), proved in Rattle, under the names that the crate `ivp` has for it.
//!
//! A program that called `ivp`'s RADAU calls this one with another `use` line. What differs is what it gets: a result
//! is a run that succeeded, and every other end is an [`Error`](error::Error), so that a broken-off run can't be shown
//! as a result.
//!
//! ```
//! use elchepur::prelude::*;
//!
//! // Robertson's three reactions.
//! struct Robertson;
//!
//! impl FirstOrderSystem for Robertson {
//!     fn derivative(&self, _x: f64, y: &[f64], dydx: &mut [f64]) {
//!         dydx[0] = -0.04 * y[0] + 1e4 * y[1] * y[2];
//!         dydx[2] = 3e7 * y[1] * y[1];
//!         dydx[1] = -dydx[0] - dydx[2];
//!     }
//! }
//!
//! let solver = RADAU::builder().mass_storage(MatrixStorage::Identity).build();
//! match solver.solve(&Robertson, 0.0, &[1.0, 0.0, 0.0], 40.0, 1e-4.into(), 1e-8.into(), None::<&mut NoSolOut>) {
//!     Ok(run) => {
//!         assert_eq!(run.x, 40.0);
//!         assert!((run.y[0] - 0.7158).abs() < 1e-4);
//!     }
//!     Err(Error::BrokenOff(broken)) => panic!("no forecast: {broken}"),
//!     Err(other) => panic!("{other}"),
//! }
//! ```
//!
//! The archive behind it is proved to do what ivp does, bit for bit, with ivp's power calls directed to routines that
//! are the same on every machine. This crate around it is not proved; its tests hold it to answers of ivp.
#![deny(unsafe_code, missing_docs)]

#[allow(unsafe_code)]
mod c;
pub mod dense;
pub mod error;
mod forecast;
mod found;
pub mod matrix;
mod memory;
mod night;
mod numbers;
mod outcome;
mod points;
mod printed;
mod refused;
mod run;
mod settings;
mod sheet;
mod shelf;
pub mod solout;
pub mod status;
mod system;
pub mod table;
mod tolerance;

pub use crate::forecast::{decay, forecast, BrokenOffSheet, Forecast, NoForecast};
pub use crate::night::{totals, Night, NoTotals, Totals};
pub use crate::sheet::{NoSheet, Reaction, Sheet};
pub use crate::shelf::{Shelf, Shelved};

/// Whether the archive behind this crate bears the mark of the kit that proves. It does, unless whoever built this
/// program set ELCHEPUR_ALLOW_UNPROVED.
pub const IS_PROVED: bool = !env!("ELCHEPUR_LOGIC").is_empty();

/// The system of equations, where ivp has it.
pub mod ivp {
    pub use crate::system::FirstOrderSystem;
}

/// The solver and what goes with it, where ivp has them.
pub mod methods {
    pub use crate::outcome::{Evals, IntegrationResult, Steps, Strides};
    pub use crate::settings::{RADAUBuilder, Rule, RADAU};
    pub use crate::tolerance::Tolerance;
}

/// All names of this crate.
pub mod prelude {
    pub use crate::dense::{DenseSegment, StepInterpolant};
    pub use crate::error::{BrokenOff, Error, Interrupted, Reached, Refused, RefusedOpening};
    pub use crate::forecast::{forecast, BrokenOffSheet, Forecast, NoForecast};
    pub use crate::ivp::FirstOrderSystem;
    pub use crate::matrix::{Matrix, MatrixStorage};
    pub use crate::methods::{Evals, IntegrationResult, RADAUBuilder, Rule, Steps, Strides, Tolerance, RADAU};
    pub use crate::night::{Night, NoTotals, Totals};
    pub use crate::sheet::{NoSheet, Reaction, Sheet};
    pub use crate::shelf::{Shelf, Shelved};
    pub use crate::solout::{AtPoints, ControlFlag, NoSolOut, SolOut};
    pub use crate::status::{Singular, Status};
    pub use crate::table::Table;
}
