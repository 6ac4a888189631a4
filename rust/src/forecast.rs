//! The forecast of a model sheet: what the program `decay` tells of it, as values.

use crate::c;
use crate::error::Reached;
use crate::outcome::{Evals, Steps, Strides};
use crate::printed;
use crate::refused::Refused;
use crate::status::Status;
use std::fmt;

/// The forecast of a model sheet, by the proved reader and the proved run that `decay` has.
///
/// A sheet is any bytes at all. Only a run that succeeded is a forecast; what else can become of a sheet is a
/// [`NoForecast`].
///
/// ```
/// use elchepur::prelude::*;
///
/// // One species that doesn't react.
/// let sheet = "6
/// 0000000000000000
/// 3ff0000000000000
/// 3f50000000000000
/// 3eb0000000000000
/// 100000
/// 0
/// 1
/// 3ff0000000000000
/// 0
/// ";
/// let there = elchepur::forecast(sheet.as_bytes())?;
/// assert_eq!((there.x, &there.y[..], there.steps.accepted), (1.0, &[1.0][..], 8));
///
/// let shouted = sheet.replace('f', "F");
/// assert_eq!(elchepur::forecast(shouted.as_bytes()), Err(NoForecast::Malformed { line: 3 }));
/// # Ok::<(), NoForecast>(())
/// ```
pub fn forecast(sheet: &[u8]) -> Result<Forecast, NoForecast> {
    decay(sheet).1
}

/// What the program `decay` prints of a sheet, byte for byte, and the forecast in it.
pub fn decay(sheet: &[u8]) -> (Vec<u8>, Result<Forecast, NoForecast>) {
    let printed = c::forecast(sheet);
    let forecast = printed::read(&printed);
    (printed, forecast)
}

/// The amounts at the end of a sheet's run, which succeeded.
///
/// Only [`forecast`] and [`decay`] make one. Nobody else can:
///
/// ```compile_fail
/// # use elchepur::prelude::*;
/// let (evals, steps, strides) = (Evals::default(), Steps::default(), Strides::default());
/// let invented = Forecast { x: 730.0, y: vec![9.5], evals, steps, strides };
/// ```
#[derive(Clone, Debug, PartialEq)]
#[non_exhaustive]
pub struct Forecast {
    /// The point reached: the sheet's xend, but for the rounding of the last step.
    pub x: f64,
    /// The amounts there, in the order of the sheet.
    pub y: Vec<f64>,
    /// What was evaluated.
    pub evals: Evals,
    /// The steps.
    pub steps: Steps,
    /// How small and how large the accepted ones were.
    pub strides: Strides,
}

/// Why a sheet has no forecast.
#[derive(Clone, Debug, PartialEq)]
#[non_exhaustive]
pub enum NoForecast {
    /// 20: it is no sheet.
    Malformed {
        /// The first wrong line, from 1.
        line: u64,
    },
    /// 21: it has more than 4,096 bytes.
    TooLong,
    /// 1 to 12: its settings or amounts are refused.
    Refused(Refused),
    /// The run broke off.
    BrokenOff(BrokenOffSheet),
    /// The archive told something that this crate doesn't know: the two are not of one version.
    Unknown {
        /// What it told.
        told: String,
    },
}

impl std::error::Error for NoForecast {}

impl fmt::Display for NoForecast {
    fn fmt(&self, f: &mut fmt::Formatter<'_>) -> fmt::Result {
        match self {
            NoForecast::Malformed { line } => write!(f, "refused (20): line {line} is not as a sheet has it"),
            NoForecast::TooLong => f.write_str("refused (21): the sheet is longer than 4,096 bytes"),
            NoForecast::Refused(refused) => refused.fmt(f),
            NoForecast::BrokenOff(broken) => broken.fmt(f),
            NoForecast::Unknown { told } => write!(f, "the archive told what this crate doesn't know: {told:?}"),
        }
    }
}

/// A sheet's run that ended before its end. It has amounts, but none at the sheet's xend: they are had by
/// [`reached`](BrokenOffSheet::reached) alone, with the point that they belong to.
///
/// ```compile_fail
/// # use elchepur::prelude::*;
/// fn last(broken: &BrokenOffSheet) -> f64 {
///     broken.y[0]
/// }
/// ```
#[derive(Clone, Debug, PartialEq)]
pub struct BrokenOffSheet {
    pub(crate) status: Status,
    pub(crate) reached: Reached,
    pub(crate) evals: Evals,
    pub(crate) steps: Steps,
    pub(crate) strides: Strides,
}

impl BrokenOffSheet {
    /// Why it broke off.
    pub fn status(&self) -> Status {
        self.status
    }

    /// How far it came.
    pub fn reached(&self) -> &Reached {
        &self.reached
    }

    /// What was evaluated.
    pub fn evals(&self) -> Evals {
        self.evals
    }

    /// The steps.
    pub fn steps(&self) -> Steps {
        self.steps
    }

    /// How small and how large the accepted ones were.
    pub fn strides(&self) -> Strides {
        self.strides
    }
}

impl std::error::Error for BrokenOffSheet {}

impl fmt::Display for BrokenOffSheet {
    fn fmt(&self, f: &mut fmt::Formatter<'_>) -> fmt::Result {
        let (x, status, number) = (self.reached.x, self.status, self.status.number());
        write!(f, "broken off at x = {x}: {status} (status {number}, {status:?})")
    }
}
