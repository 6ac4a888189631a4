//! Why an opening is refused.

use crate::numbers::*;
use std::fmt;

/// Why an opening was refused, under the header's names.
#[derive(Clone, Copy, Debug, PartialEq, Eq)]
pub enum Refused {
    /// 1: n is not 1 to 32.
    Order,
    /// 2: a list of tolerances is not as long as y.
    Part,
    /// 3: a float that was given is not finite.
    NotFinite,
    /// 4: max_steps is not 1 to 1,000,000.
    MaxSteps,
    /// 5: uround is not above 1e-35 and below 1.
    Uround,
    /// 6: safety_factor is not above 1e-4 and below 1.
    SafetyFactor,
    /// 7: scale_min is not above 0 and below scale_max.
    Scales,
    /// 8: newton_maxiter is not 1 to 16.
    NewtonMaxiter,
    /// 9: an rtol is not above 0, or an atol is below 0.
    Tolerance,
    /// 10: nind1, nind2 and nind3 don't fit n.
    Partition,
    /// 11: first_step is 0.
    FirstStep,
    /// 12: max_step is below 0, or min_step above the largest step.
    StepLimits,
}

// Each with its number and its words, which are the header's.
const REFUSALS: [(Refused, u64, &str); 12] = [
    (Refused::Order, REFUSED_ORDER, "n is not 1 to 32"),
    (Refused::Part, REFUSED_PART, "a lent part has the wrong length"),
    (Refused::NotFinite, REFUSED_NOT_FINITE, "an end, amount, mass entry, tolerance or setting is not finite"),
    (Refused::MaxSteps, REFUSED_MAX_STEPS, "max_steps is not 1 to 1,000,000"),
    (Refused::Uround, REFUSED_UROUND, "uround <= 1e-35 or >= 1"),
    (Refused::SafetyFactor, REFUSED_SAFETY_FACTOR, "safety_factor <= 1e-4 or >= 1"),
    (Refused::Scales, REFUSED_SCALES, "scale_min <= 0 or not below scale_max"),
    (Refused::NewtonMaxiter, REFUSED_NEWTON_MAXITER, "newton_maxiter is not 1 to 16"),
    (Refused::Tolerance, REFUSED_TOLERANCE, "an rtol <= 0 or an atol < 0"),
    (
        Refused::Partition,
        REFUSED_PARTITION,
        "nind1 is given and the three don't sum to n, or only others are and exceed n",
    ),
    (Refused::FirstStep, REFUSED_FIRST_STEP, "first_step is given as 0"),
    (Refused::StepLimits, REFUSED_STEP_LIMITS, "max_step < 0, or min_step above the step ceiling"),
];

impl Refused {
    /// The refusal of this number.
    pub fn of(number: u64) -> Option<Refused> {
        REFUSALS.iter().find(|row| row.1 == number).map(|row| row.0)
    }

    fn row(self) -> &'static (Refused, u64, &'static str) {
        REFUSALS.iter().find(|row| row.0 == self).expect("every refusal has a row")
    }

    /// Its number, 1 to 12, as the program `decay` prints it.
    pub fn number(self) -> u64 {
        self.row().1
    }
}

/// An opening of `solve` that was refused: why, and what was found in what was given.
#[derive(Clone, Debug, PartialEq, Eq)]
pub struct RefusedOpening {
    pub(crate) refused: Refused,
    pub(crate) found: String,
}

impl RefusedOpening {
    /// Why.
    pub fn refused(&self) -> Refused {
        self.refused
    }

    /// Its number: see [`Refused::number`].
    pub fn number(&self) -> u64 {
        self.refused.number()
    }
}

impl std::error::Error for RefusedOpening {}

impl fmt::Display for RefusedOpening {
    fn fmt(&self, f: &mut fmt::Formatter<'_>) -> fmt::Result {
        write!(f, "refused ({}): {}", self.number(), self.found)
    }
}

impl std::error::Error for Refused {}

impl fmt::Display for Refused {
    fn fmt(&self, f: &mut fmt::Formatter<'_>) -> fmt::Result {
        let (_, number, words) = self.row();
        write!(f, "refused ({number}): {words}")
    }
}
