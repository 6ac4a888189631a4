//! What a refused opening found, in words for whoever called `solve`. The archive gives the number of a refusal; which
//! value it is about is looked up here, in the order of the archive's tests.

use crate::memory::Memory;
use crate::numbers::*;
use crate::refused::Refused;
use crate::run::Given;

type Number = (String, f64);

impl Given {
    /// What this refusal is about.
    pub(crate) fn found(&self, refused: Refused) -> String {
        let n = self.opening.n;
        match refused {
            Refused::Order => format!("y has {n} amounts: 1 to 32 are possible"),
            Refused::Part => self.lengths(),
            Refused::NotFinite => self.not_finite(),
            Refused::MaxSteps => {
                format!("max_steps is {}: it has to be 1 to 1,000,000", self.opening.numbers[NUMBER_MAX_STEPS])
            }
            Refused::Uround => {
                format!("uround is {:?}: it has to be above 1e-35 and below 1", self.float(FLOAT_UROUND))
            }
            Refused::SafetyFactor => {
                format!("safety_factor is {:?}: it has to be above 1e-4 and below 1", self.float(FLOAT_SAFETY_FACTOR))
            }
            Refused::Scales => self.scales(),
            Refused::NewtonMaxiter => {
                format!("newton_maxiter is {}: it has to be 1 to 16", self.opening.numbers[NUMBER_NEWTON_MAXITER])
            }
            Refused::Tolerance => self.tolerance(),
            Refused::Partition => self.partition(),
            Refused::FirstStep => "first_step is 0: if it is left out it is 1e-6".to_string(),
            Refused::StepLimits => self.step_limits(),
        }
    }

    fn float(&self, at: usize) -> f64 {
        self.opening.floats[at]
    }

    fn lengths(&self) -> String {
        let Given { opening, memory: Memory { rtol, atol, .. } } = self;
        let (name, list) = if rtol.len() == opening.n { ("atol", atol) } else { ("rtol", rtol) };
        let lengths = format!("{name} has the length {} and y the length {}", list.len(), opening.n);
        format!("{lengths}: a list of tolerances has one for each amount")
    }

    fn not_finite(&self) -> String {
        let Given { opening, memory } = self;
        let ends = [("x0".to_string(), opening.x0), ("xend".to_string(), opening.xend)].into_iter();
        let mass = memory.mass.iter().enumerate().filter(|_| opening.numbers[NUMBER_MASS] != 0);
        let mass = mass.map(|(at, entry)| (format!("the mass at ({}, {})", at / opening.n, at % opening.n), *entry));
        let numbers = ends.chain(places("y", &memory.y)).chain(mass).chain(self.tolerances()).chain(self.settings());
        told(numbers.into_iter().find(|(_, value)| !value.is_finite()), "every number that is given has to be finite")
    }

    /// The tolerances, by their names.
    fn tolerances(&self) -> Vec<Number> {
        let Given { opening, memory } = self;
        match opening.lists {
            0 => vec![("rtol".to_string(), opening.rtol), ("atol".to_string(), opening.atol)],
            _ => places("rtol", &memory.rtol).chain(places("atol", &memory.atol)).collect(),
        }
    }

    /// The settings that are floats and given, by their names.
    fn settings(&self) -> Vec<Number> {
        const ALWAYS: Option<usize> = None;
        let named = [
            ("uround", ALWAYS, FLOAT_UROUND),
            ("safety_factor", ALWAYS, FLOAT_SAFETY_FACTOR),
            ("scale_min", ALWAYS, FLOAT_SCALE_MIN),
            ("scale_max", ALWAYS, FLOAT_SCALE_MAX),
            ("max_step", Some(NUMBER_MAX_STEP_GIVEN), FLOAT_MAX_STEP),
            ("min_step", Some(NUMBER_MIN_STEP_GIVEN), FLOAT_MIN_STEP),
            ("newton_tol", Some(NUMBER_NEWTON_TOL_GIVEN), FLOAT_NEWTON_TOL),
            ("first_step", Some(NUMBER_FIRST_STEP_GIVEN), FLOAT_FIRST_STEP),
        ];
        let is_given = |given: Option<usize>| given.is_none_or(|at| self.opening.numbers[at] != 0);
        let given = named.into_iter().filter(|(_, given, _)| is_given(*given));
        given.map(|(name, _, at)| (name.to_string(), self.float(at))).collect()
    }

    fn scales(&self) -> String {
        let (min, max) = (self.float(FLOAT_SCALE_MIN), self.float(FLOAT_SCALE_MAX));
        format!("scale_min is {min:?} and scale_max {max:?}: the first has to be above 0 and below the second")
    }

    fn tolerance(&self) -> String {
        let is_bad = |(name, value): &Number| if name.starts_with('r') { *value <= 0.0 } else { *value < 0.0 };
        let found = self.tolerances().into_iter().find(is_bad);
        told(found, "an rtol has to be above 0, and an atol can't be below it")
    }

    fn partition(&self) -> String {
        let kinds = [("nind1", NUMBER_NIND1_GIVEN, NUMBER_NIND1), ("nind2", NUMBER_NIND2_GIVEN, NUMBER_NIND2)];
        let kinds = kinds.into_iter().chain([("nind3", NUMBER_NIND3_GIVEN, NUMBER_NIND3)]);
        let given = kinds.filter(|(_, given, _)| self.opening.numbers[*given] != 0);
        let told: Vec<String> = given.map(|(name, _, at)| format!("{name} is {}", self.opening.numbers[at])).collect();
        format!("{}, and y has {} amounts: each amount has one index", told.join(", "), self.opening.n)
    }

    fn step_limits(&self) -> String {
        let (max, min) = (self.float(FLOAT_MAX_STEP), self.float(FLOAT_MIN_STEP));
        let is_given = self.opening.numbers[NUMBER_MAX_STEP_GIVEN] != 0;
        if is_given && max < 0.0 {
            return format!("max_step is {max:?}: it can't be below 0");
        }
        let ceiling = if is_given { max } else { (self.opening.xend - self.opening.x0).abs() };
        format!("min_step is {min:?}: it can't be above the largest step, which is {ceiling:?}")
    }
}

/// The entries of a list, by their names.
fn places<'a>(name: &'a str, list: &'a [f64]) -> impl Iterator<Item = Number> + 'a {
    list.iter().enumerate().map(move |(at, value)| (format!("{name}[{at}]"), *value))
}

fn told(found: Option<Number>, rule: &str) -> String {
    match found {
        Some((name, value)) => format!("{name} is {value:?}: {rule}"),
        None => rule.to_string(),
    }
}
