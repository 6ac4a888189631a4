//! The settings of the solver, and their builder. The defaults are those that the archive gives; they stand in no list
//! here.

use crate::c;
use crate::dense;
use crate::matrix::MatrixStorage;
use crate::numbers::*;

/// Which of the two rules a run goes by.
#[derive(Clone, Copy, Debug, PartialEq, Eq)]
pub enum Rule {
    /// As ivp does it, bit for bit.
    Rust,
    /// As the published RADAU5 does it in three places where ivp departs from it: a single tolerance is converted once,
    /// a slow Newton iteration ends the attempt, and after a failed attempt a Jacobian of another point is made again.
    Book,
}

/// The solver with its settings: RADAU, Radau IIA of order 5.
///
/// ```
/// use elchepur::prelude::*;
///
/// let solver = RADAU::builder().max_steps(500).max_step(0.5).build();
/// assert_eq!(solver, RADAU { max_steps: 500, max_step: Some(0.5), ..RADAU::default() });
///
/// // The defaults are ivp's.
/// let RADAU { max_steps, uround, safety_factor, scale_min, scale_max, newton_maxiter, .. } = RADAU::default();
/// assert_eq!((max_steps, uround, newton_maxiter), (100_000, 2.3e-16, 7));
/// assert_eq!((safety_factor, scale_min, scale_max), (0.9, 0.2, 8.0));
/// ```
#[derive(Clone, Debug, PartialEq)]
pub struct RADAU {
    /// The most attempts, 1 to 1,000,000.
    pub max_steps: usize,
    /// The rounding unit.
    pub uround: f64,
    /// The safety factor of the step control.
    pub safety_factor: f64,
    /// The least factor from step to step.
    pub scale_min: f64,
    /// The largest factor from step to step.
    pub scale_max: f64,
    /// The largest step; if absent the distance between the ends.
    pub max_step: Option<f64>,
    /// The least step; if absent 0.
    pub min_step: Option<f64>,
    /// The most Newton rounds, 1 to 16.
    pub newton_maxiter: usize,
    /// The tolerance of Newton's iteration; if absent it comes from rtol.
    pub newton_tol: Option<f64>,
    /// Whether the step control looks back.
    pub predictive: bool,
    /// How many variables have index 1; if absent all that the other two leave.
    pub nind1: Option<usize>,
    /// How many have index 2.
    pub nind2: Option<usize>,
    /// How many have index 3.
    pub nind3: Option<usize>,
    /// Whether the mass is the identity, or what [`mass`](crate::ivp::FirstOrderSystem::mass) writes.
    pub mass_storage: MatrixStorage,
    /// The first step, whose sign is corrected; if absent 1e-6.
    pub first_step: Option<f64>,
    /// Whether every report but the first has an interpolant.
    pub dense_output: bool,
    /// The rule, which ivp doesn't have.
    pub rule: Rule,
}

impl Default for RADAU {
    fn default() -> RADAU {
        let (numbers, floats) = c::default_settings();
        let float = |given: usize, at: usize| (numbers[given] != 0).then_some(floats[at]);
        let count = |given: usize, at: usize| (numbers[given] != 0).then_some(numbers[at] as usize);
        RADAU {
            max_steps: numbers[NUMBER_MAX_STEPS] as usize,
            uround: floats[FLOAT_UROUND],
            safety_factor: floats[FLOAT_SAFETY_FACTOR],
            scale_min: floats[FLOAT_SCALE_MIN],
            scale_max: floats[FLOAT_SCALE_MAX],
            max_step: float(NUMBER_MAX_STEP_GIVEN, FLOAT_MAX_STEP),
            min_step: float(NUMBER_MIN_STEP_GIVEN, FLOAT_MIN_STEP),
            newton_maxiter: numbers[NUMBER_NEWTON_MAXITER] as usize,
            newton_tol: float(NUMBER_NEWTON_TOL_GIVEN, FLOAT_NEWTON_TOL),
            predictive: numbers[NUMBER_PREDICTIVE] != 0,
            nind1: count(NUMBER_NIND1_GIVEN, NUMBER_NIND1),
            nind2: count(NUMBER_NIND2_GIVEN, NUMBER_NIND2),
            nind3: count(NUMBER_NIND3_GIVEN, NUMBER_NIND3),
            mass_storage: [MatrixStorage::Identity, MatrixStorage::Full][usize::from(numbers[NUMBER_MASS] != 0)],
            first_step: float(NUMBER_FIRST_STEP_GIVEN, FLOAT_FIRST_STEP),
            dense_output: numbers[NUMBER_DENSE_OUTPUT] != 0,
            rule: [Rule::Rust, Rule::Book][usize::from(numbers[NUMBER_RULE] != 0)],
        }
    }
}

impl RADAU {
    /// Settings to be chosen one by one, the others by default.
    pub fn builder() -> RADAUBuilder {
        RADAUBuilder(RADAU::default())
    }

    /// The amounts at xi from the coefficients `cont` of the step from xold by h: see
    /// [`StepInterpolant::interpolate`](crate::dense::StepInterpolant::interpolate).
    ///
    /// ```
    /// use elchepur::methods::RADAU;
    ///
    /// let mut y = [7.0];
    /// RADAU::interpolate(1.0, &mut y, &[1.0, 2.0, 0.0, 0.0], 0.0, 2.0);
    /// assert_eq!(y, [0.0]);
    /// ```
    ///
    /// # Panics
    /// Where `yi` is shorter than a quarter of `cont`, as in ivp.
    pub fn interpolate(xi: f64, yi: &mut [f64], cont: &[f64], xold: f64, h: f64) {
        dense::interpolate(xi, yi, cont, xold, h);
    }

    /// The settings as the archive takes them.
    pub(crate) fn words(&self) -> ([u64; NUMBERS], [f64; FLOATS]) {
        let (mut numbers, mut floats) = c::default_settings();
        numbers[NUMBER_MAX_STEPS] = self.max_steps as u64;
        numbers[NUMBER_NEWTON_MAXITER] = self.newton_maxiter as u64;
        numbers[NUMBER_PREDICTIVE] = u64::from(self.predictive);
        numbers[NUMBER_DENSE_OUTPUT] = u64::from(self.dense_output);
        numbers[NUMBER_MASS] = u64::from(self.mass_storage == MatrixStorage::Full);
        numbers[NUMBER_RULE] = u64::from(self.rule == Rule::Book);
        floats[FLOAT_UROUND] = self.uround;
        floats[FLOAT_SAFETY_FACTOR] = self.safety_factor;
        floats[FLOAT_SCALE_MIN] = self.scale_min;
        floats[FLOAT_SCALE_MAX] = self.scale_max;
        for (given, at, value) in [
            (NUMBER_MAX_STEP_GIVEN, FLOAT_MAX_STEP, self.max_step),
            (NUMBER_MIN_STEP_GIVEN, FLOAT_MIN_STEP, self.min_step),
            (NUMBER_NEWTON_TOL_GIVEN, FLOAT_NEWTON_TOL, self.newton_tol),
            (NUMBER_FIRST_STEP_GIVEN, FLOAT_FIRST_STEP, self.first_step),
        ] {
            numbers[given] = u64::from(value.is_some());
            floats[at] = value.unwrap_or(0.0);
        }
        for (given, at, value) in [
            (NUMBER_NIND1_GIVEN, NUMBER_NIND1, self.nind1),
            (NUMBER_NIND2_GIVEN, NUMBER_NIND2, self.nind2),
            (NUMBER_NIND3_GIVEN, NUMBER_NIND3, self.nind3),
        ] {
            numbers[given] = u64::from(value.is_some());
            numbers[at] = value.unwrap_or(0) as u64;
        }
        (numbers, floats)
    }
}

/// Settings that are being chosen: [`RADAU::builder`].
#[derive(Clone, Debug)]
#[must_use = "`build` makes the solver of it"]
pub struct RADAUBuilder(RADAU);

impl RADAUBuilder {
    /// The solver with these settings.
    #[must_use]
    pub fn build(self) -> RADAU {
        self.0
    }
}

macro_rules! choices {
    ($($name:ident: $kind:ty),*) => {
        impl RADAUBuilder {
            $(
                #[doc = concat!("See [`RADAU::", stringify!($name), "`].")]
                pub fn $name(mut self, value: $kind) -> RADAUBuilder {
                    self.0.$name = value;
                    self
                }
            )*
        }
    };
}

macro_rules! optional_choices {
    ($($name:ident, $maybe:ident: $kind:ty),*) => {
        impl RADAUBuilder {
            $(
                #[doc = concat!("See [`RADAU::", stringify!($name), "`].")]
                pub fn $name(self, value: $kind) -> RADAUBuilder {
                    self.$maybe(Some(value))
                }

                #[doc = concat!("See [`RADAU::", stringify!($name), "`].")]
                pub fn $maybe(mut self, value: Option<$kind>) -> RADAUBuilder {
                    self.0.$name = value;
                    self
                }
            )*
        }
    };
}

choices! {
    max_steps: usize, uround: f64, safety_factor: f64, scale_min: f64, scale_max: f64, newton_maxiter: usize,
    predictive: bool, mass_storage: MatrixStorage, dense_output: bool, rule: Rule
}

optional_choices! {
    max_step, maybe_max_step: f64, min_step, maybe_min_step: f64, newton_tol, maybe_newton_tol: f64,
    first_step, maybe_first_step: f64, nind1, maybe_nind1: usize, nind2, maybe_nind2: usize, nind3, maybe_nind3: usize
}
